"""The closure's run in f64, step by step as rules 4.7 to 4.9 have it: in which order values are forced, and what each bound counts as fixed.

The calls say neither for an inexact field; what is worked out here is held to the values that the closure's call leaves.
"""
FREE = 2


class Run:
    """The run from the start values: the values at its end, the order in which they were forced, and each row's list and bounds."""

    def __init__(self, plan):
        self.beside, self.values = plan.beside(), list(plan.start())
        self.listed = [{j for j, _ in terms if self.values[j] != FREE} for terms in self.beside]
        self.rows = [self.row(i, c) for i, c in enumerate(plan.linear)]
        self.order = []
        for i in range(len(self.rows)):
            self.judge(i)
        for i in self.order:
            self.serve(i)

    def row(self, i, c):
        """The two bounds of a row, its terms added in their order."""
        lower = upper = c
        for j, q in self.beside[i]:
            half = 0.5 * q
            if self.values[j] != FREE:
                lower, upper = lower + half * self.values[j], upper + half * self.values[j]
            else:
                lower, upper = (lower + half if half <= 0 else lower), (upper + half if half >= 0 else upper)
        return lower, upper

    def judge(self, i):
        """Forces a free variable whose bound is strict."""
        lower, upper = self.rows[i]
        if self.values[i] == FREE and (lower > 0 or upper < 0):
            self.values[i] = 0 if lower > 0 else 1
            self.order.append(i)

    def serve(self, i):
        """Tells the neighbours of a forced variable, entry by entry."""
        value = self.values[i]
        for t, q in self.beside[i]:
            half = 0.5 * q
            if self.values[t] == FREE:
                lower, upper = self.rows[t]
                lower, upper = (lower - half if half <= 0 else lower), (upper - half if half >= 0 else upper)
                self.rows[t] = lower + half * value, upper + half * value
                self.listed[t].add(i)
                self.judge(t)

    def bound(self, i):
        """The bound by which a variable was forced, as the run rounded it."""
        return self.rows[i][self.values[i]]
