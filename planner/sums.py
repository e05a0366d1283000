"""Why a group is where it is: the sum of its own weight, what the listed groups add, and the worst that all others can add."""
from fractions import Fraction

from . import grounds
from .faults import Refused, Unusable
from .names import quoted
from .run import FREE, Run

MANY = 64


class Reason:
    """A group's value, its ground, and the sum that makes its bound; `rounded` is the run's own bound on an inexact field."""

    def __init__(self, plan, terms, values, i, ground, listed, rounded=None):
        self.group, self.value, self.ground, self.listed, self.rounded = i, values[i], ground, listed, rounded
        self.own, halves, worst = Fraction(plan.linear[i]), {}, max if self.value else min
        for j, q in terms:
            halves.setdefault(j, []).append(Fraction(q) / 2)
        self.adds = {j: sum(halves[j]) * values[j] for j in listed}
        others = {j: sum(worst(half, 0) for half in halves[j]) for j in sorted(halves) if j not in self.adds}
        self.others = {j: adds for j, adds in others.items() if adds}
        self.bound = self.own + sum(self.adds.values()) + sum(self.others.values())

    def is_strict(self):
        """Whether the exact sum is on the side of the value."""
        return self.bound < 0 if self.value else self.bound > 0


class Reasons:
    """The reasons of a plan's closure: by the call `reason` on an exact field, by the run itself on an inexact one."""

    def __init__(self, plan, values, is_exact):
        self.plan, self.values, self.is_exact, self.beside = plan, list(values), is_exact, plan.beside()
        self.run = Run(plan)
        if self.run.values != self.values:
            raise Unusable("the closure's call leaves other values than its run, worked out step by step")
        self.known = {i: Reason(plan, [], self.values, i, "given", []) for i in plan.given}

    def chain(self, groups):
        """These groups, then all that their reasons rest on: those forced last come first, given ones last."""
        for i in groups:
            if self.values[i] == FREE:
                raise Refused(f"the group {quoted(self.plan.names[i])} is not forced: it is free at the end of the closure")
        first = set(groups)
        wanted = set(first)
        for i in reversed(self.run.order):
            if i in wanted:
                wanted |= self.run.listed[i]
        rest = [i for i in [*reversed(self.run.order), *sorted(self.plan.given)] if i in wanted and i not in first]
        return list(groups) + rest

    def find(self, groups):
        """The reasons of these groups, in their order."""
        missing = [i for i in groups if i not in self.known]
        self.known.update(self.asked(missing) if self.is_exact and missing else ((i, self.rounded(i)) for i in missing))
        return [self.known[i] for i in groups]

    def asked(self, groups):
        """By the call, whose list is held to the run's, and whose bound to the sum; many are asked of each group's own row."""
        if len(groups) > MANY:
            answers = grounds.of_rows(self.plan, self.values, groups, self.run.listed)
        else:
            answers = grounds.of_field(self.plan, groups)
        for i, (ground, listed, bound) in zip(groups, answers):
            reason = self.reason(i, ground, listed)
            if set(listed) != self.run.listed[i] or reason.bound != bound or not reason.is_strict():
                raise Unusable(f"the sum of the group {quoted(self.plan.names[i])} is not the bound that the call gives")
            yield i, reason

    def rounded(self, i):
        """By the run, of an inexact field."""
        return self.reason(i, "upper" if self.values[i] else "lower", sorted(self.run.listed[i]), self.run.bound(i))

    def reason(self, i, ground, listed, rounded=None):
        """A reason with its sum."""
        return Reason(self.plan, self.beside[i], self.values, i, ground, listed, rounded)
