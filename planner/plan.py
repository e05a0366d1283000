"""A plan: groups with their weights, pairs, given values and a constant; and what gathers one, line by line, with every fault."""
from fractions import Fraction

from .faults import Fault, Refused

GROUPS, PAIRS = 4096, 32768
NOWHERE = 65535


class Plan:
    """f(x) = the constant + the sum of c x + half the sum of q x x, over entries (row, column, q) that rise by column, then row."""

    def __init__(self, names, linear, entries, given, constant=Fraction(0)):
        self.names, self.linear, self.given, self.constant = list(names), list(linear), dict(given), Fraction(constant)
        self.entries = sorted(entries, key=lambda entry: (entry[1], entry[0]))

    def start(self):
        """The start values as bytes: 0, 1, or 2 for free."""
        return bytes(self.given.get(i, 2) for i in range(len(self.names)))

    def f(self, x):
        """The objective at x, with nothing rounded."""
        total = self.constant + sum(Fraction(c) for c, value in zip(self.linear, x) if value)
        return total + Fraction(1, 2) * sum(Fraction(q) for row, column, q in self.entries if x[row] and x[column])

    def beside(self):
        """For each group its entries in their order, each as the other group and the weight."""
        lists = [[] for _ in self.names]
        for row, column, q in self.entries:
            lists[row].append((column, q))
            lists[column].append((row, q))
        return lists

    def is_numbered(self):
        """Whether the names are the numbers of the groups, so that none has to be told."""
        return self.names == [str(i) for i in range(len(self.names))]


class Builder:
    """Gathers a plan; where repeats are kept, its pairs stay as they stand in the file, also those of groups that are not there."""

    def __init__(self, rounding, keeps_repeats=False):
        self.rounding, self.keeps_repeats = rounding, keeps_repeats
        self.names, self.numbers, self.linear, self.pairs, self.given, self.renamed = [], {}, [], [], {}, {}
        self.constant, self.faults, self.line, self.places, self.full = Fraction(0), [], None, set(), set()

    def fault(self, words):
        """Notes a fault of the line that is being read."""
        self.faults.append((self.line, str(words)))

    def each(self, lines, take):
        """Takes each item of a numbered sequence, and notes the faults of all."""
        for self.line, item in lines:
            try:
                take(item)
            except Fault as fault:
                self.fault(fault)

    def once(self, words):
        """Notes a fault the first time alone."""
        if words not in self.full:
            self.full.add(words)
            self.fault(words)

    def group(self, name, weight):
        """The next group."""
        if not name:
            raise Fault("a group has a name of no signs")
        if name in self.numbers:
            raise Fault(f"there is a group `{name}` already")
        if len(self.names) == GROUPS:
            return self.once(f"more than {GROUPS:,} groups")
        self.numbers[name] = len(self.names)
        self.names.append(name)
        self.linear.append(weight)

    def numbered(self, count):
        """As many groups as are told, named by their numbers, without weights yet."""
        if count > GROUPS:
            raise Fault(f"more than {GROUPS:,} groups")
        for i in range(count):
            self.group(str(i), None)

    def final_names(self):
        """The names, with those in place that comments give to numbered groups; each must be there once."""
        names, seen = [self.renamed.get(i, name) for i, name in enumerate(self.names)], set()
        for name in names:
            if name in seen:
                self.line = None
                self.fault(f"two groups have the name `{name}`")
            seen.add(name)
        return names

    def find(self, name):
        """The number of a named group; of one that is not there 65,535, where repeats are kept."""
        if name not in self.numbers and not self.keeps_repeats:
            raise Fault(f"there is no group `{name}` above")
        return self.numbers.get(name, NOWHERE)

    def place(self, number):
        """The same of a group by its number."""
        if number >= len(self.names) and not self.keeps_repeats:
            raise Fault(f"there is no group {number}: they are numbered below {len(self.names)}")
        return number if number < len(self.names) else NOWHERE

    def weigh(self, number, weight):
        """The linear weight of a numbered group."""
        if number >= len(self.names):
            raise Fault(f"there is no group {number}: they are numbered below {len(self.names)}")
        if self.linear[number] is not None:
            raise Fault(f"group {number} has a weight above; add the two weights")
        self.linear[number] = weight

    def pair(self, row, column, weight, words):
        """An entry, with the words that name its two groups."""
        if row == column and row != NOWHERE:
            raise Fault("a pair of one group with itself, which the presolver refuses; add half its weight to the group's own")
        if not self.keeps_repeats and (row, column) in self.places:
            raise Fault("this pair stands above, in this order; add the two weights, or let `mend` do it")
        if len(self.pairs) == PAIRS:
            return self.once(f"more than {PAIRS:,} pairs")
        self.places.add((row, column))
        self.pairs.append((row, column, weight, self.line, words))

    def give(self, number, value):
        """A start value."""
        if number in self.given:
            raise Fault("this group has a value already")
        self.given[number] = value

    def plan(self, file):
        """The plan, or a refusal with all faults."""
        names = self.final_names()
        if self.faults:
            raise Refused(*(tell(file, line, words) for line, words in self.faults))
        linear = [0.0 if c is None else c for c in self.linear]
        return Plan(names, linear, [entry[:3] for entry in self.pairs], self.given, self.constant)


def tell(file, line, words):
    """A fault with where it stands: a line's number, or the name of a part."""
    if line is None:
        return f"{file}: {words}"
    return f"{file}:{line}: {words}" if isinstance(line, int) else f"{file}: {line}: {words}"
