"""Triples (i, j, w) of the forms whose terms have no half: of values 0 and 1, and of spins -1 and 1."""
from fractions import Fraction

from ..faults import Fault


def fill_binary(builder, row, column, w):
    """w x on the diagonal is the linear weight w, w x y beside it the entry 2w."""
    if row == column:
        return builder.weigh(row, w)
    doubled = builder.rounding.times(2, w, f"the pair's weight, twice {w!r},")
    builder.pair(builder.place(row), builder.place(column), doubled, (str(row), str(column)))


class Sums:
    """Linear weights and a constant that are sums over the terms of a file: added exactly, and put when all are there."""

    def __init__(self, builder):
        if builder.keeps_repeats:
            raise Fault("its weights are sums over the pairs, so that there is no entry list to mend")
        self.builder, self.linear = builder, [Fraction(0)] * len(builder.names)

    def pair(self, row, column, factor, w):
        """An entry that is a power of two times the weight of a term."""
        weight = self.builder.rounding.times(factor, w, f"the pair's weight, {factor} times {w!r},")
        self.builder.pair(self.builder.place(row), self.builder.place(column), weight, (str(row), str(column)))

    def finish(self):
        """Puts the linear weights, each of which must be an f64."""
        self.builder.each(((None, i) for i in range(len(self.linear))), self.put)

    def put(self, i):
        """One linear weight."""
        self.builder.linear[i] = self.builder.rounding.of(self.linear[i], f"the weight of group {self.builder.names[i]}")


class Spins(Sums):
    """With s = 2x - 1, h s is 2h x - h, and w s t is 4w x y - 2w x - 2w y + w, of which the first term is the entry 8w."""

    def take(self, row, column, w):
        """One triple."""
        if row == column:
            self.builder.weigh(row, 0.0)
            self.linear[row] += 2 * Fraction(w)
            self.builder.constant -= Fraction(w)
            return
        self.pair(row, column, 8, w)
        self.linear[row] -= 2 * Fraction(w)
        self.linear[column] -= 2 * Fraction(w)
        self.builder.constant += Fraction(w)
