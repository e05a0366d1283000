"""rudy's and Gset's graphs, read alone: `VERTICES EDGES`, then lines `i j w` from 1; the greatest cut is the least f.

The cut of x is the sum of w (x + y - 2xy) over the edges, and f is its negative: each edge adds -w to both ends' c, and q = 4w.
"""
from fractions import Fraction

from ..faults import Fault
from ..numbers import weight, whole
from .spins import Sums


def take_first(builder, words):
    """The numbers of vertices and of edges."""
    if len(words) != 2:
        raise Fault("the first line is the number of vertices and that of edges")
    builder.numbered(whole(words[0]))
    return whole(words[1])


def take_edge(builder, sums, words):
    """One edge, whose ends are counted from 1."""
    if len(words) != 3:
        raise Fault("no line `i j w`")
    row, column, w = whole(words[0]), whole(words[1]), weight(words[2])
    if not (1 <= row <= len(builder.names) and 1 <= column <= len(builder.names)):
        raise Fault(f"the vertices are numbered from 1 to {len(builder.names)}")
    if (column - 1, row - 1) in builder.places:
        raise Fault("this edge stands above; add the two weights")
    if row == column:
        raise Fault("an edge of a vertex with itself, which no cut cuts")
    sums.pair(row - 1, column - 1, 4, w)
    for end in (row - 1, column - 1):
        sums.linear[end] -= Fraction(w)


def read(lines, builder):
    """Takes the first line and then, where it is good, the edges, of which there must be as many as told."""
    numbered = [(at, line.split("#", 1)[0].split()) for at, line in enumerate(lines, 1)]
    numbered = [(at, words) for at, words in numbered if words]
    if not numbered:
        return builder.fault("there is no line with the numbers of vertices and edges")
    told = []
    builder.each(numbered[:1], lambda words: told.append((take_first(builder, words), Sums(builder))))
    if not told:
        return
    count, sums = told[0]
    builder.renamed = {i: str(i + 1) for i in range(len(builder.names))}
    builder.each(numbered[1:], lambda words: take_edge(builder, sums, words))
    sums.finish()
    if count != len(numbered) - 1:
        builder.line = numbered[0][0]
        builder.fault(f"told are {count} edges, and {len(numbered) - 1} stand below")
