"""COO triples, as dimod writes them: lines `i j w`; least sum of w, so c = w on the diagonal and q = 2w beside it.

A comment `# vartype=SPIN` says that the values are -1 and 1; then s = 2x - 1 (spins.py).
"""
import re

from ..faults import Fault
from ..numbers import weight, whole
from .notes import notes_of, take_note
from .spins import Spins, fill_binary

VARTYPE = re.compile(r"\s*vartype\s*=\s*(\S+)\s*")


def take_triple(words):
    """The two numbers and the weight of a line."""
    if len(words) != 3:
        raise Fault("no line `i j w`")
    return whole(words[0]), whole(words[1]), weight(words[2])


def is_spin(builder, lines):
    """Whether a comment says that the values are spins."""
    for builder.line, line in enumerate(lines, 1):
        found = VARTYPE.fullmatch(line.strip()[1:]) if line.strip().startswith("#") else None
        if found and found[1] not in ("BINARY", "SPIN"):
            builder.fault(f"the vartype is BINARY or SPIN, and not {found[1]}")
        elif found:
            return found[1] == "SPIN"
    return False


def take_spins(builder, items):
    """All triples as terms of spins."""
    spins = Spins(builder)
    builder.each(items, lambda item: spins.take(*item))
    spins.finish()


def read(lines, builder):
    """Takes the triples, then the groups up to the greatest number, then what the comments of this tool tell."""
    spin, triples = is_spin(builder, lines), []
    numbered = [(at, line.split("#", 1)[0].split()) for at, line in enumerate(lines, 1)]
    builder.each([item for item in numbered if item[1]], lambda words: triples.append((builder.line, *take_triple(words))))
    if builder.faults:
        return
    builder.line = None
    try:
        builder.numbered(1 + max((max(row, column) for _, row, column, _ in triples), default=-1))
    except Fault as fault:
        return builder.fault(fault)
    items = [(at, (row, column, w)) for at, row, column, w in triples]
    if spin:
        builder.each([(None, items)], lambda items: take_spins(builder, items))
    else:
        builder.each(items, lambda item: fill_binary(builder, *item))
    comments = [(at, line.strip()[1:]) for at, line in enumerate(lines, 1) if line.strip().startswith("#")]
    builder.each(comments, lambda comment: take_note(builder, comment))


def write(plan, rounding):
    """A line for every group and for every entry, in its order."""
    lines = ["# vartype=BINARY"] + notes_of(plan, "#") + [f"{i} {i} {c!r}" for i, c in enumerate(plan.linear)]
    for row, column, q in plan.entries:
        half = rounding.times(0.5, q, f"half the weight of the pair {plan.names[row]} and {plan.names[column]}")
        lines.append(f"{row} {column} {half!r}")
    return "".join(line + "\n" for line in lines)
