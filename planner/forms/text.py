"""Our text: f is the sum of the groups' weights in the second window, half the pairs' weights where both are, and the constant.

Lines `group NAME WEIGHT`, `pair NAME NAME WEIGHT`, `given NAME VALUE` and `constant WEIGHT`; what follows a # is passed over.
"""
from ..faults import Fault
from ..names import quoted, words_of
from ..numbers import exactly, fraction, weight


def take_line(builder, line):
    """One line into the plan."""
    words = words_of(line)
    kind, rest = words[:1], words[1:]
    if kind == ["group"] and len(rest) == 2:
        builder.group(rest[0], weight(rest[1]))
    elif kind == ["pair"] and len(rest) == 3:
        builder.pair(builder.find(rest[0]), builder.find(rest[1]), weight(rest[2]), rest[:2])
    elif kind == ["given"] and len(rest) == 2:
        take_given(builder, *rest)
    elif kind == ["constant"] and len(rest) == 1:
        builder.constant += fraction(rest[0])
    elif words:
        raise Fault("none of `group NAME WEIGHT`, `pair NAME NAME WEIGHT`, `given NAME VALUE` and `constant WEIGHT`")


def take_given(builder, name, value):
    """A start value, whose group must be there."""
    if name not in builder.numbers:
        raise Fault(f"there is no group `{name}` above")
    if value not in ("0", "1"):
        raise Fault(f"a given value is 0 or 1, and not `{value}`")
    builder.give(builder.numbers[name], int(value))


def read(lines, builder):
    """Takes every line."""
    builder.each(enumerate(lines, 1), lambda line: take_line(builder, line))


def write(plan, rounding):
    """The plan's text, with every bit of its weights."""
    names = [quoted(name) for name in plan.names]
    lines = [f"group {name} {c!r}" for name, c in zip(names, plan.linear)]
    lines += [f"pair {names[row]} {names[column]} {q!r}" for row, column, q in plan.entries]
    lines += [f"given {names[i]} {value}" for i, value in sorted(plan.given.items())]
    lines += [f"constant {exactly(plan.constant)}"] * (plan.constant != 0)
    return "".join(line + "\n" for line in lines)
