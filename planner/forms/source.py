"""The source's `.qubo`: the number of groups, then lines `i j q` and `i c`; f is ours, term by term, without the constant."""
from ..faults import Fault
from ..numbers import weight, whole


def take_first(builder, words):
    """The number of groups."""
    if len(words) != 1:
        raise Fault("the first line is the number of groups")
    builder.numbered(whole(words[0]))


def take_line(builder, words):
    """A pair's line or a weight's."""
    if len(words) == 3:
        row, column = whole(words[0]), whole(words[1])
        builder.pair(builder.place(row), builder.place(column), weight(words[2]), words[:2])
    elif len(words) == 2:
        builder.weigh(whole(words[0]), weight(words[1]))
    else:
        raise Fault("neither `i j q` nor `i c`")


def read(lines, builder):
    """Takes the first line and then, where it is good, the others."""
    numbered = [(at, line.split("#", 1)[0].split()) for at, line in enumerate(lines, 1)]
    numbered = [(at, words) for at, words in numbered if words]
    if not numbered:
        return builder.fault("there is no line with the number of groups")
    builder.each(numbered[:1], lambda words: take_first(builder, words))
    if not builder.faults:
        builder.each(numbered[1:], lambda words: take_line(builder, words))


def write(plan, rounding):
    """The number, the pairs and the weights that are not 0, as the source writes them; a -0.0 stays."""
    lines = [str(len(plan.names))]
    lines += [f"{row} {column} {q!r}" for row, column, q in plan.entries]
    lines += [f"{i} {c!r}" for i, c in enumerate(plan.linear) if repr(c) != "0.0"]
    return "".join(line + "\n" for line in lines)
