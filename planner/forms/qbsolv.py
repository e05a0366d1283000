"""qbsolv's and D-Wave's `.qubo`: least sum of w over lines `i j w`, i < j, and `i i w`; so c = w on the diagonal and q = 2w beside it."""
from ..faults import Fault
from ..numbers import weight, whole
from .notes import notes_of, take_note


def take_problem(builder, words):
    """The line `p qubo 0 GROUPS DIAGONAL BESIDE`: the numbers of groups, of weights and of pairs."""
    if len(words) != 6 or words[:2] != ["p", "qubo"] or words[2] not in ("0", "unconstrained"):
        raise Fault("the first line that is no comment is `p qubo 0 GROUPS DIAGONAL BESIDE`")
    builder.numbered(whole(words[3]))
    return whole(words[4]), whole(words[5])


def take_line(builder, words):
    """A weight on the diagonal, or a pair."""
    if len(words) != 3:
        raise Fault("no line `i j w`")
    row, column, w = whole(words[0]), whole(words[1]), weight(words[2])
    if row == column:
        return builder.weigh(row, w)
    if row > column and not builder.keeps_repeats:
        raise Fault("the first number of a pair is the lower one")
    doubled = builder.rounding.times(2, w, f"the pair's weight, twice {words[2]},")
    builder.pair(builder.place(row), builder.place(column), doubled, words[:2])


def read(lines, builder):
    """Takes the problem's line, then comments and the others; the numbers of lines must be those told."""
    rest = [(at, line.split()) for at, line in enumerate(lines, 1) if line.strip()]
    first = next((k for k, (_, words) in enumerate(rest) if words[0] != "c"), None)
    if first is None:
        return builder.fault("there is no line `p qubo 0 GROUPS DIAGONAL BESIDE`")
    told = []
    builder.each(rest[first:first + 1], lambda words: told.append(take_problem(builder, words)))
    if not told:
        return
    comments = [(at, lines[at - 1].strip()[1:]) for at, words in rest if words[0] == "c"]
    builder.each(comments, lambda comment: take_note(builder, comment))
    entries = [(at, words) for at, words in rest[first + 1:] if words[0] != "c"]
    builder.each(entries, lambda words: take_line(builder, words))
    count_lines(builder, told[0], entries, rest[first][0])


def count_lines(builder, told, entries, line):
    """Holds the numbers of lines to those that the problem's line tells."""
    on = sum(words[:1] == words[1:2] for _, words in entries)
    if told != (on, len(entries) - on):
        builder.line = line
        builder.fault(f"told are {told[0]} weights and {told[1]} pairs, and {on} and {len(entries) - on} stand below")


def write(plan, rounding):
    """A line for every group, and one for every pair, both of whose orders are added up."""
    merged = {}
    for row, column, q in plan.entries:
        merged.setdefault((min(row, column), max(row, column)), []).append(q)
    pairs = []
    for (low, high), weights in sorted(merged.items()):
        what = f"the weight of the pair {plan.names[low]} and {plan.names[high]}"
        pairs.append(f"{low} {high} {rounding.times(0.5, rounding.total(weights, what), what)!r}")
    lines = notes_of(plan, "c") + [f"p qubo 0 {len(plan.names)} {len(plan.names)} {len(pairs)}"]
    lines += [f"{i} {i} {c!r}" for i, c in enumerate(plan.linear)] + pairs
    return "".join(line + "\n" for line in lines)
