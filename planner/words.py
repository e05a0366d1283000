"""Answers in words: windows, constraints, reasons with their sums, counts."""
from .names import quoted
from .numbers import exponent

WINDOWS = "first", "second"

# by the set of forbidden pairs of values, 00, 01, 10, 11 from the lowest bit; {0} is the lower group and {1} the higher
CONSTRAINTS = {
    1: "{0} and {1} not both in the first window",
    2: "{0} in the second window wherever {1} is",
    3: "{0} in the second window",
    4: "{1} in the second window wherever {0} is",
    5: "{1} in the second window",
    6: "{0} and {1} in the same window",
    7: "{0} and {1} both in the second window",
    8: "{0} and {1} not both in the second window",
    9: "{0} and {1} in different windows",
    10: "{1} in the first window",
    11: "{0} in the second window and {1} in the first",
    12: "{0} in the first window",
    13: "{0} in the first window and {1} in the second",
    14: "{0} and {1} both in the first window",
    15: "{0} and {1} in no windows at all",
}


def constraint(names, record):
    """What a constraint says."""
    lower, higher, forbidden = record
    return CONSTRAINTS[forbidden].format(quoted(names[lower]), quoted(names[higher]))


def forbidden_pairs(forbidden):
    """The forbidden pairs of values as text."""
    return [pair for bit, pair in enumerate(("00", "01", "10", "11")) if forbidden >> bit & 1]


def counted(count, noun):
    """A number with its noun."""
    return f"{count:,} {noun}{'' if count == 1 else 's'}"


def signed(text):
    """A number's text with its sign in front, but for 0."""
    return text if text == "0" or text.startswith("-") else "+" + text


def grade_line(result):
    """The grade with the unit, or that sums are rounded."""
    if result["grade"] == "exact":
        return f"grade exact, in units of 2^{exponent(result['unit'])}: no sum is rounded"
    return "grade inexact: sums are rounded, and what is forced is what the rounded sums force"


def listing(title, items):
    """A title with its number, and an indented line each."""
    return [f"{title}: {len(items):,}"] + [f"  {item}" for item in items]


def presolve(result):
    """The lines of `presolve`."""
    size = f"{counted(result['groups'], 'group')}, {counted(result['pairs'], 'pair')}"
    lines = [f"{quoted(result['plan'])}: {size}; {result['method']}", grade_line(result)]
    lines += [f"what {result['method']} forces holds in one best plan, and need not in every one"] * (result["method"] != "closure")
    lines += listing("given", window_lines(result["given"]))
    lines += listing("forced", [f"{quoted(item['group'])}: {WINDOWS[item['value']]} window{by(item)}" for item in result["forced"]])
    if result["flat"] is not None:
        lines += listing("flat, either window at no cost", [quoted(name) for name in result["flat"]])
    elif result["counts"]["flat"] is not None:
        lines.append(f"flat by rounded sums, among the undecided: {result['counts']['flat']:,}")
    lines += listing("undecided", [quoted(name) for name in result["undecided"]])
    if result["constraints"] is not None:
        lines += listing("constraints", [item["words"] for item in result["constraints"]])
    if result["anchors"] is not None:
        lines += listing("anchors, each free to be set to either window", [quoted(name) for name in result["anchors"]])
    return lines + [counts_line(result)]


def by(item):
    """That probing forced a group, where it did."""
    return " (by probing)" if item["by"] == "probe" else ""


def counts_line(result):
    """The last line: how many of which."""
    counts = result["counts"]
    parts = [f"{counts['given']:,} given", f"{counts['forced']:,} forced ({counts['first']:,} first, {counts['second']:,} second)"]
    if result["flat"] is not None:
        parts.append(f"{counts['flat']:,} flat")
    parts.append(f"{counts['undecided']:,} undecided")
    if result["constraints"] is not None:
        parts.append(counted(counts["constraints"], "constraint"))
    if counts["pairs_examined"] is not None:
        parts.append(counted(counts["pairs_examined"], "pair") + " examined")
    return ", ".join(parts)


def why(result):
    """The lines of `why`."""
    lines = [grade_line(result)]
    for reason in result["reasons"]:
        lines += ["", *why_one(reason)]
    return lines


def why_one(reason):
    """A sentence, and the sum to be added up."""
    name, window = quoted(reason["group"]), WINDOWS[reason["value"]]
    if reason["ground"] == "given":
        return [f"{name} is given in the {window} window"]
    return [f"{name} goes into the {window} window"] + ["  " + line for line in sum_lines(reason, quoted, quoted)]


def sum_lines(reason, link, plain):
    """The sum, a line each: its own weight, the listed groups, all others, the bound and, where sums are rounded, the rounded one."""
    rows = [(reason["own"], "its own weight")]
    rows += [(item["adds"], f"with {link(item['group'])} in the {WINDOWS[item['value']]} window") for item in reason["listed"]]
    each = ", ".join(f"{plain(item['group'])} {signed(item['adds'])}" for item in reason["others"])
    rows.append((reason["others_add"], "the worst that all others can add" + (f" ({each})" if each else "")))
    rows.append((reason["bound"], verdict(reason)))
    if reason["rounded"] is not None:
        rows.append((reason["rounded"], "as the presolver rounds it"))
    width = max(len(signed(number)) for number, _ in rows)
    return [f"{signed(number):>{width}}  {text}" for number, text in rows]


def verdict(reason):
    """What the bound says."""
    if not reason["strict"]:
        return "the exact sum, which does not force it"
    return "below 0: so much at least the second window saves" if reason["value"] else "above 0: so much at least the second window costs"


def window_lines(items):
    """Groups with their windows."""
    return [f"{quoted(item['group'])}: {WINDOWS[item['value']]} window" for item in items]


def written(result):
    """Which file was written, in which form."""
    return f"{quoted(result['output'])}: written as {result['form']}"


def constant_line(result):
    """The constant, and whether the file holds it."""
    held = "; this form has no place for it: f is the file's and this" if result["form"] == "source" and result["constant"] != "0" else ""
    return f"constant {result['constant']}{held}"


def reduce(result):
    """The lines of `reduce`."""
    size = f"{counted(result['groups'], 'group')} and {counted(result['pairs'], 'pair')} left"
    sums = "f is the same at every x" if result["grade"] == "exact" else "its sums are rounded"
    lines = [f"{written(result)}: {size}; grade of the plan {result['grade']}: {sums}", constant_line(result)]
    lines += listing("taken out", window_lines(result["fixed"]))
    return lines + listing("left, by number", [f"{item['number']} {quoted(item['group'])}" for item in result["map"]])


def convert(result):
    """The lines of `convert`."""
    return [f"{written(result)}: {counted(result['groups'], 'group')} and {counted(result['pairs'], 'pair')}", constant_line(result)]


def mend(result):
    """The lines of `mend`: each change by its line, then how many."""
    lines = [f"{at_line(item['line'])}: pair {quoted(item['pair'][0])} {quoted(item['pair'][1])}: {changed(item)}" for item in result["changes"]]
    lines.append(f"{len(result['changes']):,} of {counted(result['pairs_before'], 'pair')} changed, {result['pairs']:,} left")
    return lines + [written(result)]


def at_line(line):
    """Where a pair stands: a line's number, or the name of a part."""
    return f"line {line}" if isinstance(line, int) else line


def changed(item):
    """What became of a pair."""
    if item["what"] == "dropped":
        return f"dropped, since there is no group {' and '.join(quoted(name) for name in dict.fromkeys(item['missing']))}"
    if item["what"] == "moved":
        return f"moved from place {item['from']} to place {item['to']}"
    return f"joined to {at_line(item['first'])}, which has {item['weight']!r} in all"


def allow(result):
    """The lines of `allow`."""
    if not result["allowed"]:
        group = quoted(result["contradiction"])
        return [f"no: {counted(result['constraints'], 'constraint')}, and no windows meet them all", f"{group} can be in neither window"]
    lines = [f"yes: some windows meet all of {counted(result['constraints'], 'constraint')}"]
    lines += listing("the first such windows, for the groups that the constraints name", window_lines(result["assignment"]))
    reach = [f"{quoted(item['group'])}: {item['first']} by the first, {item['second']} by the second" for item in result["reaches"]]
    return lines + listing("how many further windows each choice fixes", reach)


def tally(result):
    """The totals in words, and as the one line of rule 20.7."""
    totals, rate = result["totals"], result["rate"]
    per = f"{rate[0]}, remainder {rate[1]}" if rate else "none are"
    lines = [f"{counted(totals['read'], 'plan')} read, {totals['exact']} exact and {totals['inexact']} inexact; {totals['refused']} refused"]
    lines.append(f"groups: {totals['given']} given, {totals['zero']} forced into the first window, {totals['one']} into the second, {totals['free']} free")
    lines.append(f"forced per thousand of those not given: {per}")
    return lines + [" ".join(map(str, [*totals.values(), *(rate or ["-"])]))]
