"""The page of a plan: one file without anything from elsewhere, which works without its script and prints."""
from html import escape
from importlib import resources

from .names import quoted
from .numbers import shown
from .reasons import told
from .words import WINDOWS, counted, grade_line, sum_lines

MOST_CONSTRAINTS = 2000
MARKS = {"given": "■", "forced": "●", "flat": "◇", "undecided": "○"}
EXACT = [
    "Proved by machine, for every plan of this grade: each value forced by the closure is what whole numbers force, no more and no fewer, and every "
    "best plan has it; the bound of each reason is the whole-number bound with only the listed groups fixed; every best plan has the values that "
    "probing adds, and meets each constraint.",
    "Shown on this page: each sum was added anew, in fractions, and is the bound that the call gave; each listed group is given or has a reason of its "
    "own, and following them leads in no circle.",
]
INEXACT = [
    "The grade is inexact: the sums are rounded. The forced values are those that the rounded sums force, as in the source; nothing is proved of best "
    "plans. Each reason has the exact sum, and the bound as it was rounded.",
]
BELIEVED = (
    "Not proved: the reading of the plan's file, the names, the order of the columns and this page, which are Python; the lines in which the compiled "
    "program hands its answers over; the kit's compiler, reading and writing. docs/PROMISES.md names each theorem."
)


def part(name):
    """The style or the script, which stand in files of their own."""
    return resources.files(__package__).joinpath(name).read_text(encoding="utf-8")


def named(name):
    """A group's name as text of the page."""
    return escape(quoted(name))


def states(plan, found):
    """The state of each group, with its words, and its value, None where it has none."""
    flat, undecided = found.free()
    out = {i: ("flat", "flat", None) for i in flat}
    out.update((i, ("undecided", "undecided", None)) for i in undecided)
    out.update((i, ("forced", "forced by probing" if by == "probe" else "forced", value)) for i, (value, by) in found.forced().items())
    out.update((i, ("given", "given", value)) for i, value in plan.given.items())
    return out


def item(plan, i, state, words, has_reason, most):
    """One group: its state by mark, words and class, its name, its weight, and a bar as long as that is large."""
    bar = round(100 * (abs(plan.linear[i]) / most)) if most else 0
    name = f"<a href=#g{i}>{named(plan.names[i])}</a>" if has_reason else named(plan.names[i])
    return f"<li class={state} style=--w:{bar}%>{MARKS[state]} {words} <b>{name}</b> <i>{escape(shown(plan.linear[i]))}</i>"


def column(title, items, ident):
    """A titled list."""
    return [f"<section id={ident}><h2>{title} <small>{counted(len(items), 'group')}</small></h2><ul>", *items, "</ul></section>"]


def columns(plan, found, explained):
    """The two windows, and below them the groups that have none yet; each by falling size of the weight."""
    state, lists = states(plan, found), {0: [], 1: [], None: []}
    most = max((abs(c) for c in plan.linear), default=0)
    for i in sorted(state, key=lambda i: (-abs(plan.linear[i]), i)):
        kind, words, value = state[i]
        lists[value].append(item(plan, i, kind, words, i in explained, most))
    lines = [*column("First window", lists[0], "first"), *column("Second window", lists[1], "second")]
    return lines, column("In neither window yet", lists[None], "neither")


def section(plan, values, number, reason):
    """One reason: a sum to be added up, whose listed groups are links to their own."""
    state = "given" if reason.ground == "given" else "forced"
    head = f"<section class=why id=g{reason.group}><h3>{named(plan.names[reason.group])} <small>{state}, {WINDOWS[reason.value]} window</small></h3>"
    if state == "given":
        return head + "<p>The plan gives it.</p></section>"
    lines = sum_lines(told(plan, values, reason), lambda name: f"<a href=#g{number[name]}>{named(name)}</a>", named)
    return head + "<pre>" + "\n".join(lines) + "</pre></section>"


def constraints(result):
    """The constraints in words."""
    if result["constraints"] is None:
        return ["<section id=constraints><h2>Constraints</h2><p>None were looked for.</p></section>"]
    listed = [f"<li>{escape(entry['words'])}" for entry in result["constraints"][:MOST_CONSTRAINTS]]
    more = len(result["constraints"]) - len(listed)
    rest = [f"<p>{more:,} more are not shown here; <code>ombradiec presolve --json</code> has them.</p>"] * (more > 0)
    return [f"<section id=constraints><h2>Constraints <small>{len(result['constraints']):,}</small></h2><ul>", *listed, "</ul>", *rest, "</section>"]


def counts(result):
    """How many groups are in which state, which is also the key to the marks."""
    cells = []
    for state in MARKS:
        count = result["counts"][state]
        cells.append(f"<li class={state}>{MARKS[state]} {state} <b>{'not told' if count is None or result[state] is None else f'{count:,}'}</b>")
    return ["<ul id=counts>", *cells, "</ul>"]


def anchors(result):
    """The anchors, where they were looked for."""
    if result["anchors"] is None:
        return []
    items = [f"<li>{named(name)}" for name in result["anchors"]]
    return [f"<section id=anchors><h2>Anchors <small>{len(items):,}</small></h2><p>Each may be set to either window.</p><ul>", *items, "</ul></section>"]


def page(plan, found, result, reasons):
    """The whole page; reasons come with those forced last first, so that what a reason rests on stands below it."""
    title = escape(quoted(result["plan"]))
    windows, neither = columns(plan, found, {reason.group for reason in reasons})
    size = f"{counted(result['groups'], 'group')}, {counted(result['pairs'], 'pair')}"
    number = {name: i for i, name in enumerate(plan.names)}
    proved = EXACT if result["grade"] == "exact" else INEXACT
    lines = [
        f"<!doctype html><html lang=en><meta charset=utf-8><meta name=viewport content='width=device-width'><title>{title}</title>",
        f"<style>{part('page.css')}</style><body><header id=top><h1>{title}</h1><p>{size}; {escape(grade_line(result))}.</p>",
        *counts(result), "</header><main>", *windows, "<aside><h2>Why</h2><p class=hint>Choose a group to see why it is where it is.</p>",
        *(section(plan, found.values, number, reason) for reason in reasons), "</aside></main>", *neither, *constraints(result), *anchors(result),
        "<section id=proved><h2>What is proved</h2>", *(f"<p>{text}</p>" for text in [*proved, BELIEVED]), "</section>",
        f"<script>{part('page.js')}</script>",
    ]
    return "\n".join(lines) + "\n"
