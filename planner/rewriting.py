"""The commands that write a plan: the smaller one, the mended one, and the same one in another form."""
import math
from fractions import Fraction

from . import calls, words
from .faults import Refused
from .files import plan_of, put_plan, read
from .names import quoted
from .numbers import exactly
from .plan import NOWHERE, Plan

KINDS = "dropped", "moved", "joined"


def values_for(args, plan):
    """The values that are taken out: the given ones alone, or those that a method leaves."""
    if args.method == "given":
        return plan.start()
    return calls.Calls(plan).values(args.method, plan.start())[0]


def finite(names, linear, constant):
    """Refuses a smaller problem with a weight that is not finite."""
    told = [f"the weight of {quoted(name)}" for name, c in zip(names, linear) if not math.isfinite(c)]
    told += ["the constant"] * (not math.isfinite(constant))
    if told:
        raise Refused(*(f"{what} in the smaller problem is not finite: its sum is too large" for what in told))


def reduce(args):
    """The smaller problem of the free groups, with its constant and its map."""
    plan = plan_of(args)
    values = values_for(args, plan)
    answer = calls.Calls(plan).smaller(values)
    kept, linear, constant = answer.numbers("variables"), answer.weights("linear"), answer.weight("constant")
    names = [plan.names[i] for i in kept]
    finite(names, linear, constant)
    smaller = Plan(names, linear, answer.entries(), {}, plan.constant + Fraction(constant))
    result = {
        "plan": args.plan, "output": args.output, "form": put_plan(args, smaller), "method": args.method,
        "grade": "exact" if answer.is_exact else "inexact", "groups": len(kept), "pairs": len(smaller.entries),
        "constant": exactly(smaller.constant), "map": [{"number": new, "was": old, "group": plan.names[old]} for new, old in enumerate(kept)],
        "fixed": [{"group": name, "value": value} for name, value in zip(plan.names, values) if value != 2],
    }
    return result, words.reduce(result)


def convert(args):
    """The same plan in another form."""
    plan = plan_of(args)
    result = {
        "plan": args.plan, "output": args.output, "form": put_plan(args, plan), "groups": len(plan.names), "pairs": len(plan.entries),
        "constant": exactly(plan.constant),
    }
    return result, words.convert(result)


def mend(args):
    """The plan with its pairs in order, repeats joined, and pairs of groups that are not there dropped."""
    builder = read(args, args.plan, keeps_repeats=True)
    plan = builder.plan(args.plan)
    entries, changes = calls.mended(plan.linear, builder.pairs)
    form = put_plan(args, Plan(plan.names, plan.linear, entries, plan.given, plan.constant))
    first = {}
    for row, column, _, line, _ in builder.pairs:
        first.setdefault((row, column), line)
    told = [change(builder.pairs[at], first, entries, at, kind, to) for at, kind, to in changes]
    result = {"plan": args.plan, "output": args.output, "form": form, "pairs_before": len(builder.pairs), "pairs": len(entries), "changes": told}
    return result, words.mend(result)


def change(pair, first, entries, at, kind, to):
    """What became of one pair."""
    row, column, _, line, names = pair
    told = {"line": line, "pair": list(names), "what": KINDS[kind]}
    if KINDS[kind] == "dropped":
        told["missing"] = [name for name, place in zip(names, (row, column)) if place == NOWHERE]
    elif KINDS[kind] == "moved":
        told.update({"from": at + 1, "to": to + 1})
    else:
        told.update({"first": first[row, column], "weight": entries[to][2]})
    return told
