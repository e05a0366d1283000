"""The commands that find something out: each gives its data, for --json, and its lines in words."""
from . import calls, reasons, words
from .faults import Refused
from .files import plan_of
from .findings import Findings, unit_of
from .names import quoted
from .sums import Reasons

MOST_ALLOWED, MOST_RECORDS = 1024, 65536


def presolve(args):
    """Grade, forced, flat and undecided groups, constraints and counts."""
    result = Findings(plan_of(args), args.method, args.probe, args.pairs, args.anchors).result(args.plan)
    return result, words.presolve(result)


def why(args):
    """The reason of a group, or of every forced one, down to given values."""
    plan = plan_of(args)
    if args.group is not None and args.group not in plan.names:
        raise Refused(f"{args.plan}: there is no group {quoted(args.group)}")
    values, answer = calls.Calls(plan).values("closure", plan.start())
    found = Reasons(plan, values, answer.is_exact)
    groups = sorted(found.run.order) if args.group is None else [plan.names.index(args.group)]
    told = [reasons.told(plan, values, reason) for reason in found.find(found.chain(groups))]
    grade = "exact" if answer.is_exact else "inexact"
    result = {"plan": args.plan, "grade": grade, "unit": unit_of(plan, answer.is_exact), "reasons": told}
    return result, words.why(result)


def found_constraints(args, plan):
    """What probes and pairs find from the closure's values; both, where neither is asked for."""
    probe, pairs = args.probe, args.pairs
    if probe is None and pairs is None:
        probe = pairs = "all"
    return Findings(plan, "closure", probe, pairs, args.anchors)


def allow(args):
    """Whether the found constraints allow anything, and how far each choice reaches."""
    plan = plan_of(args)
    found = found_constraints(args, plan)
    used = sorted({end for record in found.records for end in record[:2]})
    if len(used) > MOST_ALLOWED or len(found.records) > MOST_RECORDS:
        most = f"{MOST_RECORDS:,} constraints of {MOST_ALLOWED:,} groups are the most that can be joined"
        raise Refused(f"{len(found.records):,} constraints of {len(used):,} groups were found, and {most}; --probe and --pairs take a number")
    number = {group: k for k, group in enumerate(used)}
    answer = calls.allowed(len(used), [(number[lower], number[higher], forbidden) for lower, higher, forbidden in found.records])
    names, reach = [plan.names[i] for i in used], answer.numbers("counts")
    result = {
        "plan": args.plan, "grade": "exact" if found.is_exact else "inexact", "allowed": answer.is_yes, "constraints": len(found.records),
        "assignment": [{"group": name, "value": value} for name, value in zip(names, answer.values("assignment"))] if answer.is_yes else None,
        "contradiction": None if answer.is_yes else names[answer.count("no")],
        "reaches": [{"group": name, "first": reach[2 * k] - 1, "second": reach[2 * k + 1] - 1} for k, name in enumerate(names)],
    }
    return result, words.allow(result)
