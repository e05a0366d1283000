"""The command `report`: findings and reasons of a plan as one page."""
from . import page, words
from .commands import found_constraints
from .files import plan_of, put
from .findings import Findings
from .progress import PROGRESS
from .sums import Reasons


def report(args):
    """Writes the page; constraints are looked for by probes and pairs unless --no-constraints stands."""
    plan = plan_of(args)
    found = Findings(plan, anchors=args.anchors) if args.no_constraints else found_constraints(args, plan)
    reasons = Reasons(plan, found.values, found.is_exact)
    groups = [*reversed(reasons.run.order), *sorted(plan.given)]
    result = found.result(args.plan)
    explained = reasons.find(groups)
    PROGRESS.doing("the page")
    put(args, page.page(plan, found, result, explained))
    told = {"output": args.output, "reasons": len(groups), **result}
    return told, [f"{args.output}: written, with the reasons of {words.counted(len(groups), 'group')}", words.counts_line(result)]
