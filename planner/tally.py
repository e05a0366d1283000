"""The fleet's tally over plans of any form and size: the totals of rule 20.5, from the closure's answer to each plan."""
import sys

from . import words
from .calls import METHODS, refusal
from .faults import Refused
from .files import plan_of
from .program import ask
from .progress import PROGRESS
from .stream import Lists, case

TOTALS = "read", "exact", "inexact", "refused", "given", "zero", "one", "free"


def plans_of(args, totals):
    """The plans that can be read; the faults of the others go to standard error, and they count as refused."""
    plans = []
    PROGRESS.doing("reading", len(args.plans))
    for file in args.plans:
        PROGRESS.step()
        try:
            plans.append((file, plan_of(args, file)))
        except Refused as refused:
            tell_refused(refused.sentences, totals)
    return plans


def tell_refused(sentences, totals):
    """Counts a refused plan, and says why."""
    totals["refused"] += 1
    for sentence in sentences:
        print(f"ombradiec: {sentence}", file=sys.stderr)


def add(totals, plan, answer):
    """Adds what the closure left of a plan."""
    totals["read"] += 1
    totals["exact" if answer.is_exact else "inexact"] += 1
    totals["given"] += len(plan.given)
    for before, value in zip(plan.start(), answer.values()):
        if before == 2:
            totals[("zero", "one", "free")[value]] += 1


def rate(totals):
    """The forced per thousand of those not given and the remainder, or None."""
    forced = totals["zero"] + totals["one"]
    return divmod(1000 * forced, forced + totals["free"]) if forced + totals["free"] else None


def tally(args):
    """One line of totals for all plans."""
    totals = dict.fromkeys(TOTALS, 0)
    plans = plans_of(args, totals)
    cases = (case(METHODS["closure"], Lists(plan.linear, plan.entries), plan.start()) for _, plan in plans)
    PROGRESS.doing("closures", len(plans))
    answers = ask(cases, len(plans)) if plans else []
    for (file, plan), answer in zip(plans, answers):
        if answer.number:
            tell_refused([f"{file}: refused {answer.number}: {refusal(answer.number)}"], totals)
        else:
            add(totals, plan, answer)
    result = {"plans": args.plans, "totals": totals, "rate": rate(totals)}
    return result, words.tally(result)
