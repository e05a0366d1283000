"""The calls on a plan, each by the compiled program; a refusal is told in words."""
import math
import os

from . import stream
from .faults import Refused
from .names import quoted
from .plan import NOWHERE
from .program import ROOT, ask
from .progress import PROGRESS
from .stream import LONGEST_LIST, Lists, allow_case, case

METHODS = {"closure": stream.CLOSURE, "preprocess": stream.PREPROCESS, "heavy": stream.HEAVY}


def refusal(number):
    """The words of a refusal, from the one list of them."""
    with open(os.path.join(ROOT, "tools", "refusals"), encoding="ascii") as lines:
        for line in lines:
            which, words = line.rstrip("\n").split(" ", 1)
            if which == str(number):
                return words
    return "there are no words for it"


def answered(answer):
    """The answer of a call that is done."""
    if answer.number:
        raise Refused(f"refused {answer.number}: {refusal(answer.number)}")
    return answer


class Calls:
    """The calls on one plan, whose lists are packed once."""

    def __init__(self, plan):
        self.plan, self.lists, self.n = plan, Lists(plan.linear, plan.entries), len(plan.names)

    def one(self, work, code, start, **numbers):
        """The answer of one call."""
        PROGRESS.doing(work)
        return answered(ask([case(code, self.lists, start, **numbers)], 1)[0])

    def values(self, method, start):
        """The values that the closure, preprocess or heavy leaves, and its answer."""
        answer = self.one(method, METHODS[method], start)
        return answer.values(), answer

    def flat(self, values):
        """The free groups whose two bounds are 0, of an exact field."""
        bounds = self.one("bounds of the free groups", stream.KEEP, values, found=self.n, least=2 * self.n).weights("bounds")
        return [i for i in range(self.n) if values[i] == 2 and bounds[i] == 0 and bounds[self.n + i] == 0]

    def probe(self, values, candidates=None):
        """The values and the constraints that both probes of each candidate give."""
        room = {"found": self.n, "answers": LONGEST_LIST}
        if candidates is None:
            answer = self.one("probing", stream.PROBE, values, **room)
        else:
            answer = self.one("probing", stream.LIMITED_PROBE, values, limit=candidates, **room)
        return answer.values("found"), answer.triples("constraints")

    def pairs(self, values, limit):
        """How many pairs were examined, and their constraints."""
        answer = self.one("pairs", stream.PAIRS, values, limit=limit, answers=LONGEST_LIST)
        return answer.count("pairs"), answer.triples("constraints")

    def anchors(self, values):
        """One group of each part that may be turned around, of two groups or more."""
        return self.one("anchors", stream.ANCHORS, values, variables=self.n, least=2).numbers("variables")

    def smaller(self, values):
        """The problem of the free groups."""
        return self.one("the smaller problem", stream.SUB_PROBLEM, values, variables=self.n)


def mended(linear, entries):
    """The entries that mend leaves, and what became of each."""
    lists = Lists(linear, [entry[:3] for entry in entries])
    PROGRESS.doing("mending")
    answer = ask([case(stream.MEND, lists, answers=3 * len(entries))], 1)[0]
    if answer.number == 18:
        raise Refused(*overflowing(entries))
    return answered(answer).entries(), answer.triples("changes")


def overflowing(entries):
    """Which pair has weights with a sum that is not finite, at its first line."""
    totals, first = {}, {}
    for row, column, weight, line, words in entries:
        totals[row, column] = totals[row, column] + weight if (row, column) in totals else weight
        first.setdefault((row, column), (line, words))
    for place, (line, words) in first.items():
        if NOWHERE not in place and math.isinf(totals[place]):
            yield f"line {line}: refused 18: the weights of the pair {quoted(words[0])} {quoted(words[1])} have a sum that is not finite"


def allowed(n, records):
    """Whether some assignment meets all records, with it and how far each literal reaches; or the group that has no window."""
    PROGRESS.doing("what the constraints allow")
    return answered(ask([allow_case(n, records)], 1)[0])
