"""What the presolver finds of a plan, as one set of data: `presolve` shows it in words, `report` as a page, and --json as it is."""
from .calls import Calls
from .faults import Unusable
from .numbers import unit_exponent
from .words import constraint, forbidden_pairs

ALL_PAIRS = 250_000


def unit_of(plan, is_exact):
    """The smallest unit that serves, as an f64; of an inexact plan None."""
    k = unit_exponent(plan.linear, [q for _, _, q in plan.entries])
    if (k is not None) != is_exact:
        raise Unusable("the grade that the program gives is not that of the weights")
    return None if k is None else 2.0 ** k


def merged(*lists):
    """Constraints of one pair as one, rising by pair."""
    sets = {}
    for lower, higher, forbidden in (record for records in lists for record in records):
        sets[lower, higher] = sets.get((lower, higher), 0) | forbidden
    return [(*pair, forbidden) for pair, forbidden in sorted(sets.items())]


class Findings:
    """The values that a method leaves and, from these, what probes, pairs and anchors add."""

    def __init__(self, plan, method="closure", probe=None, pairs=None, anchors=False):
        self.plan, self.method, self.calls = plan, method, Calls(plan)
        self.values, answer = self.calls.values(method, plan.start())
        self.is_exact, self.unit = answer.is_exact, unit_of(plan, answer.is_exact)
        self.flat = self.calls.flat(self.values) if self.is_exact else None
        self.rounded_flat = answer.count() if method == "closure" else None
        self.probed, self.records, self.examined, self.anchors = {}, None, None, None
        self.look(probe, pairs, anchors)

    def look(self, probe, pairs, anchors):
        """Probes, pairs and anchors from the values, each where it is asked for; `probe` is a number of candidates, or all."""
        lists = []
        if probe is not None:
            found, records = self.calls.probe(self.values, None if probe == "all" else probe)
            self.probed = {i: value for i, value in enumerate(found) if value != 2}
            lists.append(records)
        if pairs is not None:
            self.examined, records = self.calls.pairs(self.values, ALL_PAIRS if pairs == "all" else pairs)
            lists.append(records)
        self.records = merged(*lists) if lists else None
        self.anchors = self.calls.anchors(self.values) if anchors else None

    def forced(self):
        """The forced groups with their values and what forced each."""
        start = self.plan.start()
        forced = {i: (value, self.method) for i, value in enumerate(self.values) if value != 2 and start[i] == 2}
        forced.update((i, (value, "probe")) for i, value in self.probed.items())
        return dict(sorted(forced.items()))

    def free(self):
        """The groups that have no value: flat ones, where they are known, and the undecided."""
        free = [i for i, value in enumerate(self.values) if value == 2 and i not in self.probed]
        known = set(self.flat or [])
        return [i for i in free if i in known], [i for i in free if i not in known]

    def result(self, file):
        """The data."""
        names, forced, (flat, undecided) = self.plan.names, self.forced(), self.free()
        records = self.records
        return {
            "plan": file, "groups": len(names), "pairs": len(self.plan.entries), "grade": "exact" if self.is_exact else "inexact",
            "unit": self.unit, "method": self.method,
            "given": [{"group": names[i], "value": value} for i, value in sorted(self.plan.given.items())],
            "forced": [{"group": names[i], "value": value, "by": by} for i, (value, by) in forced.items()],
            "flat": None if self.flat is None else [names[i] for i in flat], "undecided": [names[i] for i in undecided],
            "constraints": None if records is None else [self.told(record) for record in records],
            "anchors": None if self.anchors is None else [names[i] for i in self.anchors],
            "counts": {
                "given": len(self.plan.given), "forced": len(forced), "first": sum(value == 0 for value, _ in forced.values()),
                "second": sum(value == 1 for value, _ in forced.values()), "flat": self.rounded_flat if self.flat is None else len(flat),
                "undecided": len(undecided), "constraints": None if records is None else len(records), "pairs_examined": self.examined,
            },
        }

    def told(self, record):
        """A constraint with its words."""
        names = self.plan.names
        return {"lower": names[record[0]], "higher": names[record[1]], "forbidden": forbidden_pairs(record[2]), "words": constraint(names, record)}
