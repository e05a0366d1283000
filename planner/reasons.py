"""Reasons as data, for the words of `why` and for --json."""
from .numbers import shown


def told(plan, values, reason):
    """A reason with its numbers as exact decimals."""
    names = plan.names
    listed = [{"group": names[j], "value": values[j], "adds": shown(adds)} for j, adds in reason.adds.items()]
    return {
        "group": names[reason.group], "value": reason.value, "ground": reason.ground, "own": shown(reason.own), "listed": listed,
        "others": [{"group": names[j], "adds": shown(adds)} for j, adds in reason.others.items()],
        "others_add": shown(sum(reason.others.values())), "bound": "0" if reason.ground == "given" else shown(reason.bound),
        "strict": reason.ground == "given" or reason.is_strict(), "rounded": None if reason.rounded is None else rounded(reason.rounded),
    }


def rounded(bound):
    """The run's own bound, which may be infinite."""
    return shown(bound) if abs(bound) < float("inf") else repr(bound)
