"""toulbar2's `.cfn`, written alone: least sum of cost functions, a table for each group (0, c) and each two groups (0, 0, 0, q/2).

toulbar2 counts in whole numbers of the last decimal that its upper bound has, and reads each through an f64: so all costs have that
many decimals, and all of them together stay below 2^53 of the last one.
"""
import re
from fractions import Fraction

from ..faults import Fault
from ..numbers import decimals, fixed

SIMPLE = re.compile(r"[A-Za-z][A-Za-z0-9_-]*")
MOST = 2 ** 53


def costs_of(plan):
    """The cost functions: the groups that each is of, and what it costs where all are in the second window."""
    costs = {(i,): Fraction(c) for i, c in enumerate(plan.linear)}
    for row, column, q in plan.entries:
        ends = min(row, column), max(row, column)
        costs[ends] = costs.get(ends, Fraction(0)) + Fraction(q) / 2
    return costs


def decimals_for(values, rounding):
    """The decimals that all values need; with rounding allowed as many as there is room for."""
    count, total = max(map(decimals, values)), sum(map(abs, values)) + 1
    fitting = count
    while fitting >= 0 and total * 10 ** fitting >= MOST:
        fitting -= 1
    if fitting < 0:
        raise Fault("the weights add up to 2^53 or more, and toulbar2 cannot count so far")
    if fitting < count:
        if not rounding.is_allowed:
            raise Fault(f"the weights have {count} decimals, and toulbar2 has room for {fitting} beside their sum; --round rounds them")
        rounding.notes.append(f"the costs are rounded to {fitting} decimals")
    return fitting


def write(plan, rounding):
    """The cost functions; the constant stands in both costs of the first group."""
    if not plan.names:
        raise Fault("a plan of no groups has nothing to solve")
    names = plan.names if all(map(SIMPLE.fullmatch, plan.names)) else [f"x{i}" for i in range(len(plan.names))]
    costs = costs_of(plan)
    values = [*costs.values(), plan.constant]
    count = decimals_for(values, rounding)
    bound = sum(map(abs, values)) + 1
    lines = ['{"problem": {"name": "plan", "mustbe": "<' + fixed(Fraction(-(-bound // 1)), count) + '"},', '"variables": {']
    lines += [",\n".join(f' "{name}": ["first", "second"]' for name in names), '},', '"functions": {']
    lines += [",\n".join(function(names, ends, cost, plan.constant if ends == (0,) else 0, count) for ends, cost in costs.items()), "}}"]
    return "\n".join(lines) + "\n"


def function(names, ends, cost, constant, count):
    """One cost function: its table is all zeros, or the constant, but for the last place."""
    scope = ", ".join(f'"{names[i]}"' for i in ends)
    table = [Fraction(constant)] * (2 ** len(ends) - 1) + [constant + cost]
    label = "_".join(map(str, ends))
    return f' "f{label}": {{"scope": [{scope}], "costs": [{", ".join(fixed(value, count) for value in table)}]}}'
