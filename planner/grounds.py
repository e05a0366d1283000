"""The call `reason`, for one group or for many: its ground, the groups that it lists and its bound."""
import os
from concurrent.futures import ThreadPoolExecutor
from fractions import Fraction

from .calls import answered
from .program import ask
from .progress import PROGRESS
from .stream import REASON, Lists, case

LEAST_SHARE = 32


def shared(cases):
    """The answers to many cases in their order, by a program for each processor."""
    PROGRESS.doing("reasons", len(cases))
    shares = max(1, min(os.cpu_count() or 1, len(cases) // LEAST_SHARE))
    answers = [None] * len(cases)
    with ThreadPoolExecutor(shares) as pool:
        each = pool.map(lambda k: ask((make() for make in cases[k::shares]), len(cases[k::shares])), range(shares))
        for k, found in enumerate(each):
            answers[k::shares] = found
    return [answered(answer) for answer in answers]


def told(answer, groups):
    """The ground, the listed groups, and the bound counted in ones."""
    bound = Fraction(answer.weight("bound")) * Fraction(2) ** (answer.count("unit") - 21)
    return answer.words["ground"], [groups[k] for k in answer.numbers("variables")], bound


def of_field(plan, groups):
    """Asked of the whole field."""
    lists, start, n = Lists(plan.linear, plan.entries), plan.start(), len(plan.names)
    cases = [lambda i=i: case(REASON, lists, start, variables=n, variable=i) for i in groups]
    return [told(answer, range(n)) for answer in shared(cases)]


def of_row(plan, terms, values, i, listed):
    """A group and its neighbours as a field of their own, in which the listed ones are given; with what asks for the group's reason there."""
    near = sorted({i, *(j for j, _, _ in terms)})
    number = {group: k for k, group in enumerate(near)}
    linear = [plan.linear[i] if group == i else 0.0 for group in near]
    entries = [(number[i], number[j], q) if is_row else (number[j], number[i], q) for j, q, is_row in terms]
    entries.sort(key=lambda entry: (entry[1], entry[0]))
    start = bytes(values[group] if group in listed else 2 for group in near)
    return near, lambda: case(REASON, Lists(linear, entries), start, variables=len(near), variable=number[i])


def of_rows(plan, values, groups, listed):
    """Asked of each group's own row: its bound rests on nothing but its entries and the listed values."""
    terms = [[] for _ in plan.names]
    for row, column, q in plan.entries:
        terms[row].append((column, q, True))
        terms[column].append((row, q, False))
    rows = [of_row(plan, terms[i], values, i, listed[i]) for i in groups]
    return [told(answer, near) for answer, (near, _) in zip(shared([make for _, make in rows]), rows)]
