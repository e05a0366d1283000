"""The run, the sums and the unit, held to the recorded answers of the calls, and the words of answers that are not whole."""
import os
import struct
import unittest
from fractions import Fraction
from unittest import mock

from planner import findings, stream, sums
from planner.calls import refusal
from planner.faults import Unusable
from planner.numbers import exactly, exponent, shown, unit_exponent
from planner.plan import Plan
from planner.run import Run
from planner.words import CONSTRAINTS

from .common import ROOT, plan


def recorded(code):
    """The recorded cases of a call that are done: the plan, the head's numbers, and the answer."""
    with open(os.path.join(ROOT, "crates", "replay", "stdin"), "rb") as file:
        data = file.read()
    with open(os.path.join(ROOT, "crates", "replay", "stdout"), encoding="ascii") as file:
        lines = file.read().splitlines()
    at = 0
    for line in lines:
        head = stream.HEAD.unpack_from(data, at)
        n, rows, columns, weights, start, constraints = head[1:7]
        parts = struct.unpack_from(f"<{n}d{rows}H{columns}H{weights}d{start}B", data, at + stream.HEAD.size)
        at += stream.HEAD.size + 8 * n + 2 * rows + 2 * columns + 8 * weights + start + 2 * constraints
        if head[0] == code and line.startswith("0 "):
            entries = list(zip(parts[n:n + rows], parts[n + rows:n + 2 * rows], parts[n + 2 * rows:n + 3 * rows]))
            given = {i: value for i, value in enumerate(parts[n + 3 * rows:]) if value != 2}
            yield Plan([str(i) for i in range(n)], parts[:n], entries, given), head, stream.Answer(line)


class Recorded(unittest.TestCase):
    def test_the_run_leaves_what_the_closure_leaves(self):
        count = inexact = 0
        for a_plan, _, answer in recorded(stream.CLOSURE):
            run = Run(a_plan)
            self.assertEqual(bytes(run.values), answer.values())
            flat = [i for i, row in enumerate(run.rows) if run.values[i] == 2 and row == (0, 0)]
            self.assertEqual(len(flat), answer.count())
            unit = unit_exponent(a_plan.linear, [q for _, _, q in a_plan.entries])
            self.assertEqual(unit is not None, answer.is_exact)
            count, inexact = count + 1, inexact + (not answer.is_exact)
        self.assertGreater(count, 100)
        self.assertGreater(inexact, 20)

    def test_each_sum_is_the_bound_of_the_call_and_each_list_the_runs(self):
        count = 0
        for a_plan, head, answer in recorded(stream.REASON):
            run, i, listed = Run(a_plan), head[12], answer.numbers("variables")
            if answer.words["ground"] == "given":
                self.assertIn(i, a_plan.given)
                continue
            self.assertEqual(sorted(run.listed[i]), listed)
            reason = sums.Reason(a_plan, a_plan.beside()[i], run.values, i, answer.words["ground"], listed)
            self.assertEqual(reason.bound, Fraction(answer.weight("bound")) * Fraction(2) ** (answer.count("unit") - 21))
            self.assertEqual(unit_exponent(a_plan.linear, [q for _, _, q in a_plan.entries]), answer.count("unit") - 20)
            self.assertTrue(reason.is_strict())
            count += 1
        self.assertGreater(count, 40)


class Numbers(unittest.TestCase):
    def test_every_digit(self):
        self.assertEqual([exactly(x) for x in (0.5, -0.1, 0, Fraction(-7, 4), 2.0 ** 60)],
                         ["0.5", "-0.1000000000000000055511151231257827021181583404541015625", "0", "-1.75", "1152921504606846976"])
        self.assertEqual([shown(x) for x in (0.5, 0.1, Fraction(1, 10), 1e308)], ["0.5", "0.1", "0.1", "1e+308"])

    def test_units_at_their_edges(self):
        self.assertEqual(unit_exponent([], []), -20)
        self.assertEqual(unit_exponent([2.0 ** -21], []), -20)
        self.assertIsNone(unit_exponent([2.0 ** -22], []))
        self.assertIsNone(unit_exponent([], [2.0 ** -21]))
        self.assertEqual(unit_exponent([], [2.0 ** 11]), -20)
        self.assertEqual(unit_exponent([], [2.0 ** 12]), -19)
        self.assertEqual(unit_exponent([], [2.0 ** 51]), 20)
        self.assertIsNone(unit_exponent([], [2.0 ** 52]))
        self.assertIsNone(unit_exponent([1e308], []))
        self.assertIsNone(unit_exponent([], [2.0 ** 31 + 1, 2.0 ** -2]))
        self.assertEqual([exponent(x) for x in (1.0, -6.0, 5e-324, 0.75)], [0, 1, -1074, -2])


class Words(unittest.TestCase):
    def test_a_constraint_says_what_its_set_forbids(self):
        """Each sentence is read back by simple rules, and its pairs of values are those that the set leaves."""
        meaning = {
            "{0} and {1} not both in the first window": lambda a, b: a or b, "{0} in the second window wherever {1} is": lambda a, b: a or not b,
            "{0} in the second window": lambda a, b: a, "{1} in the second window wherever {0} is": lambda a, b: b or not a,
            "{1} in the second window": lambda a, b: b, "{0} and {1} in the same window": lambda a, b: a == b,
            "{0} and {1} both in the second window": lambda a, b: a and b, "{0} and {1} not both in the second window": lambda a, b: not (a and b),
            "{0} and {1} in different windows": lambda a, b: a != b, "{1} in the first window": lambda a, b: not b,
            "{0} in the second window and {1} in the first": lambda a, b: a and not b, "{0} in the first window": lambda a, b: not a,
            "{0} in the first window and {1} in the second": lambda a, b: b and not a, "{0} and {1} both in the first window": lambda a, b: not (a or b),
            "{0} and {1} in no windows at all": lambda a, b: False,
        }
        self.assertEqual(sorted(CONSTRAINTS), list(range(1, 16)))
        for forbidden, sentence in CONSTRAINTS.items():
            for a in (0, 1):
                for b in (0, 1):
                    self.assertEqual(bool(meaning[sentence](a, b)), not forbidden >> (2 * a + b) & 1, sentence)

    def test_a_refusal_has_the_words_of_the_one_list(self):
        self.assertEqual(refusal(12), "the field is inexact")
        self.assertEqual(refusal(99), "there are no words for it")


class NotWhole(unittest.TestCase):
    """What the program never says, held against all the same."""

    def test_lines_that_are_no_answers(self):
        for line in ("absent", "too long", "", "0 exact values=10 count=0 floats=broken words=zeros"):
            with self.assertRaisesRegex(Unusable, "^the program's answer is not whole: "):
                stream.Answer(line)

    def test_values_that_are_not_the_runs(self):
        with self.assertRaisesRegex(Unusable, "^the closure's call leaves other values than its run, worked out step by step$"):
            sums.Reasons(plan("group a 1\n"), b"\1", True)

    def test_a_bound_that_is_not_the_sum(self):
        for wrong in (("lower", [], 2), ("lower", [1], 1)):
            with mock.patch.object(sums.grounds, "of_field", return_value=[wrong]):
                with self.assertRaisesRegex(Unusable, "^the sum of the group a is not the bound that the call gives$"):
                    sums.Reasons(plan("group a 1\ngroup b 0\npair a b 0\n"), b"\0\2", True).find([0])

    def test_a_grade_that_is_not_the_weights(self):
        with self.assertRaisesRegex(Unusable, "^the grade that the program gives is not that of the weights$"):
            findings.unit_of(plan("group a 1\n"), False)
