"""Each form there and back with every bit, and f the same at random x by each form's own meaning, worked out from its text alone."""
import json
import re
import shutil
import subprocess
import tempfile
import unittest
from fractions import Fraction

from planner.faults import Refused
from planner.names import quoted
from planner.plan import Plan

from .common import EDGES, bits, plan, random_plan, run, some_x, written

HALVED = [w for w in EDGES if abs(w) >= 2.3e-308 or w == 0]
NAMES = ["bill 2", "größe", 'a"b\\', "#", "x\u2028y", "日本", "\U0001f6a2", "-1", "tab\tname"]


def plan_with_names():
    """A plan whose names hold spaces, quotes and signs of every kind."""
    drawn = random_plan(5, len(NAMES), 20, [1.5, -2.0, 0.25], NAMES)
    return Plan(NAMES, drawn.linear, drawn.entries, {0: 1, 4: 0}, Fraction(-7, 4))


def triples(text):
    """The triples of a text of lines, with fractions as the f64 that are meant."""
    lines = [line.split("#")[0].split() for line in text.splitlines()]
    return [(int(words[0]), int(words[1]), Fraction(float(words[2]))) for words in lines if len(words) == 3 and words[0] not in "cp"]


class RoundTrips(unittest.TestCase):
    def test_text_keeps_every_bit_name_and_given_value(self):
        for seed in range(20):
            drawn = random_plan(seed, 9, 30, EDGES)
            self.assertEqual(bits(plan(written(drawn, "text"))), bits(drawn))
        named = plan_with_names()
        self.assertEqual(bits(plan(written(named, "text"))), bits(named))

    def test_source_keeps_every_bit(self):
        for seed in range(20):
            drawn = random_plan(seed, 9, 30, EDGES)
            self.assertEqual(bits(plan(written(drawn, "source"), "source")), bits(drawn))

    def test_coo_and_bqm_keep_every_bit_that_a_half_has(self):
        for form in ("coo", "bqm"):
            for seed in range(20):
                drawn = random_plan(seed, 9, 30, HALVED)
                self.assertEqual(bits(plan(written(drawn, form), form)), bits(drawn), form)

    def test_qbsolv_keeps_every_bit_of_pairs_in_one_order(self):
        for seed in range(20):
            drawn = random_plan(seed, 9, 30, HALVED)
            upper = Plan(drawn.names, drawn.linear, [entry for entry in drawn.entries if entry[0] < entry[1]], {})
            self.assertEqual(bits(plan(written(upper, "qbsolv"), "qbsolv")), bits(upper))

    def test_names_and_the_constant_go_through_comments_and_labels(self):
        named = plan_with_names()
        free = Plan(named.names, named.linear, [entry for entry in named.entries if entry[0] < entry[1]], {}, named.constant)
        for form in ("qbsolv", "coo", "bqm"):
            self.assertEqual(bits(plan(written(free, form), form)), bits(free), form)

    def test_names_that_are_other_groups_numbers(self):
        swapped = Plan(["1", "0"], [1.0, 2.0], [(0, 1, 3.0)], {})
        for form in ("text", "qbsolv", "coo", "bqm"):
            self.assertEqual(bits(plan(written(swapped, form), form)), bits(swapped), form)

    def test_every_name_is_quoted_so_that_it_is_read_back(self):
        for name in [*NAMES, "\ud800", "\x00", "a#b", '"', "é", " "]:
            text = f"group {quoted(name)} 1 # a comment\n"
            self.assertEqual(plan(text).names, [name])

    def test_line_ends_and_a_mark_of_the_byte_order(self):
        self.assertEqual(bits(plan("\ufeffgroup a 1\r\ngroup b 2\rpair a b 3\n")), bits(plan("group a 1\ngroup b 2\npair a b 3\n")))


class Values(unittest.TestCase):
    """f of the plan against the form's own objective."""

    def test_source_has_our_half(self):
        drawn = random_plan(1, 8, 30, EDGES)
        lines = [line.split() for line in written(drawn, "source").splitlines()[1:]]
        for x in some_x(1, 8):
            total = sum(Fraction(float(words[1])) * x[int(words[0])] for words in lines if len(words) == 2)
            total += sum(Fraction(float(q)) * x[int(i)] * x[int(j)] for i, j, q in (words for words in lines if len(words) == 3)) / 2
            self.assertEqual(drawn.f(x), total)

    def test_qbsolv_and_coo_have_no_half(self):
        for form in ("qbsolv", "coo"):
            drawn = random_plan(2, 8, 30, [0.5, -1.0, 3.0, 2.0 ** -30, -0.0])
            terms = triples(written(drawn, form))
            for x in some_x(2, 8):
                self.assertEqual(drawn.f(x), sum(w * x[i] * x[j] for i, j, w in terms), form)

    def test_qbsolv_that_others_wrote(self):
        text = "c a comment\np qubo unconstrained 3 2 2\n0 0 1.5\n2 2 -0.25\nc in between\n0 1 -3\n1 2 0.125\n"
        read = plan(text, "qbsolv")
        for x in some_x(3, 3):
            self.assertEqual(read.f(x), sum(w * x[i] * x[j] for i, j, w in triples(text)))

    def test_spins_of_coo_and_of_bqm(self):
        text = "# vartype=SPIN\n0 0 1.5\n1 1 -0.25\n0 1 -3\n2 1 0.125\n"
        spins = {"coo": plan(text, "coo"), "bqm": plan(json.dumps({
            "type": "BinaryQuadraticModel", "variable_type": "SPIN", "variable_labels": ["a", 7, ["p", 1]], "offset": 2.5,
            "linear_biases": [1.5, -0.25, 0], "quadratic_biases": [-3, 0.125], "quadratic_head": [0, 2], "quadratic_tail": [1, 1]}), "bqm")}
        self.assertEqual(spins["bqm"].names, ["a", "7", '["p", 1]'])
        for form, offset in (("coo", Fraction(0)), ("bqm", Fraction(5, 2))):
            for x in some_x(4, 3):
                s = [2 * value - 1 for value in x]
                total = sum(w * (s[i] if i == j else s[i] * s[j]) for i, j, w in triples(text))
                self.assertEqual(spins[form].f(x), total + offset, form)

    def test_bqm_has_no_half_and_its_offset(self):
        drawn = random_plan(6, 8, 30, [0.5, -1.0, 3.0, 1e-3])
        model = json.loads(written(Plan(drawn.names, drawn.linear, drawn.entries, {}, Fraction(-7, 4)), "bqm"))
        for x in some_x(6, 8):
            total = Fraction(model["offset"]) + sum(Fraction(w) * value for w, value in zip(model["linear_biases"], x))
            ends = zip(model["quadratic_head"], model["quadratic_tail"], model["quadratic_biases"])
            self.assertEqual(drawn.f(x) - Fraction(7, 4), total + sum(Fraction(w) * x[i] * x[j] for i, j, w in ends))

    def test_a_graphs_cut_is_the_negative(self):
        text = "4 4\n1 2 1\n2 3 -2.5\n4 3 1\n1 4 3\n"
        read = plan(text, "rudy")
        self.assertEqual(read.names, ["1", "2", "3", "4"])
        for x in some_x(7, 4):
            self.assertEqual(read.f(x), -sum(w for i, j, w in triples(text) if x[i - 1] != x[j - 1]))

    def test_cfn_by_its_tables(self):
        drawn = random_plan(8, 6, 20, [0.5, -1.0, 3.0, 2.0 ** -10])
        named = Plan(list("abcdef"), drawn.linear, drawn.entries, {}, Fraction(-7, 4))
        model = json.loads(written(named, "cfn"))
        for x in some_x(8, 6):
            total = Fraction(0)
            for function in re.finditer(r'"scope": \[(.*?)\], "costs": \[(.*?)\]', written(named, "cfn")):
                at = int("".join(str(x["abcdef".index(name)]) for name in json.loads(f"[{function[1]}]")), 2)
                total += Fraction(function[2].split(", ")[at])
            self.assertEqual(named.f(x), total)
            self.assertLess(total, Fraction(model["problem"]["mustbe"][1:]))


class Toulbar2(unittest.TestCase):
    @unittest.skipUnless(shutil.which("toulbar2"), "there is no toulbar2 here (Debian's package of that name)")
    def test_its_optimum_is_the_least_f(self):
        for seed, names in ((1, None), (2, ["a", "b-1", "c_2", "d", "e", "f", "g"]), (3, ["bill 2", *"bcdefg"])):
            drawn = random_plan(seed, 7, 20, [0.5, -1.0, 3.0, -2.25, 2.0 ** -10], names)
            drawn.constant = Fraction(-7, 4)
            least = min(drawn.f([k >> i & 1 for i in range(7)]) for k in range(128))
            with tempfile.TemporaryDirectory() as room:
                with open(f"{room}/a.cfn", "w", encoding="ascii") as file:
                    file.write(written(drawn, "cfn"))
                said = subprocess.run(["toulbar2", "a.cfn", "-s=3"], cwd=room, capture_output=True, text=True).stdout
            self.assertEqual(Fraction(re.search(r"^Optimum: (\S+)", said, re.M)[1]), least)
            shown = re.findall(r"(\S+)=(first|second)", said)
            self.assertEqual(drawn.f([int(window == "second") for _, window in shown[-7:]]), least)
            self.assertEqual([name for name, _ in shown[-7:]], names if seed == 2 else [f"x{i}" for i in range(7)])


class Rounded(unittest.TestCase):
    """What a form cannot hold is refused, and rounded only where that is allowed."""

    def refused(self, words, a_plan, form):
        with self.assertRaises(Refused) as caught:
            written(a_plan, form)
        self.assertEqual(caught.exception.sentences, [words])

    def test_a_half_below_the_least_f64(self):
        tiny = Plan(["a", "b"], [0.0, 0.0], [(0, 1, 5e-324)], {})
        self.refused("half the weight of the pair a and b would be rounded to 0.0; --round allows it", tiny, "coo")
        self.refused("half the weight of the pair a and b would be rounded to 0.0; --round allows it", tiny, "bqm")
        self.refused("the weight of the pair a and b would be rounded to 0.0; --round allows it", tiny, "qbsolv")
        self.assertIn("\n0 1 0.0\n", written(tiny, "coo", is_rounded=True))

    def test_two_orders_whose_sum_is_no_f64(self):
        both = Plan(["a", "b"], [0.0, 0.0], [(0, 1, 2.0 ** 60), (1, 0, 1.0)], {})
        self.refused("the weight of the pair a and b would be rounded to 1.152921504606847e+18; --round allows it", both, "qbsolv")
        huge = Plan(["a", "b"], [0.0, 0.0], [(0, 1, 1.7e308), (1, 0, 1.7e308)], {})
        self.refused("the weight of the pair a and b would be too large for a weight", huge, "qbsolv")

    def test_a_constant_that_is_no_f64(self):
        self.refused("the constant would be rounded to 0.1; --round allows it", Plan(["a"], [0.0], [], {}, Fraction(1, 10)), "bqm")

    def test_what_toulbar2_cannot_count(self):
        fine = Plan(["a"], [2.0 ** 40 + 2.0 ** -10], [], {})
        self.refused("the weights have 10 decimals, and toulbar2 has room for 3 beside their sum; --round rounds them", fine, "cfn")
        self.assertIn("1099511627776.001", written(fine, "cfn", is_rounded=True))
        self.refused("the weights add up to 2^53 or more, and toulbar2 cannot count so far", Plan(["a"], [2.0 ** 53], [], {}), "cfn")
        self.refused("a plan of no groups has nothing to solve", Plan([], [], [], {}), "cfn")

    def test_given_values_stand_in_our_text_alone(self):
        for form in ("source", "qbsolv", "coo", "bqm", "cfn"):
            self.refused(f"the form {form} has no given values: `reduce` takes them out of the plan", Plan(["a"], [1.0], [], {0: 1}), form)

    def test_what_is_rounded_is_said(self):
        with tempfile.TemporaryDirectory() as room:
            with open(f"{room}/s.coo", "w", encoding="ascii") as file:
                file.write("# vartype=SPIN\n0 1 0.1\n1 2 0.3\n")
            status, out, said = run("convert", "s.coo", "-o", "s.txt", folder=room)
            self.assertEqual((status, out), (1, ""))
            self.assertEqual(said, "ombradiec: s.coo: the weight of group 1 would be rounded to -0.8; --round allows it\n")
            status, out, said = run("convert", "s.coo", "-o", "s.txt", "--round", folder=room)
            self.assertEqual((status, said), (0, "ombradiec: s.coo: the weight of group 1 is rounded to -0.8\n"))
