"""Every fault of a plan's file: its words and its line, and all of one file at once."""
import json
import unittest

from planner import forms
from planner.faults import Refused, Unusable
from planner.numbers import Rounding

from .common import FILES, plan

MODEL = {
    "type": "BinaryQuadraticModel", "variable_type": "BINARY", "variable_labels": ["a", "b"], "offset": 0, "linear_biases": [1, 2],
    "quadratic_biases": [3], "quadratic_head": [0], "quadratic_tail": [1],
}


class Faults(unittest.TestCase):
    def faults(self, form, text, *wanted):
        """Holds all faults of a text to the wanted ones, each behind the file's name."""
        with self.assertRaises(Refused) as caught:
            plan(text, form)
        self.assertEqual(caught.exception.sentences, [FILES[form] + sentence for sentence in wanted])

    def model(self, *wanted, **changed):
        """The same of a model with some parts changed."""
        self.faults("bqm", json.dumps({**MODEL, **changed}), *wanted)

    def test_all_faults_of_a_file_at_once(self):
        text = "group a 1\ngroup a 2\ngroup b nan\npair a c 1\n\nnonsense\ngiven a 2\n"
        self.faults("text", text, ":2: there is a group `a` already", ":3: `nan` is not finite, and a weight is", ":4: there is no group `c` above",
                    ":6: none of `group NAME WEIGHT`, `pair NAME NAME WEIGHT`, `given NAME VALUE` and `constant WEIGHT`",
                    ":7: a given value is 0 or 1, and not `2`")

    def test_weights_that_are_none(self):
        for word in ("nan", "-inf", "Infinity", "+INF"):
            self.faults("text", f"group a {word}\n", f":1: `{word}` is not finite, and a weight is")
        for word in ("one", "1e", "0x1", "1_0", "--1", "１"):
            self.faults("text", f"group a {word}\n", f":1: `{word}` is no number")
        for word in ("1e309", "-1.8e308", "9" * 400):
            self.faults("text", f"group a {word}\n", f":1: `{word}` is too large for a weight")
        self.faults("text", "constant 1e999\n", ":1: `1e999` is too large for a weight")
        self.faults("text", "constant 1e-1201\n", ":1: `1e-1201..` has more than 1,200 digits")
        self.faults("text", "constant 0." + 1200 * "1" + "\n", ":1: `0.111111111111111111..` has more than 1,200 digits")

    def test_text(self):
        two = "group a 1\ngroup b 1\n"
        self.faults("text", two + "pair a b 1\npair a b 2\n", ":4: this pair stands above, in this order; add the two weights, or let `mend` do it")
        self.faults("text", two + "pair a a 1\n",
                    ":3: a pair of one group with itself, which the presolver refuses; add half its weight to the group's own")
        self.faults("text", two + "given c 1\n", ":3: there is no group `c` above")
        self.faults("text", two + "given a 1\ngiven a 1\n", ":4: this group has a value already")
        self.faults("text", 'group "" 1\n', ":1: a group has a name of no signs")

    def test_quotes(self):
        for line in ('group "a 1', 'group "a"b 1', '"'):
            self.faults("text", line, ":1: a quote mark opens a name that does not end before a space or the line's end")
        words = r':1: "\q" is no name in quotes: a quote mark or a backslash within it stands behind a backslash'
        self.faults("text", r'group "\q" 1', words)

    def test_as_many_as_there_is_room_for(self):
        groups = "".join(f"group g{i} 0\n" for i in range(4097))
        self.faults("text", groups + "group more 0\n", ":4097: more than 4,096 groups")
        lines = "".join(f"group g{i} 0\n" for i in range(700))
        pairs = [f"pair g{i} g{j} 0\n" for i in range(64) for j in range(64, 600)]
        self.faults("text", lines + "".join(pairs[:32770]), ":33469: more than 32,768 pairs")
        self.assertEqual(len(plan(lines + "".join(pairs[:32768])).entries), 32768)

    def test_source(self):
        self.faults("source", "\n", ": there is no line with the number of groups")
        self.faults("source", "2 3\n0 1\n", ":1: the first line is the number of groups")
        self.faults("source", "x\n", ":1: `x` is no whole number")
        self.faults("source", "4097\n", ":1: more than 4,096 groups")
        self.faults("source", "9" * 5000 + "\n", ":1: more than 4,096 groups")
        self.faults("source", "2\n0 2 1\n0 1\n0 1\n5 1\n0\n-1 1 2\n", ":2: there is no group 2: they are numbered below 2",
                    ":4: group 0 has a weight above; add the two weights", ":5: there is no group 5: they are numbered below 2",
                    ":6: neither `i j q` nor `i c`", ":7: `-1` is no whole number")

    def test_qbsolv(self):
        first = "the first line that is no comment is `p qubo 0 GROUPS DIAGONAL BESIDE`"
        self.faults("qbsolv", "c nothing\n", ": there is no line `p qubo 0 GROUPS DIAGONAL BESIDE`")
        for line in ("p qubo 0 2 2", "p cnf 0 2 2 1", "p qubo 1 2 2 1"):
            self.faults("qbsolv", line + "\n", ":1: " + first)
        self.faults("qbsolv", "p qubo 0 2 1 1\n0 0 1\n1 0 2\n", ":3: the first number of a pair is the lower one")
        self.faults("qbsolv", "p qubo 0 2 1 1\n0 0 1\n0 1\n", ":3: no line `i j w`")
        self.faults("qbsolv", "p qubo 0 2 1 1\n0 0 1\n0 1 1e308\n", ":3: the pair's weight, twice 1e308, would be too large for a weight")
        self.faults("qbsolv", "c x\np qubo 0 2 2 0\n0 0 1\n0 1 1\n", ":2: told are 2 weights and 0 pairs, and 1 and 1 stand below")
        self.faults("qbsolv", "c ombradiec group 2 a\np qubo 0 2 0 0\n",
                    ":1: neither `ombradiec constant WEIGHT` nor `ombradiec group NUMBER NAME` of a group that is there")
        self.faults("qbsolv", "c ombradiec group 0 1\np qubo 0 2 0 0\n", ": two groups have the name `1`")

    def test_coo(self):
        self.faults("coo", "# vartype=TERNARY\n0 0 1\n", ":1: the vartype is BINARY or SPIN, and not TERNARY")
        self.faults("coo", "0 0 1\n0 1\n0 0 x\n", ":2: no line `i j w`", ":3: `x` is no number")
        self.faults("coo", "4096 0 1\n", ": more than 4,096 groups")
        self.faults("coo", "0 0 1\n0 0 2\n", ":2: group 0 has a weight above; add the two weights")
        self.faults("coo", "0 1 1\n0 1 2\n", ":2: this pair stands above, in this order; add the two weights, or let `mend` do it")
        self.faults("coo", "# vartype=SPIN\n0 1 1e308\n", ":2: the pair's weight, 8 times 1e+308, would be too large for a weight")

    def test_rudy(self):
        self.faults("rudy", "", ": there is no line with the numbers of vertices and edges")
        self.faults("rudy", "3\n", ":1: the first line is the number of vertices and that of edges")
        self.faults("rudy", "2 1\n0 1 1\n1 3 1\n1 1 1\n1 2\n", ":2: the vertices are numbered from 1 to 2",
                    ":3: the vertices are numbered from 1 to 2", ":4: an edge of a vertex with itself, which no cut cuts", ":5: no line `i j w`",
                    ":1: told are 1 edges, and 4 stand below")
        self.faults("rudy", "2 2\n1 2 1\n2 1 1\n", ":3: this edge stands above; add the two weights")
        self.faults("rudy", "3 2\n1 2 1152921504606846976\n1 3 1\n",
                    ": the weight of group 0 would be rounded to -1.152921504606847e+18; --round allows it")

    def test_bqm(self):
        self.faults("bqm", '{"type":\n]', ":2: no JSON: Expecting value")
        self.faults("bqm", "[" * 100000, ": no JSON that can be read: it is nested too deep")
        self.faults("bqm", "[]", ": no model of dimod: its type is not BinaryQuadraticModel")
        self.model(": no model of dimod: its type is not BinaryQuadraticModel", type="DiscreteQuadraticModel")
        self.model(": its lists are bytes: write it with use_bytes=False", use_bytes=True)
        self.model(": its variable_type is neither BINARY nor SPIN", variable_type="INTEGER")
        self.model(": variable_labels is no list", variable_labels=None)
        self.model(": linear_biases has 1 items, and not 2", linear_biases=[1])
        self.model(": quadratic_tail has 0 items, and not 1", quadratic_tail=[])
        self.model(": variable_labels[1]: there is a group `1` already", variable_labels=["1", 1])
        self.model(": linear_biases[0]: null is no number", ": linear_biases[1]: `NaN` is not finite, and a weight is", linear_biases=[None, float("nan")])
        self.model(": quadratic_biases[0]: `Infinity` is not finite, and a weight is", quadratic_biases=[float("inf")])
        self.model(": quadratic_biases[0]: a term of one variable with itself", quadratic_tail=[0])
        self.model(": quadratic_biases[0]: there is no group 2: they are numbered below 2", quadratic_tail=[2])
        self.model(': quadratic_biases[0]: "x" is no number of a variable', quadratic_tail=["x"])
        self.model(': quadratic_biases[0]: -1 is no number of a variable', quadratic_tail=[-1])
        self.model(": offset: `NaN` is not finite, and a weight is", offset=float("nan"))

    def test_bytes_that_are_no_text(self):
        with self.assertRaises(Refused) as caught:
            forms.gathered("a.txt", b"group a 1\n\xff\n", None, Rounding(False))
        self.assertEqual(caught.exception.sentences, ["a.txt:2: no text in UTF-8"])

    def test_forms_that_are_not_read_or_not_written(self):
        with self.assertRaisesRegex(Unusable, "^a.cfn: the form cfn is written and not read$"):
            forms.gathered("a.cfn", b"", None, Rounding(False))
        with self.assertRaisesRegex(Unusable, "^the form rudy is read and not written$"):
            forms.write_plan(plan("group a 1\n"), "rudy", Rounding(False))
