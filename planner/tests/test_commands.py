"""The commands over the compiled program: their lines on the shipped plan and on plans worked by hand, and their JSON by the page's schema."""
import itertools
import json
import os
import random
from unittest import mock

from planner import calls, commands, grounds, progress, stream, sums
from planner.plan import Plan

from .common import FILES, ROOT, Room, call, plan, random_plan, some_x, written
from .schema import check

PLAN = os.path.join(ROOT, "example", "plan.txt")
GOLDEN = os.path.join(ROOT, "example", "forms")
CASE_G = "group a -5\ngroup b -1\npair a b 4\n"
PROBED = "group even 0\ngroup a -1\ngroup b 0\ngroup c 1\npair a b -2\npair a c 6\npair b c -4\n"
CASE_B = "group a -1\ngroup b -1\ngroup c 7\npair a b 4\ngiven a 1\n"
SWALLOWED = "group a -1\ngroup b 2305843009213693952\ngroup c -2\ngroup d -0.25\npair a b -2305843009213693952\npair a c 1\npair a d 2\n"


def contents(*parts):
    """The text of a shipped file."""
    with open(os.path.join(*parts), encoding="utf-8") as file:
        return file.read()


class Presolve(Room):
    def test_the_shipped_plan(self):
        self.assertEqual(self.done("presolve", PLAN, "--probe", "--pairs", "--anchors")[1:], [
            "grade exact, in units of 2^-20: no sum is rounded", "given: 1", "  menu: second window", "forced: 6", "  sales-list: first window",
            "  sales-pages: first window", "  sales-index: first window", "  prices: second window", "  log: second window", "  counters: first window",
            "flat, either window at no cost: 0", "undecided: 2", "  receipts", "  photos", "constraints: 1",
            "  receipts and photos in different windows", "anchors, each free to be set to either window: 1", "  receipts",
            "1 given, 6 forced (4 first, 2 second), 0 flat, 2 undecided, 1 constraint, 1 pair examined"])

    def test_what_preprocess_forces_holds_in_one_best_plan(self):
        self.assertEqual(self.done("presolve", PLAN, "--preprocess")[2], "what preprocess forces holds in one best plan, and need not in every one")

    def test_json_has_the_same_by_the_schema(self):
        status, out, _ = call("presolve", "--heavy", "--probe", PLAN, "--pairs", "1", "--anchors", "--json")
        found = json.loads(out)
        check(self, found, "presolve")
        self.assertEqual((status, found["method"], found["unit"], found["undecided"], found["counts"]["first"]), (0, "heavy", 2.0 ** -20, [], 5))

    def test_flat_groups_by_name_and_values_that_probing_adds(self):
        self.put("f", PROBED)
        self.assertEqual(self.done("presolve", "f", "--probe", "1")[2:], [
            "given: 0", "forced: 1", "  b: second window (by probing)", "flat, either window at no cost: 1", "  even", "undecided: 2", "  a", "  c",
            "constraints: 1", "  a and c in different windows", "0 given, 1 forced (0 first, 1 second), 1 flat, 2 undecided, 1 constraint"])
        self.done("report", "f", "-o", "f.html", "--probe")
        self.assertIn("● forced by probing <b>b</b>", contents("f.html"))

    def test_the_shipped_graph(self):
        lines = self.done("presolve", os.path.join(GOLDEN, "graph.rud"), "--probe", "--pairs", "--anchors")
        self.assertEqual(lines[-6:], ["constraints: 2", "  3 and 4 in the same window", "  5 and 6 in different windows",
                                      "anchors, each free to be set to either window: 1", "  5",
                                      "0 given, 0 forced (0 first, 0 second), 0 flat, 6 undecided, 2 constraints, 15 pairs examined"])

    def test_an_inexact_plan_has_its_rounded_count_of_flat_groups(self):
        self.put("f", "group a 0.1\ngroup b 0\n")
        lines = self.done("presolve", "f")
        self.assertEqual(lines[1:], ["grade inexact: sums are rounded, and what is forced is what the rounded sums force", "given: 0", "forced: 1",
                                     "  a: first window", "flat by rounded sums, among the undecided: 1", "undecided: 1", "  b",
                                     "0 given, 1 forced (1 first, 0 second), 1 undecided"])
        self.assertIsNone(json.loads(call("presolve", "f", "--preprocess", "--json")[1])["counts"]["flat"])

    def test_names_with_spaces_and_every_sign(self):
        self.put("f", 'group "bill 2" -1\ngroup "größe 日\\n" -1\npair "bill 2" "größe 日\\n" 6\n')
        lines = self.done("presolve", "f", "--pairs")
        self.assertIn('  "bill 2" and "gr\\u00f6\\u00dfe \\u65e5\\n" not both in the second window', lines)

    def test_a_plan_of_4096_groups(self):
        draw = random.Random(7)
        places = draw.sample(range(4096 * 4096), 40000)
        entries = [(p // 4096, p % 4096, float(draw.randrange(-16, 17))) for p in places if p // 4096 != p % 4096][:32768]
        large = Plan([f"g{i}" for i in range(4096)], [float(draw.randrange(-200, 201)) for _ in range(4096)], entries, {0: 1})
        self.put("f", written(large, "text"))
        found = json.loads(call("presolve", "f", "--json")[1])
        self.assertEqual((found["groups"], found["pairs"], found["grade"]), (4096, 32768, "exact"))
        counts = found["counts"]
        self.assertEqual(counts["given"] + counts["forced"] + counts["flat"] + counts["undecided"], 4096)
        self.assertGreater(counts["forced"], 3000)
        self.assertEqual(self.done("tally", "f")[-1], f"1 1 0 0 1 {counts['first']} {counts['second']} "
                         f"{counts['flat'] + counts['undecided']} {1000 * counts['forced'] // 4095} {1000 * counts['forced'] % 4095}")


class Why(Room):
    def test_a_chain_down_to_given_values(self):
        self.put("f", "group a 3\ngroup b -3\ngroup c -0.5\ngroup d 9\npair a b 2\npair b c 4\npair c d -1\ngiven a 0\n")
        self.assertEqual(self.done("why", "f", "c"), [
            "grade exact, in units of 2^-20: no sum is rounded", "", "c goes into the first window", "  -0.5  its own weight",
            "    +2  with b in the second window", "  -0.5  the worst that all others can add (d -0.5)",
            "    +1  above 0: so much at least the second window costs", "", "b goes into the second window", "  -3  its own weight",
            "   0  with a in the first window", "  +2  the worst that all others can add (c +2)",
            "  -1  below 0: so much at least the second window saves", "", "a is given in the first window"])

    def test_each_sum_adds_up_and_ends_in_given_values(self):
        drawn = random_plan(3, 40, 60, [1.0, -2.0, 3.0, 5.0, -6.0, 0.25])
        drawn.given = {0: 1, 7: 0}
        self.put("f", written(drawn, "text"))
        found = json.loads(call("why", "f", "--json")[1])
        check(self, found, "why")
        with mock.patch.object(grounds, "LEAST_SHARE", 1), mock.patch.object(grounds.os, "cpu_count", return_value=3):
            self.assertEqual(json.loads(call("why", "f", "--json")[1]), found)
            with mock.patch.object(sums, "MANY", 0):
                self.assertEqual(json.loads(call("why", "f", "--json")[1]), found)
        seen = {reason["group"] for reason in found["reasons"]}
        self.assertGreater(len(seen), 15)
        for at, reason in enumerate(found["reasons"]):
            if reason["ground"] != "given":
                total = sum(map(float, [reason["own"], *(item["adds"] for item in reason["listed"] + reason["others"])]))
                self.assertEqual(total, float(reason["bound"]))
                self.assertTrue(total < 0 if reason["value"] else total > 0)
            self.assertLessEqual({item["group"] for item in reason["listed"]}, seen)

    def test_an_inexact_plan_shows_both_sums(self):
        self.put("f", SWALLOWED)
        lines = self.done("why", "f", "a")
        self.assertEqual(lines[:9], [
            "grade inexact: sums are rounded, and what is forced is what the rounded sums force", "", "a goes into the first window",
            "    -1  its own weight", "     0  with b in the first window", "  +0.5  with c in the second window",
            "     0  the worst that all others can add", "  -0.5  the exact sum, which does not force it", "  +0.5  as the presolver rounds it"])
        self.assertEqual(lines[-2:], ["  +1152921504606846976  above 0: so much at least the second window costs",
                                      "  +1152921504606846976  as the presolver rounds it"])
        check(self, json.loads(call("why", "f", "--json")[1]), "why")

    def test_groups_without_a_reason(self):
        self.refused(1, [f"{PLAN}: there is no group nobody"], "why", PLAN, "nobody")
        self.refused(1, ["the group photos is not forced: it is free at the end of the closure"], "why", PLAN, "photos")


class Reduce(Room):
    def test_f_is_kept_at_every_completion(self):
        drawn = random_plan(11, 9, 14, [1.0, -2.0, 3.0, 0.5, -6.0, 0.25])
        drawn.given, drawn.constant = {2: 1}, 3
        self.put("f", written(drawn, "text"))
        found = json.loads(call("reduce", "f", "--given", "-o", "out", "--json")[1])
        check(self, found, "reduce")
        smaller, kept = plan(contents("out")), [item["was"] for item in found["map"]]
        self.assertEqual((smaller.names, len(kept)), ([drawn.names[i] for i in kept], 8))
        for y in itertools.product((0, 1), repeat=len(kept)):
            x = [drawn.given.get(i, 0) for i in range(9)]
            for i, value in zip(kept, y):
                x[i] = value
            self.assertEqual(drawn.f(x), smaller.f(y))

    def test_the_shipped_plan_in_every_form(self):
        for form, name in {**FILES, "qbsolv": "qbsolv.qubo", "cfn": "a.cfn"}.items():
            if form != "rudy":
                self.done("reduce", PLAN, "--given", "-o", name, "--to", form)
                ending = os.path.splitext(name)[1]
                golden = f"plan{'-qbsolv' if form == 'qbsolv' else ''}{ending}"
                self.assertEqual(contents(name), contents(GOLDEN, golden), form)

    def test_each_shipped_form_is_the_same_plan(self):
        whole = plan(contents(GOLDEN, "plan.txt"))
        for name, form in (("plan.qubo", "source"), ("plan-qbsolv.qubo", "qbsolv"), ("plan.coo", "coo"), ("plan.json", "bqm")):
            read = plan(contents(GOLDEN, name), form)
            missing = whole.constant if form == "source" else 0
            for x in some_x(9, 8):
                self.assertEqual(read.f(x) + missing, whole.f(x), name)

    def test_its_lines(self):
        self.assertEqual(self.done("reduce", PLAN, "-o", "out.qubo"), [
            "out.qubo: written as source: 2 groups and 1 pair left; grade of the plan exact: f is the same at every x",
            "constant -5; this form has no place for it: f is the file's and this", "taken out: 7", "  sales-list: first window",
            "  sales-pages: first window", "  sales-index: first window", "  prices: second window", "  log: second window", "  counters: first window",
            "  menu: second window", "left, by number: 2", "  0 receipts", "  1 photos"])

    def test_a_sum_that_is_not_finite(self):
        self.put("f", "group a 1e308\ngroup b 0\npair a b 1.7e308\ngiven b 1\n")
        self.refused(1, ["the weight of a in the smaller problem is not finite: its sum is too large"], "reduce", "f", "--given", "-o", "out")
        self.put("g", "group a 1.7e308\ngroup b 1.7e308\ngiven a 1\ngiven b 1\n")
        self.refused(1, ["the constant in the smaller problem is not finite: its sum is too large"], "reduce", "g", "--given", "-o", "out")


class Mend(Room):
    def test_what_becomes_of_each_line(self):
        self.put("f", "group a 1\ngroup b 2\npair a b 1\npair b a 2\npair a gone 4\npair a b 0.5\ngiven a 1\n")
        self.assertEqual(self.done("mend", "f", "-o", "out"), [
            "line 3: pair a b: moved from place 1 to place 2", "line 4: pair b a: moved from place 2 to place 1",
            "line 5: pair a gone: dropped, since there is no group gone", "line 6: pair a b: joined to line 3, which has 1.5 in all",
            "4 of 4 pairs changed, 2 left", "out: written as text"])
        self.assertEqual(contents("out"), "group a 1.0\ngroup b 2.0\npair b a 2.0\npair a b 1.5\ngiven a 1\n")
        check(self, json.loads(call("mend", "f", "-o", "out", "--force", "--json")[1]), "mend")

    def test_other_forms(self):
        self.put("f.qubo", "2\n0 1 1\n5 70000 1\n0 1 2\n")
        self.assertEqual(self.done("mend", "f.qubo", "-o", "out.qubo")[:2], [
            "line 3: pair 5 70000: dropped, since there is no group 5 and 70000", "line 4: pair 0 1: joined to line 2, which has 3.0 in all"])
        model = {"type": "BinaryQuadraticModel", "variable_type": "BINARY", "variable_labels": ["a", "b"], "linear_biases": [1, 2],
                 "quadratic_biases": [3, 4], "quadratic_head": [0, 0], "quadratic_tail": [1, 1]}
        self.put("f.json", json.dumps(model))
        self.assertEqual(self.done("mend", "f.json", "-o", "out.txt")[0],
                         "quadratic_biases[1]: pair 0 1: joined to quadratic_biases[0], which has 14.0 in all")

    def test_what_cannot_be_mended(self):
        self.put("f", "group a 1\ngroup b 2\npair a b 1e308\npair a x 1e308\npair a b 1e308\n")
        self.refused(1, ["line 3: refused 18: the weights of the pair a b have a sum that is not finite"], "mend", "f", "-o", "out")
        self.put("g.rud", "2 1\n1 2 1\n")
        self.refused(1, ["g.rud:1: its weights are sums over the pairs, so that there is no entry list to mend"], "mend", "g.rud", "-o", "out")
        self.put("s.coo", "# vartype=SPIN\n0 1 1\n")
        self.refused(1, ["s.coo: its weights are sums over the pairs, so that there is no entry list to mend"], "mend", "s.coo", "-o", "out")
        self.put("h", "group a x\n")
        self.refused(1, ["h:1: `x` is no number"], "mend", "h", "-o", "out")


class Allow(Room):
    def test_yes_with_the_first_windows(self):
        self.assertEqual(self.done("allow", PLAN), [
            "yes: some windows meet all of 1 constraint", "the first such windows, for the groups that the constraints name: 2",
            "  receipts: first window", "  photos: second window", "how many further windows each choice fixes: 2",
            "  receipts: 1 by the first, 1 by the second", "  photos: 1 by the first, 1 by the second"])
        check(self, json.loads(call("allow", PLAN, "--pairs", "0", "--json")[1]), "allow")

    def test_no_with_the_group_that_has_no_window(self):
        """The constraints of an exact plan always allow something, so that these are put in place of the found ones."""
        with mock.patch.object(commands.Findings, "look", lambda found, *_: setattr(found, "records", [(6, 7, 9), (6, 7, 6)])):
            lines = self.done("allow", PLAN)
            check(self, json.loads(call("allow", PLAN, "--json")[1]), "allow")
        self.assertEqual(lines, ["no: 2 constraints, and no windows meet them all", "receipts can be in neither window"])

    def test_more_than_can_be_joined(self):
        with mock.patch.object(commands, "MOST_ALLOWED", 1):
            self.refused(1, ["1 constraints of 2 groups were found, and 65,536 constraints of 1 groups are the most that can be joined; --probe and "
                             "--pairs take a number"], "allow", PLAN)


class Tally(Room):
    def test_the_lines_worked_by_hand(self):
        files = {"A": CASE_G, "B": CASE_B, "given": "group a 1\ngiven a 0\n", "inexact": "group a 0.1\ngroup b 0\n",
                 "third": "group a 0\ngroup b 0\ngroup c 1\n"}
        for name, text in files.items():
            self.put(name, text)
        for names, line in (("A", "1 1 0 0 0 1 1 0 1000 0"), ("A B", "2 2 0 0 1 3 1 0 1000 0"), ("given", "1 1 0 0 1 0 0 0 -"),
                            ("inexact", "1 0 1 0 0 1 0 1 500 0"), ("third", "1 1 0 0 0 1 0 2 333 1")):
            self.assertEqual(self.done("tally", *names.split())[-1], line)
        self.assertEqual(self.done("tally", "A", "B")[:-1], [
            "2 plans read, 2 exact and 0 inexact; 0 refused", "groups: 1 given, 3 forced into the first window, 1 into the second, 0 free",
            "forced per thousand of those not given: 1000, remainder 0"])

    def test_refused_plans_are_told_and_counted(self):
        self.put("A", CASE_G)
        self.put("bad", "group a 1\npair a a 1\n")
        status, out, said = call("tally", "A", "bad", "none", "A")
        self.assertEqual((status, out.splitlines()[-1]), (1, "2 2 0 2 0 2 2 0 1000 0"))
        self.assertEqual(said.splitlines()[1], "ombradiec: none: No such file or directory")
        check(self, json.loads(call("tally", "A", "--json")[1]), "tally")


class Progress(Room):
    def test_it_is_said_what_takes_long(self):
        self.put("A", CASE_G)
        with mock.patch.multiple(progress, FIRST=0.0, NEXT=0.005):
            said = call("why", "A", keeps_progress=True)[2]
        self.assertRegex(said, "ombradiec: reading, 0 s\n(.*\n)*ombradiec: closure, [0-9]+ s\n(.*\n)*ombradiec: reasons, [012] of 2, [0-9]+ s\n")
        with mock.patch.object(progress, "FIRST", 60.0):
            self.assertEqual(call("presolve", "A", keeps_progress=True)[2], "")


class Refusals(Room):
    def test_a_refusal_of_the_program_is_told_in_words(self):
        with self.assertRaisesRegex(calls.Refused, "^refused 9: an answer list does not fit$"):
            calls.answered(stream.Answer("9 values=kept"))
