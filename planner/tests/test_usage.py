"""Wrong usage, files that are there or not, and a machine without the kit: words and statuses."""
import json
import os
import sys
import time
from unittest import mock

from planner import program, progress

from .common import ROOT, Room, call, run
from .schema import check

PLAN = os.path.join(ROOT, "example", "plan.txt")


class Usage(Room):
    def wrong(self, said, *words):
        """Holds wrong usage to its status and to the end of what is said."""
        status, out, error = call(*words)
        self.assertEqual((status, out), (2, ""))
        self.assertTrue(error.endswith(said + "\n"), error)

    def test_words_that_are_none(self):
        self.wrong("ombradiec: error: the following arguments are required: COMMAND")
        self.wrong("(choose from 'presolve', 'why', 'reduce', 'mend', 'convert', 'allow', 'tally', 'report')", "solve")
        self.wrong("ombradiec presolve: error: the following arguments are required: PLAN", "presolve")
        self.wrong("ombradiec reduce: error: the following arguments are required: -o/--output", "reduce", PLAN)
        self.wrong("argument --heavy: not allowed with argument --closure", "presolve", PLAN, "--closure", "--heavy")
        self.wrong("argument --probe: `many` is no whole number", "presolve", PLAN, "--probe=many")
        self.wrong("argument --from: invalid choice: 'cfn' (choose from 'text', 'source', 'qbsolv', 'coo', 'bqm', 'rudy')", "presolve", PLAN, "--from", "cfn")
        self.wrong("ombradiec: error: unrecognized arguments: --js", "presolve", PLAN, "--js")

    def test_help(self):
        status, out, said = call("--help")
        self.assertEqual((status, said), (0, ""))
        self.assertIn("report", out)

    def test_forms_that_are_not_read_or_not_written(self):
        self.put("a.cfn", "")
        self.refused(2, ["a.cfn: the form cfn is written and not read"], "convert", "a.cfn", "-o", "out")
        self.refused(2, ["the form rudy is read and not written"], "convert", PLAN, "-o", "out.rud")

    def test_files_that_are_not_there(self):
        self.refused(1, ["none: No such file or directory"], "presolve", "none")
        self.refused(1, [".: Is a directory"], "presolve", ".")
        self.put("f", "group a 1\n")
        self.refused(1, ["none/out: No such file or directory"], "convert", "f", "-o", "none/out")

    def test_nothing_is_written_over_unless_that_is_asked_for(self):
        self.put("f", "group a 1\n")
        self.put("out", "before")
        self.refused(1, ["out is there already; --force writes over it"], "convert", "f", "-o", "out")
        with open("out", encoding="ascii") as file:
            self.assertEqual(file.read(), "before")
        self.assertEqual(call("convert", "f", "-o", "out", "--force")[0], 0)
        with open("out", encoding="ascii") as file:
            self.assertEqual(file.read(), "group a 1.0\n")

    def test_a_plan_that_is_its_own_output_stays(self):
        self.put("f", "group a 1\n")
        self.refused(1, ["f is there already; --force writes over it"], "convert", "f", "-o", "f")

    def test_a_refusal_as_json(self):
        self.put("f", "group a x\ngroup b y\n")
        status, out, said = call("convert", "f", "-o", "out", "--json")
        told = json.loads(out)
        check(self, told, "refusal")
        self.assertEqual((status, told["refused"]), (1, ["f:1: `x` is no number", "f:2: `y` is no number"]))
        self.assertEqual(said, "ombradiec: f:1: `x` is no number\nombradiec: f:2: `y` is no number\n")

    def test_convert_as_lines_and_json(self):
        self.put("f", "group a 1\nconstant 0.25\n")
        self.assertEqual(self.done("convert", "f", "-o", "out.coo"), ["out.coo: written as coo: 1 group and 0 pairs", "constant 0.25"])
        check(self, json.loads(call("convert", "f", "-o", "out.json", "--json")[1]), "convert")

    def test_standard_input_and_a_reader_that_goes(self):
        text = "".join(f"group g{i} 1\n" for i in range(3))
        self.assertEqual(run("convert", "-", "--from", "text", "-o", "out", given=text.encode(), folder=os.getcwd())[0], 0)
        self.put("f", "".join(f"group g{i} x\n" for i in range(2)))
        self.assertEqual(os.system(f"{ROOT}/ombradiec --help | head -n 1 >/dev/null"), 0)


class NoProgram(Room):
    def test_no_kit(self):
        with mock.patch.object(program.shutil, "which", return_value=None):
            self.refused(2, ["there is no rt here: it is the command of the Rattle kit, which README.md names, and makes the program"], "presolve", PLAN)

    def test_a_build_that_fails(self):
        with mock.patch.object(program, "is_built", return_value=False), mock.patch.object(program.subprocess, "run") as built:
            built.return_value.returncode = 2
            self.refused(2, ["the program that answers the calls could not be built"], "presolve", PLAN)
        self.assertEqual(built.call_args[0][0], [os.path.join(ROOT, "tools", "run"), "replay"])

    def test_while_it_is_built_the_build_alone_says_so(self):
        def build(*_, **__):
            # what was being said ends, and then nothing may come
            time.sleep(0.05)
            before = sys.stderr.buffer.getvalue()
            time.sleep(0.1)
            self.assertEqual(sys.stderr.buffer.getvalue(), before)
            return mock.Mock(returncode=2)

        with mock.patch.multiple(progress, FIRST=0.0, NEXT=0.005), mock.patch.object(program, "is_built", return_value=False), \
                mock.patch.object(program.subprocess, "run", build):
            self.refused(2, ["the program that answers the calls could not be built"], "presolve", PLAN)

    def test_a_program_that_ends_early(self):
        with mock.patch.object(program, "command", return_value=["false"]):
            self.refused(2, ["the program gave 0 answers to 1 cases, and ended with status 1"], "presolve", PLAN)

    def test_a_program_older_than_a_source_is_built_again(self):
        os.makedirs("crates/b/out")
        for file in ("crates.txt", "crates/a", "crates/b/out/made", "program"):
            self.put(file, "")
        os.chmod("program", 0o755)
        os.utime("crates/b/out/made", (10 ** 10, 10 ** 10))
        with mock.patch.object(program, "PROGRAM", "program"), mock.patch.object(program, "ROOT", "."):
            for moment, wanted in ((1, True), (10 ** 10, False)):
                os.utime("crates/a", (moment, moment))
                self.assertEqual(program.is_built(), wanted)
            os.utime("crates/a", (1, 1))
            os.chmod("program", 0o644)
            self.assertFalse(program.is_built())
