"""The tests of `records`: each form there and back, each fault with its line, and that the shipped files are what the tools write."""
import importlib.machinery
import importlib.util
import os
import struct
import subprocess
import sys
import tempfile
import unittest

sys.dont_write_bytecode = True
here = os.path.dirname(os.path.abspath(__file__))
root = os.path.dirname(here)


def load(name):
    loader = importlib.machinery.SourceFileLoader(name, os.path.join(here, name))
    module = importlib.util.module_from_spec(importlib.util.spec_from_loader(name, loader))
    loader.exec_module(module)
    return module


records = load("records")
record_cases = load("record_cases")


def contents(*parts):
    with open(os.path.join(root, *parts), "rb") as file:
        return file.read()


def field(text, name="f"):
    return records.read_field(name, text.splitlines())


def run(*words, given="", files=(), locale="C.UTF-8"):
    """Runs the tool in a folder with these files: its status, standard output and standard error."""
    with tempfile.TemporaryDirectory() as room:
        for name, data in dict(files).items():
            with open(os.path.join(room, name), "wb") as file:
                file.write(data)
        done = subprocess.run([sys.executable, os.path.join(here, "records"), *words], cwd=room, input=given.encode(), capture_output=True,
                              env={**os.environ, "LC_ALL": locale, "PYTHONUTF8": "0", "PYTHONCOERCECLOCALE": "0"})
        return done.returncode, done.stdout, done.stderr.decode()


class Pack(unittest.TestCase):
    def test_case_g(self):
        data = records.pack(field("group a -5\ngroup b -1\npair a b 4\n"))
        self.assertEqual(data, b"VC" + struct.pack("<d", -5) + b"VC" + struct.pack("<d", -1) + b"QE" + struct.pack("<HHd", 0, 1, 4) + b"ZZ")

    def test_empty(self):
        self.assertEqual(records.pack(field("# nothing\n\n")), b"ZZ")

    def test_entries_rise_by_column_then_row(self):
        f = field("group a 0\ngroup b 0\ngroup c 0\npair b c 1\npair c a 2\npair a c 3\n")
        data = records.pack(f)
        places = [struct.unpack("<HH", data[i + 2:i + 6]) for i in range(30, len(data) - 2, 14)]
        self.assertEqual(places, [(2, 0), (0, 2), (1, 2)])

    def test_qubo(self):
        f = field("2\n0 1 4\n0 -5\n1 -1\n", "f.qubo")
        self.assertEqual(records.pack(f), records.pack(field("group a -5\ngroup b -1\npair a b 4\n")))

    def test_qubo_by_any_case_of_its_ending(self):
        self.assertEqual(records.pack(field("1\n0 -5\n", "F.QUBO")), records.pack(field("group a -5\n")))

    def test_qubo_without_linear_weights(self):
        self.assertEqual(records.pack(field("1\n", "f.qubo")), records.pack(field("group a 0\n")))

    def test_a_mark_of_the_byte_order_is_passed_over(self):
        text = b"group a -5\r\ngroup b 1\r\n"
        packed = (0, records.pack(field("group a -5\ngroup b 1\n")), "")
        self.assertEqual(run("pack", "f", files={"f": text}), packed)
        self.assertEqual(run("pack", "f", files={"f": b"\xef\xbb\xbf" + text}), packed)

    def test_numbers(self):
        for word, value in (("1", 1.0), ("+2.", 2.0), (".5", 0.5), ("-1e-3", -0.001), ("1E2", 100.0), ("-0", -0.0)):
            self.assertEqual(repr(records.number(word)), repr(value))

    def test_there_and_back(self):
        f = field("group g0 0.1\ngroup g1 -2\npair g1 g0 0.3\ngiven g1 0\n")
        self.assertEqual(records.as_text(records.unpack(records.pack(f))), records.as_text(f))


class Faults(unittest.TestCase):
    def refuses(self, text, words, name="f"):
        with self.assertRaises(records.Fault) as caught:
            field(text, name)
        self.assertIn(words, str(caught.exception))

    def test_text(self):
        self.refuses("group a x\n", "f:1: `x` is no number")
        self.refuses("group a 1\ngroup a 2\n", "f:2: there is a group `a` already")
        self.refuses("group a 1\npair a b 1\n", "f:2: there is no group `b` above")
        self.refuses("group a 1\ngroup b 1\npair a b 1\npair a b 1\n", "f:4: this pair stands above")
        self.refuses("group a 1\ngiven a 2\n", "f:2: a given value is 0 or 1")
        self.refuses("group a 1\ngiven a 1\ngiven a 1\n", "f:3: this group has a value already")
        self.refuses("weight a 1\n", "f:1: neither")
        self.refuses("".join(f"group g{i} 0\n" for i in range(257)), "f:257: more than 256 groups")
        self.refuses("group a 0\npair a a 1\n", "f:2: a pair of one group with itself")
        self.refuses("group a\x07 0\n", "f:1: the name 'a\\x07' has a sign that cannot be shown")

    def test_numbers(self):
        for word in ("nan", "NaN", "-nan", "inf", "-Infinity"):
            self.refuses(f"group a 1\ngroup b {word}\n", f"f:2: `{word}` is not finite")
        for word in ("1e400", "-1e400"):
            self.refuses(f"group a {word}\n", f"f:1: `{word}` is too large")
        for word in ("1_000", "\u00b2", "\uff11", "0x10", "1e", ".", "1,5"):
            self.refuses(f"group a {word}\n", f"f:1: `{word}` is no number")

    def test_qubo(self):
        self.refuses("x\n", "`x` is no whole number", "f.qubo")
        self.refuses("2\n0 2 1\n", "f.qubo:2: `2` is not below 2", "f.qubo")
        self.refuses("2\n0\n", "neither `i j q` nor `i c`", "f.qubo")
        self.refuses("2\n0 1\n1 1\n0 1\n", "f.qubo:4: variable 0 has a linear weight above", "f.qubo")
        self.refuses("2\n1 1 3\n", "f.qubo:2: a pair of one group with itself", "f.qubo")
        for word in ("\u00b2", "1_0", "-1", "+1"):
            self.refuses(f"{word}\n", f"f.qubo:1: `{word}` is no whole number", "f.qubo")
        self.refuses("9" * 5000 + "\n", "is not below 257", "f.qubo")

    def test_told_without_a_traceback(self):
        for text, words in (
            (b"group a \xc2\xb2\n", "records: f:1: `"),
            (b"group a 1\ngroup \xff 1\n", "records: f:2: no text in UTF-8"),
            ("group \u03b1 1\ngroup \u03b1 1\n".encode(), "records: f:2: there is a group `"),
        ):
            for locale in ("C", "C.UTF-8"):
                status, out, said = run("pack", "f", files={"f": text}, locale=locale)
                self.assertEqual((status, out), (1, b""))
                self.assertTrue(said.startswith(words), said)
                self.assertEqual(said.count("\n"), 1, said)
        self.assertEqual(run("pack", "f")[0], 1)
        self.assertEqual(run("pack")[0], 2)
        self.assertEqual(run("--help")[0], 0)

    def test_records(self):
        for data, words in (
            (b"", "byte 0: no mark"),
            (b"VC\0\0", "byte 0: a record that is cut"),
            (b"ZZ\0", "byte 2: bytes after ZZ"),
            (b"FX\0\0\0ZZ", "byte 0: a value for a variable not declared"),
            (b"VC" + bytes(8) + b"FX\0\0\2ZZ", "byte 10: a given value above 1"),
        ):
            with self.assertRaises(records.Fault) as caught:
                records.unpack(data)
            self.assertIn(words, str(caught.exception))


class Answer(unittest.TestCase):
    def test_names(self):
        f = field("group index -5\ngroup sales -1\npair index sales 4\n")
        self.assertEqual(records.named(f, "grade exact\nx 0 1\nx 1 0\nend 2\n"), "grade exact\nindex: 1\nsales: 0\n2 of 2 groups forced\n")

    def test_a_name_that_the_terminal_cannot_show(self):
        files = {"f": "group \u03b1 1\n".encode()}
        answer = "grade exact\nx 0 0\nend 1\n"
        self.assertEqual(run("answer", "f", given=answer, files=files, locale="C"), (0, b"grade exact\n\\u03b1: 0\n1 of 1 groups forced\n", ""))

    def test_no_answer(self):
        f = field("group a 1\n")
        for answer, words in (
            ("refused 5\n", "refused 5: a weight is not finite"),
            ("", "there is no answer"),
            ("grade exact\n", "no whole answer"),
            ("grade exact\nx 0 0\n", "no whole answer"),
            ("grade exact\nx 0 0\nend 2\n", "no whole answer"),
            ("x 0 0\nend 1\n", "no whole answer"),
            ("grade exact\nx 0\nend 1\n", "no answer"),
            ("grade exact\nx 1 0\nend 1\n", "`1` is not below 1"),
        ):
            with self.assertRaises(records.Fault) as caught:
                records.named(f, answer)
            self.assertIn(words, str(caught.exception))

    def test_no_answer_is_no_success(self):
        files = {"f": b"group a 1\n"}
        self.assertEqual(run("answer", "f", given="refused 5\n", files=files), (1, b"", "records: refused 5: a weight is not finite\n"))
        self.assertEqual(run("answer", "f", files=files), (1, b"", "records: there is no answer on standard input\n"))

    def test_every_refusal_has_words(self):
        numbers = [line.split(" ", 1)[0] for line in contents("tools", "refusals").decode("ascii").splitlines()]
        self.assertEqual(numbers, sorted(set(numbers), key=int))
        printed = {answer.split()[1] for _, answer in record_cases.CASES if answer.startswith("refused")}
        self.assertLessEqual(printed, set(numbers))


CHAIN = "group bill-1 -5\ngroup bill-2 -1\ngroup index-7 1\ngroup log 0\npair bill-1 bill-2 4\npair bill-2 index-7 9\npair log index-7 -11\ngiven log 1\n"


def recorded_reasons():
    """The cases of `reason` that docs/CASES.md's stream records, each with its line: the field as text, the variable and the words."""
    data, at = contents("crates", "replay", "stdin"), 0
    for line in contents("crates", "replay", "stdout").decode("ascii").splitlines():
        code, linear, rows, columns, weights, start, constraints = struct.unpack_from("<B6I", data, at)
        variable, = struct.unpack_from("<Q", data, at + 45)
        at += 77
        c, at = struct.unpack_from(f"<{linear}d", data, at), at + 8 * linear
        i, at = struct.unpack_from(f"<{rows}H", data, at), at + 2 * rows
        j, at = struct.unpack_from(f"<{columns}H", data, at), at + 2 * columns
        q, at = struct.unpack_from(f"<{weights}d", data, at), at + 8 * weights
        values, at = data[at:at + start], at + start + 2 * constraints
        if code == 16 and line.split()[0] in ("0", "12", "13"):
            f = records.Field()
            f.names, f.linear = [f"g{k}" for k in range(linear)], list(c)
            f.entries = {(column, row): weight for row, column, weight in zip(i, j, q)}
            f.given = {k: value for k, value in enumerate(values) if value < 2}
            yield f, variable, line


class Why(unittest.TestCase):
    def test_down_to_given_groups(self):
        answer = "grade exact\nx 0 1\nx 1 0\nx 2 1\nend 3\n"
        lines = [
            "index-7 goes into the second window: with bill-2 in the first and log in the second, moving it costs at least 4.5",
            "bill-2 goes into the first window: with bill-1 in the second, moving it costs at least 1",
            "bill-1 goes into the second window: wherever the others go, moving it costs at least 3",
            "log is given in the second window",
        ]
        told = lambda *words: run("answer", "f", "--why", *words, given=answer, files={"f": CHAIN.encode()})
        self.assertEqual(told("index-7"), (0, "".join(line + "\n" for line in lines).encode(), ""))
        self.assertEqual(told("bill-2"), (0, "".join(line + "\n" for line in lines[1:3]).encode(), ""))
        self.assertEqual(told("log"), (0, (lines[3] + "\n").encode(), ""))
        self.assertEqual(told(), (0, "".join(lines[k] + "\n" for k in (2, 1, 0, 3)).encode(), ""))
        self.assertEqual(told("menu"), (1, b"", "records: there is no group `menu` above\n"))
        self.assertEqual(told("log", "bill-1")[0], 2)

    def test_names_are_joined(self):
        f = field("".join(f"group {name} -1\n" for name in "abcd") + "group t 1\n" + "".join(f"pair {name} t -1\n" for name in "abcd") + "given d 0\n")
        self.assertEqual(
            records.why(f, "grade exact\nx 0 1\nx 1 1\nx 2 1\nx 4 1\nend 4\n", "t").splitlines()[0],
            "t goes into the second window: with d in the first and a, b and c in the second, moving it costs at least 0.5",
        )

    def test_no_reason(self):
        for text, answer, name, words in (
            ("group a 0.1\ngroup b 1e300\n", "grade inexact\nx 0 0\nx 1 0\nend 2\n", "a", "refused 12: the field is inexact"),
            ("group a 0\n", "grade exact\nend 0\n", "a", "refused 13: the variable is none of the field, or is free at the end"),
            ("group a 1\n", "grade exact\nend 0\n", "a", "the answer on standard input is not of this field"),
            ("group a 1\n", "refused 5\n", "a", "refused 5: a weight is not finite"),
        ):
            with self.assertRaises(records.Fault) as caught:
                records.why(field(text), answer, name)
            self.assertEqual(str(caught.exception), words)

    def test_as_the_call_has_it(self):
        count = 0
        for f, variable, line in recorded_reasons():
            count += 1
            parts = dict(word.split("=") for word in line.split() if "=" in word)
            try:
                told = records.Run(f)
            except records.Fault:
                self.assertEqual(line.split()[0], "12")
                continue
            if variable >= len(f.names) or told.values[variable] == 2:
                self.assertEqual(line.split()[0], "13")
                continue
            ground = "given" if variable in f.given else ("lower", "upper")[told.values[variable]]
            half_units = 0 if ground == "given" else told.bound(variable) / (told.unit / 2)
            listed = [] if ground == "given" else sorted(told.listed[variable])
            self.assertEqual(
                (parts["ground"], records.Fraction(2) ** (int(parts["unit"]) - 20), struct.unpack(">d", bytes.fromhex(parts["bound"]))[0], parts["variables"]),
                (ground, told.unit, half_units, ",".join(map(str, listed)) or "-"),
            )
        self.assertGreater(count, 100)


class Mend(unittest.TestCase):
    def test_in_words_by_line(self):
        text = b"group a 0\ngroup b 0\ngroup c 0\npair c b 1\npair a b 5\npair c b -1  # again\npair a x 4\npair a b 2\n"
        self.assertEqual(run("mend", "f", files={"f": text}), (0, b"".join([
            b"f:4: pair c b: moved from place 1 to place 2\n",
            b"f:5: pair a b: moved from place 2 to place 1\n",
            b"f:6: pair c b: joined to line 4, which has 0.0 in all\n",
            b"f:7: pair a x: dropped, since there is no group x\n",
            b"f:8: pair a b: joined to line 5, which has 7.0 in all\n",
            b"5 of 5 pairs changed, 2 left\n"]), ""))

    def test_a_good_list(self):
        self.assertEqual(run("mend", "f", files={"f": b"group a 0\ngroup b 0\npair b a 1\npair a b 2\n"}), (0, b"0 of 2 pairs changed, 2 left\n", ""))

    def test_qubo(self):
        self.assertEqual(run("mend", "f.qubo", files={"f.qubo": b"2\n0 1 4\n7 7 1\n1 0 2\n"}), (0, b"".join([
            b"f.qubo:2: pair 0 1: moved from place 1 to place 2\n",
            b"f.qubo:3: pair 7 7: dropped, since there is no group 7\n",
            b"f.qubo:4: pair 1 0: moved from place 3 to place 1\n",
            b"3 of 3 pairs changed, 2 left\n"]), ""))

    def test_a_sum_that_is_not_finite(self):
        status, out, said = run("mend", "f", files={"f": b"group a 0\ngroup b 0\npair a b 1e308\npair a b 1e308\n"})
        self.assertEqual((status, out), (1, b""))
        self.assertIn("refused 18", said)

    def test_a_fault_has_its_line(self):
        status, out, said = run("mend", "f", files={"f": b"group a 0\npair a a x\n"})
        self.assertEqual((status, out, said), (1, b"", "records: f:2: `x` is no number\n"))

    def test_as_the_call_has_it(self):
        lines = contents("crates", "replay", "stdout").decode().splitlines()
        data, at, tried = contents("crates", "replay", "stdin"), 0, 0
        for line in lines:
            head = struct.unpack("<B11I4Q", data[at:at + 77])
            code, (n, rows, columns, weights, start, constraints) = head[0], head[1:7]
            body = at + 77
            at = body + 8 * n + 2 * rows + 2 * columns + 8 * weights + start + 2 * constraints
            if code != 15 or not line.startswith("0 "):
                continue
            body += 8 * n
            ends = struct.unpack(f"<{rows + columns}H", data[body:body + 2 * (rows + columns)])
            quad = struct.unpack(f"<{weights}d", data[body + 2 * (rows + columns):body + 2 * (rows + columns) + 8 * weights])
            left, changes = records.mended(n, list(zip(ends[:rows], ends[rows:], quad)))
            told = dict(word.split("=", 1) for word in line.split(" ") if "=" in word)
            self.assertEqual(told["changes"], ";".join(",".join(map(str, change)) for change in changes) or "-")
            self.assertEqual(told["entries"], ";".join(f"{r},{c},{struct.pack('>d', q).hex()}" for r, c, q in left) or "-")
            tried += 1
        self.assertGreater(tried, 200)


class Shipped(unittest.TestCase):
    def test_example(self):
        text = contents("example", "plan.txt").decode()
        self.assertEqual(records.pack(field(text)), contents("example", "plan.rec"))

    def test_cases(self):
        with tempfile.TemporaryDirectory() as room:
            names = [os.path.join(room, name) for name in ("stdin", "stdout")]
            self.assertEqual(record_cases.main(names), 0)
            for name in names:
                with open(name, "rb") as file:
                    self.assertEqual(file.read(), contents("crates", "presolve_cases", os.path.basename(name)))


if __name__ == "__main__":
    unittest.main()
