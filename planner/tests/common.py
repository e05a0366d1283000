"""What the tests share: plans from text, random plans, and the command as a user runs it."""
import contextlib
import io
import os
import random
import re
import subprocess
import sys
import tempfile
import unittest
from fractions import Fraction

from planner import forms
from planner.main import main
from planner.numbers import Rounding
from planner.plan import Plan

ROOT = os.path.dirname(os.path.dirname(os.path.dirname(os.path.abspath(__file__))))
FILES = {"text": "a.txt", "source": "a.qubo", "qbsolv": "a.qubo", "coo": "a.coo", "bqm": "a.json", "rudy": "a.rud"}
EDGES = [0.0, -0.0, 5e-324, -5e-324, 2.2250738585072014e-308, 1e308, -1.7976931348623157e308, 0.1, 1 / 3, 2.0 ** -20, 2.0 ** 51 + 0.5]


def plan(text, form="text", is_rounded=False):
    """The plan of a text in a form."""
    return forms.gathered(FILES[form], text.encode("utf-8", "surrogatepass"), None, Rounding(is_rounded)).plan(FILES[form])


def written(a_plan, form, is_rounded=False):
    """The text of a plan in a form."""
    return forms.write_plan(a_plan, form, Rounding(is_rounded))


def random_plan(seed, n, m, weights, names=None):
    """A plan whose weights are drawn from a list."""
    draw = random.Random(seed)
    places = [(row, column) for row in range(n) for column in range(n) if row != column]
    entries = [(row, column, draw.choice(weights)) for row, column in draw.sample(places, min(m, len(places)))]
    return Plan(names or [str(i) for i in range(n)], [draw.choice(weights) for _ in range(n)], entries, {})


def some_x(seed, n, count=40):
    """Random windows for n groups, and both all-first and all-second."""
    draw = random.Random(seed)
    return [[0] * n, [1] * n] + [[draw.randrange(2) for _ in range(n)] for _ in range(count)]


def bits(a_plan):
    """All that a plan holds, with the bits of its weights."""
    entries = [(row, column, q.hex()) for row, column, q in a_plan.entries]
    return a_plan.names, [c.hex() for c in a_plan.linear], entries, a_plan.given, Fraction(a_plan.constant)


def call(*words, keeps_progress=False):
    """Makes the command in this process: its status, standard output and standard error, without what is said of long work."""
    out, said = (io.TextIOWrapper(io.BytesIO(), "utf-8") for _ in range(2))
    with contextlib.redirect_stdout(out), contextlib.redirect_stderr(said):
        status = main(words)
        out.flush()
        said.flush()
    told = said.buffer.getvalue().decode()
    return status, out.buffer.getvalue().decode(), told if keeps_progress else re.sub(r"^ombradiec: .*, \d+ s\n", "", told, flags=re.M)


class Room(unittest.TestCase):
    """Tests with a folder of their own, in which they stand."""

    def setUp(self):
        room = tempfile.TemporaryDirectory()
        self.addCleanup(room.cleanup)
        before = os.getcwd()
        self.addCleanup(os.chdir, before)
        os.chdir(room.name)

    def put(self, name, text):
        """A file in the folder."""
        with open(name, "w", encoding="utf-8", newline="") as file:
            file.write(text)
        return name

    def done(self, *words):
        """The lines of a command that is done."""
        status, out, said = call(*words)
        self.assertEqual(status, 0, said)
        return out.splitlines()

    def refused(self, status, said, *words):
        """Holds the status and what is said on standard error, with nothing on standard output."""
        self.assertEqual(call(*words), (status, "", "".join(f"ombradiec: {line}\n" for line in said)))


def run(*words, given=b"", folder=None):
    """Runs the command: its status, standard output and standard error."""
    done = subprocess.run([sys.executable, os.path.join(ROOT, "ombradiec"), *words], cwd=folder, input=given, capture_output=True,
                          env={**os.environ, "LC_ALL": "C.UTF-8"})
    return done.returncode, done.stdout.decode(), done.stderr.decode()
