"""The case stream of docs/CASES.md: a case as bytes, and the line that answers it."""
import struct

from .faults import Unusable

CLOSURE, PREPROCESS, HEAVY, PROBE, LIMITED_PROBE, PAIRS = 1, 3, 4, 7, 8, 9
ANCHORS, SUB_PROBLEM, MEND, REASON, KEEP, ALLOW = 11, 14, 15, 16, 17, 20
LONGEST_LIST = 1_500_002
HEAD = struct.Struct("<B11I4Q")


class Lists:
    """A field's four lists as bytes, packed once for many cases."""

    def __init__(self, linear, entries):
        self.n, self.m = len(linear), len(entries)
        rows, columns, weights = zip(*entries) if entries else ((), (), ())
        self.data = struct.pack(f"<{self.n}d{self.m}H{self.m}H{self.m}d", *linear, *rows, *columns, *weights)


def case(code, lists, start=b"", found=0, answers=0, variables=0, variable=0, limit=0, least=0):
    """A case of a call on a field, with as much scratch as the call asks for."""
    n, m = lists.n, lists.m
    head = HEAD.pack(code, n, m, m, m, len(start), 0, found, answers, variables, 8 * n + 4 * m + 16, 16 * n + 8 * m + 16, variable, 0, limit, least)
    return head + lists.data + start


def allow_case(n, records):
    """A case of the call that asks what constraints allow."""
    flat = [number for record in records for number in record]
    head = HEAD.pack(ALLOW, 0, 0, 0, 0, 0, len(flat), n, 0, 2 * n, 128 * n, 16 * n + 8 * len(records) + 16, n, 0, 0, 0)
    return head + struct.pack(f"<{len(flat)}H", *flat)


class Answer:
    """The line of a case: its number, its words by name, and the grade."""

    def __init__(self, line):
        first, *words = line.split(" ")
        if not first.isdigit() or "broken" in line:
            raise Unusable(f"the program's answer is not whole: {line[:200]!r}")
        self.number = int(first)
        self.is_exact = "exact" in words[:1]
        self.words = dict(word.split("=", 1) for word in words if "=" in word)
        self.is_yes = "yes" in words[:1]

    def values(self, name="values"):
        """A list of values, a digit each."""
        return bytes(map(int, self.words[name].replace("-", "")))

    def count(self, name="count"):
        """A number."""
        return int(self.words[name])

    def numbers(self, name):
        """A list of numbers."""
        return [] if self.words[name] == "-" else [int(number) for number in self.words[name].split(",")]

    def triples(self, name):
        """A list of three numbers each."""
        return [] if self.words[name] == "-" else [tuple(map(int, item.split(","))) for item in self.words[name].split(";")]

    def weight(self, name):
        """A weight from its bits."""
        return weight_of(self.words[name])

    def weights(self, name):
        """A list of weights."""
        return [] if self.words[name] == "-" else [weight_of(bits) for bits in self.words[name].split(",")]

    def entries(self):
        """The entries of a field."""
        if self.words["entries"] == "-":
            return []
        parts = [item.split(",") for item in self.words["entries"].split(";")]
        return [(int(row), int(column), weight_of(bits)) for row, column, bits in parts]


def weight_of(bits):
    """The f64 of 16 hex digits, or of the one word for NaN."""
    return float("nan") if bits == "nan" else struct.unpack(">d", bytes.fromhex(bits))[0]
