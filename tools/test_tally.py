#!/usr/bin/env python3
"""Holds `presolve tally` to the sum over the answers to the same fields alone, and to one answer for every cut of a pipe's reads.

  test_tally.py [SEED [INPUTS [CUTS]]]      from the root, after `rt ci`, or `rt run` of presolve and of presolve_cases

It draws so many inputs of up to 40 fields each, among them refused, inexact, malformed and cut ones, and cuts one input at so many offsets, or at all of them.
The fields are answered alone by presolve_cases, a thousand a run, and some of them by presolve too. Where BIN is set it is the folder of native programs to
run, instead of those of crates/NAME/out under the kit's loader.
"""
import fcntl
import functools
import os
import random
import struct
import subprocess
import sys
import termios

SIZES = {b"VC": 10, b"QE": 14, b"FX": 5, b"ZZ": 2}


def VC(x):
    return b"VC" + struct.pack("<d", x)


def QE(row, column, x):
    return b"QE" + struct.pack("<HHd", row, column, x)


def FX(variable, value):
    return b"FX" + struct.pack("<HB", variable, value)


# ---- running the programs

@functools.cache
def command(name):
    if "BIN" in os.environ:
        return [os.path.join(os.environ["BIN"], name)]
    kit = os.path.dirname(subprocess.run(["rt", "doc"], capture_output=True, text=True, check=True).stdout.strip())
    lib = os.path.join(kit, "toolchain", "lib")
    return [os.path.join(lib, "ld-linux-x86-64.so.2"), "--library-path", lib, f"crates/{name}/out/{name}"]


def answer(data, *words, program="presolve"):
    return subprocess.run(command(program) + list(words), input=data, capture_output=True, check=True).stdout.decode()


def answer_parts(parts):
    """The tally of what comes through a pipe in parts: each is written once the ones before it have been read."""
    child = subprocess.Popen(command("presolve") + ["tally"], stdin=subprocess.PIPE, stdout=subprocess.PIPE, bufsize=0)
    for part in parts:
        child.stdin.write(part)
        while struct.unpack("i", fcntl.ioctl(child.stdin, termios.FIONREAD, b"\0" * 4))[0] and child.poll() is None:
            pass
    child.stdin.close()
    with child.stdout:
        got = child.stdout.read().decode()
    assert child.wait() == 0
    return got


# ---- the tally, from the requests' words

def fields_of(data):
    """The fields of an input, each with its number of variables and of given ones, and whether a malformed record ends it."""
    found, at = [], 0
    while at < len(data):
        begin, weights, entries, given, mark = at, 0, 0, set(), b""
        while mark != b"ZZ":
            mark = data[at:at + 2]
            if mark not in SIZES or at + SIZES[mark] > len(data):
                return found, True
            if mark == b"FX":
                variable, value = struct.unpack("<HB", data[at + 2:at + 5])
                if variable >= weights or variable in given or value > 1:
                    return found, True
                given.add(variable)
            weights += mark == b"VC"
            entries += mark == b"QE"
            if weights > 256 or entries > 1024:
                return found, True
            at += SIZES[mark]
        found.append((data[begin:at], weights, len(given)))
    return found, False


def answers(fields):
    """The lines that are printed for each of the fields alone."""
    found, left = {}, list(dict.fromkeys(fields))
    while left:
        part, left = left[:1000], left[1000:]
        lines = iter(answer(b"".join(struct.pack("<H", len(records)) + records for records in part), program="presolve_cases").splitlines())
        for records in part:
            found[records] = [next(lines)]
            while not found[records][-1].startswith(("refused ", "end ")):
                found[records].append(next(lines))
        assert next(lines, None) is None
    return found


def tally_of(data, alone):
    """What is to be printed for an input, by the lines for each field alone."""
    fields, malformed = fields_of(data)
    read = exact = refused = given = zero = one = free = 0
    for records, variables, starts in fields:
        lines = alone[records]
        if lines[0].startswith("refused"):
            assert lines[0] != "refused 11", records
            refused += 1
            continue
        values = [line.split()[2] for line in lines[1:-1]]
        assert lines[-1] == f"end {len(values)}", lines
        read += 1
        exact += lines[0] == "grade exact"
        given += starts
        zero += values.count("0")
        one += values.count("1")
        free += variables - starts - len(values)
    rest = zero + one + free
    rate = "%d %d" % divmod(1000 * (zero + one), rest) if rest else "-"
    refusal = "refused 11\n" if malformed else ""
    return refusal + f"{read} {exact} {read - exact} {refused + malformed} {given} {zero} {one} {free} {rate}\n"


# ---- inputs

def merged(draw, *lists):
    """The lists' items, each list in its order."""
    left, order = [list(items) for items in lists if items], []
    while left:
        items = draw.choice(left)
        order.append(items.pop(0))
        left = [items for items in left if items]
    return order


def field(draw):
    n = draw.choice([0, 1, 1, 2, 2, 3, 3, 4, 5, 6, 8, 13, 20]) if draw.random() < 0.995 else draw.choice([60, 256])
    kind = draw.random()
    if kind < 0.6:
        weight = lambda: draw.randint(-12, 12) / 2
    elif kind < 0.75:
        weight = lambda: draw.randint(-9, 9) * 2.0 ** draw.choice([-20, -21, 0, 20, 31])
    elif kind < 0.9:
        weight = lambda: draw.choice([0.1, -0.0, 1e300, -1e-310, draw.uniform(-3, 3), draw.uniform(-3, 3)])
    else:
        weight = lambda: draw.choice([float("inf"), float("-inf"), float("nan")]) if draw.random() < 0.1 else float(draw.randint(-3, 3))
    places = [(row, column) for column in range(n) for row in range(n) if row != column and draw.random() < min(0.4, 40 / (n * n))][:1024]
    fault = draw.random()
    if fault < 0.1 and n:
        at = draw.randint(0, len(places))
        places[at:at] = [draw.choice([(n, 0), (0, n + draw.randint(0, 9)), (n - 1, n - 1), (0, 0), *places[-1:], *places[:1]])]
    weights = [VC(weight()) for _ in range(n)]
    entries = [QE(row, column, weight()) for row, column in places]
    given = [FX(i, draw.randrange(2)) for i in range(n) if draw.random() < 0.2]
    if draw.random() < 0.5:
        return b"".join(weights + merged(draw, entries, given)) + b"ZZ"
    return b"".join(merged(draw, entries, weights) + draw.sample(given, len(given))) + b"ZZ"


def fault(draw):
    """What no field is: an unknown mark, a cut record, a value that is above 1, given twice or for no variable, too many of one kind, or no ZZ."""
    whole = field(draw)
    return draw.choice([
        whole[:draw.randrange(len(whole))], whole[:-2], b"XX", b"Z", b"zz", b"VC\0", VC(1) + FX(0, 2) + b"ZZ", VC(1) + FX(0, 0) * 2 + b"ZZ", FX(0, 0) + VC(1) + b"ZZ",
        VC(0) * 257 + b"ZZ", QE(0, 1, 1) * 1025 + b"ZZ"])


def whole_input(draw):
    data = b"".join(field(draw) for _ in range(draw.choice([0, 1, 2, 3, 5, 8, 13, 20, 40])))
    if draw.random() < 0.3:
        data += fault(draw) + draw.choice([b"", field(draw)])
    return data


def main():
    words = [int(word) for word in sys.argv[1:]]
    seed, inputs, cuts = words + [1, 12, 40][len(words):]
    draw = random.Random(seed)
    drawn = [whole_input(draw) for _ in range(inputs)]
    short = b"".join(field(draw) for _ in range(5))[:300]
    # fields of 2,562, 17 and 2 bytes fill the buffer up to any index
    filling = [VC(1) * 256 + b"ZZ", VC(1) + FX(0, 1) + b"ZZ", b"ZZ"]
    before = [filling[0] * (end // 2562 - 1) + filling[1] * (end % 2) + filling[2] * ((end % 2562 + 2562 - 17 * (end % 2)) // 2)
              for edge in (65536 - 18179, 65536) for end in range(edge - len(short) - 2, edge + 3)]
    if cuts < len(before):
        before = draw.sample(before, cuts)
    filled = [front + short + filling[2] * 12 + filling[0] * 8 for front in before]
    offsets = draw.sample(range(len(short) + 1), min(cuts, len(short) + 1))

    fields = [piece[0] for data in drawn + filled + [short] for piece in fields_of(data)[0]]
    alone = answers(fields)
    for records in draw.sample(sorted(alone), min(cuts, len(alone))):
        assert answer(records).splitlines() == alone[records], (seed, records)
    for data in drawn:
        wanted = tally_of(data, alone)
        for got in (answer(data, "tally"), answer_parts(data[i:i + 4001] for i in range(0, len(data), 4001))):
            assert got == wanted, (seed, data, wanted, got)
    wanted = tally_of(short, alone)
    for at in offsets:
        got = answer_parts([short[:at], short[at:]])
        assert got == wanted, (seed, at, short, wanted, got)
    for data in filled:
        wanted, got = tally_of(data, alone), answer(data, "tally")
        assert got == wanted, (seed, len(data), short, wanted, got)
    count = sum(len(fields_of(data)[0]) for data in drawn)
    print(f"seed {seed}: {inputs} inputs of {count} fields, as each alone; {len(offsets)} cuts of a pipe's reads and {len(filled)} of the buffer, one answer each")


if __name__ == "__main__":
    main()
