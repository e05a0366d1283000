"""The compiled program: found in its crate's out/, built with the kit where it is not there or older than its sources, and run on cases."""
import os
import shutil
import subprocess
import threading

from .faults import Unusable
from .progress import PROGRESS
from .stream import Answer

ROOT = os.path.dirname(os.path.dirname(os.path.abspath(__file__)))
NAME = "replay"
PROGRAM = os.path.join(ROOT, "crates", NAME, "out", NAME)


def is_newer(folder, moment):
    """Whether a file in the folder changed after the moment, but for what rt makes in folders out/."""
    with os.scandir(folder) as items:
        for item in items:
            if item.is_dir(follow_symlinks=False):
                if item.name != "out" and is_newer(item.path, moment):
                    return True
            elif item.stat(follow_symlinks=False).st_mtime > moment:
                return True
    return False


def is_built():
    """Whether the program is there and no source is newer."""
    if not os.access(PROGRAM, os.X_OK):
        return False
    moment = os.stat(PROGRAM).st_mtime
    return os.stat(os.path.join(ROOT, "crates.txt")).st_mtime <= moment and not is_newer(os.path.join(ROOT, "crates"), moment)


def build():
    """Builds the program as tools/run does, which says so, and runs it on nothing."""
    with PROGRESS.quiet():
        done = subprocess.run([os.path.join(ROOT, "tools", "run"), NAME], cwd=ROOT, stdin=subprocess.DEVNULL, stdout=subprocess.DEVNULL)
    if done.returncode != 0:
        raise Unusable("the program that answers the calls could not be built")


def command():
    """The words that run the program under the kit's loader, as in tools/run."""
    if shutil.which("rt") is None:
        raise Unusable("there is no rt here: it is the command of the Rattle kit, which README.md names, and makes the program")
    if not is_built():
        build()
    guide = subprocess.run(["rt", "doc"], capture_output=True, text=True, check=True).stdout.strip()
    lib = os.path.join(os.path.dirname(guide), "toolchain", "lib")
    return [os.path.join(lib, "ld-linux-x86-64.so.2"), "--library-path", lib, PROGRAM]


def feed(pipe, cases):
    """Writes the cases; a program that ended early has said so in its answers."""
    try:
        with pipe:
            for case in cases:
                PROGRESS.step()
                pipe.write(case)
    except BrokenPipeError:
        pass


def ask(cases, count):
    """The answers of the program to as many cases, in their order."""
    with subprocess.Popen(command(), stdin=subprocess.PIPE, stdout=subprocess.PIPE) as running:
        feeder = threading.Thread(target=feed, args=(running.stdin, cases), daemon=True)
        feeder.start()
        answers = [Answer(line.decode("ascii").rstrip("\n")) for line in running.stdout]
        feeder.join()
    if len(answers) != count:
        raise Unusable(f"the program gave {len(answers)} answers to {count} cases, and ended with status {running.returncode}")
    return answers
