"""The command line: words in, lines or JSON out, and the status: 0 done, 1 refused, 2 wrong usage or no program."""
import argparse
import json
import os
import sys

from . import forms
from .commands import allow, presolve, why
from .faults import Refused, Unusable
from .numbers import WHOLE, whole
from .progress import PROGRESS
from .report import report
from .rewriting import convert, mend, reduce
from .tally import tally

COMMANDS = {
    "presolve": (presolve, "what is forced, flat and undecided, and the constraints"),
    "why": (why, "why a group, or every forced one, is where it is, with the sum"),
    "reduce": (reduce, "write the smaller problem of the free groups"),
    "mend": (mend, "write the plan with its pairs in order and repeats joined"),
    "convert": (convert, "write the plan in another form"),
    "allow": (allow, "whether the found constraints allow anything"),
    "tally": (tally, "totals over many plans"),
    "report": (report, "write a page that can be mailed and printed"),
}
METHODS = "closure", "preprocess", "heavy"


def number_or_all(word):
    """A whole number, or all."""
    if word != "all" and not WHOLE.fullmatch(word):
        raise argparse.ArgumentTypeError(f"`{word}` is no whole number")
    return word if word == "all" else whole(word)


def spelled(words):
    """--probe and --pairs without a number stand for all, so that a plan may follow them."""
    out = []
    for word, following in zip(words, [*words[1:], ""]):
        if word in ("--probe", "--pairs"):
            out.append(word + ("=" if WHOLE.fullmatch(following) else "=all"))
        elif out and out[-1] in ("--probe=", "--pairs="):
            out[-1] += word
        else:
            out.append(word)
    return out


def add_methods(parser, methods):
    """The switches of which at most one stands."""
    group = parser.add_mutually_exclusive_group()
    for method in methods:
        group.add_argument(f"--{method}", dest="method", action="store_const", const=method)
    parser.set_defaults(method="closure")


def add_constraints(parser):
    """The switches for probes and pairs."""
    parser.add_argument("--probe", type=number_or_all, metavar="[CANDIDATES]", help="probe all free groups, or the first CANDIDATES of them")
    parser.add_argument("--pairs", type=number_or_all, metavar="[LIMIT]", help="examine all pairs of free groups, or the first LIMIT of them")


def add_output(parser, is_plan):
    """The file to be written."""
    parser.add_argument("-o", "--output", required=True, metavar="OUT")
    parser.add_argument("--force", action="store_true", help="write over a file that is there")
    if is_plan:
        parser.add_argument("--to", choices=forms.WRITTEN, metavar="FORM", help="the form of OUT: " + ", ".join(forms.WRITTEN))


def parser_of():
    """All commands with their words."""
    parser = argparse.ArgumentParser(prog="ombradiec", allow_abbrev=False, description="Presolves plans; docs/PLANNER.md has more.")
    commands = parser.add_subparsers(dest="command", required=True, metavar="COMMAND")
    for name, (_, words) in COMMANDS.items():
        each = commands.add_parser(name, help=words, description=words, allow_abbrev=False)
        if name == "tally":
            each.add_argument("plans", nargs="+", metavar="PLAN")
        else:
            each.add_argument("plan", metavar="PLAN", help="a file, or - for standard input")
        if name == "why":
            each.add_argument("group", nargs="?", metavar="GROUP")
        if name in ("presolve", "reduce"):
            add_methods(each, METHODS if name == "presolve" else ("given", *METHODS))
        if name in ("presolve", "allow", "report"):
            add_constraints(each)
        each.set_defaults(anchors=False)
        if name in ("presolve", "report"):
            each.add_argument("--anchors", action="store_true", help="one group of each part that may be turned around")
        if name in ("reduce", "mend", "convert", "report"):
            add_output(each, name != "report")
        if name == "report":
            each.add_argument("--no-constraints", action="store_true", help="look for no constraints")
        each.add_argument("--from", dest="form", choices=forms.READ, metavar="FORM", help="the form of PLAN: " + ", ".join(forms.READ))
        each.add_argument("--round", action="store_true", help="round weights that a form cannot hold, and say so")
        each.add_argument("--json", action="store_true", help="one JSON value in place of words")
    return parser


def show(args, status, result, lines):
    """Lines on standard output, or the JSON value."""
    if args.json:
        print(json.dumps({"command": args.command, "status": status, **result}, ensure_ascii=True))
    else:
        print("\n".join(lines))
    sys.stdout.flush()
    return status


def refuse(args, status, sentences):
    """The sentences on standard error, and with --json on standard output too."""
    for sentence in sentences:
        print(f"ombradiec: {sentence}", file=sys.stderr)
    if args.json:
        show(args, status, {"refused": sentences}, [])
    return status


def main(words):
    """Does what the words ask, and answers the status; what cannot be shown is shown by its number."""
    try:
        args = parser_of().parse_args(spelled(words))
    except SystemExit as done:
        return done.code
    for to in (sys.stdout, sys.stderr):
        to.reconfigure(errors="backslashreplace")
    try:
        with PROGRESS:
            return work(args)
    except BrokenPipeError:
        # whoever read the answer has gone, and Python must not try to write the rest when it ends
        os.dup2(os.open(os.devnull, os.O_WRONLY), sys.stdout.fileno())
        return 1
    except KeyboardInterrupt:
        return 130


def work(args):
    """Makes a command and shows what it gives."""
    try:
        result, lines = COMMANDS[args.command][0](args)
    except Refused as refused:
        return refuse(args, 1, refused.sentences)
    except Unusable as unusable:
        return refuse(args, 2, [str(unusable)])
    return show(args, 1 if result.get("totals", {}).get("refused") else 0, result, lines)
