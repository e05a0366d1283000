"""Plans from files and to files: no file is written over unless that is asked for, and what was rounded is said."""
import sys

from . import forms
from .faults import Refused
from .numbers import Rounding


def data_of(file):
    """The bytes of a file, or of standard input."""
    if file == "-":
        return sys.stdin.buffer.read()
    try:
        with open(file, "rb") as opened:
            return opened.read()
    except OSError as fault:
        raise Refused(f"{file}: {fault.strerror}") from None


def read(args, file, keeps_repeats=False):
    """What gathered a plan, in the form that is told or that the file says."""
    rounding = Rounding(args.round)
    builder = forms.gathered(file, data_of(file), args.form, rounding, keeps_repeats)
    tell_notes(file, rounding)
    return builder


def plan_of(args, file=None):
    """A plan, or a refusal with all faults of its file."""
    file = args.plan if file is None else file
    return read(args, file).plan(file)


def tell_notes(file, rounding):
    """What was rounded, on standard error."""
    for note in rounding.notes:
        print(f"ombradiec: {file}: {note}", file=sys.stderr)


def put(args, text):
    """Writes a file, and none over another unless that is asked for."""
    try:
        with open(args.output, "w" if args.force else "x", encoding="utf-8", newline="\n") as file:
            file.write(text)
    except FileExistsError:
        raise Refused(f"{args.output} is there already; --force writes over it") from None
    except OSError as fault:
        raise Refused(f"{args.output}: {fault.strerror}") from None


def put_plan(args, plan):
    """Writes a plan in the form that is told, or that the file's ending says; answers which."""
    rounding = Rounding(args.round)
    form = args.to or forms.form_by_name(args.output)
    put(args, forms.write_plan(plan, form, rounding))
    tell_notes(args.output, rounding)
    return form
