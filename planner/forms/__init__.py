"""The forms of a plan's file: which one a file is in, reading and writing."""
import os
import re

from ..faults import Fault, Refused, Unusable
from ..plan import Builder, tell
from . import bqm, cfn, coo, qbsolv, rudy, source, text

FORMS = {"text": text, "source": source, "qbsolv": qbsolv, "coo": coo, "bqm": bqm, "rudy": rudy, "cfn": cfn}
READ = [name for name, form in FORMS.items() if hasattr(form, "read")]
WRITTEN = [name for name, form in FORMS.items() if hasattr(form, "write")]
ENDINGS = {".qubo": "source", ".coo": "coo", ".json": "bqm", ".rud": "rudy", ".rudy": "rudy", ".gset": "rudy", ".mc": "rudy", ".cfn": "cfn"}


def form_by_name(file):
    """The form that a file's ending says; our text where it says none."""
    return ENDINGS.get(os.path.splitext(file)[1].lower(), "text")


def form_of(file, lines):
    """The form of a file that is read; of the two with the ending .qubo the first word tells."""
    form = form_by_name(file)
    first = next((line.split()[0] for line in lines if line.strip()), "")
    return "qbsolv" if form == "source" and first in ("c", "p") else form


def lines_of(file, data):
    """The lines of a file; a mark of the byte order in front is passed over."""
    try:
        return re.split("\r\n|\r|\n", data.decode("utf-8-sig"))
    except UnicodeDecodeError as fault:
        line = data.count(b"\n", 0, fault.start) + 1
        raise Refused(tell(file, line, "no text in UTF-8")) from None


def gathered(file, data, form, rounding, keeps_repeats=False):
    """What gathered the plan of a file's bytes, its faults noted."""
    lines = lines_of(file, data)
    form = form or form_of(file, lines)
    if form not in READ:
        raise Unusable(f"{file}: the form {form} is written and not read")
    builder = Builder(rounding, keeps_repeats)
    FORMS[form].read(lines, builder)
    return builder


def write_plan(plan, form, rounding):
    """The text of a plan in a form."""
    if form not in WRITTEN:
        raise Unusable(f"the form {form} is read and not written")
    if plan.given and form != "text":
        raise Refused(f"the form {form} has no given values: `reduce` takes them out of the plan")
    try:
        return FORMS[form].write(plan, rounding)
    except Fault as fault:
        raise Refused(str(fault)) from None
