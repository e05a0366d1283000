"""What a form has no place for, as comments of its own: `ombradiec constant WEIGHT` and `ombradiec group NUMBER NAME`."""
from ..faults import Fault
from ..names import quoted, words_of
from ..numbers import exactly, fraction, whole

MARK = "ombradiec"


def take_note(builder, comment):
    """Reads a comment that this tool wrote, and passes over every other one."""
    if comment.split()[:1] != [MARK]:
        return
    words = words_of(comment)[1:]
    if words[:1] == ["constant"] and len(words) == 2:
        builder.constant += fraction(words[1])
    elif words[:1] == ["group"] and len(words) == 3 and whole(words[1]) < len(builder.names):
        builder.renamed[whole(words[1])] = words[2]
    else:
        raise Fault(f"neither `{MARK} constant WEIGHT` nor `{MARK} group NUMBER NAME` of a group that is there")


def notes_of(plan, lead):
    """The comments of a plan, each behind the form's own mark."""
    lines = [f"{lead} {MARK} constant {exactly(plan.constant)}"] * (plan.constant != 0)
    if not plan.is_numbered():
        lines += [f"{lead} {MARK} group {i} {quoted(name)}" for i, name in enumerate(plan.names)]
    return lines
