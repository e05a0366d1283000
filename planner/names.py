"""Names of groups in lines of text: words, and names in quotes where they hold spaces or signs that cannot be shown."""
import json
import re

from .faults import Fault

TOKEN = re.compile(r'\s*(?:(?P<comment>#.*)|(?P<quoted>"(?:[^"\\]|\\.)*")(?=\s|#|$)|(?P<word>[^\s"#][^\s#]*)|$)', re.DOTALL)
PLAIN = re.compile(r'[^\s"#][^\s#]*')


def unquoted(word):
    """The name that a quoted word stands for, by the rules of JSON."""
    try:
        return json.loads(word)
    except ValueError:
        raise Fault(f"{word} is no name in quotes: a quote mark or a backslash within it stands behind a backslash") from None


def words_of(line):
    """The words of a line, up to a # outside quotes."""
    if '"' not in line:
        return line.split("#", 1)[0].split()
    words, at = [], 0
    while at < len(line):
        token = TOKEN.match(line, at)
        if token is None:
            raise Fault("a quote mark opens a name that does not end before a space or the line's end")
        if token["quoted"]:
            words.append(unquoted(token["quoted"]))
        elif token["word"]:
            words.append(token["word"])
        else:
            break
        at = token.end()
    return words


def quoted(name):
    """The name as a line or a sentence shows it."""
    if PLAIN.fullmatch(name) and name.isprintable():
        return name
    return json.dumps(name, ensure_ascii=not name.isprintable())
