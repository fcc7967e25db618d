"""Texts of examples/answers.jsonl: the character of a byte has the byte's number. A long text is a list of its parts, in
which [text, N] means N times the text."""
import re

# at least 100 equal bytes, of which a long text has the number; and the number of bytes above which a text is long
RUN, LONG = re.compile(r"(.)\1{99,}", re.DOTALL), 1000


def spelled(text):
    """The spelling of a text of bytes."""
    text = text.decode("latin-1")
    if len(text) <= LONG:
        return text
    found, at = [], 0
    for run in RUN.finditer(text):
        found += [text[at : run.start()], [run[1], len(run[0])]]
        at = run.end()
    return [part for part in (*found, text[at:]) if part]


def bytes_of(value):
    """The bytes of a spelling."""
    parts = [value] if isinstance(value, str) else value
    return "".join(part if isinstance(part, str) else part[0] * part[1] for part in parts).encode("latin-1")


def length(value):
    """The length of the spelling."""
    return len(value) if isinstance(value, str) else sum(len(part) for part in value)
