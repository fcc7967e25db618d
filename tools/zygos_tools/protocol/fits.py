"""Which answers fit which commands: each answer has a token, and each command the tokens of the answers that it may have.
"""
from __future__ import annotations

import functools
from collections.abc import Sequence

from zygos_tools.protocol.answers import FAULT, first_word
from zygos_tools.protocol.meaning import words_of
from zygos_tools.protocol.table import BY_WORD, KINDS

# how many lines and answers are kept with what is known of them
MOST_KEPT = 1 << 13
# how many commands are looked at for one that may be silent
SHORT = 16

# the tokens of an error and of a number; that of an item has its key
ERROR, NUMBER, ITEM = b"ERROR", b"0", b"VALUE "


def token_of(answer: bytes) -> bytes:
    """What an answer shows of the command that it may belong to."""
    if FAULT.match(answer):
        return ERROR
    if answer.startswith(ITEM):
        return ITEM + answer[:400].split(b" ", 2)[1]
    word = first_word(answer)
    return NUMBER if word.isdigit() else word


class Any(frozenset[bytes]):
    """The tokens of a command that may have each answer, but for the items of other keys."""

    def __contains__(self, token: object) -> bool:
        return super().__contains__(token) or not (isinstance(token, bytes) and token.startswith(ITEM))


NONE = frozenset([ERROR])
ANY = {kind.name for kind in KINDS.values() if not kind.answers}
WORDS = {kind.name: NONE.union(kind.answers.encode().split()) for kind in KINDS.values()}


@functools.lru_cache(MOST_KEPT)
def fitting(line: bytes) -> frozenset[bytes]:
    """The tokens of the answers that can be those of the command of a line."""
    words = words_of(line)
    kind = BY_WORD.get(words[0]) if words else None
    if kind is None:
        return NONE
    found = WORDS[kind.name]
    if b"VALUE" in found or kind.name in ANY:
        found = found.union([ITEM + word for word in words])
    return Any(found) if kind.name in ANY else found


@functools.lru_cache(2 * MOST_KEPT)
def fits(line: bytes, answer: bytes) -> bool:
    """Whether an answer can be that of the command of a line."""
    return token_of(answer) in fitting(line)


# ---- faulty lines that may have an answer or none


def is_fault(answer: bytes | None) -> bool:
    return answer is not None and FAULT.match(answer) is not None


def is_answered(lines: Sequence[bytes], texts: Sequence[bytes]) -> bool:
    """Whether the first of these lines, a faulty one with noreply, has the first of these answers: that is an error, and
    those after it fit the lines after it as well as if the line had none."""
    return bool(texts) and is_fault(texts[0]) and unfit(lines[1:], texts[1:]) <= unfit(lines[1:], texts)


def unfit(lines: Sequence[bytes], texts: Sequence[bytes]) -> int:
    """How many answers do not fit these lines, of which those with noreply are faulty and may have none."""
    at = count = 0
    for line in lines:
        if at < len(texts) and (is_fault(texts[at]) or not line.rstrip().endswith(b" noreply")):
            count += not fits(line, texts[at])
            at += 1
    return count
