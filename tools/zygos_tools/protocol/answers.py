"""The one reader of answers: how the outputs of a server are cut into answers, what an answer shows, and which commands
the answers of an output belong to where each command has its answer.

Nothing is taken for granted: an answer may be cut off, have too few words, or numbers that are none. What an answer
does not show as it should is None.
"""
from __future__ import annotations

import re
from collections.abc import Iterator
from typing import NamedTuple

from zygos_tools.protocol.meaning import Command, frames_of, line_of, words_of

# the answers of several lines that end in another line, by how they begin: of retrievals, of `stats` and its `cachedump`
# and `detail dump`, and of the `metadump` and the `mgdump` of `lru_crawler`
LISTS = (b"VALUE ", b"STAT ", b"ITEM ", b"PREFIX ", b"key=", b"mg ")
META, FAULT = re.compile(rb"(HD|VA|EN|NS|EX|NF)[ \r\n]"), re.compile(rb"((CLIENT|SERVER)_)?ERROR\b")
# the last lines of `stats sizes_enable`, after which memcached sends no END
LAST_STAT = re.compile(rb"STAT sizes_(status enabled|error [^ \n]+)\r\n")
UNIQUE_MARK = re.compile(rb" c[0-9]{1,20}(?=[ \r\n])")
NAME = re.compile(rb"[a-z_]{2,16}")
# the numbers of flags and of uniques, counters and lengths are below these
MOST_FLAGS, MOST_NUMBER, MOST_SIZE = 1 << 32, 1 << 64, 1 << 32


def number(word: bytes | None, below: int = MOST_NUMBER) -> int | None:
    """The number that a word spells; None where it spells none, or one that is not below the bound."""
    if word is None or not word.isdigit() or len(word) > 20:
        return None
    found = int(word)
    return found if found < below else None


# ---- where answers end


def line_end(text: bytes, at: int) -> int:
    return text.find(b"\n", at) + 1 or len(text)


def block_end(text: bytes, begin: int, at: int, word: int) -> int:
    """The end of the block after a line, whose length is this word of the line."""
    words = words_of(text[begin:at].removesuffix(b"\r\n"))
    size = number(words[word], MOST_SIZE) if len(words) > word else None
    return at if size is None else min(at + size + 2, len(text))


# the line of an item as servers write it, with its length
USUAL_ITEM = re.compile(rb"VALUE ([^ \n]+) ([0-9]+) ([0-9]{1,9})(?: [0-9]+)?\r\n")


def answer_end(text: bytes, begin: int) -> int:
    """The end of the answer that begins at a place of an output."""
    first = begin
    while found := USUAL_ITEM.match(text, begin):  # most answers are such items and an END
        begin = min(found.end() + int(found[3]) + 2, len(text))
        if text.startswith(b"END\r\n", begin):
            return begin + 5
    at = line_end(text, begin)
    if begin == first and text.startswith(b"VA ", begin):
        return block_end(text, begin, at, 1)
    while text.startswith(LISTS, begin) and at < len(text) and not LAST_STAT.match(text, begin):
        if text.startswith(b"VALUE ", begin):
            at = block_end(text, begin, at, 3)
        begin, at = at, line_end(text, at)
    return at


def answers(text: bytes) -> Iterator[bytes]:
    """The answers of an output: a line; the items and the END of one `get` or `gets`, the lines and the END of another
    list; a line `VA` with its block."""
    at, end = 0, len(text)
    while at < end:
        begin, at = at, answer_end(text, at)
        yield text[begin:at]


def is_whole(answer: bytes) -> bool:
    """Whether an answer goes on to its end."""
    if answer.startswith(b"VA "):
        at = line_end(answer, 0)
        words = words_of(answer[:at].removesuffix(b"\r\n"))
        size = number(words[1], MOST_SIZE) if len(words) > 1 else None
        return size is not None and answer[:at].endswith(b"\n") and len(answer) == at + size + 2
    if answer.startswith(LISTS):
        last = answer.rfind(b"\n", 0, -1) + 1
        has_end = answer.endswith((b"\nEND\r\n", b"\nEN\r\n")) or LAST_STAT.fullmatch(answer, last) is not None
        return has_end or b"ERROR" in answer.rpartition(b"\n")[0].rpartition(b"\n")[2]
    return answer.endswith(b"\n")


def first_word(answer: bytes) -> bytes:
    """The first word of an answer; none where it has none."""
    words = answer[:MOST_WORDS].split(None, 1)
    return words[0] if words else b""


# more bytes than the first words of an answer have
MOST_WORDS = 400


# ---- what answers show


class Item(NamedTuple):
    """An item that an answer shows: a line VALUE with its block. `size` is the length that the line says."""

    key: bytes
    flags: int | None
    size: int | None
    unique: int | None
    value: bytes
    words: tuple[bytes, ...]

    def is_right(self) -> bool:
        """Whether all is shown as it should be."""
        has_unique = len(self.words) == 4
        return (len(self.words) in (3, 4) and self.flags is not None and self.size == len(self.value)
                and (self.unique is not None or not has_unique))


def items(text: bytes) -> Iterator[Item]:
    """The items of an answer to `get` or `gets`."""
    at = 0
    while text.startswith(b"VALUE ", at):
        begin, at = at, line_end(text, at)
        words, end = tuple(words_of(text[begin + 6 : at].removesuffix(b"\r\n"))), block_end(text, begin, at, 3)
        flags = number(words[1], MOST_FLAGS) if len(words) > 1 else None
        size = number(words[2], MOST_SIZE) if len(words) > 2 else None
        unique = number(words[3]) if len(words) > 3 else None
        yield Item(words[0] if words else b"", flags, size, unique, text[at : max(at, end - 2)], words)
        at = end


class UsualItem(NamedTuple):
    """The one item of an answer, with the words of its flags and its length."""

    key: bytes
    flags: bytes
    size: bytes
    value: bytes


def usual_item(text: bytes) -> UsualItem | None:
    """The item of an answer with one item, as servers write it; None for another answer."""
    found = USUAL_ITEM.match(text)
    if found is None or len(text) != found.end() + int(found[3]) + 7 or not text.endswith(b"\r\nEND\r\n"):
        return None
    return UsualItem(found[1], found[2], found[3], text[found.end() : -7])


def last_line(text: bytes) -> bytes:
    """What follows the items of an answer to `get` or `gets`, without its end."""
    at = 0
    while text.startswith(b"VALUE ", at):
        at = block_end(text, at, line_end(text, at), 3)
    return text[at:].rstrip(b"\r\n")


class Meta(NamedTuple):
    """A meta answer: its code, its marks by their letters, and its value, if it has one."""

    code: bytes
    marks: dict[bytes, bytes]
    value: bytes | None

    @property
    def flags(self) -> int | None:
        return number(self.marks.get(b"f"), MOST_FLAGS)

    @property
    def unique(self) -> int | None:
        return number(self.marks.get(b"c"))


def meta(answer: bytes) -> Meta:
    """What a meta answer shows; a code of no bytes where it is an empty line."""
    at = line_end(answer, 0)
    words = words_of(answer[:at].removesuffix(b"\n").removesuffix(b"\r"))
    code = words[0] if words else b""
    has_value = code == b"VA"
    marks: dict[bytes, bytes] = {}
    for word in words[1 + has_value :]:
        marks.setdefault(word[:1], word[1:])
    return Meta(code, marks, answer[at : max(at, len(answer) - 2)] if has_value else None)


def without_uniques(text: bytes) -> object:
    """An answer with a mark in place of each unique that it shows; the numbers are each server's own."""
    at = line_end(text, 0)
    if text.startswith(b"VALUE ") and text.count(b" ", 0, at) > 3:
        return [(item.words[:3], len(item.words), item.value) for item in items(text)]
    if text.startswith((b"HD ", b"VA ")):
        return UNIQUE_MARK.sub(b" c", text[:at]) + text[at:]
    return text


# ---- commands and their answers


def name_of(line: bytes) -> str:
    """The name of the command of a line."""
    word = line.lstrip(b" ").partition(b" ")[0]
    return word.decode() if NAME.fullmatch(word) else "other lines"


class Outcome:
    """The answers of an output, taken one after the other."""

    def __init__(self, text: bytes) -> None:
        self.text, self.at, self.taken = text, 0, 0

    def take(self) -> tuple[int, bytes | None]:
        """The next answer after its number, with None in its place at the end."""
        if self.at == len(self.text):
            return self.taken, None
        begin, self.at, self.taken = self.at, answer_end(self.text, self.at), self.taken + 1
        return self.taken - 1, self.text[begin : self.at]

    def take_group(self, group: "Group") -> tuple[int, bytes | None]:
        """The answers of the commands of a group, as one after the number of the first; see `groups`."""
        first = self.taken
        found: list[bytes] = []
        while len(found) < len(group) and (answer := self.take()[1]) is not None:
            found.append(answer)
            if group.is_last(found):
                break
        return first, b"".join(found) or None


class Group(list[tuple[int, bytes, Command]]):
    """Commands, each as its number, its line and its meaning, to which one or several answers belong.

    A command with the flag `q` may have no answer. Then it is not known whose the next answers are, up to one that no
    such command has: that of `mn`, or of a classic command. The commands up to there are a group; every other command
    is one by itself, but for those with `noreply`, which are in none.

    A group is plain if it is one command that surely has one answer. It is silent if it is one that zygos answers and a
    memcached does not as a rule: a faulty line with `noreply`.
    """

    is_whole = is_plain = is_silent = ends_in_mn = False
    faults = 0

    def add(self, number_of: int, command: Command, line: bytes) -> None:
        self.append((number_of, line, command))
        self.faults += command.verb == "fault"
        is_open = len(self) > 1 or "q" in command.letters
        self.is_whole = not is_open or command.verb not in ("mg", "ms", "md", "fault")
        self.is_silent = not is_open and command.verb == "fault" and line.rstrip().endswith(b" noreply")
        self.is_plain = not is_open and not self.is_silent
        self.ends_in_mn = command.verb == "mn"

    def is_last(self, answers_of: list[bytes]) -> bool:
        """Whether the last of these answers is that of the last command; each faulty command has one of its own."""
        if not self.is_whole or self.ends_in_mn:
            return self.is_whole and answers_of[-1].startswith(b"MN")
        if FAULT.match(answers_of[-1]):
            return sum(FAULT.match(answer) is not None for answer in answers_of) > self.faults
        return not META.match(answers_of[-1])


def groups(stream: bytes) -> Iterator[Group]:
    """The groups of the commands of a session, in order."""
    group = Group()
    for number_of, (command, frame) in enumerate(frames_of(stream)):
        if not command.quiet:
            group.add(number_of, command, line_of(frame))
            if group.is_whole:
                yield group
                group = Group()
    if group:
        yield group
