"""Uniques of a capture, and those of the server to which it is played in their place.

Clients learn a unique by `gets`, `gats` or `mg` with the flag `c`, and name it in `cas`, or with the flag `C` in a meta
command. If it is known what the recorded server answered, the unique that it showed of a key becomes the one that the
server shows of it in the answer to the same command: that of this session, or else of another one. If not, a unique
becomes the last one that the server has shown of its key. One for which there is none is sent as it is.
"""
from __future__ import annotations

import re
from collections.abc import Iterable, Iterator
from typing import Protocol

from zygos_tools.protocol.cutting import MOST_LINE
from zygos_tools.protocol.pace import NAMING, Answer, Answers, Command, Commands, Pending, words_of
from zygos_tools.protocol.table import BY_WORD, NO_KIND

LINE_END = re.compile(rb"\r?\n")


class Sent(Protocol):
    """A command that was sent, with its number in its session."""

    @property
    def command(self) -> Command: ...

    @property
    def number(self) -> int: ...


def shown(command: Command, answer: Answer) -> list[tuple[bytes, bytes]]:
    """The uniques that an answer to a command shows, each after its key."""
    kind = BY_WORD.get(command.verb, NO_KIND)
    if not kind.shows or len(command.words) <= kind.key:
        return []
    if kind.flags:
        key = command.words[kind.key]
        return [(key, word[1:]) for words in answer.items for word in words if word.startswith(b"c")]
    return [(words[1], words[4]) for words in answer.items if len(words) > 4]


def place_of(words: list[bytes]) -> tuple[int, int] | None:
    """Which of the words of a line is its unique, and how many bytes come before that; None where there is none."""
    kind = BY_WORD.get(words[0], NO_KIND) if words else NO_KIND
    if not kind.unique:
        return None
    if not kind.flags:
        return (kind.unique, 0) if len(words) > kind.unique else None
    return next(((at, 1) for at in range(kind.unique, len(words)) if words[at].startswith(b"C")), None)


def with_unique(frame: bytes, unique: int) -> bytes:
    """A command that names another unique."""
    words, end, block = cut_line(frame)
    place = place_of(words)
    if place is None:
        return frame
    at, size = place
    words[at] = words[at][:size] + b"%d" % unique
    return b" ".join(words) + end + block


def cut_line(frame: bytes) -> tuple[list[bytes], bytes, bytes]:
    """The words of a command's line, its end, and the block."""
    end = LINE_END.search(frame)
    begin, after = end.span() if end else (len(frame), len(frame))
    return words_of(frame[:begin]), frame[begin:after], frame[after:]


def held_back(commands: Commands) -> int:
    """How many of the last bytes are of a line that has begun and may name a unique, and so wait for its end."""
    begun = commands.begun
    line = begun.lstrip(b" ")
    may_name = any(line.startswith(verb + b" ") or (verb + b" ").startswith(line) for verb in NAMING)
    return len(begun) if line and may_name and not commands.has_quit and len(begun) < MOST_LINE else 0


class Recorded:
    """What a recorded server answered in a session: pieces of bytes, which are read as far as they are needed."""

    def __init__(self, pieces: Iterable[bytes]) -> None:
        self.answers = self.cut(pieces)
        self.pending: Pending[Sent] = Pending()
        self.ahead: tuple[Sent, Answer] | None = None

    def cut(self, pieces: Iterable[bytes]) -> Iterator[tuple[Sent, Answer]]:
        """The answers, each after what was noted of its command."""
        answers = Answers()
        for text in pieces:
            for answer in answers.feed(text):
                if sent := self.pending.take(answer):
                    yield sent, answer

    def shown(self, number: int) -> list[tuple[bytes, bytes]]:
        """What the answer to the command of this number shows; these numbers rise."""
        while self.ahead is None or self.ahead[0].number < number:
            self.ahead = next(self.answers, None)
            if self.ahead is None:
                return []
        sent, answer = self.ahead
        return shown(sent.command, answer) if sent.number == number else []


class AsTheyAre:
    """A session whose uniques are sent as they are in the capture."""

    def sent(self, sent: Sent) -> None:
        """Takes a command."""

    def answered(self, sent: Sent, answer: Answer) -> None:
        """Takes an answer of the server."""

    def translated(self, held: bytes, text: bytes, _: object) -> bytes:
        """What is sent for these bytes, after those that were held back."""
        return held + text


class Uniques:
    """What is known of all sessions, by key: the last unique of the capture and the server's for it, and the last one
    that the server has shown; and how many were translated, and how many sent as they are."""

    def __init__(self) -> None:
        self.known: dict[bytes, tuple[bytes, bytes]] = {}
        self.last: dict[bytes, bytes] = {}
        self.translated = self.kept = 0


class SessionUniques:
    """The uniques of a session, with what a recorded server answered in it, if that is known."""

    def __init__(self, uniques: Uniques, recorded: Recorded | None = None) -> None:
        self.all, self.recorded = uniques, recorded
        self.known: dict[bytes, tuple[bytes, bytes]] = {}
        self.last: dict[bytes, bytes] = {}

    def sent(self, sent: Sent) -> None:
        """Takes a command."""
        if self.recorded:
            self.recorded.pending.add(sent)

    def answered(self, sent: Sent, answer: Answer) -> None:
        """Takes an answer of the server."""
        before = dict(self.recorded.shown(sent.number)) if self.recorded else {}
        for key, unique in shown(sent.command, answer):
            self.last[key] = self.all.last[key] = unique
            if key in before:
                self.known[key] = self.all.known[key] = before[key], unique

    def translated(self, held: bytes, text: bytes, lines: list[tuple[int, bytes]]) -> bytes:
        """What is sent for these bytes, after those that were held back; the lines among them that may name a unique
        are given after the places of their ends."""
        whole, at = held + text, 0
        made: list[bytes] = []
        for end, line in lines:
            end += len(held) - 1
            if end - len(line) >= at:
                made += [whole[at : end - len(line)], self.line(line)]
                at = end
        return b"".join([*made, whole[at:]])

    def line(self, line: bytes) -> bytes:
        """A line with the unique of the server."""
        words = words_of(line)
        place = place_of(words)
        if place is None:
            return line
        at, size = place
        unique = self.of(words[1], words[at][size:])
        if unique is None:
            self.all.kept += 1
            return line
        self.all.translated += 1
        words[at] = words[at][:size] + unique
        return b" ".join(words) + (b"\r" if line.endswith(b"\r") else b"")

    def of(self, key: bytes, unique: bytes) -> bytes | None:
        """The server's unique for one of the capture; None where there is none."""
        for known in (self.known, self.all.known):
            if key in known and known[key][0] == unique:
                return known[key][1]
        found = None if self.recorded else self.last.get(key, self.all.last.get(key))
        if found is not None:
            self.known[key] = unique, found
        return found
