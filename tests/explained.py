#!/usr/bin/env python3
"""A slow plain judge of recordings, written from the definitions alone: whether some order of all calls explains one.

usage: tests/explained.py [--warm] [--may-forget] [--shards N] < FILES     (a capture and a replies file, joined)

It tries every order of the calls, each at the least moment that it can have, and every choice that a server has, and
says `explained` or `not explained`. It is for a few commands: `get`, `gets`, those that store, count and delete,
`flush_all`, `version`, `stats` and faulty lines. If a server may read any number of a value, as of `5x`, it tries the numbers
that matter for what the answers show. Of `gets` no answer may be cut short.
"""
from __future__ import annotations

import itertools
import re
import sys
from collections.abc import Iterator
from typing import Any, NamedTuple

import checks
from zygos_tools.cli import ends
from zygos_tools.files.formats import Segment, read_capture, read_replies
from zygos_tools.files.part import Part
from zygos_tools.protocol.meaning import Command, Frame, frames_of, words_of
from zygos_tools.protocol.model import shard_of

ERROR_LINE = re.compile(rb"(?:ERROR|CLIENT_ERROR|SERVER_ERROR)[^\n]*\r\n")
SERVER_ERROR = re.compile(rb"SERVER_ERROR[^\n]*\r\n")
VERSION_LINE = re.compile(rb"VERSION [^\n]*\r\n")
STATS = re.compile(rb"(?:STAT [^\n]*\r\n)*END\r\n")
COUNT_LINE = re.compile(rb"(?:0|[1-9][0-9]{0,19})\r\n")
LINES = {"stored": b"STORED\r\n", "not stored": b"NOT_STORED\r\n", "exists": b"EXISTS\r\n", "not found": b"NOT_FOUND\r\n",
         "deleted": b"DELETED\r\n", "flushed": b"OK\r\n",
         "no number": b"CLIENT_ERROR cannot increment or decrement non-numeric value\r\n"}
# what a call that is answered by one line may be told, besides a number and that it failed
WORDS = {"set": ["stored"], "add": ["stored", "not stored"], "replace": ["stored", "not stored"],
         "append": ["stored", "not stored"], "prepend": ["stored", "not stored"], "cas": ["stored", "exists", "not found"],
         "delete": ["deleted", "not found"], "incr": ["not found", "no number"], "decr": ["not found", "no number"]}
COUNTING, GETTING = ("incr", "decr"), ("get", "gets")
MOST = 1 << 64


class Item(NamedTuple):
    """An item: its unique is None until an answer shows it, and is none of `others`."""

    flags: int
    value: bytes
    unique: int | None = None
    others: frozenset[int] = frozenset()


class Place(NamedTuple):
    """What a key has, and the uniques that items had there since the last loss; whether the item was there first."""

    item: Item | None = None
    used: frozenset[int] = frozenset()
    is_first: bool = False


Said = tuple[Any, ...]
FAILED, MISS = ("failed",), ("miss",)
NOTHING = Place()


class Session:
    """The frames of a session, when the command of each was sent, its marks, and its output."""

    def __init__(self) -> None:
        self.frames: tuple[Frame, ...] = ()
        self.sent: list[int] = []
        self.marks: list[int] = []
        self.output, self.stream = b"", b""

    def take(self, text: bytes, moment: int) -> None:
        self.stream += text
        self.frames = frames_of(self.stream)
        self.sent += [moment] * (len(self.frames) - len(self.sent))
        if not text:
            self.marks.append(moment)


# ---- answers


def is_hidden(command: Command) -> bool:
    """Whether no answer is requested."""
    return command.quiet


def calls_of(command: Command, shards: int) -> list[tuple[str, Any]]:
    """The calls of a command: names, with a key or a shard."""
    if command.verb in GETTING:
        return [("get", key) for key in command.keys]
    if command.verb == "flush_all":
        return [("flush", shard) for shard in range(shards)]
    return [(command.verb, command.keys[0])] if command.verb in WORDS else []


def can_fail(verb: str) -> bool:
    return verb in WORDS and verb != "delete"


def items_in(command: Command, text: bytes) -> tuple[dict[bytes, list[Item]], int]:
    """The items with which a text begins, by their keys, and where they end."""
    found: dict[bytes, list[Item]] = {}
    at = 0
    while one := re.compile(rb"VALUE ([^ \r\n]+) (0|[1-9][0-9]*) (0|[1-9][0-9]*)%s\r\n"
                            % (rb" (0|[1-9][0-9]*)" if command.verb == "gets" else b"")).match(text, at):
        end = one.end() + int(one[3])
        if one[1] not in command.keys or int(one[2]) >= 1 << 32 or text[end:end + 2] != b"\r\n":
            break
        item = Item(int(one[2]), text[one.end():end], int(one[4]) if command.verb == "gets" else None)
        found.setdefault(one[1], []).append(item)
        at = end + 2
    return found, at


def whole_answer(command: Command, text: bytes) -> int:
    """The length of the answer to a command with which a text begins, if it begins with one, and else 0."""
    if command.verb in GETTING:
        _, at = items_in(command, text)
        return at + 5 if text[at:at + 5] == b"END\r\n" else 0
    if command.verb == "stats":
        counts = STATS.match(text)
        return counts.end() if counts else 0
    line = text[: text.find(b"\n") + 1]
    if command.verb == "fault":
        return len(line) if ERROR_LINE.fullmatch(line) else 0
    if command.verb == "version":
        return len(line) if VERSION_LINE.fullmatch(line) else 0
    words = WORDS.get(command.verb, ["flushed"])
    is_one = (line in [LINES[word] for word in words] or can_fail(command.verb) and SERVER_ERROR.fullmatch(line)
              or command.verb in COUNTING and COUNT_LINE.fullmatch(line) and int(line) < MOST)
    return len(line) if is_one else 0


def cuts(session: Session) -> Iterator[list[bytes]]:
    """The ways to cut the output of a session into the bytes of its commands' answers; the last of them may be cut short,
    which is looked at later."""
    texts: list[bytes] = []
    rest, commands = session.output, [command for command, _ in session.frames]
    for at, command in enumerate(commands):
        size = 0 if is_hidden(command) else whole_answer(command, rest)
        if size == 0 and not is_hidden(command) or rest == b"":
            some = [b""] * (len(commands) - at - 1)
            nobody = not any(not is_hidden(one) and whole_answer(one, rest) for one in commands[at:])
            if rest == b"" or ERROR_LINE.fullmatch(rest) and nobody:
                yield [*texts, b"", *some]
            if rest != b"":
                yield [*texts, rest, *some]
            return
        texts.append(rest[:size])
        rest = rest[size:]
    if rest == b"" or ERROR_LINE.fullmatch(rest):
        yield texts


def begins_line(front: bytes, text: bytes) -> bool:
    """Whether a text is the proper beginning of a line with this front."""
    return b"\n" not in text and (front.startswith(text) or text.startswith(front))


def text_of(command: Command, key: bytes, item: Item) -> bytes:
    unique = b" %d" % (item.unique or 0) if command.verb == "gets" else b""
    return b"VALUE %s %d %d%s\r\n%s\r\n" % (key, item.flags, len(item.value), unique, item.value)


def texts_of(command: Command, saids: list[Said]) -> list[bytes]:
    """The answers to a command with calls, to which this was said, if none failed."""
    if command.verb in GETTING:
        items = [text_of(command, key, said[1]) for key, said in zip(command.keys, saids) if said != MISS]
        return [b"".join(order) + LISTED for order in itertools.permutations(items)]
    return [b"%d\r\n" % saids[0][1] if saids[0][0] == "number" else LINES[saids[0][0]]]


LISTED = b"END\r\n"


def fits(command: Command, saids: list[Said], text: bytes, is_last: bool) -> bool:
    """Whether a text is the answer to a command to whose calls this was said; the last may be the beginning of it."""
    if is_hidden(command):
        return text == b""
    if text == b"":
        return is_last
    if command.verb == "fault":
        fronts = [b"ERROR", b"CLIENT_ERROR", b"SERVER_ERROR"]
        return bool(ERROR_LINE.fullmatch(text)) or is_last and any(begins_line(front, text) for front in fronts)
    if command.verb == "version":
        return bool(VERSION_LINE.fullmatch(text)) or is_last and begins_line(b"VERSION ", text)
    if command.verb == "stats":
        return bool(STATS.fullmatch(text))
    if FAILED in saids:
        return bool(SERVER_ERROR.fullmatch(text)) or is_last and begins_line(b"SERVER_ERROR", text)
    whole = texts_of(command, saids)
    return text in whole or is_last and any(one.startswith(text) for one in whole)


# ---- items


def number_in(value: bytes) -> int | None:
    """The number that a value is, perhaps with spaces behind it."""
    bare = value.rstrip(b" ")
    return int(bare) if re.fullmatch(b"[0-9]{1,20}", bare) and int(bare) < MOST else None


def may_be_none(value: bytes) -> bool:
    return not (re.fullmatch(b"[0-9]{1,20}", value) and int(value) < 1 << 63)


def may_be_any(value: bytes) -> bool:
    """Whether a server may read any number of a value."""
    return number_in(value) is None and bool(re.search(rb"[0-9 \t-\r]", value))


def numbers_within(text: bytes) -> set[int]:
    """The numbers that stand in a text, also within others."""
    parts = {digits[one:end] for digits in re.findall(b"[0-9]+", text)
             for end in range(1, len(digits) + 1) for one in range(end)}
    return {int(part) for part in parts if int(part) < MOST}


def numbers_near(lines: list[Line], key: bytes) -> set[int]:
    """The numbers that matter, if the value of a key may have become any number: those that answers show, one of each
    length, and all from which counting leads to these."""
    found, sums = {0} | {10 ** size for size in range(20)}, {0}
    for line in lines:
        for (command, _), text in zip(line.session.frames, line.texts):
            if command.verb in GETTING:
                found |= {number for item in items_in(command, text)[0].get(key, []) for number in numbers_within(item.value)}
            elif command.verb in COUNTING and command.keys == [key]:
                found |= numbers_within(text)
                sums |= {one + way * command.numbers["amount"] for one in sums for way in (1, -1)}
    return {(number + one) % MOST for number in found for one in sums}


def used_at(place: Place) -> frozenset[int]:
    shown = place.item.unique if place.item else None
    return place.used if shown is None else place.used | {shown}


def with_item(place: Place, flags: int, value: bytes) -> Place:
    """A place after an item is stored there."""
    return Place(Item(flags, value), used_at(place))


def without_item(place: Place) -> Place:
    """A place after its item is deleted."""
    return Place(None, used_at(place))


def with_unique(place: Place, unique: int) -> Iterator[Place]:
    """The place, if its item may have this unique."""
    item = place.item
    if item and (item.unique == unique or item.unique is None and unique not in item.others | place.used):
        yield place._replace(item=item._replace(unique=unique))


def got(command: Command, key: bytes, text: bytes, place: Place) -> Iterator[tuple[Said, Place]]:
    """What a get may be told; an answer to `gets` shows the unique of the item."""
    if not place.item:
        yield MISS, place
    elif command.verb == "get" or text == b"":
        yield ("hit", place.item), place
    else:
        for shown in {item.unique for item in items_in(command, text)[0].get(key, [])}:
            for now in with_unique(place, shown or 0):
                yield ("hit", now.item), now


def after(command: Command, call: tuple[str, Any], text: bytes, place: Place,
          near: set[int]) -> Iterator[tuple[Said, Place]]:
    """What a call may be told, and what its key has then; `near` are the numbers that matter."""
    name, item, value, flags = call[0], place.item, command.value or b"", command.numbers.get("flags", 0)
    if name == "get":
        yield from got(command, call[1], text, place)
        return
    if name == "delete":
        yield (("deleted",), without_item(place)) if item else (("not found",), place)
        return
    yield FAILED, place
    yield FAILED, without_item(place)
    if name == "set":
        yield ("stored",), with_item(place, flags, value)
    elif name in ("add", "replace"):
        yield (("stored",), with_item(place, flags, value)) if (name == "add") == (item is None) else (("not stored",), place)
    elif name in ("append", "prepend"):
        if item:
            yield ("stored",), with_item(place, item.flags, item.value + value if name == "append" else value + item.value)
        else:
            yield ("not stored",), place
    elif not item:
        yield ("not found",), place
    elif name == "cas":
        unique = command.numbers["unique"]
        for now in with_unique(place, unique):
            yield ("stored",), with_item(now, flags, value)
        if item.unique is None:
            yield ("exists",), place._replace(item=item._replace(others=item.others | {unique}))
        elif item.unique != unique:
            yield ("exists",), place
    else:
        yield from counted(command, text, place, item, near)


def counts(command: Command, value: bytes, text: bytes, near: set[int]) -> set[int]:
    """What a command may count to from a value; `text` is what stands of its answer."""
    number, amount, is_up = number_in(value), command.numbers["amount"], command.verb == "incr"
    if number is not None:
        return {(number + amount) % MOST if is_up else max(0, number - amount)}
    if not may_be_any(value):
        return set()
    return {count for count in near if (is_up or count + amount < MOST) and (b"%d\r\n" % count).startswith(text)}


def counted(command: Command, text: bytes, place: Place, item: Item, near: set[int]) -> Iterator[tuple[Said, Place]]:
    """What a call that counts may be told of an item."""
    for count in counts(command, item.value, text, near):
        for value in {b"%d" % count, (b"%d" % count).ljust(len(item.value))}:
            yield ("number", count), with_item(place, item.flags, value)
    if may_be_none(item.value):
        yield ("no number",), place


# ---- the search


class Call(NamedTuple):
    """A call with its command, the bytes of the answer, and whether no later command has a byte."""

    command: Command
    call: tuple[str, Any]
    at: int
    text: bytes
    is_last: bool
    ends_command: bool


class Line:
    """A session, with its output cut in one way: its calls in order, and how many of them must be made."""

    def __init__(self, session: Session, texts: list[bytes], shards: int) -> None:
        self.session, self.texts = session, texts
        self.calls: list[Call] = []
        # after how many calls the session may end
        self.ends = {0}
        last = max((at for at, text in enumerate(texts) if text), default=-1)
        for at, (command, _) in enumerate(session.frames):
            calls = calls_of(command, shards)
            self.calls += [Call(command, call, at, texts[at], at >= last, part == len(calls) - 1)
                           for part, call in enumerate(calls)]
            self.ends = {len(self.calls)} if at <= last else self.ends | {len(self.calls)}
            if not calls and not fits(command, [], texts[at], at >= last):
                self.ends = set()
                break

    def answered(self, count: int) -> int:
        """How many of the first commands are answered."""
        return sum(text != b"" for text in self.texts[:count])

    def last_moment(self, call: Call, latest: int) -> int:
        """The last moment at which the command of a call is not ended."""
        before = self.answered(call.at)
        return self.session.marks[before] - 1 if before < len(self.session.marks) else latest

    def marks_fit(self) -> bool:
        return all(number <= self.answered(sum(sent <= moment for sent in self.session.sent))
                   for number, moment in enumerate(self.session.marks, 1))


class Judge:
    """Looks for an explanation of a recording."""

    def __init__(self, text: bytes, warm: bool = False, forget: bool = False, shards: int = 16) -> None:
        part = Part("capture", text)
        capture = read_capture(part)
        outputs = read_replies(Part("replies", text[part.at:])).outputs
        self.warm, self.forget, self.shards, self.latest = warm, forget, shards, len(capture.records)
        connections = [[Session()] for _ in range(capture.count)]
        for moment, record in enumerate(capture.records, 1):
            if isinstance(record, Segment):
                connections[record.connection][-1].take(record.text, moment)
            else:
                connections[record.connection].append(Session())
        self.is_surplus = False
        for connection, session, output in outputs:
            if connection < len(connections) and session < len(connections[connection]):
                connections[connection][session].output = output
            else:
                self.is_surplus = True
        self.sessions = [session for connection in connections for session in connection]
        self.lasting = {key for session in self.sessions for key in lasting_keys(session)}
        self.keys = {key for session in self.sessions for command, _ in session.frames for key in command.keys}
        self.seen: set[Any] = set()
        self.near: dict[bytes, set[int]] = {}

    def may_lose(self, key: bytes) -> bool:
        return self.forget or key in self.lasting

    def is_explained(self) -> bool:
        if self.is_surplus:
            return False
        for texts in itertools.product(*map(cuts, self.sessions)):
            lines = [Line(session, text, self.shards) for session, text in zip(self.sessions, texts)]
            if all(line.ends and line.marks_fit() for line in lines):
                self.seen = set()
                self.near = {key: numbers_near(lines, key) for key in self.keys}
                start = tuple(((), 0) for _ in lines)
                for places in self.beginnings(lines):
                    if self.search(lines, start, places, 0):
                        return True
        return False

    def beginnings(self, lines: list[Line]) -> Iterator[tuple[tuple[bytes, Place], ...]]:
        """What the keys may have first."""
        if not self.warm:
            yield ()
            return
        some = {key: [NOTHING, *(Place(item, is_first=True) for item in first_items(lines, key))] for key in self.keys}
        for chosen in itertools.product(*some.values()):
            yield tuple(sorted(pair for pair in zip(some, chosen) if pair[1].item))

    def search(self, lines: list[Line], made: Any, places: Any, moment: int) -> bool:
        """Whether the calls that are left can be made from here on."""
        state = made, places, moment
        if state in self.seen:
            return False
        self.seen.add(state)
        if all(count in line.ends and not saids for line, (saids, count) in zip(lines, made)):
            return True
        for at, line in enumerate(lines):
            saids, count = made[at]
            if count < len(line.calls):
                call = line.calls[count]
                now = max(moment, line.session.sent[call.at])
                if now <= line.last_moment(call, self.latest) and self.step(lines, made, places, now, at, call):
                    return True
        return False

    def step(self, lines: list[Line], made: Any, places: Any, moment: int, at: int, call: Call) -> bool:
        saids, count = made[at]
        for said, now in self.outcomes(call, dict(places)):
            if said == FAILED and is_hidden(call.command) and not self.forget:
                continue
            told = [*saids, said]
            if call.ends_command and not fits(call.command, told, call.text, call.is_last):
                continue
            kept = () if call.ends_command else tuple(told)
            later = (*made[:at], (kept, count + 1), *made[at + 1:])
            if self.search(lines, later, tuple(sorted(now.items())), moment):
                return True
        return False

    def outcomes(self, call: Call, places: dict[bytes, Place]) -> Iterator[tuple[Said, dict[bytes, Place]]]:
        """What a call may be told, and what the keys have then; a loss may come first."""
        name, key = call.call
        if name == "flush":
            yield ("flushed",), {one: place if shard_of(one, self.shards) != key else without_item(place)
                                 for one, place in places.items()}
            return
        place = places.get(key, NOTHING)
        before = [place]
        if self.may_lose(key) or place.item and place.is_first:
            before.append(NOTHING)
        for one in before:
            for said, now in after(call.command, call.call, call.text, one, self.near.get(key, set())):
                yield said, {**places, key: now}


def lasting_keys(session: Session) -> Iterator[bytes]:
    """The keys to which a session gives an exptime other than 0."""
    for command, frame in session.frames:
        words = words_of(frame[: frame.index(b"\n")].removesuffix(b"\r"))
        if command.value is not None and words[3].strip(b"0"):
            yield words[1]


def first_items(lines: list[Line], key: bytes) -> set[Item]:
    """The items that a key may have first: those that an answer shows, parts of them, numbers near those that answers show,
    another one, and one that may be any number or none."""
    shown = [(item, text) for line in lines for (command, _), text in zip(line.session.frames, line.texts)
             if command.verb in GETTING for item in items_in(command, text)[0].get(key, [])]
    flags = {item.flags for item, _ in shown} | {0}
    found = {Item(0, b"zz")} | {Item(flag, b"z1") for flag in flags}
    for item, _ in shown:
        found |= {Item(item.flags, item.value[one:end]) for end in range(len(item.value) + 1) for one in range(end + 1)}
    numbers = {number_in(item.value) or 0 for item, _ in shown}
    amounts = {0}
    for line in lines:
        for (command, _), text in zip(line.session.frames, line.texts):
            if command.verb in COUNTING and command.keys == [key]:
                amounts |= {command.numbers["amount"], -command.numbers["amount"]}
                numbers |= {int(text)} if COUNT_LINE.fullmatch(text) else set()
    near = {(number + sum(some)) % MOST for number in numbers for some in itertools.combinations_with_replacement(amounts, 2)}
    texts = {b"%d" % number for number in near}
    texts |= {text[one:end] for text in texts for end in range(len(text) + 1) for one in range(end)}
    return found | {Item(flag, text) for text in texts for flag in flags}


def main(words: list[str]) -> int:
    given, files = ends.options(words, {"--shards": ends.number(1, 256), "--warm": None, "--may-forget": None})
    if files:
        ends.stop("the files come on standard input; --help says more", 2)
    judge = Judge(sys.stdin.buffer.read(), "--warm" in given, "--may-forget" in given, given.get("--shards", 16))
    print("explained" if judge.is_explained() else "not explained")
    return 0


if __name__ == "__main__":
    checks.script(main, __doc__)
