"""Why two servers differ in their answers to the commands of a capture; the first is the one that was recorded.

Of each key it is kept what the capture did to it so far, and the cause of an earlier difference in it: what follows
from that has the same cause. A difference in a key that several connections call may come of their order: that is
known of what zygos answers near the order of arrival (in_order.py).
"""
from __future__ import annotations

from collections.abc import Callable, Iterator, Mapping, Sequence
from typing import NamedTuple

from zygos_tools.comparing.apart import Callers, Stream, frames_in, stored_by, timed_by
from zygos_tools.comparing.steps import Exchange
from zygos_tools.protocol.answers import FAULT, items, meta, usual_item, without_uniques
from zygos_tools.protocol.meaning import Command, Frame
from zygos_tools.protocol.table import SHOWING, TELLING, does, is_there, is_touching, keys_of

# the causes, from the one that says least of the servers to the one that says most; a difference in several keys has
# those of the key with the last one that there is
BEFORE, UNIQUES, EXPIRY, LOST, PADDED, REFUSED, OWN, TIMES, ORDER, QUIET, SERVERS = CAUSES = (
    "before", "uniques", "expiry", "lost", "padded", "refused", "own", "times", "order", "quiet", "servers")
# what an answer shows of an item: its words, and its value
Item = tuple["tuple[bytes, ...] | None", "bytes | None"]
# the cause of a difference in a key, or the causes that there may be
Found = Mapping[bytes, "str | tuple[str, ...]"]


class Expected(NamedTuple):
    """What zygos answers to a command near the order of arrival, and by key why the recorded answer is another."""

    text: bytes
    causes: Mapping[bytes, tuple[str, ...]]


class Seen(NamedTuple):
    """What two answers show of a key: whether there is an item, and its value; None where they do not show it."""

    there: tuple[bool | None, bool | None]
    values: tuple[bytes | None, bytes | None]


def is_retrieval(command: Command) -> bool:
    """Whether a command is answered by items."""
    return does(command) == "get" and command.call is None


def found(answer: bytes) -> dict[bytes, Item]:
    """The items of an answer to `get` or `gets`, by key, without their uniques."""
    if answer == b"END\r\n":
        return {}
    if item := usual_item(answer):
        return {item.key: ((item.flags, item.size), item.value)}
    return {item.key: (item.words[1:3], item.value) for item in items(answer)}


def value_of(answer: bytes) -> bytes | None:
    """The value that an answer to `mg` shows; None where it shows none."""
    return meta(answer).value if answer.startswith(b"VA ") else None


def is_padded(one: bytes | None, other: bytes | None) -> bool:
    """Whether two values are a number and the same one with spaces after it."""
    if one is None or other is None or one == other:
        return False
    return one.rstrip(b" ") == other.rstrip(b" ") and one.rstrip(b" ").isdigit()


class Key:
    """What a connection did to a key so far."""

    __slots__ = "is_stored", "has_exptime", "cause"

    def __init__(self) -> None:
        self.is_stored, self.has_exptime = False, False
        self.cause: str | None = None


def part_of(command: Command, name: bytes, answer: bytes) -> object:
    """What an answer shows of a key of its command."""
    return found(answer).get(name) if is_retrieval(command) else without_uniques(answer)


def stat_names(answer: bytes) -> list[bytes]:
    """The names of an answer to `stats`."""
    return [line.split(b" ")[1] for line in answer.split(b"\r\n") if line.startswith(b"STAT ")]


class Causes:
    """The causes of differences, of one connection after the other, and of its sessions in order.

    `in_order` gives what zygos answers near the order of arrival; it is asked only of commands that depend on the order.
    """

    def __init__(self, callers: Callers, in_order: Callable[[], Mapping[tuple[int, int, int], Expected]] = dict):
        self.callers, self.in_order, self.at = callers, in_order, 0
        self.keys: dict[bytes, Key] = {}
        self.connection = self.session = -1
        self.commands: Iterator[Frame] = iter(())

    def key(self, name: bytes) -> Key:
        """What was done to a key."""
        if name not in self.keys:
            self.keys[name] = Key()
        return self.keys[name]

    # ---- what commands do

    def begin(self, connection: int, session: int, stream: Stream) -> None:
        """Goes on to the next session of a connection."""
        self.pass_over(None)
        if connection != self.connection:
            self.keys, self.connection = {}, connection
        self.session, self.commands, self.at = session, iter(frames_in(stream)), 0

    def pass_over(self, number: int | None) -> None:
        """Goes on to a command of the session, or to its end."""
        while number is None or self.at < number:
            frame = next(self.commands, None)
            if frame is None:
                return
            self.note(*frame)
            self.at += 1

    def note(self, command: Command, frame: bytes) -> None:
        """What a command may do to its keys."""
        for name in stored_by(command, frame):
            key = self.key(name)
            key.is_stored, key.has_exptime = True, False
        for name in timed_by(command, frame):
            self.key(name).has_exptime = True

    # ---- causes

    def agreed(self, exchange: Exchange) -> None:
        """Both answers are the same: then the keys of some commands are the same again."""
        for _, _, command in exchange.group:
            self.agreed_on(command)

    def agreed_on(self, command: Command) -> None:
        """Both answers to a command are the same."""
        if does(command) in SHOWING and command.verb != "mg":
            for name in command.keys:
                self.key(name).cause = None

    def why(self, exchange: Exchange) -> str | None:
        """Why a difference may depend on the order; None if it does not."""
        called = [command._replace(keys=keys_of(command, line)) for _, line, command in exchange.group]
        return next(filter(None, map(self.callers.order, called)), None)

    def differed(self, exchange: Exchange) -> tuple[str, ...]:
        """The causes of a difference, of which one or several may be the true one."""
        commands = [command for _, _, command in exchange.group]
        if len(commands) > 1:
            self.pass_over(exchange.first)
            found: list[tuple[str, ...]] = [(self.of_several(commands),)]
        else:
            causes = self.by_key(exchange).values()
            found = [cause if isinstance(cause, tuple) else (cause,) for cause in causes]
            found = found or [self.without_key(commands[0], exchange)]
        if len(found) == 1:
            return found[0]
        last = max((causes[-1] for causes in found), key=CAUSES.index)
        some = {cause for causes in found if causes[-1] == last for cause in causes}
        return tuple(cause for cause in CAUSES if cause in some)

    def of_several(self, commands: Sequence[Command]) -> str:
        """The cause where it is not known which of several commands was answered how."""
        names = list(dict.fromkeys(name for command in commands for name in command.keys))
        shared = [name for name in names if name in self.callers.second]
        causes = {cause for name in names if name not in shared and (cause := self.key(name).cause)}
        is_new = names and not any(name in self.callers.stored if name in shared else self.key(name).is_stored
                                   for name in names)
        cause = BEFORE if is_new else QUIET
        if causes and not is_new and not shared:
            cause = max(causes, key=CAUSES.index)
        for name in names:
            self.key(name).cause = cause
        return cause

    def without_key(self, command: Command, exchange: Exchange) -> tuple[str, ...]:
        """The causes where a command without a key was answered in two ways."""
        if command.verb == "fault":
            return (REFUSED,)
        names = [stat_names(answer or b"") for _, answer in (exchange.one, exchange.other)]
        if command.verb in TELLING and (command.verb != "stats" or names[0] != names[1]):
            return (OWN,)
        return (TIMES, ORDER) if self.callers.has_order(command) else (SERVERS,)

    def by_key(self, exchange: Exchange) -> Found:
        """The cause of a difference by key, and the causes of one in a key of which there may be several."""
        self.pass_over(exchange.first)
        one, other = exchange.one[1] or b"", exchange.other[1] or b""
        [(number, line, command)] = exchange.group
        if command.verb == "fault":
            return self.of_fault(command, line, (one, other))
        causes: dict[bytes, str | tuple[str, ...]] = {}
        for name, seen in self.seen(command, one, other).items():
            if self.callers.has_order(command):
                causes[name] = self.in_any_order(command, number, name, other)
            else:
                self.key(name).cause = cause = self.of_key(command, name, seen, (one, other))
                causes[name] = cause
        return causes

    def of_fault(self, command: Command, line: bytes, answers: tuple[bytes, bytes]) -> Found:
        """The causes by key where zygos does not serve a line, or where two other servers do."""
        names = keys_of(command, line)
        if not any(map(FAULT.match, answers)):
            is_shared = self.callers.has_order(command._replace(keys=names))
            cause: str | tuple[str, ...] = (TIMES, ORDER) if is_shared else SERVERS
            return dict.fromkeys(names, cause)
        for name in () if is_touching(line) else names:
            self.key(name).cause = REFUSED
        return dict.fromkeys(names, REFUSED)

    @staticmethod
    def seen(command: Command, one: bytes, other: bytes) -> dict[bytes, Seen]:
        """The keys in which two answers differ, each with what they show of it."""
        if not is_retrieval(command):
            there = is_there(does(command), one), is_there(does(command), other)
            return dict.fromkeys(command.keys, Seen(there, (value_of(one), value_of(other))))
        ones, others = found(one), found(other)
        none: Item = None, None
        return {name: Seen((name in ones, name in others), (ones.get(name, none)[1], others.get(name, none)[1]))
                for name in command.keys if ones.get(name) != others.get(name)}

    def of_key(self, command: Command, name: bytes, seen: Seen, answers: tuple[bytes, bytes]) -> str:
        """The cause of a difference in a key that one connection alone calls."""
        key = self.key(name)
        is_gone, is_more = seen.there == (False, True), seen.there == (True, False)
        if (is_gone or is_more) and not key.is_stored:
            return BEFORE
        if does(command) == "cas":
            is_stored = [text.startswith((b"STORED", b"HD")) for text in answers]
            if any(is_stored) and any(text.startswith(b"EX") for text in answers):
                return UNIQUES
        if name in self.callers.counted and is_padded(*seen.values):
            return PADDED
        if key.cause:
            return key.cause
        if (is_gone or is_more) and key.has_exptime:
            return EXPIRY
        return LOST if is_gone else SERVERS

    def in_any_order(self, command: Command, number: int, name: bytes, other: bytes) -> tuple[str, ...]:
        """The causes of a difference in a key that depends on the order of connections."""
        expected = self.in_order().get((self.connection, self.session, number))
        if expected is None or name not in expected.causes:
            return (ORDER,)
        causes = expected.causes[name]
        if causes == (BEFORE,) or part_of(command, name, expected.text) == part_of(command, name, other):
            return causes
        return tuple(cause for cause in CAUSES if cause in causes or cause == ORDER)
