"""Which commands of a capture have the same answers in all its runs: those on keys that one connection alone calls.

Other keys depend on the order in which connections are served, and so do all of them after a `flush_all`, and `stats`.
"""
from __future__ import annotations

from collections.abc import Iterable, Mapping, Sequence
from typing import Union

from zygos_tools.files.formats import shown
from zygos_tools.protocol.meaning import Command, Frame, frames_of, line_of, words_of
from zygos_tools.protocol.table import COUNTING, JOINING, MAKING, STORING, action_of, is_touching, keys_of


# the bytes of a session, or its frames
Stream = Union[bytes, tuple[Frame, ...]]
Streams = Mapping[tuple[int, int], Stream]


def frames_in(stream: Stream) -> tuple[Frame, ...]:
    """The frames of a stream, which may be given as its frames."""
    return stream if isinstance(stream, tuple) else frames_of(stream)


class Callers:
    """Which connections call which keys, and which keys are stored at all."""

    def __init__(self, streams: Streams):
        """Of streams by connection and session, or of their frames; `counted` are keys with a counter."""
        self.of_key: dict[bytes, int] = {}
        self.second: dict[bytes, int] = {}
        self.stored: set[bytes] = set()
        self.counted: set[bytes] = set()
        self.connections: set[int] = set()
        self.flush: tuple[int, int] | None = None
        self.streams, self.joined = streams, set[bytes]()
        self.values: set[int] | None = None
        number, last = 0, None
        for connection, session in sorted(streams):
            number, last = number if connection == last else 0, connection
            for command, frame in frames_in(streams[connection, session]):
                self.connections.add(connection)
                if command.verb == "flush_all" and not self.flush:
                    self.flush = connection, number
                self.stored.update(stored_by(command, frame))
                if action_of(command, frame) in COUNTING:
                    self.counted.update(keys_of(command, line_of(frame)))
                for key in command.keys:
                    if self.of_key.setdefault(key, connection) != connection:
                        self.second.setdefault(key, connection)
                number += 1

    def as_one(self) -> Callers:
        """The same keys as if one connection called them all."""
        found = Callers({})
        found.stored, found.counted = self.stored, self.counted
        return found

    def has_order(self, command: Command) -> bool:
        """Whether the answer to a command may depend on the order of connections."""
        if len(self.connections) < 2:
            return False
        return command.verb == "stats" or any(key in self.second for key in command.keys) or \
            self.flush is not None and bool(command.keys)

    def order(self, command: Command) -> str | None:
        """Why the answer to a command may depend on the order of connections; None if it does not."""
        if len(self.connections) < 2:
            return None
        if command.verb == "stats":
            return "stats counts the calls of all connections"
        for key in command.keys:
            if key in self.second:
                return f"connections {self.of_key[key]} and {self.second[key]} both call the key {shown(key)}"
        if self.flush and command.keys:
            return "connection {} sends flush_all, command {}".format(*self.flush)
        return None

    def may_store(self, key: bytes, value: bytes) -> bool:
        """Whether the capture may store this value under a key that several connections call."""
        if self.values is None:
            self.values = set()
            for stream in self.streams.values():
                for command, frame in frames_in(stream):
                    self.look(command, frame, self.values)
        is_counted = key in self.counted and value.rstrip(b" ").isdigit()
        return is_counted or key in self.joined or hash((key, value)) in self.values

    def look(self, command: Command, frame: bytes, values: set[int]) -> None:
        """What a command stores under shared keys: a value, or one that it joins to what is there."""
        action = action_of(command, frame)
        for key in keys_of(command, line_of(frame)):
            if key in self.second:
                if command.value is not None and action in STORING:
                    values.add(hash((key, command.value)))
                elif action in JOINING or command.verb == "fault" and not is_touching(line_of(frame)):
                    self.joined.add(key)


def timed_by(command: Command, frame: bytes) -> Iterable[bytes]:
    """The keys to whose items a command gives an exptime, and of faulty ones those that may get one."""
    if command.verb == "fault":
        line = line_of(frame)
        return keys_of(command, line) if is_touching(line) or action_of(command, frame) in MAKING else ()
    return command.keys if command.numbers.get("exptime", 0) else ()


def stored_by(command: Command, frame: bytes) -> Sequence[bytes]:
    """The keys of which a command may make items where there are none; a faulty line may do so on another server."""
    if action_of(command, frame) not in MAKING:
        return ()
    if command.verb == "fault":
        return words_of(line_of(frame))[1:2]
    return command.keys if command.value is not None else ()
