"""A recording with the times of an order that the search found, for the proved program, which does not find this order itself.

Each command is sent just before its first call in the order, and is answered just after its last one. There is such an
order if and only if each call has a moment in it between its command and its end, so these times lie within the
recorded ones: an order of the copy is one of the recording. A command with `noreply` has no end of its own, so it has
none here, and is answered as the order says: what explains this explains it without an answer too. Nothing of the items
changes.
"""
from __future__ import annotations

from collections import Counter
from collections.abc import Iterable, Iterator

from zygos_tools.files.formats import END, Output, capture_start, pieces, replies_file, segment
from zygos_tools.judging.judge import Judge
from zygos_tools.judging.table import DROPPED, LOST, QUIET, REPLACED

# what is counted
COUNTED = "commands at the times of an order that was searched"
NOREPLY = b" noreply\r\n"
# the line that answers a call, by the name of its reply
LINES = {"stored": b"STORED\r\n", "not stored": b"NOT_STORED\r\n", "exists": b"EXISTS\r\n", "not found": b"NOT_FOUND\r\n",
         "deleted": b"DELETED\r\n", "no number": b"CLIENT_ERROR cannot increment or decrement non-numeric value\r\n"}


class Narrowed:
    """The copy of a recording whose order was found. `quiet` has the replies that calls without an answer have in it, each
    with the number in it."""

    def __init__(self, judge: Judge, quiet: dict[int, tuple[str, int]]):
        self.table, self.count, self.quiet, self.order = judge.table, judge.recording.count, quiet, list(judge.calls())
        self.of_connection = judge.recording.of_connection
        self.sent = [0] * self.count
        self.answers: list[list[bytes]] = [[] for _ in range(self.count)]
        self.counts = Counter({COUNTED: len(self.table.verb)})

    def pieces(self, items: Iterable[bytes]) -> Iterator[bytes]:
        """The capture, an items file and the replies file."""
        yield capture_start(self.count)
        yield from self.records()
        yield END
        yield from items
        yield replies_file(1, [Output(connection, 0, b"".join(texts)) for connection, texts in enumerate(self.answers)])

    def records(self) -> Iterator[bytes]:
        """The segments of the copy."""
        table, begun = self.table, Counter[int]()
        for call in self.order:
            command = table.command[call]
            if not begun[command]:
                yield from self.send_up_to(command)
            begun[command] += 1
            if begun[command] == table.count_of_calls(command):
                del begun[command]
                yield from self.answer(command)
        for connection in range(self.count):
            yield from self.send_rest(connection)

    def send_up_to(self, command: int) -> Iterator[bytes]:
        """Sends a command, and before it those of its connection that make no call."""
        connection = self.table.connection[command]
        asked = self.of_connection[connection]
        while (one := asked[self.sent[connection]]) != command:
            yield from self.send(one)
            yield from self.answer(one)
        yield from self.send(command)

    def send_rest(self, connection: int) -> Iterator[bytes]:
        """Sends what is left of a connection."""
        for one in self.of_connection[connection][self.sent[connection] :]:
            yield from self.send(one)
            yield from self.answer(one)

    def send(self, command: int) -> Iterable[bytes]:
        """Sends a command."""
        connection, frame = self.table.connection[command], self.table.original(command)
        self.sent[connection] += 1
        return pieces(connection, frame.replace(NOREPLY, b"\r\n", 1) if self.text(command) else frame)

    def answer(self, command: int) -> Iterator[bytes]:
        """Answers a command."""
        connection = self.table.connection[command]
        text = self.text(command) or self.table.answer(command)
        if text is not None:
            self.answers[connection].append(text)
            yield segment(connection, b"")

    def text(self, command: int) -> bytes:
        """The answer to a command with `noreply`, as the order has it; nothing if it has none there."""
        calls = self.table.calls_of(command)
        if not self.table.state[command] & QUIET or len(calls) != 1 or calls[0] not in self.quiet:
            return b""
        original = self.table.original(command)
        if not original[: original.index(b"\n") + 1].endswith(NOREPLY):
            return b""
        name, number = self.quiet[calls[0]]
        return b"%d\r\n" % number if name == "number" else LINES.get(name, b"")


def narrowed(judge: Judge) -> Narrowed | None:
    """The copy of a recording whose order was found; None if it has more than commands which the program reads as they
    are, in one session of each connection, or if items were lost."""
    recording, states = judge.recording, judge.table.state
    if any(recording.sessions.values()) or recording.notes or any(state & (DROPPED | REPLACED | LOST) for state in states):
        return None
    certificate = judge.certificate()
    return None if certificate.replay.losses else Narrowed(judge, certificate.replay.quiet)
