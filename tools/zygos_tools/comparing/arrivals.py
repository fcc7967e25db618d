"""The commands of a capture in the order in which their last bytes came, and their recorded answers."""
from __future__ import annotations

from bisect import bisect_right
from collections import Counter
from collections.abc import Iterable, Iterator, Mapping, Sequence
from typing import NamedTuple, Union

from zygos_tools.comparing.steps import BOTH, by_commands
from zygos_tools.files import inputs, kinds
from zygos_tools.files.formats import END, Close, Segment, capture_head, capture_records, capture_start, close, segment
from zygos_tools.files.part import Fault
from zygos_tools.protocol.answers import answers
from zygos_tools.protocol.meaning import Command, Frame, Framer, frames_of, line_of

FOREVER = 1 << 62
# a connection and a session; texts of sessions; a record after its session
Key = tuple[int, int]
Texts = Mapping[Key, bytes]
Placed = tuple[int, Union[Segment, Close]]


class Arrival(NamedTuple):
    """A command, with the connection and the session that sent it, and the number of the record in which its last byte
    came."""

    connection: int
    session: int
    command: Command
    frame: bytes
    record: int

    @property
    def key(self) -> Key:
        """The session."""
        return self[:2]


class Given(NamedTuple):
    """A command with its answer, None where it has none, and with that of a second server."""

    arrival: Arrival
    answer: bytes | None
    other: bytes | None = None


class Arrivals:
    """The commands of a capture; `sessions` has the number of sessions that each connection had so far."""

    def __init__(self, name: str):
        self.name, self.version, self.count, self.later = name, 1, 0, Counter[int]()

    def records(self) -> Iterator[Placed]:
        """The records of the capture, each after its session."""
        self.later.clear()
        parts = inputs.parts(self.name, inputs.NO_CAPTURE)
        part = next(parts, None)
        if part is None:
            raise Fault(f"{inputs.name_of(self.name)}: {kinds.told(b'')}")
        self.version, self.count = capture_head(part)
        for record in capture_records(part, self.version, self.count):
            yield self.later[record.connection], record
            if isinstance(record, Close):
                self.later[record.connection] += 1
        for other in parts:
            raise other.fault("not expected here: a capture is read alone")

    def commands(self) -> Iterator[Arrival]:
        """The commands in order."""
        framers: dict[int, Framer] = {}
        for place, (session, record) in enumerate(self.records()):
            connection = record.connection
            if isinstance(record, Close):
                framers.pop(connection, None)
                continue
            if connection not in framers:
                framers[connection] = Framer()
            for command, frame in framers[connection].feed(record.text):
                yield Arrival(connection, session, command, frame, place)

    def capture(self) -> bytes:
        """The bytes of the capture."""
        records = [close(*record) if isinstance(record, Close) else segment(*record) for _, record in self.records()]
        return b"".join([capture_start(self.count, self.version), *records, END])

    def sessions(self) -> Iterator[Key]:
        """All connections with their sessions, in the order of a replies file, once all records were read."""
        for connection in range(self.count):
            for session in range(self.later[connection] + 1):
                yield connection, session


class Kept(Arrivals):
    """The commands of a capture that is kept, so that it may be standard input; `streams` are those of its sessions."""

    def __init__(self, name: str):
        super().__init__(name)
        self.kept = list(super().records())
        self.streams = streams_of(self.kept)

    def records(self) -> Iterator[Placed]:
        return iter(self.kept)

    def commands(self) -> Iterator[Arrival]:
        """The commands in order; each stream is cut into frames once."""
        going: dict[Key, Going] = {}
        for place, (session, record) in enumerate(self.kept):
            if isinstance(record, Close):
                continue
            key = record.connection, session
            if key not in going:
                going[key] = Going(frames_of(self.streams[key]))
            for command, frame in going[key].take(len(record.text)):
                yield Arrival(*key, command, frame, place)


class Going:
    """The frames of a stream whose bytes come in pieces."""

    def __init__(self, frames: Sequence[Frame]):
        self.frames, self.at, self.left = frames, 0, 0

    def take(self, count: int) -> Sequence[Frame]:
        """The frames that end in further bytes."""
        self.left += count
        begin = self.at
        while self.at < len(self.frames) and len(self.frames[self.at][1]) <= self.left:
            self.left -= len(self.frames[self.at][1])
            self.at += 1
        return self.frames[begin : self.at]


def streams_of(records: Iterable[Placed]) -> dict[Key, bytes]:
    """The streams of records, by connection and session."""
    found: dict[Key, list[bytes]] = {}
    for session, record in records:
        if not isinstance(record, Close):
            found.setdefault((record.connection, session), []).append(record.text)
    return {key: b"".join(pieces) for key, pieces in found.items()}


# ---- recorded answers


class Session:
    """The answers of a session, in the order of its commands."""

    def __init__(self, stream: bytes, text: bytes):
        self.source, self.number = answers_of(stream, text), 0
        self.next: tuple[int, bytes | None] | None = None

    def answer(self) -> bytes | None:
        """The answer to the next command; None where there is none."""
        number, self.number = self.number, self.number + 1
        if self.next is None or self.next[0] < number:
            self.next = next((one for one in self.source if one[0] >= number), (1 << 62, None))
        return self.next[1] if self.next[0] == number else None


def answers_of(stream: bytes, text: bytes) -> Iterator[tuple[int, bytes | None]]:
    """The answers of a session by the number of the command; those of which it is not known whose they are, are left
    out."""
    if all(is_plain(*one) for one in frames_of(stream)):
        asked = [number for number, (command, _) in enumerate(frames_of(stream)) if not command.quiet]
        yield from zip(asked, answers(text))
        return
    for exchange in by_commands(stream, text, text):
        if exchange.kind == BOTH and exchange.first is not None and len(exchange.group) == 1:
            yield exchange.first, exchange.one[1]


def is_plain(command: Command, frame: bytes) -> bool:
    """Whether a command is surely answered, or surely not: it has no flag `q`, and is no faulty line with noreply."""
    return "q" not in command.letters and (command.verb != "fault" or not line_of(frame).rstrip().endswith(b" noreply"))


def outputs(name: str) -> dict[Key, bytes]:
    """The outputs of a replies file by connection and session."""
    found, _ = inputs.outputs_in(name, "; tools/record writes one", ": the replies that were recorded are",
                                 ": one replies file is read")
    return {record[:2]: record.text for record in found}


def recorded(arrivals: Arrivals, name: str) -> dict[Key, bytes]:
    """The outputs of a replies file, which is of the same traffic, by connection and session."""
    for _ in arrivals.records():  # counts the sessions
        pass
    texts = outputs(name)
    wanted = set(arrivals.sessions())
    if wanted != set(texts):
        raise Fault(f"not of the same traffic: {inputs.name_of(arrivals.name)} has {arrivals.count} connections and"
                    f" {len(wanted)} sessions, {inputs.name_of(name)} has {len({key[0] for key in texts})} and"
                    f" {len(texts)}")
    return texts


def with_answers(arrivals: Arrivals, streams: Texts, *outputs_of: Texts) -> Iterator[Given]:
    """The commands of a capture in order, each with its answers in one or two outputs by connection and session."""
    sessions = [{key: Session(stream, texts.get(key, b"")) for key, stream in streams.items()} for texts in outputs_of]
    for arrival in arrivals.commands():
        yield Given(arrival, *(some[arrival.key].answer() for some in sessions))


# ---- ends of commands


def ends_of(arrivals: Arrivals, given: Sequence[Given]) -> list[int]:
    """The records at whose time commands had ended at the latest; `given` has the commands, and what answered each.

    Without the ends of answers, which `record --ends` writes, each client is taken to wait for them.
    """
    marks: dict[Key, list[int]] = {}
    begins: dict[Key, list[int]] = {}
    sessions: dict[Key, list[int]] = {}
    for place, (session, record) in enumerate(arrivals.records()):
        if isinstance(record, Segment):
            (begins if record.text else marks).setdefault((record.connection, session), []).append(place)
    for at, one in enumerate(given):
        sessions.setdefault(one.arrival.key, []).append(at)
    found = [FOREVER] * len(given)
    for key, places in sessions.items():
        own = [given[at] for at in places]
        is_hidden = any("q" in one.arrival.command.letters for one in own)
        by_key = by_begins(own, begins.get(key, [])) if is_hidden or not marks else by_marks(own, marks.get(key, []))
        last = FOREVER
        for at, end in reversed(list(zip(places, by_key))):
            found[at] = last = min(last, end)
    return found


def by_marks(given: Iterable[Given], marks: Iterable[int]) -> list[int]:
    """The ends of the answers of a session, in order."""
    left = iter(marks)
    return [FOREVER if one.answer is None or one.arrival.command.quiet else next(left, FOREVER) for one in given]


def by_begins(given: Iterable[Given], begins: Sequence[int]) -> list[int]:
    """What each client sent next; a command with `noreply` ends with a later one."""
    places = [bisect_right(begins, one.arrival.record) for one in given]
    return [FOREVER if one.arrival.command.quiet or at == len(begins) else begins[at] for one, at in zip(given, places)]
