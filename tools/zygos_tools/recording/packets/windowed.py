"""Reads the files of recorded packets that follow each other, and ends windows at quiet moments.

A window is what was read of the packets since the last one: its flows have the numbers 0, 1, 2 and so on, and one that
was there before goes on with its next bytes. A moment is quiet if the server has answered the last command of each
connection that is still open and of which no byte is missing. Packets are taken in the order of their times, so every
request of the next window is later than every answer of this one. Each window is written by a process of its own, and
at most three are in memory.
"""
from __future__ import annotations

import os
import sys
from bisect import bisect_left
from collections import OrderedDict
from collections.abc import Callable
from struct import Struct
from typing import TYPE_CHECKING

from zygos_tools.cli import ends, screen
from zygos_tools.files import inputs
from zygos_tools.files.formats import MOST_CONNECTIONS
from zygos_tools.files.part import PIECE, Fault
from zygos_tools.recording.counting import Count
from zygos_tools.recording.packets import recorded
from zygos_tools.recording.packets.faults import told
from zygos_tools.recording.packets.recorded import FLOW_COUNT, Answers, Flows, Packet, PacketFault, Session, Stream
from zygos_tools.recording.packets.resuming import Resuming, first_answer
from zygos_tools.recording.windows import Every

if TYPE_CHECKING:
    from zygos_tools.recording.packets.command import Reading

# how many processes write windows at a time
MOST_WRITING = 2
# in microseconds: how much later than the next one a packet may be in a file
HORIZON = 100000
# how many bytes are put in order at once
MOST_ORDERED = 1 << 22


class Carried(Flows):
    """The flows of a window. `carried` says how those of the window before go on: with which numbers of both sides."""

    def __init__(self, carried: dict[bytes, tuple[int, int]]) -> None:
        super().__init__()
        self.carried, self.closed = carried, OrderedDict[bytes, None]()

    def number_of(self, flow: bytes, at: int) -> int:
        if flow not in self.numbers:
            number = len(self.sessions)
            if number == MOST_CONNECTIONS:
                if not self.closed:
                    raise PacketFault(FLOW_COUNT, at)
                number = self.numbers.pop(self.closed.popitem(last=False)[0])
            self.sessions.setdefault(number, [])
            self.numbers[flow] = number
        return self.numbers[flow]

    def meet(self, packet: Packet, at: int) -> None:
        if packet.is_syn:
            self.closed.pop(packet.flow, None)
        if packet.flow not in self.numbers and packet.flow in self.carried and not packet.is_syn:
            sent, back = self.carried[packet.flow]
            session = Session(Packet(packet.flow, sent, 0, b""))
            session.answers, session.is_carried = Answers(Packet(packet.flow, back, 0, b"")), True
            self.sessions[self.number_of(packet.flow, at)].append(session)
        super().meet(packet, at)

    def close(self, flow: bytes) -> None:
        """A flow has ended."""
        self.carried.pop(flow, None)
        if flow in self.numbers:
            self.closed[flow] = None

    def next_carried(self) -> dict[bytes, tuple[int, int]]:
        """How flows go on in the next window. Those in which bytes are missing begin anew."""
        found = dict(self.carried)
        for flow, number in self.numbers.items():
            session = self.sessions[number][-1]
            if is_whole(session) and session.answers and flow not in self.closed:
                found[flow] = next_number(session.requests), next_number(session.answers)
            else:
                found.pop(flow, None)
        return found


class CarriedResuming(Carried, Resuming):
    """The same, with sessions that begin anew."""


def next_number(stream: Stream) -> int:
    """The sequence number of a stream's next byte."""
    return (stream.base + stream.size()) % recorded.NUMBERS


def is_whole(session: Session) -> bool:
    """Whether no byte of a session is missing."""
    return len(session.requests.begins) == 1 and (session.answers is None or len(session.answers.begins) == 1)


class Pace:
    """How much of a session was counted."""

    def __init__(self, session: Session) -> None:
        self.session, self.count, self.asked = session, Count(), 0
        self.told = first_answer(session) or 0 if session.is_resumed and session.answers else 0

    def count_on(self) -> int:
        """Counts what is new. Gives how many commands are new."""
        one, text = self.session, self.session.requests.text(self.asked)
        self.asked += len(text)
        found = self.count.sent(text)
        if one.answers:
            text = one.answers.text(self.told)
            self.told += len(text)
            self.count.heard(text)
        return found


class Window:
    """When a window ends: it is asked after answers, when no connection waits for one."""

    def __init__(self, every: Every, flows: Carried, begin: int | None = None) -> None:
        self.every, self.flows, self.begin = every, flows, begin
        # connections that wait for an answer, those with new bytes, and those with a command in flight
        self.pending, self.touched, self.unsettled = set[int](), set[int](), set[int]()
        self.paces: dict[int, Pace] = {}
        self.commands, self.lines, self.least_lines = 0, 0, every.commands or 0
        self.is_over, self.time = False, 0

    def note(self, number: int, is_answer: bool, payload: bytes) -> None:
        """Notes bytes of a connection."""
        self.touched.add(number)
        if is_answer and payload.endswith(b"\n"):
            self.pending.discard(number)
        elif not is_answer:
            self.pending.add(number)
            self.lines += payload.count(b"\n")

    def look(self, time: int) -> bool:
        """Whether the window ends here: if it is time, and the moment is quiet."""
        if self.begin is None:
            self.begin = time
        seconds = self.every.seconds
        if time < self.begin + seconds * 1000000 if seconds is not None else self.lines < self.least_lines:
            return False
        is_quiet = self.is_quiet()
        left = (self.every.commands or 0) - self.commands
        if left > 0:  # a command has at least one line
            self.least_lines = self.lines + left
            return False
        self.is_over, self.time = is_quiet, time
        return is_quiet

    def is_quiet(self) -> bool:
        closed = {self.flows.numbers[flow] for flow in self.flows.closed}
        for number in self.touched:
            session = self.flows.sessions[number][-1]
            pace = self.paces.get(number)
            if pace is None or pace.session is not session:
                pace = self.paces[number] = Pace(session)
            self.commands += pace.count_on()
            if is_whole(session) and number not in closed and not pace.count.is_quiet():
                self.unsettled.add(number)
            else:
                self.unsettled.discard(number)
        self.touched.clear()
        return not self.unsettled - closed


# ---- files


def first_time(name: str) -> tuple[int, int]:
    """The time of a file's first packet; files without one come last."""
    with open(name, "rb") as file:
        text = file.read(recorded.FIRST)
    try:
        record = recorded.head_of(recorded.byte_order(text)).unpack_from(text.ljust(recorded.FIRST, b"\xff"), 24)
    except PacketFault:
        return 0, 0  # it is read first, and refused
    return record[0], record[1]


def in_time(names: list[str]) -> list[str]:
    """Files in the order of their first packets."""
    return sorted(names, key=first_time) if len(names) > 1 else names


class Ordered:
    """Puts the records of files in the order of their times, as far as these differ little from that of the files."""

    def __init__(self) -> None:
        self.held, self.done, self.late = b"", 0, 0
        self.left = b""  # a record that is not whole

    def add(self, text: bytes, head: Struct, is_all: bool = False) -> bytes | None:
        """Adds bytes of records. Gives the records that none comes before any more; with `is_all`, all that are whole.
        None if a record has more bytes than there can be."""
        text = b"".join([self.held, self.left, text])
        unpack, times, at, end = head.unpack_from, list[tuple[int, int, int]](), 0, len(text)
        while at + 16 <= end:
            seconds, micros, size, _ = unpack(text, at)
            stop = at + 16 + size
            if size > recorded.MOST_FRAME:
                return None
            if stop > end:
                break
            times.append((seconds * 1000000 + micros, at, stop))
            at = stop
        self.left = text[at:]
        found = sorted(times)
        limit = found[-1][0] + 1 if is_all and found else found[-1][0] - HORIZON if found else 0
        count = bisect_left(found, (limit,))
        self.late += bisect_left(found, (self.done,))
        if count:
            self.done = max(self.done, found[count - 1][0])
        if found == times:
            place = found[count - 1][2] if count else 0
            self.held = text[place:at]
            return text[:place]
        self.held = b"".join([text[at:stop] for _, at, stop in found[count:]])
        return b"".join([text[at:stop] for _, at, stop in found[:count]])


class Files:
    """The packets of files, in windows; `begin` gives a reading for what a window goes on with, `write` writes one."""

    def __init__(self, names: list[str], begin: Callable[[dict[bytes, tuple[int, int]], int | None], Reading],
                 write: Callable[[Reading, int], int]) -> None:
        self.names, self.begin, self.write = in_time(names), begin, write
        self.reading, self.number, self.status = begin({}, None), 1, 0
        self.children: list[int] = []
        self.ordered = Ordered()
        self.head: Struct | None = None

    def read(self) -> int:
        """Reads all. Gives the status."""
        for name in self.names:
            self.read_file(name, name == self.names[-1])
        if self.head:
            self.add(b"", self.names[-1], self.head, True)
        self.end_window()
        while self.children:
            self.wait()
        if self.ordered.late:
            screen.say(f"{self.ordered.late} packets are in no order of their times: windows may end at a moment that was"
                       " not quiet")
        return self.status

    def read_file(self, name: str, is_last: bool) -> None:
        """Reads a file. The last one may end within a record."""
        more, text = inputs.pieces(name), b""
        while len(text) < recorded.HEADER and (piece := more(PIECE)):
            text += piece
        try:
            head = recorded.head_of(recorded.byte_order(text))
        except PacketFault as fault:
            raise Fault(f"{inputs.name_of(name)}: {told(fault, text, name, 0)[0]}") from None
        if self.head and self.head.format != head.format:
            self.add(b"", name, self.head, True)
        self.head = head
        self.add(text[recorded.HEADER :], name, head)
        while piece := more(MOST_ORDERED):
            self.add(piece, name, head)
        if self.ordered.left and not is_last:
            raise Fault(f"{inputs.name_of(name)}: it ends within a record, and other files follow")
        if self.ordered.left:
            screen.say(f"{inputs.name_of(name)}: it ends within a record, as a file that tcpdump still writes: that is left out")
            self.ordered.left = b""

    def add(self, text: bytes, name: str, head: Struct, is_all: bool = False) -> None:
        """Takes what is in order with further bytes of a file."""
        records = self.ordered.add(text, head, is_all)
        if records is None:
            raise Fault(f"{inputs.name_of(name)}: a frame has more than {recorded.MOST_FRAME} bytes, so the file is damaged")
        self.take(records, name, head)

    def take(self, text: bytes, name: str, head: Struct) -> None:
        """Takes records that are whole, from a file of this name."""
        at = 0
        while True:
            at = self.reading.read_records(text, at, len(text), head)
            if self.reading.first:
                fault = told(self.reading.first[0], b"", name, self.reading.port)[0]
                raise Fault(f"{inputs.name_of(name)}: {fault}\n  tools/packets {name} says where")
            if not self.reading.window or not self.reading.window.is_over:
                return
            self.end_window()

    def end_window(self) -> None:
        """Writes the current window in a process of its own, and begins the next one."""
        while len(self.children) >= MOST_WRITING:
            self.wait()
        reading, number, window = self.reading, self.number, self.reading.window
        reading.flows.settle()
        sys.stdout.flush()
        child = ends.fork()
        if not child:
            status = 1
            try:
                status = self.write(reading, number)
                sys.stdout.flush()
            except OSError as error:
                screen.say(f"{error.filename}: {error.strerror}")
            except Exception as error:
                screen.say(ends.unforeseen(error))
            finally:
                os._exit(status)
        self.children.append(child)
        if window:
            self.reading, self.number = self.begin(window.flows.next_carried(), window.time), number + 1

    def wait(self) -> None:
        """Waits for a process that writes a window."""
        self.status |= int(os.waitpid(self.children.pop(0), 0)[1] != 0)
