"""Recorded packets, as docs/FORMATS.md says: the packets of a file to one port, their flows, and the captures of these.

`made` gives the capture that `zygos pcap` makes of a file, or raises its first fault. `records`, `tcp_in`, `packet_of`
and `Flows` are its steps. All take time in proportion to the file.
"""
from __future__ import annotations

import struct
from bisect import bisect_right
from collections.abc import Callable, Iterable, Iterator
from operator import itemgetter
from typing import NamedTuple

from zygos_tools.files.formats import (END, MOST_SEGMENT, SEGMENT, capture, capture_start, close, output, pieces,
                                       replies_start)

MOST_FILE = (1 << 32) - 1
# how many bytes the header of a file has, and with the times of the first record
HEADER, FIRST = 24, 40
# how many bytes of a capture are made at once
MOST_MADE = 1 << 20
MOST_FRAME, GROUPS, MOST_OF_GROUP = 262144, 128, 32
ETHERNET, ETHERNET_IPV4, IPV4, IPV6, VLAN, TCP = 1, 0x800, b"\x08\x00", b"\x86\xdd", b"\x81\x00", 6
# numbers of TCP are counted modulo NUMBERS; offsets from BEFORE on lie before a session
NUMBERS, BEFORE, MOST_STREAM = 1 << 32, 1 << 31, 1 << 30

# the numbers of faults
(MAGIC, VERSION, LINK_TYPE, RECORD_LENGTH, IS_IPV6, HAS_VLAN, FRAGMENT, SHORT, MISSING, FLOW_COUNT, FLOW_LENGTH,
 TRUNCATED, TOO_LONG) = range(9, 22)
OF_RECORDS = range(RECORD_LENGTH, TRUNCATED)

HASH_KEY = int("6d5a56da255b0ec24167253d43a38fb0d0ca2bcbae7b30b477cb2da38030f20c6a42b73bbeac01fa", 16)
HASH_KEY_BITS = 320


class Record(NamedTuple):
    """A record of a file: its place, its time in microseconds, and its frame."""

    at: int
    time: int
    frame: bytes


class Packet(NamedTuple):
    """A packet; `expected` is the number of the next byte that its sender expects."""

    flow: bytes
    sequence: int
    is_syn: int
    payload: bytes
    expected: int = 0


class Arrival(NamedTuple):
    """How much of the requests of a session, or of its answers, had come with a packet."""

    time: int
    connection: int
    session: int
    is_answer: bool
    size: int


class PacketFault(Exception):
    """A fault by its number, with the number that its row of the table has: mostly a place."""

    def __init__(self, number: int, at: int | None = None) -> None:
        super().__init__(number, at)
        self.number, self.at = number, at


# a side of a session: the connection, the session, and whether it is that of the server
Key = tuple[int, int, bool]

# ---- records and frames


def byte_order(text: bytes) -> str:
    """The order of the numbers of a file, by its header."""
    if len(text) < 4:
        raise PacketFault(TRUNCATED, len(text))
    order = {b"\xa1\xb2\xc3\xd4": ">", b"\xd4\xc3\xb2\xa1": "<"}.get(text[:4])
    if order is None:
        raise PacketFault(MAGIC, 0)
    if len(text) < 8:
        raise PacketFault(TRUNCATED, len(text))
    if struct.unpack(order + "HH", text[4:8]) != (2, 4):
        raise PacketFault(VERSION)
    if len(text) < 24:
        raise PacketFault(TRUNCATED, len(text))
    link = struct.unpack(order + "I", text[20:24])[0]
    if link != ETHERNET:
        raise PacketFault(LINK_TYPE, link)
    return order


def head_of(order: str) -> struct.Struct:
    """The numbers before each frame of a file, in this order of their bytes."""
    return struct.Struct(order + "IIII")


def record_at(text: bytes, at: int, end: int, head: struct.Struct,
              base: int = 0) -> tuple[Record, int] | None:
    """The record at a place, if it is whole before `end`, and the place after it: its own place, which counts from
    `base` on, the time in microseconds and the frame."""
    size = 0
    if end >= at + 16:
        seconds, micros, size, _ = head.unpack_from(text, at)
    elif end >= at + 12:
        size = struct.unpack_from(head.format[:1] + "I", text, at + 8)[0]
    if size > MOST_FRAME:
        raise PacketFault(RECORD_LENGTH, base + at)
    stop = at + 16 + size
    if end < stop:
        return None
    return Record(base + at, seconds * 1000000 + micros, text[at + 16 : stop]), stop


def records(text: bytes) -> Iterator[Record]:
    """The records of a file."""
    head, at, end = head_of(byte_order(text)), 24, min(len(text), MOST_FILE)
    while at < end and (found := record_at(text, at, end, head)):
        yield found[0]
        at = found[1]
    check_end(text, at)


def check_end(text: bytes, at: int) -> None:
    """Refuses a file that goes on after its last whole record, which ends at a place."""
    if len(text) > MOST_FILE:
        raise PacketFault(TOO_LONG)
    if at < len(text):
        raise PacketFault(TRUNCATED, len(text))


def number_at(frame: bytes, at: int) -> int:
    """The number of two bytes at a place."""
    return frame[at] << 8 | frame[at + 1]


def tcp_in(frame: bytes, at: int, port: int) -> tuple[int, int] | None:
    """Where the TCP header begins in a frame, and where its IP packet ends; None where the frame is passed over."""
    if len(frame) < 14:
        raise PacketFault(SHORT, at)
    kind = frame[12:14]
    if kind == IPV6 and len(frame) >= 58 and frame[20] == TCP and number_at(frame, 56) == port:
        raise PacketFault(IS_IPV6, at)
    if kind == VLAN:
        raise PacketFault(HAS_VLAN, at)
    if kind != IPV4:
        return None
    if len(frame) < 34 or frame[14] >> 4 != 4 or frame[14] % 16 < 5:
        raise PacketFault(SHORT, at)
    if frame[23] != TCP:
        return None
    if number_at(frame, 20) & 0x3FFF:
        raise PacketFault(FRAGMENT, at)
    begin, end = 14 + frame[14] % 16 * 4, 14 + number_at(frame, 16)
    if min(end, len(frame)) < begin + 20:
        raise PacketFault(SHORT, at)
    return begin, end


def packet_of(frame: bytes, at: int, begin: int, end: int) -> Packet:
    """The packet of a frame whose TCP header begins and whose IP packet ends there."""
    payload = begin + (frame[begin + 12] >> 4) * 4
    if payload < begin + 20 or payload > end:
        raise PacketFault(SHORT, at)
    if payload < end and len(frame) < end:
        raise PacketFault(MISSING, at)
    sequence = int.from_bytes(frame[begin + 4 : begin + 8], "big")
    expected = int.from_bytes(frame[begin + 8 : begin + 12], "big")
    flow = frame[26:34] + frame[begin : begin + 4]
    return Packet(flow, sequence, frame[begin + 13] >> 1 & 1, frame[payload:end], expected)


def judge(frame: bytes, at: int, port: int) -> Packet | None:
    """The packet of a frame, if it goes to the port and has a SYN flag or a payload; else None."""
    found = tcp_in(frame, at, port)
    if not found or number_at(frame, found[0] + 2) != port:
        return None
    packet = packet_of(frame, at, *found)
    return packet if packet.is_syn or packet.payload else None


# ---- streams


class Stream:
    """The bytes of one direction of a session by their offsets; of two packets that have a byte, the first counts.

    They are kept in spans, by rising offset, that do not overlap: the stream is those up to the first gap. Counted are
    the packets that fill a gap and those without a new byte.
    """

    def __init__(self, packet: Packet) -> None:
        self.syn = packet.sequence if packet.is_syn else None
        self.base = (packet.sequence + packet.is_syn) % NUMBERS
        self.begins, self.texts = [0], [bytearray()]
        self.last = 0  # the span with which the stream ends
        self.late = self.again = 0

    def stop(self, span: int) -> int:
        return self.begins[span] + len(self.texts[span])

    def size(self) -> int:
        """How many bytes the stream has."""
        return self.stop(self.last)

    def end(self) -> int:
        """The offset after all bytes."""
        return self.stop(len(self.begins) - 1)

    def text(self, begin: int = 0, end: int | None = None) -> bytes:
        """The bytes of the stream, or those from one offset to another."""
        if not self.last:  # the first span has all of the stream
            return bytes(self.texts[0][begin:end])
        end = self.size() if end is None else end
        found: list[bytes] = []
        span = bisect_right(self.begins, begin) - 1
        while begin < end:
            first = self.begins[span]
            found.append(self.texts[span][begin - first : end - first])
            begin, span = self.stop(span), span + 1
        return b"".join(found)

    def reach(self, offset: int) -> None:
        """Notes that there were bytes up to an offset."""
        if offset > self.end():
            self.begins.append(offset)
            self.texts.append(bytearray())

    def rest(self) -> list[tuple[int, bytearray]]:
        """What comes after the stream: the offset and the bytes of each run between two gaps."""
        found: list[tuple[int, bytearray]] = []
        for begin, text in zip(self.begins[self.last + 1 :], self.texts[self.last + 1 :]):
            if found and found[-1][0] + len(found[-1][1]) == begin:
                found[-1][1].extend(text)
            else:
                found.append((begin, bytearray(text)))
        return found

    def offset(self, packet: Packet, at: int) -> int:
        """The offset of a packet's payload, which is below 0 before the session."""
        offset = (packet.sequence + packet.is_syn - self.base) % NUMBERS
        if offset >= BEFORE:
            return offset - NUMBERS
        if packet.payload and offset + len(packet.payload) > MOST_STREAM:
            raise PacketFault(FLOW_LENGTH, at)
        return offset

    def meet(self, packet: Packet, at: int) -> None:
        """Takes a packet."""
        offset, payload, end = self.offset(packet, at), packet.payload, self.end()
        if offset < 0:
            offset, payload = 0, payload[-offset:]
        new = self.put(offset, payload)
        self.late += new > self.end() - end
        self.again += bool(packet.payload and not new)
        while self.last + 1 < len(self.begins) and self.begins[self.last + 1] == self.size():
            self.last += 1

    def put(self, offset: int, payload: bytes) -> int:
        """Puts a payload at an offset, where there is no byte, and says how many bytes were new."""
        if offset == self.end():
            self.texts[-1] += payload
            return len(payload)
        first, end, new = offset, offset + len(payload), 0
        while offset < end:
            span = bisect_right(self.begins, offset) - 1
            stop = self.stop(span)
            if offset < stop:
                offset = stop
                continue
            limit = min(end, self.begins[span + 1]) if span + 1 < len(self.begins) else end
            piece = payload[offset - first : limit - first]
            if offset == stop:
                self.texts[span] += piece
            else:
                self.begins.insert(span + 1, offset)
                self.texts.insert(span + 1, bytearray(piece))
            new += len(piece)
            offset = limit
        return new


class Answers(Stream):
    """What a server sends in a session: its length has no bound."""

    def offset(self, packet: Packet, at: int) -> int:
        return self.place(packet.sequence + packet.is_syn)

    def place(self, number: int) -> int:
        """The offset of the byte with a sequence number: the one that is nearest to the end of the stream."""
        ahead = (number - self.base - self.size()) % NUMBERS
        return self.size() + (ahead if ahead < BEFORE else ahead - NUMBERS)


class Session:
    """What a client sends, from its first packet on, and what the server answers."""

    def __init__(self, packet: Packet) -> None:
        self.requests = Stream(packet)
        self.answers: Answers | None = None
        # how many bytes were sent, and how many came back, as the numbers of other packets show
        self.sent = self.heard = 0
        self.is_resumed = self.is_answered = False  # it began anew after a loss; what came last is of the server
        self.is_carried = False  # it goes on from the window before
        self.early, self.is_misfit = 0, False  # how many bytes answer earlier requests; no answer fits its request

    def ends_with(self, packet: Packet) -> bool:
        """Whether a packet begins the next session."""
        return packet.is_syn > 0 and self.requests.syn != packet.sequence

    def answer(self, packet: Packet, at: int) -> None:
        """Takes a packet of the server; a SYN packet begins its stream."""
        if self.answers is None or packet.is_syn and self.answers.syn != packet.sequence:
            self.answers = Answers(packet)
        self.answers.meet(packet, at)
        self.is_answered |= bool(packet.payload)

    def expects(self, number: int) -> None:
        """Notes that the client has all bytes of the server up to the one with this sequence number."""
        place = self.answers.place(number) if self.answers else 0
        if place < self.heard + MOST_STREAM:
            self.heard = max(self.heard, place)

    def is_expected(self, number: int) -> None:
        """Notes that the client has sent all bytes up to the one with this sequence number."""
        offset = (number - self.requests.base) % NUMBERS
        if offset < MOST_STREAM:
            self.sent = max(self.sent, offset)


# ---- flows


def toeplitz(flow: bytes) -> int:
    """The exclusive or of the key's 32 bits from each place at which the input has a 1."""
    number = 0
    for place in range(8 * len(flow)):
        if flow[place // 8] >> (7 - place % 8) & 1:
            number ^= HASH_KEY >> (HASH_KEY_BITS - 32 - place) & 0xFFFFFFFF
    return number


class Flows:
    """The flows to a port: the connection number of each, and the sessions of each number."""

    def __init__(self) -> None:
        self.numbers: dict[bytes, int] = {}
        self.sessions: dict[int, list[Session]] = {}

    def number_of(self, flow: bytes, at: int) -> int:
        if flow not in self.numbers:
            group = toeplitz(flow) % GROUPS
            free = [number for number in range(group, group + GROUPS * MOST_OF_GROUP, GROUPS)
                    if number not in self.sessions]
            if not free:
                raise PacketFault(FLOW_COUNT, at)
            self.numbers[flow] = free[0]
            self.sessions[free[0]] = []
        return self.numbers[flow]

    def meet(self, packet: Packet, at: int) -> None:
        """Takes a packet to the port."""
        found = self.sessions[self.number_of(packet.flow, at)]
        if not found or found[-1].ends_with(packet):
            found.append(Session(packet))
        found[-1].requests.meet(packet, at)

    def current(self, flow: bytes) -> Session | None:
        """The current session of a flow; None before its first packet."""
        return self.sessions[self.numbers[flow]][-1] if flow in self.numbers else None

    def arrival(self, flow: bytes, time: int, is_answer: bool = False) -> Arrival:
        """How much of the current session of a flow has come, at this time."""
        number = self.numbers[flow]
        last = len(self.sessions[number]) - 1
        session = self.sessions[number][last]
        stream = session.answers if is_answer else session.requests
        return Arrival(time, number, last, is_answer, stream.size() if stream else 0)

    def settle(self) -> None:
        """All packets were met."""

    def count(self) -> int:
        return max(self.sessions, default=-1) + 1

    def capture(self) -> bytes:
        """The capture that has one flow after another."""
        made: list[bytes] = []
        for number in sorted(self.sessions):
            for at, session in enumerate(self.sessions[number]):
                made += [close(number)] if at else []
                made += pieces(number, session.requests.text())
        return capture(self.count(), made, 2)

    def in_order(self, arrivals: Iterable[Arrival],
                 ends_of: Callable[[Session], list[int]] = lambda _: []) -> Iterator[bytes]:
        """The bytes of the capture with the same streams, cut where in time other connections come in between.

        Where an answer is whole that arrived, there is a segment without bytes; `ends_of` gives the places at which the
        answers of a session end.
        """
        made, writing = bytearray(capture_start(self.count(), 2)), Writing(self.sessions, ends_of)
        key: Key | None = None
        end = 0
        for one in by_time(arrivals):
            if one[1:4] == key:
                end = max(end, one[4])
                continue
            if key:
                made += writing.records(key, end)
                if len(made) > MOST_MADE:
                    yield bytes(made)
                    made.clear()
            key, end = one[1:4], one[4]
        yield bytes(made + (writing.records(key, end) if key else b"") + END)

    def replies(self, answered: Callable[[Session], bytes]) -> Iterator[bytes]:
        """The bytes of the replies file with what the server answered in each session, as `answered` says of it."""
        yield replies_start(2)
        for number in range(self.count()):
            for at, session in enumerate(self.sessions.get(number, ())):
                yield output(2, number, at, answered(session))
            if number not in self.sessions:
                yield output(2, number, 0, b"")
        yield END


def by_time(arrivals: Iterable[Arrival]) -> list[Arrival]:
    """Arrivals by their time; requests of a connection stay in their order, and answers come after the requests that
    were before them."""
    asked: dict[int, int] = {}
    told: dict[int, int] = {}
    found: list[Arrival] = []
    for one in arrivals:
        time, number = one[0], one[1]
        latest = (told if one[3] else asked).get(number, time)
        if time < latest:
            time, one = latest, one._replace(time=latest)
        if not one[3]:
            asked[number] = time
        if time >= told.get(number, time):
            told[number] = time
        found.append(one)
    return sorted(found, key=itemgetter(0))


class Writing:
    """Makes the records of a capture in order, of the sessions of each connection."""

    def __init__(self, sessions: dict[int, list[Session]], ends_of: Callable[[Session], list[int]] | None) -> None:
        self.sessions, self.ends_of = sessions, ends_of
        self.last: dict[int, int] = {}  # the current session of each connection
        # of each side of a session, how much was written, and how many of its ends, with these
        self.written: dict[Key, int] = {}
        self.ends: dict[Key, tuple[int, list[int]]] = {}

    def records(self, key: Key, end: int) -> bytes:
        """The records of a side of a session up to a number of its bytes."""
        number, at, is_answer = key
        last = self.last.setdefault(number, at)
        if at < last:
            return b""
        before = b""
        if at > last:
            before, self.last[number] = close(number), at
        if is_answer:
            return before + self.marks(key, end)
        begin, self.written[key] = self.written.get(key, 0), end
        text = self.sessions[number][at].requests.text(begin, end)
        if 0 < len(text) <= MOST_SEGMENT:
            return before + SEGMENT.pack(83, number, len(text)) + text
        return before + b"".join(pieces(number, text))

    def marks(self, key: Key, end: int) -> bytes:
        """Segments without bytes for the answers that end with a number of bytes, and not before."""
        number, at, _ = key
        if key not in self.ends:
            self.ends[key] = 0, self.ends_of(self.sessions[number][at]) if self.ends_of else []
        place, ends = self.ends[key]
        first, count = place, len(ends)
        while place < count and ends[place] <= end:
            place += 1
        self.ends[key] = place, ends
        return SEGMENT.pack(83, number, 0) * (place - first)


def made(text: bytes, port: int) -> bytes:
    """The capture of a file, or its first fault."""
    flows = Flows()
    for record in records(text):
        packet = judge(record.frame, record.at, port)
        if packet:
            flows.meet(packet, record.at)
    return flows.capture()
