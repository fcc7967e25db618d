"""The usual packets of flows, taken quickly: the next bytes of a request or of an answer, and what is only acknowledged.

`Quick` has the two sides of each flow in which nothing is missing. A packet that is not the next one of its side, or
that acknowledges bytes which were not recorded, is left to the caller, and so is every packet with SYN, FIN or RST.
"""
from __future__ import annotations

import re
import struct
from typing import TYPE_CHECKING

from zygos_tools.protocol.pace import Answers
from zygos_tools.recording.packets.recorded import (BEFORE, ETHERNET_IPV4, MOST_FRAME, MOST_STREAM, NUMBERS, TCP,
                                                     Arrival, Flows, Session)

if TYPE_CHECKING:
    from zygos_tools.recording.packets.command import Reading

# of a frame, from its type on: that of Ethernet, version and length of the IP header, total length, fragment, protocol,
# addresses and ports, both numbers, the length of the TCP header, and flags
FRAME = struct.Struct(">12xHBxHxxHxBxx12sIIBB")
LEAST, MASK = 54, NUMBERS - 1
# a line that is an answer or begins a block; its groups are the lengths of blocks, after which the answer goes on or ends
LINE = re.compile(rb"(?:VALUE [^ \0\n]+ [0-9]+ ([0-9]{1,9})(?: [0-9]+)?|VA ([0-9]{1,9})(?: [^\n]*)?|[0-9]+|END|STORED"
                  rb"|NOT_STORED|NOT_FOUND|DELETED|EXISTS|TOUCHED|OK|(?:HD|EN|NF|NS|EX|MN)(?: [^\n]*)?|VERSION [^\n]*"
                  rb"|(?:CLIENT_|SERVER_)?ERROR(?: [^\n]*)?)\r\n").match


# a usual request with its line feed, but without its block, of which the group is the length
REQUEST = re.compile(rb"(?:gets? [ -~]{1,1000}|(?:set|add|replace|append|prepend) [!-~]{1,250} [0-9]{1,9} [0-9]{1,9}"
                     rb" ([0-9]{1,6})(?: noreply)?|cas [!-~]{1,250} [0-9]{1,9} [0-9]{1,9} ([0-9]{1,6}) [0-9]{1,18}"
                     rb"|(?:delete|incr|decr|touch|mg|md|gat) [ -~]{1,1000}|mn|version)\r\n").match


def usual_requests(text: bytes) -> tuple[int, int]:
    """How many usual requests a text begins with, and where they end."""
    count, at, size = 0, 0, len(text)
    while at < size:
        line = REQUEST(text, at)
        if line is None:
            break
        end, group = line.end(), line.lastindex
        if group:
            end += int(line[group]) + 2
            if end > size or text[end - 2 : end] != b"\r\n":
                break
        count, at = count + 1, end
    return count, at


def answer_ends(text: bytes) -> list[int]:
    """The places at which answers end."""
    found: list[int] = []
    at, size = 0, len(text)
    while at < size:
        line = LINE(text, at)
        if line is None:
            break
        end, group = line.end(), line.lastindex
        if group:
            end += int(line[group]) + 2
            if end > size:
                break
        at = end
        if group != 1:
            found.append(at)
    return found + [at + answer.end for answer in Answers().feed(text[at:])] if at < size else found


def is_later(text: bytes, at: int, end: int, head: struct.Struct, time: int) -> bool:
    """Whether the next record is there, and has a later time."""
    if at + 16 > end:
        return False
    seconds, micros, _, _ = head.unpack_from(text, at)
    return bool(seconds * 1000000 + micros > time)


class Side:
    """One direction of a session: its bytes, and the number of the next one."""

    def __init__(self, session: Session, text: bytearray, base: int, arrival: tuple[int, int, bool]) -> None:
        self.session, self.text, self.next = session, text, (base + len(text)) % NUMBERS
        self.number, self.last, self.is_answer = arrival
        self.most = 1 << 62 if self.is_answer else MOST_STREAM
        self.other: Side = self  # that of the other direction


def reversed_flow(flow: bytes) -> bytes:
    """How the packets of a server name a flow."""
    return flow[4:8] + flow[:4] + flow[10:12] + flow[8:10]


class Quick:
    """The sides of flows, by addresses and ports as their packets have them."""

    def __init__(self) -> None:
        self.sides: dict[bytes, Side] = {}

    def forget(self, flow: bytes) -> None:
        self.sides.pop(flow, None)
        self.sides.pop(reversed_flow(flow), None)

    def renew(self, flow: bytes, flows: Flows) -> None:
        """Adds both sides of a flow, if nothing is missing in its session."""
        self.forget(flow)
        session = flows.current(flow)
        answers = session.answers if session else None
        if session is None or answers is None or len(session.requests.begins) > 1 or len(answers.begins) > 1:
            return
        number = flows.numbers[flow]
        last = len(flows.sessions[number]) - 1
        asked = Side(session, session.requests.texts[0], session.requests.base, (number, last, False))
        told = Side(session, answers.texts[0], answers.base, (number, last, True))
        asked.other, told.other = told, asked
        self.sides[flow], self.sides[reversed_flow(flow)] = asked, told

    def take(self, reading: Reading, text: bytes, at: int, end: int, record: struct.Struct) -> int:
        """Takes records from a place on, up to one that is not usual or not whole. Gives its place."""
        sides, arrivals, window, new = self.sides, reading.arrivals, reading.window, tuple.__new__
        with_ends, unpack, head, count = reading.with_ends, FRAME.unpack_from, record.unpack_from, 0
        while at + 16 + LEAST <= end:
            seconds, micros, size, _ = head(text, at)
            stop = at + 16 + size
            if size < LEAST or size > MOST_FRAME or stop > end:
                break
            kind, first, total, fragment, protocol, key, sequence, expected, offset, flags = unpack(text, at + 16)
            one = sides.get(key)
            if one is None or sequence != one.next or flags & 7 or (one.other.next - expected & MASK) >= BEFORE:
                break
            if kind != ETHERNET_IPV4 or first != 69 or protocol != TCP or fragment & 0x3FFF:
                break
            begin, finish = at + 50 + (offset >> 4) * 4, at + 30 + total
            if begin < finish:
                if offset < 80 or finish > stop or len(one.text) + finish - begin > one.most:
                    break
                payload = text[begin:finish]
                one.text += payload
                one.next = sequence + finish - begin & MASK
                number, is_answer = one.number, one.is_answer
                one.session.is_answered = is_answer
                time = seconds * 1000000 + micros
                if with_ends or not is_answer:
                    arrivals.append(new(Arrival, (time, number, one.last, is_answer, len(one.text))))
                if window is not None:
                    window.note(number, is_answer, payload)
                    if is_answer and not window.pending and is_later(text, stop, end, record, time) and window.look(time):
                        at, count = stop, count + 1
                        break
            elif begin > finish or offset < 80:
                break
            at, count = stop, count + 1
        reading.number += count
        return at
