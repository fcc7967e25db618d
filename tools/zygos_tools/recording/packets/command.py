"""Reads what tcpdump recorded: says what is in it and what was lost, and makes a capture and a replies file of it.

usage: tools/packets [--port N] [--resume] [--in-order CAPTURE [--ends]] [--replies REPLIES] [--over] [FILE]
       tools/packets [--port N] [--resume] --every LENGTH --in-order CAPTURE [--ends] --replies REPLIES [--over] FILE ..

  tcpdump -i lo -B 65536 -w traffic.pcap port 11211
  tools/packets --resume --in-order my.cap --ends --replies my.replies traffic.pcap

FILE is standard input if it is left out or -. Several files, as tcpdump rotates them, are read in the order of their
first packets; the last one may end within a record. CAPTURE or REPLIES may be -, standard output; then the report goes
to standard error.

--port      the port to which requests go, 1 to 65535 (default 11211)
--in-order  write a capture in the order of the packets' times. It has the streams of `zygos pcap`, which writes one
            connection after another
--ends      write into that capture when each answer was complete, as a segment without bytes. Always give it for
            tools/judge, whose `yes` otherwise says nothing of time
--replies   write what the server answered, with the same connections and sessions; if requests are left out, so are
            the answers to them
--resume    after a lost packet, begin the connection's next session as soon as client and server are in step again: at
            a packet that begins with a command, once the client has had its answers
--every     write windows of this length, a number of commands (100000) or a time (60s, 10m, 1h). The files are
            my.000001.cap and my.000001.replies, my.000002.cap and so on
--over      overwrite CAPTURE and REPLIES if there is something in them

The report has for each flow the connection number, client and server, and the number of requests up to a `quit`. A
lost packet cuts the stream of its session: the report says after which byte, what is left out, and, with --replies or
--resume, how many requests have no whole answer. A connection that lives for days is cut at its first loss, so it
needs --resume. If a client sends without waiting for answers, its session may begin late, and answers that fit none of
its first requests are left out.

A window ends when the server has answered the last command of each open connection, by the times of the packets: so
every request of the next one is later than every answer of this one. Until then it goes on. A connection that was
reset, or of which packets were lost, counts as answered. In a window connections are numbered in the order in which
they come, and each line of the report is on a window.

If `zygos pcap` rejects the file, the report names the first error, its offset, and what to do, and nothing is written.
The status is 1 if bytes were cut away, the file is rejected, or no packet goes to the port.
"""
from __future__ import annotations

import contextlib
import sys
from collections import Counter
from collections.abc import Iterable
from struct import Struct
from typing import Any

from zygos_tools.cli import ends
from zygos_tools.files import inputs
from zygos_tools.files.kinds import HEAD, is_packets
from zygos_tools.files.outputs import Beside, refuse_full, told_apart
from zygos_tools.files.part import Fault
from zygos_tools.recording import windows
from zygos_tools.recording.packets import recorded
from zygos_tools.recording.packets.quick import Quick, answer_ends, reversed_flow
from zygos_tools.recording.packets.recorded import Arrival, Flows, Packet, PacketFault, Record, Session, number_at
from zygos_tools.recording.packets.report import Report, answered, refusal
from zygos_tools.recording.packets.resuming import COMMAND, Resuming
from zygos_tools.recording.packets.windowed import Carried, CarriedResuming, Window
from zygos_tools.recording.packets.windowed import Files as Windowed

OPTIONS = {"--port": ends.number(1, 65535), "--every": windows.OPTION, "--in-order": ends.FILE, "--ends": None,
           "--resume": None, "--replies": ends.FILE, "--over": None}


class Reading:
    """What is read of a file: its flows, the faults of its frames, and the ports to which other packets go."""

    def __init__(self, port: int, with_answers: bool = False, with_ends: bool = False, resumes: bool = False,
                 window: Window | None = None) -> None:
        self.port, self.with_answers, self.with_ends = port, with_answers or with_ends or resumes, with_ends
        self.window, self.number = window, 0
        self.flows = window.flows if window else Resuming() if resumes else Flows()
        self.arrivals: list[Arrival] = []
        # the first fault, after how many records, and how many frames are refused
        self.first: tuple[PacketFault, int] | None = None
        self.refused = 0
        self.early = self.answering = 0  # bytes of the server before a flow's first request, and its packets
        self.ports, self.asking = Counter[int](), Counter[int]()
        self.quick = Quick() if self.with_answers else None

    def read(self, text: bytes) -> None:
        """Reads a file."""
        try:
            head, end = recorded.head_of(recorded.byte_order(text)), min(len(text), recorded.MOST_FILE)
            recorded.check_end(text, self.read_records(text, 24, end, head))
        except PacketFault as fault:
            self.first = self.first or (fault, self.number + 1)
        self.flows.settle()

    def read_records(self, text: bytes, at: int, end: int, head: Struct, base: int = 0) -> int:
        """Reads the records from a place on, up to one that is not whole. Gives its place."""
        while at < end:
            at = self.quick.take(self, text, at, end, head) if self.quick else at
            if self.window and self.window.is_over:
                break
            found = recorded.record_at(text, at, end, head, base) if at < end else None
            if not found:
                break
            record, at = found
            self.number += 1
            try:
                self.take_any(record)
            except PacketFault as fault:
                self.first = self.first or (fault, self.number)
                self.refused += 1
        return at

    def take_any(self, record: Record) -> None:
        """Takes a packet that is not usual, after which its flow may be."""
        flow = self.flow_of(record.frame) if self.quick else None
        if flow and self.quick:
            self.quick.forget(flow)
        self.take(record)
        if flow and self.window:
            self.take_flags(record.frame, flow, self.window)
        if flow and self.quick and flow in self.flows.numbers:
            self.quick.renew(flow, self.flows)

    @staticmethod
    def take_flags(frame: bytes, flow: bytes, window: Window) -> None:
        """A flow ends with FIN or RST of either side."""
        begin = 14 + frame[14] % 16 * 4
        if len(frame) > begin + 13 and frame[begin + 13] & 5:
            window.flows.close(flow)

    def flow_of(self, frame: bytes) -> bytes | None:
        """The flow of a frame, if it is to the port or of it."""
        begin = 14 + frame[14] % 16 * 4 if len(frame) > 34 else 0
        ports = frame[begin : begin + 4]
        flow = frame[26:34] + ports
        if len(ports) == 4 and number_at(ports, 2) == self.port:
            return flow
        return reversed_flow(flow) if len(ports) == 4 and number_at(ports, 0) == self.port else None

    def take(self, record: Record) -> None:
        packet = recorded.judge(record.frame, record.at, self.port)
        if packet:
            self.flows.meet(packet, record.at)
            if session := self.flows.current(packet.flow):
                session.expects(packet.expected)
            self.arrive(self.flows.arrival(packet.flow, record.time))
            if self.window and packet.payload:
                self.window.note(self.flows.numbers[packet.flow], False, packet.payload)
        elif found := recorded.tcp_in(record.frame, record.at, self.port):
            self.other(record, *found)

    def arrive(self, arrival: Arrival) -> None:
        if not self.arrivals or arrival[1:] != self.arrivals[-1][1:]:
            self.arrivals.append(arrival)

    def other(self, record: Record, begin: int, end: int) -> None:
        """A packet with TCP that is no part of a request."""
        frame = record.frame
        if number_at(frame, begin + 2) == self.port:
            self.bare(frame, begin)
            return
        try:
            packet = recorded.packet_of(frame, record.at, begin, end)
        except PacketFault:
            return
        if number_at(frame, begin) == self.port:
            self.answering += 1
            self.answer(packet, record)
        elif packet.payload and not self.flows.sessions:
            self.ports[number_at(frame, begin + 2)] += 1
            if COMMAND.match(packet.payload):
                self.asking[number_at(frame, begin + 2)] += 1

    def bare(self, frame: bytes, begin: int) -> None:
        """A packet to the port without bytes: its number shows how many the client has sent."""
        session = self.flows.current(frame[26:34] + frame[begin : begin + 4])
        if session and not frame[begin + 13] & 4:
            session.is_expected(int.from_bytes(frame[begin + 4 : begin + 8], "big"))
            session.expects(int.from_bytes(frame[begin + 8 : begin + 12], "big"))

    def answer(self, packet: Packet, record: Record) -> None:
        """A packet of the server."""
        flow = reversed_flow(packet.flow)
        session = self.flows.current(flow)
        if session:
            session.is_expected(packet.expected)
        if not self.with_answers or not (packet.payload or packet.is_syn):
            return
        if not session:
            self.early += len(packet.payload)
            return
        session.answer(packet, record.at)
        if self.with_ends:
            self.arrive(self.flows.arrival(flow, record.time, is_answer=True))
        if self.window and packet.payload:
            self.window.note(self.flows.numbers[flow], True, packet.payload)


# ---- what is written


def ends_of(session: Session) -> list[int]:
    """The places at which the answers of a session end."""
    return [session.early + end for end in answer_ends(answered(session))]


def write(files: Iterable[tuple[str, Iterable[bytes]]], is_over: bool) -> None:
    """Writes files, each of a name and its pieces: all of them, or none."""
    with contextlib.ExitStack() as opened:
        for name, pieces in files:
            if name == "-":
                sys.stdout.buffer.writelines(pieces)
            else:
                opened.enter_context(Beside(name, is_over)).write(pieces)


def look(text: bytes, name: str, port: int, **how: Any) -> tuple[Reading, Report, str | None]:
    """What is read of a file, the report on it, and why it is refused or has nothing for the port."""
    reading = Reading(port, **how)
    reading.read(text)
    return reading, Report(reading), refusal(reading, text[:HEAD], name)


def read_windows(found: dict[str, Any], names: list[str]) -> int:
    """Reads files in windows, and writes those. Gives the status."""
    kind = CarriedResuming if "--resume" in found else Carried
    both = windows.Names(found["--in-order"], found["--replies"], True)
    both.refuse("--over" in found)

    def begin(carried: dict[bytes, tuple[int, int]], time: int | None) -> Reading:
        return Reading(found.get("--port", 11211), with_answers=True, with_ends="--ends" in found,
                       window=Window(found["--every"], kind(carried), time))

    def write_window(reading: Reading, number: int) -> int:
        report, names_of = Report(reading), both.window(number)
        report.note_window(names_of[0])
        write([(names_of[0], reading.flows.in_order(reading.arrivals, ends_of)),
               (names_of[1], reading.flows.replies(answered))], True)
        print(*report.lines, sep="\n")
        return int(bool(report.sums["cut"]))

    return Windowed(names, begin, write_window).read()


def main(words: list[str]) -> None:
    found, files = ends.options(words, OPTIONS)
    written: list[str | None] = [found.get(option) for option in ("--in-order", "--replies")]
    if len(files) > 1 and "--every" not in found or written == ["-", "-"]:
        ends.stop("one file is read, and at most one is written to standard output; --help says more", 2)
    if "--ends" in found and not written[0]:
        ends.stop("--ends needs --in-order, the capture in which answers end", 2)
    if "--every" in found:
        if None in written or "-" in written:
            ends.stop("--every needs --in-order and --replies, and both write files", 2)
        ends.end(read_windows(found, files or ["-"]))
    name = files[0] if files else "-"
    names = [other for other in written if other is not None and other != "-"]
    told_apart(names, [name])
    for other in () if "--over" in found else names:
        refuse_full(other)
    reading, report, why = look(
        inputs.read(name, is_packets), name, found.get("--port", 11211), with_answers=written[1] is not None,
        with_ends="--ends" in found, resumes="--resume" in found)
    for line in report.lines:
        print(line, file=sys.stderr if "-" in written else sys.stdout)
    if why:
        raise Fault(f"{inputs.name_of(name)}: {why}")
    in_order, replies = written
    made = [(in_order, reading.flows.in_order(reading.arrivals, ends_of))] if in_order else []
    made += [(replies, reading.flows.replies(answered))] if replies else []
    write(made, "--over" in found)
    if report.sums["cut"]:
        ends.end(1)
