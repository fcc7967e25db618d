"""The report of tools/packets: what was read of recorded packets, and why a file is refused."""
from __future__ import annotations

from collections import Counter
from typing import TYPE_CHECKING

from zygos_tools.protocol.answers import Outcome, groups
from zygos_tools.protocol.meaning import Framer, framed
from zygos_tools.protocol.pace import ODD
from zygos_tools.recording.counting import Count
from zygos_tools.recording.packets import recorded
from zygos_tools.recording.packets.faults import told
from zygos_tools.recording.packets.quick import usual_requests
from zygos_tools.recording.packets.recorded import Session, Stream

if TYPE_CHECKING:
    from zygos_tools.recording.packets.command import Reading

MOST_PORTS = 5


def place(address: bytes, port: bytes) -> str:
    return ".".join(map(str, address)) + f":{int.from_bytes(port, 'big')}"


def several(count: int, name: str) -> str:
    return f"{count} {name}" + ("" if count == 1 else "s")


def lost_of(stream: Stream, sent: int = 0) -> int:
    """How many bytes are lost after the end of a stream."""
    if stream.end() > stream.size():
        return stream.begins[stream.last + 1] - stream.size()
    # the end of a connection counts as one byte
    return sent - stream.size() if sent > stream.size() + 1 else 0


def cut_of(stream: Stream, sent: int = 0) -> tuple[str, int, int] | None:
    """Where a stream is cut, how many bytes are left out then, and about how many requests; None where it is whole."""
    lost = lost_of(stream, sent)
    if not lost:
        return None
    rest, size = stream.rest(), stream.size()
    left = sum(len(text) for _, text in rest)
    gaps = f" (and more at {several(len(rest) - 1, 'later place')})" if len(rest) > 1 else ""
    where = f"cut after byte {size}, sequence number {(stream.base + size) % recorded.NUMBERS}: " \
            f"{several(lost, 'byte')} lost{gaps}, {several(left, 'byte')} after that left out"
    return where, left, sum(1 for _, text in rest for command, _ in framed(bytes(text)) if command.verb != "fault")


def early_of(session: Session) -> str:
    """Which answers of a session that begins anew are left out, as text."""
    if not session.early:
        return ""
    why = "fit none of its requests" if session.is_misfit else "are of earlier requests"
    return f"; {several(session.early, 'byte')} of the server {why}, and are left out"


def answered(session: Session) -> bytes:
    """What the server answered to the requests of a session; if these are cut, to those that are kept."""
    text = session.answers.text()[session.early :] if session.answers else b""
    if not lost_of(session.requests, session.sent):
        return text
    found = Outcome(text)
    for group in groups(session.requests.text()):
        if len(group) > 1:
            found.take_group(group)
        else:
            found.take()
    return text[: found.at]


class Report:
    """The lines on what was read, and its sums."""

    def __init__(self, reading: Reading) -> None:
        self.lines: list[str] = []
        self.sums: Counter[str] = Counter()
        self.with_answers = reading.with_answers
        if reading.first and reading.flows.sessions:
            self.lines.append("apart from what is refused:")
        for flow, number in sorted(reading.flows.numbers.items(), key=lambda one: one[1]):
            self.flow(flow, number, reading.flows.sessions[number])
        if reading.flows.sessions:
            self.all(reading)

    def flow(self, flow: bytes, number: int, sessions: list[Session]) -> None:
        requests = 0
        notes: list[str] = []
        for at, session in enumerate(sessions):
            begin = "  " if len(sessions) == 1 else f"  session {at}: "
            count, more = self.session(session)
            requests += count
            notes += [begin + note for note in more]
        found = {"session": len(sessions), "request": requests,
                 "byte": sum(session.requests.size() for session in sessions)}
        counts = [several(count, name) for name, count in found.items()]
        ways = f"{place(flow[:4], flow[8:10])} to {place(flow[4:8], flow[10:])}"
        self.lines.append(f"connection {number}: " + ", ".join([ways, *counts]))
        self.lines += notes
        self.sums.update(found, flow=1)

    def session(self, session: Session) -> tuple[int, list[str]]:
        """How many requests a session has, and what is to be said of it."""
        stream, framer, pace = session.requests, Framer(), Count()
        notes: list[str] = []
        text = stream.text()
        pace.sent(text)
        if self.with_answers:
            pace.heard(answered(session))
        if not pace.is_text:
            notes.append(f"warning: its first byte is {text[0]:#x}, as in {ODD[text[0]]}; "
                         "only text commands are served")
        count, at = usual_requests(text)
        count += sum(1 for _ in framer.feed(text[at:]))
        if session.is_resumed:
            notes.append("it begins anew, after a loss" + early_of(session))
            self.sums.update(resumed=1)
        elif stream.syn is None and not session.is_carried:
            notes.append("it began before the recording: its first bytes may be the rest of a request")
        if found := cut_of(stream, session.sent):
            notes.append(f"{found[0]}, about {several(found[2], 'request')}")
            self.sums.update(cut=1, left=found[1])
        if framer.size and not framer.has_quit:
            notes.append(f"it ends within a request, after {several(framer.size, 'byte')} of it")
        if session.answers and (found := cut_of(session.answers, session.heard)):
            notes.append(f"the server's side: {found[0]}")
            self.sums.update(cut=1, left=found[1])
        if self.with_answers and pace.owed:
            notes.append(f"{several(pace.owed, 'request')} without a whole reply")
            self.sums.update(missing=pace.owed)
        self.sums.update(late=stream.late, again=stream.again)
        return count, notes

    def note_window(self, name: str) -> None:
        """Leaves the connections out, of which windows may have many, and names the window."""
        at = next((at for at, line in enumerate(self.lines) if line.startswith("all: ")), 0)
        self.lines = [f"{name}: {self.lines[at][5:]}", *self.lines[at + 1 :]] if self.lines else [f"{name}: no request"]

    def all(self, reading: Reading) -> None:
        sums = self.sums
        names = "flow", "session", "request", "byte"
        self.lines.append("all: " + ", ".join(several(sums[name], name) for name in names))
        if sums["cut"]:
            self.lines.append(f"  {several(sums['cut'], 'stream')} cut, {several(sums['left'], 'byte')} left out")
        if sums["resumed"]:
            self.lines.append(f"  {several(sums['resumed'], 'session')} begun anew after a loss")
        if sums["missing"]:
            self.lines.append(f"  {several(sums['missing'], 'request')} without a whole reply")
        if sums["late"] or sums["again"]:
            late = several(sums["late"], "packet")
            self.lines.append(f"  {late} came late and {sums['again']} again, without harm")
        if reading.early:
            early = several(reading.early, "byte")
            self.lines.append(f"  {early} of the server left out, before the first request of a flow")


def listed(ports: Counter[int]) -> str:
    """The ports to which most packets go, to be printed."""
    return ", ".join(f"{port} ({several(count, 'packet')})" for port, count in ports.most_common(MOST_PORTS))


def refusal(reading: Reading, begin: bytes, name: str) -> str | None:
    """Why `zygos pcap` refuses the file, or makes an empty capture of it; None where it does neither."""
    if reading.first:
        fault, number = reading.first
        says, do = told(fault, begin, "IN" if name == "-" else name, reading.port)
        where = {recorded.TRUNCATED: f" at byte {fault.at}"}.get(fault.number, "")
        if fault.number in recorded.OF_RECORDS:
            where = f" in record {number}, at byte {fault.at}"
        more = f"; {reading.refused} frames are refused" if reading.refused > 1 else ""
        return f"fault {fault.number}{where}: {says}{more}\n  {do}"
    if reading.flows.sessions:
        return None
    none = f"no request goes to port {reading.port}"
    if reading.answering:
        return f"{none}, and only what comes from it was recorded\n" \
               f"  record both ways, as by the filter port {reading.port}"
    ports = listed(reading.asking or reading.ports)
    if reading.asking:
        return f"{none}, but commands go to {ports}\n  name the port with --port"
    if ports:
        return f"{none}, but other bytes go to {ports}\n  name the port with --port"
    return f"{none}, nor to any other\n  record on the interface by which clients come, as with -i lo or -i eth0"
