"""A recording: what clients sent and what came back, by connections and sessions, written as it comes.

What comes in one round of the proxy is written at once. Answers were read before any command of the same round is passed
on, so their ends are written before these commands.
"""
from __future__ import annotations

from collections import deque
from collections.abc import Callable, Iterator
from typing import Optional

from zygos_tools.cli.screen import Screen
from zygos_tools.files.formats import END, MOST_CONNECTIONS, MOST_SESSIONS, SEGMENT, close
from zygos_tools.files.growing import Growing
from zygos_tools.files.outputs import naming
from zygos_tools.files.part import MOST_CAPTURE
from zygos_tools.files.spool import replies_of
from zygos_tools.protocol.pace import ODD
from zygos_tools.recording.links import Link, Way
from zygos_tools.recording.targets import Files

# how many connections are named whose first byte is not that of text
MOST_WARNINGS = 20
# bytes that were read in a round, each after where they came from
Read = list[tuple[Way, bytes]]


class Recording:
    """What was recorded so far, in files; `fault` says why nothing more is. With `has_ends` the capture has a segment
    without bytes where an answer is whole.

    A connection gets the next number or, when there are no more, that of the connection that closed first, for its next
    session. One that gets none, the number None, is not recorded.
    """

    def __init__(self, files: Files, say: Callable[[str], object], has_ends: bool = False) -> None:
        self.set_up(say, has_ends)
        self.files, self.capture, self.spool = files, Growing(files.capture.file), Growing(files.spool)

    def set_up(self, say: Callable[[str], object], has_ends: bool) -> None:
        """Nothing was recorded so far."""
        self.say, self.has_ends = say, has_ends
        self.fault: Optional[str] = None
        self.is_spool_full = False
        self.marks: list[bytes] = []  # ends of answers that are not yet written
        self.sessions: dict[int, int] = {}  # how many each number has
        self.closed: deque[int] = deque()
        self.open: set[Link] = set()
        self.done = self.commands = self.missing = self.sent_bytes = self.answered_bytes = self.odd = 0
        self.nuls = self.odd_lines = 0  # lines with a NUL, and connections that were warned of
        self.passed_on = 0  # connections that are not recorded

    def owed(self) -> int:
        """How many commands of open connections are not answered."""
        return sum(link.count.owed for link in self.open)

    # ---- connections

    def add(self, link: Link) -> None:
        """A connection has come."""
        self.begin(link)

    def begin(self, link: Link) -> None:
        """Gives a new connection its number; None if it is not recorded."""
        link.has_begun = True
        number = None if self.fault else self.free_number()
        if number is None:
            self.passed_on += 1
            if not self.fault and self.passed_on == 1:
                self.say(f"{MOST_CONNECTIONS} connections are open, the most of a recording: others are passed on and"
                         " not recorded")
            return
        link.number, link.mark, link.is_counted = number, SEGMENT.pack(ord("S"), number, 0), True
        self.open.add(link)

    def free_number(self) -> Optional[int]:
        """A number for a new connection, if there is one."""
        if len(self.sessions) < MOST_CONNECTIONS:
            number = len(self.sessions)
            self.sessions[number] = 1
            return number
        if not self.closed or not self.has_room(len(close(0))):
            return None
        self.pass_marks()
        number, size = self.closed.popleft(), self.spool.size
        if not self.write(self.spool, close(number)):
            return None
        if not self.write(self.capture, close(number)):
            self.spool.cut(size)
            return None
        self.sessions[number] += 1
        return number

    def end(self, link: Link) -> None:
        """A connection has closed."""
        if not link.is_counted:
            return
        self.open.discard(link)
        self.missing += link.count.owed
        self.done += 1
        if link.number is not None and self.sessions[link.number] < MOST_SESSIONS:
            self.closed.append(link.number)

    def is_recorded(self, link: Link) -> bool:
        """Whether what comes on a connection is recorded; one that goes on from an earlier recording begins here."""
        if not link.has_begun:
            self.begin(link)
        return link.number is not None

    # ---- what passes

    def keep(self, answered: Read, sent: Read) -> None:
        """Keeps what was read in a round: first what came back, and the ends of answers; then what was sent, which is
        passed on in any case."""
        if self.is_spool_full:
            return
        if self.fault:
            self.keep_last(answered)
            return
        if answered:
            self.keep_answers(answered)
        if sent and not self.fault:
            self.keep_sent(sent)

    def keep_answers(self, answered: Read) -> None:
        pack, found = SEGMENT.pack, []
        records: list[bytes] = []
        for way, text in answered:
            link = way.link
            if link.number is not None or self.is_recorded(link):
                records += pack(83, link.number, len(text)), text
                found.append((link, text))
        has_ends, marks = self.has_ends, self.marks
        for link, text in self.written(self.spool, records, found):
            self.answered_bytes += len(text)
            count = link.count.heard(text)
            if count and has_ends:
                marks.append(link.mark * count)

    def keep_sent(self, sent: Read) -> None:
        pack, found = SEGMENT.pack, []
        records: list[bytes] = []
        for way, text in sent:
            link = way.link
            if not way.is_dropping and (link.number is not None or self.is_recorded(link)):
                records += pack(83, link.number, len(text)), text
                found.append((link, text))
        marks, self.marks = self.marks, []
        size = sum(map(len, records)) + sum(map(len, marks))
        if marks and self.capture.size + size + len(END) > MOST_CAPTURE:
            self.marks = marks
            self.pass_marks()
            marks = []
        self.note_sent(self.written(self.capture, marks + records, found))

    def note_sent(self, found: list[tuple[Link, bytes]]) -> None:
        """Notes what was sent, and written."""
        for link, text in found:
            count = link.count
            if count.is_new or count.nuls or count.early:
                self.note_odd(link, text)
            else:
                self.commands += count.sent(text)
                if count.nuls:
                    self.warn_of_nul(link, 0, count.nuls)
            self.sent_bytes += len(text)

    def keep_last(self, answered: Read) -> None:
        """After a fault: keeps what belongs to commands that are recorded."""
        for way, text in answered:
            link = way.link
            kept = link.count.last(text) if link.number is not None else b""
            if kept and self.write(self.spool, SEGMENT.pack(ord("S"), link.number, len(kept)), kept):
                self.answered_bytes += len(kept)

    def written(self, file: Growing, records: list[bytes], found: list[tuple[Link, bytes]]) -> list[tuple[Link, bytes]]:
        """Writes a file's records, and gives the bytes that were written: all, or those before a fault."""
        text, is_sent = b"".join(records), file is self.capture
        if not is_sent or file.size + len(text) + len(END) <= MOST_CAPTURE:
            try:
                file.add(text)
                return found
            except OSError:
                pass  # each alone, to the first that cannot be written
        kept = []
        for link, text in found:
            if is_sent and not self.has_room(SEGMENT.size + len(text)):
                break
            if not self.write(file, SEGMENT.pack(83, link.number, len(text)), text):
                break
            kept.append((link, text))
        return kept

    def note_odd(self, link: Link, text: bytes) -> None:
        """Notes what was sent on a connection that is new, or not a usual one."""
        count = link.count
        is_first, nuls = count.is_new, count.nuls
        self.commands += count.sent(text)
        if count.nuls > nuls:
            self.warn_of_nul(link, nuls, count.nuls)
        if is_first and not count.is_text:
            self.warn(link, text[0])
        if count.late and self.has_ends:
            self.marks.append(link.mark * count.late)
        count.late = 0

    def pass_marks(self) -> None:
        """Writes the ends of answers that wait for the next commands."""
        marks, self.marks = self.marks, []
        if marks and not self.fault:
            text = b"".join(marks)
            if self.has_room(len(text)):
                self.write(self.capture, text)

    # ---- warnings

    def warn_of_nul(self, link: Link, before: int, now: int) -> None:
        """Warns of a connection that sends lines with a NUL."""
        self.nuls += now - before
        if not before and self.odd_lines < MOST_WARNINGS:
            self.odd_lines += 1
            self.say(f"warning: connection {link.number} sends a line with a NUL, where memcached ends it: a fault of the"
                     " client?")

    def warn(self, link: Link, byte: int) -> None:
        """Warns of a connection whose first byte is not that of text."""
        self.odd += 1
        number = link.number or 0
        if self.odd <= MOST_WARNINGS:
            session = f", session {self.sessions[number] - 1}" if self.sessions[number] > 1 else ""
            self.say(f"warning: connection {number}{session} begins with byte {byte:#04x}, as {ODD[byte]} does;"
                     " its commands will be read as text")

    # ---- files

    def has_room(self, length: int) -> bool:
        """Whether the capture can have as many further bytes."""
        if self.capture.size + length + len(END) <= MOST_CAPTURE:
            return True
        self.stop(f"{self.files.capture.name}: a capture has at most {MOST_CAPTURE} bytes")
        return False

    def write(self, file: Growing, *what: bytes) -> bool:
        """Adds a record to a file. Gives whether it was added."""
        try:
            file.add(*what)
        except OSError as error:
            is_sent = file is self.capture
            self.is_spool_full |= not is_sent
            self.stop(f"{(self.files.capture if is_sent else self.files.replies).name}: {error.strerror}")
            return False
        return True

    def stop(self, fault: str) -> None:
        """From now on nothing is recorded but answers to what was."""
        if not self.fault:
            self.fault = fault
            self.say(f"{fault}: all is passed on, and nothing more recorded; Ctrl-C ends it, and completes the files")

    def finish(self, screen: Screen) -> None:
        """Completes both files."""
        self.pass_marks()
        version, count = 2 if any(number > 1 for number in self.sessions.values()) else 1, len(self.sessions)
        with naming(self.files.capture.name):
            self.capture.finish(version, count)
            self.files.capture.pass_on()
        with naming(self.files.replies.name):
            self.spool.finish(version, count)
            replies_of(self.files.spool, self.files.replies.file, version, count, screen)
            self.files.replies.pass_on()
        self.files.remove_spool()

    # ---- what is said

    def told(self) -> str:
        """What was recorded, as text."""
        return (f"{self.done} connections recorded, {self.commands} commands, {self.sent_bytes} bytes sent,"
                f" {self.answered_bytes} bytes back")

    def lacks(self) -> Iterator[str]:
        """What the recording lacks, as lines."""
        if self.missing:
            yield f"{self.missing} commands are not answered whole"
        if self.passed_on:
            yield f"{self.passed_on} connections were passed on and not recorded"
        if self.nuls:
            yield f"{self.nuls} lines have a NUL, where memcached ends them"
        if self.odd:
            yield f"{self.odd} connections begin as the binary protocol or TLS does"
