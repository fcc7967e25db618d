"""A process of a recorder: a proxy whose recording is a part (parts.py), and which does what the first process says."""
from __future__ import annotations

import contextlib
import json
import os
import socket
import time
from collections.abc import Callable
from typing import Any, Optional

from zygos_tools.cli.screen import Screen
from zygos_tools.files.formats import END, SEGMENT, close
from zygos_tools.files.part import MOST_CAPTURE
from zygos_tools.recording.board import Board
from zygos_tools.recording.links import READ, Link
from zygos_tools.recording.parts import PartFile, part_name
from zygos_tools.recording.proxy import Address, Proxy
from zygos_tools.recording.recording import Read, Recording
from zygos_tools.recording.windows import Names


class Parted(Recording):
    """What a process has recorded so far, in its part of the current window.

    The processes share the numbers of connections. A connection gets one with its first bytes. If there are no more, it
    gets that of a connection of the same process that closed.
    """

    def __init__(self, names: Names, at: int, board: Board, say: Callable[[str], object], has_ends: bool) -> None:
        self.set_up(say, has_ends)
        self.names, self.at, self.board, self.row = names, at, board, board.row(at)
        self.window, self.size, self.has_sessions = 1, 0, False
        self.part = PartFile(part_name(names.window(1)[1], at))

    def begin_window(self, number: int) -> None:
        """From now on all is written to this window's part. No command is in flight."""
        os.close(self.part.file)
        self.window, self.size, self.has_sessions = number, 0, False
        name = part_name(self.names.window(number)[1], self.at)
        try:
            self.part = PartFile(name)
        except OSError as error:
            self.is_spool_full = True
            self.stop(f"{name}: {error.strerror}")
        self.sessions.clear()
        self.closed.clear()
        for link in self.open:
            link.number, link.has_begun = None, False
        self.open.clear()

    # ---- connections

    def add(self, link: Link) -> None:
        """A connection has come: it begins with its first bytes."""

    def free_number(self) -> Optional[int]:
        number = self.board.next_number(self.window)
        if number is not None:
            self.sessions[number] = 1
            return number
        if not self.closed or not self.has_room(len(close(0))):
            return None
        self.pass_marks()
        number = self.closed.popleft()
        if not self.put([close(number)], [close(number)]):
            return None
        self.sessions[number] += 1
        self.has_sessions = True
        return number

    # ---- what passes

    def keep(self, answered: Read, sent: Read) -> None:
        if self.is_spool_full:
            return
        if self.fault:
            self.keep_last(answered)
            return
        pack, has_ends = SEGMENT.pack, self.has_ends
        records: list[bytes] = []
        back: list[bytes] = []
        for way, text in answered:
            link = way.link
            if link.number is not None or self.is_recorded(link):
                back += pack(83, link.number, len(text)), text
                self.answered_bytes += len(text)
                count = link.count.heard(text)
                if count and has_ends:
                    records.append(link.mark * count)
        found = []
        for way, text in sent:
            link = way.link
            if not way.is_dropping and (link.number is not None or self.is_recorded(link)):
                records += pack(83, link.number, len(text)), text
                found.append((link, text))
        records, self.marks = self.marks + records, []
        if not self.has_room(sum(map(len, records))):
            records, found = [], []
        if self.put(records, back):
            self.note_sent(found)

    def keep_last(self, answered: Read) -> None:
        for way, text in answered:
            link = way.link
            kept = link.count.last(text) if link.number is not None else b""
            if kept and self.put([], [SEGMENT.pack(83, link.number, len(kept)), kept]):
                self.answered_bytes += len(kept)

    def pass_marks(self) -> None:
        marks, self.marks = self.marks, []
        if marks and not self.fault and self.has_room(sum(map(len, marks))):
            self.put(marks, [])

    def put(self, records: list[bytes], back: list[bytes]) -> bool:
        """Writes a block: records of the capture, and of the spool. Gives whether it was written."""
        if not records and not back:
            return True
        text, now = b"".join(records), time.monotonic_ns()
        try:
            self.part.block(now, text, b"".join(back))
        except OSError as error:
            self.is_spool_full = True
            self.stop(f"{self.part.name}: {error.strerror}")
            return False
        self.size += len(text)
        while time.monotonic_ns() <= now:
            pass
        return True

    def has_room(self, length: int) -> bool:
        """Whether the capture can have as many further bytes, with what other processes may have written meanwhile."""
        others = self.board.sum("size") - self.row[5] + self.board.count * (1 << 23) if self.size > 1 << 29 else 0
        if self.size + others + length + len(END) <= MOST_CAPTURE:
            return True
        self.stop(f"{self.names.window(self.window)[0]}: a capture has at most {MOST_CAPTURE} bytes")
        return False

    # ---- what is said

    def counts(self) -> dict[str, Any]:
        """What was recorded since the process began, and of the current window whether a number was used again."""
        names = ("done", "commands", "sent_bytes", "answered_bytes", "missing", "passed_on", "nuls", "odd")
        return {**{name: getattr(self, name) for name in names}, "has_sessions": self.has_sessions,
                "has_fault": self.fault is not None}


class Worker(Proxy):
    """A proxy that does what comes on a socket, a line for each order, and answers there."""

    def __init__(self, recording: Parted, server: str, addresses: list[Address], screen: Screen, orders: socket.socket) -> None:
        super().__init__(recording, server, addresses, None, screen)
        self.parted, self.orders, self.text = recording, orders, b""
        self.attempt: Optional[int] = None  # the number of the order to hold clients, until all are quiet
        self.wait_for(orders, READ, self.obey)

    def tell(self, kind: str, **more: object) -> None:
        with contextlib.suppress(OSError):
            self.orders.sendall(json.dumps({"kind": kind, **more}).encode() + b"\n")

    def obey(self) -> None:
        """Does what the first process says; ends if that has gone."""
        text = self.orders.recv(4096)
        if not text:
            self.is_signalled = self.is_hurried = True
            self.wait_no_more(self.orders)
        *lines, self.text = (self.text + text).split(b"\n")
        for line in lines:
            word, _, number = line.partition(b" ")
            self.carry_out(word, int(number or 0))

    def carry_out(self, word: bytes, number: int) -> None:
        if word == b"hold" and self.ending is None:
            self.attempt = number
            self.hold()
        elif word == b"go":
            self.attempt = None
            self.go_on()
        elif word == b"cut":
            self.parted.pass_marks()
            counts = self.parted.counts()
            self.parted.begin_window(number)
            self.go_on()
            self.tell("cut", counts=counts)
        elif word == b"end":
            self.is_signalled = True
        elif word == b"hurry":
            self.is_hurried = True

    def turn(self) -> None:
        super().turn()
        one, row = self.parted, self.parted.row
        row[0], row[1], row[2] = one.commands, one.sent_bytes, one.answered_bytes
        row[3], row[4], row[5] = len(self.links), self.gone, one.size
        if self.attempt is not None and self.is_quiet():
            number, self.attempt = self.attempt, None
            self.tell("quiet", number=number)
