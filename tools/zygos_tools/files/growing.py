"""Captures that are written as their records come.

While a capture grows, its head has version 2 and 4,096 connections; at its end these become the right ones. One that
was left while it grew is whole up to its last record, and can be completed.
"""
from __future__ import annotations

import os
from collections.abc import Callable

from zygos_tools.files.formats import (END, GROWING, MOST_CONNECTIONS, SEGMENT, Record, Segment, capture_head,
                                       capture_records, capture_start, close)
from zygos_tools.files.part import MOST_FILE, Fault, Part


def write_at(file: int, text: bytes, place: int) -> None:
    while text:
        count = os.pwrite(file, text, place)
        text, place = text[count:], place + count


class Growing:
    """A capture that grows, in a file that is open for reading and writing; `size` is what was written so far."""

    def __init__(self, file: int) -> None:
        self.file, self.size = file, 0
        os.ftruncate(file, 0)
        os.lseek(file, 0, os.SEEK_SET)
        version, count = GROWING
        self.add(capture_start(count, version))

    def add(self, *pieces: bytes) -> None:
        """Writes a record; where that fails, nothing of it is left."""
        length = sum(map(len, pieces))
        try:
            count = os.writev(self.file, pieces)
            if count < length:
                left = b"".join(pieces)[count:]
                while left:
                    left = left[os.write(self.file, left) :]
        except OSError:
            self.cut(self.size)
            raise
        self.size += length

    def cut(self, size: int) -> None:
        """Cuts it after `size` bytes."""
        os.ftruncate(self.file, size)
        os.lseek(self.file, size, os.SEEK_SET)
        self.size = size

    def segment(self, connection: int, text: bytes) -> None:
        self.add(SEGMENT.pack(ord("S"), connection, len(text)), text)

    def empty(self, connection: int, count: int) -> None:
        """Writes segments without bytes."""
        self.add(SEGMENT.pack(ord("S"), connection, 0) * count)

    def close(self, connection: int) -> None:
        self.add(close(connection))

    def finish(self, version: int, count: int) -> None:
        """Makes it a whole capture."""
        write_at(self.file, capture_start(count, version), 0)
        self.add(END)


def reading(file: int, name: str = "", passed: Callable[[int], object] | None = None, kind: str = "capture") -> Part:
    """A part that is read from the begin of a file, however long that is; `passed` gets the length of each piece."""
    at = 0

    def more(count: int) -> bytes:
        nonlocal at
        try:
            piece = os.pread(file, count, at)
        except OSError as error:
            raise OSError(error.errno, error.strerror, error.filename or name or None) from None
        at += len(piece)
        if passed:
            passed(len(piece))
        return piece

    part = Part(kind, more=more, before=name and f"{name}: ")
    part.most = MOST_FILE
    return part


class Found:
    """What there is in a capture that may have been left while it grew; it is refused for any other fault."""

    def __init__(self, file: int, name: str = "", passed: Callable[[int], object] | None = None) -> None:
        self.file, self.closes, self.sizes, self.count_seen = file, [0] * MOST_CONNECTIONS, [0] * MOST_CONNECTIONS, 0
        self.length = os.fstat(file).st_size
        part = reading(file, name, passed)
        self.version, self.count = capture_head(part)
        self.whole, self.is_ended = part.place, False  # where the last whole record ends, and whether END is there
        try:
            for record in capture_records(part, self.version, self.count):
                self.whole = part.place
                self.note(record)
            self.is_ended = True
        except Fault as fault:
            if not str(fault).endswith(f"truncated at {self.length}"):
                raise
        if self.is_ended and part.place < self.length:
            raise part.fault(f"trailing at {part.place}")

    def note(self, record: Record) -> None:
        self.count_seen = max(self.count_seen, record.connection + 1)
        if isinstance(record, Segment):
            self.sizes[record.connection] += len(record.text)
        else:
            self.closes[record.connection] += 1

    def is_growing(self) -> bool:
        return (self.version, self.count) == GROWING

    def cut(self) -> tuple[int, int] | None:
        """Cuts the file after its last whole record, or after the bytes that there are of a last segment.

        Gives how many bytes that segment has, and how many it should have; None where there is none."""
        found = None
        kept = self.length - self.whole - SEGMENT.size
        if not self.is_ended and kept > 0:
            tag, connection, length = SEGMENT.unpack(os.pread(self.file, SEGMENT.size, self.whole))
            write_at(self.file, SEGMENT.pack(tag, connection, kept), self.whole)
            self.count_seen = max(self.count_seen, connection + 1)
            self.sizes[connection] += kept
            self.whole, found = self.length, (kept, length)
        os.ftruncate(self.file, self.whole)
        return found

    def add(self, text: bytes) -> None:
        """Writes on after what there is."""
        write_at(self.file, text, self.whole)
        self.whole += len(text)
