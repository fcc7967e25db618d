"""What comes back on connections, kept as it comes, and the replies file that is made of it.

A spool is a capture (growing.py): its segments are what came, and its close records are those of the capture of what
was sent. A replies file has each output whole, so the spool is gone over twice: for the lengths, and to put each piece
at its place. What is in memory does not grow with it. Where the replies go to a pipe, pieces cannot be put at places:
then 8 bytes for each segment say where it is, and outputs come one after the other.
"""
from __future__ import annotations

import os
from array import array
from collections.abc import Callable, Iterator
from typing import Protocol

from zygos_tools.files.formats import END, Segment, capture_head, capture_records, output_start, replies_start
from zygos_tools.files.growing import Found, reading, write_at

# how many bytes of outputs are gathered before they are written
MOST_GATHERED = 1 << 23


class Shows(Protocol):
    """A screen, which shows how far work on many bytes is."""

    def progress(self, what: str, size: int) -> Callable[[int], object]: ...

    def clear(self) -> None: ...


class Outputs:
    """The outputs of one connection, which are put into a file at their places: `begin` is that of the current one."""

    def __init__(self, file: int, version: int, connection: int, begin: int) -> None:
        self.file, self.version, self.connection, self.session = file, version, connection, 0
        self.head = len(output_start(version, 0, 0, 0))
        self.begin, self.at, self.text = begin, begin + self.head, bytearray()

    def write(self) -> None:
        """Writes what was gathered."""
        write_at(self.file, bytes(self.text), self.at)
        self.at += len(self.text)
        self.text.clear()

    def end(self) -> None:
        """Ends the output of a session."""
        self.write()
        length = self.at - self.begin - self.head
        write_at(self.file, output_start(self.version, self.connection, self.session, length), self.begin)
        self.session, self.begin, self.at = self.session + 1, self.at, self.at + self.head


def all_outputs(found: Found, file: int, version: int, count: int) -> tuple[list[Outputs], int]:
    """The outputs of all connections, and the place after them."""
    outputs: list[Outputs] = []
    place = len(replies_start(version))
    for connection in range(count):
        outputs.append(Outputs(file, version, connection, place))
        place += outputs[-1].head * (found.closes[connection] + 1) + found.sizes[connection]
    return outputs, place


def replies_of(spool: int, file: int, version: int, count: int, screen: Shows) -> int:
    """Writes the replies file of a spool; both are open files. Gives how many bytes came back."""
    size = os.fstat(spool).st_size
    passed = screen.progress(f"joining {size >> 20} MB of replies", 2 * size)
    found = Found(spool, passed=passed)
    outputs, place = all_outputs(found, file, version, count)
    part, gathered = reading(spool, passed=passed), 0
    for record in capture_records(part, *capture_head(part)):
        if not isinstance(record, Segment):
            outputs[record.connection].end()
            continue
        outputs[record.connection].text += record.text
        gathered += len(record.text)
        if gathered > MOST_GATHERED:
            gathered = 0
            for one in outputs:
                one.write()
    for one in outputs:
        one.end()
    write_at(file, END, place)
    os.ftruncate(file, place + len(END))
    write_at(file, replies_start(version), 0)
    screen.clear()
    return sum(found.sizes)


def replies_in_order(spool: int, version: int, count: int, screen: Shows) -> Iterator[bytes]:
    """The pieces of the replies file of a spool, which is an open file, one after the other."""
    size = os.fstat(spool).st_size
    passed = screen.progress(f"joining {size >> 20} MB of replies", 2 * size)
    outputs = [[array("Q")] for _ in range(count)]
    part = reading(spool, passed=passed)
    for record in capture_records(part, *capture_head(part)):
        if isinstance(record, Segment):
            length = len(record.text)
            outputs[record.connection][-1].append((part.place - length) << 16 | length)
        else:
            outputs[record.connection].append(array("Q"))
    yield replies_start(version)
    for connection, places_of in enumerate(outputs):
        for session, places in enumerate(places_of):
            yield output_start(version, connection, session, sum(place & 0xFFFF for place in places))
            for place in places:
                yield os.pread(spool, place & 0xFFFF, place >> 16)
                passed(place & 0xFFFF)
    yield END
    screen.clear()
