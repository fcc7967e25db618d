"""The parts of a recording that several processes write, and how they are joined to a capture and a spool.

A part is the file of one process: its blocks, each with a time, records of the capture, and records of the spool. A
block has what came in one round of the process. Its time is taken after everything in it was read, and before anything
of it is passed on; and nothing of it is passed on before the clock has gone on. So if a block comes before another by
these times, answers in the first were read before commands in the second were passed on. The times are those of the
machine's monotonic clock, which all processes share.
"""
from __future__ import annotations

import contextlib
import heapq
import os
import struct
from collections.abc import Iterable, Iterator
from typing import NamedTuple

from zygos_tools.files.growing import Growing
from zygos_tools.files.outputs import naming
from zygos_tools.files.part import Fault
from zygos_tools.recording.targets import SPOOL, locked

MAGIC = b"ZYGPART\n"
HEAD = struct.Struct(">QII")
# how many bytes are read or written at once
PIECE = 1 << 20


class Block(NamedTuple):
    """What came in one round of a process."""

    time: int
    at: int  # the process
    sent: bytes
    back: bytes


class PartFile(Growing):
    """A part that is written."""

    def __init__(self, name: str) -> None:
        self.name, self.file, self.size = name, locked(name, os.O_CREAT | os.O_EXCL), 0
        self.add(MAGIC)

    def block(self, time: int, sent: bytes, back: bytes) -> None:
        self.add(HEAD.pack(time, len(sent), len(back)), sent, back)


def part_name(replies: str, at: int) -> str:
    """The name of a process's part of a recording."""
    return f"{replies}{SPOOL}.{at}"


def parts_of(replies: str) -> list[str]:
    """The names of the parts that a recording has left. The first part is removed first: without it there are none."""
    folder, base = os.path.split(replies)
    found = []
    for name in os.listdir(folder or "."):
        number = name[len(base) + len(SPOOL) + 1 :]
        if name.startswith(f"{base}{SPOOL}.") and number.isdigit():
            found.append((int(number), os.path.join(folder, name)))
    return [name for _, name in sorted(found)]


def remove_parts(names: Iterable[str]) -> None:
    """Removes parts, the first of them first."""
    for name in names:
        with contextlib.suppress(FileNotFoundError):
            os.unlink(name)


def blocks(name: str, at: int) -> Iterator[Block]:
    """The whole blocks of a part. A process that was killed may have left the last one cut."""
    with naming(name), open(name, "rb", buffering=PIECE) as file:
        if file.read(len(MAGIC)) not in (MAGIC, b""):
            raise Fault(f"{name}: no part of a recording")
        while len(head := file.read(HEAD.size)) == HEAD.size:
            time, sent_size, back_size = HEAD.unpack(head)
            sent, back = file.read(sent_size), file.read(back_size)
            if len(sent) < sent_size or len(back) < back_size:
                return
            yield Block(time, at, sent, back)


def join(names: Iterable[str], capture: Growing, spool: Growing) -> None:
    """Writes the records of parts to a capture and a spool, in the order of their times."""
    sent, back = bytearray(), bytearray()
    for block in heapq.merge(*(blocks(name, at) for at, name in enumerate(names))):
        sent += block.sent
        back += block.back
        for text, file in ((sent, capture), (back, spool)):
            if len(text) > PIECE:
                file.add(bytes(text))
                text.clear()
    capture.add(bytes(sent))
    spool.add(bytes(back))
