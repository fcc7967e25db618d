"""Prints captures, replies files, journals and items files as text.

usage: tools/show [--connection N] [--key K] [--answers] [--first N] [FILE ..]

    ./zygos run --out both < examples/first.cap | tools/show --first 2

FILE is standard input if it is left out or -. An input may hold several files, one after the other, as `zygos run
--out both` writes a journal and then the replies. Bytes that are not printable are shown as \\xNN. Each line of a
stream is on a line of its own, without its \\r\\n; if the \\r is missing, `(no \\r)` follows.

--connection N  only what is of connection N
--key K         of a journal, only the calls of the key K; of a capture, only the commands that name it, each with its
                number on its connection and that of the record that completes it, from 0 on, as tools/judge numbers
                them; of an items file, only what is of that key. K is written as it is shown. Nothing of replies is
                printed
--answers       of a replies file, each answer after its number, from 0 on, as tools/compare numbers them; an output is
                then kept in memory as a whole
--first N       the first N records that would be printed

A file with an error is printed up to it. The error is reported as `zygos` does, with its offset in its part, and the
status is 1. Memory does not grow with the file, only with its longest line.
"""
from __future__ import annotations

import re
import sys
from collections import Counter
from collections.abc import Iterator

from zygos_tools.cli import ends
from zygos_tools.files import formats
from zygos_tools.files import inputs
from zygos_tools.files.part import Part
from zygos_tools.protocol.answers import answers
from zygos_tools.protocol.meaning import Framer

LONE, NO_RETURN = re.compile(rb"(?<=[^\r\n])\n"), rb"  (no \r)"
PLAIN, KEPT = formats.PRINTED + b"\n", formats.PRINTED + b"\r\n"
LARGE = 1 << 20
OPTIONS: dict[str, ends.Option | None] = {
           "--connection": ends.number(0, formats.MOST_CONNECTIONS - 1), "--key": ("a key", lambda word: word or None),
           "--answers": None, "--first": ends.number(1)}


def lines(text: bytes) -> bytes:
    """The lines of some text, to be printed; the usual end of a line is left out."""
    if not text:
        return b""
    usual = text.replace(b"\r\n", b"\n  ")
    if len(usual) - len(text) != text.count(b"\n") or usual.translate(None, PLAIN):
        return odd_lines(text)
    return b"  " + usual[:-2] if usual[-3:] == b"\n  " else b"  " + usual + NO_RETURN + b"\n"


def odd_lines(text: bytes) -> bytes:
    """The same of any text; `lines` has a shorter way for what is printable, with the usual ends."""
    text = formats.shown_bytes(text if text[-1] == 10 else text + b"\n", KEPT)
    text = LONE.sub(lambda _: NO_RETURN + b"\n", text).replace(b"\r\n", b"\n").replace(b"\r", b"\\x0d")
    return b"  " + text[:-1].replace(b"\n", b"\n  ") + b"\n"


class Shown:
    """What is printed: records that are chosen, up to the last of the first ones."""

    def __init__(self, connection: int | None = None, key: bytes | None = None, first: int | None = None,
                 is_numbered: bool = False) -> None:
        self.connection, self.key, self.left, self.is_numbered = connection, key, first, is_numbered
        self.write = sys.stdout.buffer.write

    def count(self) -> None:
        """A record was printed; after the last one the tool ends."""
        if self.left is not None:
            self.left -= 1
            if not self.left:
                ends.end(0)

    def text(self, head: bytes, text: bytes) -> None:
        self.write(b"%s: %d bytes\n%s" % (head, len(text), lines(text)))
        self.count()

    # ---- captures

    def capture(self, part: Part) -> None:
        version, count = formats.capture_head(part)
        self.write(b"capture, version %d, connections %d\n" % (version, count))
        records: Iterator[formats.Record] = formats.capture_records(part, version, count)
        if self.key is not None:
            self.commands(records)
            return
        if self.connection is not None:
            records = (record for record in records if record.connection == self.connection)
        for record in records:
            if isinstance(record, formats.Segment):
                connection, text = record
                self.write(b"connection %d: %d bytes\n%s" % (connection, len(text), lines(text)))
            else:
                self.write(b"connection %d: closed\n" % record)
            if self.left:
                self.count()

    def commands(self, records: Iterator[formats.Record]) -> None:
        """The commands that name the key."""
        framers: dict[int, Framer] = {}
        numbers: Counter[int] = Counter()
        for place, record in enumerate(records):
            connection = record.connection
            if self.connection not in (None, connection):
                continue
            if isinstance(record, formats.Close):
                framers.pop(connection, None)
                continue
            for command, frame in framers.setdefault(connection, Framer()).feed(record.text):
                if self.key in command.keys:
                    self.text(b"connection %d, command %d, sent %d" % (connection, numbers[connection], place), frame)
                numbers[connection] += 1

    # ---- replies files

    def replies(self, part: Part) -> None:
        version = formats.replies_version(part)
        self.write(b"replies, version %d\n" % version)
        for connection, session, length in formats.replies_heads(part, version):
            if self.key is None and self.connection in (None, connection):
                head = b"connection %d" % connection + (b" session %d" % session if version == 2 else b"")
                self.output(part, head, length)

    def output(self, part: Part, head: bytes, length: int) -> None:
        if self.is_numbered:
            self.write(b"%s: %d bytes\n" % (head, length))
            for number, text in enumerate(answers(part.take(length))):
                self.write(b"  answer %d\n%s" % (number, lines(text)))
            self.count()
            return
        if length <= LARGE:
            self.text(head, part.take(length))
            return
        self.write(b"%s: %d bytes\n" % (head, length))
        left: list[bytes] = []
        for piece in part.pieces(length):
            end = piece.rfind(b"\n") + 1
            if end:
                self.write(lines(b"".join([*left, piece[:end]])))
                left = []
            left.append(piece[end:])
        self.write(lines(b"".join(left)))
        self.count()

    # ---- journals

    def journal(self, part: Part) -> None:
        self.write(b"journal\n")
        for record in formats.journal_records(part):
            if self.connection not in (None, record.connection):
                continue
            if isinstance(record, formats.Hold):
                self.hold(record)
            elif self.key in (None, record.call.key):
                stamp, shard, connection, index, piece, call, reply = record
                self.write(f"  {stamp}: shard {shard}, connection {connection}, command {index}.{piece}: "
                           f"{formats.told(call)} -> {formats.told(reply)}\n".encode())
                self.count()

    def hold(self, record: formats.Hold) -> None:
        if self.key is None:
            self.write(b"  hold of connection %d by core %d: %d commands\n" % record)
            self.count()

    # ---- items files

    def items(self, part: Part) -> None:
        bound = formats.items_bound(part)
        self.write(b"items, bound %d\n" % bound)
        for record in formats.items_records(part, bound):
            key = record.key if isinstance(record, formats.Item) else record
            if self.connection is not None or self.key not in (None, key):
                continue
            if isinstance(record, formats.Item):
                self.write(f"  '{formats.shown(key)}' flags {record.flags} unique {record.unique} "
                           f"value '{formats.shown(record.value)}'\n".encode())
            else:
                self.write(f"  lasting '{formats.shown(key)}'\n".encode())
            self.count()


def main(words: list[str]) -> None:
    given, files = ends.options(words, OPTIONS)
    key = given.get("--key")
    key = formats.bytes_of(key) if key else None
    shown = Shown(given.get("--connection"), key, given.get("--first"), "--answers" in given)
    for name in files or ["-"]:
        for part in inputs.parts(name):
            {"capture": shown.capture, "replies": shown.replies, "journal": shown.journal,
             "items": shown.items}[part.name](part)
