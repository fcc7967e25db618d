"""Makes a capture of text: bytes in, a capture file out.

usage: tools/capture [--marks] [--cut BYTES] [FILE ..] > CAPTURE

    printf 'set a 0 0 1\\r\\nx\\r\\nget a\\r\\n' | tools/capture | ./zygos run | tools/show

Without a FILE, standard input is what connection 0 sends. With FILEs, the first is what connection 0 sends, the second
connection 1, and so on. FILE - is standard input, which can be named once.

--marks      a line of the input of one of these forms is not sent, but says who sends the lines after it:
               @N        connection N
               @N close  connection N, whose session ends, and whose next session begins
             Lines before the first mark are sent by connection 0, in a second FILE by connection 1, and so on.
             Only captures with a close have version 2.
--cut BYTES  segments of at most this many bytes, 1 to 65535 (default 65535)

A text file has lines that end in \\n only, which memcached and zygos accept; the blocks of storage commands must end
in \\r\\n.
"""
from __future__ import annotations

import re
import sys
from collections.abc import Iterator

from zygos_tools.cli import ends
from zygos_tools.files import inputs
from zygos_tools.files.formats import MOST_CONNECTIONS, MOST_SEGMENT, capture, close, pieces
from zygos_tools.files.part import Fault

MARK = re.compile(rb"^@([0-9]{1,9})( close)?\r?\n?$")
OPTIONS: dict[str, ends.Option | None] = {"--marks": None, "--cut": ends.number(1, MOST_SEGMENT)}


def marked(name: str, text: bytes, first: int) -> Iterator[tuple[int, bytes | None]]:
    """Yields (connection, bytes) for what is sent and (connection, None) for a close, in order."""
    connection = first
    sent: list[bytes] = []
    for number, line in enumerate(re.findall(rb"[^\n]*\n|[^\n]+", text), 1):
        mark = MARK.match(line)
        if not mark:
            sent.append(line)
            continue
        if sent:
            yield connection, b"".join(sent)
        connection, sent = int(mark[1]), []
        if connection >= MOST_CONNECTIONS:
            raise Fault(f"{inputs.name_of(name)}: line {number}: connection {connection} is not below {MOST_CONNECTIONS}")
        if mark[2]:
            yield connection, None
    if sent:
        yield connection, b"".join(sent)


def records(marks: bool, files: list[str]) -> Iterator[tuple[int, bytes | None]]:
    for number, name in enumerate(files):
        text = inputs.read(name)
        if marks:
            yield from marked(name, text, number)
        elif text:
            yield number, text


def main(words: list[str]) -> None:
    given, files = ends.options(words, OPTIONS)
    if len(files) > MOST_CONNECTIONS:
        ends.stop(f"{len(files)} files, and a capture has at most {MOST_CONNECTIONS} connections: with --marks a file"
                  " may have several sessions")
    sent = list(records("--marks" in given, files or ["-"]))
    count = max([len(files), 1] + [connection + 1 for connection, _ in sent])
    version = 2 if any(text is None for _, text in sent) else 1
    made: list[bytes] = []
    for connection, text in sent:
        made += [close(connection)] if text is None else pieces(connection, text, given.get("--cut", MOST_SEGMENT))
    sys.stdout.buffer.write(capture(count, made, version))
