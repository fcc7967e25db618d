"""The file of an order of commands in which a server may have answered as it was recorded, and how it is searched for.

`tools/judge`, `tools/inline` and `tools/compare` have one search. What the first one found is written to a file of
text, and the others read it: so all three speak of one order.
"""
from __future__ import annotations

import hashlib
import re
from collections import Counter
from collections.abc import Callable, Iterable, Iterator, Mapping, Sequence
from dataclasses import dataclass
from itertools import repeat

from zygos_tools.files.inputs import name_of, read
from zygos_tools.files.part import Fault

FIRST_LINE = "zygos order, version 1"
RUN = re.compile(r"([0-9]{1,9}) ([0-9]{1,18})")


def no_ticks(_: str) -> None:
    """Nobody hears how far it is."""


@dataclass(frozen=True)
class Search:
    """How an order is searched for. `tick` is called about once a second, `say` if none was found in the time, and `note`
    with a limit that the search met otherwise, as it does each time."""

    seconds: float | None = None
    tick: Callable[[str], None] = no_ticks
    say: Callable[[str], None] = no_ticks
    note: Callable[[str], None] = no_ticks
    order: str | None = None


# ---- the file of an order


def digest(capture: bytes, outputs: Mapping[tuple[int, int], bytes]) -> str:
    """A checksum of a recording: its capture, and the outputs by connection and session."""
    found = hashlib.sha256(b"%d " % len(capture) + capture)
    for (connection, session), text in sorted(outputs.items()):
        found.update(b"%d %d %d " % (connection, session, len(text)) + text)
    return found.hexdigest()


def order_text(connections: Iterable[int], recording: str) -> Iterator[bytes]:
    """The file of an order: the connections of its commands, which each connection has in its own order."""
    yield f"{FIRST_LINE}\nrecording {recording}\n".encode()
    last, count = -1, 0
    for connection in connections:
        if connection != last and count:
            yield b"%d %d\n" % (last, count)
            count = 0
        last, count = connection, count + 1
    if count:
        yield b"%d %d\n" % (last, count)
    yield b"end\n"


def read_order(name: str, recording: str) -> Iterator[int]:
    """The connections of the commands in the order of a file, which has to be of this recording."""
    lines = read(name).decode("latin-1").split("\n")
    if lines[0] != FIRST_LINE:
        raise Fault(f"{name_of(name)}: no order of commands; tools/judge --order writes one")
    if lines[1:2] != [f"recording {recording}"]:
        raise Fault(f"{name_of(name)}: the order of another recording; tools/judge --order writes that of this one")
    for number, line in enumerate(lines[2:], 3):
        if line == "end":
            if lines[number:] == [""]:
                return
            if lines[number:]:
                raise Fault(f"{name_of(name)}: line {number + 1}: not expected after the end")
            break
        run = RUN.fullmatch(line)
        if run is None:
            raise Fault(f"{name_of(name)}: line {number}: no connection and count of commands")
        yield from repeat(int(run[1]), int(run[2]))
    raise Fault(f"{name_of(name)}: cut off after line {len(lines)}; write it again by tools/judge --order")


def connections_of(calls: Sequence[tuple[int, int]], counts: Mapping[int, int]) -> Iterator[int]:
    """The connections of all commands, where these calls are in an order, each as its connection and the number of its
    command: a command comes with its last call, after those of its connection before it. `counts` has how many commands
    each connection has."""
    left = Counter(calls)
    gone = dict.fromkeys(counts, 0)
    for call in calls:
        left[call] -= 1
        connection, number = call
        if not left[call] and connection in gone:
            due = number + 1 - gone[connection]
            yield from [connection] * due
            gone[connection] += max(0, due)
    for connection, count in counts.items():
        yield from [connection] * (count - gone[connection])
