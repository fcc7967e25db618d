"""Counts what a capture or a journal has, as mctop and memkeys do of live traffic.

usage: tools/top [--first N] [--cores N] [FILE ..]

    ./zygos run --out both < examples/client.cap | tools/top --first 3

FILE is standard input if it is left out or -. An input may hold several files, one after the other. Of a journal it
counts the calls on the store, with hits and misses; of a capture, which has no answers, the commands and the keys that
they name. Replies files are skipped. A `fault` is a line that zygos answers with an error; they are counted by first
word too. A block after a rejected line is read as lines.

--first N  how many keys, connections and first words are listed, the most frequent ones (default 10)
--cores N  the number of cores for which home cores are given, 1 to 64 (default 4, as for zygos run). The home core of
           a connection is its number modulo 128, modulo N

Sizes are those of values that are stored, and in a journal of those that are found. Memory grows with the number of
different keys, not with the file.
"""
from __future__ import annotations

import heapq
from collections import Counter
from collections.abc import Callable, Iterable, Mapping, Sequence
from typing import TypeVar

from zygos_tools.cli import ends
from zygos_tools.files import formats
from zygos_tools.files import inputs
from zygos_tools.files.part import Fault, Part
from zygos_tools.protocol.answers import name_of
from zygos_tools.protocol.meaning import Command, Framer, line_of
from zygos_tools.protocol.table import does

GROUPS = 128
# what has a count, and what says it
Named = TypeVar("Named", int, str, bytes)
Counted = TypeVar("Counted")
OPTIONS: dict[str, ends.Option | None] = {"--first": ends.number(1), "--cores": ends.number(1, formats.MOST_CORES)}


class Key:
    """What is counted of a key."""

    __slots__ = "calls", "gets", "hits", "stores", "largest"

    def __init__(self) -> None:
        self.calls = self.gets = self.hits = self.stores = self.largest = 0


class Counts:
    """What is counted of a capture or a journal: how often it has a name, a key, a size of values, and so on."""

    def __init__(self) -> None:
        self.names: Counter[str] = Counter()
        self.keys: dict[bytes, Key] = {}
        self.hits = 0
        self.stored: Counter[int] = Counter()  # by the number of binary digits of a size
        self.found: Counter[int] = Counter()
        self.connections: Counter[int] = Counter()  # commands by connection, and by the core that did them
        self.done: Counter[int] = Counter()
        self.faults: Counter[str] = Counter()  # faulty lines, by their first words

    def key(self, key: bytes) -> Key:
        row = self.keys.get(key)
        if row is None:
            row = self.keys[key] = Key()
        row.calls += 1
        return row

    def store(self, row: Key, size: int) -> None:
        self.stored[size.bit_length()] += 1
        row.stores += 1
        row.largest = max(row.largest, size)

    def capture(self, part: Part) -> None:
        framers: dict[int, Framer] = {}
        for record in formats.capture_records(part, *formats.capture_head(part)):
            connection = record.connection
            if isinstance(record, formats.Close):
                framers.pop(connection, None)
                continue
            if connection not in framers:
                framers[connection] = Framer()
            for command, frame in framers[connection].feed(record.text):
                self.connections[connection] += 1
                self.command(command, frame)

    def command(self, command: Command, frame: bytes) -> None:
        self.names[command.verb] += 1
        if command.verb == "fault":
            self.faults[name_of(line_of(frame))] += 1
        for key in command.keys:
            row = self.key(key)
            if command.value is not None:
                self.store(row, len(command.value))
            elif does(command) == "get":
                row.gets += 1

    def journal(self, part: Part) -> None:
        for record in formats.journal_records(part):
            if isinstance(record, formats.Entry):
                self.entry(record.call, record.reply)
            else:
                self.connections[record.connection] += record.count
                self.done[record.core] += record.count

    def entry(self, call: formats.Call, reply: formats.Reply) -> None:
        self.names[call.name] += 1
        if call.key is None:
            return
        row = self.key(call.key)
        if call.value is not None:
            self.store(row, len(call.value))
        elif call.name == "get":
            row.gets += 1
            if reply.name == "hit":
                size = len(reply.value)
                self.hits += 1
                self.found[size.bit_length()] += 1
                row.hits += 1
                row.largest = max(row.largest, size)


# ---- what is printed


def share(count: int, of: int) -> str:
    return f"{100 * count / of:.1f} %" if of else "-"


def table(title: str, heads: list[str], rows: Iterable[Sequence[object]]) -> None:
    """Prints a table; all columns but the last are right-aligned."""
    print(f"\n{title}")
    lines = [heads, *[[str(cell) for cell in row] for row in rows]]
    widths = [max(map(len, column)) for column in zip(*lines)]
    for line in lines:
        print("  ".join(["", *(cell.rjust(width) for cell, width in zip(line[:-1], widths)), line[-1]]))


def most(counts: Mapping[Named, Counted], first: int, count: Callable[[Counted], int]) -> list[tuple[Named, Counted]]:
    """Those with the greatest counts."""
    return heapq.nsmallest(first, counts.items(), key=lambda one: (-count(one[1]), one[0]))


def of(first: int, count: int) -> str:
    return f"the first {first} of {count}" if first < count else f"all {count}"


class Printed:
    """Prints what was counted; of a journal there are answers."""

    def __init__(self, counts: Counts, is_journal: bool, first: int, cores: int | None) -> None:
        self.counts, self.is_journal, self.first, self.cores = counts, is_journal, first, cores

    def all(self) -> None:
        counts = self.counts
        commands, calls = sum(counts.connections.values()), sum(counts.names.values())
        what = f"journal: {calls} calls of {commands} commands" if self.is_journal else f"capture: {commands} commands"
        print(f"{what}, {len(counts.connections)} connections, {len(counts.keys)} keys")
        if counts.names:
            print("  " + ", ".join(f"{name} {count}" for name, count in most(counts.names, len(counts.names), int)))
        if counts.faults:
            listed = ", ".join(f"{name} {count}" for name, count in most(counts.faults, self.first, int))
            shown = "" if len(counts.faults) <= self.first else f", the first {self.first} of {len(counts.faults)}"
            print(f"  not served, by first word: {listed}{shown}")
        if self.is_journal:
            gets = counts.names["get"]
            print(f"  hits {counts.hits} of {gets} gets: {share(counts.hits, gets)}")
        self.keys()
        self.sizes()
        self.connections(commands)
        self.homes(commands)

    def keys(self) -> None:
        rows: list[Sequence[object]] = []
        calls = sum(row.calls for row in self.counts.keys.values())
        for key, row in most(self.counts.keys, self.first, lambda row: row.calls):
            hits = [share(row.hits, row.gets)] if self.is_journal else []
            counts = row.calls, share(row.calls, calls), row.gets, *hits, row.stores, row.largest
            rows.append([*counts, formats.shown(key)])
        hits = ["hits"] if self.is_journal else []
        if rows:
            table(f"keys, {of(self.first, len(self.counts.keys))}",
                  ["calls", "share", "gets", *hits, "stores", "largest", "key"], rows)

    def sizes(self) -> None:
        stored, found = self.counts.stored, self.counts.found
        rows: list[Sequence[object]] = []
        for digits in sorted({*stored, *found}):
            least, greatest = 1 << digits >> 1, (1 << digits) - 1
            name = f"{least} to {greatest} bytes" if least < greatest else f"{least} byte" + "s" * (least != 1)
            rows.append([stored[digits], *([found[digits]] if self.is_journal else []), name])
        if rows:
            table("sizes of values", ["stored", *(["found"] if self.is_journal else []), "size"], rows)

    def connections(self, commands: int) -> None:
        found = self.counts.connections
        rows = [[count, share(count, commands), self.home(connection), connection]
                for connection, count in most(found, self.first, int)]
        if rows:
            table(f"connections, {of(self.first, len(found))}", ["commands", "share", "home", "connection"], rows)

    def home(self, connection: int) -> int | str:
        return connection % GROUPS % self.cores if self.cores else "-"

    def homes(self, commands: int) -> None:
        if not self.cores:
            print(f"\nhome cores are left out: --cores is not given, and core {max(self.counts.done)} has commands")
            return
        homes: Counter[int | str] = Counter()
        connections = Counter(map(self.home, self.counts.connections))
        for connection, count in self.counts.connections.items():
            homes[self.home(connection)] += count
        done = ["done"] if self.is_journal else []
        rows = [[homes[core], share(homes[core], commands), *([self.counts.done[core]] if done else []),
                 connections[core], core] for core in range(self.cores)]
        table(f"home cores, of {self.cores}", ["commands", "share", *done, "connections", "core"], rows)


def cores_of(counts: Counts, given: int | None, part: Part) -> int | None:
    """For how many cores homes are given; None where there were more than the usual number."""
    seen = max(counts.done, default=-1) + 1
    if given and seen > given:
        raise part.fault(f"core {seen - 1} has holds, so there were more than {given} cores")
    return given or (4 if seen <= 4 else None)


def show(part: Part, first: int, cores: int | None) -> None:
    """Prints what a capture or a journal has, up to its first fault."""
    counts = Counts()
    fault: Fault | None = None
    try:
        (counts.journal if part.name == "journal" else counts.capture)(part)
    except Fault as found:
        fault = found
    Printed(counts, part.name == "journal", first, cores_of(counts, cores, part)).all()
    if fault:
        raise fault


def main(words: list[str]) -> None:
    given, files = ends.options(words, OPTIONS)
    shown = 0
    for name in files or ["-"]:
        for part in inputs.parts(name):
            if part.name != "replies":
                print(end="\n" if shown else "")
                shown += 1
                show(part, given.get("--first", 10), given.get("--cores"))
    if not shown:
        raise Fault(f"{', '.join(map(inputs.name_of, files or ['-']))}: no capture or journal in it;"
                            " `zygos run --out both` writes a journal")
