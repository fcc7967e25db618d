"""Plays a capture to a live server, and writes what it replied, as `zygos run` would.

usage: tools/play CAPTURE --server PLACE [--recorded REPLIES | --as-is] [--in-order] [--connections N]
                  [--wait SECONDS] > REPLIES

  tools/play my.cap --recorded my.replies --server 127.0.0.1:11211 > its.replies
  tools/compare --all --capture my.cap my.replies its.replies

CAPTURE        what is played; - is standard input
--server       where the server listens: HOST:PORT, [HOST]:PORT, or a Unix socket: a path with a slash, or unix:PATH
--recorded     what the recorded server answered, to translate the CAS values of `cas`
--as-is        send CAS values as they are in the capture
--in-order     send in the order of the capture: each segment after the answers to all before it
--connections  without --in-order, have at most N connections at a time (default 4096)
--wait         if nothing comes for this time, go on without the missing answers (default 5)

The server should hold no items. Each connection of the capture is one to the server, its sessions one after the other.
They run side by side, each as fast as its answers come: a segment is sent when all commands before it are answered.
Nothing is sent after a `quit`. A memcached allows 1,024 connections, unless it was started with -c.

CAS values differ from server to server. With --recorded, `cas` (or a meta command with the flag C) names the value
that the server showed in its answer to the command from which the recorded client learned its own. Without it, the
value is the last one that the server showed of the key, so a `cas` that was wrong on purpose may succeed. A value that
nothing showed is sent as it is. The replies have the server's own values.

At the end standard error has the number of answered commands, and how long answers took, by percentile, this program's
own time included. The status is 1 if a connection failed, an answer was missing, or a signal ended it, as Ctrl-C does;
what came back is written all the same.
"""
from __future__ import annotations

import os
import re
import shutil
import signal
import stat
import sys
import tempfile
import time
from array import array
from collections.abc import Callable, Iterator
from typing import IO, Any

from zygos_tools.cli import ends
from zygos_tools.cli.screen import Screen, hold_first
from zygos_tools.files import inputs
from zygos_tools.files.formats import (MOST_CONNECTIONS, Segment, capture_head, capture_records, replies_heads,
                                       replies_version)
from zygos_tools.files.growing import Growing, reading
from zygos_tools.files.spool import replies_in_order
from zygos_tools.files.outputs import naming
from zygos_tools.files.part import PIECE
from zygos_tools.playing.playing import Play, Script, Step
from zygos_tools.protocol.uniques import AsTheyAre, Recorded, SessionUniques, Uniques
from zygos_tools.recording import places
from zygos_tools.recording.targets import more_files

SHARES = (0.5, 0.9, 0.99, 0.999)


def opened(name: str) -> IO[bytes]:
    """A capture that can be read at any place: a file, or what comes from a pipe."""
    if name == "-" and sys.stdin is None:
        ends.stop("standard input is closed")
    source = sys.stdin.buffer if name == "-" else open(name, "rb")
    if name != "-" and stat.S_ISREG(os.fstat(source.fileno()).st_mode):
        return source
    kept = tempfile.TemporaryFile()
    with naming(name):
        shutil.copyfileobj(source, kept, 1 << 20)
        kept.flush()
    return kept


class Streams:
    """Where the segments of each connection are in a capture, and its close records."""

    def __init__(self, file: int, name: str) -> None:
        inputs.expect_at(file, name, inputs.NO_CAPTURE)
        self.file, part = file, reading(file, inputs.name_of(name))
        self.version, self.count = capture_head(part)
        self.places = [array("Q") for _ in range(self.count)]
        for record in capture_records(part, self.version, self.count):
            length = len(record.text) if isinstance(record, Segment) else 0
            place = (part.place - length) << 16 | length if isinstance(record, Segment) else 0
            self.places[record.connection].append(place)
        if part.want(1) or part.at < len(part.text):
            raise part.fault(f"trailing at {part.place}")

    def steps(self, connection: int) -> Iterator[Step]:
        """What a connection does."""
        for one in self.places[connection]:
            yield Step(connection, os.pread(self.file, one & 0xFFFF, one >> 16) if one else None, not one)
        yield Step(connection, None, False)

    def steps_in_order(self) -> Iterator[Step]:
        """What all connections do, in the order of the capture; each ends after its last record."""
        left, part = [len(places) for places in self.places], reading(self.file)
        for record in capture_records(part, *capture_head(part)):
            number, text = record.connection, record.text if isinstance(record, Segment) else None
            yield Step(number, text, text is None)
            left[number] -= 1
            if not left[number]:
                yield Step(number, None, False)


class Outputs:
    """Where the output of each session is in a replies file."""

    def __init__(self, file: IO[bytes], name: str) -> None:
        inputs.expect_at(file.fileno(), name, inputs.NO_REPLIES)
        self.file = file
        self.places: dict[tuple[int, int], tuple[int, int]] = {}
        part = reading(file.fileno(), inputs.name_of(name), kind="replies")
        for connection, session, length in replies_heads(part, replies_version(part)):
            self.places[connection, session] = part.place, length
        self.count = 1 + max((connection for connection, _ in self.places), default=-1)

    def recorded(self, key: tuple[int, int]) -> Recorded:
        """What was answered in a session."""
        begin, length = self.places.get(key, (0, 0))
        return Recorded(os.pread(self.file.fileno(), min(PIECE, begin + length - at), at)
                        for at in range(begin, begin + length, PIECE))


def seconds(word: str) -> float | None:
    """A time; None where it is none."""
    return float(word) if re.fullmatch(r"[0-9]{1,5}(\.[0-9]{1,3})?", word) else None


OPTIONS: dict[str, ends.Option | None] = {
    "--server": places.OPTION, "--recorded": ends.FILE, "--as-is": None, "--in-order": None,
    "--connections": ends.number(1, MOST_CONNECTIONS), "--wait": ("a number of seconds", seconds)}


def arguments(words: list[str]) -> tuple[dict[str, Any], str]:
    """The values of the options, and the capture."""
    found, names = ends.options(words, OPTIONS)
    if len(names) != 1 or "--server" not in found:
        ends.stop("a capture is played, and --server says where; --help says more", 2)
    if "--recorded" in found and ("--as-is" in found or found["--recorded"] == names[0]):
        ends.stop("--recorded is a replies file, for uniques that are not sent --as-is; --help says more", 2)
    return {"--connections": MOST_CONNECTIONS, "--wait": 5.0, **found}, names[0]


def told(screen: Screen, play: Play, seconds: float) -> None:
    """Says what was played."""
    times = play.times
    screen.say(f"{play.connected} connections, {times.count} commands answered in {seconds:.1f} s")
    if times.count:
        shares = ", ".join(f"{100 * share:g} % {1000 * times.within(share):.3f} ms" for share in SHARES)
        screen.say(f"answered within: {shares}, all {1000 * times.most:.3f} ms")
    if play.missing:
        screen.say(f"{play.missing} commands were not answered")
    if play.late:
        screen.say(f"{play.late} of them after {play.wait:g} seconds without any answer; --wait waits longer")
    if play.faults:
        screen.say(f"{play.faults} sessions ended too early")
    if play.closed:
        screen.say(f"{play.closed} of them the server closed: if it allows fewer connections, --connections 50 has no"
                   " more at a time")
    if play.is_interrupted:
        screen.say("interrupted: what came back so far is written")


def told_of(screen: Screen, uniques: Uniques) -> None:
    """Says how many uniques were translated."""
    if uniques.translated or uniques.kept:
        screen.say(f"{uniques.translated} uniques translated, {uniques.kept} sent as they are")


def translation(found: dict[str, Any], uniques: Uniques,
                count: int) -> Callable[[int, int], AsTheyAre | SessionUniques]:
    """What translates the uniques of a connection's session, of a capture with this count of connections."""
    if "--as-is" in found:
        return lambda connection, session: AsTheyAre()
    if "--recorded" not in found:
        return lambda connection, session: SessionUniques(uniques)
    name = found["--recorded"]
    outputs = Outputs(opened(name), name)
    if outputs.count != count:
        ends.stop(f"{name}: replies of {outputs.count} connections, and the capture has {count}: give those of its"
                  " recording")
    return lambda connection, session: SessionUniques(uniques, outputs.recorded((connection, session)))


def interruptible(play: Play) -> None:
    """Plays, until all is played or a signal ends it, as Ctrl-C does; a second one ends at once."""
    ending = ends.ending_signals()
    for number in ending:
        signal.signal(number, play.interrupt)
    play.run()
    for number in ending:
        signal.signal(number, signal.SIG_DFL)


def main(words: list[str]) -> None:
    found, name = arguments(words)
    hold_first()
    more_files()
    signal.signal(signal.SIGPIPE, signal.SIG_IGN)
    screen, file = Screen(), opened(name)
    streams = Streams(file.fileno(), name)
    steps = [streams.steps(number) for number in range(streams.count)]
    scripts = [Script(one) for one in ([streams.steps_in_order()] if "--in-order" in found else steps)]
    uniques = Uniques()
    translating = translation(found, uniques, streams.count)
    with naming("a temporary file"), tempfile.TemporaryFile() as kept:
        spool = Growing(kept.fileno())
        play, begin = Play(scripts, found, spool, screen, translating), time.perf_counter()
        interruptible(play)
        told(screen, play, time.perf_counter() - begin)
        told_of(screen, uniques)
        spool.finish(streams.version, streams.count)
        signal.signal(signal.SIGPIPE, signal.SIG_DFL)
        with naming("-"):
            sys.stdout.buffer.writelines(replies_in_order(kept.fileno(), streams.version, streams.count, screen))
            sys.stdout.flush()
    if play.missing or play.faults or play.is_interrupted:
        ends.end(1)
