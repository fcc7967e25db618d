"""Completes the files of a recording that was killed: its capture, and the replies file from the spool."""
from __future__ import annotations

import os
from collections import defaultdict
from collections.abc import Callable, Iterator, Sequence
from itertools import zip_longest

from zygos_tools.cli.screen import Screen
from zygos_tools.files import inputs
from zygos_tools.files.formats import END, Close, Segment, capture_head, capture_records, capture_start, close
from zygos_tools.files.growing import Found, Growing, reading, write_at
from zygos_tools.files.outputs import Beside, naming, synced
from zygos_tools.files.part import Fault
from zygos_tools.files.spool import replies_of
from zygos_tools.protocol.pace import Pace
from zygos_tools.recording.parts import join, parts_of, remove_parts
from zygos_tools.recording.targets import SPOOL, locked


def opened(name: str) -> Found:
    """A capture that was left, and what there is in it."""
    file = os.open(name, os.O_RDWR)
    inputs.expect_at(file, name, inputs.NO_CAPTURE)
    with naming(name):
        return Found(file, name)


def complete(found: Found, closes: Sequence[int], version: int, count: int) -> None:
    """Makes it a whole capture in which connections have these numbers of close records."""
    for connection, number in enumerate(closes):
        found.add(close(connection) * (number - found.closes[connection]))
    found.add(END)
    write_at(found.file, capture_start(count, version), 0)


def cut(found: Found) -> str:
    """Cuts a capture after its last whole record; says what it keeps of the next one."""
    kept = found.cut()
    return f", {kept[0]} of the {kept[1]} bytes of the last segment" if kept else ""


def closed(file: int, take: Callable[[Segment], object]) -> Iterator[int]:
    """The connections that close in a capture, in its order; the segments before each are given to `take`."""
    part = reading(file)
    for record in capture_records(part, *capture_head(part)):
        if isinstance(record, Close):
            yield record.connection
        else:
            take(record)


def unanswered(sent: int, back: int) -> int:
    """How many commands of a capture have no whole answer in a spool, in which connections close in the same order."""
    paces: defaultdict[int, Pace] = defaultdict(Pace)
    count = 0
    for both in zip_longest(closed(sent, lambda one: paces[one.connection].sent(one.text)),
                            closed(back, lambda one: paces[one.connection].heard(one.text))):
        for number in set(both) & set(paces):
            count += paces.pop(number).owed
    return count + sum(pace.owed for pace in paces.values())


def gather(parts: Sequence[str], capture: str, spool: str) -> None:
    """Makes a capture and a spool of the parts that processes left, unless that was done before."""
    held = [locked(name) for name in parts]
    if parts[0].endswith(f"{SPOOL}.0") and not os.path.lexists(spool):
        with Beside(spool, True) as back, Beside(capture, True) as sent:
            join(parts, Growing(sent.out), Growing(back.out))
    remove_parts(parts)
    for file in held:
        os.close(file)


def repair(names: Sequence[str], screen: Screen) -> None:
    """Completes the files of a recording, and says on a screen what they have."""
    capture, replies = names
    spool = replies + SPOOL
    if parts := parts_of(replies):
        gather(parts, capture, spool)
    if not os.path.lexists(spool):
        repair_capture(capture, screen.say)
        check_replies(replies, screen.say)
        return
    back = Found(locked(spool), spool)
    sent = opened(capture)
    endings = [cut(sent), cut(back)]
    closes = [max(pair) for pair in zip(sent.closes, back.closes)]
    version, count = version_of(sent, closes, back.count_seen)
    with naming(capture):
        complete(sent, closes, version, count)
    with naming(spool):
        complete(back, closes, version, count)
    with naming(replies):
        made = os.open(replies, os.O_RDWR | os.O_CREAT, 0o666)
        replies_of(back.file, made, version, count, screen)
        synced(made)
    with naming(capture):
        synced(sent.file)
    missing = unanswered(sent.file, back.file)
    os.unlink(spool)
    screen.say(f"{capture}: completed: {count} connections, {count + sum(closes)} sessions, {sum(sent.sizes)} bytes sent"
               f"{endings[0]}")
    screen.say(f"{replies}: completed: {sum(back.sizes)} bytes back{endings[1]}")
    if missing:
        screen.say(f"{missing} commands are not answered whole")


def version_of(sent: Found, closes: Sequence[int], seen: int) -> tuple[int, int]:
    """The version and the number of connections of a capture; what its head says, where that is set."""
    if sent.is_growing():
        return 2 if any(closes) else 1, max(sent.count_seen, seen)
    return sent.version, sent.count


def repair_capture(name: str, say: Callable[[str], object]) -> None:
    """Completes a capture alone."""
    sent = opened(name)
    told = f"{sent.count} connections, {sum(sent.sizes)} bytes sent"
    if sent.is_ended:
        say(f"{name}: whole: {told}")
        return
    ending = cut(sent)
    version, count = version_of(sent, sent.closes, 0)
    with naming(name):
        complete(sent, sent.closes, version, count)
    say(f"{name}: completed: {count} connections, {sum(sent.sizes)} bytes sent{ending}")


def check_replies(name: str, say: Callable[[str], object]) -> None:
    """Whether a replies file is whole."""
    names = [part.name for part in inputs.parts(name)]
    if names != ["replies"]:
        raise Fault(f"{name}: no replies file, and there is no {name}{SPOOL} of which one could be made")
    say(f"{name}: whole")
