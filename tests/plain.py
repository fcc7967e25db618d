#!/usr/bin/env python3
"""A slow plain checker of runs, written from the definitions alone: what `zygos check` has to answer.

usage: tests/plain.py [--shards N] < FILES     (a capture, a journal and a replies file, joined)

Each cause is looked for as its definition reads, by going through everything again.
"""
import sys
from collections import namedtuple

import checks
from zygos_tools.cli import ends
from zygos_tools.files.formats import (MOST_HOLD, Entry, Hold, Output, Segment, read_capture, read_end, read_journal,
                                       read_replies)
from zygos_tools.files.part import Fault, Part
from zygos_tools.protocol.meaning import commands_of
from zygos_tools.protocol.model import Shard, calls, text_of

# what is checked; `streams` has for each connection those of its sessions
Given = namedtuple("Given", "shards streams entries holds outputs")


# ---- what is expected


def closes(records, connection):
    return sum(record.connection == connection and not isinstance(record, Segment) for record in records)


def stream(records, connection, session):
    """The bytes of those segments of a connection that have this number of its close records before them."""
    closed, found = 0, []
    for record in records:
        if record.connection == connection and not isinstance(record, Segment):
            closed += 1
        elif record.connection == connection and closed == session:
            found.append(record.text)
    return b"".join(found)


def streams_of(capture):
    """The streams of all connections' sessions."""
    return [[stream(capture.records, connection, session) for session in range(closes(capture.records, connection) + 1)]
            for connection in range(capture.count)]


def commands_in(given, connection):
    """The commands of a connection, session after session; if there is no such connection, none."""
    sessions = given.streams[connection] if connection < len(given.streams) else []
    return [command for text in sessions for command in commands_of(text)]


def due_of(given, connection):
    """The expected calls of a connection: the number of each command, and of each of its calls, the shard and the call."""
    return [(index, part, *call) for index, command in enumerate(commands_in(given, connection))
            for part, call in enumerate(calls(given.shards, command))]


def replies_of(given, connection, index):
    """The replies of the entries of a command."""
    entries = [entry for entry in given.entries if (entry.connection, entry.index) == (connection, index)]
    return [entry.reply for entry in sorted(entries, key=lambda entry: entry.part)]


def output_of(given, connection, session):
    """The expected output of a session: the texts of its commands, which are counted over all sessions."""
    before = sum(len(commands_of(text)) for text in given.streams[connection][:session])
    found = enumerate(commands_of(given.streams[connection][session]), before)
    return b"".join(text_of(command, replies_of(given, connection, index)) for index, command in found)


# ---- causes, in their order


def is_next(given, at):
    """Whether an entry is of the first expected call of its connection that no entry before it is of."""
    entry = given.entries[at]
    before = [one for one in given.entries[:at] if one.connection == entry.connection]
    due = due_of(given, entry.connection)[len(before) :]
    return due[:1] == [(entry.index, entry.part, entry.shard, entry.call)]


def is_answered(given, at):
    """Whether an entry has the reply that its shard gives after the calls of the entries before it."""
    entry = given.entries[at]
    shard = Shard(entry.shard, given.shards)
    for one in given.entries[:at]:
        if one.shard == entry.shard:
            shard.reply(one.call)
    return shard.reply(entry.call) == entry.reply


def wrong_entry(given):
    for at in range(len(given.entries)):
        if not is_next(given, at):
            return f"no not-next entry {at}"
        if not is_answered(given, at):
            return f"no wrong-reply entry {at}"
    return None


def missing(given):
    for connection in range(len(given.streams)):
        for index, part, _, _ in due_of(given, connection):
            if not any((one.connection, one.index, one.part) == (connection, index, part) for one in given.entries):
                return f"no missing connection {connection} command {index}"
    return None


def agreeing(one, other):
    """How many first bytes of two texts agree."""
    return next((at for at in range(min(len(one), len(other))) if one[at] != other[at]), min(len(one), len(other)))


def wrong_output(given):
    found = {(one.connection, one.session): one.text for one in given.outputs}
    due = {(connection, session): output_of(given, connection, session)
           for connection, sessions in enumerate(given.streams) for session in range(len(sessions))}
    for connection, session in sorted({*found, *due}):
        one, other = found.get((connection, session)), due.get((connection, session))
        if one != other:
            at = 0 if one is None or other is None else agreeing(one, other)
            return f"no wrong-output connection {connection}" + (f" session {session}" if session else "") + f" at {at}"
    return None


def wrong_holds(given):
    for connection in sorted({*range(len(given.streams)), *(hold.connection for hold in given.holds)}):
        held = sum(hold.count for hold in given.holds if hold.connection == connection)
        if held != len(commands_in(given, connection)):
            return f"no wrong-holds connection {connection}"
    return None


def verdict(given):
    return wrong_entry(given) or missing(given) or wrong_output(given) or wrong_holds(given) or "yes"


# ---- the answer


def parts_of(text):
    """What the three parts of an input stand for; each begins where the one before ends, and nothing follows them."""
    found = []
    for name, read in (("capture", read_capture), ("journal", read_journal), ("replies", read_replies)):
        part = Part(name, text)
        found.append(read(part))
        text = text[part.at :]
    read_end(part)
    return found


def answer(text, shards=16, program="zygos"):
    """What `check` answers: the status, standard output and standard error; in lines with this name of a program."""
    try:
        capture, journal, replies = parts_of(text)
    except Fault as fault:
        return 3, b"", f"{program}: {fault}\n".encode()
    line = verdict(Given(shards, streams_of(capture), journal.entries, journal.holds, replies.outputs))
    return int(line != "yes"), f"{line}\n".encode(), b""


# ---- a run of its own


def left_of(given):
    """The calls that each connection has to make."""
    return [[(connection, *due) for due in due_of(given, connection)] for connection in range(len(given.streams))]


def make(given, shards, call):
    """Makes a call: its entry, with the reply of its shard, comes after the others."""
    connection, index, part, shard, asked = call
    given.entries.append(Entry(len(given.entries) + 1, shard, connection, index, part, asked, shards[shard].reply(asked)))


def end(given):
    """Adds the holds and the outputs of a run that has made all calls."""
    for connection, sessions in enumerate(given.streams):
        count = len(commands_in(given, connection))
        given.holds.extend(Hold(connection, 0, min(MOST_HOLD, count - at)) for at in range(0, count, MOST_HOLD))
        given.outputs.extend(Output(connection, session, output_of(given, connection, session))
                             for session in range(len(sessions)))
    return given


def run_of(capture, shards=16, draw=None):
    """A run that makes the next call of the first connection that has one, or of one that is drawn, again and again."""
    given = Given(shards, streams_of(capture), [], [], [])
    left, all_shards = left_of(given), [Shard(number, shards) for number in range(shards)]
    while some := [calls_left for calls_left in left if calls_left]:
        make(given, all_shards, (draw.choice(some) if draw else some[0]).pop(0))
    return end(given)


def main(words):
    given, files = ends.options(words, {"--shards": ends.number(1, 256)})
    if files:
        ends.stop("the files come on standard input; --help says more", 2)
    status, written, said = answer(sys.stdin.buffer.read(), given.get("--shards", 16))
    sys.stdout.buffer.write(written)
    sys.stderr.buffer.write(said)
    return status


if __name__ == "__main__":
    checks.script(main, __doc__)
