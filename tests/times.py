#!/usr/bin/env python3
"""A slow plain checker of times, written from the definitions alone: what `linear` has to answer.

usage: tests/times.py [--shards N] < FILES     (a capture, a journal and a replies file, joined)

Each definition is looked up as it reads, at each moment and for each pair of entries. A moment is a number of records:
what had come after the first ones. It is for up to a few hundred records; `moments.py` is for more.
"""
import functools
import sys
from itertools import accumulate

import checks
import plain
from zygos_tools.cli import ends
from zygos_tools.files.formats import Segment
from zygos_tools.protocol.model import text_of

USAGE = b"linear: usage: linear [--shards N]\n"


def commands_by(streams):
    """The numbers of the commands of each session of a connection, which has these streams."""
    ends = [0, *accumulate(len(plain.commands_of(text)) for text in streams)]
    return [range(*pair) for pair in zip(ends, ends[1:])]


class Recording:
    """The records of a capture and the entries of a journal, with what the definitions say of them."""

    def __init__(self, capture, entries):
        self.capture, self.entries = capture, entries
        self.moments = range(len(capture.records) + 1)
        self.given = self.at(self.moments[-1])
        self.sessions = [commands_by(streams) for streams in self.given.streams]
        # by moment and connection, how many commands had come
        self.counts = [[self.count(self.at(moment), connection) for connection in range(capture.count)]
                       for moment in self.moments]
        self.answered = [self.answers(connection) for connection in range(capture.count)]

    def at(self, moment):
        """What had come at a moment."""
        come = self.capture._replace(records=self.capture.records[:moment])
        return plain.Given(0, plain.streams_of(come), self.entries, [], [])

    @staticmethod
    def count(given, connection):
        return len(plain.commands_in(given, connection))

    def answers(self, connection):
        """Which commands of a connection are answered, by the replies in the journal."""
        return [text_of(command, plain.replies_of(self.given, connection, index)) != b""
                for index, command in enumerate(plain.commands_in(self.given, connection))]

    @functools.cache
    def marks(self, connection, session, moment):
        """How many segments without bytes a session of a connection has at a moment."""
        now, found = 0, 0
        for record in self.capture.records[:moment]:
            if record.connection == connection and not isinstance(record, Segment):
                now += 1
            elif record.connection == connection and now == session and record.text == b"":
                found += 1
        return found

    def is_sent(self, connection, index, moment):
        return self.counts[moment][connection] > index

    @functools.cache
    def is_ended(self, connection, index, moment):
        """Whether the session of a command has more marks than it has answered commands before this one."""
        session, own = next(pair for pair in enumerate(self.sessions[connection]) if index in pair[1])
        before = sum(self.answered[connection][one] for one in own if one < index)
        return self.marks(connection, session, moment) > before

    def fits(self, moment):
        """Whether each session has at most as many marks as answered commands that are sent."""
        return all(self.marks(connection, session, moment) <=
                   sum(self.answered[connection][one] and self.is_sent(connection, one, moment) for one in own)
                   for connection in range(self.capture.count)
                   for session, own in enumerate(self.sessions[connection]))

    # ---- the journal

    def is_late(self, one, other):
        """Whether the command of the second entry had ended at a moment at which that of the first was not sent."""
        return any(self.is_ended(other.connection, other.index, moment) and
                   not self.is_sent(one.connection, one.index, moment) for moment in self.moments)

    def first_late(self):
        """The first entry that comes after one whose command was sent too late, and the first such one."""
        for at, entry in enumerate(self.entries):
            for before, other in enumerate(self.entries[:at]):
                if self.is_late(other, entry):
                    return at, before
        return None

    def has_moments(self):
        """Whether there are moments, one for each entry, that never fall: its command is sent and has not ended then."""
        found = self.moments
        for entry in self.entries:
            place = entry.connection, entry.index
            found = [moment for moment in self.moments if any(before <= moment for before in found) and
                     self.is_sent(*place, moment) and not self.is_ended(*place, moment)]
        return len(found) > 0

    # ---- the answer

    def ended(self):
        """How many commands some mark ends."""
        return sum(self.is_ended(connection, index, self.moments[-1]) for connection in range(self.capture.count)
                   for index in range(self.count(self.given, connection)))

    def line(self):
        """What is said of files that are those of a run."""
        early = next((moment for moment in self.moments if not self.fits(moment)), None)
        if early is not None:
            return f"no early-end record {early - 1}"
        late = self.first_late()
        if late:
            return f"no out-of-time entry {late[0]} after {late[1]}"
        return f"yes commands {sum(self.counts[-1])} ended {self.ended()}"


def recording_of(text):
    """The recording in a check's input."""
    capture, journal, _ = plain.parts_of(text)
    return Recording(capture, journal.entries)


def answer(text, shards=16):
    """What `linear` answers: the status, standard output and standard error."""
    checked = plain.answer(text, shards, "linear")
    if checked[1] != b"yes\n":
        return checked
    line = recording_of(text).line()
    return int(line.startswith("no")), f"{line}\n".encode(), b""


def main(words):
    given, files = ends.options(words, {"--shards": ends.number(1, 256)})
    if files:
        ends.stop("the files come on standard input; --help says more", 2)
    status, written, said = answer(sys.stdin.buffer.read(), given.get("--shards", 16))
    sys.stdout.buffer.write(written)
    sys.stderr.buffer.write(said)
    return status


if __name__ == "__main__":
    checks.script(main, __doc__)
