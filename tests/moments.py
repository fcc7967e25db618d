"""What `linear` has to answer to files that `zygos check` takes, of thousands of commands: a plain pass over them.
`times.py` has the definitions, for less.

A command is sent with the record that completes it. A mark, a segment without bytes, ends the first command of its
session that has an answer and no mark yet, and all commands before that.
"""
from collections import defaultdict

from zygos_tools.files.formats import Segment, cut_all, read_capture, read_journal
from zygos_tools.files.part import Part
from zygos_tools.protocol.meaning import Framer
from zygos_tools.protocol.model import text_of

NEVER = 1 << 62


class Moments:
    """When the commands of a recording were sent and had ended, as numbers of records, by connection and index."""

    def __init__(self, capture, replies):
        self.replies, self.sent, self.ended, self.early = replies, {}, {}, None
        self.count, self.session, self.framers = defaultdict(int), defaultdict(int), {}
        # by connection: the commands of its session that have not ended, each with whether it is answered
        self.open = defaultdict(list)
        for place, record in enumerate(capture.records):
            self.take(place, record, record.connection)

    def take(self, place, record, connection):
        if not isinstance(record, Segment):
            self.framers.pop(connection, None)
            self.open[connection] = []
            return
        if not record.text:
            self.mark(place, connection)
            return
        for command, _ in self.framers.setdefault(connection, Framer()).feed(record.text):
            index = self.count[connection]
            self.count[connection] += 1
            self.sent[connection, index], self.ended[connection, index] = place + 1, NEVER
            self.open[connection].append((index, text_of(command, self.replies.get((connection, index), [])) != b""))

    def mark(self, place, connection):
        """A mark ends the first command that is answered, and those before it."""
        waiting = self.open[connection]
        last = next((at for at, (_, is_answered) in enumerate(waiting) if is_answered), None)
        if last is None:
            self.early = place if self.early is None else self.early
            return
        for index, _ in waiting[: last + 1]:
            self.ended[connection, index] = place + 1
        del waiting[: last + 1]


def line_of(files):
    """The line that `linear` prints if `zygos check` says yes."""
    parts = cut_all(files)
    capture, journal = read_capture(Part("capture", parts["capture"])), read_journal(Part("journal", parts["journal"]))
    replies = defaultdict(list)
    for entry in journal.entries:
        replies[entry.connection, entry.index].append(entry.reply)
    moments = Moments(capture, replies)
    if moments.early is not None:
        return f"no early-end record {moments.early}"
    latest = 0
    for at, entry in enumerate(journal.entries):
        ended = moments.ended[entry.connection, entry.index]
        if ended <= latest and ended < NEVER:
            before = next(one for one, other in enumerate(journal.entries)
                          if moments.sent[other.connection, other.index] >= ended)
            return f"no out-of-time entry {at} after {before}"
        latest = max(latest, moments.sent[entry.connection, entry.index])
    return f"yes commands {len(moments.sent)} ended {sum(ended < NEVER for ended in moments.ended.values())}"
