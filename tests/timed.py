"""Random recordings with times: records come, calls are made and answers are complete in one order; and edits of these,
some of which are no longer in time, or have marks that do not fit."""
import random

import edits
import plain
import times
from drawn import drawn_capture
from zygos_tools.files.formats import Capture, Segment, capture, close, read_capture, segment
from zygos_tools.files.part import Part
from zygos_tools.protocol.model import Shard, text_of


def is_mark(record):
    return isinstance(record, Segment) and not record.text


class Drawn:
    """A recording that is in time: the moments of its calls are those at which they were made here."""

    def __init__(self, draw, shards):
        self.draw = draw
        read = read_capture(Part("capture", drawn_capture(draw, shards)))
        self.read = read._replace(records=[record for record in read.records if not is_mark(record)])
        self.made = plain.Given(shards, plain.streams_of(self.read), [], [], [])
        self.shards = [Shard(number, shards) for number in range(shards)]
        self.left, self.commands = plain.left_of(self.made), [*map(times.commands_by, self.made.streams)]
        self.come, self.session, self.marked, self.records = 0, [0] * read.count, [0] * read.count, []
        self.sent = [0] * read.count
        while steps := [*self.steps()]:
            step, *words = draw.choice(steps)
            step(*words)
        plain.end(self.made)

    def steps(self):
        """What can come next."""
        if self.come < len(self.read.records):
            yield (self.take,)
        for connection, calls in enumerate(self.left):
            if calls and calls[0][1] < self.sent[connection]:
                yield self.call, connection
            if self.has_answer(connection):
                yield self.mark, connection

    def take(self):
        """The next record comes; a close may come with answers left, which then have no mark."""
        record = self.read.records[self.come]
        self.come += 1
        self.records.append(record)
        here = plain.streams_of(self.read._replace(records=self.read.records[: self.come]))
        self.sent[record.connection] = len(plain.commands_in(self.made._replace(streams=here), record.connection))
        if not isinstance(record, Segment):
            self.session[record.connection] += 1
            self.marked[record.connection] = 0

    def call(self, connection):
        plain.make(self.made, self.shards, self.left[connection].pop(0))

    def has_answer(self, connection):
        """Whether the session has an answer that is complete and has no mark."""
        own = self.commands[connection][self.session[connection]]
        calls = self.left[connection]
        done = [one for one in own if one < self.sent[connection] and not (calls and calls[0][1] <= one)]
        commands = plain.commands_in(self.made, connection)
        answered = [one for one in done if text_of(commands[one], plain.replies_of(self.made, connection, one))]
        return len(answered) > self.marked[connection]

    def mark(self, connection):
        self.marked[connection] += 1
        self.records.append(Segment(connection, b""))

    def whole(self):
        return Capture(self.read.version, self.read.count, self.records)


def capture_of(read, records=None):
    """The bytes of a capture, with other records."""
    spelled = [segment(*record) if isinstance(record, Segment) else close(*record)
               for record in (read.records if records is None else records)]
    return capture(read.count, spelled, read.version)


# ---- edits


def edited_marks(draw, read):
    """A capture with one of its marks, or a new one, at another place."""
    records, marks = list(read.records), [at for at, record in enumerate(read.records) if is_mark(record)]
    kind = draw.choice(("left out", "doubled", "moved", "of another connection", "added"))
    if kind == "added" or not marks:
        mark = Segment(draw.randrange(read.count), b"")
        records.insert(draw.randrange(len(records) + 1), mark)
        return "a mark added", records
    at = draw.choice(marks)
    if kind == "doubled":
        records.insert(draw.randrange(at, len(records)), records[at])
    elif kind == "of another connection":
        records[at] = Segment(draw.randrange(read.count), b"")
    else:
        mark = records.pop(at)
        if kind == "moved":
            records.insert(draw.randrange(len(records) + 1), mark)
    return f"a mark {kind}", records


def edited_entries(draw, made):
    """A run with an entry that comes earlier, or another order of its calls."""
    at = draw.randrange(len(made.entries))
    entries = list(made.entries)
    entries.insert(draw.randrange(at + 1), entries.pop(at))
    return made._replace(entries=entries)


def drawn_inputs(number):
    """Inputs of `linear` that are drawn by a number, with what they are and their number of shards; the first is in time."""
    draw = random.Random(number)
    shards = draw.choice((1, 3, 16, 256))
    drawn = Drawn(draw, shards)
    read, made = drawn.whole(), drawn.made
    files = edits.written(made, read.version)
    yield "in time", capture_of(read) + files, shards
    for _ in range(2):
        what, records = edited_marks(draw, read)
        yield what, capture_of(read, records) + files, shards
    other = plain.run_of(read, shards, draw)
    yield "another order", capture_of(read) + edits.written(other, read.version), shards
    if made.entries:
        yield "an entry earlier", capture_of(read) + edits.written(edited_entries(draw, made), read.version), shards
        name, edited = draw.choice(list(edits.all_edits(made)))
        yield name, capture_of(read) + edits.written(edited, read.version), shards
    cut = capture_of(read) + files
    yield "cut", cut[: draw.randrange(len(cut))], shards
