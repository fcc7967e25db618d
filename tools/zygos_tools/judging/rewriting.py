"""The capture of a recording, written anew with other frames in place of some commands."""
from __future__ import annotations

from array import array
from collections import Counter
from collections.abc import Iterator, Mapping

from zygos_tools.files.formats import Segment, capture_head, capture_records, close, pieces, segment
from zygos_tools.files.part import Part
from zygos_tools.judging.reading import Recording, sessions_of
from zygos_tools.judging.table import ANSWERED, Table

# what is counted of a command that another one takes the place of, by its first word
READ_AS = {b"touch": "touch", b"gat": "gat", b"gats": "gat", b"bget": "gat", b"version": "words left out",
           b"mn": "words left out"}


def rewritten(recording: Recording, frames: Mapping[int, bytes],
              answers: Mapping[int, bytes]) -> Iterator[tuple[int, bytes]]:
    """The records of a capture in their order, each after its place. Some commands have other frames, or none, and then
    no mark; nor has a command whose answer is to be empty. Of what is left out there is a text without bytes."""
    part = Part("capture", recording.capture)
    writers: dict[int, Session] = {}
    sessions, of_session = Counter[int](), dict(sessions_of(recording))
    for place, record in enumerate(capture_records(part, *capture_head(part))):
        connection = record.connection
        if not isinstance(record, Segment):
            yield place, close(connection)
            sessions[connection] += 1
            writers.pop(connection, None)
            continue
        writer = writers.get(connection)
        if writer is None:
            session = connection, sessions[connection]
            writer = writers[connection] = Session(recording.table, frames, answers, of_session[session],
                                                   session in recording.surplus)
        if record.text:
            for text in pieces(connection, writer.sent(record.text)) or [b""]:
                yield place, text
        else:
            yield place, segment(connection, b"") if writer.keeps_mark() else b""


class Session:
    """A session of the capture that is written: the commands whose bytes come next, and whose marks."""

    def __init__(self, table: Table, frames: Mapping[int, bytes], answers: Mapping[int, bytes], asked: array[int],
                 has_surplus: bool):
        self.table, self.frames, self.answers = table, frames, answers
        self.asked, self.at, self.read, self.written, self.has_surplus = asked, 0, 0, 0, has_surplus
        self.answered = iter([command for command in asked if table.state[command] & ANSWERED])

    def sent(self, text: bytes) -> bytes:
        """The bytes of a segment in place of those that were recorded. Of a command that ends later at least one byte
        is left for then, so that it is sent when it was."""
        found, at, sizes = [], 0, self.table.frame_size
        while at < len(text) and self.at < len(self.asked):
            command = self.asked[self.at]
            frame, count = self.frames.get(command), sizes[command] - self.read
            if count > len(text) - at:
                self.read += len(text) - at
                if frame is None:
                    found.append(text[at:])
                else:
                    stop = min(self.written + len(text) - at, max(0, len(frame) - 1))
                    found.append(frame[self.written : stop])
                    self.written = max(self.written, stop)
                return b"".join(found)
            found.append(text[at : at + count] if frame is None else frame[self.written :])
            at, self.at, self.read, self.written = at + count, self.at + 1, 0, 0
        return b"".join([*found, text[at:]])

    def keeps_mark(self) -> bool:
        """Whether the next mark is that of an answer which is kept."""
        command = next(self.answered, None)
        if command is None:
            return not self.has_surplus
        return b"" not in (self.frames.get(command), self.answers.get(command))
