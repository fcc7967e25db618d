"""A recording in the commands that zygos knows, for the proved program `judge`, which knows no others.

What is replaced or left out does not depend on any order of the calls, so that the program looks for the order itself:

| Counted as | What |
|---|---|
| touch, gat | `mg` and `get` in their place; a store of the key has an exptime then, so that its item may be lost |
| words left out, lines cut at a NUL | what memcached does not read of a line |
| values that are too large | a small value in place of one that zygos does not read, if the server did not store it |
| .. left out | commands of operators, bad lines and others that do nothing to an item, with their answers |
"""
from __future__ import annotations

from array import array
from collections import Counter
from collections.abc import Iterable, Iterator

from zygos_tools.files.formats import END, capture_start, output_start, replies_start
from zygos_tools.judging.events import ADD, CAS, REPLACE, SET
from zygos_tools.judging.reading import Recording, sessions_of
from zygos_tools.judging.rewriting import READ_AS, rewritten
from zygos_tools.judging.seeing import FAILED
from zygos_tools.judging.table import ANSWERED, DROPPED, QUIET, REPLACED, V_FAULT, V_MS
from zygos_tools.protocol.answers import FAULT
from zygos_tools.protocol.meaning import line_of, words_of
from zygos_tools.protocol.table import is_touching
from zygos_tools.protocol.uniques import cut_line

# the calls that may give an item an exptime
GIVING = (SET, ADD, REPLACE, CAS)
# the answers to a `touch`, as `mg` gives them
TOUCHED = {b"TOUCHED\r\n": b"HD\r\n", b"NOT_FOUND\r\n": b"EN\r\n"}
# what is no translation, of what is counted when a recording is read
OTHERS = ("bytes of an answer that is cut off",)


class Translation:
    """A recording whose commands have their answers, as it is given to the program; `counts` says what is translated.
    With `loses` all items may be lost."""

    def __init__(self, recording: Recording, loses: bool):
        self.recording, self.table = recording, recording.table
        self.counts = Counter({name: count for name, count in recording.notes.items() if name not in OTHERS})
        self.frames: dict[int, bytes] = {}
        self.answers: dict[int, bytes] = {}
        # the keys that get an exptime, and the places of the records that are kept
        self.expiring: set[bytes] = set()
        self.places = array("I")
        for command in range(len(self.table.verb)):
            self.translate(command)
        if not loses:
            self.expire()

    # ---- the commands

    def translate(self, command: int) -> None:
        """Translates a command, if it needs that."""
        table, state = self.table, self.table.state[command]
        if state & REPLACED:
            self.note_exptime(line_of(table.original(command)).partition(b"\0")[0])
        if state & DROPPED:
            self.leave_out(command)
        elif table.verb[command] == V_FAULT:
            self.translate_fault(command)
        elif state & REPLACED:
            self.replace(command)

    def leave_out(self, command: int) -> None:
        """Leaves out a command with its answer."""
        self.frames[command] = self.answers[command] = b""

    def replace(self, command: int) -> None:
        """Has another command take the place of one; what is cut at a NUL is counted already."""
        line = line_of(self.table.original(command))
        if b"\0" not in line:
            self.counts[READ_AS.get(words_of(line)[0], "words left out")] += 1
        self.frames[command] = self.table.frame(command)
        if (answer := self.table.answer(command)) in TOUCHED and self.frames[command].startswith(b"mg "):
            self.answers[command] = TOUCHED[answer or b""]

    def translate_fault(self, command: int) -> None:
        """A faulty line with a block that the server dropped, or with a value that it did not store."""
        table, answer = self.table, self.table.answer(command) or b""
        line = line_of(table.original(command))
        if table.count_of_calls(command) and answer.startswith(FAILED) and not table.state[command] & QUIET:
            words = words_of(line)
            exptime = b"1" if len(words) > 3 and words[3] != b"0" else b"0"
            self.frames[command] = b"set %s 0 %s 1\r\nx\r\n" % (words[1], exptime)
            self.counts["values that are too large"] += 1
        elif FAULT.match(answer) and table.has_block(command):
            self.leave_out(command)
            self.counts["faulty ms left out"] += 1

    # ---- exptimes

    def note_exptime(self, line: bytes) -> None:
        """Notes the keys to which a `touch`, `gat` or `gats` gives an exptime."""
        words = words_of(line)
        if not is_touching(line):
            return
        keys, exptime = (words[1:2], words[2]) if words[0] == b"touch" else (words[2:], words[1])
        if int(exptime):
            self.expiring.update(keys)

    def expire(self) -> None:
        """Gives one store of each of these keys an exptime. A key without any store has no item that can be lost."""
        table, left = self.table, set(self.expiring)
        for call, kind in enumerate(table.kind):
            if kind in GIVING and table.keys[table.key[call]] in left and table.command[call] not in self.frames:
                command = table.command[call]
                self.frames[command] = expiring(table.original(command), table.verb[command] == V_MS)
                left.discard(table.keys[table.key[call]])

    # ---- the files

    def is_whole(self) -> bool:
        """Whether all that was answered is that of commands: an answer that is cut off may be that of a command that is
        left out."""
        for session, asked in sessions_of(self.recording):
            if self.rest(session, asked) and any(self.frames.get(one) == b"" for one in asked):
                return False
        return True

    def rest(self, session: tuple[int, int], asked: array[int]) -> bytes:
        """What a session was answered after its answers; nothing of what is to no command."""
        table, text = self.table, self.table.outputs[session]
        ends = (table.answer_at[one] + table.answer_size[one] for one in asked if table.state[one] & ANSWERED)
        return b"" if session in self.recording.surplus else text[max(ends, default=0) :]

    def pieces(self, between: Iterable[bytes] = ()) -> Iterator[bytes]:
        """The capture and the replies file, and what comes between them."""
        recording, table = self.recording, self.table
        yield capture_start(recording.count, recording.version)
        for place, text in rewritten(recording, self.frames, self.answers):
            if text:
                self.places.append(place)
            yield text
        yield END
        yield from between
        version = 2 if any(recording.sessions.values()) else recording.version
        yield replies_start(version)
        for session, asked in sessions_of(recording):
            told = [self.answers[one] if one in self.answers else table.answer(one) or b"" for one in asked]
            text = b"".join([*told, self.rest(session, asked)])
            yield output_start(version, *session, len(text))
            yield text
        yield END

    # ---- what the program says

    def command(self, connection: int, number: int) -> int:
        """The number of a recorded command, by that of the one that the program read; that itself if there is none."""
        asked = self.recording.of_connection[connection]
        kept = [at for at, one in enumerate(asked) if self.frames.get(one) != b""]
        return kept[number] if number < len(kept) else number

    def record(self, number: int) -> int:
        """The place of a record, by that of the one that the program read."""
        return self.places[number] if number < len(self.places) else number


def expiring(frame: bytes, is_meta: bool) -> bytes:
    """A command that stores, with an exptime."""
    words, end, block = cut_line(frame)
    if is_meta:
        words = [*words[:3], b"T1", *(word for word in words[3:] if not word.startswith(b"T"))]
    elif not int(words[3]):
        words[3] = b"1"
    return bytes(b" ".join(words) + end + block)
