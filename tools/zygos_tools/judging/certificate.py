"""The files for `zygos check` and `linear`: the capture, the journal of an order of all calls, and the replies.

The capture has the recorded records in the recorded order, so that it keeps what is known of times. A command that is
translated stands in the segments in which it came. A segment without bytes, the mark of an answer, is left out only
with its answer. The connections that are added send each command before the first record that needs it, and have no
marks.

| Counted as | What |
|---|---|
| touch, gat | commands that the profile leaves out, read as `mg` and `get` |
| lines cut at a NUL | lines of which memcached reads only what comes before the NUL |
| now noreply | a command at the end of a session that was carried out and not answered |

What else is counted is in `replay`.
"""
from __future__ import annotations

import tempfile
from array import array
from collections import Counter
from collections.abc import Iterable, Iterator

from zygos_tools.files.formats import (END, JOURNAL_START, MOST_CONNECTIONS, MOST_HOLD, capture_start, hold,
                                       output_start, pieces, replies_start, segment)
from zygos_tools.judging.events import ADD, CAS, DECR, DELETE, INCR, REPLACE, SET, Unknown
from zygos_tools.judging.keys import Keys
from zygos_tools.judging.orders import CHANGED, WAS_LOST, Order
from zygos_tools.judging.reading import Recording, sessions_of
from zygos_tools.judging.replay import Replay
from zygos_tools.judging.rewriting import READ_AS, rewritten
from zygos_tools.judging.table import (ANSWERED, DROPPED, LOST, QUIET, REPLACED, VERB_OF, VERBS, WANT_BITS,
                                       WANT_OF)
from zygos_tools.protocol.meaning import Command, line_of, words_of
from zygos_tools.protocol.rules import PADDED
from zygos_tools.protocol.table import is_touching
from zygos_tools.protocol.uniques import cut_line, with_unique

# the commands that a `delete` may take the place of
STORING = (b"set", b"add", b"replace", b"append", b"prepend", b"cas", b"incr", b"decr", b"ms")
# the calls that give an item another exptime; a value that is joined to it keeps the old one
GIVING = (SET, ADD, REPLACE, CAS)


def unpadded(item: tuple[int, bytes]) -> tuple[int, bytes]:
    """An item that was there at first, without the spaces with which memcached pads a number, since zygos counts none with
    spaces."""
    match = PADDED.fullmatch(item[1])
    return (item[0], match[1]) if match else item


class Added:
    """What the connections send that are added: `sets` stores the items that were there before, and `deletes` removes
    items that the server lost, each before a record."""

    def __init__(self, count: int, first: Iterable[tuple[bytes, tuple[int, bytes]]], losses: int):
        self.first = list(first)
        self.setter, self.deleter = count, count + bool(self.first)
        self.count = self.deleter + bool(losses)
        self.deletes: list[tuple[int, bytes]] = []
        if self.count > MOST_CONNECTIONS:
            raise Unknown("connections are to be added, and there are as many as a capture can have")

    def sets(self) -> Iterator[bytes]:
        """The segments that store items."""
        for key, (flags, value) in self.first:
            yield from pieces(self.setter, b"set %s %d 0 %d noreply\r\n%s\r\n" % (key, flags, len(value), value))


class Certificate:
    """What is handed to the program; `counts` says what is translated.

    `order` has the calls by their numbers, and losses of items from `base` on, whose keys `lost` has. `begins` are the
    times at which commands were sent.
    """

    def __init__(self, recording: Recording, order: array[int], base: int, lost: list[bytes],
                 keys: Keys, begins: array[int]):
        self.recording, self.table, self.begins = recording, recording.table, begins
        there = [(key, unpadded(item) if self.counts_first(keys.found[key]) else item)
                 for key, item in sorted(keys.first.items()) if item]
        self.added = Added(recording.count, there, len(lost))
        self.leave_out(order, base)
        self.leave_out_failed(keys)
        self.entries = tempfile.TemporaryFile()
        self.entries.write(JOURNAL_START)
        self.replay = Replay(self.table, self.entries)
        self.carry_out(order, base, lost)
        self.entries.writelines([*self.holds(), END])
        self.counts: Counter[str] = self.replay.counts + recording.notes
        self.counts["items that were there before"] += len(there)
        explained = sum(map(self.losses_by_time, map(keys.found.__getitem__, set(lost))))
        self.counts["losses of items that an exptime may explain"] += explained
        self.counts["losses of items"] += len(lost) - explained - self.replay.counts["uniques begun anew without a loss"]
        self.frames = self.translated()

    def leave_out(self, order: array[int], base: int) -> None:
        """Drops the commands at the end of a session that were not answered and are not in the order."""
        table = self.table
        if not any(state & LOST and not state & DROPPED for state in table.state):
            return
        made = {table.command[call] for call in order if call < base and table.state[table.command[call]] & LOST}
        for command, state in enumerate(table.state):
            if state & LOST and not state & DROPPED and table.count_of_calls(command) and command not in made:
                table.state[command] |= DROPPED
                self.recording.notes[f"unanswered {VERBS[table.verb[command]]} left out"] += 1

    def leave_out_failed(self, keys: Keys) -> None:
        """Drops the calls that were not made. One that removed an item becomes a `delete`."""
        table, orders = self.table, keys.orders
        for call, want in enumerate(table.want):
            if want & WANT_BITS != WANT_OF["failed"]:
                continue
            command, key = table.command[call], table.keys[table.key[call]]
            place = None if table.state[command] & DROPPED else orders.place(key, call)
            if place is None or not orders.found[key].marks[place] & CHANGED:
                table.state[command] |= DROPPED
                continue
            quiet = table.state[command] & (QUIET | LOST) != 0
            line = b"delete %s%s\r\n" % (key, b" noreply" * quiet)
            table.replaced[command] = Command("delete", [key], quiet=quiet), line
            table.state[command] = table.state[command] & ~LOST | REPLACED | QUIET * quiet
            table.kind[call], table.want[call] = DELETE, WANT_OF["deleted"]
            table.verb[command] = VERB_OF["delete"]
            self.recording.notes["items that a failed command removed"] += 1

    def counts_first(self, order: Order) -> bool:
        """Whether the first call that changes a key counts."""
        first = next((call for call, mark in zip(order.calls, order.marks) if mark & CHANGED), None)
        return first is not None and self.table.kind[first] in (INCR, DECR)

    def losses_by_time(self, order: Order) -> int:
        """How many of the losses of a key came after a command that gave the item an exptime."""
        table, has_exptime, count = self.table, False, 0
        for call, mark in zip(order.calls, order.marks):
            count += bool(mark & WAS_LOST) and has_exptime
            line = table.original(table.command[call])
            words = words_of(line_of(line))
            if is_touching(line_of(line)):
                has_exptime = words[1 if words[0] in (b"gat", b"gats") else 2] not in (b"0", b"-0")
            elif mark & CHANGED and table.kind[call] in GIVING:
                has_exptime = table.meaning(table.command[call]).numbers.get("exptime", 0) != 0
        return count

    # ---- the journal

    def carry_out(self, order: array[int], base: int, lost: list[bytes]) -> None:
        """Carries out all calls in their order."""
        replay, added, begins, commands = self.replay, self.added, self.begins, self.table.command
        for place, (key, item) in enumerate(added.first):
            replay.add(added.setter, place, key, item)
        latest, make, count = 0, replay.make, len(commands)
        for node in order:
            if node < count:
                if self.table.state[commands[node]] & DROPPED:
                    continue
                make(node)
                begin = begins[commands[node]]
                if begin > latest:
                    latest = begin
            else:
                key = lost[node - base]
                replay.add(added.deleter, len(added.deletes), key, None)
                added.deletes.append((latest // 2, b"delete %s noreply\r\n" % key))
        replay.others()
        replay.end()

    def holds(self) -> Iterator[bytes]:
        """The holds of all connections."""
        counts = Counter(connection for command, connection in enumerate(self.table.connection)
                         if not self.table.state[command] & DROPPED)
        counts[self.added.setter] += len(self.added.first)
        counts[self.added.deleter] += len(self.added.deletes)
        for connection in range(self.added.count):
            left = counts[connection]
            while left:
                some = min(left, MOST_HOLD)
                yield hold(connection, 0, some)
                left -= some

    # ---- the capture

    def translated(self) -> dict[int, bytes]:
        """The commands that are not sent as they were recorded."""
        table, found = self.table, {}
        for command, state in enumerate(table.state):
            if state & DROPPED:
                found[command] = b""
            elif state & (REPLACED | LOST) or command in self.replay.given:
                found[command] = self.frame(command, state)
        return found

    def frame(self, command: int, state: int) -> bytes:
        """The bytes of a command that is translated."""
        table, frame, given = self.table, self.table.frame(command), self.replay.given.get(command)
        if state & REPLACED:
            line = table.original(command)
            word = line.split(None, 1)[0]
            if b"\0" not in line[: line.index(b"\n")] and word not in STORING:
                self.counts[READ_AS.get(word, "words left out")] += 1
        if given is not None:
            frame = with_unique(frame, given)
        if state & LOST:
            self.counts["now noreply"] += 1
            frame = self.with_noreply(command, frame)
        return frame

    def with_noreply(self, command: int, frame: bytes) -> bytes:
        """A command that is not answered; a meta command as the classic one that does the same."""
        words, end, block = cut_line(frame)
        meaning, call = self.table.meaning(command), self.table.first_call[command]
        if meaning.verb == "md":
            words = [b"delete", words[1]]
        elif meaning.verb == "ms":
            is_cas = self.table.kind[call] == CAS
            given = self.replay.given.get(command, self.table.given[call])
            words = [(meaning.call or "").encode(), words[1], b"%d" % self.table.flags[call], b"0",
                     b"%d" % self.table.value_size[call], *[b"%d" % given] * is_cas]
        text: bytes = b" ".join([*words, b"noreply"]) + end + block
        return text

    def is_recorded_capture(self) -> bool:
        """Whether the capture is the recorded one."""
        is_all = not self.frames and not self.recording.surplus and self.added.count == self.recording.count
        return is_all and not any(self.hidden())

    def hidden(self) -> Iterator[int]:
        """The commands whose answers zygos does not give."""
        return (command for command, answer in self.replay.answers.items() if not answer)

    def capture(self) -> Iterator[bytes]:
        """The capture, in pieces."""
        if self.is_recorded_capture():
            yield self.recording.capture
            return
        yield capture_start(self.added.count, self.recording.version)
        yield from self.added.sets()
        deletes = iter([*self.added.deletes, (1 << 62, b"")])
        due, text = next(deletes)
        for place, record in rewritten(self.recording, self.frames, self.replay.answers):
            while due <= place:
                yield segment(self.added.deleter, text)
                due, text = next(deletes)
            yield record
        yield END

    # ---- the journal and the replies

    def journal(self) -> Iterator[bytes]:
        """The journal, in pieces."""
        self.entries.seek(0)
        while piece := self.entries.read(1 << 20):
            yield piece

    def replies(self) -> Iterator[bytes]:
        """The replies, in pieces."""
        version = 2 if any(self.recording.sessions.values()) else self.recording.version
        yield replies_start(version)
        for (connection, session), asked in sessions_of(self.recording):
            text = b"".join(self.answers(connection, session, asked))
            yield output_start(version, connection, session, len(text))
            yield text
        for connection in range(self.recording.count, self.added.count):
            yield output_start(version, connection, 0, 0)
        yield END

    def answers(self, connection: int, session: int, asked: array[int]) -> Iterator[bytes]:
        """The answers of zygos to the commands of a session."""
        table, ours, text = self.table, self.replay.answers, self.table.outputs[connection, session]
        states, at, size = table.state, table.answer_at, table.answer_size
        for command in asked:
            if states[command] & DROPPED:
                continue
            if command in ours:
                yield ours[command]
            elif states[command] & ANSWERED:
                yield text[at[command] : at[command] + size[command]]

    def pieces(self) -> Iterator[bytes]:
        """All three files, one after the other, in pieces."""
        yield from self.capture()
        yield from self.journal()
        yield from self.replies()
