"""What an answer says of the replies to the calls of its command, and what is no answer to it in any run.

A call that the server says it failed to make (`SERVER_ERROR ..`) stored nothing, and may have removed the older item. Of
one that a proxy did not pass on, or whose answer it lost, nothing is known.
"""
from __future__ import annotations

from collections import Counter
from collections.abc import Callable, Iterator
from typing import NamedTuple

from zygos_tools.judging.events import (ADD, APPEND, CAS, DECR, DELETE, GET, INCR, PREPEND, REPLACE, SET, No, Unknown,
                                        Verdict, first_line)
from zygos_tools.judging.reading import MOST_NAMED, Recording, advice_on, may_concern
from zygos_tools.judging.table import (ANSWERED, DROPPED, HAS_FLAGS, HAS_UNIQUE, HAS_VALUE, LOST, QUIET, V_DECR,
                                       V_FAULT, V_FLUSH, V_GET, V_GETS, V_INCR, V_MD, V_MN, V_MS, V_VERBOSITY,
                                       V_VERSION, VERBS, W_HIT, W_MISS, WANT_BITS, WANT_OF)
from zygos_tools.protocol.answers import FAULT, MOST_FLAGS, line_end, meta, name_of, number
from zygos_tools.protocol.meaning import line_of, words_of

WORDS = {b"STORED": "stored", b"NOT_STORED": "not stored", b"EXISTS": "exists", b"NOT_FOUND": "not found",
         b"DELETED": "deleted", b"CLIENT_ERROR cannot increment or decrement non-numeric value": "no number"}
CODES = {b"NS": "not stored", b"EX": "exists", b"NF": "not found"}
# which replies a call can have
REPLIES = {SET: ("stored",), ADD: ("stored", "not stored"), REPLACE: ("stored", "not stored"),
           APPEND: ("stored", "not stored"), PREPEND: ("stored", "not stored"),
           CAS: ("stored", "exists", "not found"), INCR: ("number", "not found", "no number"),
           DECR: ("number", "not found", "no number"), DELETE: ("deleted", "not found")}
# the numbers of the replies that a call can have, by its kind and by the line of the answer
LINES = {(kind, line): WANT_OF[want] for kind, wants in REPLIES.items() for line, want in WORDS.items()
         if want in wants}
MUTE = {V_VERBOSITY: b"OK\r\n", V_MN: b"MN\r\n"}
# what a memcached says of a call that it did not make; other texts are of proxies
FAILED = (b"SERVER_ERROR object too large for cache", b"SERVER_ERROR out of memory", b"SERVER_ERROR Out of memory")
SERVER_ERROR = b"SERVER_ERROR"
W_FAILED = WANT_OF["failed"]
TWICE = "a retrieval names a key twice and has one item of it: which was found is not known"


class Shown(NamedTuple):
    """An item that an answer shows; its value is at a place of the output."""

    key: bytes
    flags: int
    size: int
    unique: int | None
    at: int


class Seeing:
    """Fills in what was seen of the calls of a recording.

    Of a key that a retrieval names twice and has one item of, the first one is taken to have been found: such keys are
    unsure. `faults` has what is said of answers that no run gives, of each session the first. Their commands are taken
    to have been carried out or not. `is_chosen` says which keys are judged.
    """

    def __init__(self, recording: Recording, is_chosen: Callable[[bytes], bool]):
        self.recording, self.table, self.is_chosen = recording, recording.table, is_chosen
        self.faults: list[Verdict] = []
        self.refused: set[tuple[int, int]] = set()
        self.left_out: list[int] = []

    def all(self) -> None:
        """Goes over all commands."""
        self.go_over()
        if self.left_out:
            self.faults.append(self.of_left_out())

    def go_over(self) -> None:
        """Goes over all commands, but for what is said of those that are left out."""
        table = self.table
        states, verbs = table.state, table.verb
        for connection, asked in enumerate(self.recording.of_connection):
            session, text = -1, b""
            self.recording.look_at_clock()
            for one in asked:
                verb = verbs[one]
                if table.session[one] != session:
                    session = table.session[one]
                    text = table.outputs[connection, session]
                if verb <= V_GETS and states[one] == ANSWERED:
                    self.see_items(one, text)
                else:
                    self.take(one, text)

    def take(self, one: int, text: bytes) -> None:
        """What is seen of a command; one that reads only and was not answered is dropped."""
        table, verb, state = self.table, self.table.verb[one], self.table.state[one]
        if state & DROPPED:
            return
        if verb == V_FAULT and table.count_of_calls(one):
            self.see_failed(one)
        elif state & LOST and table.reads(one):
            name = "faulty line" if verb == V_FAULT else VERBS[verb]
            self.recording.notes[f"unanswered {name} left out"] += 1
            table.state[one] |= DROPPED
            if verb == V_FAULT:
                self.recording.doubt(one, False)
        elif state & ANSWERED and self.is_failed(one, verb):
            return
        elif verb in (V_VERBOSITY, V_MN, V_VERSION, V_FAULT):
            self.expect(one, verb)
        elif verb == V_FLUSH:
            self.flush(one)
        elif verb in (V_GET, V_GETS):
            self.see_items(one, text)
        elif table.kind[table.first_call[one]] == GET:
            if not state & (LOST | QUIET):
                self.see_meta(one)
        elif state & ANSWERED:
            self.see_line(one, verb, text)
        elif verb == V_MS and not state & (LOST | QUIET):  # hidden by q; whether an md found an item is not known
            table.want[table.first_call[one]] = WANT_OF["stored"]

    # ---- calls that were not made

    def is_failed(self, one: int, verb: int) -> bool:
        """Whether the server said that it failed to carry out a command that calls for items."""
        table, recording = self.table, self.recording
        answer = table.answer(one) or b""
        if not answer.startswith(SERVER_ERROR) or not table.count_of_calls(one):
            return False
        recording.notes[f"failed {VERBS[verb]}"] += 1
        kind = table.kind[table.first_call[one]]
        if kind == GET:
            table.state[one] |= DROPPED
        elif kind in REPLIES and kind != DELETE and answer.startswith(FAILED):
            table.want[table.first_call[one]] = W_FAILED
        else:
            table.state[one] |= LOST
        return True

    def see_failed(self, one: int) -> None:
        """A value that is too large, which surely was not stored, if the answer says so."""
        table = self.table
        answer = table.answer(one)
        if answer is not None and not FAULT.match(answer):
            self.recording.doubt(one, False)
            self.leave_out(one)
            table.state[one] |= LOST
        table.want[table.first_call[one]] = W_FAILED

    # ---- answers that are none

    def refuse(self, one: int, why: str | None = None) -> None:
        """An answer that no run gives; after a line that is outside the profile nothing is sure in its session."""
        table, recording = self.table, self.recording
        why = why or self.why_not(one)
        session, answer = (table.connection[one], table.session[one]), table.answer(one)
        is_error = answer is not None and FAULT.match(answer)
        odd, outside = recording.odd.get(session), recording.outside.get(session)
        is_known = odd is None and outside is None and not is_error
        since = min([table.number[one], *([odd.since] if odd else []), *([] if outside is None else [outside])])
        asked = recording.of_connection[session[0]]
        lost = [other for other in asked[since:] if table.session[other] == session[1]] if odd or outside is not None else [one]
        may_matter = is_known or is_error or any(may_concern(table, other, self.is_chosen) for other in lost)
        if session not in self.refused and may_matter:
            self.refused.add(session)
            why = f"{why}; {odd.why}" if odd else why
            advice = "" if is_known else advice_on(table, lost, "its keys")
            self.faults.append((No if is_known else Unknown)(why + advice, table.asked(one)))
        recording.lose(lost)

    def why_not(self, one: int) -> str:
        """What is said of an answer that its command cannot have."""
        table, answer = self.table, self.table.answer(one) or b""
        name, line = VERBS[table.verb[one]], first_line(answer)
        if not FAULT.match(answer):
            return f"{line or 'an empty line'} is no answer to {name}"
        return f"{line} answers a {name} that has no error"

    def expect(self, one: int, verb: int) -> None:
        """The answer to a command without a call."""
        table, answer = self.table, self.table.answer(one)
        if table.state[one] & QUIET or answer is None:
            return
        if verb == V_FAULT:
            is_refused = FAULT.match(answer) is not None
            self.recording.doubt(one, is_refused)
            if not is_refused:
                self.leave_out(one)
            elif table.has_block(one):
                table.state[one] |= DROPPED
                self.recording.notes["faulty ms left out"] += 1
        elif not (answer.startswith(b"VERSION ") if verb == V_VERSION else answer == MUTE[verb]):
            self.refuse(one)

    def leave_out(self, one: int) -> None:
        """A command that the profile leaves out did something that is not known."""
        table = self.table
        self.left_out.append(one)
        if table.original(one).startswith(b"flush_all"):
            self.recording.forgetting.append(one)

    def of_left_out(self) -> Unknown:
        """What is said of commands that the profile leaves out, with the words that leave out their keys."""
        lines = [line_of(self.table.original(one)) for one in self.left_out]
        names = Counter(name_of(line) for line in lines)
        told = ", ".join(f"{name} ({count:,})" for name, count in names.most_common(MOST_NAMED))
        advice = advice_on(self.table, self.left_out, "their keys")
        return Unknown(f"commands that the profile leaves out: {told}{advice}", self.table.asked(self.left_out[0]))

    def flush(self, one: int) -> None:
        """The answer to a `flush_all`."""
        if not self.table.state[one] & ANSWERED:
            return
        if self.table.answer(one) != b"OK\r\n":
            self.refuse(one)
            return
        for call in self.table.calls_of(one):
            self.table.want[call] = WANT_OF["flushed"]

    def see_line(self, one: int, verb: int, text: bytes) -> None:
        """An answer that is a line."""
        table = self.table
        at, call = table.answer_at[one], table.first_call[one]
        line, kind = text[at : at + table.answer_size[one]].rstrip(b"\r\n"), table.kind[call]
        if verb in (V_INCR, V_DECR):
            found = number(line.rstrip(b" "))
            if found is not None:
                table.want[call], table.seen[call] = WANT_OF["number"], found
                return
        want = LINES.get((kind, line))
        if verb in (V_MS, V_MD):
            want = self.meta_want(verb, kind, line, want)
        if want is None:
            self.refuse(one)
            return
        table.want[call] = want

    @staticmethod
    def meta_want(verb: int, kind: int, line: bytes, want: int | None) -> int | None:
        """The reply that the answer to `ms` or `md` means; None where it is none."""
        code = line.split(None, 1)[0] if line.strip() else b""
        if code == b"HD":
            return WANT_OF["deleted" if verb == V_MD else "stored"]
        name = CODES.get(code)
        return want if name is None else WANT_OF[name] if name in REPLIES[kind] else None

    def see_items(self, one: int, text: bytes) -> None:
        """The items of a retrieval."""
        table = self.table
        begin, verb = table.answer_at[one], table.verb[one]
        first, last = table.first_call[one], table.first_call[one + 1]
        end = begin + table.answer_size[one]
        if end - begin == 5 and text.startswith(b"END\r\n", begin):
            for call in range(first, last):
                table.want[call] = W_MISS
            return
        items, rest = items_of(text, begin, end)
        if text[rest:end].rstrip(b"\r\n") != b"END":
            if self.is_failed(one, verb):
                return
            self.refuse(one)
            return
        shows_unique = verb == V_GETS
        if any(shows_unique == (item.unique is None) for item in items):
            self.refuse(one)
            return
        if not self.match(range(first, last), items):
            self.refuse(one, "an item of a key that was not asked for there")
        elif last - first > 1:
            self.look_for_twice(range(first, last))

    def match(self, calls: range, items: list[Shown]) -> bool:
        """Gives the calls of a retrieval its items, which may be in any order. Gives whether all items are theirs."""
        table, at = self.table, 0
        for call in calls:
            if at < len(items) and items[at].key == table.keys[table.key[call]]:
                self.show(call, *items[at][1:])
                at += 1
            else:
                table.want[call] = W_MISS
        if at == len(items):
            return True
        of_key: dict[bytes, list[Shown]] = {}
        for item in reversed(items):
            of_key.setdefault(item.key, []).append(item)
        for call in calls:
            found = of_key.get(table.keys[table.key[call]])
            if found:
                self.show(call, *found.pop()[1:])
            else:
                table.want[call] = W_MISS
        return not any(of_key.values())

    def show(self, call: int, flags: int | None, size: int, unique: int | None, at: int | None) -> None:
        """An item was found."""
        table, want = self.table, W_HIT
        if flags is not None:
            table.flags[call], want = flags, want | HAS_FLAGS
        if at is not None:
            table.value_at[call], table.value_size[call], want = at, size, want | HAS_VALUE
        if unique:
            table.seen[call], want = unique, want | HAS_UNIQUE
        elif unique is not None:  # a server without uniques shows this one of all items
            self.recording.notes["uniques that are 0"] += 1
        table.want[call] = want

    def look_for_twice(self, calls: range) -> None:
        """Notes keys that are named twice, and of which one item was found."""
        table = self.table
        names = [table.key[call] for call in calls]
        if len(set(names)) == len(names):
            return
        missed = {table.key[call] for call in calls if table.want[call] & WANT_BITS == W_MISS}
        for call in calls:
            if table.want[call] & WANT_BITS == W_HIT and table.key[call] in missed:
                self.recording.unsure.setdefault(table.keys[table.key[call]], TWICE)

    def see_meta(self, one: int) -> None:
        """The answer to an `mg` or a `touch`."""
        table, call = self.table, self.table.first_call[one]
        answer = table.answer(one) or b"EN\r\n"
        answered = meta(answer)
        if answered.code in (b"EN", b"NOT_FOUND"):
            table.want[call] = W_MISS
            return
        marks = answered.marks
        is_wrong = b"f" in marks and answered.flags is None or b"c" in marks and answered.unique is None
        if answered.code not in (b"HD", b"VA", b"TOUCHED") or is_wrong:
            self.refuse(one)
            return
        at = table.answer_at[one] + line_end(answer, 0) if answered.value is not None else None
        self.show(call, answered.flags, len(answered.value or b""), answered.unique, at)


def items_of(text: bytes, begin: int, end: int) -> tuple[list[Shown], int]:
    """The items of an answer to a retrieval, and where its last line begins: at its begin, if an item is not shown as
    it should be."""
    items, at = [], begin
    while text.startswith(b"VALUE ", at):
        stop = line_end(text, at)
        words = words_of(text[at:stop].removesuffix(b"\r\n"))
        numbers = [number(word) for word in words[2:]]
        flags, size = numbers[:2] if len(numbers) in (2, 3) else (None, None)
        if flags is None or size is None or None in numbers or flags >= MOST_FLAGS or stop + size + 2 > end:
            return [], begin
        items.append(Shown(words[1], flags, size, numbers[2] if len(numbers) > 2 else None, stop))
        at = stop + size + 2
    return items, min(at, end)


def all_items(answer: bytes) -> Iterator[tuple[Shown, bytes]]:
    """The items of an answer, each with its value."""
    for item in items_of(answer, 0, len(answer))[0]:
        yield item, answer[item.at : item.at + item.size]
