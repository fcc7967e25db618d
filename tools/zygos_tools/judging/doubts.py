"""What may make a `no` of a right server: what is taken to be known of a recording, and is not surely so.

If the calls on a key have no order, less is taken to be known of them. Only if they have none then, that is refused.
"""
from __future__ import annotations

import copy
from collections.abc import Sequence
from typing import NamedTuple

from zygos_tools.judging.events import (ADD, APPEND, CAS, DECR, FOREVER, GET, INCR, PREPEND, REPLACE, SET, Event)
from zygos_tools.judging.reading import Recording
from zygos_tools.judging.table import ANSWERED, DROPPED, VERB_OF
from zygos_tools.protocol.meaning import line_of

V_SET = VERB_OF["set"]
LATE = "a command that was not answered before its connection ended may have been carried out later"
ENTERING = ("the first command of a session stores two words, which is no set but an authentication if the server asks"
            " for one (-Y)")
LARGE = "a value of nearly 1 MiB was stored with noreply, and the server may have refused it"
EARLY = "a store that failed may have removed the older item before it had come whole"
QUIET = "a command with noreply may have failed, as the server may lack memory"
# of how many bytes a value is surely taken, and the calls that can fail without an answer
MOST_SURE, STORES = 1000000, (SET, ADD, REPLACE, APPEND, PREPEND, CAS, INCR, DECR)


class Doubt(NamedTuple):
    """Why something is not surely known, and the command that makes it so."""

    why: str
    command: int


class Doubts:
    """What is not surely known of a recording whose commands have their answers and times."""

    def __init__(self, recording: Recording):
        self.recording, self.table, self.unsure = recording, recording.table, recording.unsure
        self.tails = recording.tails
        self.entering = {one for one in firsts_of(recording) if is_entering(recording, one)}
        self.forgets = [(self.table.begin[one], one) for one in recording.forgetting if self.may_forget(one)]

    def may_forget(self, one: int) -> bool:
        """Whether the server took a command after which it may lose items."""
        answer = self.table.answer(one)
        return answer is None or answer.startswith(b"OK")

    def forgetting(self, events: Sequence[Event]) -> str | None:
        """What may have taken items away from some calls' keys."""
        last = max((event.end for event in events), default=0)
        first = min(self.forgets, default=None)
        if first is None or first[0] > last:
            return None
        line = line_of(self.table.original(first[1])).decode("latin-1")
        return f"items may have been lost after `{line}`: --may-forget allows losses"

    def loosened(self, events: Sequence[Event], loses: bool) -> tuple[list[Event], Doubt | None]:
        """These calls, as far as they are surely known, and why that is less; no reason if it is not. With `loses` the
        server may lose items."""
        found: list[Event] = []
        reason: Doubt | None = None
        for event in events:
            new, doubt = self.loose(event, loses)
            reason = reason or doubt
            found += new
        if any(event.command in self.tails for event in events):
            found = [in_session(event, self.table.session[event.command], event.command in self.tails)
                     for event in found]
        return sorted(found, key=lambda event: event.begin), reason

    def loose(self, event: Event, loses: bool) -> tuple[list[Event], Doubt | None]:
        """What is surely known of a call, and why that is less than was taken to be known."""
        table, command = self.table, event.command
        odd = self.recording.odd.get((event.connection, table.session[command]))
        if odd and table.number[command] >= odd.since:
            first = self.recording.of_connection[event.connection][odd.since]
            return [] if event.kind == GET else [perhaps(event)], Doubt(odd.why, first)
        if command in self.entering:
            return [perhaps(event)], Doubt(ENTERING, command)
        if event.want == "failed" and command in self.recording.early:
            return [self.begun(event)], Doubt(EARLY, command)
        if event.want is None and event.kind in STORES and not event.optional:
            if len(event.value or b"") > MOST_SURE:
                return [perhaps(event), self.begun(failed(event))], Doubt(LARGE, command)
            if loses:
                return [perhaps(event)], Doubt(QUIET, command)
        return [event], Doubt(LATE, command) if command in self.tails else None


    def begun(self, event: Event) -> Event:
        """A call that may have been made as soon as the first bytes of its command came."""
        event = copy.copy(event)
        event.begin = self.recording.early.get(event.command, event.begin)
        return event


def perhaps(event: Event) -> Event:
    """A call that may have been made or not, of whose reply nothing is known."""
    event = copy.copy(event)
    event.optional = True
    if event.want != "failed":
        event.want = None
    return event


def failed(event: Event) -> Event:
    """A call that may have failed, and removed the item then."""
    event = perhaps(event)
    event.want, event.item = "failed", None
    return event


def in_session(event: Event, session: int, is_late: bool) -> Event:
    """A call of a session that does not wait for those of earlier ones of its connection; one that is late ends
    whenever it likes."""
    event = copy.copy(event)
    event.connection += session << 16
    if is_late:
        event.end = FOREVER
    return event


def firsts_of(recording: Recording) -> list[int]:
    """The first command of each session that was served."""
    met: set[tuple[int, int]] = set()
    found = []
    for connection, asked in enumerate(recording.of_connection):
        for one in asked:
            session = connection, recording.table.session[one]
            if session not in met:
                met.add(session)
                found += [one] * (not recording.table.state[one] & DROPPED)
    return found


def is_entering(recording: Recording, one: int) -> bool:
    """Whether a command may be an authentication: a `set` of a user and a password."""
    table = recording.table
    if table.verb[one] != V_SET or not table.state[one] & ANSWERED or table.state[one] & DROPPED:
        return False
    return len(table.value(table.first_call[one]).split(b" ")) == 2


def leave_out_entering(recording: Recording) -> None:
    """Drops the authentications, if all sessions begin with one, of the same key, and nobody ever found its item."""
    table = recording.table
    firsts = firsts_of(recording)
    keys = {table.key[table.first_call[one]] for one in firsts if is_entering(recording, one)}
    if len(keys) != 1 or not all(is_entering(recording, one) for one in firsts):
        return
    [key], entering = keys, set(firsts)
    others = {table.command[call] for call, number in enumerate(table.key) if number == key} - entering
    others = {one for one in others if not table.state[one] & DROPPED}
    if not others or any(table.answer(one) not in (b"END\r\n", b"NOT_FOUND\r\n", b"EN\r\n") for one in others):
        return
    for one in firsts:
        table.state[one] |= DROPPED
    recording.entered += firsts
    recording.notes["authentications left out"] += len(firsts)
