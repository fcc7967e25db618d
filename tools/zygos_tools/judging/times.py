"""When each command of a recording can have been carried out.

A command begins with the segment that completes it. With the ends of answers (segments without bytes, as `record
--ends` writes them) it ends when its answer was whole. Without them it is taken to have ended before its connection's
next segment began: each client is taken to wait for its answers. Commands of a connection are carried out in order, so
one without an answer ends before the next one that has an answer.
"""
from __future__ import annotations

from array import array
from collections.abc import Iterator

from zygos_tools.judging.events import FOREVER
from zygos_tools.judging.reading import Recording, sessions_of
from zygos_tools.judging.table import ANSWERED

ENDS, SEGMENTS, NONE = "ends", "segments", "none"


def set_times(recording: Recording, kind: str | None = None) -> str:
    """Sets the times of all commands. Gives what they are known from."""
    kind = kind or (ENDS if recording.marks else SEGMENTS)
    table = recording.table
    table.end = array("q", [FOREVER]) * len(table.verb)
    for session, asked in sessions_of(recording):
        if kind == ENDS:
            set_ends(recording, asked, recording.marks.get(session, array("q")))
        else:
            set_starts(recording, asked, recording.starts.get(session, array("q")))
        if session[1] < recording.sessions[session[0]]:
            recording.tails.update(tail_of(recording, asked))
    for asked in recording.of_connection:
        close(recording, asked)
    if kind == NONE:
        table.hint = array("q", table.begin)
        table.begin = array("q", bytes(8 * len(table.verb)))
        table.end = array("q", [FOREVER]) * len(table.verb)
    return kind


def set_ends(recording: Recording, asked: array[int], marks: array[int]) -> None:
    """The end of an answer is that of its command; the last answers may have none, where a recording was cut off."""
    ends, states, at = recording.table.end, recording.table.state, 0
    for one in asked:
        if states[one] & ANSWERED:
            if at == len(marks):
                return
            ends[one] = marks[at]
            at += 1


def set_starts(recording: Recording, asked: array[int], starts: array[int]) -> None:
    """What the client sends next is the end of a command."""
    begins, ends = recording.table.begin, recording.table.end
    at, last = len(starts) - 1, FOREVER
    for one in reversed(asked):
        while at >= 0 and starts[at] > begins[one]:
            last = starts[at]
            at -= 1
        ends[one] = last


def tail_of(recording: Recording, asked: array[int]) -> Iterator[int]:
    """The last commands of a session, as far as they have neither an answer nor an end."""
    table = recording.table
    for one in reversed(asked):
        if table.end[one] < FOREVER or table.state[one] & ANSWERED:
            break
        yield one


def close(recording: Recording, asked: array[int]) -> None:
    """No command of a connection ends after the next one."""
    begins, ends, hints, last = recording.table.begin, recording.table.end, recording.table.hint, FOREVER
    for one in reversed(asked):
        if ends[one] < last:
            last = ends[one]
        else:
            ends[one] = last
        hints[one] = last if last < FOREVER else begins[one]
