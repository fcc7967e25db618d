"""Which calls on a key may have been carried out at a time, or shortly before or after others.

Commands are numbered in the order in which they were sent, and those of a connection end in that order. So the calls
that begin within a time are a range, and the commands that had begun before it are found once for each connection.
"""
from __future__ import annotations

from array import array
from bisect import bisect_left, bisect_right
from collections.abc import Callable, Iterable, Iterator, Sequence

from zygos_tools.judging.events import Event
from zygos_tools.judging.table import DROPPED, Table


def first_from(commands: Sequence[int], times: Sequence[int], time: int) -> int:
    """The place of the first of these commands whose time is this one or later. Their times rise."""
    low, high = 0, len(commands)
    while low < high:
        middle = (low + high) // 2
        if times[commands[middle]] < time:
            low = middle + 1
        else:
            high = middle
    return low


class Nearby:
    """The calls of a table by their times; `calls_on` gives those on a key by their begins, as a range of an array."""

    def __init__(self, table: Table, calls_on: Callable[[bytes], tuple[Sequence[int], int, int]]):
        self.table, self.calls_on = table, calls_on
        self.of_connection: list[array[int]] = []
        for command, connection in enumerate(table.connection):
            while connection >= len(self.of_connection):
                self.of_connection.append(array("I"))
            self.of_connection[connection].append(command)

    def first_from(self, time: int) -> int:
        """The first call that begins at a time or later."""
        return self.table.first_call[bisect_left(self.table.begin, time)]

    def first_after(self, time: int) -> int:
        """The first call that begins after a time."""
        return self.table.first_call[bisect_right(self.table.begin, time)]

    def in_flight(self, time: int) -> Iterator[int]:
        """The commands that had begun before a time, and had not ended before it."""
        begins, ends, states = self.table.begin, self.table.end, self.table.state
        for asked in self.of_connection:
            for at in range(first_from(asked, ends, time), len(asked)):
                command = asked[at]
                if begins[command] >= time:
                    break
                if not states[command] & DROPPED:
                    yield command

    def overlapping(self, keys: Iterable[bytes], begin: int, end: int) -> dict[bytes, list[int]]:
        """The calls on each of these keys that overlap a time, by their begins."""
        table, first, stop = self.table, self.first_from(begin), self.first_after(end)
        earlier = sorted(call for command in self.in_flight(begin) for call in table.calls_of(command))
        found: dict[bytes, list[int]] = {}
        for key in keys:
            calls, low, high = self.calls_on(key)
            at = bisect_left(calls, first, low, high)
            some = [call for call in earlier if is_among(call, calls, low, at)] if at > low else []
            found[key] = [*some, *calls[at : bisect_left(calls, stop, at, high)]]
        return found

    def keys_at(self, begin: int, end: int) -> list[bytes]:
        """The keys with calls that overlap a time."""
        table = self.table
        commands = [*self.in_flight(begin), *range(bisect_left(table.begin, begin), bisect_right(table.begin, end))]
        numbers = {table.key[call] for one in commands for call in table.calls_of(one)
                   if table.key[call] >= 0 and not table.state[one] & DROPPED}
        return sorted(table.keys[number] for number in numbers)

    def around(self, key: bytes, some: Sequence[Event], count: int) -> list[int]:
        """These calls on a key, those between them by their begins, and `count` more on both sides."""
        calls, low, high = self.calls_on(key)
        begins = [event.begin for event in some]
        first = bisect_left(calls, self.first_from(min(begins)), low, high)
        last = bisect_left(calls, self.first_after(max(begins)), first, high)
        return list(calls[max(low, first - count) : min(high, last + count)])


def is_among(call: int, calls: Sequence[int], low: int, high: int) -> bool:
    """Whether a call is in a sorted range."""
    at = bisect_left(calls, call, low, high)
    return at < high and calls[at] == call
