"""Which flushes count for a key: of those between which nothing is done to it, one does what all do."""
from __future__ import annotations

from array import array
from bisect import bisect_left, bisect_right
from collections.abc import Iterable
from itertools import accumulate

from zygos_tools.judging.table import DROPPED, V_FLUSH, Table


class Flushes:
    """The flushes of a recording, by their begins; they are kept once and not for each key."""

    def __init__(self, table: Table):
        self.table = table
        self.all = array("I", [one for one, verb in enumerate(table.verb) if verb == V_FLUSH
                               and not table.state[one] & DROPPED])
        self.begins = [table.begin[one] for one in self.all]
        self.latest = list(accumulate((table.end[one] for one in self.all), max))

    def of(self, shard: int, calls: Iterable[int]) -> list[int]:
        """The calls of flushes on a shard that count for these calls: those that overlap one of them, and of those
        between two times at which something is done to the key the last."""
        found: list[int] = []
        last_end = -1
        for begin, end in busy(self.table, calls):
            found += self.near(begin, end, last_end)
            last_end = end
        return [self.table.first_call[one] + shard for one in dict.fromkeys(found)]

    def near(self, begin: int, end: int, before: int) -> list[int]:
        """The flushes that overlap a time, after the last one that began after an earlier time and ended before it."""
        low, high = bisect_left(self.latest, begin), bisect_right(self.begins, end)
        gap, found = -1, []
        if low and self.begins[low - 1] > before:
            gap = low - 1
        for at in range(low, high):
            if self.table.end[self.all[at]] >= begin:
                found.append(self.all[at])
            elif self.begins[at] > before:
                gap = at
        return [self.all[gap], *found] if gap >= 0 else found


def busy(table: Table, calls: Iterable[int]) -> list[tuple[int, int]]:
    """The times at which some of these calls may be carried out, from the begin of the first to the end of the last."""
    found: list[tuple[int, int]] = []
    commands, begins, ends = table.command, table.begin, table.end
    low = high = -1
    for call in calls:
        command = commands[call]
        if begins[command] > high:
            if low >= 0:
                found.append((low, high))
            low, high = begins[command], ends[command]
        elif ends[command] > high:
            high = ends[command]
    if low >= 0:
        found.append((low, high))
    return found
