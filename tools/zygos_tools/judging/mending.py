"""Mends the orders of the keys in circles, so that all calls have one order."""
from __future__ import annotations

from collections.abc import Callable, Iterable, Iterator, Sequence

from zygos_tools.judging.events import ADD, APPEND, CAS, DECR, FOREVER, INCR, PREPEND, REPLACE, Event, brief
from zygos_tools.judging.fitting import Contradiction, Fitting, Piece, fit
from zygos_tools.judging.keys import Keys
from zygos_tools.judging.nearby import Nearby
from zygos_tools.judging.needs import Needs
from zygos_tools.judging.orders import CHANGED, Placed, Stretch
from zygos_tools.judging.search import GaveUp, Search, Stuck
from zygos_tools.judging.table import WANT_BITS, Table

# with how much effort circles that overlap in time are mended together, if they are few, and keys are searched together
SOME, MOST_JOINED, MUCH = 2, 50, 8
# how many turns there are; how many choices may be wrong, and how many states are looked at
MOST_TURNS, MOST_CHOICES, MOST_STATES = 60, 300, 20000
# how many calls are fitted at a time, with little effort and with more
FEW_CALLS, MANY_CALLS = 300, 3000
# how many calls keys have at most that are searched together
MOST_TOGETHER = 2000
# how many keys are named
MOST_NAMED = 5
# how many more calls of a key that does not fit are fitted, on both sides, in one try after the other
MORE_CALLS = (8, 32, 128, 0)
# the kinds of calls whose makers may be chosen anew, by searching their keys again, in further tries
SOFT = ((INCR, DECR), (INCR, DECR, APPEND, PREPEND))

# some keys, and calls by their numbers
Window = tuple[list[bytes], dict[int, Event]]
# a piece of a key's order: with states, where it is, and the runs of those of its calls that are fitted
Fitted = tuple[Stretch, int, int, list[list[int]]]
# the kinds of calls that may change something and may have done nothing
PERHAPS = (CAS, ADD, REPLACE, APPEND, PREPEND)


class Mending:
    """Mends circles of a graph; `numbers` has the stores that must keep the order of their uniques."""

    def __init__(self, table: Table, keys: Keys, look: Callable[[], None] | None = None):
        self.table, self.keys, self.orders, self.look = table, keys, keys.orders, look
        self.nearby = Nearby(table, keys.range_of)
        self.numbers: Sequence[int] = ()
        self.together: list[set[bytes]] = []
        self.softness: dict[tuple[bytes, tuple[int, ...]], bool] = {}
        self.effort, self.least, self.high, self.turns = 0, FOREVER, -1, 0

    def turn(self, circles: list[list[int]], high: int, numbers: Sequence[int] = ()) -> None:
        """Mends these circles, those of long times only if no other was mended; all are before the call `high`. If
        the circles don't become fewer, more is tried in the next turn, and at last their keys are searched together.
        """
        self.begin_turn(sum(map(len, circles)), high)
        self.numbers = numbers
        joined = self.joined(circles)
        for is_long in (False, True):
            if sum([self.mend(calls, is_long) for calls in joined]):
                return
        if self.effort >= MUCH:
            self.search_together(circles)

    def begin_turn(self, size: int, high: int) -> None:
        """Sets how much is tried; behind where circles were mended so far, not much at first."""
        if high != self.high:
            self.high, self.turns, self.effort, self.least = high, 0, 0, FOREVER
        self.turns += 1
        self.effort = max(0, self.effort - 1) if size < self.least else self.effort + 1
        self.least = min(size, self.least)

    def joined(self, circles: list[list[int]]) -> list[list[Event]]:
        """The calls in circles; where some have been tried already, those of circles whose times overlap together."""
        count = len(self.table.kind)
        found = [self.table.events([node for node in circle if node < count]) for circle in circles]
        if self.effort < SOME or len(circles) > MOST_JOINED:
            return found
        found.sort(key=lambda calls: min(event.begin for event in calls))
        joined: list[list[Event]] = []
        end = -1
        for calls in found:
            if joined and min(event.begin for event in calls) <= end:
                joined[-1] += calls
            else:
                joined.append(calls)
            end = max(end, max(event.end for event in calls))
        return joined

    def windows(self, calls: list[Event], is_long: bool) -> Iterator[Window]:
        """The keys of calls in circles, and all calls on these keys that overlap them, by their numbers; where that
        was tried, before that the same of all keys, for an ever longer time. Of a long time, the calls near to
        those in circles."""
        begin, end = min(event.begin for event in calls), max(event.end for event in calls)
        own = {event.key for event in calls if event.key is not None and event.key in self.keys.found}
        if is_long:
            for count in (8 << self.effort, 2 << self.effort):
                yield self.window(calls, {key: self.near(key, calls, count) for key in own})
            return
        if self.effort >= SOME:
            more = (self.effort - SOME) * (end - begin) // 2
            names = self.nearby.keys_at(begin - more, end + more) if end < FOREVER else self.keys.found
            keys = own.union(names) & self.keys.found.keys()
            yield self.window(calls, self.nearby.overlapping(keys, begin - more, end + more))
        yield self.window(calls, self.nearby.overlapping(own, begin, end))

    def near(self, key: bytes, calls: list[Event], count: int) -> list[int]:
        """The calls on a key that begin, or come in its order, shortly before or after these."""
        found: dict[int, None] = {}
        order = self.keys.found[key].calls
        for event in [event for event in calls if event.key == key]:
            at = self.orders.place(key, event.id)
            found.update(dict.fromkeys(self.nearby.around(key, [event], count)))
            found.update(dict.fromkeys(order[max(0, at - count) : at + count] if at is not None else ()))
        return list(found)

    def window(self, calls: list[Event], numbers: dict[bytes, list[int]]) -> Window:
        """Some keys, and these calls and others on the keys, by their numbers."""
        found = sorted(key for key, some in numbers.items() if some)
        window: dict[int, Event] = {event.id: event for event in calls}
        more = {number: None for key in found for number in numbers[key] if number not in window}
        if len(window) + len(more) <= self.most():
            window.update((event.id, event) for event in self.table.events(more))
            return found, window
        return [], {}

    def most(self) -> int:
        """How many calls are fitted at a time."""
        return MANY_CALLS if self.effort >= SOME else FEW_CALLS

    def mend(self, calls: list[Event], is_long: bool) -> bool:
        """Fits the orders of the keys in a circle to each other. Gives whether that was done. Where items may be lost,
        one key after the other is searched again, as its order may have fewer losses than there were."""
        own = {event.key for event in calls}
        for names, window in self.windows(calls, is_long):
            tries = [[key for key in names if self.is_soft(key, kinds)] for kinds in SOFT]
            tries += [[key] for key in names if key in own and self.orders.loses]
            if names and self.fit_wider(names, window, []):
                return True
            if any(soft and self.fit_wider(names, window, soft) for soft in tries):
                return True
        return False

    def fit_wider(self, names: list[bytes], window: dict[int, Event], soft: list[bytes]) -> bool:
        """Fits the orders of keys, the soft ones last. Where a soft one does not fit, more of its calls are fitted,
        and it comes before the other soft ones."""
        window = dict(window)
        for count in MORE_CALLS:
            try:
                self.fit(names, window, soft)
                return True
            except Contradiction as fault:
                key = fault.key
            if key is None or len(window) > MANY_CALLS:
                return False
            soft = [key, *[other for other in soft if other != key]]
            some = [event for event in window.values() if event.key == key]
            more = [number for number in self.nearby.around(key, some, count) if number not in window]
            window.update((event.id, event) for event in self.table.events(more))
        return False

    def fit(self, names: list[bytes], window: dict[int, Event], soft: list[bytes]) -> None:
        """Fits the orders of keys, the soft ones last and one by one, which are searched again."""
        fitting = Fitting(window.values())
        pieces: dict[bytes, Fitted] = {}
        for key in names:
            if key not in soft:
                pieces[key] = self.piece(key, window, fitting)
        numbered = [fitting.place[number] for number in self.numbers if number in window]
        for one, other in zip(numbered, numbered[1:]):
            fitting.add(one, other)
        fitting = fit(fitting, MOST_CHOICES, self.look)
        for key in soft:
            try:
                self.search_within(key, window, fitting)
                pieces[key] = self.piece(key, window, fitting)
                fitting = fit(fitting, MOST_CHOICES, self.look)
            except Contradiction:
                raise Contradiction(key) from None
        for key, piece in pieces.items():
            self.put(key, fitting, piece)

    def is_soft(self, key: bytes, kinds: tuple[int, ...]) -> bool:
        """Whether another one may have made what a call on this key saw: if there are such kinds of calls, or calls
        that may change something without an answer."""
        found = self.softness.get((key, kinds))
        if found is None:
            table = self.table
            found = self.softness[key, kinds] = any(
                table.kind[call] in kinds or not table.want[call] & WANT_BITS and table.kind[call] in PERHAPS
                for call in self.keys.numbers(key))
        return found

    # ---- pieces of a key's order

    def bounds(self, key: bytes, window: dict[int, Event]) -> tuple[int, int]:
        """Where the piece of a key's order is that has the calls of a window, and what saw the last of them."""
        marks = self.keys.found[key].marks
        ours = [at for number, event in window.items() if event.key in (key, None)
                and (at := self.orders.place(key, number)) is not None]
        if not ours:
            raise Contradiction
        first, last = min(ours), max(ours) + 1
        while last < len(marks):  # and those behind them that saw the last change, and the next one
            last += 1
            if marks[last - 1] & CHANGED:
                break
        return first, last

    def piece(self, key: bytes, window: dict[int, Event], fitting: Fitting) -> Fitted:
        """Puts a piece of a key's order into a fitting. Gives where it is, and its runs."""
        first, last = self.bounds(key, window)
        stretch = self.orders.stretch(key, first, last)
        is_there = stretch.state(first)[0] != 0
        return stretch, first, last, Piece(fitting, stretch.between(first, last), is_there).runs

    def put(self, key: bytes, fitting: Fitting, piece: Fitted) -> None:
        """Puts the calls of a key that were fitted in their new order."""
        stretch, first, last, runs = piece
        placed = stretch.between(first, last)
        by_number = {one.event.id: one for one in placed}
        fresh = iter([fitting.events[at].id for run in runs for at in fitting.sorted(run)])
        new = [by_number[next(fresh)] if one.event.id in fitting.place else one for one in placed]
        if any(one is not other for one, other in zip(new, placed)):
            self.orders.exchange(key, stretch, first, last, new)

    def search_within(self, key: bytes, window: dict[int, Event], fitting: Fitting) -> None:
        """Looks for another order of a piece of a key, within the bounds of a fitting; what is not in its window
        stays."""
        first, last = self.bounds(key, window)
        stretch = self.orders.stretch(key, first, last)
        placed = stretch.between(first, last)
        events = sorted([one.event for one in placed], key=lambda event: (event.begin, event.id))
        places = {event.id: at for at, event in enumerate(events)}
        comes_after: dict[int, list[int]] = {}
        last_out: int | None = None
        run: list[int] = []
        for one in placed:
            at = places[one.event.id]
            before = [] if last_out is None else [last_out]
            if one.event.id in window:
                run.append(at)
            else:
                before, last_out, run = before + run, at, []
            comes_after[at] = before
        ours = [fitting.place[event.id] for event in events if event.id in window]
        for at in ours:
            comes_after[places[fitting.events[at].id]] += [places[fitting.events[one].id] for one in ours
                                                     if fitting.before[at] >> one & 1]
        state, states = stretch.state(first), stretch.states
        try:
            order = Search(events, state, states.step, MOST_STATES, Needs(events, states, {key: state[0]}), None,
                           comes_after, self.look).run()
        except (Stuck, GaveUp):
            raise Contradiction from None
        new = [Placed(events[one.place], one.is_change, one.was_lost, state) for one in order]
        self.orders.exchange(key, stretch, first, last, new)

    def search_together(self, circles: list[list[int]]) -> None:
        """Searches the keys of circles together, where they cannot be fitted and have few calls."""
        for circle in circles:
            names = set(names_of(circle, self.table))
            for group in [group for group in self.together if group & names]:
                self.together.remove(group)
                names |= group
            self.together.append(names)
        for names in self.together:
            if sum(len(self.keys.numbers(key)) for key in names) <= MOST_TOGETHER:
                self.keys.search(sorted(names))


def names_of(circle: Iterable[int], table: Table) -> list[bytes]:
    """The keys of calls, sorted."""
    return sorted({table.keys[table.key[node]] for node in circle if node < len(table.key) and table.key[node] >= 0})


def keys_in(circles: Iterable[Iterable[int]], table: Table) -> str:
    """The keys of circles, to be printed."""
    names = names_of([node for circle in circles for node in circle], table)
    more = f" and {len(names) - MOST_NAMED} more" if len(names) > MOST_NAMED else ""
    return ("keys " if len(names) > 1 else "key ") + ", ".join(map(brief, names[:MOST_NAMED])) + more
