"""Fits the orders of several keys to each other, where they make a circle with the orders of connections and of time.

The search of each key says who saw whose work. That is kept, and all else of its order is given up: what is left is a
choice for each call, the one whose work it saw, and each third call that would have changed what it saw: the third
comes before the one or after the other. A choice is made as the calls ended, what follows is worked out over all keys,
and where that contradicts itself the other choice is made. What follows is this: a third that comes after the maker
comes after the one who saw it, and one that comes before that one comes before the maker. The order is kept closed, as
sets of bits, so a contradiction is seen at once.
"""
from __future__ import annotations

from bisect import bisect_left, bisect_right
from collections.abc import Callable, Iterable, Iterator
from typing import TYPE_CHECKING, NamedTuple

from zygos_tools.judging.events import ADD, CAS, DELETE, FLUSH, REPLACE, SET, Event

if TYPE_CHECKING:
    from zygos_tools.judging.orders import Placed


class Contradiction(Exception):
    """There is no such order; `key` is the key that did not fit, if it is known."""

    def __init__(self, key: bytes | None = None):
        super().__init__(key)
        self.key = key


# what a call needs of its key: nothing, the item that it saw, any item, or none
NOTHING, ITEM, SOME, NONE = range(4)


class Sight(NamedTuple):
    """That `seer` saw what `maker` made, both places: no call of `others`, a set of places, is between the two."""

    maker: int
    seer: int
    others: int


class Loose(NamedTuple):
    """That a call needs some item, or none: who made it for it so far, who may make it, who takes it away, the calls of
    the stretch of its key's order that it is in, and whether what was there before the stretch will do too."""

    maker: int | None
    makers: int
    others: int
    stretch: int
    can_be_before: bool



def need_of(event: Event, is_there: bool) -> int:
    """What a call needs to answer and to work as it did; `is_there` says whether it found an item."""
    if event.kind in (SET, FLUSH) or event.want == "failed":
        return NOTHING
    if not is_there:
        return NONE
    is_any = event.kind in (DELETE, REPLACE, ADD) or event.kind == CAS and event.want == "exists"
    return SOME if is_any else ITEM


def places(bits: int) -> Iterator[int]:
    """The places of bits."""
    while bits:
        low = bits & -bits
        yield low.bit_length() - 1
        bits ^= low


class Fitting:
    """The order of some calls, closed: `after` and `before` have for each the set of those after it and before it."""

    def __init__(self, events: Iterable[Event]):
        self.events = sorted(events, key=lambda event: (event.begin, event.id))
        self.place = {event.id: at for at, event in enumerate(self.events)}
        self.hints = [event.hint for event in self.events]
        self.sights: list[Sight] = []
        self.loose: dict[int, Loose] = {}
        self.close()

    def close(self) -> None:
        """The order of connections and of times."""
        events, size = self.events, len(self.events)
        self.after, self.before = [0] * size, [0] * size
        begins, every = [event.begin for event in events], (1 << size) - 1
        last: dict[int, int] = {}
        for at in range(size - 1, -1, -1):
            event = events[at]
            first = bisect_right(begins, event.end)
            self.after[at] = every >> first << first
            if event.connection in last:
                following = last[event.connection]
                self.after[at] |= self.after[following] | 1 << following
            last[event.connection] = at
        by_end = sorted(range(size), key=lambda at: events[at].end)
        ends, ended, last = [events[at].end for at in by_end], [0], {}
        for at in by_end:
            ended.append(ended[-1] | 1 << at)
        for at, event in enumerate(events):
            self.before[at] = ended[bisect_left(ends, event.begin)]
            if event.connection in last:
                previous = last[event.connection]
                self.before[at] |= self.before[previous] | 1 << previous
            last[event.connection] = at

    def copy(self) -> Fitting:
        """The same order, to be added to."""
        other = object.__new__(Fitting)
        other.__dict__.update(self.__dict__)
        other.after, other.before = list(self.after), list(self.before)
        other.sights, other.loose = list(self.sights), dict(self.loose)
        return other

    def add(self, one: int, other: int) -> bool:
        """One comes before the other. Gives whether that is new."""
        after, before = self.after, self.before
        if one == other or after[other] >> one & 1:
            raise Contradiction
        if after[one] >> other & 1:
            return False
        behind, ahead = after[other] | 1 << other, before[one] | 1 << one
        new_behind, new_ahead = behind & ~after[one], ahead & ~before[other]
        for at in places(new_ahead):
            after[at] |= behind
        for at in places(new_behind):
            before[at] |= ahead
        return True

    def sorted(self, some: Iterable[int]) -> list[int]:
        """These calls in an order that fits."""
        return sorted(some, key=lambda at: (bin(self.before[at]).count("1"), self.hints[at]))

    # ---- what follows

    def settle(self) -> None:
        """All that follows."""
        is_new = True
        while is_new:
            is_new = False
            after, before = self.after, self.before
            for maker, seer, others in self.sights:
                if late := after[maker] & others & ~after[seer]:
                    for third in places(late):
                        is_new |= self.add(seer, third)
                if early := before[seer] & others & ~before[maker]:
                    for third in places(early):
                        is_new |= self.add(third, maker)
            for at in list(self.loose):
                is_new |= self.settle_loose(at)

    def settle_loose(self, at: int) -> bool:
        """What follows for a call that needs some item, or none. Gives whether anything is new."""
        _, makers, others, stretch, can_be_before = self.loose[at]
        after, before, itself = self.after, self.before, 1 << at
        bad, can = before[at] & others, makers & ~after[at] & ~itself
        for one in places(bad):
            can &= ~before[one]
        for one in places(can & before[at]):  # one that comes before it, and nothing that could come between
            if not others & ~before[one] & ~after[at] & ~(1 << one) & ~itself:
                del self.loose[at]
                return False
        is_before = can_be_before and not bad & stretch
        if not can and not is_before:
            raise Contradiction
        if is_before and not others & stretch & ~after[at] & ~itself and not bad:
            del self.loose[at]
            return False
        if can and (is_before or can & (can - 1)):
            return False
        del self.loose[at]
        self.see(can.bit_length() - 1 if can else None, at, others, stretch)
        return True

    def see(self, maker: int | None, at: int, others: int, stretch: int) -> None:
        """A call saw what another one made or, where `maker` is None, what was there before its stretch."""
        others &= ~(1 << at)
        if maker is None:
            for third in places(others & stretch):
                self.add(at, third)
            return
        self.add(maker, at)
        others &= ~(1 << maker)
        if others:
            self.sights.append(Sight(maker, at, others))

    # ---- choices

    def choices(self) -> list[Choice] | None:
        """The choices of which one is made next, that to be tried first as the last; None where nothing is left to
        choose. What ended first is chosen first. A choice is a function that carries it out on a fitting."""
        best: tuple[int, int, int, int] | None = None
        for maker, seer, others in self.sights:
            rest = others & ~self.before[maker] & ~self.after[seer]
            for third in places(rest):
                weight = max(self.hints[maker], self.hints[third])
                if best is None or weight < best[0]:
                    best = weight, maker, seer, third
        at = min(self.loose, key=lambda at: self.hints[at], default=-1)
        if at >= 0 and (best is None or self.hints[at] < best[0]):
            return [self.choose_maker(at, one) for one in reversed(self.makers_of(at))]
        if best is None:
            return None
        _, maker, seer, third = best
        pairs = [(third, maker), (seer, third)]
        if self.hints[third] < self.hints[maker]:
            pairs.reverse()
        return [choose_pair(*pair) for pair in pairs]

    def choose_maker(self, at: int, maker: int | None) -> Choice:
        """The choice of who made what a call needs."""
        _, _, others, stretch, _ = self.loose[at]

        def carry_out(fitting: Fitting) -> None:
            del fitting.loose[at]
            fitting.see(maker, at, others, stretch)

        return carry_out

    def makers_of(self, at: int) -> list[int | None]:
        """Who may have made what a call needs, the likeliest first; None for what was there before."""
        maker, makers, others, _, can_be_before = self.loose[at]
        can, mine = makers & ~self.after[at] & ~(1 << at), self.hints[at]
        for one in places(self.before[at] & others):
            can &= ~self.before[one]
        likely = [one for one in places(can) if one != maker]
        likely.sort(key=lambda one: (self.hints[one] > mine, abs(self.hints[one] - mine)))
        found: list[int | None] = [*likely]
        if maker is not None and can >> maker & 1:
            found.insert(0, maker)
        if can_be_before:
            found.insert(0 if maker is None else len(found), None)
        return found


Choice = Callable[[Fitting], None]


def choose_pair(one: int, other: int) -> Choice:
    """The choice that one call comes before another one."""

    def carry_out(fitting: Fitting) -> None:
        fitting.add(one, other)

    return carry_out


def fit(fitting: Fitting, limit: int, look: Callable[[], None] | None = None) -> Fitting:
    """The order with all choices made, of which up to `limit` may be wrong."""
    fitting.settle()
    stack: list[tuple[Fitting, list[Choice]]] = []
    wrong, choices = 0, fitting.choices()
    while choices is not None:
        if look:
            look()
        if not choices:
            if not stack:
                raise Contradiction
            fitting, choices = stack.pop()
            continue
        choice, tried = choices.pop(), fitting.copy()
        try:
            choice(tried)
            tried.settle()
        except Contradiction:
            wrong += 1
            if wrong > limit:
                raise
            continue
        stack.append((fitting, choices))
        fitting, choices = tried, tried.choices()
    return fitting


# ---- the orders of keys


class Piece:
    """A piece of a key's order, put into a fitting: calls that are fitted, in runs between others that keep their
    places.

    Calls between two others that changed the key are a stretch: what is seen in it was made in it, or was there
    before. `runs` has the places of the calls of each run.
    """

    def __init__(self, fitting: Fitting, placed: Iterable[Placed], is_there: bool):
        self.fitting, self.is_there = fitting, is_there
        self.runs: list[list[int]] = []
        self.maker: int | None = None
        self.changes = self.removers = self.storers = 0
        self.shown: dict[int, int] = {}
        self.seen: list[tuple[int | None, int | None, int, Event, int]] = []
        self.stretches, self.was_there = [0], [is_there]
        self.stretch_of: dict[int, int] = {}
        is_open = False
        for event, is_change, was_lost, _ in placed:
            is_open = self.take(event, is_change, was_lost, is_open)
        self.put_runs()
        for maker, at, need, event, so_far in self.seen:
            self.put(maker, at, need, event, so_far)

    def take(self, event: Event, is_change: bool, was_lost: bool, is_open: bool) -> bool:
        """The next call of the piece. Gives whether it is in a run."""
        at = self.fitting.place.get(event.id)
        if at is not None:
            if not is_open:
                self.runs.append([])
            self.runs[-1].append(at)
            self.stretch_of[at] = len(self.stretches) - 1
            self.stretches[-1] |= 1 << at
        need = SOME if was_lost and event.kind != SET and self.is_there else need_of(event, self.is_there and not was_lost)
        self.seen.append((self.maker, at, need, event, self.stretches[-1]))
        if event.unique is not None and self.maker is not None:
            self.shown[event.unique] = self.maker
        if is_change or was_lost:
            self.change(at, is_change and event.kind not in (DELETE, FLUSH) and event.want != "failed")
        return at is not None

    def change(self, at: int | None, is_there: bool) -> None:
        """A call changed the key."""
        self.maker, self.is_there = at, is_there
        if at is None:
            self.stretches.append(0)
            self.was_there.append(is_there)
            return
        self.changes |= 1 << at
        if is_there:
            self.storers |= 1 << at
        else:
            self.removers |= 1 << at

    def put_runs(self) -> None:
        """The order of the runs, and that of the uniques, if they rise."""
        for one, other in zip(self.runs, self.runs[1:]):
            for at in one:
                for to in other:
                    self.fitting.add(at, to)
        uniques = list(self.shown)
        rising = [self.shown[unique] for unique in uniques] if uniques == sorted(uniques) else []
        for earlier, later in zip(rising, rising[1:]):
            self.fitting.add(earlier, later)

    def put(self, maker: int | None, at: int | None, need: int, event: Event, so_far: int) -> None:
        """What a call needs of whom."""
        if need == NOTHING or at is None and maker is None:
            return
        others = {ITEM: self.changes, SOME: self.removers, NONE: self.storers}[need]
        if at is None:  # behind a stretch: what it saw is the last of it
            assert maker is not None
            for third in places(others & so_far & ~(1 << maker)):
                self.fitting.add(third, maker)
            return
        stretch = self.stretch_of[at]
        if need == ITEM:
            self.fitting.see(maker, at, others, self.stretches[stretch])
            return
        not_this = 1 << self.shown[event.given] if event.kind == CAS and event.given in self.shown else 0
        makers = (self.storers if need == SOME else self.removers) & ~not_this & self.stretches[stretch]
        self.fitting.loose[at] = Loose(maker, makers, others | not_this, self.stretches[stretch],
                                       self.was_there[stretch] == (need == SOME))
