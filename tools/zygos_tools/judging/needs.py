"""What the calls that are left need of a key, and which of them may make it.

A call needs an item (or that there is none), a unique, or a number to count from. Where a thing is needed and nothing
that is left can make it again in time, no other call may take its place yet.
"""
from __future__ import annotations

from bisect import bisect_left, bisect_right
from collections.abc import Iterable, Iterator, Mapping, Sequence
from itertools import accumulate

from zygos_tools.judging.events import (ADD, APPEND, CAS, DECR, DELETE, FLUSH, FOREVER, GET, INCR, PREPEND, REPLACE,
                                        SET, Event)
from zygos_tools.judging.states import ABSENT, ANYTHING, State, States

ITEM, UNIQUE, NUMBER = range(3)
STORING, JOINING, COUNTING = (SET, ADD, REPLACE, CAS), (APPEND, PREPEND), (INCR, DECR)

# a thing that is needed: its kind, its key, and the number of an item, a unique or a number
Thing = tuple[int, "bytes | None", int]
# the pieces that calls join, by the kind of the call and the piece, each with the places of the calls
Pieces = dict[tuple[int, bytes], list[int]]


class Needs:
    """Things by number: a thing is its kind, the key, and the number of an item, a unique or a number.

    `seers` and `makers` have the calls that need a thing, by their ends, and those that may make it, by their begins;
    `need` and `make` how many of them are left. `first` are the items of the keys at first.
    """

    def __init__(self, events: Sequence[Event], states: States, first: Mapping[bytes | None, int]):
        self.events, self.values, self.can_lose, self.first = events, states.values, states.loses, first
        self.numbers: dict[Thing, int] = {}
        self.things: list[Thing] = []
        has_uniques = states.rises or not states.loses  # otherwise two items may have one unique
        self.seers: list[list[int]] = []
        self.makers: list[list[int]] = []
        for place, event in enumerate(events):
            for thing in wanted(event, self.can_lose, has_uniques):
                self.want(place, thing)
        Makers(self).find()
        self.need, self.make = [len(some) for some in self.seers], [len(some) for some in self.makers]
        self.is_left = bytearray(b"\1") * len(events)
        for some in self.seers:
            some.sort(key=lambda place: events[place].end)
        for some in self.makers:
            some.sort(key=lambda place: events[place].begin)
        self.wants, self.makes = self.by_call(self.seers), self.by_call(self.makers)
        self.next_seer, self.next_maker = [0] * len(self.things), [0] * len(self.things)

    def want(self, place: int, thing: Thing) -> bool:
        """A call needs a thing. Gives whether the thing is new."""
        number = self.numbers.get(thing)
        if number is not None:
            self.seers[number].append(place)
            return False
        self.numbers[thing] = len(self.things)
        self.things.append(thing)
        self.seers.append([place])
        self.makers.append([])
        return True

    def by_call(self, table: list[list[int]]) -> list[tuple[tuple[int, int], ...]]:
        """What each call needs, or may make: things, each with the call's rank among the others."""
        found: list[tuple[tuple[int, int], ...]] = [()] * len(self.events)
        for number, places in enumerate(table):
            for rank, place in enumerate(places):
                found[place] += ((number, rank),)
        return found

    # ---- while calls are carried out

    def done(self, place: int) -> None:
        """A call is carried out."""
        self.is_left[place] = 0
        for number, _ in self.wants[place]:
            self.need[number] -= 1
        for number, _ in self.makes[place]:
            self.make[number] -= 1

    def undone(self, place: int) -> None:
        """A call is taken back."""
        self.is_left[place] = 1
        for number, rank in self.wants[place]:
            self.need[number] += 1
            self.next_seer[number] = min(rank, self.next_seer[number])
        for number, rank in self.makes[place]:
            self.make[number] += 1
            self.next_maker[number] = min(rank, self.next_maker[number])

    def first_missed(self) -> int | None:
        """The earliest end of the calls that need an item which cannot have been there; None where there is none:
        nobody makes it before they end, or each time it had surely gone again before they began."""
        sure = {key: Sure(self.events, key) for key in self.first}
        ends = [self.events[place].end for number, (kind, key, item) in enumerate(self.things)
                if kind == ITEM and self.first[key] != ANYTHING
                for place in self.missed(number, sure[key], self.first[key] == item)]
        return min(ends, default=None)

    def missed(self, number: int, sure: Sure, is_first: bool) -> Iterator[int]:
        """The calls that need an item which cannot have been there; `is_first` says whether it was there at first."""
        begins = [self.events[place].begin for place in self.makers[number]]
        until = list(accumulate((sure.until(self.events[place].end) for place in self.makers[number]), max))
        first = sure.until(-1) if is_first else -1
        for place in self.seers[number]:
            event = self.events[place]
            at = bisect_left(begins, event.end)
            if max(first, until[at - 1] if at else -1) < event.begin:
                yield place

    def are_lost(self, key: bytes | None, old: State, new: State) -> bool:
        """Whether a key's change from one state to another, by a call that is carried out, takes away what is needed.
        """
        item = old[0]
        if item != new[0]:
            if self.is_lost((ITEM, key, item)):
                return True
            if item > 0:
                number = self.values.numeric(item)
                if number is not None and self.values.numeric(new[0]) != number and self.is_lost((NUMBER, key, number)):
                    return True
        if old[1] and old[1] != new[1]:
            number = self.numbers.get((UNIQUE, key, old[1]))
            return number is not None and self.need[number] > 0
        return False

    def is_lost(self, thing: Thing) -> bool:
        """Whether a thing that goes away is needed before it can be made again."""
        number = self.numbers.get(thing)
        if number is None or not self.need[number]:
            return False
        if not self.make[number]:
            return True
        seer = self.next_of(self.seers[number], self.next_seer, number)
        maker = self.next_of(self.makers[number], self.next_maker, number)
        return self.events[maker].begin > self.events[seer].end

    def next_of(self, places: list[int], nexts: list[int], number: int) -> int:
        """The first call that is left of these."""
        at = nexts[number]
        while not self.is_left[places[at]]:
            at += 1
        nexts[number] = at
        return places[at]


def wanted(event: Event, can_lose: bool, has_uniques: bool = True) -> Iterator[Thing]:
    """What a call needs; without `has_uniques` no unique."""
    kind, want, key = event.kind, event.want, event.key
    if want in (None, "failed") or kind == FLUSH:
        return
    if kind == GET and want == "hit":
        if event.item is not None:
            yield ITEM, key, event.item
        if event.unique is not None and has_uniques:
            yield UNIQUE, key, event.unique
    elif want == "number":
        if kind == INCR:
            yield NUMBER, key, ((event.number or 0) - event.given) % (1 << 64)
        elif event.number:
            yield NUMBER, key, event.number + event.given
    elif kind == CAS and want == "stored":
        if has_uniques:
            yield UNIQUE, key, event.given
    elif not can_lose and (want in ("miss", "not found") or kind == ADD and want == "stored" or
                           want == "not stored" and kind in (REPLACE, APPEND, PREPEND)):
        yield ITEM, key, ABSENT


class Makers:
    """Finds which calls may make the things that are needed."""

    def __init__(self, needs: Needs):
        self.needs, self.events, self.values = needs, needs.events, needs.values
        self.numbers, self.makers = needs.numbers, needs.makers
        self.joins: dict[bytes | None, Pieces] = {}
        self.counts: dict[bytes | None, list[int]] = {}
        self.setters: dict[tuple[bytes | None, int], list[int]] = {}

    def find(self) -> None:
        """Finds them all."""
        keys = {event.key for event in self.events if event.key is not None}
        for place, event in enumerate(self.events):
            kind, key = event.kind, event.key
            if kind in STORING and event.want in ("stored", None):
                self.stored(place, event)
            elif kind == DELETE and event.want != "not found" or event.want == "failed":
                self.made((ITEM, key, ABSENT), place)
            elif kind == FLUSH:
                for one in keys:
                    self.made((ITEM, one, ABSENT), place)
            elif kind in JOINING and event.want in ("stored", None):
                self.joins.setdefault(key, {}).setdefault((kind, event.value or b""), []).append(place)
            elif kind in COUNTING and event.want in ("number", None):
                self.counts.setdefault(key, []).append(place)
        for key, places in self.counts.items():
            self.counted(key, places)
        for key, table in self.joins.items():
            self.joined(key, table)

    def made(self, thing: Thing, place: int) -> None:
        """A call may make a thing."""
        number = self.numbers.get(thing)
        if number is not None:
            self.makers[number].append(place)

    def stored(self, place: int, event: Event) -> None:
        """A call may store its item."""
        assert event.item is not None
        self.setters.setdefault((event.key, event.item), []).append(place)
        self.made((ITEM, event.key, event.item), place)
        number = self.values.numeric(event.item)
        if number is not None:
            self.made((NUMBER, event.key, number), place)

    def number_of(self, thing: Thing) -> int | None:
        """The number that a needed thing is, if it is one."""
        kind, _, value = thing
        return value if kind == NUMBER else self.values.numeric(value) if kind == ITEM and value > 0 else None

    def counted(self, key: bytes | None, places: list[int]) -> None:
        """What calls that count may make: with an answer the number in it, else what was seen near them."""
        by_number: dict[int, list[Thing]] = {}
        seers: list[tuple[int, int, Thing]] = []
        for thing, number in self.numbers.items():
            value = self.number_of(thing) if thing[1] == key else None
            if value is not None:
                by_number.setdefault(value, []).append(thing)
                some = [self.events[place] for place in self.needs.seers[number]]
                seers += [(event.begin, event.end, thing) for event in some]
        near = Near(seers, Sure(self.events, key))
        for place in places:
            event = self.events[place]
            for thing in by_number.get(event.number or 0, ()) if event.want == "number" else near.to(event):
                self.made(thing, place)

    def joined(self, key: bytes | None, table: Pieces) -> None:
        """What calls that join may make. If one call alone can make a value, what it joins to is needed too."""
        sizes = {len(value) for _, value in table}
        work = [thing for thing in self.numbers if thing[1] == key and thing[0] == ITEM and thing[2] > 0]
        digits = [place for (_, value), places in table.items() if value.isdigit() for place in places]
        for thing in [thing for thing in self.numbers if thing[1] == key and thing[0] == NUMBER]:
            for place in digits:
                self.made(thing, place)
        while work:
            thing = work.pop()
            flags, value = self.values.pairs[thing[2]]
            found = list(ends_of(value, sizes, table))
            for place, _ in found:
                self.made(thing, place)
            is_only = len(found) == 1 and len(self.makers[self.numbers[thing]]) == 1
            if is_only and self.needs.first[key] not in (thing[2], ANYTHING):
                place, rest = found[0]
                new: Thing = ITEM, key, self.values.number(flags, rest)
                is_new = self.needs.want(place, new)
                self.find_again(new, is_new)
                work += [new] * is_new

    def find_again(self, thing: Thing, is_new: bool) -> None:
        """Finds who stores or counts to a value that is needed now, or is needed by one more call."""
        for place in self.setters.get(thing[1:], ()) if is_new else ():
            self.made(thing, place)
        number = self.values.numeric(thing[2])
        for place in self.counts.get(thing[1], ()) if number is not None else ():
            if self.events[place].number is None or is_new and self.events[place].number == number:
                self.made(thing, place)


def ends_of(value: bytes, sizes: Iterable[int], table: Pieces) -> Iterator[tuple[int, bytes]]:
    """The calls that may have joined the last or the first piece of a value, each with the rest."""
    for size in sizes:
        if size <= len(value):
            rest, piece = value[: len(value) - size], value[len(value) - size :]
            for place in table.get((APPEND, piece), ()):
                yield place, rest
            for place in table.get((PREPEND, value[:size]), ()):
                yield place, value[size:]


class Sure:
    """The calls that surely changed a key, by their begins."""

    def __init__(self, events: Sequence[Event], key: bytes | None):
        sure = sorted((event.begin, event.end) for event in events if is_sure(event) and event.key in (key, None))
        self.begins = [begin for begin, _ in sure]
        self.ends = list(accumulate((end for _, end in reversed(sure)), min))
        self.ends.reverse()

    def until(self, time: int) -> int:
        """When what was there at a time had surely gone: the earliest end of the calls that began after it."""
        at = bisect_right(self.begins, time)
        end: int = self.ends[at] if at < len(self.ends) else FOREVER
        return end


def is_sure(event: Event) -> bool:
    """Whether a call surely changed its key."""
    is_change = event.kind in (SET, FLUSH) or event.kind != GET and event.want in ("stored", "number", "deleted")
    return is_change and event.want != "failed" and not event.optional and event.end < FOREVER


class Near:
    """Which things that are needed a call without an answer may have made: those that are needed before the next call
    ends that surely changed the key afterwards. `seers` are begins and ends of calls, each with the thing that it
    needs."""

    def __init__(self, seers: list[tuple[int, int, Thing]], sure: Sure):
        self.seers, self.sure = sorted(seers, key=lambda one: one[0]), sure
        self.begins = [one[0] for one in self.seers]
        self.longest = max([end - begin for begin, end, _ in seers if end < FOREVER], default=0)

    def to(self, event: Event) -> set[Thing]:
        """The things that a call may have made."""
        until = self.sure.until(event.end)
        found: set[Thing] = set()
        for place in range(bisect_left(self.begins, event.begin - self.longest), len(self.seers)):
            begin, end, thing = self.seers[place]
            if begin > until:
                break
            if end > event.begin:
                found.add(thing)
        return found
