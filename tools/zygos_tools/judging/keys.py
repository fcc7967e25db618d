"""The orders of all keys: for each an order of its calls that explains their replies."""
from __future__ import annotations

from array import array
from collections.abc import Callable, Iterator, Sequence
from dataclasses import dataclass
from itertools import accumulate

from zygos_tools.files.formats import shown
from zygos_tools.judging.anew import begun_anew
from zygos_tools.judging.doubts import Doubts
from zygos_tools.judging.events import CAS, FLUSH, GET, Event, Limited, Unknown, counted
from zygos_tools.judging.flushes import Flushes
from zygos_tools.judging.needs import ITEM, Needs
from zygos_tools.judging.orders import CHANGED, WAS_LOST, Order, Orders, Placed
from zygos_tools.judging.origin import Origin
from zygos_tools.judging.search import GaveUp, Made, Search, Stuck
from zygos_tools.judging.states import (ABSENT, ANYTHING, NOTHING_KNOWN, AnyState, Lost, States, Step, of_several,
                                        reached)
from zygos_tools.judging.table import DROPPED, Table

# how many states are looked at where an item is guessed, and how many items are tried
MOST_STATES, MOST_GUESSES = 20000, 30
# for how many values it is looked where else they are stored
MOST_ELSEWHERE = 20


@dataclass
class Calls:
    """The calls on a key, or on a few keys together, by their begins, and the states of these keys.

    `first` are the items of the keys at first. Of several keys, `slots` has the place of each in a state.
    """

    names: tuple[bytes, ...]
    events: list[Event]
    states: States
    first: dict[bytes | None, int]
    step: Step
    begin: AnyState
    slots: dict[bytes | None, int] | None

    def from_item(self, item: int) -> None:
        """Another item of the one key at first."""
        self.first, self.begin = {self.names[0]: item}, (item, 0, 0)

    def have_uniques(self) -> bool:
        """Whether a unique was seen."""
        return any(event.unique is not None or event.kind == CAS and event.want == "stored" for event in self.events)


class Keys:
    """The calls of each key, and their orders that were found.

    With `is_warm` a key may have an item at first: one that explains what was seen, which `first` then has. With
    `loses` the server may lose items. `limit` is how many states of a key are looked at, and `look` is called from
    time to time. `doubts` has what is not surely known. Without `has_reasons` nothing is said of why there is no order.
    `is_chosen` says which keys are looked at.
    """

    def __init__(self, table: Table, loses: bool = False, is_warm: bool = False, limit: int = 200000,
                 look: Callable[[], None] = lambda: None, doubts: Doubts | None = None,
                 has_reasons: bool = True, is_chosen: Callable[[bytes], bool] | None = None):
        self.table, self.loses, self.is_warm, self.limit, self.look = table, loses, is_warm, limit, look
        self.doubts, self.has_reasons = doubts, has_reasons
        self.first: dict[bytes, tuple[int, bytes] | None] = {}
        self.orders = Orders(table, loses, self.first)
        self.falling = self.orders.falling
        self.found = self.orders.found
        self.flushes = Flushes(table)
        self.begins, self.calls = by_key(table)
        self.with_flushes: dict[bytes, array[int]] = {}
        self.looks_left = MOST_ELSEWHERE
        self.names = sorted(key for key, number in table.key_of.items() if self.begins[number] < self.begins[number + 1]
                            and (is_chosen is None or is_chosen(key)))

    # ---- calls

    def numbers(self, key: bytes) -> list[int]:
        """The calls on a key by their begins, with the flushes that count for it."""
        number = self.table.key_of[key]
        own = self.calls[self.begins[number] : self.begins[number + 1]]
        flushes = self.flushes.of(self.table.shard_of[number], own) if self.flushes.all else []
        return sorted([*own, *flushes]) if flushes else list(own)

    def range_of(self, key: bytes) -> tuple[Sequence[int], int, int]:
        """The same calls as a range of an array, which may have those on other keys too."""
        if not self.flushes.all:
            number = self.table.key_of[key]
            return self.calls, self.begins[number], self.begins[number + 1]
        if key not in self.with_flushes:
            self.with_flushes[key] = array("I", self.numbers(key))
        return self.with_flushes[key], 0, len(self.with_flushes[key])

    def calls_on(self, names: Sequence[bytes], loses: bool | None = None, is_wide: bool = False) -> Calls:
        """The calls on some keys, which may have the items at first that are known so far."""
        several = {one for key in names for one in self.numbers(key)} if len(names) > 1 else ()
        numbers = sorted(several) if several else self.numbers(names[0])
        loses, rises = self.loses if loses is None else loses, self.falling.isdisjoint(names)
        events, states = self.table.events(numbers), States(loses, is_wide, rises)
        states.learn(events)
        first: dict[bytes | None, int] = {key: self.orders.item_at_first(key, states) for key in names}
        if len(names) == 1:
            return Calls(tuple(names), events, states, first, states.step, (first[names[0]], 0, 0), None)
        slots: dict[bytes | None, int] = {key: at for at, key in enumerate(names)}
        of_shard: dict[int, list[int]] = {}
        for at, key in enumerate(names):
            of_shard.setdefault(self.shard(key), []).append(at)
        begin = tuple([(first[key], 0, 0) for key in names])
        return Calls(tuple(names), events, states, first, of_several(states, slots, of_shard), begin, slots)

    def shard(self, key: bytes) -> int:
        """The shard of a key."""
        return self.table.shard_of[self.table.key_of[key]]

    # ---- orders

    def search(self, names: Sequence[bytes]) -> None:
        """Looks for an order of the calls on some keys, or raises No or Unknown."""
        calls = self.calls_on(names)
        try:
            order = self.order_at_first(calls) if self.is_warm and len(names) == 1 and names[0] not in self.first \
                else self.order_of(calls)
        except Stuck as stuck:
            if not self.has_reasons:
                raise Unknown("there is no order", keys=names) from None
            from zygos_tools.judging.reasons import reason_of  # which takes keys itself
            raise reason_of(self, calls, stuck.at) from None
        except GaveUp:
            told = f"key {shown(names[0])}" if len(names) == 1 else "keys " + ", ".join(map(shown, names[:5]))
            raise Limited(f"{told}: given up after {counted(self.limit, 'state')}; give --states more", keys=names,
                          connections=[event.connection for event in calls.events]) from None
        if not calls.states.rises:
            self.falling.update(names)
        for key in names:
            self.put(key, [(calls.events[made.place], made.is_change, made.was_lost) for made in order])

    def put(self, key: bytes, order: Sequence[tuple[Event, bool, bool]]) -> None:
        """Keeps the order of a key, which is one of several or the only one: its calls, each with whether it changed the
        key and whether it follows a loss."""
        shard = self.shard(key)
        own = [one for one in order if one[0].key == key or one[0].kind == FLUSH and one[0].shard == shard]
        marks = bytearray(CHANGED * is_change | WAS_LOST * was_lost for _, is_change, was_lost in own)
        if self.loses and key in self.falling:
            for at in begun_anew(own):
                marks[at] |= WAS_LOST
        self.orders.put(key, Order(array("I", [event.id for event, _, _ in own]), marks))

    def placed(self, key: bytes) -> list[Placed]:
        """The order of a key with the states after its calls."""
        return self.orders.stretch(key, 0, len(self.found[key].calls)).placed

    def order_of(self, calls: Calls, found: list[Made] | None = None) -> list[Made]:
        """An order of these calls; one in which uniques rise, if there is one. `found` is one with losses, where it is
        known."""
        try:
            return self.risen(calls, found)
        except Stuck:
            if not calls.states.rises or not calls.have_uniques():
                raise
        calls.states.rises = False
        return self.run(calls, self.limit)

    def risen(self, calls: Calls, found: list[Made] | None) -> list[Made]:
        """An order of these calls; one without losses, if such a one is soon found."""
        order = None if found else quick(calls)
        if order is not None:
            return order
        states = calls.states
        if states.loses:
            states.loses = False
            try:
                return self.run(calls, min(self.limit, MOST_STATES))
            except (Stuck, GaveUp):
                pass
            finally:
                states.loses = True
        return found or self.run(calls, self.limit)

    def run(self, calls: Calls, limit: int) -> list[Made]:
        """Searches an order of these calls."""
        needs = Needs(calls.events, calls.states, calls.first)
        return Search(calls.events, calls.begin, calls.step, limit, needs, calls.slots, None, self.look).run()

    # ---- items that were there at first

    def order_at_first(self, calls: Calls) -> list[Made]:
        """An order of the calls on a key from an item that explains all; where there is none, from the likeliest."""
        key = calls.names[0]
        order = quick(calls)
        if order is not None:
            self.first[key] = None
            return order
        tried: dict[int, None] = {}
        for item in self.guesses(calls):  # some of them take a search, so no more are asked for than are tried
            if item in tried:
                continue
            tried[item] = None
            calls.from_item(item)
            order = quick(calls)
            try:
                order = order or self.run(calls, MOST_STATES)
            except (Stuck, GaveUp):
                continue
            self.first[key] = calls.states.values.pairs[item] if item else None
            return self.order_of(calls, order) if any(made.was_lost for made in order) else order
        likeliest = next(iter(tried))
        calls.from_item(likeliest)
        self.first[key] = calls.states.values.pairs[likeliest] if likeliest else None
        return self.order_of(calls)

    def guesses(self, calls: Calls) -> Iterator[int]:
        """Items that a key may have had at first: one that was seen and that nobody stores, none, one that follows
        from an order, one that nobody saw, any other that was seen."""
        key, number = calls.names[0], calls.states.values.number
        needs = Needs(calls.events, calls.states, {key: ABSENT})
        lost = [item for at, (kind, _, item) in enumerate(needs.things) if kind == ITEM and item and not needs.make[at]]
        lost.sort(key=lambda item: len(calls.states.values.pairs[item][1]))
        yield from lost[:1]
        yield ABSENT
        yield from self.implied(calls)
        yield from lost[1:MOST_GUESSES]
        yield number(0, b"")
        yield from [event.item for event in calls.events if event.kind == GET and event.item][:MOST_GUESSES]

    def implied(self, calls: Calls) -> list[int]:
        """The items from which the calls on a key follow in an order that takes any item to have been there at first.
        """
        try:
            order = Search(calls.events, NOTHING_KNOWN, calls.step, MOST_STATES,
                           Needs(calls.events, calls.states, {calls.names[0]: ANYTHING}), None, None, self.look).run()
        except (Stuck, GaveUp):
            return []
        states = [(calls.events[made.place], made.state) for made in order]
        return Origin(calls.states, states).items()  # type: ignore[arg-type]

    # ---- other keys

    def stored_elsewhere(self, event: Event) -> Event | None:
        """The first call that stores the value that a call saw, where it is on another key; None where none does, or
        where one on the same key does."""
        table, value = self.table, event.value
        if not value or not self.looks_left:
            return None
        self.looks_left -= 1
        sizes, found = table.value_size, None
        for call, kind in enumerate(table.kind):
            if 0 < kind <= CAS and sizes[call] == len(value) and table.value(call) == value:
                if table.keys[table.key[call]] == event.key:
                    return None
                found = call if found is None else found
        return None if found is None else table.event(found)


def by_key(table: Table) -> tuple[array[int], array[int]]:
    """Where the calls of each key begin, and the calls, sorted by keys; without those of commands that are dropped."""
    counts, keys, states, commands = [0] * (len(table.keys) + 1), table.key, table.state, table.command
    for call, key in enumerate(keys):
        if key >= 0 and not states[commands[call]] & DROPPED:
            counts[key + 1] += 1
    begins = array("I", accumulate(counts))
    calls, places = array("I", bytes(4 * begins[-1])), list(begins)
    for call, key in enumerate(keys):
        if key >= 0 and not states[commands[call]] & DROPPED:
            calls[places[key]] = call
            places[key] += 1
    return begins, calls


def quick(calls: Calls) -> list[Made] | None:
    """The order in which calls probably ended, if it explains their replies."""
    events, step, state, order = calls.events, calls.step, calls.begin, []
    last: dict[int, int] = {}
    for place in sorted(range(len(events)), key=[event.hint for event in events].__getitem__):
        event = events[place]
        if event.optional or last.get(event.connection, -1) > event.id:
            return None
        found = step(state, event)
        if not found or isinstance(found[0], Lost):
            return None
        new = reached(found[0])
        order.append(Made(place, event.kind == FLUSH or new is not state and event.kind != GET, False, new))
        last[event.connection] = event.id
        state = new
    return order
