"""The orders of keys that were found, and parts of them with the states of the key.

A part begins behind a call that says which item the key has, so only the calls around those that are asked for are
carried out again, however many calls a key has.
"""
from __future__ import annotations

from array import array
from collections.abc import Callable, Iterable, Sequence
from typing import NamedTuple

from zygos_tools.judging.events import ADD, CAS, DELETE, FLUSH, GET, REPLACE, SET, Event
from zygos_tools.judging.fitting import Contradiction
from zygos_tools.judging.states import ABSENT, Lost, State, States, reached
from zygos_tools.judging.table import HAS_FLAGS, HAS_UNIQUE, HAS_VALUE, W_HIT, W_MISS, WANT_BITS, Table

# the marks of a call in the order of a key: it changed the key; the item was lost before it
CHANGED, WAS_LOST = 1, 2
# the calls after which it is known which item a key has, if they changed it; what a get says of the whole item
SAYING, WHOLE = (SET, ADD, REPLACE, CAS, DELETE, FLUSH), W_HIT | HAS_FLAGS | HAS_VALUE


class Placed(NamedTuple):
    """A call in the order of a key: whether it changed the key, whether the item was lost before it, and the state
    after it."""

    event: Event
    is_change: bool
    was_lost: bool
    state: State


class Order(NamedTuple):
    """The order of the calls on a key, by their numbers, and the marks of each."""

    calls: array[int]
    marks: bytearray


class Stretch:
    """A part of the order of a key: `placed` has its calls from the place `low` on, and `begin` is the state before
    them. The last call says which item the key has, if it is not the last of all."""

    def __init__(self, low: int, begin: State, states: States, placed: list[Placed]):
        self.low, self.begin, self.states, self.placed = low, begin, states, placed

    def state(self, at: int) -> State:
        """The state before a place."""
        return self.placed[at - self.low - 1].state if at > self.low else self.begin

    def between(self, first: int, last: int) -> list[Placed]:
        """The calls at some places."""
        return self.placed[first - self.low : last - self.low]


# takes the calls and marks that come in place of those at some places of a key's order, before they are put there
Listener = Callable[[bytes, int, int, Order], None]


class Orders:
    """The orders of keys: `found` has them by key, and `places` where each call is; a flush is in several.

    `first` has the items that keys had at first, `loses` says whether items may be lost, and `falling` has the keys
    whose uniques need not rise. `listener` is called before an order changes.
    """

    def __init__(self, table: Table, loses: bool, first: dict[bytes, tuple[int, bytes] | None]):
        self.table, self.loses, self.first = table, loses, first
        self.found: dict[bytes, Order] = {}
        self.places = array("I", bytes(4 * len(table.kind)))
        self.tops: dict[bytes, array[int]] = {}
        self.falling: set[bytes] = set()
        self.listener: Listener | None = None

    def put(self, key: bytes, order: Order) -> None:
        """Keeps the order of a key."""
        old = self.found.get(key)
        if old is not None and self.listener:
            self.listener(key, 0, len(old.calls), order)
        self.found[key] = order
        self.tops.pop(key, None)
        self.set_places(order, 0, len(order.calls))

    def set_places(self, order: Order, first: int, last: int) -> None:
        """Notes where calls are."""
        places, calls = self.places, order.calls
        for at in range(first, last):
            places[calls[at]] = at

    def place(self, key: bytes, number: int) -> int | None:
        """Where a call is in the order of a key; None if it is not there."""
        calls, at = self.found[key].calls, self.places[number]
        if at < len(calls) and calls[at] == number:
            return at
        return calls.index(number) if self.table.kind[number] == FLUSH and number in calls else None

    def item_at_first(self, key: bytes, states: States) -> int:
        """The number of the item that a key has at first, as far as that is known."""
        pair = self.first.get(key)
        return states.values.number(*pair) if pair else ABSENT

    # ---- parts

    def says(self, call: int, mark: int) -> bool:
        """Whether a call says which item its key has after it."""
        kind = self.table.kind[call]
        if kind == GET:
            want = self.table.want[call]
            return want & (WANT_BITS | HAS_FLAGS | HAS_VALUE) == WHOLE or want & WANT_BITS == W_MISS
        return mark & CHANGED != 0 and kind in SAYING

    def stretch(self, key: bytes, first: int, last: int) -> Stretch:
        """The part of a key's order with these places, with the states after its calls."""
        (calls, marks), low, high = self.found[key], first, last
        while low and not self.says(calls[low - 1], marks[low - 1]):
            low -= 1
        while high < len(calls):
            high += 1
            if self.says(calls[high - 1], marks[high - 1]):
                break
        events, states = self.table.events(calls[max(0, low - 1) : high]), States(self.loses, False, key not in self.falling)
        states.learn(events)
        begin = self.state_after(key, low - 1, events[0]) if low else (self.item_at_first(key, states), 0, 0)
        return Stretch(low, begin, states, with_states(states, begin, events[low > 0 :], marks[low:high]))

    def state_after(self, key: bytes, at: int, event: Event) -> State:
        """The state after a call that says which item its key has."""
        (calls, marks), table = self.found[key], self.table
        item, known, place = event.item or ABSENT, 0, at
        while item and place >= 0:
            call = calls[place]
            if table.kind[call] == GET and table.want[call] & HAS_UNIQUE:
                known = table.seen[call]
                break
            if marks[place]:
                break
            place -= 1
        return item, known, 0 if key in self.falling else self.greatest(key)[at]

    def greatest(self, key: bytes) -> array[int]:
        """The greatest unique that was seen up to each place of a key's order."""
        tops = self.tops.get(key)
        if tops is None:
            tops = self.tops[key] = array("Q", bytes(8 * len(self.found[key].calls)))
            self.set_greatest(self.found[key], tops, 0, len(tops))
        return tops

    def set_greatest(self, order: Order, tops: array[int], first: int, last: int) -> None:
        """Fills in the greatest uniques at some places."""
        calls, marks = order
        kinds, wants, seen, given = self.table.kind, self.table.want, self.table.seen, self.table.given
        top = tops[first - 1] if first else 0
        for at in range(first, last):
            call = calls[at]
            kind = kinds[call]
            if marks[at] & WAS_LOST:
                top = 0
            if kind == GET:
                if wants[call] & HAS_UNIQUE and seen[call] > top:
                    top = seen[call]
            elif kind == CAS and marks[at] & CHANGED and given[call] > top:
                top = given[call]
            tops[at] = top

    # ---- changes

    def exchange(self, key: bytes, stretch: Stretch, first: int, last: int, new: Iterable[Placed]) -> None:
        """Puts calls in place of those at some places of a key's order, if they and what follows fit their states."""
        states, end, fresh = stretch.states, stretch.state(last), list(new)
        layer: dict[State, State | None] = {stretch.state(first): None}
        for one in fresh:
            layer = after(states, layer, one.event, one.was_lost)
        stop = stretch.low + len(stretch.placed)
        while last < stop and layer and end[0] not in {state[0] for state in layer}:
            one = stretch.placed[last - stretch.low]  # other states up to a later place
            fresh.append(one)
            end, last = one.state, last + 1
            layer = after(states, layer, one.event, one.was_lost)
        if not layer:
            raise Contradiction
        self.replace(key, first, last, Order(array("I", [one.event.id for one in fresh]), bytearray(
            [CHANGED * one.is_change | WAS_LOST * one.was_lost for one in fresh])))

    def replace(self, key: bytes, first: int, last: int, new: Order) -> None:
        """Puts calls in place of those at some places of a key's order."""
        if self.listener:
            self.listener(key, first, last, new)
        order, tops = self.found[key], self.tops.get(key)
        order.calls[first:last] = new.calls
        order.marks[first:last] = new.marks
        if last - first == len(new.calls):
            self.set_places(order, first, last)
            if tops is not None:
                self.set_greatest(order, tops, first, last)
            return
        self.set_places(order, first, len(order.calls))
        self.tops.pop(key, None)


def with_states(states: States, begin: State, events: Sequence[Event], marks: Sequence[int]) -> list[Placed]:
    """Calls in their order with the states after them."""
    layers: list[dict[State, State | None]] = [{begin: None}]
    for event, mark in zip(events, marks):
        layers.append(after(states, layers[-1], event, bool(mark & WAS_LOST)))
    if not layers[-1]:
        raise Contradiction
    state, found = next(iter(layers[-1])), []
    for event, mark, layer in zip(reversed(events), reversed(marks), reversed(layers[1:])):
        found.append(Placed(event, bool(mark & CHANGED), bool(mark & WAS_LOST), state))
        state = layer[state]  # type: ignore[assignment]
    found.reverse()
    return found


def after(states: States, before: Iterable[State], event: Event, was_lost: bool) -> dict[State, State | None]:
    """The states after a call, each with one before it."""
    found: dict[State, State | None] = {}
    for state in before:
        for new in states.step(state, event):
            if isinstance(new, Lost) == was_lost:
                found.setdefault(reached(new), state)  # type: ignore[arg-type]
    return found
