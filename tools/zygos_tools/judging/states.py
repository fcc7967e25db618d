"""What each call does to the item of its key, where it is seen what the server replied.

The state of a key is (item, unique, top): the number of its flags and value, or ABSENT for none; the server's unique of
the item, 0 while none was seen; and the greatest unique that was seen of the key's items so far. If the item is not
known, it is ANYTHING if there may be none, SOMETHING if there is one, WORD if there is one that does not count, and
LARGE if nothing can be joined to it. A step gives the states that a call may lead to, none where its reply does not fit.

A server's uniques of one key are taken to rise as long as that gives an order. They need not: a server that was started
again counts anew, and another one may not count. So if there is no order, they are taken to be in any order, and `top`
stays 0.
"""
from __future__ import annotations

import re
from collections.abc import Callable, Iterable, Mapping, Sequence
from typing import Union

from zygos_tools.files.formats import MOST_VALUE
from zygos_tools.judging.events import (ADD, APPEND, CAS, DECR, DELETE, FLUSH, GET, INCR, PREPEND, REPLACE, SET, Event)
from zygos_tools.judging.values import Values

State = tuple[int, int, int]
# the states of several keys
Group = tuple[State, ...]
AnyState = Union[State, Group]

ABSENT, ANYTHING, SOMETHING, WORD, LARGE = 0, -1, -2, -3, -4
NO_ITEM, NOTHING_KNOWN = (ABSENT, 0, 0), (ANYTHING, 0, 0)
# a number with spaces after it, and how many lengths of such numbers are looked at
PAD, MOST_SIZES = re.compile(rb"([0-9]{1,20}) +"), 24
# how many bytes a key and memcached's header have at most, which count in the length of a value there
MOST_HEAD = 512


class Lost:
    """A state that a call led to after the server had lost the item."""

    __slots__ = ("state",)

    def __init__(self, state: AnyState):
        self.state = state


New = Union[AnyState, Lost]
Step = Callable[[AnyState, Event], Sequence[New]]


def reached(new: New) -> AnyState:
    """The state that a step leads to."""
    return new.state if isinstance(new, Lost) else new


def reached_at(new: New, slot: int | None) -> State:
    """The state of a key that a step leads to; `slot` is its place in a state of several keys."""
    state = reached(new)
    return state if slot is None else state[slot]  # type: ignore[return-value]


class States:
    """The steps of calls on a key. With `loses` the server may lose an item before any call, and then counts its uniques
    anew; `rises` says whether they rise otherwise. `is_wide` is that of Values. With `is_large` an item that is not known
    may be too large for anything to be joined to it."""

    def __init__(self, loses: bool = False, is_wide: bool = False, rises: bool = True):
        self.values, self.loses, self.rises, self.flags = Values(is_wide), loses, rises, [0]
        self.is_wide, self.is_large = is_wide, False
        # how long the numbers are that were seen with spaces after them
        self.sizes: list[int] = []
        self.of_number: dict[int | None, list[int]] = {}

    def learn(self, events: Iterable[Event]) -> None:
        """Numbers the values of events."""
        number, flags = self.values.number, {0}
        for event in events:
            kind = event.kind
            if event.want == "failed" or event.flags is None or event.value is None:
                continue
            if kind <= CAS and kind not in (APPEND, PREPEND):
                event.item = number(event.flags, event.value)
                flags.add(event.flags)
        self.flags, self.sizes = sorted(flags), sizes_of(value for _, value in self.values.pairs)
        for item in range(1, len(self.values.pairs)):
            self.of_number.setdefault(self.values.numeric(item), []).append(item)

    def step(self, state: AnyState, event: Event) -> Sequence[New]:
        """The states after a call."""
        now: State = state  # type: ignore[assignment]
        if event.want == "failed":
            return self.failed(now)
        if now[0] == ANYTHING:
            return self.step_anything(now, event)
        found: tuple[New, ...] = self.step_something(now, event) if now[0] < 0 else STEPS[event.kind](self, now, event)
        if self.loses and self.may_be_lost(now, event, bool(found)):
            found += tuple([Lost(new) for new in STEPS[event.kind](self, NO_ITEM, event)])
        return found

    def failed(self, state: State) -> tuple[State, ...]:
        """The states after a call that was not made, and may have removed the item."""
        return (state, (ABSENT, 0, self.top(state))) if state[0] else (state,)

    def may_be_lost(self, now: State, event: Event, fits: bool) -> bool:
        """Whether a loss before a call is looked at: of the item, if the call does not fit otherwise; and if uniques need
        not rise, of whatever the call replaces, for they are counted anew then."""
        if not self.rises and now[0] >= 0 and event.kind in (SET, ADD) and (event.kind == SET or not now[0]):
            return True
        return now[0] != ABSENT and (event.kind == ADD if event.want is None else not fits)

    def top(self, state: State) -> int:
        """The greatest unique that was seen, if they rise."""
        return max(state[1], state[2]) if self.rises else 0

    def get(self, state: State, event: Event) -> tuple[State, ...]:
        item = state[0]
        if event.want == "miss":
            return () if item else (state,)
        if not item or event.want != "hit":
            return (state,) if event.want is None else ()
        if event.item != item and (event.item is not None or not self.fits(item, event)):
            return ()
        return (state,) if event.unique is None else self.show(state, event.unique)

    def fits(self, item: int, event: Event) -> bool:
        """Whether what was shown is an item."""
        flags, value = self.values.pairs[item]
        return event.flags in (None, flags) and event.value in (None, value)

    def show(self, state: State, unique: int) -> tuple[State, ...]:
        """The state where a unique is shown of its item."""
        item, known, greatest = state
        if known:
            return (state,) if known == unique else ()
        return ((item, unique, greatest),) if unique > greatest or not self.rises else ()

    def set(self, state: State, event: Event) -> tuple[State, ...]:
        return ((stored(event), 0, self.top(state)),)

    def add(self, state: State, event: Event) -> tuple[State, ...]:
        if (event.kind == ADD) == (not state[0]):
            return ((stored(event), 0, self.top(state)),) if event.want != "not stored" else ()
        return (state,) if event.want != "stored" else ()

    def join(self, state: State, event: Event) -> tuple[State, ...]:
        if not state[0]:
            return (state,) if event.want in ("not stored", None) else ()
        item = self.values.joined(state[0], event)
        if item is None:
            return (state,) if event.want in ("not stored", None) else ()
        if event.want == "not stored":  # memcached counts its header too
            return (state,) if len(self.values.pairs[item][1]) > MOST_VALUE - MOST_HEAD else ()
        return ((item, 0, self.top(state)),)

    def exchange(self, state: State, event: Event) -> tuple[State, ...]:
        item, known, greatest = state
        if not item:
            return (state,) if event.want in ("not found", None) else ()
        found: list[State] = []
        unique = event.given
        can_be = known == unique if known else unique > greatest or not self.rises
        if can_be and event.want in ("stored", None):
            found.append((stored(event), 0, max(greatest, unique) if self.rises else 0))
        if (known != unique or not known) and event.want in ("exists", None):
            found.append(state)
        return tuple(found)

    def count(self, state: State, event: Event) -> tuple[State, ...]:
        if not state[0]:
            return (state,) if event.want in ("not found", None) else ()
        found = self.values.counted(state[0], event)
        if found is None:
            return (state,) if event.want in ("no number", None) else ()
        if event.want not in ("number", None) or event.want and found[0] != event.number:
            return ()
        return tuple([(item, 0, self.top(state)) for item in found[1]])

    def delete(self, state: State, event: Event) -> tuple[State, ...]:
        if not state[0]:
            return (state,) if event.want != "deleted" else ()
        return ((ABSENT, 0, self.top(state)),) if event.want != "not found" else ()

    def flush(self, state: State, _: Event) -> tuple[State, ...]:
        return (state,) if not state[0] else ((ABSENT, 0, self.top(state)),)

    def step_anything(self, state: State, event: Event) -> tuple[State, ...]:
        """A step where nothing is known: there is no item, or there is one."""
        if event.kind == GET and event.want is None:
            return (state,)
        none = STEPS[event.kind](self, NO_ITEM, event)
        return tuple(dict.fromkeys([*none, *self.step_something((SOMETHING, *state[1:]), event)]))

    def step_something(self, state: State, event: Event) -> tuple[State, ...]:
        """A step where there is an item that is not known: what was seen says what it may have been."""
        kind, want = event.kind, event.want
        stores = want in ("stored", None)
        if kind == GET:
            return self.get_something(state, event)
        if kind in (FLUSH, DELETE):
            return ((ABSENT, 0, self.top(state)),) if want != "not found" else ()
        if kind in (INCR, DECR):
            return self.count_something(state, event)
        if kind in (APPEND, PREPEND):
            return self.join_something(state, event)
        if kind == CAS:
            return self.exchange(state, event)
        if kind == ADD:
            return (state,) if want != "stored" else ()
        return self.set(state, event) if stores else ()

    def get_something(self, state: State, event: Event) -> tuple[State, ...]:
        """A `get` of an item that is not known."""
        if event.want != "hit":
            return (state,) if event.want is None else ()
        if event.item is not None and not self.can_be(state[0], event.item):
            return ()
        shown = self.show(state, event.unique) if event.unique is not None else (state,)
        return shown if event.item is None else tuple([(stored(event), *one[1:]) for one in shown])

    def can_be(self, unknown: int, item: int) -> bool:
        """Whether an item that is not known can be this one."""
        is_word = self.values.numeric(item) is None
        return unknown == SOMETHING or is_word and (unknown == WORD or len(self.values.pairs[item][1]) > MOST_VALUE // 2)

    def count_something(self, state: State, event: Event) -> tuple[State, ...]:
        """A call that counts an item that is not known."""
        if event.want == "not found":
            return ()
        if event.want is None and state[1] and state[0] == SOMETHING:
            return state, (SOMETHING, 0, self.top(state))
        if event.want != "number":
            is_new = event.want == "no number" and state[0] == SOMETHING
            return ((WORD, *state[1:]),) if is_new else (state,)
        if state[0] != SOMETHING:
            return ()
        items = [self.values.number(flags, text) for text in self.padded(event.number or 0) for flags in self.flags]
        top = self.top(state)
        return tuple([(item, 0, top) for item in dict.fromkeys(items + self.of_number.get(event.number, []))])

    def padded(self, number: int) -> list[bytes]:
        """A number as an item that is not known may have it: with as many spaces as numbers have that were seen."""
        digits = b"%d" % number
        return [digits, *(digits.ljust(size) for size in self.sizes if size > len(digits))]

    def join_something(self, state: State, event: Event) -> tuple[State, ...]:
        """A call that joins its piece to an item that is not known: a state of its own, as the call changed the key."""
        piece = event.value or b""
        if event.want == "not stored":
            is_large = len(piece) < MOST_VALUE // 4
            return () if not self.is_large else ((LARGE, *state[1:]),) if is_large and state[0] != LARGE else (state,)
        can_count = self.is_wide or not piece.strip(b" 0123456789")
        item = LARGE if state[0] == LARGE else SOMETHING if can_count else WORD
        return ((item, 0, self.top(state)),)


STEPS = {GET: States.get, SET: States.set, ADD: States.add, REPLACE: States.add, APPEND: States.join,
         PREPEND: States.join, CAS: States.exchange, INCR: States.count, DECR: States.count, DELETE: States.delete,
         FLUSH: States.flush}


def sizes_of(values: Iterable[bytes]) -> list[int]:
    """How long numbers in these values may be with the spaces after them: what was joined to one may begin with some."""
    found: set[int] = set()
    for value in values:
        for pad in PAD.finditer(value):
            found.update(range(pad.end(1) - pad.start() + 1, pad.end() - pad.start() + 1))
    return sorted(found)[:MOST_SIZES]


def stored(event: Event) -> int:
    """The item that a call stores or saw."""
    assert event.item is not None
    return event.item


def of_several(states: States, slots: Mapping[bytes | None, int], of_shard: Mapping[int, Sequence[int]]) -> Step:
    """The step of a group of keys, whose state is that of each; `slots` has the place of each key, `of_shard` those of
    the keys of a shard."""

    def step(state: AnyState, event: Event) -> Sequence[New]:
        group: Group = state  # type: ignore[assignment]
        if event.kind == FLUSH:
            new: list[State] = list(group)
            for at in of_shard[event.shard]:
                new[at] = states.step(group[at], event)[0]  # type: ignore[assignment]
            return (group,) if all(one is other for one, other in zip(new, group)) else (tuple(new),)
        at = slots[event.key]
        found = states.step(group[at], event)
        if len(found) == 1 and found[0] is group[at]:
            return (group,)
        return tuple([put(group, at, new) for new in found])

    return step


def put(group: Group, at: int, new: New) -> New:
    """The states of a group with a new one at a place."""
    if isinstance(new, Lost):
        return Lost(reached(put(group, at, new.state)))
    return group if new is group[at] else (*group[:at], new, *group[at + 1 :])  # type: ignore[arg-type]
