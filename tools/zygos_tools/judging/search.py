"""Looks for an order of the calls on one key, or on a few keys together, that explains their replies.

It is the search of Wing and Gong with the memory of Lowe: the calls are carried out one by one on a model of the keys.
A call can be next if no call that is left ended before it began, and none that is left comes before it on its
connection. A call that was seen to change nothing is carried out as soon as its reply fits, for then it can be next in
every order that there is. Of the others each is tried, those that ended first at first. A state that was met before,
with the same calls left, is not gone through again.
"""
from __future__ import annotations

from collections.abc import Callable, Mapping, Sequence
from typing import NamedTuple

from zygos_tools.judging.events import FLUSH, FOREVER, GET, Event
from zygos_tools.judging.needs import Needs
from zygos_tools.judging.states import AnyState, Lost, New, Step, reached, reached_at


class Made(NamedTuple):
    """A call that was carried out: its place, whether it changed its key, whether the item was lost before it, and the
    state after it."""

    place: int
    is_change: bool
    was_lost: bool
    state: AnyState


class Try(NamedTuple):
    """A call that can be tried: when it probably ended, its place, and a state after it."""

    hint: int
    place: int
    state: New


class Branch(NamedTuple):
    """Where the search may go back to: how many calls were carried out then, and what is left to try."""

    length: int
    low: int
    mask: int
    state: AnyState
    done: int
    tries: list[Try]


# after how many states the clock is looked at
LOOKS = 256
# the replies after which a call that may have changed nothing may have changed its key too
OPEN = (None, "failed")


class GaveUp(Exception):
    """The search met too many states."""


class Stuck(Exception):
    """No order explains the calls. None gets past the time `at`: the calls that end up to it have no order."""

    def __init__(self, at: int):
        super().__init__(at)
        self.at = at


class Search:
    """A search over events by rising begin, those of a connection in their order, of which optional ones may be left
    out.

    `step` gives the states after a call, `needs` what is needed (or is None), `slots` the places of keys in the state
    where it is of several, and `after` further calls that come before a call. What was carried out are the first `low`
    events, and those behind them whose bits `mask` has.
    """

    def __init__(self, events: Sequence[Event], state: AnyState, step: Step, limit: int, needs: Needs | None = None,
                 slots: Mapping[bytes | None, int] | None = None, after: Mapping[int, Sequence[int]] | None = None,
                 look: Callable[[], None] | None = None):
        self.events, self.state, self.step, self.limit, self.needs = events, state, step, limit, needs
        self.slots, self.after, self.look = slots, after, look
        self.low = self.mask = self.done = self.backs = 0
        self.due = sum(not event.optional for event in events)
        self.crowd = len({event.connection for event in events})
        self.order: list[Made] = []
        self.branches: list[Branch] = []
        self.seen: set[tuple[int, int, AnyState]] = set()
        self.furthest = -1

    def run(self) -> list[Made]:
        """The calls in an order, each as Made."""
        self.look_first()
        while True:
            choices = None
            while choices is None:
                choices, until = self.go_over()
            if self.done == self.due:
                return self.order
            tries = self.tries(choices) if self.is_new(until) else []
            if tries:
                self.branches.append(Branch(len(self.order), self.low, self.mask, self.state, self.done, tries))
            else:
                self.go_back()
            self.go_on()

    def look_first(self) -> None:
        """Sees that nothing is needed that cannot have been there."""
        missed = self.needs.first_missed() if self.needs else None
        if missed is not None:
            raise Stuck(missed)

    def go_over(self) -> tuple[list[tuple[int, Sequence[New]]] | None, int]:
        """Carries out the calls that can be next and change nothing. Gives the others that can be next, each with its
        place and the states after it, or None where calls were carried out; and the time before which the next
        calls begin."""
        events, step, state = self.events, self.step, self.state
        blocked: set[int] = set()
        choices: list[tuple[int, Sequence[New]]] = []
        at, rest, until, before = self.low, self.mask, FOREVER, len(self.order)
        for at in range(self.low, len(events)):
            event = events[at]
            if event.begin > until:
                break
            is_left = not rest & 1
            rest >>= 1
            if not is_left:
                continue
            if event.end < until and not event.optional:
                until = event.end
            if event.connection in blocked:
                continue
            found = step(state, event) if not self.after or self.can_come(at) else ()
            if found and found[0] is state and event.want not in OPEN and event.kind != FLUSH:
                self.take(at, event, Made(at, False, False, state))
                continue
            if found:
                choices.append((at, found))
            if not event.optional:
                blocked.add(event.connection)
                if len(blocked) == self.crowd:
                    break
        if len(self.order) == before:
            return choices, until
        self.shift()
        return None, until

    def can_come(self, at: int) -> bool:
        """Whether all calls that come before this one were carried out."""
        after = self.after.get(at, ()) if self.after else ()
        return all(one < self.low or self.mask >> (one - self.low) & 1 for one in after)

    def take(self, at: int, event: Event, made: Made) -> None:
        """Carries out a call."""
        self.mask |= 1 << (at - self.low)
        self.order.append(made)
        self.done += not event.optional
        if self.needs:
            self.needs.done(at)

    def shift(self) -> None:
        """Passes over the first calls that were carried out."""
        while self.mask & 1:
            self.mask >>= 1
            self.low += 1

    def is_new(self, until: int) -> bool:
        """Whether this state was not met before."""
        met = self.low, self.mask, self.state
        if met in self.seen:
            return False
        self.seen.add(met)
        self.furthest = max(self.furthest, until)
        if len(self.seen) > self.limit:
            raise GaveUp
        if self.look and not len(self.seen) % LOOKS:
            self.look()
        return True

    def tries(self, choices: list[tuple[int, Sequence[New]]]) -> list[Try]:
        """The calls that can be tried, those that ended first as the last."""
        found = []
        for place, states in choices:
            event = self.events[place]
            for new in states:
                if not self.needs or event.kind == FLUSH or not self.takes_away(place, event, new):
                    found.append(Try(event.hint, place, new))
        found.sort(key=lambda one: (one.hint, one.place))
        found.reverse()
        return found

    def takes_away(self, place: int, event: Event, new: New) -> bool:
        """Whether a call takes away what another one needs."""
        slot, needs = self.slots[event.key] if self.slots else None, self.needs
        assert needs
        needs.done(place)
        is_lost = needs.are_lost(event.key, reached_at(self.state, slot), reached_at(new, slot))
        needs.undone(place)
        return is_lost

    def go_back(self) -> None:
        """Goes back to where something is left to try."""
        self.backs += 1
        while self.branches and not self.branches[-1].tries:
            self.branches.pop()
        if not self.branches:
            raise Stuck(self.furthest)
        length, self.low, self.mask, self.state, self.done, _ = self.branches[-1]
        if self.needs:
            for made in self.order[length:]:
                self.needs.undone(made.place)
        del self.order[length:]

    def go_on(self) -> None:
        """Tries the next call."""
        _, place, new = self.branches[-1].tries.pop()
        event, was_lost = self.events[place], isinstance(new, Lost)
        state = reached(new)
        is_change = event.kind == FLUSH or state is not self.state and event.kind != GET
        self.take(place, event, Made(place, is_change, was_lost, state))
        self.state = state
        self.shift()
