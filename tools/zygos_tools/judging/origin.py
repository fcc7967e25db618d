"""The item that a key had before a recording, from an order of its calls that takes any item to have been there.

The first call that shows a value says what the value was then. Calls before it that were not answered with a number, or
that joined something to the value, are taken back: what was added is subtracted, and what was joined is cut off.
"""
from __future__ import annotations

from collections.abc import Iterable

from zygos_tools.judging.events import ADD, APPEND, CAS, DECR, DELETE, GET, INCR, PREPEND, REPLACE, Event
from zygos_tools.judging.states import State, States

MOST_NUMBER = 1 << 64


class Origin:
    """Goes over calls in their order, each with the state of the key after it, up to the first whose state is known."""

    def __init__(self, states: States, order: Iterable[tuple[Event, State]]):
        self.states = states
        self.before: list[Event] = []
        self.event: Event | None = None
        self.state: State = (0, 0, 0)
        rest = iter(order)
        for event, state in rest:
            if state[0] >= 0:
                self.event, self.state = event, state
                break
            self.before.append(event)
        # the calls after it that may have been carried out before it
        self.about = [event for event, _ in rest if self.event and event.begin < self.event.end]

    def items(self) -> list[int]:
        """The items that the key may have had at first, the likeliest first, by their numbers."""
        number, value, flags = self.states.values.number, self.value(), self.flags()
        if value is None:
            return [number(some, b"") for some in flags] if self.is_there() else []
        values = [found for found in (self.first_value(value), self.without_pieces(value)) if found is not None]
        padded = [found.ljust(self.size()) for found in values if found.isdigit()]
        return list(dict.fromkeys(number(some, text) for text in [*values, *padded] for some in flags))

    def value(self) -> bytes | None:
        """The value before the first call that shows one; None where it shows none."""
        event = self.event
        if event is None:
            return None
        if event.want == "number":
            number = event.number or 0
            return b"%d" % ((number - event.given) % MOST_NUMBER if event.kind == INCR else number + event.given)
        if event.kind == GET and event.want == "hit" and self.state[0] > 0:
            return self.states.values.pairs[self.state[0]][1]
        return None

    def size(self) -> int:
        """How many bytes the value had afterwards: a number that became shorter keeps its length in memcached."""
        return len(self.states.values.pairs[self.state[0]][1])

    def flags(self) -> list[int]:
        """The flags that the item may have had, the likeliest first."""
        shown = [self.states.values.pairs[self.state[0]][0]] if self.value() is not None else []
        return list(dict.fromkeys([*shown, *self.states.flags]))

    def first_value(self, value: bytes) -> bytes | None:
        """The value at first, by that before the call that shows it; None where the calls before it do not fit."""
        for event in reversed(self.before):
            if event.kind in (INCR, DECR) and event.want is None:
                if not value.rstrip(b" ").isdigit():
                    continue
                amount = event.given if event.kind == DECR else -event.given
                value = b"%d" % ((int(value) + amount) % MOST_NUMBER)
            elif event.kind == APPEND and event.want != "not stored":
                piece = event.value or b""
                if not value.endswith(piece):
                    return None
                value = value[: len(value) - len(piece)]
            elif event.kind == PREPEND and event.want != "not stored":
                piece = event.value or b""
                if not value.startswith(piece):
                    return None
                value = value[len(piece) :]
        return value

    def without_pieces(self, value: bytes) -> bytes | None:
        """The value without the pieces that were joined to it, in whatever order; None where one does not fit."""
        left = [event for event in [*reversed(self.before), *self.about]
                if event.kind in (APPEND, PREPEND) and event.want != "not stored"]
        while left:
            event = next((one for one in left if fits(value, one)), None)
            if event is None:
                return None if any(one.want and one not in self.about for one in left) else value
            size = len(event.value or b"")
            value = value[: len(value) - size] if event.kind == APPEND else value[size:]
            left.remove(event)
        return value

    def is_there(self) -> bool:
        """Whether an answer says that there was an item of which nothing was shown."""
        return any(says_there(event) for event in [*self.before, self.event] if event is not None)


def fits(value: bytes, event: Event) -> bool:
    """Whether a call may have joined its piece to a value last."""
    piece = event.value or b""
    return value.endswith(piece) if event.kind == APPEND else value.startswith(piece)


def says_there(event: Event) -> bool:
    """Whether an answer says that its key has an item."""
    kind, want = event.kind, event.want
    return (kind == ADD and want == "not stored" or kind in (REPLACE, APPEND, PREPEND, CAS) and want == "stored" or
            kind == DELETE and want == "deleted" or want in ("exists", "no number", "hit"))
