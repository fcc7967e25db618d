"""What zygos would answer in an order near that of arrival, and why the recorded answers are others.

So it is known of a difference in a shared key whether it comes of the order: near that of arrival all commands are
those of one connection, whose answers have their causes in causes.py. What is left open is the order of commands that
came before others on their key had ended, for a server may have taken these in another one.
"""
from __future__ import annotations

from collections import Counter
from collections.abc import Iterable, Mapping, Sequence

from zygos_tools.comparing import causes as why
from zygos_tools.comparing.apart import Callers
from zygos_tools.comparing.arrivals import Arrival, Given, Kept, Texts, ends_of, with_answers
from zygos_tools.comparing.causes import Expected
from zygos_tools.comparing.orders import ordered
from zygos_tools.comparing.replaying import DONE, Replay
from zygos_tools.comparing.steps import BOTH, Exchange, alike
from zygos_tools.protocol.meaning import line_of
from zygos_tools.protocol.order_files import Search
from zygos_tools.protocol.table import READING, SHOWING, does


NO_CAUSES: Mapping[bytes, tuple[str, ...]] = {}

# ---- commands that came at one time


class Going:
    """The commands of a connection on a key that may not have ended; `changed` is the last end of one that changes it,
    and `last` the last end of all."""

    __slots__ = "changed", "last", "open"

    def __init__(self) -> None:
        self.changed, self.last = -1, -1
        self.open: list[int] = []


def open_ones(given: Sequence[Given], ends: Sequence[int]) -> set[int]:
    """The commands that a server may have taken after one of another connection that came later, or before one that came
    earlier, on the same key, where one of both changes it."""
    if any(one.arrival.command.verb == "flush_all" for one in given):
        return set(range(len(given)))
    found: set[int] = set()
    going: dict[bytes, dict[int, Going]] = {}
    for at, (arrival, _, _) in enumerate(given):
        changes = does(arrival.command) not in READING
        for key in arrival.command.keys:
            by_connection = going.setdefault(key, {})
            over: list[int] = []
            for connection, other in by_connection.items():
                if other.last < arrival.record:
                    over.append(connection)
                elif connection != arrival.connection:
                    if other.changed >= arrival.record:
                        found.add(at)
                    if changes:
                        found.update(one for one in other.open if ends[one] >= arrival.record)
                        other.open.clear()
            for connection in over:  # its commands had ended when this one came
                del by_connection[connection]
            own = by_connection.setdefault(arrival.connection, Going())
            own.open.append(at)
            own.last = max(own.last, ends[at])
            if changes:
                own.changed = ends[at]
    return found


# ---- answers


class InOrder:
    """What zygos answers near the order of arrival to the commands whose answers depend on the order: `found` by
    connection, session and number."""

    def __init__(self, arrivals: Kept, ones: Texts, others: Texts, callers: Callers, search: Search):
        given = list(with_answers(arrivals, arrivals.streams, ones, others))
        ends = ends_of(arrivals, given)
        self.open, self.callers = open_ones(given, ends), callers
        self.found: dict[tuple[int, int, int], Expected] = {}
        self.unsure: dict[bytes, int] = {}
        order = ordered(arrivals, given, ones, search)
        frames = tuple((given[at].arrival.command, given[at].arrival.frame) for at in order)
        self.causes = why.Causes(callers.as_one())
        self.causes.begin(0, 0, frames)
        self.replay(given, order, numbers_of(given), ends)

    def replay(self, given: Sequence[Given], order: Iterable[int], numbers: Sequence[int], ends: Sequence[int]) -> None:
        """Carries out all commands. A `cas` that succeeded in the recording alone named no unique of the other server."""
        replay = Replay()
        for place, at in enumerate(order):
            arrival, one, other = given[at]
            command = arrival.command
            is_translated = one == other or not (one or b"").startswith(DONE)
            _, text = replay.carry_out(command, arrival.frame, one, is_translated)
            if one is not None and command.verb != "stats":
                found = self.compared(place, arrival, one, text, at in self.open)
                if self.callers.has_order(command):
                    self.found[(*arrival.key, numbers[at])] = Expected(text, found)
            if does(command) not in READING and at in self.open:
                for key in command.keys:
                    self.unsure[key] = max(self.unsure.get(key, 0), ends[at])

    def compared(self, place: int, arrival: Arrival, one: bytes, text: bytes,
                 is_open: bool) -> Mapping[bytes, tuple[str, ...]]:
        """By key why the recorded answer is not this one."""
        command = arrival.command
        if alike(one, text):
            self.causes.agreed_on(command)
            for key in command.keys:
                if self.unsure.get(key, arrival.record) < arrival.record and (does(command) in SHOWING or command.verb == "ms"):
                    del self.unsure[key]
            return NO_CAUSES
        line = line_of(arrival.frame)
        exchange = Exchange(BOTH, place, place, None, line, [(place, line, command)], (0, one), (0, text))
        shown = self.causes.seen(command, one, text)
        return {key: self.all_of(cause, key, shown.get(key), is_open) for key, cause in self.causes.by_key(exchange).items()}

    def all_of(self, cause: str | tuple[str, ...], key: bytes, shown: why.Seen | None,
               is_open: bool) -> tuple[str, ...]:
        """A cause, with the times where commands that came at one time may be another one."""
        if isinstance(cause, tuple):
            return cause
        if cause not in (why.BEFORE, why.EXPIRY, why.LOST, why.SERVERS):
            return (cause,)
        value = shown.values[0] if shown and key in self.callers.second else None
        if value is not None and not self.callers.may_store(key, value):
            return (why.BEFORE,)
        if not is_open and key not in self.unsure:
            return (cause,)
        return (why.TIMES,) if cause == why.SERVERS else (cause, why.TIMES)


def numbers_of(given: Iterable[Given]) -> list[int]:
    """The number of each command among those of its session."""
    seen, found = Counter[tuple[int, int]](), []
    for one in given:
        found.append(seen[one.arrival.key])
        seen[one.arrival.key] += 1
    return found
