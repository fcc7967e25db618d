"""An order of commands in which a server may have answered as it was recorded.

A server takes the commands of several connections in an order of its own. Each command was carried out after it came
and before it had ended: before the next one of its connection came or, if the ends of answers are known, before its
answer was whole. tools/judge searches for such an order. If it finds none soon, one near that of arrival is made, in
which a command may change places with those that came in between. One that changes nothing goes as soon as its
recorded answer fits the items of its keys. One that changes an item waits as long as it can. If a command has to go,
and its answer does not fit, a few that wait go before it, after which it does. What a command leaves may be gone before
anybody sees it: then it goes right before the next one that stores or deletes. If such an order explains fewer answers
than that of arrival, which the plain model says, that is taken.
"""
from __future__ import annotations

from collections import Counter, deque
from collections.abc import Iterable, Iterator, Sequence
from heapq import heappop, heappush
from itertools import chain, count
from typing import NamedTuple

from zygos_tools.comparing.arrivals import Arrival, Arrivals, Given, Texts, ends_of
from zygos_tools.comparing.replaying import Replay
from zygos_tools.comparing.seen import UNKNOWN, WRONG, Item, Known, Mark, Seen
from zygos_tools.comparing.steps import alike
from zygos_tools.files.formats import Output
from zygos_tools.files.inputs import name_of
from zygos_tools.files.part import Fault
from zygos_tools.judging.clock import Clock
from zygos_tools.judging.events import Limited, Verdict
from zygos_tools.judging.judge import Judge
from zygos_tools.protocol.meaning import line_of
from zygos_tools.protocol.order_files import Search, connections_of, digest, read_order
from zygos_tools.protocol.table import is_touching, keys_of

# how many states of a key judge looks at
LIMIT = 10000
# how many commands go before one that has to go, so that it fits, and how many items are tried for that
MOST, TRIED = 3, 400


class Last(NamedTuple):
    """The last command on a key that stores or deletes whatever was there: its place, what it was, and the item before
    it."""

    place: int
    seen: Seen
    item: Known


class Waiting:
    """A command that came and has no place yet, with what is known of it; `number` is its place among those that came."""

    __slots__ = "connection", "keys", "seen", "since", "number", "is_waiting"

    def __init__(self, arrival: Arrival, seen: Seen, since: int, number: int):
        self.connection, self.seen, self.since, self.number, self.is_waiting = (
            arrival.connection, seen, since, number, True)
        self.keys = dict.fromkeys(arrival.command.keys)


# what is counted of an item that a retrieval shows: its key, and its flags and value
Wanted = tuple[bytes, "tuple[int, bytes] | None"]


def wanted_of(key: bytes, item: Known) -> Wanted | None:
    """What is counted of an item that a retrieval shows."""
    if isinstance(item, Mark):
        return None
    return key, item and item[:2]


class Order:
    """The order, as commands come; `wanted` counts what retrievals show that have no place yet."""

    def __init__(self, wanted: Counter[Wanted | None], is_single: bool):
        self.is_single, self.wanted, self.is_unknown = is_single, wanted, False
        self.items: dict[bytes, Known] = {}
        # of each key, the commands that wait, in the order in which they came, and those of them that are the first of
        # their connections; and those that wait of each connection
        self.waiting: dict[bytes, dict[Waiting, None]] = {}
        self.first: dict[bytes, dict[Waiting, None]] = {}
        self.by_connection: dict[int, deque[Waiting]] = {}
        # commands by their numbers, each after those that are put right before it
        self.places: list[list[int]] = []
        self.last: dict[bytes, Last] = {}
        # the place of the last command of each connection that has one
        self.placed: dict[int, int] = {}
        # those that wait, by the record at whose time they had ended at the latest
        self.ends: list[tuple[int, int, Waiting]] = []
        self.count = count()

    def add(self, arrival: Arrival, seen: Seen, end: int) -> None:
        """Another command came, which had ended at the time of a record."""
        number = next(self.count)
        while self.ends and self.ends[0][0] < arrival.record:
            *_, one = heappop(self.ends)
            self.force(one)
        own = self.by_connection.setdefault(arrival.connection, deque())
        while own and (self.is_single or not arrival.command.keys):
            self.force(own[0])
        if not arrival.command.keys:
            self.other(arrival, number)
            return
        one = Waiting(arrival, seen, len(self.places), number)
        own.append(one)
        for key in one.keys:
            self.waiting.setdefault(key, {})[one] = None
        if own[0] is one:
            self.be_first(one)
        heappush(self.ends, (end, one.number, one))
        self.settle(one.keys)

    def all(self) -> Iterator[int]:
        """All commands in the order by their numbers, once all have come."""
        while self.ends:
            *_, one = heappop(self.ends)
            self.force(one)
        return chain.from_iterable(self.places)

    # ---- places

    def item(self, key: bytes) -> Known:
        """The item of a key now."""
        return self.items.get(key, UNKNOWN if self.is_unknown else None)

    def can_go(self, one: Waiting) -> bool:
        """Whether a command changes nothing, and fits the items of its keys."""
        fits = one.seen.is_reading and self.is_first(one)
        return fits and all(one.seen.after(key, self.item(key)) is not WRONG for key in one.keys)

    def is_first(self, one: Waiting) -> bool:
        """Whether a command waits, and no other one of its connection before it."""
        return one.is_waiting and self.by_connection[one.connection][0] is one

    def be_first(self, one: Waiting) -> None:
        """A command is the first that waits of its connection."""
        for key in one.keys:
            self.first.setdefault(key, {})[one] = None

    def first_on(self, key: bytes) -> list[Waiting]:
        """The commands that wait for a key and are the first of their connections, in the order in which they came."""
        return sorted(self.first.get(key, ()), key=lambda one: one.number)

    def leave(self, one: Waiting, place: int) -> None:
        """A command waits no more, and has this place."""
        one.is_waiting = False
        own = self.by_connection[one.connection]
        own.popleft()
        self.placed[one.connection] = place
        for key in one.keys:
            del self.waiting[key][one]
            del self.first[key][one]
            if one.seen.items:
                self.wanted[wanted_of(key, one.seen.items[key])] -= 1
        if own:
            self.be_first(own[0])

    def go(self, one: Waiting) -> list[bytes]:
        """A command comes next. Gives the keys in which others may go now."""
        self.leave(one, len(self.places))
        for key in one.keys:
            old = self.item(key)
            new = one.seen.after(key, old)
            self.items[key] = one.seen.left(key, old) if new is WRONG else new
            if not one.seen.is_reading:
                self.note(key, one.seen, old)
        self.places.append([one.number])
        own = self.by_connection[one.connection]
        return [*one.keys, *(own[0].keys if own else ())]

    def note(self, key: bytes, seen: Seen, old: Known) -> None:
        """A command that changed a key has its place next."""
        if seen.name in ("set", "delete"):
            self.last[key] = Last(len(self.places), seen, old)
        else:
            self.last.pop(key, None)

    def settle(self, keys: Iterable[bytes]) -> None:
        """Each command goes that changes nothing and fits; where an item is not known, after the one that left what it
        shows, if that waits."""
        left = list(keys)
        while left:
            key = left[-1]
            one = next(filter(self.can_go, self.first_on(key)), None)
            if one is None:
                left.pop()
                continue
            source = self.source(one, key) if self.item(key) is UNKNOWN else None
            if source:
                left += self.go(source)
            if self.is_first(one):
                left += self.go(one)

    def source(self, one: Waiting, key: bytes) -> Waiting | None:
        """The first command that waits and stores what another one shows."""
        item = one.seen.items[key] if one.seen.items else None
        if not isinstance(item, Item):
            return None
        return next((other for other in self.first_on(key) if other.seen.name == "set" and not other.seen.is_reading
                     and is_same(other.seen.stored(), item)), None)

    def force(self, one: Waiting) -> None:
        """A command goes now at the latest."""
        own = self.by_connection[one.connection]
        while one.is_waiting and own[0] is not one:
            self.force(own[0])
        if not one.is_waiting or not one.seen.is_reading and self.hide(one):
            return
        if one.seen.name == "set":
            self.show_others(one)
        for key in one.keys:
            if one.seen.after(key, self.item(key)) is WRONG:
                for other in self.path(one, key):
                    self.put(other)
        self.put(one)

    def put(self, one: Waiting) -> None:
        """A command goes, if it still waits, and no other one of its connection before it."""
        if self.is_first(one):
            self.settle(self.go(one))

    def hide(self, one: Waiting) -> bool:
        """Puts a command right before the last one on its key that stores or deletes, if that came later, it fits there, and
        what there is now is still shown, or what it leaves is not. Gives whether it did."""
        [key] = one.keys
        last, now = self.last.get(key), self.item(key)
        if last is None or last.place < one.since or last.place <= self.placed.get(one.connection, -1):
            return False
        new = one.seen.after(key, last.item)
        if new is WRONG or new is UNKNOWN or last.seen.after(key, new) is WRONG:
            return False
        is_new_shown = self.wanted[wanted_of(key, new)] > 0
        if new is not None and is_new_shown:
            return False
        is_shown = now is not UNKNOWN and self.wanted[wanted_of(key, now)] > 0
        if one.seen.after(key, now) is not WRONG and not is_shown and (one.seen.name != "set" or is_new_shown):
            return False
        self.leave(one, last.place)
        self.places[last.place].insert(0, one.number)
        self.last[key] = last._replace(item=new)
        return True

    def show_others(self, one: Waiting) -> None:
        """Before a `set`, those others go that only waiting retrievals show."""
        [key] = one.keys
        waiting = self.waiting[key]
        shown = Counter(wanted_of(key, other.seen.items[key]) for other in waiting if other.seen.items)
        for other in [other for other in self.changing(one, key) if other.seen.name == "set"]:
            item = wanted_of(key, other.seen.stored())
            if item and item != wanted_of(key, one.seen.stored()) and 0 < shown[item] == self.wanted[item]:
                self.put(other)

    def changing(self, one: Waiting, key: bytes) -> list[Waiting]:
        """The other commands that wait, may go now and change a key."""
        return [other for other in self.first_on(key) if other is not one and not other.seen.is_reading]

    def path(self, one: Waiting, key: bytes) -> list[Waiting]:
        """The fewest commands that wait after which one fits a key; none where none are found."""
        others, tried = self.changing(one, key), 0
        found = deque[tuple[Known, list[Waiting]]]([(self.item(key), [])])
        while found and tried < TRIED:
            item, path = found.popleft()
            for other in others:
                new = WRONG if other in path else other.seen.after(key, item)
                tried += 1
                if new is WRONG:
                    continue
                if one.seen.after(key, new) is not WRONG:
                    return [*path, other]
                if len(path) < MOST - 1:
                    found.append((new, [*path, other]))
        return []

    def other(self, arrival: Arrival, number: int) -> None:
        """A command without a key goes where it came: a `flush_all` and one that zygos does not serve after all that wait
        for the keys that it may change."""
        command, line, is_wide = arrival.command, line_of(arrival.frame), arrival.command.verb == "flush_all"
        keys = keys_of(command, line) if command.verb == "fault" and not is_touching(line) else ()
        for key in list(self.waiting) if is_wide else keys:
            while self.waiting.get(key):
                self.force(next(iter(self.waiting[key])))
        self.placed[arrival.connection] = len(self.places)
        self.places.append([number])
        if is_wide:
            self.items, self.is_unknown, self.last = {}, True, {}
        for key in keys:
            self.items[key] = UNKNOWN
            self.last.pop(key, None)


# ---- the order that is taken


def is_same(one: Known, other: Known) -> bool:
    """Whether two items have the same flags and value."""
    return isinstance(one, Item) and isinstance(other, Item) and one[:2] == other[:2]


def unexplained(order: Iterable[int], given: Sequence[Given], most: int) -> int:
    """How many commands in this order are not answered as it was recorded; no more than `most` are counted."""
    replay, count_of = Replay(), 0
    for at in order:
        arrival, answer, _ = given[at]
        _, text = replay.carry_out(arrival.command, arrival.frame, answer)
        count_of += answer is not None and arrival.command.verb != "stats" and not alike(answer, text)
        if count_of == most:
            break
    return count_of


def ordered(arrivals: Arrivals, given: Sequence[Given], texts: Texts, search: Search) -> list[int]:
    """The commands, by their places among those given, in an order that explains most of their recorded answers;
    `texts` are the recorded outputs."""
    by_arrival = list(range(len(given)))
    if search.order is not None:
        return in_turn(given, read_order(search.order, digest(arrivals.capture(), texts)), search.order)
    found = judged(arrivals, given, texts, search)
    if found:
        orders = iter([found, by_arrival])
    else:
        ends = ends_of(arrivals, given)
        seen = [Seen(one.arrival.command, one.answer) for one in given]
        orders = chain((near(given, seen, ends, is_single) for is_single in (True, False)), [by_arrival])
    best, least = by_arrival, len(given) + 1
    for order in orders:
        count_of = unexplained(order, given, least)
        if count_of < least:
            best, least = order, count_of
        if not least:
            break
    return best


def in_turn(given: Sequence[Given], connections: Iterable[int], name: str) -> list[int]:
    """Commands in the order in which their connections come."""
    left: dict[int, deque[int]] = {}
    order: list[int] = []
    for at, one in enumerate(given):
        left.setdefault(one.arrival.connection, deque()).append(at)
    for connection in connections:
        if not left.get(connection):
            raise Fault(f"{name_of(name)}: more commands of connection {connection} than the capture has")
        order.append(left[connection].popleft())
    if len(order) < len(given):
        raise Fault(f"{name_of(name)}: {len(order)} commands, and the capture has {len(given)}")
    return order


def judged(arrivals: Arrivals, given: Sequence[Given], texts: Texts, search: Search) -> list[int] | None:
    """The order that judge finds, if it finds one soon; a retrieval of several keys is where its last call is."""
    outputs = [Output(*key, text) for key, text in sorted(texts.items())]
    clock = Clock(search.seconds, search.tick)
    try:
        judge = Judge(arrivals.capture(), outputs, loses=True, limit=LIMIT, clock=clock, has_reasons=False)
        judge.run()
    except Limited as verdict:
        search.note(f"no order was found: {verdict.why.partition('; ')[0]}")
        return None
    except Verdict:
        if search.seconds is not None and clock.used() > search.seconds:
            search.say(f"no order was found in {search.seconds:g} seconds")
        return None
    counts = Counter(one.arrival.connection for one in given)
    return in_turn(given, connections_of(list(judge.places()), counts), arrivals.name)


def near(given: Sequence[Given], seen: Sequence[Seen], ends: Sequence[int], is_single: bool) -> list[int]:
    """An order near that of arrival; `seen` is what answers show. With `is_single` no two commands of a connection wait
    at one time."""
    order = Order(Counter(wanted_of(key, item) for one in seen for key, item in (one.items or {}).items()), is_single)
    for place, one, end in zip(given, seen, ends):
        order.add(place.arrival, one, end)
    return list(order.all())
