"""Why no order explains the calls on a few keys: a few of these calls that have none, whatever the others do.

What is left out is left out soundly: calls before a time may have left anything, calls that end after the first time
that no order gets past may not have been made, reads may always be left out, and what a call answered may be
forgotten. So the calls that are left have no order either, and that can be seen by going through them by hand.
"""
from __future__ import annotations

import copy
from bisect import bisect_left, bisect_right
from collections.abc import Iterable, Iterator, Sequence
from dataclasses import replace

from zygos_tools.files.formats import shown
from zygos_tools.judging.events import (ADD, APPEND, CAS, DECR, FLUSH, FOREVER, GET, INCR, PREPEND, REPLACE, SET,
                                        Event, No, Unknown, Verdict)
from zygos_tools.judging.keys import Calls, Keys
from zygos_tools.judging.needs import ITEM, NUMBER, Needs, Thing, wanted
from zygos_tools.judging.search import OPEN, GaveUp, Search, Stuck
from zygos_tools.judging.states import ABSENT, ANYTHING, NOTHING_KNOWN
from zygos_tools.judging.values import BEGUN
from zygos_tools.protocol.meaning import line_of
from zygos_tools.protocol.rules import PADDED
from zygos_tools.protocol.table import is_touching

# how many searches are made, how many states each looks at, and how many calls are printed
MOST_SEARCHES, MOST_STATES, MOST_PRINTED = 300, 3000, 12
# how many begins and ends of calls are looked at first, on both sides of a time
FIRST_TIMES = 32
# a number from which on memcached also reads what an older item left in memory
MOST_SIGNED = 1 << 63


def has_exptime(event: Event) -> bool:
    """Whether a call gives an item an exptime, on a memcached."""
    original = event.table.original(event.command)
    if is_touching(line_of(original)):
        return True
    return event.kind not in (GET, FLUSH) and bool(event.table.meaning(event.command).numbers.get("exptime", 0))


def expiry(event: Event, number: int) -> Event:
    """A call that may remove the item of a key, or not, just before another call on it."""
    event = copy.copy(event)
    event.id, event.kind, event.want, event.item, event.optional = -number, SET, "failed", None, False
    return event


def may_pad(event: Event) -> bool:
    """Whether a call may have made a number shorter, which then keeps its length in memcached, with spaces."""
    if event.kind not in (INCR, DECR) or event.want not in ("number", None):
        return False
    if event.want is None or event.number is None:
        return event.kind == DECR
    number, amount = event.number, event.given
    if event.kind == INCR:
        return number < amount
    return number == 0 or len(str(number + amount)) > len(str(number))


def beside_counts(events: Iterable[Event]) -> list[Event]:
    """The retrievals of a key that show a CAS value and overlap an `incr` or `decr` of it. If another client reads the
    item, memcached makes a new one, and gives both the new CAS value, which that client may then show."""
    events = list(events)
    counts = sorted((event.begin, event.end) for event in events
                    if event.kind in (INCR, DECR) and event.want in ("number", None))
    begins = [begin for begin, _ in counts]
    latest: list[int] = []
    for _, end in counts:
        latest.append(max(end, latest[-1] if latest else end))
    found = []
    for event in events:
        at = bisect_right(begins, event.end)
        if event.kind == GET and event.unique is not None and at and latest[at - 1] >= event.begin:
            found.append(event)
    return found


def without_unique(event: Event) -> Event:
    """A retrieval of which the CAS value is not looked at."""
    event = copy.copy(event)
    event.unique = None
    return event


def is_odd_number(event: Event) -> bool:
    """Whether a call stores a value that memcached alone counts."""
    if event.kind not in (SET, ADD, REPLACE, CAS) or event.value is None or PADDED.fullmatch(event.value):
        return False
    return BEGUN.fullmatch(event.value) is not None


def is_doubtful_number(event: Event) -> bool:
    """Whether a call stores a value of which memcached may count what an older item left in memory."""
    value = event.value if event.kind in (SET, ADD, REPLACE, CAS) else None
    return value is not None and (not value.strip() or value.strip().isdigit() and int(value) >= MOST_SIGNED)


def reason_of(keys: Keys, calls: Calls, at: int) -> Verdict:
    """What is said of calls that have no order: if they have one as far as they are surely known, that is unknown."""
    reason = Reason(keys, calls, at)
    events, doubt = keys.doubts.loosened(calls.events, calls.states.loses) if keys.doubts else (calls.events, None)
    if doubt is None:
        return reason.verdict()
    loose = Reason(keys, replace(calls, events=events), at)
    loose.is_known = not keys.is_warm
    return loose.verdict() if loose.is_stuck(events) else reason.unknown(*doubt)


class Reason:
    """The calls on some keys that no order explains, up to about the time `at`; `is_known` says whether the items at
    first count."""

    def __init__(self, keys: Keys, calls: Calls, at: int):
        self.keys, self.calls, self.names, self.all, self.is_known = keys, calls, calls.names, calls.events, True
        self.events, self.states = calls.events, calls.states
        self.searches, self.at = 0, at

    def what(self) -> str:
        """The keys, to be printed."""
        names: str = ", ".join(map(shown, self.names))
        return f"key {names}" if len(self.names) == 1 else f"keys {names}"

    def unknown(self, why: str, command: int | None = None) -> Unknown:
        """That it is not known whether there is an order; because of this command, if one is given."""
        several = "it" if len(self.names) == 1 else "them"
        advice = "" if "--" in why else f"; --except-keys '{' '.join(map(shown, self.names))}' leaves {several} out"
        lines = [] if command is None else [self.keys.table.asked(command).told()]
        return Unknown(f"{self.what()}: {why}{advice}", None, lines, connections=[event.connection for event in self.all],
                       record=self.at // 2 if 0 <= self.at < FOREVER else None, keys=self.names)

    def no(self, why: str, lines: Sequence[str], events: Iterable[Event]) -> No:
        """That there is no order."""
        some = [event for event in events if not (event.optional and event.want is None)]
        ends = [event.end for event in some if event.end < FOREVER]
        record = max(ends) // 2 if ends else max((event.begin for event in some), default=0) // 2
        return No(f"{self.what()}: {why}", lines=lines, connections=[event.connection for event in some], record=record,
                  keys=self.names)

    def verdict(self) -> Verdict:
        """What is said of these calls."""
        if self.keys.is_warm:
            self.is_known = False
            if not self.is_stuck(self.all):
                return self.unknown("which item was there at first was not found")
            if self.may_be_large():
                return self.unknown("an item of nearly 1 MiB may have been there at first, to which nothing could be joined")
        doubt = self.doubt()
        if doubt:
            return self.unknown(doubt)
        lost = self.never_made() if self.is_known else None
        if lost:
            elsewhere = self.elsewhere(lost)
            why = "what this one answers is stored under other keys alone" if elsewhere else \
                f"no command stores what this one answers, and the store began empty{self.advice()}"
            flags = list(self.with_other_flags(lost))
            return self.no(why, [lost.told(bool(flags)), *elsewhere, *flags], [lost])
        if not self.shrink():
            came = ", from an empty store" if self.is_known else ""
            return self.no(f"no order of the {len(self.all)} calls explains their answers{came}{self.advice()}",
                           self.lines(), self.events)
        came = "from an empty store" if self.is_known else "whatever came before"
        why = f"no order of these commands explains their answers, {came}{self.advice()}"
        return self.no(why, self.lines(), self.events)

    def may_be_large(self) -> bool:
        """Whether there may be an order from an item at first to which nothing could be joined."""
        if not any(event.kind in (APPEND, PREPEND) and event.want == "not stored" for event in self.all):
            return False
        self.states.is_large = True
        try:
            return not self.is_stuck(self.all)
        finally:
            self.states.is_large = False

    def doubt(self) -> str | None:
        """Why it is not known whether there is an order, though none was found: what memcached does otherwise."""
        doubts = self.keys.doubts
        for name in self.names:
            if doubts and name in doubts.unsure:
                return doubts.unsure[name]
        if any(event.kind in (INCR, DECR) and event.want == "number" for event in self.all) and \
                any(map(is_doubtful_number, self.all)):
            return "a number of 2^63 and more, or white space: memcached counts what an older item left in memory too"
        if (any(self.may_join_a_pad(name) for name in self.names) or any(map(is_odd_number, self.all))) and \
                self.has_order_with_joins():
            return ("a value may have been joined to a padded number, which memcached goes on counting, or begins"
                    " with a number")
        if self.has_order_without_uniques():
            return ("a retrieval beside an `incr` or `decr` may show the CAS value after it with the number before it, if"
                    " memcached has several threads")
        if not self.states.loses and any(map(has_exptime, self.all)) and self.may_be_lost(self.all):
            return "an item may have been lost, as the key has an exptime: --may-forget allows losses"
        if self.keys.is_warm and not self.states.loses and self.may_expire():
            return "an item that was there at first may have had an exptime: --may-forget allows losses"
        forgotten = doubts.forgetting(self.all) if doubts and not self.states.loses else None
        return forgotten if forgotten and self.may_be_lost(self.all) else None

    def may_expire(self) -> bool:
        """Whether there may be an order where the items that were there at first have expired: at some time before the
        first store that surely took their place was sent, or between that and this store."""
        events = list(self.all)
        for number, name in enumerate(self.names):
            own = [event for event in events if event.key == name]
            stores = [event for event in own if event.kind in (SET, ADD, REPLACE, CAS) and event.want == "stored"]
            first = min(stores, key=lambda event: event.end, default=None)
            if first is not None:
                events.insert(events.index(first), expiry(first, 2 * number + 1))
            before = expiry(own[0], 2 * number + 2)
            before.connection, before.begin, before.end = before.id, -1, first.begin - 1 if first else FOREVER
            events.insert(0, before)
        return not self.is_stuck(events)

    def has_order_with_joins(self) -> bool:
        """Whether there may be an order where padded numbers to which values were joined are numbers."""
        calls = self.keys.calls_on(self.names, self.states.loses, is_wide=True)
        other = Reason(self.keys, calls, self.at)
        other.is_known = self.is_known
        return not (self.is_known and other.never_made()) and not other.is_stuck(other.all)

    def has_order_without_uniques(self) -> bool:
        """Whether there may be an order where retrievals that overlap a count of their key may show any CAS value."""
        beside = {event.id for name in self.names for event in beside_counts(one for one in self.all if one.key == name)}
        events = [without_unique(event) if event.id in beside else event for event in self.all]
        return bool(beside) and not self.is_stuck(events)

    def may_join_a_pad(self, name: bytes) -> bool:
        """Whether a number of the key may have got a pad, then a joined value, and then was counted again: of such a
        value memcached counts what comes before the first space."""
        events = [event for event in self.all if event.key == name]
        pads = [event for event in events if may_pad(event)]
        joins = [event for event in events if event.kind in (APPEND, PREPEND) and event.want in ("stored", None)]
        after = [event.begin for event in joins if any(pad.begin <= event.end for pad in pads)]
        return bool(after) and any(event.end >= min(after) and event is not pads[0] for event in events
                                   if event.kind in (INCR, DECR))

    def advice(self) -> str:
        """The words that may be missing."""
        advice = "; if the server held items before the recording, add --warm" if self.is_known else ""
        if not self.states.loses and self.may_be_lost(self.events):
            advice += "; if the server evicts items or was started again, add --may-forget"
        return advice

    def may_be_lost(self, events: Sequence[Event]) -> bool:
        """Whether there may be an order of these calls where items are lost."""
        self.states.loses = True
        try:
            return not self.is_stuck(events)
        finally:
            self.states.loses = False

    def never_made(self) -> Event | None:
        """A call that saw what nobody makes."""
        first = self.calls.first
        needs = Needs(self.all, self.states, first)
        for event in self.all:
            if event.kind == GET and event.item and first[event.key] != event.item:
                if not needs.make[needs.numbers[ITEM, event.key, event.item]]:
                    return event
        return None

    def elsewhere(self, event: Event) -> list[str]:
        """Lines about the value that a call saw, where it is stored under other keys alone."""
        store = self.keys.stored_elsewhere(event)
        if store is None:
            return []
        return [f"  stored only under {shown(store.key or b'')}, by {store.told().lstrip()}"]

    def with_other_flags(self, event: Event) -> Iterator[str]:
        """A line about the value that a call saw, if it is stored with other flags alone."""
        other = next((one for one in self.all if one.kind in (SET, ADD, REPLACE, CAS) and one.key == event.key
                      and one.value == event.value and one.flags != event.flags), None)
        if event.kind == GET and event.value is not None and other is not None:
            yield f"  the same value is stored with flags {other.flags}, by {other.told().lstrip()}"

    # ---- fewer calls

    def shrink(self) -> bool:
        """Leaves out calls as long as the others have no order. Gives whether the calls that are left surely have
        none."""
        if not self.cut_around():
            return False
        self.cut_behind()
        self.cut_before()
        self.drop_reads()
        self.forget()
        return True

    def cut_around(self) -> bool:
        """Cuts out the calls near the time where the search was stuck, an ever longer time. Gives whether they have no
        order."""
        times = sorted({time for event in self.all for time in (event.begin, event.end)})
        at, count = bisect_left(times, self.at), FIRST_TIMES
        while True:
            last, is_all = times[min(at + count, len(times) - 1)], at <= count
            self.events, is_known = self.until(last, self.all), self.is_known and is_all
            if not is_all:
                self.events = self.since(times[at - count])
            if self.is_stuck(self.events, is_known):
                self.is_known = is_known
                return True
            if is_all and last == times[-1]:
                self.events = self.all
                return False
            count *= 4

    def is_stuck(self, events: Sequence[Event], is_known: bool | None = None) -> bool:
        """Whether these calls surely have no order."""
        self.searches += 1
        is_known = self.is_known if is_known is None else is_known
        begin, first, slots = self.calls.begin, self.calls.first, self.calls.slots
        if not is_known:
            begin = NOTHING_KNOWN if slots is None else (NOTHING_KNOWN,) * len(self.names)
            first = dict.fromkeys(self.names, ANYTHING)
        try:
            self.keys.look()
            Search(events, begin, self.calls.step, MOST_STATES, Needs(events, self.states, first), slots).run()
        except Stuck:
            return True
        except (GaveUp, Unknown):  # there is no time left to find fewer
            return False
        return False

    def cut_behind(self) -> None:
        """Cuts off what comes after the first time at which there is no order any more."""
        times, events = sorted({event.end for event in self.events}), self.events
        least, most = 0, len(times) - 1
        while least < most:
            middle = (least + most) // 2
            if self.is_stuck(self.until(times[middle], events)):
                most = middle
            else:
                least = middle + 1
        self.events = self.until(times[most], events)

    def until(self, time: int, events: Sequence[Event]) -> list[Event]:
        """The calls up to a time, where those that had not ended may have been made or not."""
        return [event if event.end <= time else loosened(event, None) for event in events
                if event.begin < time and not (event.kind == GET and event.end > time)]

    def cut_before(self) -> None:
        """Cuts off what comes before the last time from which on there is no order, whatever came before."""
        ends = {event.end + 1 for event in self.events if event.end < FOREVER}
        times = sorted(ends.union(event.begin for event in self.events))
        least, most = -1, len(times) - 1
        while least < most:
            middle = (least + most + 1) // 2
            if self.is_stuck(self.since(times[middle]), False):
                least = middle
            else:
                most = middle - 1
        if least >= 0:
            self.events, self.is_known = self.since(times[least]), False

    def since(self, time: int) -> list[Event]:
        """The calls from a time on, where those that had begun may have been made or not."""
        return [event if event.begin >= time else loosened(event, event.want) for event in self.events
                if event.end >= time and not (event.begin < time and event.kind == GET)]

    def drop_reads(self) -> None:
        """Leaves out reads, many at a time at first."""
        size = max(1, sum(event.kind == GET for event in self.events) // 2)
        while self.searches < MOST_SEARCHES:
            reads, at = [event for event in self.events if event.kind == GET], 0
            while at < len(reads) and self.searches < MOST_SEARCHES:
                gone = set(map(id, reads[at : at + size]))
                left = [event for event in self.events if id(event) not in gone]
                if self.is_stuck(left):
                    self.events = left
                at += size
            if size == 1:
                break
            size = max(1, size // 2)

    def forget(self) -> None:
        """Lets calls be made or not, with whatever answer, as far as there is no order still."""
        for at, event in enumerate(self.events):
            if event.kind in (GET, FLUSH) or event.want in OPEN and event.optional or self.searches > MOST_SEARCHES:
                continue
            for want in (None, event.want):
                events = [*self.events[:at], loosened(event, want), *self.events[at + 1 :]]
                if self.is_stuck(events):
                    self.events = events
                    break

    # ---- lines

    def lines(self) -> list[str]:
        """The calls that are left, to be printed."""
        sure = [event for event in self.events if not (event.optional and event.want is None)]
        lines: list[str] = []
        origins = Origins(self, sure[:MOST_PRINTED])
        for event in sure[:MOST_PRINTED]:
            lines += [event.told(any(self.with_other_flags(event))), *origins.lines(event)]
        if len(sure) > MOST_PRINTED:
            lines.append(f"  and {len(sure) - MOST_PRINTED} more")
        if len(self.events) > len(sure):
            lines.append(f"  {others(len(self.events) - len(sure))}")
        return lines


class Origins:
    """Who may have stored what reads saw, or have deleted what they missed, of all calls on the keys of a reason; of
    those that are `printed` with it nothing more is said."""

    def __init__(self, reason: Reason, printed: Sequence[Event]):
        self.reason, self.all, self.printed = reason, reason.all, {event.id for event in printed}
        self.needs = Needs(reason.all, reason.states, reason.calls.first)

    def lines(self, event: Event) -> Iterator[str]:
        """A line about what a read saw, or about the number from which a call counted, if there is something to be
        said."""
        thing = self.thing(event)
        number = self.needs.numbers.get(thing) if thing else None
        if number is None or thing is None:
            return
        made = [self.all[place] for place in self.needs.makers[number]]
        name, done = ("deletes", "deleted") if thing[0] == ITEM and thing[2] == ABSENT else ("stores", "stored")
        counted = f"{thing[2]}, from which it counted" if thing[0] == NUMBER else None
        if not made:
            yield f"  no command {name} {counted or 'it'}"
            if thing[0] == ITEM and thing[2] != ABSENT:
                yield from self.reason.elsewhere(event) or self.reason.with_other_flags(event)
        elif not all(one.id in self.printed for one in made):
            yield f"  {f'{counted}, is ' if counted else ''}{done} {self.who(made, event.end)}"

    @staticmethod
    def thing(event: Event) -> Thing | None:
        """What a call saw: an item, that there is none, or the number from which it counted."""
        if event.kind == GET and event.want is not None:
            item = event.item if event.want == "hit" else ABSENT
            return None if item is None else (ITEM, event.key, item)
        return next((thing for thing in wanted(event, False) if thing[0] == NUMBER), None)

    def who(self, made: list[Event], end: int) -> str:
        """These calls, by one of them: the last that began before a time."""
        before = [one for one in made if one.begin < end]
        told = (before[-1] if before else made[0]).told().lstrip()
        if len(made) == 1:
            return f"only by {told}"
        return f"by {len(made)} commands, {'the last before it' if before else 'all later, the first'}: {told}"


def loosened(event: Event, want: str | None) -> Event:
    """A call that may have been made or not, of which this reply was seen."""
    event = copy.copy(event)
    event.optional, event.want = True, event.want if event.want == "failed" else want
    return event


def others(count: int) -> str:
    """What is said of calls that do not matter."""
    one = count == 1
    return f"{count} other{'' if one else 's'} that may have been made then, or not, do{'es' if one else ''} not help"
