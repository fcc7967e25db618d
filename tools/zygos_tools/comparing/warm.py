"""Puts `set`s before a capture, of the items that the server held before: those that its recorded replies imply.

usage: tools/warm CAPTURE REPLIES > WARMED

    tools/warm my.cap my.replies > warm.cap
    ./zygos run < warm.cap | tools/compare --capture warm.cap my.replies -

`zygos run` begins empty, and a memcached usually does not. A key had an item before if its first command was answered
as if it had (a hit, DELETED, a number, NOT_STORED of `add`). The item has the value and flags that are shown first,
less what was added or appended by then. The number of a counter is the one that explains all counts, by the search of
tools/judge. A value that is never shown is empty, and its flags are 0. Values stored by another recorded client in
between do not count.

Each item becomes a `set` with `noreply`, before all else, in the connection that calls its key first. So connections,
sessions and answers stay as they are, and command numbers grow by the `set`s put in. If several connections call the
key, a run may serve another of them before; tools/inline serves all near the order of arrival. Items that unrecorded
clients stored count as items from before, and items without a command in the capture are left out. Replies do not show
exptimes, so 30 days are written; tools/compare then says of a lost item that its time may have passed.

CAPTURE is a file, and REPLIES may be -, standard input. Standard error has the number of items.
"""
from __future__ import annotations

import sys
from collections.abc import Iterable, Iterator, Mapping, Sequence

from zygos_tools.cli import ends
from zygos_tools.cli.screen import Screen, say
from zygos_tools.comparing.apart import stored_by
from zygos_tools.comparing.arrivals import Arrival, Arrivals, Texts, ends_of, recorded, streams_of, with_answers
from zygos_tools.files.formats import END, Close, Output, capture_start, close, pieces, segment
from zygos_tools.judging.clock import Clock
from zygos_tools.judging.events import Verdict, brief
from zygos_tools.judging.judge import Judge
from zygos_tools.protocol.answers import MOST_NUMBER, items, meta, number
from zygos_tools.protocol.meaning import Command, line_of
from zygos_tools.protocol.table import does, is_there, keys_of

# the seconds of 30 days, the most that memcached takes for a time from now on
EXPTIME = 2592000


class Item:
    """What is known of the item that a key may have had before the capture, as the commands go on.

    `before` and `after` were joined to its value so far, and `counted` was added to it without an answer. It is done once
    what follows says no more of it.
    """

    __slots__ = "connection", "is_there", "before", "after", "counted", "value", "flags", "is_done"

    def __init__(self, connection: int):
        self.connection, self.is_there, self.before, self.after, self.counted = connection, False, b"", b"", 0
        self.value: bytes | None = None
        self.flags: int | None = None
        self.is_done = False

    def show(self, flags: int | None, value: bytes | None) -> None:
        """The flags or the value of the item are shown, with what was joined to it; None for what is not shown."""
        if self.flags is None:
            self.flags = flags
        if self.value is None and value is not None:
            fits = value.startswith(self.before) and value.endswith(self.after)
            self.value = self.at_first(value[len(self.before) : len(value) - len(self.after)]) if fits else None
            self.is_done = not fits
        self.is_done = self.is_done or None not in (self.flags, self.value)

    def at_first(self, value: bytes) -> bytes:
        """A value without what was added to it."""
        found = number(value.rstrip(b" ")) if self.counted else None
        return value if found is None else b"%d" % ((found - self.counted) % MOST_NUMBER)

    def note(self, command: Command, there: bool | None, answer: bytes | None) -> None:
        """A command that was answered as if there was an item, as if there was none, or in a way that shows neither."""
        name, is_stored = does(command), answer is not None and answer.startswith((b"STORED", b"HD"))
        self.is_there = self.is_there or there is True
        if there is False or name in ("set", "delete") or name == "add" and not there:
            self.is_done = True
        elif name in ("replace", "cas"):
            self.is_done = is_stored
        elif name == "append":
            self.after += command.value or b""
        elif name == "prepend":
            self.before = (command.value or b"") + self.before
        elif name in ("incr", "decr") and command.quiet:
            self.counted += command.numbers["amount"] * (1 if name == "incr" else -1)
        else:  # a counter whose number is not shown, or a faulty line
            self.is_done = command.quiet or command.verb == "fault" and not there


# the flags and the value of an item, None for what is not known
Shown = tuple["int | None", "bytes | None"]
# what commands store by key: the value, after the record and the connection
Stored = Mapping[bytes, Sequence[tuple[int, int, "bytes | None"]]]


class Items:
    """The items from before a capture, by key; `stored` has what its commands store, each after its record and its
    connection."""

    def __init__(self, stored: Stored):
        self.found: dict[bytes, Item] = {}
        self.is_flushed, self.stored = False, stored

    def take(self, arrival: Arrival, answer: bytes | None, end: int) -> None:
        """A command, and what answered it, None where that is not known or there is no answer; and the record at whose time
        it had ended."""
        command = arrival.command
        if command.verb == "flush_all":
            self.is_flushed = True
            for old in self.found.values():
                old.is_done = True
        for name in dict.fromkeys(keys_of(command, line_of(arrival.frame))):
            if not self.is_flushed:
                self.found.setdefault(name, Item(arrival.connection))
            item = self.found.get(name)
            if item and not item.is_done:
                if not item.is_there and self.may_be_stored(name, arrival, answer, end):
                    item.is_done = True
                else:
                    self.look(item, name, command, answer)

    def may_be_stored(self, name: bytes, arrival: Arrival, answer: bytes | None, end: int) -> bool:
        """Whether what a command shows of a key may be what another client stored meanwhile."""
        shown = shown_by(arrival.command, name, answer)
        value = shown and shown[1]
        return any(record <= end and connection != arrival.connection and value in (None, other)
                   for record, connection, other in self.stored.get(name, ()))

    @staticmethod
    def look(item: Item, name: bytes, command: Command, answer: bytes | None) -> None:
        """What a command shows of an item."""
        if answer is None and not command.quiet:
            item.is_done = command.value is not None
            return
        shown = shown_by(command, name, answer)
        if shown is None:
            item.note(command, there_by(command, answer), answer)
            return
        item.is_there = True
        item.show(*shown)


def there_by(command: Command, answer: bytes | None) -> bool | None:
    """Whether an answer that shows no item says that there is one; None where it does not."""
    if command.quiet or answer is None:
        return None
    if command.verb in ("get", "gets") or answer.startswith(b"END"):
        return False
    if command.verb == "fault":
        return True if answer.startswith(b"TOUCHED") else None
    return is_there(does(command), answer)


def shown_by(command: Command, name: bytes, answer: bytes | None) -> Shown | None:
    """The flags and the value of an item that an answer shows, None for what it does not show; None where it shows
    none."""
    if answer is None:
        return None
    if answer.startswith(b"VALUE "):
        return next(((item.flags, item.value) for item in items(answer) if item.key == name and item.is_right()), None)
    if command.verb in ("incr", "decr") and (found := number(answer.strip())) is not None:
        amount = command.numbers["amount"]
        return None, b"%d" % ((found - amount) % MOST_NUMBER if command.verb == "incr" else found + amount)
    if command.verb == "mg" and answer.startswith((b"HD", b"VA ")):
        shows = meta(answer)
        return shows.flags, shows.value
    return None


def items_before(arrivals: Arrivals, name: str, clock: Clock) -> dict[bytes, Item]:
    """The items from before a capture, by key; `name` is that of its replies."""
    texts = recorded(arrivals, name)
    given = list(with_answers(arrivals, streams_of(arrivals.records()), texts))
    stored: dict[bytes, list[tuple[int, int, bytes | None]]] = {}
    counted: set[bytes] = set()
    for arrival, _, _ in given:
        for key in stored_by(arrival.command, arrival.frame):
            stored.setdefault(key, []).append((arrival.record, arrival.connection, arrival.command.value))
        if does(arrival.command) in ("incr", "decr"):
            counted.update(arrival.command.keys)
    found = Items(stored)
    for one, end in zip(given, ends_of(arrivals, given)):
        found.take(one.arrival, one.answer, end)
    there = {key: item for key, item in found.found.items() if item.is_there}
    for key, (flags, value) in numbers_before(arrivals, texts, sorted(counted & there.keys()), clock):
        there[key].flags, there[key].value = flags, value
    return there


def numbers_before(arrivals: Arrivals, texts: Texts, keys: Iterable[bytes],
                   clock: Clock) -> Iterator[tuple[bytes, tuple[int, bytes]]]:
    """The flags and the numbers that counters had before a capture, from orders of their calls that judge finds: several
    clients may have counted at one time, some of them without an answer."""
    if not keys:
        return
    try:
        judge = Judge(arrivals.capture(), [Output(*key, text) for key, text in sorted(texts.items())], is_warm=True,
                      clock=clock, has_reasons=False, is_first=False)
    except Verdict:
        return
    for key in keys:
        clock.set(f"key {brief(key)}")
        try:
            judge.keys.search([key])
        except Verdict:
            continue
        item = judge.keys.first.get(key)
        if item and number(item[1].rstrip(b" ")) is not None:
            yield key, item


def warmed(arrivals: Arrivals, found: Mapping[bytes, Item]) -> Iterator[bytes]:
    """The pieces of the capture, after the sets."""
    records = arrivals.records()
    first = next(records, None)
    yield capture_start(arrivals.count, arrivals.version)
    for name, item in found.items():
        value = item.value or b""
        line = b"set %s %d %d %d noreply\r\n" % (name, item.flags or 0, EXPTIME, len(value))
        yield from pieces(item.connection, line + value + b"\r\n")
    for _, record in [first, *records] if first else []:
        yield close(record.connection) if isinstance(record, Close) else segment(*record)
    yield END


def main(words: list[str]) -> None:
    _, files = ends.options(words, {})
    if len(files) != 2 or files[0] == "-":
        ends.stop("a capture, which is a file, and its replies are read; --help says more", 2)
    arrivals, screen = Arrivals(files[0]), Screen()
    found = items_before(arrivals, files[1], Clock(show=screen.ticker()))
    screen.clear()
    sys.stdout.buffer.writelines(warmed(arrivals, found))
    unknown = sum(item.value is None for item in found.values())
    sys.stdout.flush()
    also = f", {unknown} of a value that was not shown" if unknown else ""
    say(f"{len(found)} items{also}")
