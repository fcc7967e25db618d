"""What a window shows of the items that its server had when it began, and a copy of a window that asks for such items at its
end.

A key's first item is shown by a retrieval that was answered before any change of the key was sent, or by one that shows a
value which no change stores that was sent before. No command is in flight between two windows. So a retrieval of a key at
that moment would have been answered with this item, and would have changed none: an order of the copy is one of the
window itself, without the retrieval.
"""
from __future__ import annotations

import json
import os
import re
import zlib
from collections.abc import Container, Iterable, Mapping
from typing import AbstractSet, Any, NamedTuple, Optional

from zygos_tools.files.formats import Item as Kept
from zygos_tools.files.formats import (END, MOST_CONNECTIONS, MOST_KEY, Items, big, items_bound, items_file, items_records,
                                       output_start, segment, shown)
from zygos_tools.files.formats import read_items as read_items_file
from zygos_tools.files.inputs import capture_alone, outputs_in, parts
from zygos_tools.files.outputs import Beside
from zygos_tools.judging import pairing, times
from zygos_tools.judging.doubts import leave_out_entering
from zygos_tools.judging.events import (ADD, APPEND, CAS, DECR, DELETE, FOREVER, GET, INCR, PREPEND, REPLACE, SET,
                                         brief)
from zygos_tools.judging.orders import Order
from zygos_tools.judging.reading import Recording
from zygos_tools.judging.seeing import Seeing
from zygos_tools.judging.table import (DROPPED, HAS_FLAGS, HAS_UNIQUE, HAS_VALUE, NO_KEY, REPLACED, W_HIT, W_MISS,
                                       WANT_BITS, WANT_OF, WANTS, Table)
from zygos_tools.protocol import meaning
from zygos_tools.protocol.rules import PADDED

# how many changes of a key are looked at
MOST_CHANGES = 200
# the calls that store a whole value, and the replies of those that change nothing
STORING = (SET, ADD, REPLACE, CAS)
UNCHANGED = tuple(WANT_OF[name] for name in ("not stored", "exists", "not found", "no number"))
# the replies of calls that found an item
FOUND_BY = {ADD: ("not stored",), **dict.fromkeys((REPLACE, APPEND, PREPEND, CAS), ("stored",))}
# a key that a line can have
LINE_KEY = re.compile(rb"[^\x00-\x20\x7f]{1,%d}" % MOST_KEY)
# the head of a capture, before its number of connections, and with it
MAGIC, HEAD = 8, 12


class Item(NamedTuple):
    """An item, as it is shown: its CAS value is None if it is not."""

    flags: int
    value: bytes
    unique: Optional[int]

    def is_same(self, other: Optional[Item]) -> bool:
        """Whether an item may be this one."""
        return other is not None and other[:2] == self[:2] and (self.unique is None or other.unique == self.unique)

    def told(self) -> str:
        """The item, to be printed."""
        cas = "" if self.unique is None else f", CAS value {self.unique}"
        return f"'{brief(self.value)}'{f' with flags {self.flags}' * bool(self.flags)}{cas}"


def told(item: Optional[Item]) -> str:
    """An item or none, to be printed."""
    return item.told() if item else "no item"


def is_same(wanted: Optional[Item], other: Optional[Item]) -> bool:
    """Whether a key that was shown to have an item, or none, may have had this one."""
    return wanted.is_same(other) if wanted else other is None


def items_in(name: str, keys: Container[bytes]) -> dict[bytes, Item]:
    """The items of these keys in an items file."""
    return read_items(name, keys)[0]


def read_items(name: str, keys: Container[bytes]) -> tuple[dict[bytes, Item], set[bytes]]:
    """The items of these keys in an items file, and which of the keys are lasting."""
    found: dict[bytes, Item] = {}
    lasting: set[bytes] = set()
    for part in parts(name, {}):
        for record in items_records(part, items_bound(part)):
            if not isinstance(record, Kept):
                lasting |= {record} if record in keys else set()
            elif record.key in keys:
                found[record.key] = Item(record.flags, record.value, record.unique)
    return found, lasting


# ---- what a window shows


class Makes(NamedTuple):
    """What the calls of a window may make of a key: values by their sums, numbers, and others."""

    sums: AbstractSet[int]
    numbers: bool
    others: bool

    def can_be(self, item: Item) -> bool:
        """Whether an item may be made by them."""
        return self.others or sum_of(item.value) in self.sums or self.numbers and PADDED.fullmatch(item.value) is not None


# of a key that was touched, or whose item was removed
NOTHING_MADE = Makes(frozenset(), False, False)


class Shown(NamedTuple):
    """What a window shows of its server: the items that keys surely had at first, or None of a key without one; those that
    others may have had, by the answer to the first call on each; what it may have made of the keys that it may have
    changed, which are all of them if `changes_all`; those that got an exptime; of keys the last CAS value that it shows;
    and whether it has nothing that a memcached may have read otherwise, so that no other key was changed."""

    firsts: dict[bytes, Optional[Item]]
    implied: dict[bytes, Optional[Item]]
    changed: dict[bytes, Makes]
    changes_all: bool
    expiring: set[bytes]
    uniques: dict[bytes, int]
    is_sure: bool

    def has_changed(self, key: bytes) -> bool:
        """Whether a key may have been changed."""
        return self.changes_all or key in self.changed


NOTHING_SHOWN = Shown({}, {}, {}, True, set(), {}, False)


def sum_of(value: bytes) -> int:
    """A sum of a value, which few others have."""
    return zlib.crc32(value)


class Firsts:
    """What a recording shows its server to have had at first."""

    def __init__(self, recording: Recording):
        self.table = recording.table
        self.found: dict[bytes, Optional[Item]] = {}
        self.uniques: dict[bytes, int] = {}
        # by key, when the first of its changes was sent, when one had surely been made, and these calls
        self.since: dict[int, int] = {}
        self.until: dict[int, int] = {}
        self.changes: dict[int, list[int]] = {}
        self.makes: dict[int, Makes] = {}
        self.touched: set[int] = set()
        self.expiring: set[int] = set()
        self.implied: dict[bytes, Optional[Item]] = {}
        self.met: set[int] = {NO_KEY}
        for call, key in enumerate(self.table.key):
            if key not in self.met:
                self.met.add(key)
                self.imply(call)
            self.note_change(call)
        for call, kind in enumerate(self.table.kind):
            if kind == GET and not self.table.state[self.table.command[call]] & DROPPED:
                self.see(call)

    def imply(self, call: int) -> None:
        """Takes an item that the first call on a key may have found."""
        table, kind, want = self.table, self.table.kind[call], WANTS[self.table.want[call] & WANT_BITS]
        key = table.keys[table.key[call]]
        if want == "number":
            amount = table.given[call] if kind == INCR else -table.given[call]
            self.implied[key] = Item(0, b"%d" % ((table.seen[call] - amount) % (1 << 64)), None)
        elif want in ("hit", "exists", "deleted", "no number") or want in FOUND_BY.get(kind, ()):
            value = b"" if kind in (APPEND, PREPEND) else b"x" if want == "no number" else b"0"
            self.implied[key] = Item(0, value, table.given[call] if kind == CAS and want == "stored" else None)
        elif kind not in (GET, SET) and want is not None:
            self.implied[key] = None

    def note_change(self, call: int) -> None:
        """Notes a call that may have changed its key, or all keys."""
        table, kind, command = self.table, self.table.kind[call], self.table.command[call]
        key, begin = table.key[call], table.begin[command]
        if kind == GET:
            if table.state[command] & REPLACED:
                self.touched.add(key)
            return
        if kind in STORING and may_expire(table, command):
            self.expiring.add(key)
        if table.want[call] & WANT_BITS in UNCHANGED:
            return
        self.since.setdefault(key, begin)
        self.note_value(call)
        if begin > self.until.get(key, FOREVER):
            return
        if table.want[call]:
            self.until[key] = min(self.until.get(key, FOREVER), table.end[command])
        self.changes.setdefault(key, []).append(call)

    def note_value(self, call: int) -> None:
        """Notes what a call may make of its key."""
        table, kind, key = self.table, self.table.kind[call], self.table.key[call]
        made = self.makes.get(key, NOTHING_MADE)
        if kind in STORING:
            sums = made.sums if isinstance(made.sums, set) else set[int]()
            sums.add(sum_of(table.value(call)))
            made = made._replace(sums=sums)
        self.makes[key] = made._replace(numbers=made.numbers or kind in (INCR, DECR),
                                        others=made.others or kind in (APPEND, PREPEND))

    def see(self, call: int) -> None:
        """Takes what a retrieval shows, if that is the first item of its key."""
        table, key = self.table, self.table.key[call]
        want, command = table.want[call], table.command[call]
        end, item = table.end[command], None
        if want & HAS_UNIQUE:
            self.uniques[table.keys[key]] = table.seen[call]
        if table.begin[command] > self.until.get(key, FOREVER):
            return
        if want & WANT_BITS == W_HIT and want & HAS_FLAGS and want & HAS_VALUE:
            item = Item(table.flags[call], table.value(call), table.seen[call] if want & HAS_UNIQUE else None)
        elif want & WANT_BITS != W_MISS:
            return
        if self.since.get(NO_KEY, end) < end or self.since.get(key, end) < end and self.may_be_stored(key, item, end):
            return
        name = table.keys[key]
        if name not in self.found or item and item.unique is not None:
            self.found[name] = item

    def may_be_stored(self, key: int, item: Optional[Item], end: int) -> bool:
        """Whether a change that was sent before a moment may have made this of its key; of many, that is taken to be so."""
        table, changes = self.table, self.changes[key]
        sent = [call for call in changes[: MOST_CHANGES + 1] if table.begin[table.command[call]] < end]
        return len(sent) > MOST_CHANGES or any(self.can_make(call, item) for call in sent)

    def can_make(self, call: int, item: Optional[Item]) -> bool:
        """Whether a change may have made this of its key."""
        table, kind = self.table, self.table.kind[call]
        if table.want[call] & WANT_BITS == WANT_OF["failed"]:
            return item is None
        if item is None:
            return kind not in STORING
        if kind in (INCR, DECR):
            return PADDED.fullmatch(item.value) is not None
        return kind != DELETE and (kind not in STORING or table.value(call) == item.value)

    def changed(self) -> dict[bytes, Makes]:
        """What may have been made of the keys that may have been changed, or that got an exptime."""
        return {self.table.keys[key]: self.makes.get(key, NOTHING_MADE) for key in self.touched | self.since.keys()
                if key != NO_KEY}


def shown_in_order(table: Table, order: Order) -> Optional[int]:
    """The CAS value that is shown of the item at first of a key, in an order of its calls."""
    for call, mark in zip(order.calls, order.marks):
        if mark:
            return None
        if table.want[call] & HAS_UNIQUE:
            return table.seen[call]
    return None


def needed(table: Table, orders: Mapping[bytes, Order], known: Mapping[bytes, Item]) -> dict[bytes, Item]:
    """The items that keys have at first in orders of their calls, if they were known with other CAS values."""
    found = {key: (item, shown_in_order(table, orders[key])) for key, item in known.items() if key in orders}
    return {key: item._replace(unique=unique) for key, (item, unique) in found.items() if unique not in (None, item.unique)}


def may_expire(table: Table, command: int) -> bool:
    """Whether a command that stores may give its item an exptime."""
    words = meaning.line_of(table.original(command)).split()
    return len(words) < 5 or words[0] == b"ms" or words[3].strip(b"0") != b""


def shown_by(names: list[str], given: dict[str, Any]) -> Shown:
    """What a recording shows."""
    recording = Recording(capture_alone(names[0]), given.get("--shards", 16))
    unfollowed = pairing.pair(recording, outputs_in(names[1])[0])
    times.set_times(recording, given.get("--times"))
    leave_out_entering(recording)
    seeing = Seeing(recording, lambda _: True)
    seeing.all()
    found = Firsts(recording)
    is_sure = not (unfollowed or seeing.faults or recording.odd or recording.outside or recording.surplus or recording.tails
                   or recording.forgetting or recording.entered or recording.unsure)
    expiring = {recording.table.keys[key] for key in found.expiring | found.touched}
    return Shown(found.found, found.implied, found.changed(), NO_KEY in found.since, expiring, found.uniques, is_sure)


def line_of(names: list[str], given: dict[str, Any]) -> str:
    """The same as a line of JSON."""
    found = shown_by(names, given)
    return json.dumps({"firsts": texts_of(found.firsts), "implied": texts_of(found.implied),
                       "changed": [[text_of(key), list(made.sums), *made[1:]] for key, made in found.changed.items()],
                       "all": found.changes_all,
                       "expiring": list(map(text_of, found.expiring)),
                       "uniques": [[text_of(key), unique] for key, unique in found.uniques.items()], "sure": found.is_sure})


def of_line(found: Any) -> Shown:
    """What such a line says; nothing is known if it says something else."""
    if not found or "firsts" not in found:
        return NOTHING_SHOWN
    firsts, implied = items_of(found["firsts"]), items_of(found["implied"])
    changed = {bytes_of(key): Makes(set(sums), *more) for key, sums, *more in found["changed"]}
    return Shown(firsts, implied, changed, found["all"], set(map(bytes_of, found["expiring"])),
                 {bytes_of(key): unique for key, unique in found["uniques"]}, found["sure"])


def texts_of(items: Mapping[bytes, Optional[Item]]) -> list[Any]:
    """Items by their keys, for JSON."""
    return [[text_of(key), item and [item.flags, text_of(item.value), item.unique]] for key, item in items.items()]


def items_of(texts: Iterable[Any]) -> dict[bytes, Optional[Item]]:
    """The items of such texts."""
    return {bytes_of(key): item and Item(item[0], bytes_of(item[1]), item[2]) for key, item in texts}


def text_of(key: bytes) -> str:
    """Bytes as a text of JSON."""
    return key.decode("latin-1")


def bytes_of(text: str) -> bytes:
    """The bytes of such a text."""
    return text.encode("latin-1")


def begin_with(shown: Shown, name: str, left: str = "") -> None:
    """Writes an items file with which a window can begin: of what was left, if something was, with what it shows."""
    items: dict[bytes, Kept] = {}
    bound, lasting = 0, list[bytes]()
    if left:
        kept = next(read_items_file(part) for part in parts(left, {}))
        bound, lasting, items = kept.bound, kept.lasting, {one.key: one for one in kept.items}
    for key, item in {**shown.implied, **shown.firsts}.items():
        if item is None:
            items.pop(key, None)
        elif key in shown.firsts or key not in items or item.unique is not None:
            unique = items[key].unique if key in items else 0
            items[key] = Kept(key, item.flags, unique if item.unique is None else item.unique, item.value)
    bound = max([bound, *(one.unique for one in items.values())])
    with Beside(name, True) as file:
        file.write([items_file(Items(bound, [items[key] for key in sorted(items)], lasting))])


# ---- a copy that asks for them


def can_ask(key: bytes) -> bool:
    """Whether a line can ask for a key."""
    return LINE_KEY.fullmatch(key) is not None


def asked_for(key: bytes, item: Optional[Item]) -> tuple[bytes, bytes]:
    """A retrieval of a key, and the answer that shows this item."""
    if item is None:
        return b"get %s\r\n" % key, b"END\r\n"
    head, more = (b"get", b"") if item.unique is None else (b"gets", b" %d" % item.unique)
    return (b"%s %s\r\n" % (head, key),
            b"VALUE %s %d %d%s\r\n%s\r\nEND\r\n" % (key, item.flags, len(item.value), more, item.value))


def copy_asking(names: list[str], items: dict[bytes, Optional[Item]], folder: str) -> list[str]:
    """Writes a copy of a recording in which one more connection asks for these keys at the end, and is shown these items.
    Gives its files; none if the recording can have no more connections."""
    capture = capture_alone(names[0])
    count = int.from_bytes(capture[MAGIC:HEAD], "big")
    if count >= MOST_CONNECTIONS:
        return []
    asked = [asked_for(key, item) for key, item in items.items()]
    copies = [os.path.join(folder, name) for name in ("copy.cap", "copy.replies")]
    with open(copies[0], "wb") as file:
        file.write(capture[:MAGIC] + big(4, count + 1) + capture[HEAD : -len(END)])
        file.writelines(segment(count, sent) + segment(count, b"") for sent, _ in asked)
        file.write(END)
    kept: list[bytes] = []
    outputs = outputs_in(names[1], keep=kept.append)[0]
    replies, last = b"".join(kept), outputs[-1].connection if outputs else -1
    version = int(replies[6:7])
    with open(copies[1], "wb") as file:
        file.write(replies[: -len(END)])
        file.writelines(output_start(version, connection, 0, 0) for connection in range(last + 1, count))
        answers = b"".join(answer for _, answer in asked)
        file.write(output_start(version, count, 0, len(answers)) + answers + END)
    return copies


def named(keys: Iterable[bytes]) -> str:
    """Keys, to be printed."""
    return ", ".join(map(shown, keys))
