"""What a call does to the item of its key: the one place that says so, from the tables of docs/PROFILE.md.

`step` says it of zygos, and of a memcached if numbers that become shorter keep their length. Items have a unique, which
the store that keeps them gives; so a new item is its flags and its value.
"""
from __future__ import annotations

import re
from typing import NamedTuple, Optional, Tuple, Union

from zygos_tools.files.formats import MOST_VALUE

# the numbers that count; a memcached also counts one with spaces behind it
DIGITS, PADDED = re.compile(rb"[0-9]{1,20}"), re.compile(rb"([0-9]{1,20}) *")
MOST_NUMBER = 1 << 64


class Item(NamedTuple):
    """An item of a shard."""

    flags: int
    value: bytes
    unique: int


# what is stored: flags and a value
Stored = Tuple[int, bytes]


class Done(NamedTuple):
    """What a call did: the name of its reply, what it left, and the number in the reply. It left the item that was there,
    another one, or none."""

    reply: str
    left: Optional[Union[Item, Stored]]
    number: int = 0


def joined(kind: str, old: bytes, piece: bytes) -> bytes:
    """A value with a piece appended or prepended."""
    return old + piece if kind == "append" else piece + old


def counted(kind: str, old: int, amount: int) -> int:
    """The number after counting up, modulo 2^64, or down to no less than 0."""
    return (old + amount) % MOST_NUMBER if kind == "incr" else max(0, old - amount)


def number_in(value: bytes, is_padded: bool = False) -> int | None:
    """The number that a value is; None if it is none."""
    found = (PADDED if is_padded else DIGITS).fullmatch(value)
    number = int(found[found.lastindex or 0]) if found else MOST_NUMBER
    return number if number < MOST_NUMBER else None


def step(kind: str, item: Item | None, flags: int = 0, value: bytes = b"", given: int = 0, is_padded: bool = False) -> Done:
    """Carries out a call on an item, or on none; `given` is the unique or the amount that it gives. With `is_padded` a
    number that becomes shorter keeps its length, with spaces."""
    if kind == "get":
        return Done("hit" if item else "miss", item)
    if kind == "delete":
        return Done("deleted" if item else "not found", None)
    if kind == "flush":
        return Done("flushed", None)
    if item is None:
        return without_item(kind, flags, value)
    if kind in ("append", "prepend"):
        new = joined(kind, item.value, value)
        return Done("too large", item) if len(new) > MOST_VALUE else Done("stored", (item.flags, new))
    if kind in ("incr", "decr"):
        return count(kind, item, given, is_padded)
    if kind == "cas" and item.unique != given:
        return Done("exists", item)
    return Done("not stored", item) if kind == "add" else Done("stored", (flags, value))


def without_item(kind: str, flags: int, value: bytes) -> Done:
    """Carries out a call that stores or counts, if its key has no item."""
    if kind in ("set", "add"):
        return Done("stored", (flags, value))
    return Done("not found" if kind in ("cas", "incr", "decr") else "not stored", None)


def count(kind: str, item: Item, amount: int, is_padded: bool) -> Done:
    """Counts up or down."""
    old = number_in(item.value, is_padded)
    if old is None:
        return Done("no number", item)
    number = counted(kind, old, amount)
    digits = b"%d" % number
    return Done("number", (item.flags, digits.ljust(len(item.value)) if is_padded else digits), number)
