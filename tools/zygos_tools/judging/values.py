"""The values that items have, by number, and what calls make of them."""
from __future__ import annotations

import re

from zygos_tools.files.formats import MOST_VALUE
from zygos_tools.judging.events import APPEND, INCR, Event
from zygos_tools.protocol.rules import PADDED, counted, joined

# what memcached counts: spaces may come before it, and what comes after the first space or NUL does not matter
BEGUN = re.compile(rb"[ \t\n\v\f\r]*\+?0*([0-9]{1,20})(?:[ \t\n\v\f\r\0].*)?", re.DOTALL)


class Values:
    """Flags and values by number, from 1 on; 0 is none. A number that became shorter may keep its length, with spaces
    after it, as memcached's do. With `is_wide` all that memcached counts is a number, as a padded number to which a
    value was joined."""

    def __init__(self, is_wide: bool = False):
        self.numbers: dict[tuple[int, bytes], int] = {}
        self.pairs: list[tuple[int, bytes]] = [(0, b"")]
        self.joins: dict[tuple[int, int, bytes | None], int | None] = {}
        self.counts: dict[tuple[int, int, int], tuple[int, list[int]] | None] = {}
        self.digits: dict[int, int | None] = {}
        self.pattern = BEGUN if is_wide else PADDED

    def number(self, flags: int, value: bytes) -> int:
        """The number of these flags and this value."""
        pair = flags, value
        found = self.numbers.get(pair)
        if found is None:
            found = self.numbers[pair] = len(self.pairs)
            self.pairs.append(pair)
        return found

    def numeric(self, item: int) -> int | None:
        """The number that a value is; None where it is none."""
        if item not in self.digits:
            match = self.pattern.fullmatch(self.pairs[item][1]) if item > 0 else None
            self.digits[item] = int(match[1]) if match and int(match[1]) < 1 << 64 else None
        return self.digits[item]

    def joined(self, item: int, event: Event) -> int | None:
        """The number of a value with another one joined to it; None where that is too large."""
        key = item, event.kind, event.value
        if key not in self.joins:
            flags, old = self.pairs[item]
            piece = event.value or b""
            value = joined("append" if event.kind == APPEND else "prepend", old, piece)
            self.joins[key] = None if len(value) > MOST_VALUE else self.number(flags, value)
        return self.joins[key]

    def counted(self, item: int, event: Event) -> tuple[int, list[int]] | None:
        """What counting makes of a value: the number, and the items that it may leave; None where it is no number."""
        key = item, event.kind, event.given
        if key not in self.counts:
            self.counts[key] = self.count(item, event)
        return self.counts[key]

    def count(self, item: int, event: Event) -> tuple[int, list[int]] | None:
        """The same, worked out."""
        old, amount = self.numeric(item), event.given
        if old is None:
            return None
        flags, value = self.pairs[item]
        number = counted("incr" if event.kind == INCR else "decr", old, amount)
        digits = b"%d" % number
        left = [self.number(flags, digits)]
        if len(digits) < len(value):
            left.insert(0, self.number(flags, digits.ljust(len(value))))
        return number, left
