"""What commands and their recorded answers say of the items of keys: how a server that answered so went on from an item.

The server is a memcached: a number that became shorter keeps its length, with spaces.
"""
from __future__ import annotations

from enum import Enum
from typing import Final, NamedTuple, Union

from zygos_tools.protocol import rules
from zygos_tools.protocol.answers import first_word, items, meta
from zygos_tools.protocol.meaning import Command
from zygos_tools.protocol.table import COUNTING, JOINING, SAME, classic_word, does


class Item(NamedTuple):
    """The item of a key, with its unique where that was shown."""

    flags: int
    value: bytes
    unique: int | None = None


class Mark(Enum):
    """What there is in place of an item: one of which nothing is known; none, as the server would answer otherwise."""

    UNKNOWN = "unknown"
    WRONG = "wrong"


UNKNOWN: Final = Mark.UNKNOWN
WRONG: Final = Mark.WRONG
# what is known of a key: its item, None where it has none
Known = Union[Item, Mark, None]
# a unique that no command gives; the first words of answers, by replies
NO_UNIQUE = -1
WORDS = {"stored": b"STORED", "not stored": b"NOT_STORED", "exists": b"EXISTS", "not found": b"NOT_FOUND",
         "deleted": b"DELETED", "no number": b"CLIENT_ERROR", "too large": b"SERVER_ERROR"}


def shown(command: Command, answer: bytes) -> dict[bytes, Known]:
    """The items that an answer to a retrieval shows, by key: None for a miss, UNKNOWN for one that is not shown whole."""
    found: dict[bytes, Known] = dict.fromkeys(command.keys)
    if answer.startswith(b"VALUE "):
        for item in items(answer):
            if item.is_right() and item.flags is not None:
                found[item.key] = Item(item.flags, item.value, item.unique)
    elif answer.startswith((b"HD", b"VA ")):
        shows = meta(answer)
        is_shown = shows.flags is not None and shows.value is not None
        found[command.keys[0]] = Item(shows.flags or 0, shows.value or b"") if is_shown else UNKNOWN
    elif answer.startswith(b"TOUCHED"):
        found[command.keys[0]] = UNKNOWN
    return found


class Seen:
    """What is known of a command by its answer, which may be None where it is not known."""

    def __init__(self, command: Command, answer: bytes | None):
        self.command, self.name = command, does(command)
        self.is_retrieval = self.name in ("get", "touch")
        self.items = shown(command, answer) if self.is_retrieval and answer is not None else None
        self.word = classic_word(self.name, first_word(answer)) if answer and answer.strip() else None
        self.is_reading = self.is_retrieval or self.word in SAME

    def after(self, key: bytes, item: Known) -> Known:
        """The item of a key after the command, if there was this one before; WRONG if a server then answers otherwise."""
        if isinstance(item, Mark):
            return self.left(key, item)
        if self.is_retrieval:
            return self.read(key, item)
        word, new = self.made(item)
        return new if self.word in (None, word) else WRONG

    def read(self, key: bytes, item: Item | None) -> Known:
        """The item of a key after a retrieval."""
        found = self.items[key] if self.items else item
        if item is None or found is None:
            return item if found is item else WRONG
        if isinstance(found, Mark):
            return item
        if item[:2] != found[:2] or None not in (item.unique, found.unique) and item.unique != found.unique:
            return WRONG
        return item if found.unique is None else found

    def made(self, item: Item | None) -> tuple[bytes, Known]:
        """What a server with this item answers, and the item after it."""
        command, numbers = self.command, self.command.numbers
        if self.name == "cas" and item and item.unique is None and self.word != b"EXISTS":
            return b"STORED", self.stored()  # the unique may be the one that is given
        old = rules.Item(item.flags, item.value, NO_UNIQUE if item.unique is None else item.unique) if item else None
        given = numbers.get("amount" if self.name in COUNTING else "unique", 0)
        done = rules.step(self.name, old, numbers.get("flags", 0), command.value or b"", given, is_padded=True)
        word = b"%d" % done.number if done.reply == "number" else WORDS[done.reply]
        if done.left is old:
            return word, item
        is_its_own = self.name not in JOINING and self.name not in COUNTING
        return word, self.stored() if done.left and is_its_own else Item(*done.left[:2]) if done.left else None

    def stored(self) -> Item | Mark:
        """The item that the command stores."""
        return Item(self.command.numbers["flags"], self.command.value) if self.command.value is not None else UNKNOWN

    def left(self, key: bytes, item: Known) -> Known:
        """The item of a key after the command, by the answer alone."""
        if self.is_retrieval:
            return self.items[key] if self.items else item
        if self.word == b"STORED" and self.name not in JOINING or self.name == "set" and not self.is_reading:
            return self.stored()
        if self.name == "delete" or self.word == b"NOT_FOUND" or self.word == b"NOT_STORED" and self.name != "add":
            return None
        if self.name in COUNTING and self.word and self.word.isdigit():
            return Item(item.flags if isinstance(item, Item) else 0, self.word)
        return UNKNOWN
