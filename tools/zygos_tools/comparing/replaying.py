"""Carries out recorded commands on the plain model, one after the other, with the uniques that it has.

A unique that a recorded answer shows of a key stands for that of the item which is here at that command. One that
nothing showed, and with which a `cas` succeeded, stands for that of the item that is here; any other is that of none.
"""
from __future__ import annotations

from zygos_tools.protocol.answers import items, meta
from zygos_tools.protocol.meaning import Command, line_of, words_of
from zygos_tools.protocol.model import Shard, calls, shard_of, text_of
from zygos_tools.protocol.rules import Item
from zygos_tools.protocol.table import KINDS, kind_of
from zygos_tools.protocol.uniques import with_unique

DONE = (b"STORED", b"HD")


def shown(command: Command, frame: bytes, answer: bytes) -> list[tuple[bytes, int]]:
    """The uniques that an answer shows, each after its key."""
    kind = KINDS.get(command.verb) or kind_of(line_of(frame))
    if kind is None or not kind.shows:
        return []
    if not kind.flags:
        return [(item.key, item.unique) for item in items(answer) if item.unique is not None]
    unique = meta(answer).unique
    return [] if unique is None else [(words_of(line_of(frame))[kind.key], unique)]


class Replay:
    """The items so far, and the uniques here of those that were recorded, by key and recorded unique."""

    def __init__(self, shards: int = 1):
        self.shards = [Shard(number, shards) for number in range(shards)]
        self.names: dict[tuple[bytes, int], int] = {}

    def item(self, key: bytes) -> Item | None:
        """The item of a key."""
        return self.shards[shard_of(key, len(self.shards))].items.get(key)

    def carry_out(self, command: Command, frame: bytes, recorded: bytes | None,
                  is_translated: bool = True) -> tuple[bytes, bytes]:
        """Carries out a command that was answered so. Gives its bytes, with the unique here, and what answers it.

        If it is not translated, its unique is that of no item.
        """
        if command.verb == "get":
            return frame, b"".join(map(self.text, command.keys)) + b"END\r\n"
        if "unique" in command.numbers:
            unique = self.unique(command, recorded) if is_translated else 0
            if unique != command.numbers["unique"]:
                command = command._replace(numbers={**command.numbers, "unique": unique})
                frame = with_unique(frame, unique)
        made = [one for one in calls(len(self.shards), command) if one[1].name != "tally"]
        replies = [self.shards[shard].answer(call) for shard, call in made]
        for key, unique in shown(command, frame, recorded) if recorded else ():
            if item := self.item(key):
                self.names[key, unique] = item.unique
        return frame, text_of(command, replies)

    def text(self, key: bytes) -> bytes:
        """What a `get` shows of a key."""
        item = self.item(key)
        return b"VALUE %s %d %d\r\n%s\r\n" % (key, item.flags, len(item.value), item.value) if item else b""

    def unique(self, command: Command, recorded: bytes | None) -> int:
        """The unique here for the one that a command names."""
        [key] = command.keys
        unique: int = command.numbers["unique"]
        item = self.item(key)
        if (key, unique) in self.names:
            return self.names[key, unique]
        if item and recorded is not None and recorded.startswith(DONE):
            return item.unique
        return 0 if item and item.unique == unique else unique
