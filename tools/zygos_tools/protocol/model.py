"""The profile, plainly: the commands of a stream, the calls of a command, the replies of a shard, and the texts.

It is written from the tables of docs/PROFILE.md, and takes its time. The commands are in meaning.py, and what calls do
to items is in rules.py.
"""
from __future__ import annotations

import functools
from collections.abc import Callable, Iterable
from typing import Any

from zygos_tools.files.formats import GETS, SETS, Call, Reply
from zygos_tools.protocol.meaning import LETTERS, TOO_LARGE, Command
from zygos_tools.protocol.rules import Item, step

# the texts of replies
TEXTS = {
    "stored": b"STORED", "not stored": b"NOT_STORED", "exists": b"EXISTS", "not found": b"NOT_FOUND",
    "deleted": b"DELETED", "too large": TOO_LARGE,
    "no number": b"CLIENT_ERROR cannot increment or decrement non-numeric value",
}

# the lines of `stats`: the name of each number, and its field in a tally
STATS = [(b"cmd_get", "gets"), (b"cmd_set", "sets"), (b"get_hits", "hits"), (b"get_misses", "misses"), (b"curr_items", "items")]

# the codes of replies, and which replies the flag `q` hides
CODES = {"stored": b"HD", "deleted": b"HD", "hit": b"HD", "not stored": b"NS", "exists": b"EX", "not found": b"NF"}
HIDDEN = {"mg": ["miss"], "ms": ["stored"], "md": ["deleted", "not found"]}

Made = list[tuple[Call, Reply]]


# ---- calls


def hash_of(text: bytes) -> int:
    """The 32-bit FNV-1a hash of bytes."""
    hashed = 2166136261
    for byte in text:
        hashed = (hashed ^ byte) * 16777619 % (1 << 32)
    return hashed


@functools.lru_cache(1 << 16)
def shard_of(key: bytes, shards: int) -> int:
    """The shard of a key: its hash, modulo the number of shards."""
    return hash_of(key) % shards


def call_of(command: Command, key: bytes) -> Call:
    """The call of a command on one of its keys."""
    name = command.call or ("get" if command.verb == "gets" else command.verb)
    field: Callable[[str], Any] = command.numbers.get
    value: Any = command.value
    flags: Any = None if name in ("append", "prepend") else field("flags")
    return Call(name, key, flags, field("unique"), value, field("amount"))


def calls(shards: int, command: Command) -> list[tuple[int, Call]]:
    """The calls of a command, each after its shard."""
    if command.verb in ("flush_all", "stats"):
        return [(shard, Call("flush" if command.verb == "flush_all" else "tally")) for shard in range(shards)]
    return [(shard_of(key, shards), call_of(command, key)) for key in command.keys]


# ---- shards


class Shard:
    """A shard: its items, how many it stored, and its calls with their replies. One that `pads` is a memcached's, in which
    a number that becomes shorter keeps its length."""

    pads = False

    def __init__(self, number: int, shards: int) -> None:
        self.number, self.shards, self.stored = number, shards, 0
        self.items: dict[bytes, Item] = {}
        self.made: Made = []

    def reply(self, call: Call) -> Reply:
        """Makes a call, and gives its reply."""
        reply = tally(self.made) if call.name == "tally" else self.answer(call)
        self.made.append((call, reply))
        return reply

    def answer(self, call: Call) -> Reply:
        """Makes a call other than a tally."""
        if call.name == "flush":
            self.items = {}
            return Reply("flushed")
        item = self.items.get(call.key)
        given = call.number if call.name in ("incr", "decr") else call.unique
        done = step(call.name, item, call.flags, call.value, given, self.pads)
        if done.left is None:
            self.items.pop(call.key, None)
        elif done.left is not item:
            self.stored += 1
            self.items[call.key] = Item(done.left[0], done.left[1], self.shards * self.stored + self.number)
        if done.reply == "hit" and item:
            return Reply("hit", item.flags, item.unique, item.value)
        return Reply("number", number=done.number) if done.reply == "number" else Reply(done.reply)


def keys_after(made: Made) -> set[bytes]:
    """The keys of items after these calls."""
    keys: set[bytes] = set()
    for call, reply in made:
        if call.name == "flush":
            keys = set()
        elif call.key is not None and reply.name in ("stored", "number"):
            keys.add(call.key)
        elif call.key is not None and reply.name == "deleted":
            keys.discard(call.key)
    return keys


def tally(made: Made) -> Reply:
    """What is counted of these calls and their replies."""
    gets = [reply.name for call, reply in made if call.name in GETS]
    sets = [call for call, _ in made if call.name in SETS]
    return Reply("tally", gets=len(gets), sets=len(sets), hits=gets.count("hit"), misses=gets.count("miss"),
                 items=len(keys_after(made)))


# ---- texts


def value_text(verb: str, key: bytes, reply: Reply) -> bytes:
    """The text of one key of a `get` or `gets`."""
    if reply.name == "miss":
        return b""
    unique = b" %d" % reply.unique if verb == "gets" else b""
    return b"VALUE %s %d %d%s\r\n%s\r\n" % (key, reply.flags, len(reply.value), unique, reply.value)


def meta_text(command: Command, reply: Reply) -> bytes:
    """The text that answers a meta command with a key."""
    if "q" in command.letters and reply.name in HIDDEN[command.verb]:
        return b""
    if reply.name in ("miss", "too large"):
        return (b"EN" if reply.name == "miss" else TOO_LARGE) + b"\r\n"
    shown, code, value = {"k": command.keys[0]}, CODES[reply.name], b""
    if reply.name == "hit":
        shown.update({"f": b"%d" % reply.flags, "c": b"%d" % reply.unique, "s": b"%d" % len(reply.value)})
        if "v" in command.letters:
            code, value = b"VA %d" % len(reply.value), reply.value + b"\r\n"
    marks = [b" %s%s" % (letter.encode(), shown[letter]) for letter in command.letters if letter in shown]
    return code + b"".join(marks) + b"\r\n" + value


def text_of(command: Command, replies: Iterable[Reply]) -> bytes:
    """The text that answers a command with these replies."""
    if command.quiet:
        return b""
    if command.error:
        return command.error + b"\r\n"
    if command.verb in ("get", "gets"):
        return b"".join(value_text(command.verb, *one) for one in zip(command.keys, replies)) + b"END\r\n"
    if command.verb == "stats":
        return b"".join(b"STAT %s %d\r\n" % (name, sum(getattr(reply, field) for reply in replies)) for name, field in STATS) + b"END\r\n"
    if command.verb == "version":
        return b"VERSION zygos-1.0\r\n"
    if command.verb in ("verbosity", "flush_all"):
        return b"OK\r\n"
    if command.verb == "mn":
        return b"MN\r\n"
    [reply] = replies
    if command.verb in LETTERS:
        return meta_text(command, reply)
    return (b"%d" % reply.number if reply.name == "number" else TEXTS[reply.name]) + b"\r\n"
