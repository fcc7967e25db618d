"""The order that was found, carried out on a plain store, whose answers are zygos's: the journal, and the answers.

Only what zygos says otherwise than the server is translated, and each case is counted:

| Counted as | What |
|---|---|
| uniques | the numbers that the server showed of items, in answers and commands that give them; on each key one to one, between two losses of its item |
| version | the text of `version` |
| error lines | the text of the answer to a line that is faulty here and there |
| padded values | a number that became shorter, which keeps its length in memcached, with spaces |
| items in another order | the items of a retrieval, which a proxy shows as they come |
| quiet answers, meta misses | an `NF` of `md` with q, which zygos hides; an `EN` with marks |
"""
from __future__ import annotations

import re
import struct
from array import array
from collections import Counter
from collections.abc import Iterable
from typing import IO

from zygos_tools.files.formats import CALLS, ENTRY, REPLIES, Reply
from zygos_tools.judging.events import (ADD, APPEND, CAS, DECR, DELETE, FLUSH, GET, INCR, PREPEND, REPLACE, SET,
                                        Unknown, brief, first_line)
from zygos_tools.judging.seeing import all_items
from zygos_tools.judging.table import (ANSWERED, DROPPED, HAS_UNIQUE, LOST, METAS, QUIET, REPLACED, V_FAULT, V_GET,
                                       V_GETS, V_MG, V_VERSION, WANT_BITS, WANTS, Table)
from zygos_tools.protocol.model import text_of
from zygos_tools.protocol.rules import Item, step

# the codes of calls and of replies
CODE_OF = {name: bytes([number]) for number, (name, _) in enumerate(CALLS, 1)}
REPLY_CODE = {name: bytes([number]) for number, (name, _) in enumerate(REPLIES, 1)}
NAMES = {GET: "get", SET: "set", ADD: "add", REPLACE: "replace", APPEND: "append", PREPEND: "prepend", CAS: "cas",
         INCR: "incr", DECR: "decr", DELETE: "delete", FLUSH: "flush"}
KIND_CODE = {kind: CODE_OF[name] for kind, name in NAMES.items()}
# the flags, the unique and the length of the value in a hit
HIT = struct.Struct(">IQI")
# how many bytes of the journal are gathered before they are written
MOST_GATHERED = 1 << 20

MISS, FLUSHED = Reply("miss"), Reply("flushed")
# a key, how often its item was lost before, and a unique
Unique = tuple[bytes, int, int]


class Store:
    """The items of all shards, as zygos has them, by shard and key."""

    def __init__(self, shards: int):
        self.shards, self.stored = shards, [0] * shards
        self.items: list[dict[bytes, Item]] = [{} for _ in range(shards)]

    def change(self, kind: int, shard: int, key: bytes, flags: int, value: bytes, given: int) -> tuple[str, int]:
        """Carries out a call that is no `get`. Gives the name of its reply, and the number in it."""
        items = self.items[shard]
        item = items.get(key)
        reply, left, number = step(NAMES[kind], item, flags, value, given)
        if left is None:
            items.pop(key, None)
        elif left is not item:
            self.stored[shard] += 1
            items[key] = Item(left[0], left[1], self.shards * self.stored[shard] + shard)
        return reply, number

    def flush(self, shard: int) -> None:
        """Removes all items of a shard."""
        self.items[shard].clear()


class Replay:
    """Carries out calls in their order, and writes an entry of each into `file`.

    `answers` has the answers of zygos where they are not those of the server, by command, and `given` the uniques that
    commands give in place of the recorded ones. `places` are the numbers of the commands in the certificate.
    """

    def __init__(self, table: Table, file: IO[bytes]):
        self.table, self.file, self.store, self.counts = table, file, Store(table.shards), Counter[str]()
        self.answers: dict[int, bytes] = {}
        self.given: dict[int, int] = {}
        self.names: dict[Unique, int] = {}
        self.taken: dict[Unique, int] = {}
        self.unnamed: set[Unique] = set()
        self.losses = Counter[bytes]()
        self.pads: dict[bytes, bool] = {}
        self.replies: dict[int, list[Reply]] = {}
        # the replies to calls that are not answered, each with the number in it
        self.quiet: dict[int, tuple[str, int]] = {}
        self.places = places_of(table)
        for command, state in enumerate(table.state):
            if state & (LOST | ANSWERED) == LOST | ANSWERED:  # its answer said that it may not have been made
                self.answers[command] = b""
        self.stamp = self.size = 0
        self.gathered: list[bytes] = []

    # ---- calls

    def add(self, connection: int, place: int, key: bytes, item: tuple[int, bytes] | None) -> None:
        """A call of a connection that is added: it removes an item or stores one."""
        shard = self.table.shard_of[self.table.key_of[key]]
        kind, flags, value = (SET, *item) if item else (DELETE, 0, b"")
        reply, _ = self.store.change(kind, shard, key, flags, value, 0)
        if item is None:
            self.losses[key] += 1
            self.counts["uniques begun anew without a loss"] += reply != "deleted"
        self.pads.pop(key, None)
        self.write(shard, connection, place, 0, coded(kind, key, flags, value, 0) + REPLY_CODE[reply])

    def make(self, call: int) -> None:
        """A call of the recording."""
        table = self.table
        kind, command = table.kind[call], table.command[call]
        if kind == FLUSH:
            self.flush(call, command)
            return
        number, want = table.key[call], table.want[call]
        key, shard = table.keys[number], table.shard_of[number]
        if kind == GET:
            self.get(call, command, key, shard, want)
            return
        value = table.value(call) if kind <= CAS else b""
        old = self.store.items[shard].get(key)
        given = table.given[call]
        if kind == CAS:
            given = self.renamed(call, key, old, WANTS[want & WANT_BITS])
        flags = table.flags[call]
        name, answer = self.store.change(kind, shard, key, flags, value, given)
        self.note_pads(kind, key, old, self.store.items[shard].get(key))
        if table.state[command] & QUIET:
            self.quiet[call] = name, answer
        wanted = WANTS[want & WANT_BITS]
        if wanted not in (None, name) or wanted == "number" and table.seen[call] != answer:
            raise Unknown(self.why_otherwise([key], name), lines=[table.event(call).told()])
        reply = REPLY_CODE[name] + (answer.to_bytes(8, "big") if name == "number" else b"")
        text = coded(kind, key, flags, value, given) + reply
        self.write(shard, table.connection[command], self.places[command], 0, text)
        if table.state[command] == ANSWERED and wanted is not None and wanted != "number":
            self.check_line(command, name)
        elif not table.state[command] & LOST:
            self.take(call, command, Reply(name, number=answer) if name == "number" else Reply(name))

    def get(self, call: int, command: int, key: bytes, shard: int, want: int) -> None:
        """A `get` of a key."""
        table, item = self.table, self.store.items[shard].get(key)
        wanted = WANTS[want & WANT_BITS]
        name = "hit" if item else "miss"
        if wanted not in (None, name):
            raise Unknown(self.why_otherwise([key], name), lines=[table.event(call).told()])
        part = call - table.first_call[command]
        reply: Reply = MISS
        text = b"\x01" + bytes([len(key)]) + key
        if item:
            flags, value, unique = item
            if want & HAS_UNIQUE:
                self.name(key, table.seen[call], unique)
            text += b"\x02" + HIT.pack(flags, unique, len(value)) + value
            reply = Reply("hit", flags, unique, value)
        else:
            text += b"\x01"
        self.write(shard, table.connection[command], self.places[command], part, text)
        self.take(call, command, reply)

    def flush(self, call: int, command: int) -> None:
        """A `flush_all` of a shard."""
        table = self.table
        shard = call - table.first_call[command]
        self.store.flush(shard)
        self.write(shard, table.connection[command], self.places[command], shard, b"\x0b\x0b")
        self.take(call, command, FLUSHED)

    def write(self, shard: int, connection: int, place: int, part: int, text: bytes) -> None:
        """Adds an entry to the journal."""
        self.stamp += 1
        self.gathered.append(ENTRY.pack(74, self.stamp, shard, connection, place, part) + text)
        self.size += len(text)
        if self.size > MOST_GATHERED:
            self.end()

    def end(self) -> None:
        """Writes what was gathered."""
        self.file.writelines(self.gathered)
        self.gathered.clear()
        self.size = 0

    # ---- what memcached does otherwise

    def note_pads(self, kind: int, key: bytes, old: Item | None, new: Item | None) -> None:
        """What a call does to the pad that a number of its key may have in memcached."""
        if kind in (INCR, DECR):
            if old and new and len(new[1]) < len(old[1]):
                self.pads.setdefault(key, False)
        elif not self.pads:
            return
        elif kind in (APPEND, PREPEND):
            if new is not old and key in self.pads:
                self.pads[key] = True
        elif new is not old:
            self.pads.pop(key, None)

    def why_otherwise(self, keys: Iterable[bytes], ours: str) -> str:
        """Why an answer cannot be translated; `pads` says of padded numbers whether a value was joined to them."""
        if any(self.pads.get(key) for key in keys):
            return ("a value was joined to a number that memcached pads with spaces; zygos, without them, answers"
                    f" {ours}")
        return f"zygos answers {ours} in the order that was found"

    def name(self, key: bytes, unique: int, ours: int) -> None:
        """A unique of the server is that of this item of ours. After a loss of the key's item it may be another one's."""
        named = key, self.losses[key], unique
        if named in self.unnamed:
            raise Unknown(f"key {brief(key)}: the unique {unique} is given by a command before it is shown")
        if self.names.setdefault(named, ours) != ours or self.taken.setdefault((key, 0, ours), unique) != unique:
            raise Unknown(f"key {brief(key)}: the unique {unique} is shown of two items, or an item with two uniques")
        self.counts["uniques"] += unique != ours

    def renamed(self, call: int, key: bytes, item: Item | None, want: str | None) -> int:
        """The unique that a command gives to zygos; one that the server never showed becomes one that no item has."""
        unique = self.table.given[call]
        named = key, self.losses[key], unique
        if item is not None and want == "stored" and named not in self.names:
            self.name(key, unique, item[2])
        ours = self.names.get(named)
        if ours is None and self.losses[key]:  # it may be one from before the loss
            ours = 0
        elif ours is None:
            ours = 0 if item is not None and item[2] == unique else unique
            self.unnamed.add(named)
        if ours != unique:
            self.counts["uniques"] += 1
            self.given[self.table.command[call]] = ours
        return ours

    # ---- answers

    def check_line(self, command: int, name: str) -> None:
        """Looks whether an answer that is a line is zygos's too."""
        table = self.table
        ours = LINES.get(name)
        if ours is None or table.verb[command] in METAS or ours != table.answer(command):
            self.finish(command, [Reply(name)])

    def take(self, call: int, command: int, reply: Reply) -> None:
        """Takes the reply to a call; after the last call of a command its answer is known."""
        table = self.table
        first, last = table.first_call[command], table.first_call[command + 1]
        if last - first == 1:
            self.finish(command, [reply])
            return
        replies = self.replies.setdefault(command, [])
        replies.append(reply)
        if len(replies) == last - first:
            del self.replies[command]
            self.finish(command, replies)

    def finish(self, command: int, replies: list[Reply]) -> None:
        """Compares the answer of zygos with that of the server."""
        table, state = self.table, self.table.state[command]
        if state & (QUIET | LOST):
            return
        theirs = table.answer(command) or b""
        ours = self.text(command, replies)
        if ours == theirs:
            return
        what = self.difference(command, ours, theirs, replies)
        if what:
            self.counts[what] += 1
        self.answers[command] = ours

    def text(self, command: int, replies: list[Reply]) -> bytes:
        """The answer of zygos."""
        table, verb = self.table, self.table.verb[command]
        if verb == V_GET and len(replies) == 1:
            reply = replies[0]
            if reply.name == "miss":
                return b"END\r\n"
            key = table.keys[table.key[table.first_call[command]]]
            return b"VALUE %s %d %d\r\n%s\r\nEND\r\n" % (key, reply.flags, len(reply.value), reply.value)
        text: bytes = text_of(table.meaning(command), replies)
        return text

    def others(self) -> None:
        """The answers to commands without a call."""
        table = self.table
        for command, verb in enumerate(table.verb):
            if table.first_call[command] == table.first_call[command + 1] and not table.state[command] & DROPPED:
                self.finish(command, [])

    def difference(self, command: int, ours: bytes, theirs: bytes, replies: list[Reply]) -> str:
        """What is translated in an answer; nothing where that is counted already."""
        table, verb = self.table, self.table.verb[command]
        if theirs.startswith(b"SERVER_ERROR"):
            return ""  # a delete in place of a command that failed
        if verb in (V_VERSION, V_FAULT):
            return "version" if verb == V_VERSION else "error lines"
        if verb in (V_GET, V_GETS):
            return self.in_items(command, ours, theirs, replies)
        if verb == V_MG and table.state[command] & REPLACED and table.original(command).startswith(b"touch"):
            return ""
        if verb in METAS:
            return self.in_meta(command, ours, theirs, replies)
        if table.kind[table.first_call[command]] in (INCR, DECR) and theirs.rstrip() == ours.rstrip():
            return "padded values"
        raise self.untranslated(command, ours)

    def in_items(self, command: int, ours: bytes, theirs: bytes, replies: list[Reply]) -> str:
        """What is translated in the answer to a retrieval."""
        keys, shown, is_padded = self.table.meaning(command).keys, list(all_items(theirs)), False
        hits = [(key, reply) for key, reply in zip(keys, replies) if reply.name == "hit"]
        is_moved = [key for key, _ in hits] != [item.key for item, _ in shown]
        if is_moved:
            hits.sort(key=lambda hit: hit[0])
            shown.sort(key=lambda one: one[0].key)
        for (item, value), (_, reply) in zip(shown, hits):
            if item.flags != reply.flags or value != reply.value and value.rstrip(b" ") != reply.value:
                raise self.untranslated(command, ours)
            is_padded |= value != reply.value
        self.counts["items in another order"] += is_moved
        return "padded values" if is_padded else ""

    def in_meta(self, command: int, ours: bytes, theirs: bytes, replies: list[Reply]) -> str:
        """What is translated in a meta answer."""
        if unmarked(ours, b"c") == unmarked(theirs, b"c"):
            return ""
        if not ours and theirs.startswith(b"NF"):
            return "quiet answers"
        if ours == b"EN\r\n" and theirs.startswith(b"EN "):
            return "meta misses"
        if self.table.verb[command] == V_MG and self.is_padded(command, ours, theirs, replies):
            return "padded values"
        raise self.untranslated(command, ours)

    def is_padded(self, command: int, ours: bytes, theirs: bytes, replies: list[Reply]) -> bool:
        """Whether an item is shown whose value was padded."""
        [event], [reply] = self.table.events(self.table.calls_of(command)), replies
        if reply.name != "hit" or event.value is not None and event.value.rstrip(b" ") != reply.value:
            return False
        heads = [re.sub(rb"^VA [0-9]+", b"VA", unmarked(text, b"cs").split(b"\n", 1)[0]) for text in (ours, theirs)]
        return heads[0] == heads[1]

    def untranslated(self, command: int, ours: bytes) -> Unknown:
        """That an answer cannot be translated."""
        table = self.table
        keys = [table.keys[table.key[call]] for call in table.calls_of(command) if table.key[call] >= 0]
        return Unknown(self.why_otherwise(keys, first_line(ours)), table.asked(command))


LINES = {"stored": b"STORED\r\n", "not stored": b"NOT_STORED\r\n", "exists": b"EXISTS\r\n",
         "not found": b"NOT_FOUND\r\n", "deleted": b"DELETED\r\n"}


def places_of(table: Table) -> array[int]:
    """The numbers of commands in the certificate, those of each connection from 0 on."""
    found, counts = array("I"), Counter[int]()
    for command, connection in enumerate(table.connection):
        found.append(counts[connection])
        if not table.state[command] & DROPPED:
            counts[connection] += 1
    return found


def coded(kind: int, key: bytes, flags: int, value: bytes, given: int) -> bytes:
    """The bytes of a call that is no `get`."""
    text = KIND_CODE[kind] + bytes([len(key)]) + key
    if kind in (INCR, DECR):
        return text + given.to_bytes(8, "big")
    if kind == DELETE:
        return text
    if kind not in (APPEND, PREPEND):
        text += flags.to_bytes(4, "big")
    if kind == CAS:
        text += given.to_bytes(8, "big")
    return text + len(value).to_bytes(4, "big") + value


def unmarked(text: bytes, marks: bytes) -> bytes:
    """A meta answer without these marks in its line."""
    line, end, rest = text.partition(b"\n")
    return re.sub(rb" [%s][0-9]+(?=[ \r])" % marks, b"", line) + end + rest
