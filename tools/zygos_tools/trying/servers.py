"""A small memcached of one shard, which is right, and those with a fault each.

They have the commands of docs/PROFILE.md. A server takes the commands of all its clients in one thread, one call at a time.
"""
from __future__ import annotations

import asyncio
import contextlib
import random
from collections import deque
from collections.abc import Iterable

from zygos_tools.files.formats import Call, Reply
from zygos_tools.protocol.meaning import Command, Framer
from zygos_tools.protocol.model import Shard, calls, text_of
from zygos_tools.protocol.rules import Item

# by how many changes the copy of a replica is late, and after how many a deleted item comes back
CHANGES = 20
# the seconds in which a client's answer waits for that of another client, which is sent in its place
PATIENCE = 0.1
# how many bytes are read at a time
PIECE = 65536


class Server:
    """The one that is right. The others change one of its steps."""

    def __init__(self, seed: int) -> None:
        self.shard, self.draw = Shard(0, 1), random.Random(seed)

    def happens(self, share: float) -> bool:
        """Whether it is one of the commands of this share that the fault strikes."""
        return self.draw.random() < share

    async def reply(self, call: Call) -> Reply:
        """What the shard answers to a call."""
        reply: Reply = self.shard.answer(call)
        self.shard.made.clear()
        return reply

    async def answer(self, command: Command) -> bytes:
        """The text that answers a command. Other clients may be served between its calls."""
        replies = []
        for _, call in calls(1, command):
            replies.append(await self.reply(call))
            if len(command.keys) > 1:
                await asyncio.sleep(0)
        return text_of(command, replies)

    async def answers(self, commands: Iterable[Command]) -> list[bytes]:
        """The texts that answer commands which came together."""
        return [await self.answer(command) for command in commands]

    async def serve(self, reader: asyncio.StreamReader, writer: asyncio.StreamWriter) -> None:
        """Serves a client until it goes away or sends `quit`."""
        framer = Framer()
        with contextlib.suppress(OSError), contextlib.closing(writer):
            while not framer.has_quit and (text := await reader.read(PIECE)):
                writer.write(b"".join(await self.answers(command for command, _ in framer.feed(text))))
                await writer.drain()


class Stale(Server):
    """Reads are answered from a copy that is late."""

    def __init__(self, seed: int) -> None:
        super().__init__(seed)
        self.copies: deque[dict[bytes, Item]] = deque([{}], CHANGES)

    async def reply(self, call: Call) -> Reply:
        if call.name == "get" and self.happens(0.1):
            item = self.copies[0].get(call.key)
            return Reply("hit", item.flags, item.unique, item.value) if item else Reply("miss")
        if call.name != "get":
            self.copies.append(dict(self.shard.items))
        return await super().reply(call)


class Dropped(Server):
    """A set is answered and forgotten."""

    async def reply(self, call: Call) -> Reply:
        if call.name == "set" and self.happens(0.1):
            return Reply("stored")
        return await super().reply(call)


class Uncounted(Server):
    """Two changes of a number at a time may count once."""

    async def reply(self, call: Call) -> Reply:
        items = self.shard.items
        if call.name in ("incr", "decr") and call.key in items:
            item = items[call.key]
            await asyncio.sleep(0)
            items[call.key] = item
        return await super().reply(call)


class Mixed(Server):
    """The answers to commands that came together change places."""

    async def answers(self, commands: Iterable[Command]) -> list[bytes]:
        texts = await super().answers(commands)
        return texts[::-1] if self.happens(0.05) else texts


class Swapped(Server):
    """Two clients that read at a time get each other's answers."""

    def __init__(self, seed: int) -> None:
        super().__init__(seed)
        # an answer that is held back, and what its client gets in its place
        self.held: tuple[bytes, asyncio.Future[bytes]] | None = None

    async def answer(self, command: Command) -> bytes:
        text = await super().answer(command)
        if command.verb not in ("get", "gets"):
            return text
        if self.held:
            (other, taken), self.held = self.held, None
            taken.set_result(text)
            return other
        return await self.swapped(text) if self.happens(0.05) else text

    async def swapped(self, text: bytes) -> bytes:
        """The answer of another client, or this one if no other client reads."""
        taken: asyncio.Future[bytes] = asyncio.get_running_loop().create_future()
        self.held = text, taken
        await asyncio.wait([taken], timeout=PATIENCE)
        if taken.done():
            return taken.result()
        self.held = None
        return text


class Resurrected(Server):
    """A deleted item comes back."""

    def __init__(self, seed: int) -> None:
        super().__init__(seed)
        self.changes = 0
        # items that will come back, each after how many changes
        self.gone: deque[tuple[int, bytes, Item]] = deque()

    async def reply(self, call: Call) -> Reply:
        items = self.shard.items
        self.changes += call.name != "get"
        while self.gone and self.gone[0][0] <= self.changes:
            _, key, item = self.gone.popleft()
            items.setdefault(key, item)
        if call.name == "delete" and call.key in items and self.happens(0.2):
            self.gone.append((self.changes + CHANGES, call.key, items[call.key]))
        return await super().reply(call)


FAULTS = {"stale": Stale, "dropped": Dropped, "uncounted": Uncounted, "mixed": Mixed, "swapped": Swapped,
          "resurrected": Resurrected}
