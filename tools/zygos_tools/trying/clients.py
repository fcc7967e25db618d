"""What clients send: commands of chosen kinds on the same keys."""
from __future__ import annotations

import random
from collections.abc import Iterable, Sequence

from zygos_tools.files.formats import Reply
from zygos_tools.protocol.meaning import Command


class Client:
    """What a client sends: commands of these kinds on these keys."""

    # a unique of no item
    nobodys = 99999

    def __init__(self, number: int, draw: random.Random, keys: Sequence[bytes], kinds: str) -> None:
        self.number, self.draw, self.keys, self.kinds, self.sent = number, draw, keys, kinds.split(), 0
        self.uniques: dict[bytes, int] = {}

    def command(self) -> bytes:
        """The bytes of the next command."""
        draw, kind, key = self.draw, self.draw.choice(self.kinds), self.draw.choice(self.keys)
        self.sent += 1
        value = b"%d.%d" % (self.number, self.sent)
        flags, size = draw.randrange(3), len(value)
        if kind in ("mget", "gats"):
            some = draw.sample(self.keys, draw.randint(1, min(4, len(self.keys))))
            return (b"get " if kind == "mget" else b"gats 0 ") + b" ".join(some) + b"\r\n"
        if kind in ("set", "setq", "add", "append", "prepend"):
            quiet = b" noreply" if kind == "setq" or draw.random() < 0.1 else b""
            return b"%s %s %d 0 %d%s\r\n%s\r\n" % (kind.removesuffix("q").encode(), key, flags, size, quiet, value)
        if kind == "number":
            value = b"%d" % draw.choice((0, 7, 99, 100, 1234))
            return b"set %s 0 0 %d\r\n%s\r\n" % (key, len(value), value)
        if kind == "cas":
            return b"cas %s 0 0 %d %d\r\n%s\r\n" % (key, size, self.uniques.get(key, self.nobodys), value)
        if kind == "quiet":
            return self.quiet(key, value)
        return SENT[kind] % {b"key": key, b"flags": flags, b"size": size, b"value": value, b"amount": draw.choice((1, 7))}

    def quiet(self, key: bytes, value: bytes) -> bytes:
        """A batch of quiet meta commands on different keys."""
        some = self.draw.sample(self.keys, min(3, len(self.keys)))
        lines = [b"mg %s v k q\r\n", b"ms %%s %d k q\r\n%s\r\n" % (len(value), value), b"md %s k q\r\n",
                 b"ms %%s %d k q ME\r\n%s\r\n" % (len(value), value)]
        return b"".join(self.draw.choice(lines) % key for key in some) + b"mn\r\n"

    def learn(self, command: Command, replies: Iterable[Reply]) -> None:
        for key, reply in zip(command.keys, replies):
            if command.verb == "gets" and reply.name == "hit":
                self.uniques[key] = reply.unique


SENT = {
    "get": b"get %(key)b\r\n", "gets": b"gets %(key)b\r\n", "delete": b"delete %(key)b\r\n",
    "incr": b"incr %(key)b %(amount)d\r\n", "incrq": b"incr %(key)b %(amount)d noreply\r\n",
    "decr": b"decr %(key)b %(amount)d\r\n", "mg": b"mg %(key)b v f s c\r\n", "md": b"md %(key)b\r\n",
    "ms": b"ms %(key)b %(size)d F%(flags)d\r\n%(value)b\r\n", "touch": b"touch %(key)b 0\r\n",
    "touchq": b"touch %(key)b 0 noreply\r\n", "gat": b"gat 0 %(key)b\r\n", "stats": b"stats\r\n",
    "version": b"version\r\n", "verbosity": b"verbosity 0\r\n", "fault": b"no such command\r\n", "flush": b"flush_all\r\n",
}
# all kinds of commands
KINDS = {*SENT, "mget", "set", "setq", "add", "append", "prepend", "number", "cas", "quiet"}
