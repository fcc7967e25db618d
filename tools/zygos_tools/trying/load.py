"""Sends the commands of many clients on the same keys: a load for a server, or for a recorder before it.

usage: tools/load [--clients N] [--commands N] [--keys N] [--in-flight N] [--seed N] [--kinds 'KIND ..'] PLACE

    tools/load 127.0.0.1:11212

--clients N    at the same time (default 20)
--commands N   of each client (default 500)
--keys N       of all (default 100)
--in-flight N  commands of a client at a time, at most (default 1)
--seed N       other random choices (default 1)
--kinds KINDS  what clients send (default 'get get get get get get get mget mget set set add delete')

PLACE is HOST:PORT, [HOST]:PORT, or a Unix socket: a path with a slash, or unix:PATH. If nobody listens there yet, the
clients wait for half a minute. Each sends one command, or up to --in-flight, and waits for the answers. Some keys are
used much more often than others. A last line says how many clients and commands there were.

The kinds are names of commands, separated by spaces. Each client chooses at random among them, so a name given twice
comes twice as often. They are get, gets, set, add, append, prepend, cas, incr, decr, delete, touch, gat, gats, mg, ms,
md, stats, version and verbosity as memcached has them, and

  mget                  a get of one to four keys
  setq, incrq, touchq   with noreply
  number                a set to a number
  quiet                 up to three meta commands with the flag q, and an mn
  flush                 flush_all
  fault                 a line that is no command
"""
from __future__ import annotations

import asyncio
import random
import re
import signal
import socket
import time
from typing import Any, NamedTuple

from zygos_tools.cli import ends
from zygos_tools.protocol.pace import NEVER, Answers, Command, Commands, Pending
from zygos_tools.recording import places
from zygos_tools.trying.clients import KINDS, Client

KINDS_OF: ends.Option = ("names of commands, separated by spaces",
                         lambda word: word if word and set(word.split()) <= set(KINDS) else None)
OPTIONS: dict[str, ends.Option | None] = {
    **dict.fromkeys(("--clients", "--commands", "--keys", "--in-flight"), ends.number(1)), "--seed": ends.number(0),
    "--kinds": KINDS_OF}
SHOWN = re.compile(rb"VALUE ([^ ]+) [0-9]+ [0-9]+ ([0-9]+)\r\n")
# the seconds in which a server may begin to listen, and after how many the clients look again
PATIENCE, PAUSE = 30, 0.05
PIECE = 65536


class Load(NamedTuple):
    """What is sent."""

    clients: int = 20
    commands: int = 500
    keys: int = 100
    in_flight: int = 1
    seed: int = 1
    kinds: str = "get get get get get get get mget mget set set add delete"


class Sent(NamedTuple):
    """A command that waits for its answer."""

    command: Command


class Skewed(random.Random):
    """Draws the first keys of a list much more often than the last ones."""

    def choice(self, seq: Any) -> Any:
        if seq and isinstance(seq[0], bytes):
            return seq[min(int(self.paretovariate(0.7)) - 1, self.randrange(len(seq)))]
        return super().choice(seq)


async def reached(place: places.Place) -> tuple[asyncio.StreamReader, asyncio.StreamWriter]:
    """A connection to the first address of a place where somebody listens."""
    fault: OSError = ConnectionRefusedError()
    for family, address in place.addresses():
        try:
            if family == socket.AF_UNIX:
                return await asyncio.open_unix_connection(address)
            return await asyncio.open_connection(*address[:2])
        except OSError as error:
            fault = error
    raise fault


async def connected(place: places.Place, until: float) -> tuple[asyncio.StreamReader, asyncio.StreamWriter]:
    """A connection to a place, once somebody listens there, until this time."""
    while True:
        try:
            return await reached(place)
        except (ConnectionRefusedError, FileNotFoundError) as error:
            if time.monotonic() > until:
                raise OSError(error.errno, "nobody listens there", place.name) from None
        await asyncio.sleep(PAUSE)


async def run_client(place: places.Place, number: int, load: Load, until: float) -> None:
    """Sends the commands of a client, and reads the answers."""
    reader, writer = await connected(place, until)
    draw = Skewed(load.seed * 4096 + number)
    one = Client(number, draw, [b"key:%d" % at for at in range(load.keys)], load.kinds)
    # a long recording has more stores than a simulated one
    one.nobodys = (1 << 63) - 1
    commands, answers, left = Commands(), Answers(), load.commands
    pending: Pending[Sent] = Pending()
    while left:
        count = min(left, draw.randint(1, load.in_flight))
        text = b"".join(one.command() for _ in range(count))
        left -= count
        for command in commands.feed(text):
            if command.answered != NEVER:
                pending.add(Sent(command))
        writer.write(text)
        while pending.sure:
            heard = await reader.read(PIECE)
            if not heard:
                ends.stop(f"the server has closed connection {number}")
            for answer in answers.feed(heard):
                pending.take(answer)
            one.uniques.update((key, int(unique)) for key, unique in SHOWN.findall(heard))
    writer.close()
    await writer.wait_closed()


async def run_all(place: places.Place, load: Load) -> None:
    until = time.monotonic() + PATIENCE
    await asyncio.gather(*[run_client(place, number, load, until) for number in range(load.clients)])


def main(words: list[str]) -> None:
    given, names = ends.options(words, OPTIONS)
    if len(names) != 1:
        ends.stop("a load has one server; --help says more", 2)
    place = places.place(names[0])
    if place is None:
        ends.stop(f"a server is {places.OPTION[0]}, not {names[0]}", 2)
    load = Load(**{name[2:].replace("-", "_"): value for name, value in given.items()})
    ends.handle_endings(signal.SIG_DFL)  # there is nothing to complete
    asyncio.run(run_all(place, load))
    print(f"{load.clients} clients, {load.clients * load.commands} commands")
