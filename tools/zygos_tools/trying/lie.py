"""Serves memcached's text commands, rightly or with a fault that tools/judge finds.

usage: tools/lie [--listen PLACE] [--connections N] [--seed N] [FAULT]

    tools/lie stale

It prints where it listens, and serves until Ctrl-C. Without a FAULT its answers are right. FAULT is one of

stale        one in ten reads is answered from a copy that is 20 changes late, as a replica may do
dropped      one in ten sets is answered STORED and forgotten
uncounted    incr and decr read, wait a moment and write, so that two at a time may count once
mixed        one in twenty times, the answers to commands that came together are sent in the opposite order
swapped      one in twenty reads gets the answer of another client's read at that time, which gets this one's
resurrected  one in five deleted items comes back 20 changes later, unless the key has another item then

With what tools/load sends by default all show but two: `uncounted` needs --kinds 'incr get number', and `mixed`
--in-flight 4.

--listen       where clients connect to (default: a free port of 127.0.0.1)
--connections  ends once N connections have come and gone (default: at Ctrl-C)
--seed         other random choices of what the fault strikes (default 1)

PLACE is HOST:PORT, [HOST]:PORT, or a Unix socket: a path with a slash, or unix:PATH. The server has the commands of
docs/PROFILE.md, and no expiry. tools/load is clients for it, and docs/GUIDE.md shows both.
"""
from __future__ import annotations

import asyncio
import signal
import socket

from zygos_tools.cli import ends
from zygos_tools.recording import places
from zygos_tools.trying.servers import FAULTS, Server

OPTIONS: dict[str, ends.Option | None] = {
    "--listen": places.OPTION, "--connections": ends.number(1, 10**9), "--seed": ends.number(0)}


async def serve(server: Server, listening: list[socket.socket], most: int | None) -> None:
    """Serves until so many connections have come and gone."""
    gone, is_over = 0, asyncio.Event()

    async def serve_one(reader: asyncio.StreamReader, writer: asyncio.StreamWriter) -> None:
        nonlocal gone
        await server.serve(reader, writer)
        gone += 1
        if gone == most:
            is_over.set()

    for one in listening:
        await asyncio.start_unix_server(serve_one, sock=one) if one.family == socket.AF_UNIX else \
            await asyncio.start_server(serve_one, sock=one)
    print(" and ".join(places.named(one.family, one.getsockname()) for one in listening), flush=True)
    await is_over.wait()


def main(words: list[str]) -> None:
    given, faults = ends.options(words, OPTIONS)
    if len(faults) > 1 or not set(faults) <= set(FAULTS):
        ends.stop(f"one fault is taken, of {', '.join(FAULTS)}; --help says more", 2)
    server = FAULTS[faults[0]] if faults else Server
    listening = places.listening(given.get("--listen") or places.Place("127.0.0.1:0", "127.0.0.1", 0))
    ends.handle_endings(signal.SIG_DFL)  # there is nothing to complete
    asyncio.run(serve(server(given.get("--seed", 1)), listening, given.get("--connections")))
    places.forget(listening)
