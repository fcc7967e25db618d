"""The search of keys in several processes, each for a share of the keys."""
from __future__ import annotations

import os
import pickle
import selectors
import signal
from typing import IO

from zygos_tools.cli import ends
from zygos_tools.judging.clock import Clock, search
from zygos_tools.judging.events import Unknown, Verdict, counted
from zygos_tools.judging.keys import Keys
from zygos_tools.judging.orders import Order

# recordings of fewer calls are searched in one process
LEAST_CALLS = 50000
MOST_PROCESSES = 16

# what a process finds: the orders, the items at first, the keys whose uniques need not rise, and what is said of keys
# without an order
Found = tuple[dict[bytes, Order], "dict[bytes, tuple[int, bytes] | None]", "set[bytes]", list[Verdict]]


def free_processors(calls: int) -> int:
    """How many processes search so many calls, if the processors that are not busy are used."""
    if calls < LEAST_CALLS:
        return 1
    free = len(os.sched_getaffinity(0)) - os.getloadavg()[0]
    return max(1, min(MOST_PROCESSES, int(free + 0.5)))


def shares_of(keys: Keys, count: int) -> list[list[bytes]]:
    """The keys in shares of about as many calls."""
    shares: list[list[bytes]] = [[] for _ in range(count)]
    sizes = [0] * count
    weights = {key: keys.begins[keys.table.key_of[key] + 1] - keys.begins[keys.table.key_of[key]] for key in keys.names}
    for key in sorted(keys.names, key=lambda one: (-weights[one], one)):
        least = sizes.index(min(sizes))
        shares[least].append(key)
        sizes[least] += weights[key] + 10
    return shares


def search_in(count: int, keys: Keys, clock: Clock, faults: list[Verdict]) -> None:
    """Looks for the orders of all keys in so many processes."""
    children: dict[int, IO[bytes]] = {}
    try:
        for share in shares_of(keys, count):
            begin(keys, share, clock, children)
        gather(keys, clock, children, faults)
    except BaseException:
        for child in children:
            os.kill(child, signal.SIGKILL)
        raise
    finally:
        for child, pipe in children.items():
            pipe.close()
            os.waitpid(child, 0)


def begin(keys: Keys, share: list[bytes], clock: Clock, children: dict[int, IO[bytes]]) -> None:
    """Begins a process for a share."""
    left = clock.left()
    read, write = os.pipe()
    child = ends.fork()
    if child:
        os.close(write)
        children[child] = open(read, "rb", buffering=0)
        return
    try:
        os.close(read)
        with open(write, "wb") as file:
            clock.go_on_in(left)
            pickle.dump(searched(keys, share, clock), file)
        os._exit(0)
    finally:
        os._exit(1)


def searched(keys: Keys, share: list[bytes], clock: Clock) -> Found:
    """What is found of some keys."""
    faults: list[Verdict] = []
    try:
        search(keys, share, clock, faults)
    except Unknown as late:
        faults.append(late)
    return keys.found, keys.first, keys.falling, faults


def gather(keys: Keys, clock: Clock, children: dict[int, IO[bytes]], faults: list[Verdict]) -> None:
    """Takes what the processes find."""
    pieces: dict[int, list[bytes]] = {child: [] for child in children}
    with selectors.DefaultSelector() as selector:
        for child, pipe in children.items():
            selector.register(pipe, selectors.EVENT_READ, child)
        while selector.get_map():
            clock.set(f"{counted(len(keys.names), 'key')}, in {len(children)} processes")
            for key, _ in selector.select(1):
                piece = key.fileobj.read(1 << 20)  # type: ignore[union-attr]
                if piece:
                    pieces[key.data].append(piece)
                    continue
                selector.unregister(key.fileobj)
                take(keys, b"".join(pieces.pop(key.data)), faults)
    faults.sort(key=lambda fault: fault.keys)


def take(keys: Keys, text: bytes, faults: list[Verdict]) -> None:
    """Takes what one process found."""
    if not text:
        raise Unknown("a process that searched keys has ended; --processes 1 searches in one")
    found, first, falling, new = pickle.loads(text)
    keys.falling.update(falling)
    for key, order in found.items():
        keys.orders.put(key, order)
    keys.first.update(first)
    faults += new
