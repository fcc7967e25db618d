#!/usr/bin/env python3
"""Clients of pymemcache and pylibmc on the same keys, side by side: the load of tests/fleet.

usage: tests/libraries.py PLACE SEED CLIENTS CALLS KEYS LIBRARY MIX

LIBRARY is pymemcache or pylibmc, and MIX has the calls that are drawn, each with its weight, as in get:40,set:10. Counters
are keys of their own. A call of several keys is a line for each key that it stores, without answers. Each client is a
process, as pylibmc 1.6.3 spoils its memory in threads.
"""
import multiprocessing
import random
import sys

import checks

EXPTIMES = (0, 0, 0, 0, 1, 2, 60)


class Library:
    """A client. Each method is a call that is drawn; `is_quiet` says whether it asks for no answer, if that can be."""

    def __init__(self, place, draw, keys):
        self.draw, self.keys, self.place, self.count, self.seen = draw, keys, place, 0, {}
        self.name = draw.randrange(1 << 30)

    def key(self):
        """A key: one time in three any, otherwise one of the first much more often."""
        some = self.draw.randrange(self.keys)
        return f"key:{min(int(self.draw.paretovariate(0.5)) - 1, some) if self.draw.random() < 0.67 else some}"

    def counter(self):
        return f"count:{self.draw.randrange(1 + self.keys // 50)}"

    def several(self):
        return list(dict.fromkeys(self.key() for _ in range(self.draw.randint(2, 8))))

    def value(self):
        """A value of one of a few sizes: memcached gives each size at least a megabyte before it evicts any."""
        self.count += 1
        return (b"%x.%d" % (self.name, self.count)).ljust(self.draw.choice((0, 600, 2500, 2500)), b"v")

    def exptime(self):
        return self.draw.choice(EXPTIMES)

    def is_quiet(self):
        return self.draw.random() < 0.4

    def get(self):
        self.client.get(self.key())

    def get_many(self):
        self.client.get_multi(self.several())

    def gets(self):
        key = self.key()
        found = self.client.gets(key)
        if found[1] is not None:
            self.seen[key] = found[1]


class Pymemcache(Library):
    """A client of pymemcache: what asks for no answer is not waited for."""

    def __init__(self, *words):
        from pymemcache.client.base import Client
        from pymemcache.exceptions import MemcacheError
        super().__init__(*words)
        host, port = self.place.rsplit(":", 1)
        self.client, self.faults = Client((host, int(port)), no_delay=True), MemcacheError

    def set(self):
        self.client.set(self.key(), self.value(), expire=self.exptime(), noreply=self.is_quiet())

    def set_many(self):
        self.client.set_many({key: self.value() for key in self.several()}, expire=self.exptime(), noreply=True)

    def add(self):
        self.client.add(self.key(), self.value(), noreply=self.is_quiet())

    def append(self):
        self.client.append(self.key(), b"+", noreply=self.is_quiet())

    def cas(self):
        key, unique = self.seen.popitem() if self.seen else (self.key(), b"1")
        self.client.cas(key, self.value(), unique, noreply=False)

    def delete(self):
        self.client.delete(self.key(), noreply=self.is_quiet())

    def touch(self):
        self.client.touch(self.key(), self.exptime(), noreply=self.is_quiet())

    def incr(self):
        self.client.incr(self.counter(), self.draw.randint(1, 9), noreply=self.is_quiet())

    def decr(self):
        self.client.decr(self.counter(), self.draw.randint(1, 9), noreply=self.is_quiet())

    def begin(self):
        self.client.add(self.counter(), b"%d" % self.draw.choice((0, 99, 1000)), noreply=False)


class Pylibmc(Library):
    """A client of pylibmc, which waits for all answers: without them pylibmc 1.6.3 spoils its memory too."""

    def __init__(self, *words):
        import pylibmc
        super().__init__(*words)
        self.client = pylibmc.Client([self.place], binary=False, behaviors={"cas": True, "tcp_nodelay": True})
        self.faults = pylibmc.Error, RuntimeError

    def set(self):
        self.client.set(self.key(), self.value(), time=self.exptime())

    def set_many(self):
        self.client.set_multi({key: self.value() for key in self.several()}, time=self.exptime())

    def add(self):
        self.client.add(self.key(), self.value())

    def append(self):
        self.client.append(self.key(), b"+")

    def cas(self):
        key, unique = self.seen.popitem() if self.seen else (self.key(), 1)
        self.client.cas(key, self.value(), unique)

    def delete(self):
        self.client.delete(self.key())

    def touch(self):
        self.client.touch(self.key(), self.exptime())

    def incr(self):
        self.client.incr(self.counter(), self.draw.randint(1, 9))

    def decr(self):
        self.client.decr(self.counter(), self.draw.randint(1, 9))

    def begin(self):
        self.client.add(self.counter(), self.draw.choice((0, 99, 1000)))


def work(kind, place, draw, keys, calls, names, weights):
    """Makes the calls of a client; what the library makes of an answer does not matter."""
    client = kind(place, draw, keys)
    for name in client.draw.choices(names, weights, k=calls):
        try:
            getattr(client, name)()
        except client.faults:
            pass


def main(place, seed, clients, calls, keys, library, mix):
    kind = {"pymemcache": Pymemcache, "pylibmc": Pylibmc}[library]
    names, weights = zip(*(one.split(":") for one in mix.split(",")))
    some = [multiprocessing.Process(target=work, args=(
        kind, place, random.Random(int(seed) * 1000 + number), int(keys), int(calls), names, [*map(int, weights)]))
        for number in range(int(clients))]
    for one in some:
        one.start()
    for one in some:
        one.join()
    sys.exit(any(one.exitcode for one in some))


if __name__ == "__main__":
    checks.help_if_asked()
    if len(sys.argv) != 8:
        sys.exit("tests/libraries.py: it takes seven words; --help says more")
    main(*sys.argv[1:])
