"""Times parts of the program, most by `zygos_bench`: what `bench/run` calls for the names in PARTS."""
import os
import random
import struct
import subprocess
import tempfile

import common
from zygos_tools.files.formats import capture as capture_of, segment


class Bench:
    """The program that times parts."""

    def __init__(self, program):
        self.program = program

    def measured(self, *words, source=subprocess.DEVNULL):
        """The count and the nanoseconds that the program prints."""
        ran = subprocess.run([self.program, *map(str, words)], stdin=source, capture_output=True, check=False)
        if ran.returncode:
            common.stop(f"zygos_bench {' '.join(map(str, words))}: ended with status {ran.returncode}")
        said = ran.stdout.split()
        return int(said[0]), int(said[2])

    def least(self, runs, *words):
        """The count and the nanoseconds of the best of these runs."""
        return min((self.measured(*words) for _ in range(runs)), key=lambda found: found[1])

    def each(self, runs, *words):
        """The nanoseconds of one, in the best of these runs."""
        count, nanos = self.least(runs, *words)
        return nanos / count

    def fed(self, path, *words):
        """The nanoseconds of the best of three runs on a file."""

        def once():
            with open(path, "rb") as source:
                return self.measured(*words, source=source)[1]

        return min(once() for _ in range(3))


def shard(bench):
    """calls on one shard, nine reads to one write, at 1,000, 100,000 and 1,000,000 keys"""
    for keys in (1000, 100_000, 1_000_000):
        found = sorted(bench.each(1, "shard", keys, 300_000) for _ in range(5))[2]
        print(f"{keys} keys: {found:.0f} ns a call, {1e9 / found:.0f} calls a second")
    return False


def frames(bench):
    """cutting 80 MB of traffic into frames, in pieces of 1, 100 and 65,535 bytes"""
    total, times = 80_000_000, {}
    for piece in (1, 100, 65535):
        times[piece] = bench.least(3, "frames", total, piece)[1]
        print(f"pieces of {piece} bytes: {total / times[piece] * 1e3:.0f} MB per second")
    print(f"pieces of 1 byte cost {times[1] / times[65535]:.1f} times pieces of 65535")
    return times[1] > 20 * times[65535]


def parse(bench):
    """reading the command of a line, up to its first call"""
    print(f"{bench.each(5, 'parse', 40):.0f} ns a line")
    return False


def capture(bench):
    """reading a capture of 80 MB"""
    draws, left, records = random.Random(42), 80_000_000, []
    while left > 0:
        records.append(segment(draws.randrange(200), draws.randbytes(draws.randrange(65_536))))
        left -= len(records[-1])
    with tempfile.TemporaryDirectory() as room:
        path = os.path.join(room, "capture")
        with open(path, "wb") as out:
            out.write(capture_of(200, records))
        size = os.path.getsize(path)
        print(f"{size} bytes: {size / bench.fed(path, 'capture') * 1e3:.0f} MB per processor second")
    return False


def journal(program):
    """runs that write their journal, which merges the histories of 16 and 256 shards, beside runs without it"""
    worst = 0
    with tempfile.TemporaryDirectory() as room:
        sizes = (100_000, 1_000_000)
        paths = [common.generated(program, os.path.join(room, str(commands)), commands) for commands in sizes]
        for shards in (16, 256):
            words = [program, "run", *common.cores(1), "--shards", shards, "--out"]
            alone = common.least(3, [*words, "replies"], paths[1]).used
            few, many = (common.least(3, [*words, "both"], path).used for path in paths)
            worst = max(worst, many / few)
            print(f"{shards} shards, {sizes[1]} commands: {1e6 * (many - alone) / sizes[1]:.2f} microseconds of processor time "
                  f"a command for the journal, of {1e6 * many / sizes[1]:.2f}; "
                  f"ten times the commands in {many / few:.1f} times the time", flush=True)
    return worst > 12


def packets_of(path, size, length, swapped=False):
    """A file of packets of 20 flows with payloads of one length, in order or each pair swapped."""
    payload, flows = random.Random(1).randbytes(length), []
    for i in range(20):
        ends = struct.pack(">IIHH", 0x0A000001, 0x0A000002, 40_000 + i, 11_211)
        flows.append((ends[:8], ends[8:]))
    with open(path, "wb") as out:
        out.write(struct.pack(">IHHIIII", 0xA1B2C3D4, 2, 4, 0, 0, 262_144, 1))
        for count in range(size // (70 + length)):
            number, (addresses, ports) = count // 20, flows[count % 20]
            # the session begins where its first packet does
            number = (number - 1 ^ 1) + 1 if swapped and number else number
            out.write(struct.pack(">IIII", 0, 0, 54 + length, 54 + length) + bytes(12) + b"\x08\x00")
            out.write(struct.pack(">BBHHHBBH", 69, 0, 40 + length, 0, 0, 64, 6, 0) + addresses + ports)
            out.write(struct.pack(">IIBBHHH", length * number, 0, 80, 16, 65_535, 0, 0) + payload)


def pcap(program):
    """making the capture of recorded packets, 16 MB and 160 MB, in order and not"""
    worst = 0
    with tempfile.TemporaryDirectory() as room:
        path = os.path.join(room, "packets")
        for length, swapped in ((1448, False), (64, False), (1448, True)):
            times = []
            for size in (16_000_000, 160_000_000):
                packets_of(path, size, length, swapped)
                times.append((os.path.getsize(path), common.least(3, [program, "pcap"], path).used))
            name = f"payloads of {length} bytes, {'each pair swapped' if swapped else 'in order'}"
            ratio = times[1][1] / times[0][1]
            print(f"{name}: {times[1][0] / times[1][1] / 1e6:.0f} MB per processor second; "
                  f"ten times the bytes in {ratio:.1f} times the time", flush=True)
            if length == 1448 and not swapped:
                worst = max(ratio / 12, times[1][1] / times[1][0] / 5e-9)
    return worst > 1


def store(bench):
    """one pass on one shard beside the shard alone; 1, 2 and 4 threads on 16 shards"""
    calls = 1_000_000
    alone, by_pass = (bench.each(5, "store", part, calls) for part in ("shard", "pass"))
    print(f"the shard alone: {alone:.0f} ns a call; "
          f"one pass alone: {by_pass:.0f} ns, {100 * by_pass / alone:.0f} percent")
    for threads in (1, 2, 4):
        nanos = bench.least(5, "store", "threads", calls, threads)[1]
        print(f"{threads} threads on 16 shards: {threads * calls * 1e9 / nanos:.0f} calls a second")
    return 10 * by_pass > 13 * alone


def claims(bench, queue, thieves):
    """The nanoseconds of a claim from the shuffle queue, the `ring`, or one with a `lock`, by this number of thieves."""
    return bench.each(3, "shuffle", queue, thieves, 1_000_000 if thieves else 5_000_000)


def shuffle(bench):
    """the shuffle queue and one with a lock: the home alone, and claims by 1 to 3 thieves"""
    for thieves in (0, 1, 2, 3):
        for name in ("ring", "lock"):
            found = claims(bench, name, thieves)
            if thieves:
                print(f"{name}, thieves {thieves}: {1e9 / found:.0f} claims a second")
            else:
                print(f"{name}, alone: {found:.0f} ns for publish and claim")
    return False


def hold(bench):
    """the hold of a block beside the same calls on a shard alone"""
    alone, held = (bench.each(5, "conn", part, 20, 64) for part in ("shard", "block"))
    print(f"a shard alone: {alone:.0f} ns a call; a hold: {held:.0f} ns a command, {100 * held / alone:.0f} percent")
    return False


def held_and_served(bench, size):
    """The nanoseconds of a command in a hold of `size`, and of one at its home, from segment to text."""
    return tuple(bench.each(5, "conn", part, 1280 // size, size) for part in ("block", "home"))


def home(bench):
    """a home of 200 connections, from segment to text, beside the holds in it"""
    for size in (4, 16, 64):
        held, served = held_and_served(bench, size)
        alone = served - held
        print(f"{size} at once: a home {served:.0f} ns a command, the hold in it {held:.0f} ns; "
              f"what the home does alone, cut, settle and collect: {alone:.0f} ns, "
              f"{100 * alone / held:.0f} percent of the hold")
    return 2 * served > 3 * held


# commands of the program itself, in processor time
OF_ZYGOS = {part.__name__: part for part in (pcap, journal)}
PARTS = {**{part.__name__: part for part in (shard, frames, parse, capture, store, shuffle, hold, home)}, **OF_ZYGOS}
PAGE = """Measures {what}: {said}.

usage: bench/run {what} [PROGRAM]

PROGRAM       `{program}`, built (if left out, that of the repository, which is proved and built first if it isn't)
"""


def main(what, words):
    """Measures a part; the status is 1 if it costs more than it may."""
    common.called(f"bench/run {what}")
    program = "zygos" if what in OF_ZYGOS else "zygos_bench"
    page = PAGE.format(what=what, said=PARTS[what].__doc__, program=program)
    path = common.built(program, common.Words(page, "program").given(words).program)
    return int(PARTS[what](path if what in OF_ZYGOS else Bench(path)))
