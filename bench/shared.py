#!/usr/bin/env python3
"""Samples runs on 1, 2 and 4 threads with as many cores, and prints where their processor time goes.

The traffic has 200 connections: `generated` is that of `zygos gen --number 1`, `cache` that of `bench/traffic --like
cache`. In the capture `even` the connections are at home at all cores, in `skewed` at core 0. `perf record` samples the
processor 2,500 times a second. A sample at an instruction that locks its cache line, or right behind it, counts for
what that line has: the owners of some bytes (a count), the word of a shard (which stands in a list, so that the
instruction has an index), or the end of a ring or queue. The others count by function: a core that waits or looks for
work, or the crates of that name. What a line costs that another core has written and that is only read is not told
apart: it is in the growth of the other rows. Wants `perf`, and `objdump`, on a machine at rest.

usage: bench/run shared [--traffic KIND] [--commands N] [--keys N] [--only even|skewed] [PROGRAM]

--traffic KIND  generated or cache (cache)
--commands N    the number of commands (1000000)
--keys N        the number of keys of cache (half the commands)
--only KIND     one of the two captures
PROGRAM         a program that is built (if left out, the repository's, which is proved and built first if it isn't)
"""
import bisect
import collections
import os
import re
import shutil
import subprocess
import tempfile

import common
import kinds

THREADS = (1, 2, 4)
RATE = 2_500
# What a sample counts for whose instruction locks nothing: the first that its function's name has.
WHERE = {
    "waiting, looking for work": ("patience", "zy_steal", "go_on_if", "zy_park"),
    "feeding": ("zy_feed", "zy_capture", "zy_read"),
    "cutting, parsing": ("zy_frame", "mc_parse"),
    "calls on the store": ("mc_store", "mc_shard", "mc_calls", "calling"),
    "replies": ("mc_reply", "answer"),
    "turns, rings, holds": ("zy_core", "zy_home", "zy_rx", "zy_conn", "zy_rounds", "zy_shuffle"),
}
OWNERS, WORDS, RINGS, KERNEL, REST = "owners of bytes", "words of shards", "ends of rings", "kernel", "everything else"
ROWS = (OWNERS, WORDS, RINGS, *WHERE, KERNEL, REST)


class Code:
    """The instructions of a program, by their address."""

    def __init__(self, program):
        listed = subprocess.run(["objdump", "-d", "--no-show-raw-insn", program], capture_output=True, text=True)
        self.addresses, self.texts = [], []
        for line in listed.stdout.splitlines():
            if found := re.match(r"\s+([0-9a-f]+):\s+(.*)", line):
                self.addresses.append(int(found[1], 16))
                self.texts.append(found[2])

    def locking(self, address):
        """The instruction at this address or right before it that locks a cache line, if there is one."""
        at = bisect.bisect_left(self.addresses, address)
        for text in self.texts[max(0, at - 1) : at + 1]:
            if re.match(r"lock |xchg .*\(", text):
                return text
        return None


def line_of(text):
    """What has the cache line that an instruction locks."""
    if re.search(r"\(%\w+,%\w+,8\)", text):
        return WORDS
    return RINGS if text.startswith("xchg") else OWNERS


def row_of(code, name, address, is_kernel):
    if is_kernel:
        return KERNEL
    if address is not None and (text := code.locking(address)):
        return line_of(text)
    return next((row for row, words in WHERE.items() if any(word in name for word in words)), REST)


def sampled(program, code, threads, path, room):
    """The seconds of processor time of a run, by what they went to."""
    noted, found, base = os.path.join(room, "perf.data"), collections.Counter(), 0
    words = [program, "run", *common.cores(threads)]
    common.run(["perf", "record", "-q", "-e", "cpu-clock", "-F", RATE, "-o", noted, *words], path,
               stderr=subprocess.DEVNULL)
    told = subprocess.run(["perf", "script", "-i", noted, "-F", "tid,ip,sym,dso", "--show-mmap-events"],
                          capture_output=True, text=True)
    for line in told.stdout.splitlines():
        mapped = re.search(r"MMAP2? .*\[0x([0-9a-f]+)\(.* @ (0x[0-9a-f]+|0) .* r-xp (.*)", line)
        if mapped and mapped[3] == program:
            base = int(mapped[1], 16) - int(mapped[2], 16)
        elif sample := re.match(r"\s*\d+\s+([0-9a-f]+)\s+(.*)\s+\((.*)\)$", line):
            address = int(sample[1], 16) - base if sample[3] == program else None
            found[row_of(code, sample[2], address, "kernel" in sample[3])] += 1 / RATE
    return found


def table(kind, times):
    """Prints a column of seconds for each number of threads, and how much more the most takes than one."""
    print(f"\n{kind}: seconds of processor time on {', '.join(map(str, times))} threads; the last has more than one")
    more = sum(times[THREADS[-1]].values()) - sum(times[1].values())
    for row in (*ROWS, "all"):
        values = [found[row] if row != "all" else sum(found.values()) for found in times.values()]
        share = (values[-1] - values[0]) / more if more > 0 else 0
        print(f"{row:26}" + "".join(f"{value:8.2f}" for value in values) + f"{values[-1] - values[0]:+8.2f} {share:5.0%}")


def main():
    words = common.Words(__doc__, "program")
    words.of_traffic(common.CACHE)
    words.add_argument("--commands", type=common.count, default=1_000_000)
    words.add_argument("--only", choices=["even", "skewed"])
    given = words.given()
    for tool in ("perf", "objdump"):
        if not shutil.which(tool):
            common.stop(f"wants {tool}")
    program = common.built("zygos", given.program)
    code = Code(program)
    print(f"{given.commands} commands of {given.traffic} traffic, {common.machine()}", flush=True)
    with tempfile.TemporaryDirectory() as room:
        records = kinds.segments(common.made(given, program, os.path.join(room, "capture"), given.commands))
        for kind in [given.only] if given.only else ["even", "skewed"]:
            path = os.path.join(room, kind)
            kinds.write(path, kind, records)
            table(kind, {threads: sampled(program, code, threads, path, room) for threads in THREADS})
            os.remove(path)


main()
