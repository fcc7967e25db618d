#!/usr/bin/env python3
"""Serves traffic of 200 connections, a capture and one of ten times its commands, and prints what it costs.

The traffic is `generated`, that of `zygos gen --number 1`, or `cache`, that of `bench/traffic --like cache`: keys of
30 bytes, one in each command. The runs of all servers are interleaved. On one thread: microseconds of processor time a
command and resident memory as a multiple of the capture, and how both grow from the smaller capture to the larger: of
zygos, which keeps a journal, with and without writing it; and of `bench/plain.c`, a plain server in C, with a journal
of 80 bytes a call that it keeps, and without one. Ratios of times are medians over the turns, with the least and the
most: on a machine that others use they say more than seconds. Then the larger capture on more cores, with one thread
and with as many threads, beside the plain server with a journal on as many threads and on one. The last line says from
how many threads zygos is faster than the plain server on one.

The plain server's replies to generated traffic must be the same, byte for byte. The connections of `cache` share keys,
so replies depend on the order of commands: only the numbers of replies to gets and to sets must be the same.

usage: bench/run serve [--traffic KIND] [--runs N] [--commands N] [--keys N] [--note] [PROGRAM]

--traffic KIND  generated or cache (generated)
--runs N        how often each is run; costs are those of the run of the least processor time (3)
--commands N    the commands of the larger capture; the smaller one has a tenth (1000000)
--keys N        the keys of the larger capture of cache; the smaller one has a tenth (half the commands)
--note          writes the memory of the larger capture into bench/figures.json, which the pages quote
PROGRAM         a program that is built (if left out, the repository's, which is proved and built first if it isn't)
"""
import filecmp
import os
import tempfile

import common

ALONE = ["run", "--cores", "1", "--threads", "1"]
THREADS = (1, 2, 4)
ZYGOS, WRITTEN, JOURNAL, PLAIN = "zygos", "zygos, its journal written", "plain C with a journal", "plain C"


def numbers_of_replies(path):
    """The numbers of replies to sets and to gets. No value has a capital letter."""
    with open(path, "rb") as file:
        replies = file.read()
    return replies.count(b"STORED\r\n"), replies.count(b"END\r\n")


def same_replies(given, room, path, *commands):
    """Ends if the commands do not write the same replies, as far as the traffic determines them."""
    files = [os.path.join(room, str(at)) for at in range(len(commands))]
    for command, file in zip(commands, files):
        common.run(command, path, file)
    if given.traffic == common.CACHE:
        is_same = len(set(map(numbers_of_replies, files))) == 1
    else:
        is_same = all(filecmp.cmp(files[0], file, shallow=False) for file in files[1:])
    if not is_same:
        common.stop("the plain server's replies are not the same")
    for file in files:
        os.remove(file)


class Row:
    """What a server costs with the smaller capture and with the larger, by its runs."""

    def __init__(self, runs, paths, sizes):
        self.runs, costs = runs, [min(found, key=lambda cost: cost.used) for found in runs]
        self.each = [cost.used / size * 1e6 for cost, size in zip(costs, sizes)]
        self.memory = [cost.resident / os.path.getsize(path) for cost, path in zip(costs, paths)]
        self.megabytes = costs[-1].resident / 1e6
        self.growth = costs[1].used / costs[0].used, costs[1].resident / costs[0].resident

    def cells(self):
        return "".join(f"{each:13.2f}{memory:8.1f}" for each, memory in zip(self.each, self.memory))


def beside(kinds, paths, sizes, runs):
    """Prints what each kind costs on one thread as a table, and how it compares; gives the rows."""
    print(f"{'on one thread':28}" + "".join(f"{size:>12,} commands" for size in sizes) + f"{'growth':>16}")
    print(" " * 28 + f"{'us a command':>13}{'memory':>8}" * 2 + f"{'time':>8}{'memory':>8}")
    costs = [common.interleaved(runs, kinds, path) for path in paths]
    rows = {kind: Row([found[kind] for found in costs], paths, sizes) for kind in kinds}
    for kind, row in rows.items():
        print(f"{kind:28}{row.cells()}{row.growth[0]:8.1f}{row.growth[1]:8.1f}", flush=True)
    for one, other in ((ZYGOS, JOURNAL), (ZYGOS, PLAIN), (WRITTEN, ZYGOS)):
        print(f"{one} / {other}: " + "; ".join(
            f"{common.Ratio(rows[one].runs[at], rows[other].runs[at], 'used')} the processor time, "
            f"{rows[one].memory[at] / rows[other].memory[at]:.2f} times the memory, of {sizes[at]:,} commands"
            for at in (0, 1)))
    return rows


def on_threads(program, plain, path, runs):
    """Prints what zygos and the plain server cost on 1, 2 and 4 threads."""
    kinds = {(ZYGOS, threads): [program, "run", *common.cores(threads)] for threads in THREADS}
    kinds |= {(JOURNAL, threads): [plain, "--journal", "--threads", threads] for threads in THREADS}
    kinds[JOURNAL, None] = [plain, "--journal"]
    costs = common.interleaved(runs, kinds, path)
    for threads in THREADS:
        found, others, alone = costs[ZYGOS, threads], costs[JOURNAL, threads], costs[JOURNAL, None]
        cost, other = common.medians(found), common.medians(others)
        print(f"{threads} cores on as many threads: {cost.wall:.2f} s, {cost.used:.2f} s of processor time; {JOURNAL}: "
              f"{other.wall:.2f} s, {other.used:.2f} s; {common.Ratio(found, others, 'wall')} the time, and "
              f"{common.Ratio(found, alone, 'wall')} the time of one thread of it", flush=True)
    print(common.ahead({threads: costs[ZYGOS, threads] for threads in THREADS}, costs[JOURNAL, None]), flush=True)


def main():
    words = common.Words(__doc__, "program")
    words.of_traffic()
    words.add_argument("--runs", type=common.count, default=3)
    words.add_argument("--commands", type=common.count, default=1_000_000)
    words.noting()
    given = words.given()
    program = common.built("zygos", given.program)
    largest = max(given.commands // (10 * common.CONNECTIONS), 1) * 10 * common.CONNECTIONS
    sizes = (largest // 10, largest)
    print(f"{given.traffic} traffic, {given.runs} runs in turn, {common.machine()}", flush=True)
    with tempfile.TemporaryDirectory() as room:
        plain = common.plain(room)
        paths = [common.made(given, program, os.path.join(room, f"{size}.cap"), size, largest // size)
                 for size in sizes]
        for path in paths:
            same_replies(given, room, path, [program, *ALONE], [plain], [plain, "--journal"], [plain, "--threads", 4])
        rows = beside({ZYGOS: [program, *ALONE], WRITTEN: [program, *ALONE, "--out", "both"],
                       JOURNAL: [plain, "--journal"], PLAIN: [plain]}, paths, sizes, given.runs)
        common.note(given, "memory" if given.traffic == common.GENERATED else "memory, cache",
                    zygos=rows[ZYGOS].megabytes, plain=rows[JOURNAL].megabytes)
        for cores in (4, 16, 64):
            cost = common.least(given.runs, [program, "run", *common.cores(cores, 1)], paths[1])
            print(f"{cores} cores on one thread: {cost.used / largest * 1e6:.2f} us of processor time a command",
                  flush=True)
        on_threads(program, plain, paths[1], given.runs)


main()
