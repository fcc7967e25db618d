#!/usr/bin/env python3
"""Serves the same traffic on 1, 2, 3 and 4 threads with as many cores, in three kinds of capture, and prints what it
costs.

The traffic is `generated`, that of `zygos gen --number 1`, or `cache`, that of `bench/traffic --like cache`, both with
200 connections. The capture `even` has it with its own short segments: the connections are at home at all cores. In
`skewed` all connections are at home at core 0, so that the other cores have only what they steal. In `large` the
streams of `even` come in turn in segments of 1,400 bytes. Printed are the machine, and for each kind and number of
threads the medians of wall seconds and of processor seconds of the runs, and how these compare with one thread; the
same of `bench/plain.c`, a plain server in C, with its journal, 16 locked shards and as many threads; and from the
journal of another run the number of holds, the commands of a hold, how many holds had 1, 2 to 3, 4 to 7 and so on up
to 64 commands, and the share that was by another core than the connection's home. The runs of zygos and of plain C on
all numbers of threads are interleaved. Their ratios are medians over the turns, with the least and the most: on a
machine that others use they say more than seconds. The last line of a kind says from how many threads zygos is faster
than plain C on one.

Then `even` is served by 2 and 4 cores on as many threads with `--rest 0` and with `--rest 100`: from a file, and over
a pipe that gives it in 20 pieces, with a pause of 100 ms after each. The pauses are in the wall seconds; processor
seconds are those of the program alone.

usage: bench/run scale [--traffic KIND] [--commands N] [--keys N] [--runs N] [--only KIND] [--picture FILE] [--note]
                       [PROGRAM]

--traffic KIND  generated or cache (generated)
--commands N    the number of commands (1000000)
--keys N        the number of keys of cache (half the commands)
--runs N        the number of timed runs of each kind (5)
--only KIND     even, skewed or large alone, or `rest` for the runs with and without rest
--picture FILE  writes a chart, for which all kinds are served
--note          writes figures of `even` into bench/figures.json, which the pages quote: of generated traffic the
                medians of seconds, of cache the ratios to plain C
PROGRAM         a program that is built (if left out, the repository's, which is proved and built first if it isn't)
"""
import os
import subprocess
import tempfile
import time

import chart
import common
import kinds
from zygos_tools.files.formats import Hold, journal_records
from zygos_tools.files.part import Part

MOST = 4
THREADS = (1, 2, 3, 4)
SIZES = ("1", "2-3", "4-7", "8-15", "16-31", "32-63", "64")
RESTS, RESTING, PIECES, PAUSE = (0, 100), (2, 4), 20, 0.1
TOLD = {"even": "even", "skewed": "skewed: all at home at core 0", "large": "segments of 1,400 bytes"}
COLOURS = {"even": chart.BLUE, "skewed": chart.ORANGE, "large": chart.GREEN}


# ---- runs


def give(path, end):
    """Writes a file to a pipe in pieces, with a pause after each."""
    size = os.path.getsize(path) // PIECES + 1
    with open(path, "rb") as source, open(end, "wb", buffering=0) as pipe:
        while piece := source.read(size):
            left = memoryview(piece)
            while left:
                left = left[pipe.write(left) :]
            time.sleep(PAUSE)


def run_paused(command, path):
    """What a run costs whose input comes over a pipe that pauses."""
    taken, given = os.pipe()
    begin = time.time()
    process = subprocess.Popen(command, stdin=taken, stdout=subprocess.DEVNULL)
    os.close(taken)
    give(path, given)
    return common.finished(process, begin)


def with_rests(program, path, runs):
    """Prints what the even capture costs with and without rest, from a file and over a pipe that pauses."""
    for serve, name in ((common.run, "from a file"), (run_paused, f"with {PIECES} pauses of {PAUSE * 1000:.0f} ms")):
        for threads in RESTING:
            for rest in RESTS:
                words = [program, "run", *common.cores(threads, rest=rest)]
                cost = common.medians([serve(words, path) for _ in range(runs)])
                print(f"even, {name}, {threads} cores on as many threads, --rest {rest}: {cost.wall:.2f} s, "
                      f"{cost.used:.2f} s of processor time", flush=True)


def holds(program, words, path):
    """The connection, the core and the number of commands of each hold of a run."""
    with tempfile.NamedTemporaryFile() as file:
        common.run([program, "run", *words, "--out", "both"], path, file.name)
        return [record for record in journal_records(Part("journal", more=file.read)) if isinstance(record, Hold)]


def about_holds(program, path, threads, commands):
    """What is said of the holds of a run."""
    found = holds(program, common.cores(threads), path)
    sizes = [0] * len(SIZES)
    for _, _, count in found:
        sizes[count.bit_length() - 1] += 1
    away = sum(core != conn % 128 % threads for conn, core, _ in found) / len(found)
    return f"{len(found)} holds of {commands / len(found):.1f} commands, {away:.0%} stolen; " + ", ".join(
        f"{size}: {count}" for size, count in zip(SIZES, sizes))


# ---- what is printed and drawn


def beside_plain(costs, plain, kind, threads):
    """What is said of the plain server on as many threads and on one."""
    found, others, alone = costs[kind, threads], plain[kind, threads], plain[kind, 1]
    beside = common.medians(others)
    return (f"plain C with a journal: {beside.wall:.2f} s, {beside.used:.2f} s of processor time, "
            f"{common.medians(alone).wall / beside.wall:.2f} times as fast as one\n  zygos takes "
            f"{common.Ratio(found, others, 'wall')} its time, {common.Ratio(found, others, 'used')} its processor time "
            f"and {common.Ratio(found, alone, 'wall')} the time of plain C on one thread")


def report(costs, kind, threads, about):
    """Prints the medians of the runs, beside those of one thread."""
    cost, alone = common.medians(costs[kind, threads]), common.medians(costs[kind, 1])
    least, most = (which(run.wall for run in costs[kind, threads]) for which in (min, max))
    print(f"{kind}, {threads} cores on as many threads: {cost.wall:.2f} s ({least:.2f} to {most:.2f}), "
          f"{cost.used:.2f} s of processor time, {alone.wall / cost.wall:.2f} times as fast as one, "
          f"{cost.used / alone.used:.2f} times the "
          f"processor time\n  {about}", flush=True)


def curve(costs, kind, commands):
    """Thousands of commands a second by threads, with the spread of the runs."""
    points = []
    for threads in THREADS:
        runs = costs[kind, threads]
        rates = sorted(commands / run.wall / 1000 for run in runs)
        points.append((threads, commands / common.medians(runs).wall / 1000, rates[0], rates[-1]))
    times = ", ".join(f"{point[1] / points[0][1]:.2f}" for point in points[1:])
    return chart.Curve(TOLD[kind], COLOURS[kind], points, notes=[f"{times} times on 2, 3, 4"])


def picture(costs, commands, runs):
    """A chart of commands a second by threads, for all kinds; the dashed lines are multiples of one thread."""
    curves = [curve(costs, kind, commands) for kind in kinds.KINDS]
    top = max(max(of.points[0][1] * MOST, *(point[3] for point in of.points)) for of in curves)
    drawn = chart.Chart(f"Serving {commands:,} commands of {common.CONNECTIONS} connections on 1 to {MOST} threads",
                        [common.machine_name(),
                         f"a core for each thread, 16 shards; median of {runs} runs, with the slowest and the fastest"],
                        chart.Axis("threads", 1, MOST, list(THREADS)),
                        chart.linear("thousands of commands a second", top))
    for of in curves:
        drawn.curve(of)
    for of in curves:
        ideal = [(threads, of.points[0][1] * threads) for threads in (1, MOST)]
        (left, begin), (right, end) = drawn.at(*ideal[0]), drawn.at(*ideal[1])
        drawn.line(left, begin, right, end, of.colour, ' stroke-dasharray="7 4" stroke-opacity="0.6"')
    drawn.note("solid: measured; times one thread's rate", "dashed: one thread's rate", "times the number of threads")
    return drawn


def serve_in_turn(costs, plain, kind, program, server, path, runs):
    """Serves a capture on all numbers of threads, interleaved, and adds what that costs zygos and the plain server."""
    commands = {}
    for threads in THREADS:
        commands["zygos", threads] = [program, "run", *common.cores(threads)]
        commands["plain", threads] = [*server, threads]
    for (name, threads), found in common.interleaved(runs, commands, path).items():
        (costs if name == "zygos" else plain)[kind, threads] = found


def note(given, costs, plain):
    """Notes figures by number of threads: the seconds of generated traffic, or the ratios to plain C of cache."""
    values = {}
    for threads in THREADS:
        cost, other = costs["even", threads], plain["even", threads]
        if given.traffic == common.GENERATED:
            values[f"threads_{threads}"], values[f"plain_{threads}"] = (common.medians(it).wall for it in (cost, other))
        else:
            values[f"wall_{threads}"] = common.Ratio(cost, other, "wall").median
            values[f"used_{threads}"] = common.Ratio(cost, other, "used").median
            values[f"one_{threads}"] = common.Ratio(cost, plain["even", 1], "wall").median
    common.note(given, "threads" if given.traffic == common.GENERATED else "threads, cache", **values)


def main():
    words = common.Words(__doc__, "program")
    words.of_traffic()
    words.add_argument("--commands", type=common.count, default=1_000_000)
    words.add_argument("--runs", type=common.count, default=5)
    words.add_argument("--only", choices=[*kinds.KINDS, "rest"])
    words.add_argument("--picture")
    words.noting()
    given = words.given()
    program = common.built("zygos", given.program)
    asked = [given.only] if given.only and not given.picture else [*kinds.KINDS, "rest"]
    commands = max(1, given.commands // common.CONNECTIONS) * common.CONNECTIONS
    print(f"{commands} commands of {given.traffic} traffic, median of {given.runs} runs, {common.machine()}",
          flush=True)
    costs, plain = {}, {}
    with tempfile.TemporaryDirectory() as room:
        server = [common.plain(room), "--journal", "--threads"]
        records = kinds.segments(common.made(given, program, os.path.join(room, "capture"), commands))
        for kind in asked:
            path = os.path.join(room, kind)
            kinds.write(path, "even" if kind == "rest" else kind, records)
            if kind == "rest":
                with_rests(program, path, given.runs)
            else:
                serve_in_turn(costs, plain, kind, program, server, path, given.runs)
                for threads in THREADS:
                    report(costs, kind, threads, beside_plain(costs, plain, kind, threads) + "\n  "
                           + about_holds(program, path, threads, commands))
                by_threads = {threads: costs[kind, threads] for threads in THREADS}
                print(f"{kind}: {common.ahead(by_threads, plain[kind, 1])}", flush=True)
            os.remove(path)
    if ("even", 1) in costs:
        note(given, costs, plain)
    if given.picture:
        common.draw(picture(costs, commands, given.runs), given.picture)


main()
