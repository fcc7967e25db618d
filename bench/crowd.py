#!/usr/bin/env python3
"""Serves the same traffic with more threads than processors, and beside busy programs, and prints what it costs.

The traffic has 200 connections: `generated` is that of `zygos gen --number 1`, `cache` that of `bench/traffic --like
cache`. Or a capture is given. First the program may use one, two or all processors, and runs on 1, 2, 4 and 8 threads
with as many cores. Printed are the medians of wall seconds and of processor seconds of the runs, and the wall time
beside that of one thread on the same processors. Then four threads run at rest and beside busy programs of the lowest
priority, in turns: printed are the medians, and the time beside the busy programs over that at rest. If there is a C
compiler, a last run of each kind counts, by thread, how often it yielded, how often it slept on a futex, how often it
gave up its processor in any other way (as at a lock of the allocator), and how long it was away, in all and at once at
most.

usage: bench/run crowd [--traffic KIND] [--commands N] [--keys N] [--runs N] [--busy N] [--rest N] [--only crowd|beside]
                       [--capture FILE] [PROGRAM]

--traffic KIND  generated or cache (generated)
--commands N    the number of commands (400000)
--keys N        the number of keys of cache (half the commands)
--runs N        the number of runs of each kind (3)
--busy N        the number of busy programs (that of the processors)
--rest N        when idle cores sleep (1; with more than four threads 100)
--only WHAT     one of the two parts
--capture FILE  a capture that is served in place of that traffic
PROGRAM         a program that is built (if left out, the repository's, which is proved and built first if it isn't)
"""
import contextlib
import os
import shutil
import struct
import subprocess
import tempfile
import time

import common

THREADS = (1, 2, 4, 8)
BESIDE = 4
# how many rows of six numbers bench/waits.c writes
ROWS, ROW = 128, struct.Struct("6q")


def with_threads(given, program, path):
    """Prints what more threads than processors cost."""
    here = sorted(os.sched_getaffinity(0))
    for count in sorted({1, min(2, len(here)), len(here)}):
        alone, only = None, {"preexec_fn": lambda allowed=set(here[:count]): os.sched_setaffinity(0, allowed)}
        for threads in THREADS:
            command = [program, "run", *common.cores(threads, rest=given.rest)]
            cost = common.medians([common.run(command, path, **only) for _ in range(given.runs)])
            alone = alone or cost.wall
            print(f"{count} processors, {threads} threads: {cost.wall:.2f} s, {cost.used:.2f} s of processor time, "
                  f"{cost.wall / alone:.2f} times the time of one thread", flush=True)


@contextlib.contextmanager
def busy(number):
    """Programs of the lowest priority that never wait."""
    started = [subprocess.Popen(["nice", "-n", "19", "sh", "-c", "while :; do :; done"]) for _ in range(number)]
    try:
        time.sleep(0.1)
        yield
    finally:
        for process in started:
            process.kill()
            process.wait()


def beside_others(given, program, path, room):
    """Prints what busy programs cost four threads, and how they wait."""
    command = [program, "run", *common.cores(BESIDE, rest=given.rest)]
    costs = {0: [], given.busy: []}
    for _ in range(given.runs):
        for number, found in costs.items():
            with busy(number):
                found.append(common.run(command, path))
    alone, crowded = (common.medians(found) for found in costs.values())
    print(f"{BESIDE} threads at rest: {alone.wall:.2f} s, {alone.used:.2f} s of processor time")
    print(f"{BESIDE} threads beside {given.busy} busy programs: {crowded.wall:.2f} s, {crowded.used:.2f} s of processor time, "
          f"{crowded.wall / alone.wall:.2f} times the time at rest", flush=True)
    if not shutil.which("cc"):
        return
    shim = os.path.join(room, "waits.so")
    subprocess.run(["cc", "-O2", "-shared", "-fPIC", "-o", shim, os.path.join(common.HERE, "waits.c"), "-ldl"], check=True)
    for number in costs:
        with busy(number):
            print(f"waits beside {number} busy programs:")
            for line in waits(command, path, shim, os.path.join(room, "waits")):
                print("  " + line, flush=True)


def switches(process):
    """How often each thread of a process gave up its processor by itself."""
    found = {}
    for thread in os.listdir(f"/proc/{process.pid}/task"):
        with contextlib.suppress(OSError), open(f"/proc/{process.pid}/task/{thread}/status", encoding="ascii") as file:
            found[int(thread)] = next(int(line.split()[1]) for line in file if line.startswith("voluntary"))
    return found


def waits(command, path, shim, noted):
    """How the threads of a run waited, a line each."""
    with open(noted, "wb") as file:
        file.truncate(ROWS * ROW.size)
    given_up = {}
    with open(path, "rb") as source, subprocess.Popen(
            [str(word) for word in command], stdin=source, stdout=subprocess.DEVNULL,
            env=dict(os.environ, LD_PRELOAD=shim, WAITS=noted)) as process:
        while process.poll() is None:
            with contextlib.suppress(OSError):
                given_up.update(switches(process))
            time.sleep(0.02)
    with open(noted, "rb") as file:
        rows = [row for row in ROW.iter_unpack(file.read()) if row[0]]
    for at, (thread, yields, slept, away, longest, slow) in enumerate(rows):
        others = max(0, given_up.get(thread, 0) - slept)
        yield (f"thread {at}: {yields} yields, {slept} sleeps, {others} other waits; away {away / 1e9:.2f} s in all, "
               f"{slow} times over 0.5 ms, at most {longest / 1e6:.1f} ms")


def main():
    words = common.Words(__doc__, "program")
    words.of_traffic()
    words.add_argument("--commands", type=common.count, default=400_000)
    words.add_argument("--runs", type=common.count, default=3)
    words.add_argument("--busy", type=common.count, default=len(os.sched_getaffinity(0)))
    words.add_argument("--rest", type=int)
    words.add_argument("--only", choices=["crowd", "beside"])
    words.add_argument("--capture")
    given = words.given()
    program = common.built("zygos", given.program)
    served = given.capture or f"{given.commands} commands of {given.traffic} traffic"
    print(f"{served}, median of {given.runs} runs, {common.machine()}", flush=True)
    with tempfile.TemporaryDirectory() as room:
        path = given.capture or common.made(given, program, os.path.join(room, "capture"), given.commands)
        if given.only != "beside":
            with_threads(given, program, path)
        if given.only != "crowd":
            beside_others(given, program, path, room)


main()
