#!/usr/bin/env python3
"""Counts the instructions of serving traffic on one thread, and prints where they go.

Seconds differ from run to run, instructions hardly do. They are counted by callgrind, a part of valgrind, for two
kinds of traffic of 200 connections: `generated` is that of `zygos gen --number 1`, with short keys, and `cache` that
of `bench/traffic --like cache`, with one key of 30 bytes in each command. For each, these are printed: the
instructions of a command, and beside them those of `bench/plain.c`, a plain server in C, with a journal that it keeps;
the instructions by which a segment is fed, from the piece of the input to the receive ring of its home core; and the
functions that take the most: how many instructions of a command are their own, and how many they take with all that
they call.

With --check it also counts what a user waits for besides: `run --out both`, which writes a journal, `check` of such a
run, and the programs `linear` and `judge` on a recording: the traffic of caches, of one connection, with a mark after
each command.

usage: bench/run instructions [--traffic KIND] [--commands N] [--keys N] [--functions N] [--check | --note] [PROGRAM]

--traffic KIND only generated or cache
--commands N   the number of commands (200000)
--keys N       the number of keys of cache (half the commands)
--functions N  the number of functions (40)
--check        counts 20,000 commands of our programs only, with the misses of a second cache of 1 MiB in a run, and the
               resident bytes of 100,000 in a run and a check; the status is 1 if a command takes more than its bound.
               `linear` and `judge` are those that were built beside PROGRAM, or are left out
--note         writes them into bench/figures.json, which the pages quote
PROGRAM        a program that is built (if left out, the repository's, which is proved and built first if it isn't)
"""
import collections
import os
import re
import shutil
import subprocess
import tempfile

import common
from zygos_tools.files.formats import capture, read_capture, segment
from zygos_tools.files.part import Part

ALONE = ["run", "--cores", "1", "--threads", "1"]
BOTH = [*ALONE, "--out", "both"]
# For --check, the number of commands and the bounds on the instructions of one: 3 % more than it takes.
FEW = 20_000
MOST = {common.GENERATED: {"run": 5_440, "both": 7_310, "check": 8_700},
        common.CACHE: {"run": 2_390, "both": 2_920, "check": 4_400},
        "recorded": {"linear": 5_350, "judge": 10_770}}
# The same for resident bytes: 10 % more than it takes. Of few commands they would be those of this script.
MANY = 100_000
MOST_BYTES = {common.GENERATED: {"run": 804, "check": 1_370}, common.CACHE: {"run": 603, "check": 900}}
# The caches that cachegrind simulates: the first with 32 KiB, the second with 1 MiB. The same bound for misses of the second.
CACHES = ["--cache-sim=yes", "--I1=32768,8,64", "--D1=32768,8,64", "--LL=1048576,16,64"]
MOST_MISSES = {common.GENERATED: 27.4, common.CACHE: 16.4}
# The groups of bench/figures.json.
GROUPS = {common.GENERATED: "instructions", common.CACHE: "instructions, cache"}
# The functions by which a segment is fed.
FEEDING = re.compile(r"CaptureFeeder|^zy_feed\b")


# ---- counting


class Count:
    """The instructions of a run, by function: its own, and with all that it calls; and those of each call of one
    function by another."""

    def __init__(self, path):
        self.own, self.calls, self.names = collections.Counter(), collections.Counter(), {}
        function = called = None
        with open(path, encoding="utf-8", errors="replace") as file:
            for line in file:
                if line.startswith("fn="):
                    function = self.name(line[3:])
                elif line.startswith("cfn="):
                    called = self.name(line[4:])
                elif line[0] in "0123456789+-*":
                    if called:
                        self.calls[function, called] += int(line.split()[1])
                    else:
                        self.own[function] += int(line.split()[1])
                    called = None
        self.all = sum(self.own.values())

    def name(self, text):
        """The name of a function, which is written out when it first comes."""
        number, _, name = text.strip().partition(" ")
        return self.names.setdefault(number, name)

    def whole(self):
        """The instructions of each function with all that it calls."""
        found = self.own.copy()
        for (function, called), count in self.calls.items():
            if function != called:
                found[function] += count
        return found

    def within(self, kind):
        """The instructions of calls of these functions by others."""
        return sum(count for (function, called), count in self.calls.items()
                   if kind.search(called) and not kind.search(function))


def counted(room, path, command):
    """The count of a command that reads this file."""
    out = os.path.join(room, "count")
    command = ["valgrind", "--tool=callgrind", "--callgrind-out-file=" + out, *command]
    common.run(command, path, stderr=subprocess.DEVNULL)
    return Count(out)


def missed(room, path, command):
    """The reads and writes of a command that reads this file which the second simulated cache misses."""
    out = os.path.join(room, "misses")
    common.run(["valgrind", "--tool=cachegrind", *CACHES, "--cachegrind-out-file=" + out, *command], path,
               stderr=subprocess.DEVNULL)
    with open(out, encoding="utf-8", errors="replace") as file:
        words = dict(line.split(":", 1) for line in file if line.startswith(("events:", "summary:")))
    found = dict(zip(words["events"].split(), map(int, words["summary"].split())))
    return found["DLmr"] + found["DLmw"]


def traffic(given, program, room, commands):
    """The path of a capture of the traffic that was asked for, and its numbers of commands and of segments."""
    commands = max(1, commands // common.CONNECTIONS) * common.CONNECTIONS
    path = common.made(given, program, os.path.join(room, given.traffic), commands)
    with open(path, "rb") as file:
        return path, commands, len(read_capture(Part("capture", file.read())).records)


# ---- what is printed


def functions(count, commands, most):
    """Prints the functions with the most instructions of their own."""
    whole = count.whole()
    print(f"{'own':>8}{'whole':>8}  a command, by function")
    for name, own in count.own.most_common(most):
        print(f"{own / commands:8.0f}{whole[name] / commands:8.0f}  {name[:100]}")


def joined(program, words, path, room):
    """The path of a capture and of what a run of it writes, joined."""
    whole = os.path.join(room, "whole")
    shutil.copyfile(path, whole)
    common.run([program, *words], path, whole, append=True)
    return whole


def is_within(room, path, command, kind, work):
    """Checks whether a command takes at most its bound of instructions, and prints both."""
    each, most = counted(room, path, command).all / FEW, MOST[kind][work]
    print(f"{kind} {work}: {each:.0f} instructions a command of {FEW:,}; the bound is {most}", flush=True)
    return each <= most


def is_within_misses(room, path, command, kind):
    """Checks whether a command of a run misses the second cache at most as often as its bound says, and prints both."""
    each, most = missed(room, path, command) / FEW, MOST_MISSES[kind]
    print(f"{kind} run misses: {each:.1f} a command of {FEW:,}, of a cache of 1 MiB; the bound is {most}", flush=True)
    return each <= most


def is_within_memory(path, command, kind, work):
    """Checks whether a command takes at most its bound of memory, and prints both."""
    each, most = common.run(command, path).resident / MANY, MOST_BYTES[kind][work]
    print(f"{kind} {work} memory: {each:.0f} bytes a command of {MANY:,}; the bound is {most}", flush=True)
    return each <= most


def check(given, program, room):
    """The works of zygos on this traffic that take more than their bounds."""
    path, kind = traffic(given, program, room, FEW)[0], given.traffic
    whole = joined(program, BOTH, path, room)
    run, checking = [program, *ALONE], [program, "check"]
    within = {"run": is_within(room, path, run, kind, "run"),
              "run misses": is_within_misses(room, path, run, kind),
              "both": is_within(room, path, [program, *BOTH], kind, "both"),
              "check": is_within(room, whole, checking, kind, "check")}
    path = traffic(given, program, room, MANY)[0]
    within["run memory"] = is_within_memory(path, run, kind, "run")
    within["check memory"] = is_within_memory(joined(program, BOTH, path, room), checking, kind, "check")
    return [f"{kind} {work}" for work, is_so in within.items() if not is_so]


def recorded(room):
    """The path of a recording of one connection, in which the answer to each command was complete before the next."""
    path = os.path.join(room, "recorded")
    words = ["--like", "cache", "--connections", 1, "--commands", FEW, "--keys", FEW // 2]
    common.run([os.path.join(common.HERE, "traffic"), *words], sink=path)
    with open(path, "rb") as file:
        found = read_capture(Part("capture", file.read()))
    with open(path, "wb") as file:
        file.write(capture(found.count, [segment(record.connection, text)
                                         for record in found.records for text in (record.text, b"")]))
    return path


def beside(program, name):
    """The path of another program that was built with this one, in a folder of its own or in the same one."""
    folder = os.path.dirname(program)
    places = [os.path.join(folder, "..", "..", name, "out", name), os.path.join(folder, name)]
    return next((os.path.normpath(path) for path in places if os.access(path, os.X_OK)), None)


def check_recorded(program, room):
    """The programs beside zygos that take more than their bounds on a recording."""
    path, over = recorded(room), []
    for name, words in (("linear", BOTH), ("judge", ALONE)):
        other = beside(program, name)
        if not other:
            common.say(f"{name} is not built, and is left out")
        elif not is_within(room, joined(program, words, path, room), [other], "recorded", name):
            over.append(f"recorded {name}")
    return over


def report(given, program, room):
    """Prints the instructions of a command and of a segment, beside plain C, and those of functions."""
    path, commands, segments = traffic(given, program, room, given.commands)
    plain = counted(room, path, [common.plain(room), "--journal"]).all / commands
    count = counted(room, path, [program, *ALONE])
    each, fed = count.all / commands, count.within(FEEDING) / segments
    print(f"{given.traffic}: {commands:,} commands in {segments:,} segments, on one thread")
    print(f"a command: {each:.0f} instructions; plain C with a journal: {plain:.0f}; {each / plain:.2f} times")
    print(f"a segment is fed: {fed:.0f} instructions")
    common.note(given, GROUPS[given.traffic], command=each, plain=plain, times=each / plain, segment=fed)
    functions(count, commands, given.functions)


def main():
    words = common.Words(__doc__, "program")
    words.of_traffic(default=None)
    words.add_argument("--commands", type=common.count, default=200_000)
    words.add_argument("--functions", type=common.count, default=40)
    words.add_argument("--check", action="store_true")
    words.noting()
    given = words.given()
    if not shutil.which("valgrind"):
        common.stop("valgrind is not on this machine: apt-get install valgrind")
    program = common.built("zygos", given.program)
    over, one = [], given.traffic
    for kind in [one] if one else common.TRAFFIC:
        given.traffic = kind
        with tempfile.TemporaryDirectory() as room:
            if given.check:
                over += check(given, program, room)
            else:
                report(given, program, room)
    if given.check and not one:
        with tempfile.TemporaryDirectory() as room:
            over += check_recorded(program, room)
    if over:
        common.stop(f"a command takes more than its bound: {', '.join(over)}")


main()
