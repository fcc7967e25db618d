"""What the scripts of bench share: the programs, their runs and what these cost, made traffic, and words.

A script ends with a line on standard error if a run fails, with status 1, and at words that it does not know, with
status 2.
"""
import argparse
import collections
import json
import os
import signal
import statistics
import subprocess
import sys
import time

from zygos_tools import figures
from zygos_tools.repository import TOP

HERE = os.path.join(TOP, "bench")
DOCS = os.path.join(TOP, "docs")
# quiet if it is interrupted, or its reader goes away
signal.signal(signal.SIGPIPE, signal.SIG_DFL)
signal.signal(signal.SIGINT, signal.SIG_DFL)

# Seconds from begin to end, processor seconds, and the most resident bytes.
Cost = collections.namedtuple("Cost", "wall used resident")
# A rate of 200 connections is what all whole runs have.
CONNECTIONS = 200
# From how many busy processors on a machine is not at rest.
MOST_LOAD = 0.5


# Traffic of `zygos gen`, and of `bench/traffic --like cache`.
GENERATED, CACHE = TRAFFIC = ("generated", "cache")

NAME = "bench/run " + os.path.basename(sys.argv[0]).removesuffix(".py")


def called(name):
    """Sets the name of the script in what it says."""
    global NAME
    NAME = name


def say(text):
    """Prints a line of the script on standard error."""
    sys.stdout.flush()
    print(f"{NAME}: {text}", file=sys.stderr)


def stop(why, status=1):
    """Ends the script with a line."""
    say(why)
    sys.exit(status)


# ---- words


class Words(argparse.ArgumentParser):
    """The words of a script, whose page is its own text; a program that is built may be the last of them."""

    def __init__(self, page, *last):
        super().__init__(prog=NAME, usage=argparse.SUPPRESS, add_help=False, allow_abbrev=False)
        self.page, self.last = page.strip(), last
        self.add_argument("-h", "--help", action="store_true")

    def noting(self):
        """The script can write its figures into the file that pages quote."""
        self.add_argument("--note", action="store_true")

    def of_traffic(self, default="generated"):
        """The script serves generated traffic, or traffic as caches see it with this number of keys."""
        self.add_argument("--traffic", choices=TRAFFIC, default=default)
        self.add_argument("--keys", type=count)

    def error(self, message):
        stop(f"{message}; --help says more", 2)

    def given(self, words=None):
        for name in self.last:
            self.add_argument(name, nargs="?")
        found = self.parse_args(words)
        if found.help:
            sys.exit(print(self.page))
        return found


def count(text):
    """A whole number above 0."""
    if not text.isdigit() or not int(text):
        raise argparse.ArgumentTypeError(f"{text} is no whole number above 0")
    return int(text)


def numbers(least, most):
    """Numbers of this range, with a comma between them."""

    def found(text):
        try:
            given = [float(word) for word in text.split(",")]
        except ValueError:
            given = []
        if not given or not all(least <= number <= most for number in given):
            raise argparse.ArgumentTypeError(f"{text} is no list of numbers from {least} to {most}")
        return [int(number) if number == int(number) else number for number in given]

    return found


def read_json(path):
    """What a file has as JSON."""
    try:
        with open(path, encoding="utf-8") as file:
            return json.load(file)
    except OSError as error:
        stop(f"{path}: {error.strerror}")
    except ValueError:
        stop(f"{path}: no JSON")


def note(given, name, **values):
    """Writes the figures of a script into bench/figures.json, under this name, if that was asked for."""
    if given.note:
        figures.note(name, command_line(), {key: round(value, 4) for key, value in values.items()})
        say_quotes(name)


def say_quotes(name):
    """Prints which pages quote these figures otherwise."""
    for page, group, text in figures.misquoted():
        if group == name:
            print(f"{page} has to say now: {text}")


# ---- the programs


def built(program, given=None):
    """The path of a program of the repository, which is proved and built first if it isn't; or the given one."""
    if given:
        if not os.access(given, os.X_OK):
            stop(f"{given}: no program")
        return os.path.abspath(given)
    if subprocess.call([os.path.join(TOP, "tools", "build"), program], stdin=subprocess.DEVNULL):
        sys.exit(70)
    return os.path.join(TOP, "crates", program, "out", program)


def plain(room):
    """The path of `bench/plain.c`, built into this folder."""
    path = os.path.join(room, "plain")
    subprocess.run(["cc", "-O2", "-pthread", "-o", path, os.path.join(HERE, "plain.c")], check=True)
    return path


def machine_name():
    """The machine, in a few words."""
    kind = ""
    try:
        with open("/proc/cpuinfo", encoding="utf-8") as file:
            kind = next((line.partition(":")[2].strip() for line in file if line.startswith("model name")), "")
    except OSError:
        pass
    return f"{os.cpu_count()} processors" + (f", {kind}" if kind else "")


def machine():
    """The machine, the day, and how many of its processors were busy in the last minute."""
    load = os.getloadavg()[0]
    told = f"{load:.1f}" if load < MOST_LOAD else f"{load:.1f} (not at rest: times and ratios mean little)"
    return f"{machine_name()}, {time.strftime('%Y-%m-%d %H:%M')}, load before: {told}"


def command_line():
    """The command that made a picture, less the program that was given."""
    is_program = lambda word: os.path.isfile(word) and os.access(word, os.X_OK)
    return " ".join([NAME, *(word for word in sys.argv[1:] if not is_program(word))])


def draw(chart, path):
    """Writes a chart, with the command that made it."""
    try:
        with open(path, "w", encoding="utf-8") as file:
            file.write(chart.svg(command_line()))
    except OSError as error:
        stop(f"{path}: {error.strerror}")


# ---- runs


def finished(process, begin):
    """What a process costs, which is waited for."""
    _, status, used = os.wait4(process.pid, 0)
    process.returncode = os.waitstatus_to_exitcode(status)
    if process.returncode:
        stop(f"{' '.join(process.args)}: ended with status {process.returncode}")
    return Cost(time.time() - begin, used.ru_utime + used.ru_stime, used.ru_maxrss * 1024)


def run(command, source=os.devnull, sink=os.devnull, append=False, **more):
    """What a command costs that reads and writes these files."""
    with open(source, "rb") as given, open(sink, "ab" if append else "wb") as taken:
        begin = time.time()
        return finished(subprocess.Popen([str(word) for word in command], stdin=given, stdout=taken, **more), begin)


def least(runs, *words, **more):
    """The run of the least processor time."""
    return min((run(*words, **more) for _ in range(runs)), key=lambda cost: cost.used)


def interleaved(runs, commands, path):
    """The costs of commands by name, which read this file in turn."""
    costs = {name: [] for name in commands}
    for _ in range(runs):
        for name, command in commands.items():
            costs[name].append(run(command, path))
    return costs


class Ratio:
    """How many times another command's cost one costs in interleaved runs: the median, the least and the most."""

    def __init__(self, costs, others, kind):
        found = sorted(getattr(cost, kind) / getattr(other, kind) for cost, other in zip(costs, others))
        self.median, self.least, self.most = statistics.median(found), found[0], found[-1]

    def __str__(self):
        return f"{self.median:.2f} ({self.least:.2f} to {self.most:.2f}) times"


def ahead(costs, alone):
    """A sentence that says from how many threads zygos is faster than plain C on one. `costs` are those of zygos by
    number of threads."""
    slower = [threads for threads, found in costs.items() if Ratio(found, alone, "wall").median >= 1]
    first = min((threads for threads in costs if threads > max(slower, default=0)), default=None)
    if first is None:
        return f"zygos on up to {max(costs)} threads is not faster than plain C with a journal on one"
    return f"zygos is faster than plain C with a journal on one thread from {first} threads on"


def medians(costs):
    """The medians of the seconds, of the processor seconds and of the memory of runs."""
    return Cost(*map(statistics.median, zip(*costs)))


def cores(number, threads=None, rest=None):
    """The words for cores on as many threads, or on another number. Idle ones sleep as under ./zygos, or as is said."""
    threads = number if threads is None else threads
    rest = rest if rest is not None else 1 if threads <= 4 else 100
    return ["--cores", str(number), "--threads", str(threads), "--rest", str(rest)]


# ---- traffic


def generated(program, path, commands, connections=CONNECTIONS):
    """Writes the capture of generated traffic with this number of commands, and gives its path."""
    each = max(1, commands // connections)
    run([program, "gen", "--number", 1, "--conns", connections, "--commands", each], sink=path)
    return path


def like_cache(path, commands, keys):
    """Writes the capture of traffic as caches see it with this number of commands, and gives its path."""
    run([os.path.join(HERE, "traffic"), "--like", "cache", "--commands", commands, "--keys", keys], sink=path)
    return path


def made(given, program, path, commands, part=1):
    """Writes the capture of the traffic that was asked for, and gives its path. Traffic as caches see it has this part
    of the keys that were asked for, or half as many keys as commands."""
    if given.traffic == CACHE:
        return like_cache(path, commands, max(1, given.keys // part if given.keys else commands // 2))
    return generated(program, path, commands)


def entries(program, connections, commands):
    """How many entries the journal of generated traffic has, by the line of the program's own test run."""
    words = [program, "self", "--conns", str(connections), "--commands", str(commands)]
    return int(subprocess.run(words, stdin=subprocess.DEVNULL, capture_output=True, check=True).stdout.split()[3])
