"""Tests the scripts of bench: the bytes of bench/traffic --like, the words for the traffic, help, marks on charts, what is
said of interleaved runs, and short runs beside the plain server."""
import os
import re
import shutil
import subprocess
import sys
import unittest

from checks import TOP, built_program, cases, prints, run, same, skip
from zygos_tools.files.formats import Part, capture, read_capture, segment

BENCH = os.path.join(TOP, "bench")
KEY, VALUE = re.compile(rb"user:session:[0-9]{17}"), re.compile(rb"[a-z]{100,500}")


def bench(*words):
    """What bench/run answers, and its last line."""
    ran = run("../bench/run", *words)
    lines = (ran.stdout + ran.stderr).decode().splitlines()
    return ran.returncode, lines[-1] if lines else ""


def evaluated(expressions):
    """What expressions of bench/common.py are, by their names."""
    printed = "".join(f"print({expression})\n" for expression in expressions.values())
    code = f"import common\nfrom common import Cost, Ratio\n{printed}"
    ran = subprocess.run([sys.executable, "-B", "-c", code], cwd=BENCH, capture_output=True, text=True, check=True)
    return dict(zip(expressions, ran.stdout.splitlines()))


# ---- traffic


def like_cache():
    """Traffic as caches see it, byte for byte."""
    sent = [b"set user:session:00000002654435761 0 0 3\r\njux\r\n", b"get user:session:00000005308871522\r\n",
            b"set user:session:00000005308871522 0 0 3\r\neqz\r\n",
            b"set user:session:00000000000000000 0 0 3\r\npsi\r\n"]
    records = [segment(at % 3, text) for at, text in enumerate(sent)]
    prints("traffic as caches see it", capture(3, records), "../bench/traffic", "--like", "cache", "--commands", "4",
           "--keys", "4", "--connections", "3", "--value", "3")


def like_cache_drawn():
    """The keys, values, commands and connections of traffic as caches see it."""
    words = "--like cache --commands 4000 --keys 2000".split()
    read = read_capture(Part("capture", run("../bench/traffic", *words).stdout))
    same("connections take turns", [at % 200 for at in range(4000)], [record.connection for record in read.records])
    sets, keys = [], []
    for at, record in enumerate(read.records):
        line, _, rest = record.text.partition(b"\r\n")
        name, key, *more = line.split(b" ")
        keys.append(key)
        sets += [at] * (name == b"set")
        value = rest[:-2]
        is_set = name == b"set" and VALUE.fullmatch(value) and more == [b"0", b"0", b"%d" % len(value)]
        same(f"command {at} has one key of 30 bytes", (True, True, b"\r\n"),
             (bool(KEY.fullmatch(key)), bool(is_set or (name, more, rest) == (b"get", [], b"")), record.text[-2:]))
    same("the first commands are sets", list(range(500)), sets[:500])
    same("a fifth of the others are", True, 600 < len(sets) - 500 < 800)
    first = {b"user:session:%017d" % (number * 2654435761 % 10**17) for number in range(500)}
    same("half of the commands have a key of the first quarter", True, 1800 < sum(key in first for key in keys) < 2200)


def traffic_words():
    """Words of bench/traffic that fit nothing."""
    for words, line in (
        ("--like cache --key-size 15",
         "100000 keys need 5 digits; after the prefix user:session: a key of 15 bytes has 2"),
        ("--prefix a\tb", r"argument --prefix: 'a\tb' is no start of a key: it has to be printable ASCII without a"
                          " space; --help says more"),
        ("--pattern power:x", "argument --pattern: power:x is not uniform, gauss, or zipf:S or power:S with S from 0"
                              " to 10; --help says more"),
    ):
        ran = run("../bench/traffic", *words.split(" "))
        same(f"bench/traffic {words}", (2, f"bench/traffic: {line}\n"), (ran.returncode, ran.stderr.decode()))


# ---- scripts


def traffic_of_scripts():
    """The scripts that serve a kind of traffic know no other."""
    for what in ("crowd", "instructions", "scale", "serve"):
        for words, wanted in ((("--traffic", "rnu"), f"bench/run {what}: argument --traffic: invalid choice: 'rnu'"),
                              (("--keys", "0"), f"bench/run {what}: argument --keys: 0 is no whole number above 0;"
                                                " --help says more")):
            status, line = bench(what, *words)
            same(f"bench/run {what} {' '.join(words)}", (2, wanted), (status, line[: len(wanted)]))


def help_of_scripts():
    """The word help does what --help does."""
    for words in ((), ("scale",), ("shard",)):
        ran = [run("../bench/run", *words, word) for word in ("help", "--help")]
        same(f"bench/run {' '.join(words)} help", (0, b"", ran[1].stdout), (ran[0].returncode, ran[0].stderr, ran[0].stdout))


def marks():
    """Each curve of a chart has a mark of its own, also beside its name; a computed one at some of its points."""
    code = ("import chart\ndrawn = chart.Chart('', [], chart.linear('x', 100), chart.linear('y', 100))\n"
            "for at in range(4): drawn.curve(chart.Curve('', 'black', [(x, x + at) for x in range(40)], at == 3))\n"
            "print(*[drawn.svg('').count(mark) for mark in chart.MARKS])")
    ran = subprocess.run([sys.executable, "-B", "-c", code], cwd=BENCH, capture_output=True, text=True, check=True)
    same("how often each mark is drawn", "41 41 41 9 0 0\n", ran.stdout)


def ratios():
    """What is said of interleaved runs."""
    costs = [[f"Cost({wall}, {wall + 1}, 0)" for wall in walls] for walls in ((3, 2, 8), (1, 2, 2), (2, 4, 1))]
    lists = [f"[{', '.join(runs)}]" for runs in costs]
    wanted = {"a ratio is the median over the turns": "2.00 (1.00 to 8.00) times",
              "a ratio of processor time": "2.00 (1.00 to 2.00) times"}
    asked = dict(zip(wanted, (f"Ratio({lists[0]}, [Cost(1.5, 2, 0), Cost(2, 3, 0), Cost(1, 9, 0)], 'wall')",
                              f"Ratio({lists[0]}, [Cost(1.5, 2, 0), Cost(2, 3, 0), Cost(1, 4.5, 0)], 'used')")))
    ahead = "zygos is faster than plain C with a journal on one thread from {} threads on"
    for threads, line in (
        ({1: 0, 2: 1}, ahead.format(2)), ({1: 1, 2: 1}, ahead.format(1)), ({1: 1, 2: 0, 3: 1}, ahead.format(3)),
        ({1: 0, 2: 0}, "zygos on up to 2 threads is not faster than plain C with a journal on one"),
        ({1: 1, 2: 0}, "zygos on up to 2 threads is not faster than plain C with a journal on one"),
    ):
        given = ", ".join(f"{number}: {lists[1] if is_faster else lists[0]}" for number, is_faster in threads.items())
        name = f"from which number of threads zygos is faster: {threads}"
        wanted[name], asked[name] = line, f"common.ahead({{{given}}}, [Cost(2, 2, 0), Cost(2, 2, 0), Cost(4, 4, 0)])"
    for name, got in evaluated(asked).items():
        same(name, wanted[name], got)


def short_runs():
    """Traffic as caches see it is served beside the plain server."""
    program = built_program()
    if not shutil.which("cc"):
        skip("no C compiler")
    for words in (["serve"], ["scale", "--only", "even"]):
        status, line = bench(*words, "--traffic", "cache", "--commands", "2000", "--runs", "1", program)
        same(f"bench/run {' '.join(words)} --traffic cache", (0, True),
             (status, "faster than plain C with a journal on one" in line))


Tests = cases(like_cache, like_cache_drawn, traffic_words, traffic_of_scripts, help_of_scripts, marks, ratios,
              short_runs)

if __name__ == "__main__":
    unittest.main()
