"""Tests the tools: what they print, each fault of their inputs once, pipes that close, empty inputs, 4,096 connections;
./zygos help and try; and tests whose parts hang."""
import os
import subprocess
import sys
import tempfile
import unittest

import program
from checks import LONGEST, TOP, cases, fail, path_of, prints, run, same, says, started, written
from zygos_tools.files.formats import (Call, Entry, Hold, Reply, big, capture, close, entry, hold, journal,
                                       read_capture, replies, segment)
from zygos_tools.files.part import Part

TOOLS = ("capture", "check", "compare", "inline", "judge", "lie", "load", "packets", "part", "picture", "play", "record", "show",
         "top", "warm", "repo/chain", "repo/cost", "repo/dead", "repo/indexes", "repo/names", "repo/rows")
# how those that read an input are called
READERS = ("capture FILE", "compare FILE -", "inline FILE", "inline FILE -", "judge --out /dev/null FILE -", "part capture FILE",
           "picture FILE", "show FILE", "top FILE", "warm FILE -")


# ---- what all tools do alike


def helps():
    """Each tool has a page of help, with its words and an example, and is in the table of the tools."""
    with open(os.path.join(TOP, "tools", "README.md"), encoding="utf-8") as file:
        table = [line for line in file if line.startswith("| `")]
    for tool in TOOLS:
        ran = started(tool, "--help")
        lines = ran.stdout.decode().split("\n")
        if ran.returncode or ran.stderr or len(lines) > 45 or max(map(len, lines)) > 120:
            fail(f"help of {tool}", f"{ran.returncode} {len(lines)} lines {ran.stderr!r}")
        uses = [line for line in lines if f"tools/{tool}" in line and not line.startswith(("usage:", "       tools/"))]
        same(f"an example in the help of {tool}", True, bool(uses))
        same(f"{tool} in tools/README.md", 1, sum(line.startswith(f"| `{tool}` |") for line in table))


def helps_of_scripts():
    """Each script of tests prints a page of help when it is asked, and does nothing else."""
    folder = os.path.join(TOP, "tests")
    scripts = [name for name in os.listdir(folder) if os.access(os.path.join(folder, name), os.X_OK | os.R_OK)
               and os.path.isfile(os.path.join(folder, name))]
    for name in scripts:
        ran = subprocess.run([os.path.join(folder, name), "--help"], capture_output=True, check=False, timeout=LONGEST)
        same(f"the help of tests/{name}", (0, b"", True), (ran.returncode, ran.stderr, b"\nusage: tests/" in ran.stdout))


def wrong_words():
    """What the tools say of words that they do not know; none of it is of Python."""
    for tool in TOOLS:
        says(f"an unknown word of {tool}", "no such option: --what; --help lists them", tool, "--what", status=2)
        says(f"an unknown letter of {tool}", "no such option: -x; --help lists them", tool, "-x", status=2)
    for line, tool, *words in (
        ("no such option: --core; did you mean --cores? --help lists them", "picture", "--core", "4"),
        ("no such option: --mayforget; did you mean --may-forget? --help lists them", "judge", "--mayforget"),
        ("--cut takes a number from 1 to 65535, not 0", "capture", "--cut", "0"),
        ("--cut takes a number from 1 to 65535, not 65536", "capture", "--cut", "65536"),
        ("--cut takes a number from 1 to 65535, not x", "capture", "--cut=x"),
        ("--cut takes a number from 1 to 65535, not nothing", "capture", "--cut", ""),
        ("--cut takes a number from 1 to 65535", "capture", "--cut"),
        ("--marks takes no value", "capture", "--marks=yes"),
        ("--cores takes a number from 1 to 64, not 65", "picture", "--cores", "65"),
        ("--first takes a number of 1 or more, not 0", "show", "--first", "0"),
        ("--connection takes a number from 0 to 4095, not 4096", "show", "--connection", "4096"),
        ("two files are compared; --help says more", "compare", "-"),
        ("judge takes [options] CAPTURE REPLIES; --help has the options", "judge", "-"),
        ("--shards takes a number from 1 to 256, not 0", "judge", "--shards", "0", "a", "b"),
        ("--times takes ends, segments or none, not all", "judge", "--times", "all", "a", "b"),
        ("--except takes the names of commands, joined by commas, not a b", "compare", "--except", "a b", "a", "b"),
        ("--except get needs --capture, which says what was sent", "compare", "--except", "get", "a", "b"),
        ("--most takes a number of 1 or more, not x", "repo/cost", "--most", "x"),
        ("none is no crate of crates.txt", "repo/cost", "--crate", "none"),
        ("--jobs takes a number from 1 to 256, not 0", "repo/chain", "--jobs", "0"),
        ("which part is cut out: capture, journal or replies; --help says more", "part"),
        ("which part is cut out: capture, journal or replies; --help says more", "part", "reply"),
        ("two files are written; --help says more", "record"),
        ("one fault is taken, of stale, dropped, uncounted, mixed, swapped, resurrected; --help says more", "lie", "old"),
        ("a load has one server; --help says more", "load"),
        ("a server is HOST:PORT, [HOST]:PORT or a path with a slash, of at most 107 bytes, not here", "load", "here"),
        ("--kinds takes names of commands, separated by spaces, not got", "load", "--kinds", "got", "./here"),
    ):
        says(" ".join([tool, *words]), line, tool, *words, status=2)


def files():
    for line in READERS:
        status = 4 if line.startswith("judge") else 1
        says(f"a file that is not there: {line}", "none: No such file or directory", *line.replace("FILE", "none").split(),
             status=status)
        says(f"a folder: {line}", "/: Is a directory", *line.replace("FILE", "/").split(), status=status)
    whole = replies([b"OK\r\n"])
    with tempfile.NamedTemporaryFile() as file:
        file.write(whole)
        file.flush()
        for words in (("-",), (file.name,), ("--", file.name)):
            prints(f"input and file alike: {words}", b"replies, version 1\nconnection 0: 4 bytes\n  OK\n", "show", *words,
                   given=whole)
        prints("a file with input", b"same: connections 1, sessions 1, answers 1\n", "compare", file.name, "-",
               given=whole)


def closed_pipes():
    """The reader of the output goes away: the tool says nothing."""
    many = replies([b"END\r\n" * 200000])
    records = [Hold(c, 0, 1) for c in range(4096)]
    for tool, words, given in (("show", (), many), ("capture", (), b"x" * 5000000),
                               ("picture", (), journal([], records))):
        ran = subprocess.run(["bash", "-c", '"$0" "$@" | head -c 1 > /dev/null', path_of(tool),
                              *words],
                             input=given, capture_output=True, timeout=LONGEST, check=False)
        same(f"a closed pipe of {tool}", b"", ran.stderr)
    for tool in ("show", "capture", "picture"):
        with open("/dev/full", "wb") as full:
            ran = subprocess.run([path_of(tool)], input=journal([], []), stdout=full,
                                 stderr=subprocess.PIPE,
                                 timeout=LONGEST, check=False)
        same(f"no space for {tool}", (1, f"tools/{tool}: standard output: No space left on device\n".encode()),
             (ran.returncode, ran.stderr))


def early_signals():
    """Ctrl-C ends a tool without a trace while it imports its modules, and a signal that comes as it ends does not change that."""
    for moment, code in (("imports", "import zygos_tools; import os; os.kill(os.getpid(), 2)"),
                         ("ends", "from zygos_tools.cli import ends; import atexit, os; atexit.register(os.kill, os.getpid(), 2); "
                                  "ends.run(print, '')")):
        ran = subprocess.run([sys.executable, "-c", code], cwd=os.path.join(TOP, "tools"), capture_output=True, check=False,
                             timeout=LONGEST)
        same(f"Ctrl-C while a tool {moment}", (-2, b""), (ran.returncode, ran.stderr))


def empty_inputs():
    prints("nothing to show", b"", "show")
    prints("nothing sent", capture(1, []), "capture")
    prints("nothing sent, with marks", capture(1, []), "capture", "--marks")
    says("nothing to draw", "standard input: no journal in it; `zygos run --out both` writes one", "picture")
    says("nothing to compare", "standard input: no replies file in it; `zygos run` writes one", "compare", "-", "/dev/null")


# ---- faults


def faults():
    """Each fault of each format once."""
    one = b"ZYGCAP1\n" + big(4, 1)
    got = entry(*Entry(1, 0, 0, 0, 0, Call("get", b"a"), Reply("miss")))
    head, out = b"ZYGJRN1\n", b"ZYGREP1\n"
    for given, line in (
        (b"\0", "no capture, journal or replies file begins at byte 0"), (b"x", "this is text; tools/capture makes a capture of text"),
        (b"\x1f\x8b\x08", "this is a compressed file; decompress it first"),
        (b"\xd4\xc3\xb2\xa1\2\0", "this is recorded packets; tools/packets makes a capture and a replies file of them"),
        (b"ZYGCAP1\r\n", "this is a file whose line ends were changed; copy it again as a binary file"),
        (b"ZYGCAPX\n", "capture: bad-magic at 6"), (b"ZYGCAP1\n" + big(4, 4097), "capture: conn-count 4097"),
        (one + b"C", "capture: bad-tag at 12 byte 67"), (one + b"S" + big(4, 1), "capture: conn-range at 13 number 1"),
        (one + b"S" + big(4, 0) + big(4, 65536), "capture: segment-length at 17 number 65536"),
        (one, "capture: truncated at 12"), (b"ZYGJRN2\n", "journal: form at 6"), (head + b"X", "journal: form at 8"),
        (head + got[:-1] + b"\x0d", "journal: form at 40"), (head + got + got, "journal: form at 50"),
        (head + hold(0, 64, 1), "journal: form at 13"), (head + hold(0, 0, 1) + got, "journal: form at 21"),
        (head + got, "journal: truncated at 41"), (b"ZYGREP3\n", "replies: form at 6"),
        (out + b"S", "replies: form at 8"),
        (out + b"R" + big(4, 1), "replies: form at 9"),
        (out + b"R" + big(4, 0) + big(8, 9), "replies: truncated at 21"),
        (replies([b""]) + b"E", "no capture, journal or replies file begins at byte 22"),
        (journal([], []) + out, "replies: truncated at 8, in the part that begins at byte 9"),
    ):
        says(f"fault {line}", f"standard input: {line}", "show", given=given)
    says("a mark that is too high", "standard input: line 2: connection 4096 is not below 4096", "capture", "--marks",
         given=b"a\n@4096\n")
    one = "not expected here: one journal is drawn, which `zygos run --out both` writes"
    says("a capture is no journal", f"standard input: capture: {one}", "picture", given=capture(1, []))
    says("two journals", f"standard input: journal: {one}, in the part that begins at byte 9", "picture",
         given=journal([], []) * 2)
    says("a capture to compare", "standard input: capture: not expected here: a capture is given by --capture", "compare",
         "-", "/dev/null", given=capture(1, []))
    for part, hint in (("capture", "tools/record and tools/packets write one"), ("replies", "`zygos run` writes one"),
                       ("journal", "`zygos run --out both` writes one")):
        says(f"no {part}", f"standard input: no {part} in it; {hint}", "part", part)
    says("a fault in a journal to draw", "standard input: journal: truncated at 8", "picture", given=head)
    says("fewer cores than were seen", "core 3 has holds, so there were more than 2 cores", "picture", "--cores", "2",
         given=journal([], [Hold(0, 3, 1)]))
    says("a fault in a file to compare", "standard input: replies: truncated at 8", "compare", "-", "/dev/null",
         given=out)


# ---- what the tools make


def many_connections():
    marks = b"".join(b"@%d\nget k%d\n" % (c, c) for c in range(4096))
    ran = run("capture", "--marks", given=marks)
    read = read_capture(Part("capture", ran.stdout))
    same("a capture of 4,096 connections", (4096, 4096), (read.count, len(read.records)))
    same("and it is shown", 1 + 2 * 4096, run("show", given=ran.stdout).stdout.count(b"\n"))
    outputs = replies([b"END\r\n"] * 4096)
    with tempfile.NamedTemporaryFile() as file:
        file.write(outputs)
        file.flush()
        prints("4,096 outputs compared", b"same: connections 4096, sessions 4096, answers 4096\n", "compare",
               file.name, "-", given=outputs)


def captures():
    """What tools/capture makes of text, and how small files are shown."""
    with open(os.path.join(TOP, "examples/first.cap"), "rb") as file:
        first = file.read()
    prints("lines become the capture of one connection", first, "capture", given=b"set a 0 0 1\r\nx\r\nget a\r\n")
    prints("nothing is a capture of one connection without a segment", capture(1, []), "capture")
    prints("a mark names a connection", capture(3, [segment(2, b"abc")]), "capture", "--marks", given=b"@2\nabc")
    prints("a close makes a capture of version 2", capture(1, [segment(0, b"a\n"), close(0), segment(0, b"b")], 2), "capture",
           "--marks", given=b"a\n@0 close\nb")
    prints("without --marks a mark is bytes", capture(1, [segment(0, b"@2")]), "capture", given=b"@2")
    prints("segments are cut", capture(1, [segment(0, b"ab"), segment(0, b"c")]), "capture", "--cut", "2", given=b"abc")
    with tempfile.TemporaryDirectory() as folder:
        paths = written(folder, a=b"a", b=b"b")
        prints("each file is a connection", capture(2, [segment(0, b"a"), segment(1, b"b")]), "capture", paths["a"], paths["b"])
    prints("a capture is shown by its lines", b"capture, version 1, connections 1\nconnection 0: 23 bytes\n  set a 0 0 1\n"
           b"  x\n  get a\n", "show", given=first)
    prints("a replies file is shown by its lines", b"replies, version 1\nconnection 0: 29 bytes\n  STORED\n  VALUE a 0 1\n"
           b"  x\n  END\n", "show", os.path.join(TOP, "examples/first.replies"))
    one = Entry(1, 12, 0, 0, 0, Call("set", b"a", 0, value=b"x"), Reply("stored"))
    prints("a journal is shown by its calls and holds",
           b"journal\n  1: shard 12, connection 0, command 0.0: set key 'a' flags 0 value 'x' -> stored\n"
           b"  hold of connection 0 by core 0: 1 commands\n", "show", given=journal([one], [Hold(0, 0, 1)]))
    says("a file that is cut off is reported", "standard input: capture: truncated at 11", "show", given=first[:11])
    ran = run("show", given=capture(1, [])[:-1] + b"C")
    same("a faulty file is shown up to its fault", (b"capture, version 1, connections 1\n",
         b"tools/show: standard input: capture: bad-tag at 12 byte 67\n"), (ran.stdout, ran.stderr))


def made_traffic():
    """What bench/traffic makes."""
    prints("made traffic", capture(2, [segment(0, b"get k0000000\r\n"), segment(1, b"get k0000000\r\n")]), "../bench/traffic",
           "--commands", "2", "--connections", "2", "--keys", "1", "--key-size", "8", "--ratio", "0:1")
    words = "--commands 1000 --connections 20 --cores 2 --skew 80 --keys 9 --ratio 1:2 --value 5-9:2,20:1"
    read = read_capture(Part("capture", run("../bench/traffic", *words.split()).stdout))
    first = sum(record.connection % 2 == 0 for record in read.records)
    same("made traffic has the share of its skew", (1000, True), (len(read.records), 750 < first < 850))


# ---- ./zygos without a program

# what stands for rt: the program writes and says this, and then rt says how it ended
RT = """#!/bin/sh
printf '%s' "$*" >"$0.words"
cat >"$0.given"
case $3 in
run) echo written; printf '\\nchecked: ended status=0\\nraces: not looked for\\nrun=ended status=0 proved=no\\n' >&2 ;;
check) printf 'zygos: said\\nchecked: ended status=3\\nraces: no\\nrun=ended status=3 proved=no\\n' >&2; exit 3 ;;
*) echo short; printf 'the end of the output\\nchecked: no-answer: too much\\nrun=no-answer proved=no\\n' >&2; exit 6 ;;
esac
"""


def command():
    """./zygos without words, with help, and with try, by a stand-in of rt."""
    with tempfile.TemporaryDirectory() as folder:
        rt = os.path.join(folder, "rt")
        with open(rt, "w", encoding="utf-8") as file:
            file.write(RT)
        os.chmod(rt, 0o755)
        more = {"environment": {"PATH": f"{folder}:{os.environ['PATH']}"}}
        page = run("../zygos", "help", **more)
        same("./zygos help", (0, 16, b""), (page.returncode, page.stdout.count(b"\n"), page.stderr))
        none = run("../zygos", **more)
        same("./zygos without words", (2, b"", page.stdout), (none.returncode, none.stdout, none.stderr))
        begin = b"zygos: running the program without any proof\n"
        for name, status, output, said in (
            ("run", 0, b"written\n", b""), ("check", 3, b"", b"zygos: said\n"),
            ("gen", 70, b"",
             b"zygos: try: no answer: too much\nzygos: try: run ./zygos build once; the proved program has no limits of output and time\n"),
        ):
            option = "--number" if name == "gen" else "--shards"
            added = " --rest 1" if name == "run" else ""
            ran = run("../zygos", "try", name, option, "2", given=b"given", **more)
            same(f"./zygos try {name}", (status, output, begin + said), (ran.returncode, ran.stdout, ran.stderr))
            with open(f"{rt}.words", encoding="utf-8") as words, open(f"{rt}.given", encoding="utf-8") as given:
                same(f"what ./zygos try {name} runs", f"try -- {name} {option} 2{added} {'' if name == 'gen' else 'given'}",
                     f"{words.read()} {given.read()}")


def parts():
    """A part of a test that hangs or ends early fails in a line of its own."""
    told = []
    program.carry_out("one", lambda: subprocess.run(["sleep", "60"], timeout=0.4, check=False), told.append)
    program.carry_out("two", lambda: b"".index(b"a"), told.append)
    same("parts that hang or end early", [
        "one: a program does not end in 0 seconds", "two: ended early: ValueError: subsection not found"], told)
    same("a part that ends", "answer", program.carry_out("three", lambda: "answer", told.append))


Tests = cases(helps, helps_of_scripts, wrong_words, files, closed_pipes, early_signals, empty_inputs, faults,
              many_connections, captures, made_traffic, command, parts)

if __name__ == "__main__":
    unittest.main()
