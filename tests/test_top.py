"""Tests tools/top: what it counts of captures and journals."""
import contextlib
import io
import os
import random
import subprocess
import unittest
from collections import Counter

import checks
from checks import LONGEST, TOP, cases, same
import drawn
import reports
from zygos_tools.files.formats import (Call, Close, Entry, Hold, Reply, capture, close, journal, read_capture,
                                       read_journal, replies, segment, shown)
from zygos_tools.files.part import Part
from zygos_tools.protocol.meaning import commands_of
from zygos_tools.showing import top as TOOL

CAPTURE = """\
capture: 7 commands, 2 connections, 3 keys
  get 3, set 2, fault 1, ms 1
  not served, by first word: other lines 1

keys, the first 2 of 3
  calls   share  gets  stores  largest  key
      3  42.9 %     2       1        3  a
      3  42.9 %     2       1        2  b\\x01

sizes of values
  stored  size
       1  0 bytes
       2  2 to 3 bytes

connections, all 2
  commands   share  home  connection
         5  71.4 %     2  2
         2  28.6 %     1  129

home cores, of 3
  commands   share  connections  core
         0   0.0 %            0  0
         2  28.6 %            1  1
         5  71.4 %            1  2
"""
JOURNAL = """\
journal: 5 calls of 6 commands, 2 connections, 2 keys
  get 3, flush 1, set 1
  hits 1 of 3 gets: 33.3 %

keys, all 2
  calls   share  gets    hits  stores  largest  key
      3  75.0 %     2  50.0 %       1       20  a
      1  25.0 %     1   0.0 %       0        0  b

sizes of values
  stored  found  size
       0      1  1 byte
       1      0  16 to 31 bytes

connections, all 2
  commands   share  home  connection
         5  83.3 %     1  1
         1  16.7 %     0  0

home cores, of 4
  commands   share  done  connections  core
         1  16.7 %     0            1  0
         5  83.3 %     3            1  1
         0   0.0 %     3            0  2
         0   0.0 %     0            0  3
"""
SENT = capture(130, [
    segment(2, b"set a 0 0 3\r\nx"), segment(129, b"get a b\x01\r\n"),
    segment(2, b"yz\r\nget a\r\n\r\nget b\x01\r\nms b\x01 2\r\n12\r\n"),
    segment(129, b"set c 0 0 0 noreply\r\n\r\nget c"), close(129), segment(129, b"quit\r\nget a\r\n")], 2)
MADE = [Entry(1, 0, 0, 0, 0, Call("get", b"b"), Reply("miss")),
        Entry(2, 0, 1, 0, 0, Call("set", b"a", 0, value=b"v" * 20), Reply("stored")),
        Entry(3, 0, 1, 1, 0, Call("get", b"a"), Reply("hit", 0, 1, b"x")),
        Entry(4, 0, 1, 2, 0, Call("get", b"a"), Reply("miss")), Entry(5, 0, 1, 3, 0, Call("flush"), Reply("flushed"))]
HELD = [Hold(0, 2, 1), Hold(1, 1, 3), Hold(1, 2, 2)]


def run(*words, given=b""):
    ran = checks.run("top", *words, given=given)
    return ran.returncode, ran.stdout.decode(), ran.stderr.decode()


def prints():
    """Small files, alone and several in an input."""
    both = journal(MADE, HELD)
    same("a capture", (0, CAPTURE, ""), run("--first", "2", "--cores", "3", given=SENT))
    same("a journal", (0, JOURNAL, ""), run(given=both))
    same("several files", (0, JOURNAL + "\n" + JOURNAL, ""), run(given=both + replies([b""]) + both))
    same("nothing sent", "capture: 0 commands, 0 connections, 0 keys",
         run(given=capture(1, []))[1].split("\n\n", maxsplit=1)[0])


def faults():
    """What was counted before a fault is printed; other cores than there were, and unknown words."""
    cut = journal(MADE, HELD)[:-1]
    begun = "tools/top: standard input"
    same("a journal that is cut off", (1, JOURNAL, f"{begun}: journal: truncated at {len(cut)}\n"), run(given=cut))
    same("fewer cores than were seen",
         (1, "", f"{begun}: journal: core 2 has holds, so there were more than 2 cores\n"),
         run("--cores", "2", given=journal(MADE, HELD)))
    lines = run(given=journal([], [Hold(1, 6, 5)]))[1].split("\n")
    same("cores that are not given", "home cores are left out: --cores is not given, and core 6 has commands",
         lines[-2])
    same("and no home", "         5  100.0 %     -  1", lines[-4])
    same("no file to count", (1, "", f"{begun}: no capture or journal in it; `zygos run --out both` writes a"
                                   " journal\n"), run(given=replies([b""])))
    for words, line in ((["--first", "0"], "--first takes a number of 1 or more, not 0"),
                        (["--cores", "65"], "--cores takes a number from 1 to 64, not 65"),
                        (["--what"], "no such option: --what; --help lists them")):
        same(f"words {words}", (2, "", f"tools/top: {line}\n"), run(*words))
    page = run("--help")[1].split("\n")
    same("help", True, max(map(len, page)) <= 120 and len(page) < 40)
    ran = subprocess.run(["bash", "-c", '"$0" | head -c 1 > /dev/null', os.path.join(TOP, "tools/top")],
                         input=journal(MADE, HELD), capture_output=True, timeout=LONGEST, check=False)
    same("a closed pipe", b"", ran.stderr)


# ---- drawn files, in this process




def printed(text, kind, cores=None):
    """What is printed of a file without a fault."""
    with contextlib.redirect_stdout(io.StringIO()) as page:
        TOOL.show(Part(kind, text), 1000, cores)
    return page.getvalue()


def rows(page, title):
    """The cells of the rows of a table that was printed."""
    lines = iter(page.split("\n"))
    next(line for line in lines if line.startswith(title))
    next(lines)
    return [line.split() for line in iter(lambda: next(lines), "")]


def drawn_captures():
    """The commands and keys of drawn captures are those of the model."""
    for number in range(100):
        text = drawn.drawn_capture(random.Random(number), 16)
        sessions, session = {}, Counter()
        for record in read_capture(Part("capture", text)).records:
            if isinstance(record, Close):
                session[record.connection] += 1
            else:
                key = record.connection, session[record.connection]
                sessions[key] = sessions.get(key, b"") + record.text
        made = {key: commands_of(stream) for key, stream in sessions.items()}
        connections = Counter(key[0] for key, commands in made.items() for _ in commands)
        keys = Counter(shown(key) for commands in made.values() for command in commands for key in command.keys)
        page = printed(text, "capture")
        same(f"capture {number}", f"capture: {sum(connections.values())} commands, {len(connections)} connections, "
                                  f"{len(keys)} keys", page.split("\n")[0])
        if keys:
            same(f"the keys of capture {number}", dict(keys), {row[-1]: int(row[0]) for row in rows(page, "keys")})
            same(f"the connections of capture {number}", dict(connections),
                 {int(row[-1]): int(row[0]) for row in rows(page, "connections")})


def drawn_journals():
    """The hits of drawn journals are those of the report."""
    for number in range(100):
        text = reports.drawn(number)
        if reports.expected(text)[0] == 0:
            entries = read_journal(Part("journal", text)).entries
            gets, _, hits, *_ = reports.counts(entries)
            line = f"  hits {hits} of {gets} gets: " + (f"{100 * hits / gets:.1f} %" if gets else "-")
            same(f"journal {number}", True, line in printed(text, "journal", 64).split("\n"))


Tests = cases(prints, faults, drawn_captures, drawn_journals, has_folder=True)

if __name__ == "__main__":
    unittest.main()
