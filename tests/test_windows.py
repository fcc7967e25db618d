"""Tests how tools/judge judges the windows of a recording, with substitutes of the program `judge`: which windows, with which
words, what it says of them, what a later run judges again, and how they are joined by their items."""
import contextlib
import fcntl
import json
import os
import stat
from unittest import mock

from checks import cases, run, same
from zygos_tools.files import formats
from zygos_tools.files.formats import capture, replies, segment, sessions
from zygos_tools.files.inputs import capture_alone, outputs_in
from zygos_tools.files.part import Part
from zygos_tools.judging import asking, command, firsts
from zygos_tools.repository import TOP

SET, GET, MARK = b"set a 0 0 1\r\nx\r\n", b"get a\r\n", b""
STORED, HIT, OTHER = b"STORED\r\n", b"VALUE a 0 1\r\nx\r\nEND\r\n", b"VALUE a 0 1\r\ny\r\nEND\r\n"
APART = "the windows were judged one by one: nothing says whether each began with the items that the one before it left"
JOINED = "each window begins with the items that the one before it left, the first one with none"
ACCUSED = "key a: no order of these commands explains their answers, whatever came before"
# what stands for ./zygos: it keeps its words, refuses what has OTHER, does not know what has `md`, and ends its parent
# for `mn`
STAND_IN = """#!/bin/sh
echo "$@" >>words
cat >given.$$
%s
if grep -q mn given.$$; then kill -9 $PPID; exit 1; fi
if grep -q y$(printf '\\r') given.$$; then echo 'no unmet connection 0 command 1 part 0'; exit 1; fi
if grep -q md given.$$; then echo 'unknown other connection 0 command 0'; exit 7; fi
echo 'yes commands 2 ended 2'
case $* in *--to*) printf 'ZYGITM1\\n\\0\\0\\0\\0\\0\\0\\0\\0E' ;; esac
"""
# so that two of them must run at a time
TOGETHER = 'touch here.$$; for one in $(seq 600); do [ "$(ls here.* | wc -l)" -ge 2 ] && break; sleep 0.1; done'


def window(number, *steps, name="my"):
    """Writes a window of one connection: what it sent, and what was answered."""
    records = [segment(0, text) for sent, _ in steps for text in (sent, MARK)]
    with open(f"{name}.{number:06}.replies", "wb") as file:
        file.write(replies([b"".join(back for _, back in steps)]))
    with open(f"{name}.{number:06}.cap", "wb") as file:
        file.write(capture(1, records))


def good(count):
    """Writes windows that have an order."""
    window(1, (SET, STORED), (GET, HIT))
    for number in range(2, count + 1):
        window(number, (GET, HIT), (GET, HIT))


def judged(*words, more="", processes=2):
    """What the tool does with the windows of this folder: its status, its lines, and the words of each call of the program."""
    with open("stand-in", "w", encoding="utf-8") as file:
        file.write(STAND_IN % more)
    os.chmod("stand-in", stat.S_IRWXU)
    return judged_by("stand-in", "--windows", ".", "--processes", str(processes), *words)


def joined(*words):
    """The same with a program that looks for orders, and for one window after the other."""
    return judged_by(os.path.join(TOP, "tests/stand_in.py"), "--windows", ".", "--processes", "1", *words)


def judged_by(program, *words):
    """What the tool does, with this program."""
    with contextlib.suppress(FileNotFoundError):
        os.unlink("words")
    with mock.patch.object(command, "ZYGOS", os.path.abspath(program)):
        ran = run("judge", *words)
    same("on standard error", b"", ran.stderr)
    asked = []
    with contextlib.suppress(FileNotFoundError), open("words", encoding="utf-8") as file:
        asked = sorted(file.read().split("\n")[:-1])
    return ran.returncode, ran.stdout.decode().split("\n")[:-1], asked


def told(*words, judging=judged):
    """The status and the line of --json."""
    status, lines, _ = judging("--json", *words)
    same("one line", 1, len(lines))
    return status, json.loads(lines[0])


def asked_for(warm, cold=True, words=""):
    """The words of the calls about a first window and others, by themselves and then joined."""
    own = [f"judge {word}{words}--shards 16" for word in ("", "--warm ")]
    between = [f"judge {word}--to --shards 16" for word in ("--warm " * (not cold) + words, words + "--from ")]
    return sorted([own[not cold], *[own[1]] * warm, between[0], *[between[1]] * warm])


def each_has_an_order():
    """All windows but the first are warm by themselves, and then each begins with what was left."""
    good(3)
    lines = ["order found, by the proved program, in 3 windows as one recording: 6 commands", JOINED]
    same("three windows", (0, lines, asked_for(2)), judged())
    same("as they are kept", (0, lines, []), judged(processes=1))
    warm = [lines[0], "each window begins with the items that the one before it left, the first one with any"]
    same("a first one that is warm too", (0, warm, ["judge --from --to --shards 16"] * 3), judged("--warm", processes=1))
    same("other words", (0, lines, asked_for(2, words="--may-forget ")), judged("--may-forget"))
    same("an option of the program", 0, judged("--shards", "4")[0])
    status, line = told("--seconds", "50")
    same("as JSON", (0, "order found", True, True, [[1, 3]], [], 3, 3, 3, 0, 0, [], [], 6),
         (status, *(line[name] for name in ("verdict", "proved", "chained", "parts", "breaks", "windows", "new", "ordered",
                                            "without", "unknown", "missing", "faults", "commands"))))


def some_are_not_joined():
    """If the program does not judge all, windows are judged by themselves."""
    good(2)
    line = "order found in each of 2 windows: 4 commands"
    for words, why in ((["--keys", "a"], "judges all keys"), (["--times", "segments"], "takes no --times segments")):
        same(why, (0, [line, f"{APART} (the proved program, which joins windows, {why})"], []), judged(*words))
    with mock.patch.object(asking, "is_there", lambda _: False):
        same("without it", (0, [line, f"{APART} (the proved program, which joins windows, cannot be run)"], []), judged())
    same("as JSON", (False, []), tuple(told("--keys", "a")[1][name] for name in ("chained", "parts")))


def nothing_is_no_fault():
    """A window in which nothing was sent, or nothing of the keys that are judged, is as good as others."""
    good(1)
    window(2)
    window(3, (GET, HIT))
    line = "order found, by the proved program, in 3 windows as one recording: 3 commands"
    same("without commands", (0, [line, JOINED]), joined()[:2])
    window(3)
    window(2, (b"get b\r\n", b"END\r\n"))
    line = "order found in each of 3 windows, 2 with nothing to judge: 3 commands"
    same("without the key", (0, line, []), (judged("--keys", "a")[0], judged("--keys", "a")[1][0], judged("--keys", "a")[2]))
    same("proved", (True, False), (told()[1]["proved"], told("--keys", "a")[1]["proved"]))
    window(3, (b"md a q\r\n", b"HD\r\n"))
    same("which an unknown is not", ("unknown", False), tuple(told()[1][name] for name in ("verdict", "proved")))


def only_new_ones_are_judged():
    """A window is judged again only if one of its files, the program or the words changed, or what was left to it."""
    good(2)
    both = ["judge --from --to --shards 16", "judge --warm --shards 16"]
    same("at first", 4, len(judged()[2]))
    same("again", (0, []), judged()[::2])
    window(3, (GET, HIT), (GET, HIT))
    same("a third one", (0, both), judged()[::2])
    same("with other words", 6, len(judged("--states", "1000")[2]))
    same("with the first words", [], judged()[2])
    window(2, (GET, HIT), (GET, OTHER))
    same("with other bytes", (1, both + both[1:]), judged()[::2])
    same("of the same kept no", (1, []), judged()[::2])
    same("of another program", 6, len(judged(more="true")[2]))
    window(2, (GET, HIT), (GET, HIT))
    same("with the first bytes, on which the third one goes on", (0, both[:1]), judged()[::2])
    os.utime("my.000001.cap")
    same("with another time", (0, []), judged()[::2])
    with open("my.judged", "a", encoding="utf-8") as file:
        file.write('5\n{}\n{"window": 3, "fi')
    same("after a line that was cut short", (0, []), judged()[::2])
    window(4, (GET, HIT))
    same("which is not gone on with", 2, len(judged()[2]))
    same("nor read", (0, []), judged()[::2])
    os.unlink("my.000002.items")
    same("without items in the middle", (0, []), judged()[::2])
    os.unlink("my.000004.items")
    window(5, (GET, HIT))
    same("without the last ones", (0, ["judge --from --to --shards 16"] * 2), judged(processes=1)[::2])


def faults_are_named():
    """Each window that is no, unknown or missing has a line; no comes first."""
    good(3)
    window(2, (b"md a q\r\n", b"HD\r\n"), (GET, HIT))
    window(5, (GET, HIT), (GET, OTHER))
    status, lines, _ = judged()
    same("no", (1, f"proved no: window 5: {ACCUSED}"), (status, lines[0]))
    same("unknown", "  unknown: window 2: ", lines[1][:21])
    same("missing", "  unknown: window 4 is missing", lines[2])
    same("the counts", ["5 windows: 2 with an order, 1 without, 1 unknown, 1 missing", "no windows are joined"], lines[3:])
    status, line = told()
    same("as JSON", (1, "no", True, 0, [4], [2, 5], ["unknown", "no"], ["a"]),
         (status, line["verdict"], line["proved"], line["new"], line["missing"], [one["window"] for one in line["faults"]],
          [one["verdict"] for one in line["faults"]], line["faults"][1]["keys"]))


def gaps_break_the_chain():
    """A window is missing if one of its files is; one that is being written is not, nor with --warm those before the first."""
    for number in (3, 4, 8):
        window(number, (GET, HIT), (GET, HIT))
    os.unlink("my.000004.replies")
    with open("my.000009.replies", "wb"):
        pass
    found = "8 windows: 2 with an order, 0 without, 0 unknown, 6 missing"
    none = "no windows are joined"
    same("from the first", (7, ["unknown: windows 1 to 2 are missing", "  unknown: windows 4 to 7 are missing", found, none]),
         judged()[:2])
    found = "6 windows: 2 with an order, 0 without, 0 unknown, 4 missing"
    same("with --warm", (7, ["unknown: windows 4 to 7 are missing", found, none]), judged("--warm")[:2])


def failures_are_not_kept():
    """A file with an error, or a process that ended, is named, and tried again."""
    good(3)
    with open("my.000002.cap", "r+b") as file:
        file.truncate(30)
    window(3, (b"mn\r\n", b"MN\r\n"), (GET, HIT))
    for time in ("at first", "again"):
        status, lines, words = judged()
        same(time, (7, "unknown: window 2: ./my.000002.cap: "), (status, lines[0][:36]))
        same(f"{time}, the one that ended", "  unknown: window 3: the process that judged it has ended", lines[1])
        same(f"{time}, what was asked", "judge --warm --shards 16" in words, True)


def two_at_a_time():
    """Windows are judged side by side."""
    good(2)
    same("two processes", 0, judged("--processes", "2", more=TOGETHER)[0])


def folders_are_refused():
    """One folder has the windows of one recording, and one tool judges them at a time."""
    for words, said in (((), ". has no windows, as NAME.000001.cap and NAME.000001.replies"),
                        (("my.cap",), "--windows FOLDER takes no other files; --help has the options"),
                        (("--out", "files"), "--windows FOLDER takes no --out; --help has the options")):
        ran = run("judge", "--windows", ".", *words)
        same(f"{words}", (2, f"tools/judge: {said}\n"), (ran.returncode, ran.stderr.decode()))
    good(1)
    with open("my.judged", "a", encoding="utf-8") as file:
        fcntl.flock(file, fcntl.LOCK_EX)
        same("another tool", (7, ["unknown: another tools/judge judges these windows"], []), judged())
    window(1, (SET, STORED), name="your")
    ran = run("judge", "--windows", ".")
    same("two recordings", (2, "tools/judge: . has windows of several recordings: my, your; --windows takes a folder with one\n"),
         (ran.returncode, ran.stderr.decode()))


# ---- how windows are joined


SETS = ((0, b"set a 0 0 1\r\nx\r\n", STORED), (1, b"set a 0 0 1\r\ny\r\n", STORED))


def together(number, *steps):
    """Writes a window in which all commands are sent before any is answered, each of a connection of its own."""
    records = [segment(connection, sent) for connection, sent, _ in steps] + [segment(connection, MARK) for connection, *_ in steps]
    with open(f"my.{number:06}.replies", "wb") as file:
        file.write(replies([back for _, _, back in steps]))
    with open(f"my.{number:06}.cap", "wb") as file:
        file.write(capture(len(steps), records))


def unkept():
    """Removes what is kept."""
    with contextlib.suppress(FileNotFoundError):
        os.unlink("my.judged")


def stale_reads_are_found():
    """A value that was overwritten before a window began, and is read in it, makes a `no` of the whole."""
    good(4)
    window(3, (b"set a 0 0 1\r\nz\r\n", STORED))
    line = "no: window 4: key a: it shows 'x' at first, which no order of window 3 leaves"
    counts = "4 windows: 4 with an order, 0 without, 0 unknown, 0 missing"
    same("after a store in the window before", (1, [line, counts, "joined are windows 1 to 3"]), joined()[:2])
    same("as it is kept", (1, [line, counts, "joined are windows 1 to 3"], []), joined())
    status, line = told(judging=joined)
    same("as JSON", (1, "no", False, False, [[1, 3], [4, 4]], [(4, "no", ["a"])], 4),
         (status, *(line[name] for name in ("verdict", "proved", "chained", "parts")),
          [(one["window"], one["verdict"], one["keys"]) for one in line["breaks"]], line["ordered"]))
    window(3, (b"get b\r\n", b"END\r\n"))
    window(4, (GET, OTHER))
    window(5, (GET, OTHER))
    lines = ["no: window 4: key a: it shows 'y' at first, which no order of window 1 leaves",
             "5 windows: 5 with an order, 0 without, 0 unknown, 0 missing", "joined are windows 1 to 3, 4 to 5"]
    same("after a store in an earlier one", (1, lines), joined()[:2])
    window(4, (b"get b\r\n", b"VALUE b 0 1\r\ny\r\nEND\r\n"))
    same("of a key without a store", "no: window 4: key b: it shows 'y' at first, which no order of window 3 leaves", joined()[1][0])
    window(5, (GET, HIT))
    same("with --warm", (1, "no: window 4: key b: it shows 'y' at first, which no order of window 3 leaves"),
         tuple(joined("--warm")[at] if not at else joined("--warm")[at][0] for at in (0, 1)))


def overlapping_stores_leave_either():
    """If two stores overlap at the end of a window, it is asked again for the one that the next window shows."""
    line = "order found, by the proved program, in 3 windows as one recording: 4 commands"
    for value, answer in ((b"x", HIT), (b"y", OTHER)):
        unkept()
        together(1, *SETS)
        window(2, (b"get b\r\n", b"END\r\n"))
        window(3, (GET, answer))
        status, lines, words = joined()
        same(f"{value}", (0, [line, JOINED]), (status, lines[:2]))
        added = lines[2:]
        if added:
            same(f"{value}, what is said", ["translated: retrievals added at the end of a window 1"], added)
            same(f"{value}, what was asked", 6, len(words))
        same(f"{value}, again", (0, lines, []), joined())
        same(f"{value}, as JSON", True, told(judging=joined)[1]["chained"])


def changes_that_leave_nothing_are_asked_too():
    """A window that may have changed a key is asked, also if it left what there was before."""
    window(1, (b"get b\r\n", b"END\r\n"))
    together(2, *SETS, (2, b"delete a\r\n", b"DELETED\r\n"))
    for answer in (HIT, OTHER):
        window(3, (GET, answer))
        same("what is said", (0, "order found, by the proved program, in 3 windows as one recording: 5 commands"),
             (lambda found: (found[0], found[1][0]))(joined()))


def one_of_them_is_added():
    """Of the two orders of such stores, one needs a retrieval."""
    found = []
    for answer in (HIT, OTHER):
        unkept()
        together(1, *SETS)
        window(2, (GET, answer))
        found.append(len(joined()[1]))
    same("lines", [2, 3], sorted(found))


def unknown_numbers_are_asked_for():
    """A CAS value that only a later window shows is that of the item which was left."""
    good(2)
    window(3, (b"gets a\r\n", b"VALUE a 0 1 77\r\nx\r\nEND\r\n"), (b"set a 0 0 1\r\ny\r\n", STORED))
    window(4, (b"gets a\r\n", b"VALUE a 0 1 78\r\ny\r\nEND\r\n"))
    status, lines, _ = joined()
    same("joined", (0, "order found, by the proved program, in 4 windows as one recording: 7 commands"), (status, lines[0]))
    window(5, (b"gets a\r\n", b"VALUE a 0 1 79\r\ny\r\nEND\r\n"))
    same("another one of the same item", (1, "no: window 5: key a: it shows 'y', CAS value 79 at first, which no order of window 4 leaves"),
         (lambda found: (found[0], found[1][0]))(joined()))


def hard_windows_are_searched():
    """Of a window of which the program finds no order one is searched, and the program judges it at the times of this."""
    x, y, look = b"set hard 0 0 1\r\nx\r\n", b"set hard 0 0 1\r\ny\r\n", b"get hard\r\n"
    shown = {value: b"VALUE hard 0 1\r\n%s\r\nEND\r\n" % value for value in (b"x", b"y", b"z")}
    for value in (b"x", b"y"):
        unkept()
        together(1, (0, x, STORED), (1, y, STORED), (2, look, shown[b"x"]))
        together(2, (0, look, shown[value]), (1, look, shown[value]))
        status, lines, _ = joined()
        same(f"{value}, joined", (0, "order found, by the proved program, in 2 windows as one recording: 5 commands", JOINED), (status, *lines[:2]))
        same(f"{value}, what is counted", "translated: commands at the times of an order that was searched ", lines[2][:64])
    together(2, (0, look, shown[b"z"]), (1, look, shown[b"z"]))
    status, lines, _ = joined()
    same("not joined", (7, "unknown: window 2: key hard: it shows 'z' at first, and window 1 left"), (status, lines[0][:69]))
    together(1, (0, x, STORED), (1, look, shown[b"y"]))
    status, lines, _ = joined()
    same("a lie that is not refuted", (7, "unknown: window 1: not proved: key hard: no"), (status, lines[0][:43]))


def retrievals_are_dropped_by_their_keys():
    """A retrieval of which there is no order is left out, and the others stay."""
    window(1, (SET, STORED), (b"set b 0 0 1\r\nx\r\n", STORED))
    window(2, (b"gets a\r\n", b"VALUE a 0 1 7\r\nx\r\nEND\r\n"), (b"gets b\r\n", b"VALUE b 0 1 8\r\ny\r\nEND\r\n"))
    status, lines, _ = joined()
    same("a lie about one key", (1, "no: window 2: key b: it shows 'y', CAS value 8 at first, which no order of window 1 leaves"),
         (status, lines[0]))
    same("and what was added", "translated: retrievals added at the end of a window 1", lines[-1])


def what_a_window_shows():
    """First items are those that were shown before any change was sent, or that no change stores; others are implied."""
    gets = b"gets %s\r\n"
    shown = [(gets % b"a", b"VALUE a 0 1 7\r\nx\r\nEND\r\n"), (b"set a 0 0 1\r\ny\r\n", STORED), (GET, OTHER),
             (b"get b c\r\n", b"VALUE c 5 2\r\nxy\r\nEND\r\n"), (b"incr d 2\r\n", b"10\r\n"),
             (b"delete e\r\n", b"DELETED\r\n"), (b"delete f\r\n", b"NOT_FOUND\r\n"), (b"get f\r\n", b"END\r\n"),
             (b"append g 0 0 1\r\nz\r\n", STORED), (b"cas h 0 0 1 9\r\nz\r\n", STORED), (b"add i 0 0 1\r\nz\r\n", STORED),
             (gets % b"i", b"VALUE i 0 1 20\r\nz\r\nEND\r\n"), (b"touch c 5\r\n", b"TOUCHED\r\n")]
    window(1, *shown)
    found = firsts.shown_by(["my.000001.cap", "my.000001.replies"], {})
    item = firsts.Item
    same("first items", {b"a": item(0, b"x", 7), b"b": None, b"c": item(5, b"xy", None), b"f": None}, found.firsts)
    implied = {b"d": item(0, b"8", None), b"e": item(0, b"0", None), b"f": None, b"g": item(0, b"", None), b"h": item(0, b"0", 9),
               b"i": None}
    same("implied ones", implied, {key: one for key, one in found.implied.items() if key not in b"abc"})
    same("changed", (set(b"a c d e g h i".split()), False, {b"c"}), (set(found.changed), found.changes_all, found.expiring))
    makes = [found.changed[key].can_be(item(0, value, None)) for key in (b"a", b"c", b"d", b"g") for value in (b"y", b"7 ")]
    same("what may be made of them", [True, False, False, False, False, True, True, True], makes)
    same("CAS values", ({b"a": 7, b"i": 20}, True), (found.uniques, found.is_sure))
    same("as a line", found, firsts.of_line(json.loads(firsts.line_of(["my.000001.cap", "my.000001.replies"], {}))))
    together(1, *SETS, (2, GET, b"VALUE a 0 1\r\nz\r\nEND\r\n"), (3, GET, HIT), (4, b"flush_all noreply\r\n", b""), (5, b"get b\r\n", b"END\r\n"))
    found = firsts.shown_by(["my.000001.cap", "my.000001.replies"], {})
    same("at the time of a flush", ({}, True), (found.firsts, found.changes_all))
    together(1, *SETS, (2, GET, b"VALUE a 0 1\r\nz\r\nEND\r\n"), (3, GET, HIT), (4, GET, b"END\r\n"))
    found = firsts.shown_by(["my.000001.cap", "my.000001.replies"], {})
    same("at the time of other changes", {b"a": item(0, b"z", None)}, found.firsts)


def items_to_begin_with():
    """A part begins with the items that were left last, and with those that its first window shows in place of others."""
    item, kept = firsts.Item, formats.Item
    left = formats.Items(9, [kept(b"a", 0, 3, b"x"), kept(b"b", 0, 4, b"x"), kept(b"c", 0, 9, b"x"), kept(b"e", 1, 5, b"x")], [b"b"])
    with open("left", "wb") as file:
        file.write(formats.items_file(left))
    shown = firsts.Shown({b"a": item(1, b"y", 12), b"b": None, b"d": item(2, b"z", None)},
                         {b"a": None, b"e": item(0, b"0", None), b"f": item(0, b"0", None)}, {}, False, set(), {}, True)
    wanted = [kept(b"a", 1, 12, b"y"), kept(b"c", 0, 9, b"x"), kept(b"d", 2, 0, b"z"), kept(b"e", 1, 5, b"x"), kept(b"f", 0, 0, b"0")]
    for name, items in (("left", formats.Items(12, wanted, [b"b"])),
                        ("", formats.Items(12, [wanted[0], wanted[2], wanted[4]._replace(key=b"e"), wanted[4]], []))):
        firsts.begin_with(shown, "found", name)
        with open("found", "rb") as file:
            same(f"from {name or 'none'}", items, formats.read_items(Part("items", file.read())))


def copies_ask_for_items():
    """A copy has one more connection, whose commands are sent one after the other at the end."""
    for version, outputs in ((1, replies([STORED])), (2, sessions([[STORED, b""]]))):
        with open("my.cap", "wb") as file:
            file.write(capture(3, [segment(0, SET), segment(0, MARK), *[b"C\0\0\0\0"] * (version - 1)], version))
        with open("my.replies", "wb") as file:
            file.write(outputs)
        items = {b"a": firsts.Item(0, b"x", None), b"b": None, b"c": firsts.Item(3, b"", 8)}
        names = firsts.copy_asking(["my.cap", "my.replies"], items, ".")
        part = Part("capture", capture_alone(names[0]))
        records = list(formats.capture_records(part, *formats.capture_head(part)))
        asked = [formats.Segment(3, text) for sent in (GET, b"get b\r\n", b"gets c\r\n") for text in (sent, MARK)]
        same(f"version {version}, commands", asked, records[-6:])
        last = outputs_in(names[1])[0][-4:]
        answers = HIT + b"END\r\n" + b"VALUE c 3 0 8\r\n\r\nEND\r\n"
        same(f"version {version}, answers", [(1, 0, b""), (2, 0, b""), (3, 0, answers)], [tuple(one) for one in last[1:]])


def gone_windows_stay_joined():
    """Windows whose files were removed after they were joined are part of the verdict."""
    good(3)
    same("at first", 0, joined()[0])
    for number in (1, 2):
        os.unlink(f"my.{number:06}.cap")
        os.unlink(f"my.{number:06}.replies")
        os.unlink(f"my.{number:06}.items")
    line = "order found, by the proved program, in 3 windows as one recording: 6 commands"
    same("without the first two", (0, [line, JOINED], []), joined())
    for number, named in ((2, "windows 1 to 2 are"), (1, "window 1 is")):
        good(4)
        for left in range(1, number + 1):
            os.unlink(f"my.{left:06}.cap")
        os.unlink("my.judged")
        same(f"{number} that were not judged", (7, f"unknown: {named} missing"), (lambda found: (found[0], found[1][0]))(joined()))


def one_window_with_items():
    """One window is judged from items, and to items; what no order explains is said."""
    good(2)
    files = [[f"my.{number:06}.cap", f"my.{number:06}.replies"] for number in (1, 2)]
    program = os.path.join(TOP, "tests/stand_in.py")
    line = "order found, by the proved program, on the bytes as they were recorded"
    same("to items", (0, [line, "yes commands 2 ended 2", "to the items of one"], ["judge --to --shards 16"]),
         judged_by(program, "--to", "one", *files[0]))
    same("from items", (0, [line, "yes commands 2 ended 2", "from the items of one to the items of two"], ["judge --from --to --shards 16"]),
         judged_by(program, "--from", "one", "--to", "two", *files[1]))
    same("the same items", True, open("one", "rb").read() == open("two", "rb").read())
    window(2, (GET, OTHER))
    why = "unmet, connection 0, command 0, key a: no command can have made in time what it was answered"
    command_line = "  connection 0, command 0, sent 0, answered 1: get a -> VALUE a 0 1"
    same("no", (1, [f"proved no: {why}", command_line], ["judge --from --shards 16"]), judged_by(program, "--from", "one", *files[1]))
    window(2, (b"md a\r\n", b"HD\r\n"))
    said = "unknown: only the proved program takes items, and it says: unknown other connection 0 command 0, key a"
    same("unknown", (7, [said], ["judge --from --to --shards 16"]), judged_by(program, "--from", "one", "--to", "three", *files[1]))
    same("nothing is written", False, os.path.exists("three"))
    with open("bad", "wb") as file:
        file.write(b"ZYGITM1\n\0")
    for name, found, status in (("bad", "bad: items: truncated at 9", 3), ("none", "none: No such file or directory", 4),
                                ("my.000001.cap", "my.000001.cap: this is a capture; items are read here", 3)):
        with mock.patch.object(command, "ZYGOS", program):
            ran = run("judge", "--from", name, *files[0])
        same(name, (status, f"tools/judge: {found}"), (ran.returncode, ran.stderr.decode().split("\n")[0]))
    for words, said in ((("--from", "one", "--warm"), "--warm says that there were any items, and --from and --to are for those that are known"),
                        (("--to", "three", "--first"), "only the proved program takes items, and nothing is searched: --from and --to take no --first")):
        ran = run("judge", *words, *files[0])
        same(f"{words}", (2, f"tools/judge: {said}\n"), (ran.returncode, ran.stderr.decode()))


Tests = cases(each_has_an_order, some_are_not_joined, nothing_is_no_fault, only_new_ones_are_judged, faults_are_named, gaps_break_the_chain, failures_are_not_kept,
              two_at_a_time, folders_are_refused, stale_reads_are_found, overlapping_stores_leave_either,
              changes_that_leave_nothing_are_asked_too, one_of_them_is_added, unknown_numbers_are_asked_for, gone_windows_stay_joined,
              hard_windows_are_searched, retrievals_are_dropped_by_their_keys, what_a_window_shows, items_to_begin_with, copies_ask_for_items, one_window_with_items, has_folder=True)
