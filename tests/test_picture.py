"""Tests tools/picture: what it counts and writes."""
import os
import tempfile
import unittest
import xml.etree.ElementTree

from checks import cases, fail, most_memory, run, same, written
import reports
from zygos_tools.files.formats import (JOURNAL_START, Call, Entry, Hold, Reply, entry, hold, journal, journal_records,
                                       read_journal, replies)
from zygos_tools.files.part import Part
from zygos_tools.showing import picture

SMALL = journal([Entry(1, 0, 0, 0, 0, Call("set", b"a", 0, value=b"x"), Reply("stored")),
                 Entry(2, 0, 1, 0, 0, Call("get", b"a"), Reply("hit", 0, 1, b"x")),
                 Entry(3, 2, 1, 1, 0, Call("get", b"c"), Reply("miss"))], [Hold(0, 0, 1), Hold(1, 0, 2)])


def texts(svg):
    return [element.text for element in xml.etree.ElementTree.fromstring(svg).iter() if element.tag.endswith("text")]


def shows(name, given, *words, has=(), has_not=()):
    """The picture has these texts, and not those."""
    found = texts(run("picture", *words, given=given).stdout)
    same(name, ([], []), ([text for text in has if text not in found], [text for text in has_not if text in found]))
    return found


def small_pictures():
    shows("with cores", SMALL + replies([b""]), "--cores", "2", has=(
        "A run of 2 connections on 2 cores", "3 commands, 3 calls, 2 holds; 66.7 % of the commands were stolen",
        "a row for each connection; outlined: the home core", "Stolen of what each core carried out"))
    shows("without cores", SMALL, has=(
        "A run of 2 connections; cores not given: 1 seen", "3 commands, 3 calls, 2 holds", "a row for each connection"),
        has_not=("Stolen of what each core carried out",))
    shows("of nothing", journal([], []), has=("A run of 0 connections; cores not given: 0 seen",
                                              "0 commands, 0 calls, 0 holds", "no commands"))
    with tempfile.TemporaryDirectory() as folder:
        both = shows("of two runs", SMALL, "-", written(folder, one=journal([], []))["one"])
    same("two pictures", 2, sum(text.startswith("A run of") for text in both))


def last_cores():
    """Where the last core held nothing, nothing is said of stealing without the number of cores."""
    given = journal([], [Hold(7, 0, 4), Hold(7, 6, 5)])
    found = shows("seven of eight cores", given, has=("A run of 1 connection; cores not given: 7 seen",
                                                      "9 commands, 0 calls, 2 holds"))
    same("words of stealing", [], [text for text in found if "stolen" in text.lower() or "home" in text])
    said = [run("picture", "--cores", str(cores), given=given).stderr for cores in (7, 8, 10)]
    same("cores that held nothing", [b"", *(b"tools/picture: standard input: %s held nothing; were there %d cores?\n" % one
                                           for one in ((b"core 7", 8), (b"cores 7 to 9", 10)))], said)
    shows("all eight cores", given, "--cores", "8", has=("9 commands, 0 calls, 2 holds; 100.0 % of the commands were stolen",))


def names():
    """The numbers of a row say whether it has all between them."""
    of = picture.names
    for given, wanted in (([4], "4"), ([0, 4], "0, 4"), ([0, 4, 8, 12], "0, 4 .. 12"), (range(3, 9), "3-8")):
        same(f"the names of {given}", wanted, of(given))


def marks():
    """The marks of axes are round."""
    of = picture.marks
    for value, wanted in ((0, [0, 1]), (1, [0, 1]), (3, [0, 1, 2, 3]), (5, [0, 2, 4, 6]), (44, [0, 20, 40, 60]),
                          (530, [0, 200, 400, 600]), (1000000, [0, 500000, 1000000])):
        same(f"marks up to {value}", wanted, of(value))
    for value in range(1, 3000):
        found = of(value)
        if not value <= found[-1] < value + found[1] or len(found) > 5:
            fail(f"marks up to {value}", found)


def counts():
    """The picture and the report agree on drawn journals."""
    counted = picture.Run
    for number in range(20):
        text = reports.drawn(number)
        if reports.expected(text)[0] == 0:
            entries = read_journal(Part("journal", text)).entries
            shards = max((one.shard for one in entries), default=0) + 1
            same(f"drawn journal {number}",
                 [[*reports.counts([one for one in entries if one.shard == shard])[:4]] for shard in range(shards)],
                 counted(journal_records(Part("journal", text)), None).counts())


def large_pictures():
    found = run("picture", "--cores", "64", given=journal([], [Hold(c, c % 64, 64) for c in range(4096)])).stdout
    row = "a row for up to 64 connections of one home; outlined: the home core"
    if row not in texts(found) or len(found) > 1000000:
        fail("a picture of 4,096 connections", f"{len(found)} bytes")
    with tempfile.TemporaryDirectory() as folder:
        path = os.path.join(folder, "journal")
        with open(path, "wb") as file:
            file.write(JOURNAL_START)
            for at in range(60000):
                file.write(entry(at + 1, at % 16, at % 100, at // 100, 0, Call("set", b"k%d" % at, 0, value=b"x" * 600),
                                 Reply("stored")))
            file.writelines(hold(at // 60, at % 8, 10) for at in range(6000))
            file.write(b"E")
        memory, status = most_memory("picture", "--cores", "8", source=path)
        if status or memory > os.path.getsize(path) / (1 << 20):
            fail("a picture of 60,000 commands", f"status {status}, {memory:.0f} MiB")


Tests = cases(small_pictures, last_cores, names, marks, counts, large_pictures)

if __name__ == "__main__":
    unittest.main()
