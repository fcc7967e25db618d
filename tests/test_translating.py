"""Tests what tools/judge gives the proved program in place of a recording with commands that zygos lacks: the search, and the
plain judge if there are no meta commands, say of it what is right of the recording."""
import re

from checks import cases, same
from explained import Judge as Plain
from lies import outputs_of, verdict
from test_right import GONE, ONE, TWO, hit, recorded, stored
from zygos_tools.files.formats import capture_head, capture_records
from zygos_tools.files.part import Part
from zygos_tools.judging import pairing, times
from zygos_tools.judging.doubts import leave_out_entering
from zygos_tools.judging.reading import Recording
from zygos_tools.judging.translating import Translation


def translated(steps, loses=False):
    """What a history is translated to, and its counts."""
    sent, told = recorded(steps)
    recording = Recording(sent)
    same("sessions that cannot be followed", [], pairing.pair(recording, outputs_of(told)))
    times.set_times(recording)
    leave_out_entering(recording)
    translation = Translation(recording, loses)
    same("what is whole", True, translation.is_whole())
    return b"".join(translation.pieces()), dict(translation.counts)


def judged(name, wanted, counts, steps, warm=False):
    """Compares what is said of a translated history: whether some order explains it, also if an item may have been lost."""
    text, counted = translated(steps)
    same(f"{name}, counts", counts, counted)
    part = Part("capture", text)
    for _ in capture_records(part, *capture_head(part)):
        pass
    same(name, wanted, verdict(text[: part.at], outputs_of(text[part.at :]), is_warm=warm)[0] != "no")
    if not re.search(rb"\bm[gns]\b", text):
        same(f"{name}, plainly", wanted, Plain(text, warm).is_explained())


X = b"set a 0 0 %d\r\n%s\r\n" % ((1 << 20) + 1, b"x" * ((1 << 20) + 1))
TOO_LARGE = b"SERVER_ERROR object too large for cache\r\n"
THERE, NONE = (0, b"get a\r\n", hit(b"a", b"1")), (0, b"get b\r\n", b"END\r\n")


def touches():
    """A `touch` finds an item or none, and may let it go, if its exptime is one."""
    touched, missed = b"TOUCHED\r\n", b"NOT_FOUND\r\n"
    for line, answer, end, wanted in (
            (b"touch a 0", touched, THERE, True), (b"touch a 0", touched, GONE, False), (b"touch a 60", touched, GONE, True),
            (b"touch a -1", touched, GONE, True), (b"touch a 60", touched, THERE, True), (b"touch a 0", missed, THERE, False),
            (b"touch b 60", missed, THERE, True), (b"touch b 0", touched, THERE, False), (b"touch b 60", missed, GONE, False)):
        judged(f"{line!r} {answer!r}", wanted, {"touch": 1}, [ONE, (0, line + b"\r\n", answer), end])
    judged("noreply", True, {"touch left out": 1}, [ONE, (0, b"touch a 9 noreply\r\n", b""), GONE])
    judged("noreply without an exptime", False, {"touch left out": 1}, [ONE, (0, b"touch a 0 noreply\r\n", b""), GONE])
    meta = (0, b"ms a 1 F0 T0\r\n1\r\n", b"HD\r\n")
    judged("an item of ms", True, {"touch": 1}, [meta, (0, b"touch a 60\r\n", touched), GONE])
    judged("another key of ms", False, {"touch": 1}, [meta, (0, b"touch b 60\r\n", missed), GONE])
    sent, _ = translated([ONE, (0, b"touch a 60\r\n", touched)], loses=True)
    same("all items may be lost", True, ONE[1] in sent)


def retrievals_with_an_exptime():
    """`gat` and `gats` find what `get` and `gets` find."""
    for line, answer, wanted in (
            (b"gat 0 a", hit(b"a", b"1"), True), (b"gat 0 a", hit(b"a", b"2"), False), (b"gat 9 b a", hit(b"a", b"1"), True),
            (b"gats 0 a", hit(b"a", b"1", 7), True), (b"gat 0 a", b"END\r\n", False), (b"bget a", hit(b"a", b"1"), True)):
        judged(f"{line!r} {answer!r}", wanted, {"gat": 1}, [ONE, (0, line + b"\r\n", answer), THERE])
    judged("an item that is gone", True, {"gat": 1}, [ONE, (0, b"gat 9 b a\r\n", hit(b"a", b"1")), GONE])


def what_does_nothing():
    """Commands of operators and bad lines are left out with their answers and marks, and what follows them is kept."""
    name = "faulty line left out"
    for line, answer, counted in (
            (b"stats\r\n", b"STAT pid 1\r\nEND\r\n", "stats left out"), (b"stats settings\r\n", b"STAT a 1\r\nEND\r\n", "stats left out"),
            (b"stats reset\r\n", b"RESET\r\n", "stats left out"), (b"stats sizes_enable\r\n", b"STAT sizes_status enabled\r\n",
                                                              "stats left out"),
            (b"stats detail on\r\n", b"OK\r\n", "stats left out"), (b"stats cachedump 1 1\r\n", b"ITEM a [1 b; 0 s]\r\nEND\r\n",
                                                               "stats left out"),
            (b"lru tune 10 25 0.1 2.0\r\n", b"OK\r\n", "lru left out"), (b"slabs automove 0\r\n", b"OK\r\n", "slabs left out"),
            (b"me a\r\n", b"EN\r\n", "me left out"), (b"foo noreply\r\n", b"", name),
            (b"version 1\r\n", b"VERSION 1.6\r\n", "words left out"), (b"mn 1\r\n", b"MN\r\n", "words left out"),
            (b"get a\0b\r\n", hit(b"a", b"1"), "lines cut at a NUL"),
            (b"ms a 1 ?\r\n2\r\n", b"CLIENT_ERROR invalid flag\r\n", "faulty ms left out")):
        for end, wanted in ((THERE, True), (GONE, False)):
            judged(f"{line!r}", wanted, {counted: 1}, [ONE, (0, line, answer), end])
            judged(f"{line!r} with others", wanted, {counted: 2}, [ONE, (1, line + b"get b\r\n" + line, answer + b"END\r\n" + answer), end])


def stores_that_fail():
    """A value that is too large is not stored, and the older item may be gone."""
    for end, wanted in ((THERE, True), (GONE, True), (TWO, True), ((0, b"get a\r\n", hit(b"a", b"2")), False)):
        judged(f"{end}", wanted, {"values that are too large": 1}, [ONE, (0, X, TOO_LARGE), end])
    judged("with an exptime", True, {"values that are too large": 1},
           [ONE, (0, X.replace(b"a 0 0", b"a 0 9"), TOO_LARGE), THERE, GONE])


def connections_that_are_not_served():
    """Commands on connections of which the server served nothing are left out, and so are authentications."""
    many = b"ERROR Too many open connections\r\n"
    refused = {"commands of refused connections left out": 2}
    judged("refused", True, refused, [ONE, (1, b"set a 0 0 1\r\n2\r\nget a\r\n", many), THERE])
    judged("refused, and another value", False, refused, [ONE, (1, b"set a 0 0 1\r\n2\r\nget a\r\n", many), (0, b"get a\r\n", hit(b"a", b"2"))])
    enter = stored(b"auth", b"user pass")
    judged("authentications", True, {"authentications left out": 2}, [(0, *enter), (1, *enter), ONE, (0, b"get auth\r\n", b"END\r\n"), THERE])


def numbers_are_those_of_the_recording():
    """A command and a record that the program names have the numbers that they have in the recording."""
    sent, told = recorded([(0, b"stats\r\n", b"END\r\n"), ONE, (0, b"stats\r\n", b"END\r\n"), THERE])
    recording = Recording(sent)
    pairing.pair(recording, outputs_of(told))
    translation = Translation(recording, False)
    b"".join(translation.pieces())
    same("commands", [1, 3], [translation.command(0, number) for number in range(2)])
    same("records", [2, 3, 6, 7], [translation.record(number) for number in range(4)])


Tests = cases(touches, retrievals_with_an_exptime, what_does_nothing, stores_that_fail, connections_that_are_not_served,
              numbers_are_those_of_the_recording)
