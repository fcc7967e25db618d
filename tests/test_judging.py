"""Tests tools/judge without the program: times that are kept, a verdict on every key, and what memcached reads
otherwise."""
import json
import os
import random
import tempfile
from unittest import mock

from checks import cases, fail, run, same, written
from lies import Liar, outputs_of, verdict
import moments
import plain
from spelled import bytes_of
from thought import USUAL, WIDE, Draw, Memcached, in_sessions
from zygos_tools.files.formats import (Call, Part, Segment, capture, close, cut_all, journal, pieces, read_capture,
                                       read_journal, replies, replies_file, segment)
from zygos_tools.judging import mending, narrowing
from zygos_tools.judging.clock import Clock
from zygos_tools.judging.judge import Judge
from zygos_tools.protocol.pace import Pace
from zygos_tools.repository import TOP

RECORDINGS = os.path.join(TOP, "tests", "recordings")
NAMES = ("fleet", "pipelined", "wide", "counters", "counting", "flushed")


def recorded(name):
    texts = []
    for end in ("cap", "replies"):
        with open(os.path.join(RECORDINGS, f"{name}.{end}"), "rb") as file:
            texts.append(file.read())
    return texts


def files_of(texts, **more):
    """The files that are found for a recording."""
    judge = Judge(texts[0], outputs_of(texts[1]), clock=Clock(3600), **more)
    judge.run()
    return b"".join(judge.certificate().pieces())


def certified(name, files):
    """The files are those of a run, and in time. Gives the line of `linear`."""
    same(f"the check of {name}", (0, b"yes\n", b""), plain.answer(files, 16))
    line = moments.line_of(files)
    same(f"the times of {name}", "yes", line.split()[0])
    return line


# ---- times


def recordings_keep_their_times():
    """Also where uniques are translated, nine tenths of the commands of a recording have an end."""
    for name in NAMES:
        line = certified(name, files_of(recorded(name))).split()
        same(f"the ends of {name}", True, int(line[4]) * 10 > int(line[2]) * 9)


class Losing(Memcached):
    """A server that loses an item now and then."""

    def __init__(self):
        super().__init__()
        self.draw = random.Random(1)

    def answer(self, call):
        if self.draw.random() < 0.05:
            self.items.pop(call.key, None)
        return super().answer(call)


def added_connections_keep_times():
    """Items that are lost or were there before, sessions, and commands that came in two segments."""
    for seed, kinds in enumerate((USUAL, WIDE)):
        drawn = Draw(seed, 6, 30, 6, 2, kinds, server=Losing()).run()
        certified(f"losses {seed}", files_of((drawn.capture(), drawn.replies()), loses=True))
        server = Memcached()
        for at in range(6):
            server.answer(Call("set", b"key:%d" % at, at, value=b"%d" % (at * 7)))
        drawn = Draw(seed, 6, 30, 6, 3, kinds, server=server).run()
        certified(f"items at first {seed}", files_of((drawn.capture(), drawn.replies()), is_warm=True))
        certified(f"sessions {seed}", files_of(in_sessions(seed, 4, 20, 4, 2)))


def lies_about_time(name):
    """A journal with two entries swapped across an end, a mark before its command, and a mark of another connection or, in a
    recording of sessions, of another session."""
    has_sessions = name == "sessions"
    parts = cut_all(files_of(in_sessions(3, 4, 20, 4, 2) if has_sessions else recorded(name)))
    for what, changed in (("two entries", swapped_entries(parts)), ("an early mark", early_mark(parts)),
                          ("a mark of another session", later_mark(parts)) if has_sessions else
                          ("a mark of another connection", other_mark(parts))):
        yield what, changed["capture"] + changed["journal"] + changed["replies"]


def lies_about_time_are_refused():
    for name in ("fleet", "counting", "sessions"):
        for what, files in lies_about_time(name):
            same(f"the check of {name} with {what}", 0, plain.answer(files, 16)[0])
            same(f"the times of {name} with {what}", "no", moments.line_of(files).split()[0])


def swapped_entries(parts):
    """Two entries that follow each other, the later of which was sent when the first had ended, change their places."""
    whole = read_capture(Part("capture", parts["capture"]))
    read = read_journal(Part("journal", parts["journal"]))
    by_command = {}
    for entry in read.entries:
        by_command.setdefault((entry.connection, entry.index), []).append(entry.reply)
    times = moments.Moments(whole, by_command)
    for at, (one, other) in enumerate(zip(read.entries, read.entries[1:])):
        first, second = (one.connection, one.index), (other.connection, other.index)
        if one.shard != other.shard and one.connection != other.connection and times.ended[first] <= times.sent[second]:
            entries = list(read.entries)
            entries[at], entries[at + 1] = other._replace(stamp=one.stamp), one._replace(stamp=other.stamp)
            return {**parts, "journal": journal(entries, read.holds)}
    return fail("two entries across an end", "there are none") or parts


def with_records(parts, records, whole):
    spelled = [segment(*record) if isinstance(record, Segment) else close(*record) for record in records]
    return {**parts, "capture": capture(whole.count, spelled, whole.version)}


def first_mark(parts):
    """The capture, and the place of its first mark."""
    whole = read_capture(Part("capture", parts["capture"]))
    return whole, next(at for at, record in enumerate(whole.records) if isinstance(record, Segment) and not record.text)


def early_mark(parts):
    """The first mark is moved before all commands."""
    whole, at = first_mark(parts)
    return with_records(parts, [whole.records[at], *whole.records[:at], *whole.records[at + 1 :]], whole)


def later_mark(parts):
    """The first mark becomes that of the next session of its connection, before the commands of that."""
    whole, at = first_mark(parts)
    records = list(whole.records)
    mark = records.pop(at)
    ends = [place for place, record in enumerate(records)
            if record.connection == mark.connection and not isinstance(record, Segment)]
    records.insert(ends[0] + 1, mark)
    return with_records(parts, records, whole)


def other_mark(parts):
    """A mark becomes that of a connection that has no answer to come."""
    whole, at = first_mark(parts)
    mark, records = whole.records[at], [record for place, record in enumerate(whole.records) if place != at]
    other = next(one.connection for one in whole.records if one.connection != mark.connection)
    return with_records(parts, [mark._replace(connection=other), *records], whole)


# ---- a verdict on every key


def five_faults_are_all_named():
    """Five answers of a recording are changed, each on another key: all are named, and the status is that of a no."""
    texts = recorded("fleet")
    liar, draw = Liar(*texts), random.Random(5)
    lies, keys = {}, []
    choices = [(event, answers) for event, answers in zip((read[0] for read in liar.reads), liar.value())]
    draw.shuffle(choices)
    for event, answers in choices:
        if len(keys) < 5 and event.key not in keys and not set(answers) & set(lies):
            keys.append(event.key)
            lies.update(answers)
    outputs = liar.told(type("Lies", (), {"answers": lies}))
    judge = Judge(texts[0], outputs, is_first=False)
    judge.search()
    same("the keys that have no order", sorted(keys), sorted(key for fault in judge.faults for key in fault.keys))
    with tempfile.TemporaryDirectory() as folder:
        paths = written(folder, sent=texts[0], answered=replies_file(1, outputs))
        ran = run("judge", "--check", paths["sent"], paths["answered"])
        lines = ran.stdout.decode().split("\n")
        same("the status", 1, ran.returncode)
        told = f"with an order, {len(keys)} without, 0 unknown"
        same("how many have none", True, any(line.endswith(told) for line in lines))
        same("a line for each", sorted(f"key {key.decode()}" for key in keys),
             sorted(line.split(";")[0].removeprefix("  no: ") for line in lines if line.startswith("  no: ")))
        told = json.loads(run("judge", "--json", paths["sent"], paths["answered"]).stdout)
        same("as JSON", ("no", 5, 0), (told["verdict"], told["without"], told["unknown"]))
        names = " ".join(key.decode() for key in keys)
        ran = run("judge", "--out", os.path.join(folder, "files"), "--except-keys", names, paths["sent"],
                  paths["answered"])
        same("the other keys have an order", (0, "order found"), (ran.returncode, ran.stdout.decode()[:11]))
        first = run("judge", "--first", "--check", paths["sent"], paths["answered"]).stdout.decode()
        same("the first alone", 1, sum(line.startswith(("no: ", "proved no: ")) for line in first.split("\n")))


def swapped_values_are_told():
    """A value that is stored under another key alone says so."""
    sent = b"set x 0 0 1\r\n1\r\nset y 0 0 1\r\n2\r\nget x y\r\n"
    told = b"STORED\r\nSTORED\r\nVALUE x 0 1\r\n2\r\nVALUE y 0 1\r\n1\r\nEND\r\n"
    word, lines = verdict(capture(1, pieces(0, sent)), outputs_of(replies([told])))
    same("swapped values", ("no", "no: key x: what this one answers is stored under other keys alone",
                            "  stored only under y, by connection 0, command 1, sent 0, ended by 0"[:46]),
         (word, lines[0], lines[2][:46]))


def losses_by_exptime_are_counted():
    """Losses that an exptime may explain are told from others."""
    sent = b"set x 0 1 1\r\n1\r\nget x\r\nset y 0 0 1\r\n1\r\nget y\r\n"
    texts = capture(1, pieces(0, sent)), replies([b"STORED\r\nEND\r\nSTORED\r\nEND\r\n"])
    judge = Judge(texts[0], outputs_of(texts[1]), loses=True)
    judge.run()
    counts = judge.certificate().counts
    same("losses", (1, 1), (counts["losses of items"], counts["losses of items that an exptime may explain"]))
    joined = b"set x 0 1 1\r\n1\r\nappend x 0 0 1\r\n2\r\nget x\r\n"
    judge = Judge(capture(1, pieces(0, joined)), outputs_of(replies([b"STORED\r\nSTORED\r\nEND\r\n"])), loses=True)
    judge.run()
    counts = judge.certificate().counts
    same("a value that was joined keeps the exptime", 1, counts["losses of items that an exptime may explain"])


def a_loss_that_another_key_shows():
    """An order of a key without losses may fit no order of another key; then the key has a loss."""
    sent = ((0, b"delete b noreply\r\nset a 0 0 1 noreply\r\n1\r\nget a\r\n"),
            (1, b"set a 0 0 1 noreply\r\n2\r\nset b 0 0 1 noreply\r\n3\r\nmn\r\n"), (0, b""), (1, b""),
            (2, b"get a b\r\n"), (2, b""))
    texts = capture(3, [segment(*one) for one in sent]), replies([
        b"VALUE a 0 1\r\n1\r\nEND\r\n", b"MN\r\n", b"VALUE a 0 1\r\n2\r\nEND\r\n"])
    same("without losses", "no: keys a, b", verdict(texts[0], outputs_of(texts[1]))[1][0][:13])
    judge = Judge(texts[0], outputs_of(texts[1]), loses=True)
    with mock.patch.object(mending, "MOST_TOGETHER", 0):  # as if the keys had many calls
        judge.run()
    same("with losses", 1, judge.certificate().counts["losses of items"])


# ---- what memcached reads otherwise

SET, COUNTER, LOOK = b"set a 0 0 1\r\nx\r\n", b"set n 0 0 2\r\n10\r\n", b"get a\r\nget n\r\nmn\r\n"
SHOWN = b"VALUE a 0 1\r\nx\r\nEND\r\nVALUE n 0 2\r\n10\r\nEND\r\nMN\r\n"
# lines, and what memcached 1.6.18 answers to them and to LOOK
OTHERWISE = (
    (b"get a\0", b"VALUE a 0 1\r\nx\r\nEND\r\n" + SHOWN, "order found"),
    (b"gets a\0\0 b", b"VALUE a 0 1 69\r\nx\r\nEND\r\n" + SHOWN, "order found"),
    (b"get a\0 n", b"VALUE a 0 1\r\nx\r\nEND\r\n" + SHOWN, "order found"),
    (b"gat 0 a\0", b"VALUE a 0 1\r\nx\r\nEND\r\n" + SHOWN, "order found"),
    (b"delete a\0", b"DELETED\r\nEND\r\nVALUE n 0 2\r\n10\r\nEND\r\nMN\r\n", "order found"),
    (b"set a\0 0 0 1\r\ny", b"ERROR\r\nERROR\r\n" + SHOWN, "unknown"),
    (b"version noreply", b"VERSION 1.6.18\r\n" + SHOWN, "order found"),
    (b"bget a", b"VALUE a 0 1\r\nx\r\nEND\r\n" + SHOWN, "order found"),
    (b"mn foo", b"MN\r\n" + SHOWN, "order found"),
    (b"set a 0 9223372036854775808 1\r\ny", b"CLIENT_ERROR bad command line format\r\nERROR\r\n" + SHOWN, "unknown"),
    (b"set a 0 0 2147483646\r\ny", b"CLIENT_ERROR bad command line format\r\nERROR\r\n" + SHOWN, "unknown"),
    (b"set n 0 0 3\r\n 12\r\nincr n 1",
     b"STORED\r\n13\r\nVALUE a 0 1\r\nx\r\nEND\r\nVALUE n 0 3\r\n13 \r\nEND\r\nMN\r\n", "unknown"),
    (b"set n 0 0 4\r\n12\0a\r\nincr n 1",
     b"STORED\r\n13\r\nVALUE a 0 1\r\nx\r\nEND\r\nVALUE n 0 4\r\n13  \r\nEND\r\nMN\r\n", "unknown"),
    (b"set a 0 -1 1\r\ny", b"STORED\r\nEND\r\nVALUE n 0 2\r\n10\r\nEND\r\nMN\r\n", "unknown"),
    (b"ms a 1 C0 k\r\ny", b"EX ka\r\n" + SHOWN, "order found"),
)


def what_memcached_reads_otherwise_is_no_fault():
    for line, told, wanted in OTHERWISE:
        sent = capture(1, pieces(0, SET + COUNTER + line + b"\r\n" + LOOK))
        word, lines = verdict(sent, outputs_of(replies([b"STORED\r\nSTORED\r\n" + told])))
        same(f"what is said of {line!r}", wanted, word)
        same(f"the reason of {line!r}", True, word == "order found" or len(lines[0]) > 20)


def no_row_of_memcached_is_refused():
    """The answers of memcached 1.6.18 to all rows of examples/answers.jsonl are right or unknown, never a no."""
    with open(os.path.join(TOP, "examples", "answers.jsonl"), encoding="ascii") as file:
        for row in map(json.loads, file):
            sent, told = map(bytes_of, (row["sent"], row.get("memcached", row["answered"])))
            word, lines = verdict(capture(1, pieces(0, sent)), outputs_of(replies([told])), loses=True)
            if word == "no":
                fail(f"the row {row['name']}", lines)


def counters_from_before():
    """A number from before a recording follows from counts that were not answered too, for tools/warm as well."""
    sent = capture(1, pieces(0, b"incr c 1 noreply\r\nincr c 3\r\n") + [segment(0, b"")])
    told = replies([b"104\r\n"])
    same("with --warm", "order found", verdict(sent, outputs_of(told), is_warm=True)[0])
    several = capture(3, [segment(0, b"incr c 5\r\n"), segment(1, b"decr c 1 noreply\r\n"), segment(2, b"incr c 1\r\n"),
                          segment(2, b""), segment(0, b""), segment(1, b"get c\r\n"), segment(1, b"")])
    counts = replies([b"106\r\n", b"VALUE c 0 3\r\n105\r\nEND\r\n", b"101\r\n"])
    with tempfile.TemporaryDirectory() as folder:
        for name, one, other in (("one client", sent, told), ("three clients", several, counts)):
            paths = written(folder, sent=one, answered=other)
            warmed = run("warm", paths["sent"], paths["answered"]).stdout
            same(f"the number is 100 for {name}", True, b" 3 noreply\r\n100\r\n" in warmed)
            same(f"after tools/warm, for {name}", "order found", verdict(warmed, outputs_of(other))[0])


class Padding(Memcached):
    """A server that makes a number anew now and then, without spaces, as memcached does if another client reads the old one."""

    def __init__(self, seed):
        super().__init__()
        self.draw = random.Random(seed)

    def answer(self, call):
        reply = super().answer(call)
        if reply.name == "number" and self.draw.random() < 0.3:
            item = self.items[call.key]
            self.items[call.key] = item._replace(value=item.value.rstrip(b" "))
        return reply


def pads_from_before():
    """A number from before a recording may have spaces after it, which only a later answer shows."""
    sent = capture(1, pieces(0, b"incr n 1\r\nincr n 1 noreply\r\nget n\r\ndecr n 7\r\n"))
    told = replies([b"7\r\nVALUE n 0 2\r\n8 \r\nEND\r\n1\r\n"])
    certified("which are cut off", files_of((sent, told), is_warm=True))
    kinds = "get gets setq cas incr decr incrq number delete"
    for seed in range(60):
        server = Padding(seed)
        Draw(seed, 4, 20, 2, 2, kinds, server=server).run()
        drawn = Draw(seed + 100, 4, 8, 2, 2, kinds, server=server).run()
        certified(f"items at first {seed}", files_of((drawn.capture(), drawn.replies()), is_warm=True))


def uniques_beside_counts():
    """A retrieval that overlaps an `incr` may show the CAS value after it with the number before it, and no other may."""
    for late, word in ((False, "unknown"), (True, "no")):
        steps = [(0, b"set n 0 0 3\r\n100\r\n"), (0, b""), (0, b"incr n 1\r\n"), (1, b"gets n\r\n"), (0, b""), (1, b""),
                 (2, b"gets n\r\n"), (2, b"")]
        if late:
            steps[3:5] = steps[4:2:-1]
        told = replies([b"STORED\r\n101\r\n", b"VALUE n 0 3 7\r\n100\r\nEND\r\n", b"VALUE n 0 3 7\r\n101\r\nEND\r\n"])
        sent = capture(3, [segment(connection, text) for connection, text in steps])
        same(f"late {late}", word, verdict(sent, outputs_of(told))[0])


def times_are_narrowed():
    """At the times of an order that was found, commands come one after the other, and all are answered."""
    kinds = "get gets set setq cas incr decr incrq number delete add"
    for seed in range(10):
        kinds += " mget" * (seed == 5)
        drawn = Draw(seed, 6, 20, 4, 3, kinds).run()
        judge = Judge(drawn.capture(), outputs_of(drawn.replies()))
        judge.run()
        given, told = b"".join(narrowing.narrowed(judge).pieces([b"ZYG"])).split(b"ZYG" * 2)
        records = read_capture(Part("capture", given)).records
        again = Judge(given, outputs_of(b"ZYG" + told))
        again.run()
        same(f"{seed}, the commands", len(judge.table.verb), len(again.table.verb))
        same(f"{seed}, which are answered", len(again.table.verb), sum(not record.text for record in records))
        if seed < 5:
            same(f"{seed}, one after the other", True, all(bool(one.text) == (at % 2 == 0) for at, one in enumerate(records)))
            same(f"{seed}, in the order", True, list(judge.places()) == list(again.places()))


def a_nul_is_warned_of():
    """Lines with a NUL are counted by the recorder, and values with one are not."""
    pace = Pace()
    pace.sent(b"set k 0 0 1\r\n\0\r\nget k\r\nget k\0\r\nge")
    pace.sent(b"t \0\r\n")
    same("lines with a NUL", 2, pace.nuls)


def flushes_are_kept_once():
    """Of many flushes only those count for a key that overlap its calls, and one between two of them."""
    flushes = [b"flush_all\r\n"] * 12
    sent = [*flushes, b"set x 0 0 1\r\n1\r\n", *flushes, b"get x\r\n", *flushes]
    told = b"OK\r\n" * 12 + b"STORED\r\n" + b"OK\r\n" * 12 + b"END\r\n" + b"OK\r\n" * 12
    records = [record for text in sent for record in (segment(0, text), segment(0, b""))]
    judge = Judge(capture(1, records), outputs_of(replies([told])))
    same("the calls on a key", 4, len(judge.keys.numbers(b"x")))
    judge.run()
    certified("many flushes", b"".join(judge.certificate().pieces()))


def keys_in_processes():
    """Two processes find what one does."""
    texts = recorded("pipelined")
    found = []
    for count in (1, 2):
        judge = Judge(texts[0], outputs_of(texts[1]), clock=Clock(3600))
        judge.search(count)
        found.append(judge.keys.found)
    same("the orders of keys", *found)


Tests = cases(recordings_keep_their_times, added_connections_keep_times, lies_about_time_are_refused,
              five_faults_are_all_named, swapped_values_are_told, losses_by_exptime_are_counted, a_loss_that_another_key_shows,
              what_memcached_reads_otherwise_is_no_fault, no_row_of_memcached_is_refused, counters_from_before, pads_from_before,
              uniques_beside_counts, times_are_narrowed, a_nul_is_warned_of, flushes_are_kept_once, keys_in_processes)
