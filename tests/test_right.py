"""Tests that tools/judge accuses no right server: small recordings of what a memcached, or a proxy before it, may do.

A history is a list of steps: a connection, what it sends, and what it is answered. Its next step comes after that.
"""
import json
import os
import pty
import subprocess
import tempfile
from collections import Counter
from unittest import mock

import moments
import plain
from checks import LONGEST, TOP, cases, run, same, written
from lies import outputs_of, verdict
from thought import Draw, Memcached
from zygos_tools.files.formats import Output, capture, close, pieces, replies, replies_file, segment
from zygos_tools.judging import clock
from zygos_tools.judging.clock import Clock
from zygos_tools.judging.events import Verdict
from zygos_tools.judging.judge import Judge
from zygos_tools.protocol.answers import answers
from zygos_tools.protocol.pace import Pace
from zygos_tools.protocol.rules import Item


def recorded(steps):
    """The files of a history, with the ends of its answers."""
    records, told = [], {}
    for connection, sent, answer in steps:
        records += [*pieces(connection, sent), *[segment(connection, b"")] * bool(answer)]
        told[connection] = told.get(connection, b"") + answer
    count = max(told) + 1
    return capture(count, records), replies([told.get(connection, b"") for connection in range(count)])


def judged(steps, **more):
    """The verdict on a history, its lines, and what is translated; an order is certified by the plain checkers."""
    sent, told = recorded(steps)
    judge = None
    try:
        judge = Judge(sent, outputs_of(told), clock=Clock(60), is_first=False, **more)
        judge.search()
        if judge.faults:
            raise judge.worst()
        judge.merge()
        made = judge.certificate()
    except Verdict as said:
        return said.word, said.told(), judge
    files = b"".join(made.pieces())
    same("the check", (0, b"yes\n", b""), plain.answer(files, more.get("shards", 16)))
    same("the times", "yes", moments.line_of(files).split()[0])
    return "order found", {name: count for name, count in made.counts.items() if count}, judge


def stored(key, value, flags=0):
    return b"set %s %d 0 %d\r\n%s\r\n" % (key, flags, len(value), value), b"STORED\r\n"


def hit(key, value, unique=None, flags=0):
    mark = b"" if unique is None else b" %d" % unique
    return b"VALUE %s %d %d%s\r\n%s\r\nEND\r\n" % (key, flags, len(value), mark, value)


# ---- uniques

ONE, TWO, LOOK, GONE = (0, *stored(b"a", b"1")), (0, *stored(b"a", b"2")), b"gets a\r\n", (0, b"get a\r\n", b"END\r\n")


def uniques_after_a_restart():
    """A server that was started again counts its uniques from 1."""
    before, after = [ONE] * 5 + [(0, LOOK, hit(b"a", b"1", 5))], [TWO, (0, LOOK, hit(b"a", b"2", 1))]
    for shards in (1, 16):
        for name, steps in (("a miss shows it", [*before, GONE, *after]), ("nothing shows it", before + after)):
            word, counts, _ = judged(steps, loses=True, shards=shards)
            same(f"{name}, on {shards} shards", ("order found", name == "a miss shows it"),
                 (word, "losses of items" in counts))
    same("without a loss", "order found", judged(before + after)[0])
    again = [ONE, (0, LOOK, hit(b"a", b"1", 1)), TWO, (0, LOOK, hit(b"a", b"2", 1))]
    same("the same unique", "order found", judged(again, loses=True)[0])
    deleted = [*again[:2], (0, b"delete a\r\n", b"DELETED\r\n"), *again[2:]]
    word, counts, _ = judged(deleted, loses=True)
    same("the same unique, of an item that was deleted", ("order found", 1),
         (word, counts["uniques begun anew without a loss"]))
    cas = (0, b"cas a 0 0 1 1\r\n3\r\n", b"STORED\r\n")
    same("a cas with a unique from before", "order found", judged([*again[:3], cas, (0, b"get a\r\n", hit(b"a", b"3"))],
                                                                  loses=True)[0])


def uniques_that_do_not_count():
    """The uniques of a server need not rise, but two items have two."""
    first = (0, b"set a 0 0 1 noreply\r\n1\r\nset a 0 0 1 noreply\r\n2\r\n", b"")
    for seen in ((6, 5), (5, 6)):
        steps = [first, (0, LOOK, hit(b"a", b"2", seen[0])), (1, *stored(b"a", b"3")), (1, LOOK, hit(b"a", b"3", seen[1]))]
        for more in ({}, {"loses": True}, {"is_warm": True}, {"shards": 1}):
            same(f"{seen}, {more}", "order found", judged(steps, **more)[0])
    twice = [ONE, (0, LOOK, hit(b"a", b"1", 7)), TWO, (0, LOOK, hit(b"a", b"2", 7))]
    same("one unique of two items", "no", judged(twice)[0])
    warm = [(0, LOOK, hit(b"a", b"1", 50)), TWO, (0, LOOK, hit(b"a", b"2", 5))]
    same("from an item that was there", "order found", judged(warm, is_warm=True)[0])
    none = [ONE, (0, LOOK, hit(b"a", b"1", 0)), TWO, (0, LOOK, hit(b"a", b"2", 0))]
    same("a server without uniques", "order found", judged(none)[0])


# ---- items that were there before

# answers to an edit of which a server with another item at first, or another order, may give
OTHERS = {b"STORED\r\n": b"NOT_STORED\r\n", b"NOT_STORED\r\n": b"STORED\r\n", b"EXISTS\r\n": b"NOT_FOUND\r\n",
          b"DELETED\r\n": b"NOT_FOUND\r\n", b"END\r\n": hit(b"key:0", b"5")}


def items_that_were_not_shown():
    """What answers say of an item that was there before is kept, also if none shows it."""
    joined, there = (0, b"append a 0 0 1\r\nx\r\n", b"STORED\r\n"), (0, b"add a 0 0 1\r\n1\r\n", b"NOT_STORED\r\n")
    counted, word = (0, b"incr a 1\r\n", b"5\r\n"), (0, b"incr a 1\r\n", b"CLIENT_ERROR cannot increment or decrement non-numeric value\r\n")
    deleted, missing = (0, b"delete a\r\n", b"DELETED\r\n"), (0, b"delete a\r\n", b"NOT_FOUND\r\n")
    for steps, wanted in (([joined, GONE], "unknown"), ([there, GONE], "unknown"), ([joined, counted], "no"), ([word, counted], "no"),
                          ([word, (0, b"get a\r\n", hit(b"a", b"7"))], "no"), ([there, missing], "unknown"),
                          ([word, missing], "unknown"), ([there, word, joined, deleted], "order found"),
                          ([there, counted], "order found"), ([word, joined, word], "order found"),
                          ([there, (0, b"append a 0 0 1\r\nx\r\n", b"NOT_STORED\r\n")], "unknown")):
        same(f"{steps}", wanted, judged(steps, is_warm=True)[0])
        if wanted == "no" or steps[-1] in (GONE, missing):  # the item may have had an exptime
            same(f"{steps}, if items may be lost", "order found" if steps[-1] in (GONE, missing) else "no",
                 judged(steps, is_warm=True, loses=True)[0])


def items_before_drawn_recordings():
    """Small recordings of a server that had an item: there is an order, and with another answer an order or none."""
    kinds = "get get gets set set setq add delete cas incr incrq decr append prepend number mg ms"
    counts = Counter()
    for seed in range(120):
        server = Memcached()
        server.stored, server.items[b"key:0"] = 1, Item(*((0, b"5"), (2, b"x"), (1, b"9"))[seed % 3], 1)
        drawn = Draw(seed, 2 + seed % 2, 2 + seed % 3, 1, 1 + seed % 2, kinds, server=server).run()
        same(f"seed {seed}", "order found", verdict(drawn.capture(), outputs_of(drawn.replies()), is_warm=True)[0])
        connection = max(range(len(drawn.outputs)), key=lambda one: len(drawn.outputs[one]))
        texts = list(answers(drawn.outputs[connection]))
        at = next((at for at, text in enumerate(texts) if text in OTHERS), None)
        if at is not None:
            texts[at] = OTHERS[texts[at]]
            drawn.outputs[connection] = b"".join(texts)
            word, lines = verdict(drawn.capture(), outputs_of(drawn.replies()), is_warm=True)
            counts[word if word != "unknown" else lines[0].partition(": an item ")[2].partition(";")[0]] += 1
    same("with another answer", {"no", "order found", "of nearly 1 MiB may have been there at first, to which nothing could"
                                 " be joined", "that was there at first may have had an exptime: --may-forget allows losses"}, set(counts))


# ---- meta commands that the profile leaves out


def a_block_that_is_dropped():
    """A faulty `ms` has a block, also if memcached drops it; what its session answers later is not accused."""
    shown, gone = hit(b"b", b"1"), b"END\r\n"
    later = [(1, b"get m\r\n", gone), (1, b"get b\r\n", shown), (1, b"get m\r\n", gone), (1, b"get b\r\n", shown)]
    bad = b"CLIENT_ERROR invalid flag\r\n"
    for flags, answer, wanted in ((b"c", b"HD c2\r\n", "unknown"), (b"O5", b"HD O5\r\n", "unknown"),
                                  (b"I", b"HD\r\n", "unknown"), (b"MA N30", b"NS\r\n", "unknown"),
                                  (b"\x7f", bad, "order found")):
        sent = b"ms a 1 %s\r\nx\r\n" % flags
        word, lines, judge = judged([(0, *stored(b"b", b"1")), (1, sent, answer), *later])
        same(f"the flags {flags!r}", wanted, word)
        same(f"the keys that have an order with {flags!r}", [b"b", b"m"], sorted(judge.keys.found))
        same(f"what is said of {flags!r}", wanted == "unknown", wanted == "unknown" and lines[0] ==
             "unknown: commands that the profile leaves out: ms (1); --except-keys 'a' leaves out their keys")
        if wanted == "unknown":
            more = {"is_chosen": lambda key: key != b"a"}
            same(f"without the key, with {flags!r}", "order found", judged([(0, *stored(b"b", b"1")), (1, sent, answer), *later], **more)[0])
    base64 = [(0, b"ms YQ== 1 b\r\nx\r\n", b"HD\r\n"), (1, b"get a\r\n", hit(b"a", b"x"))]
    same("a key in base64", "unknown", judged(base64)[0])
    lines_in_block = [(0, *stored(b"b", b"1")), (1, b"ms a 10 ?\r\ndelete b\r\n\r\n", bad + b"DELETED\r\n"),
                      (0, b"get b\r\n", gone)]
    same("a server that reads the block as lines", "unknown", judged(lines_in_block)[0])


def batches_that_cannot_be_followed():
    """A session whose answers are not known is unknown, and the others are judged."""
    hidden = (1, b"mg a v q\r\nmg b v q\r\nmn\r\n", b"VA 1\r\n1\r\nMN\r\n")
    word, lines, judge = judged([ONE, hidden, (2, b"get a\r\n", hit(b"a", b"1"))])
    same("a batch without keys in its answers", ("unknown", "unknown: a command with the flag q and without k"),
         (word, lines[0][:48]))
    same("the keys that have an order", [b"a"], sorted(judge.keys.found))
    lied = judged([ONE, hidden, (2, b"get a\r\n", hit(b"a", b"2"))])
    same("another session's lie", "no", lied[0])
    same("the words that leave it out", "; --except-keys 'a b' leaves out its keys", lines[0][-41:])
    other = [ONE, hidden, (0, *stored(b"c", b"1")), (1, b"get c\r\n", hit(b"c", b"1"))]
    for left_out in (b"a", b"ab"):
        more = {"is_chosen": lambda key, left_out=left_out: key not in left_out}
        word, counts, _ = judged(other[:3], **more)
        same(f"without {left_out!r}", ("order found", 3) if left_out == b"ab" else ("unknown", 0),
             (word, counts["commands that cannot be followed left out"] if word == "order found" else 0))
        same(f"without {left_out!r}, and another key in this session", "unknown", judged(other, **more)[0])


def what_is_unknown_names_commands():
    """What is said of a key that is unknown has the command that makes it so, and the words that leave the key out."""
    nul = (1, b"get a\0\r\n", hit(b"a", b"2"))
    same("a line with a NUL", ["unknown: key a: a line has a NUL, where memcached ends it and another server may not;"
                               " --except-keys 'a' leaves it out"], judged([ONE, nul])[1])
    quiet = [ONE, (0, b"set a 0 0 1 noreply\r\n2\r\n", b""), (0, b"get a\r\n", hit(b"a", b"1"))]
    lines = judged(quiet, loses=True)[1]
    same("a store without an answer", ["unknown: key a: a command with noreply may have failed, as the server may lack memory;"
                                       " --except-keys 'a' leaves it out", "  connection 0, command 1, sent 2, ended by 4:"
                                       " set a 0 0 1 noreply -> no answer"], lines)


# ---- retrievals


def items_in_any_order():
    """A proxy before several servers shows the items of a get in the order in which they come."""
    steps = [ONE, (0, *stored(b"b", b"2"))]
    item, other = hit(b"a", b"1")[:-5], hit(b"b", b"2")
    word, counts, _ = judged([*steps, (1, b"get a b\r\n", other[:-5] + item + b"END\r\n")])
    same("two items", ("order found", {"items in another order": 1}), (word, counts))
    named = [*steps, (1, b"gets b a b\r\n", hit(b"a", b"1", 1)[:-5] + hit(b"b", b"2", 2)[:-5] + hit(b"b", b"2", 2))]
    same("a key twice", "order found", judged(named)[0])
    same("a key that was not asked for", "no", judged([*steps, (1, b"get a c\r\n", other[:-5] + item + b"END\r\n")])[0])
    same("an item too many", "no", judged([*steps, (1, b"get a b\r\n", item + item + other)])[0])


# ---- commands of operators

LISTS = (
    (b"stats cachedump 1 3", b"ITEM k [1 b; 0 s]\r\nEND\r\n"),
    (b"stats cachedump 1 3", b"ITEM a [1 b; 0 s]\r\nITEM b [1 b; 0 s]\r\nEND\r\n"),
    (b"stats detail dump", b"PREFIX a get 1 hit 0 set 1 del 0\r\nEND\r\n"), (b"stats detail on", b"OK\r\n"),
    (b"stats items", b"STAT items:1:number 1\r\nEND\r\n"), (b"stats reset", b"RESET\r\n"),
    (b"lru_crawler metadump all", b"key=k exp=-1 la=0 cas=1 fetch=no cls=1 size=63\nkey=l exp=0\nEND\r\n"),
    (b"lru_crawler mgdump all", b"mg k\r\nmg l\r\nEN\r\n"), (b"lru_crawler metadump all", b"BUSY currently processing\r\n"),
    (b"slabs automove 0", b"OK\r\n"), (b"lru mode flat", b"OK\r\n"), (b"cache_memlimit 100", b"OK\r\n"),
    (b"stats sizes_enable", b"STAT sizes_status enabled\r\n"),
    (b"stats sizes_enable", b"STAT sizes_status error\r\nSTAT sizes_error no_memory\r\n"),
    (b"stats sizes", b"STAT sizes_status disabled\r\nEND\r\n"), (b"refresh_certs", b"Error TLS not enabled\r\n"),
    (b"shutdown", b"ERROR: shutdown not enabled\r\n"), (b"gat 0", b"END\r\n"),
    (b"me k", b"EN\r\n"), (b"slabs reassign 1 2", b"NOTFULL source class has no spare page\r\n"),
)


def lists_of_operators():
    """Commands that touch no item are left out, with the whole of their answers."""
    for line, answer in LISTS:
        steps = [(0, line + b"\r\n", answer), (0, b"get k\r\n", b"END\r\n"), (0, *stored(b"k", b"x")),
                 (0, b"get k\r\n", hit(b"k", b"x"))]
        name = f"{line.split()[0].decode()} left out"
        same(f"{line!r}", ("order found", {name: 1}), judged(steps)[:2])
        pace = Pace()
        same(f"{line!r}, as the recorder counts", (1, 1), (pace.sent(line + b"\r\n"), pace.heard(answer)))
    watched = [(0, b"watch mutations\r\n", b"OK\r\n"), (1, *stored(b"k", b"x")), (0, b"", b"ts=1.1 gid=1 type=item_store key=k\r\n"),
               (1, b"get k\r\n", hit(b"k", b"x"))]
    same("a log", ("order found", {"watch left out": 1}), judged(watched)[:2])
    word, _, judge = judged([*watched, (0, b"get k\r\n", hit(b"k", b"x"))])
    same("a log, and a get", ("unknown", [b"k"]), (word, sorted(judge.keys.found)))


def a_list_without_an_end():
    """`stats sizes_disable` is answered without an END, as no other list is, and what follows it is not accused."""
    lines = [(1, b"stats sizes_disable\r\nget a\r\nget b\r\n", b"STAT sizes_status disabled\r\n" + hit(b"a", b"1") + b"END\r\n"), ONE]
    same("its session is unknown", "unknown", judged([ONE, *lines, (0, b"get a\r\n", hit(b"a", b"1"))])[0])


def answers_that_are_left():
    """Answers to no command make their session unknown if it has a line that the profile leaves out."""
    odd = [(0, b"foo\r\n", b"LINE one\r\nLINE two\r\nEND\r\n"), (1, *stored(b"a", b"1")), (1, b"get a\r\n", hit(b"a", b"1"))]
    word, _, judge = judged(odd)
    same("an unknown list", ("unknown", [b"a"]), (word, sorted(judge.keys.found)))
    surplus = [(0, b"get a\r\n", b"END\r\nEND\r\n"), (1, *stored(b"a", b"1"))]
    same("an answer too many", "no", judged(surplus)[0])


def flushes_with_a_delay():
    """A delayed `flush_all` may take items away after it."""
    steps = [(0, b"get a\r\n", b"END\r\n"), ONE, (0, b"flush_all 1\r\n", b"OK\r\n")]
    word, lines, _ = judged([*steps, GONE])
    same("an item that it took", ("unknown", "`flush_all 1`: --may-forget allows losses"), (word, lines[0][-41:]))
    same("the same with --may-forget", "order found", judged([*steps, GONE], loses=True)[0])
    same("an item that is there", "order found", judged([*steps, (0, b"get a\r\n", hit(b"a", b"1"))])[0])
    same("another value", "no", judged([*steps, (0, b"get a\r\n", hit(b"a", b"7"))])[0])
    same("an item that was gone before it", "no", judged([ONE, GONE, (0, b"flush_all 1\r\n", b"OK\r\n")])[0])
    quiet = [ONE, (0, b"flush_all 1 noreply\r\n", b""), GONE]
    same("with noreply", "unknown", judged(quiet)[0])
    refused = [ONE, (0, b"flush_all 1\r\n", b"CLIENT_ERROR bad command line format\r\n"), GONE]
    same("a server that refuses it", "no", judged(refused)[0])


def items_from_before_that_expire():
    """An item that was there before the recording may have had an exptime."""
    there, other = (0, b"get a\r\n", hit(b"a", b"1")), (0, *stored(b"b", b"1"))
    again = (0, b"append a 0 0 1\r\n1\r\n", b"STORED\r\n")
    said = "an item that was there at first may have had an exptime: --may-forget allows losses"
    for name, steps, wanted in (
            ("it goes", [there, GONE], "unknown"), ("it goes, and is stored", [there, GONE, ONE, there], "unknown"),
            ("it is joined to, and goes", [there, again, GONE], "unknown"), ("it goes twice", [there, GONE, there], "no"),
            ("it is stored anew, and goes", [there, ONE, GONE], "no"), ("another value", [there, (0, b"get a\r\n", hit(b"a", b"2"))], "no"),
            ("it goes while it is stored", [there, TWO, (0, b"get a\r\n", hit(b"a", b"1"))], "no"),
            ("it stays", [there, other, there], "order found")):
        word, lines, _ = judged(steps, is_warm=True)
        same(name, (wanted, wanted == "unknown"), (word, wanted == "unknown" and said in lines[0]))
    same("from an empty store", "no", judged([ONE, GONE])[0])
    same("with --may-forget", "order found", judged([there, GONE], is_warm=True, loses=True)[0])


# ---- connections that are not served


def connections_that_are_refused():
    """Beyond its most connections, memcached says so to a client that sent nothing, or whatever."""
    line = b"ERROR Too many open connections\r\n"
    for name, step in (("nothing", (1, b"", line)), ("a set", (1, b"set a 0 0 1\r\n2\r\n", line)),
                       ("two gets", (1, b"get a\r\nget b\r\n", line))):
        word, counts, _ = judged([ONE, step, (0, b"get a\r\n", hit(b"a", b"1"))])
        same(f"a client that sent {name}", ("order found", 1), (word, len(counts)))


def authentications():
    """The first `set` of a session may be a user and a password."""
    enter = (0, *stored(b"auth", b"user pass"))
    word, counts, _ = judged([enter, (1, *enter[1:]), ONE, (1, b"get auth\r\n", b"END\r\n"), (1, b"get a\r\n", hit(b"a", b"1"))])
    same("all sessions begin so", ("order found", {"authentications left out": 2}), (word, counts))
    word, lines, _ = judged([enter, ONE, (1, b"get auth\r\n", b"END\r\n")])
    same("one session does", ("unknown", True), (word, "(-Y)" in lines[0]))
    same("a set that is one", "order found", judged([enter, (0, b"get auth\r\n", hit(b"auth", b"user pass"))])[0])
    line, wrong = b"CLIENT_ERROR unauthenticated\r\n", b"CLIENT_ERROR authentication failure\r\n"
    nobody = [(1, b"get a\r\nadd a 0 0 1\r\nx\r\n", line * 3), (1, b"set auth 0 0 9\r\nuser wrng\r\n", wrong)]
    word, counts, _ = judged([enter, ONE, *nobody, (0, b"get auth\r\n", b"END\r\n"), (0, b"get a\r\n", hit(b"a", b"1"))])
    same("a session without one", ("order found", {"authentications left out": 1, "commands of connections without an"
                                                   " authentication left out": 3}), (word, counts))
    word, _, judge = judged([enter, ONE, *nobody, (1, *enter[1:]), (1, b"get a\r\n", hit(b"a", b"1")), (2, *enter[1:]),
                             (2, b"get a\r\n", hit(b"a", b"1"))])
    same("one that comes late", ("unknown", True), (word, b"a" in judge.keys.found))


# ---- calls that fail

FAILED = b"SERVER_ERROR object too large for cache\r\n"


def stores_that_fail():
    """A store that failed stored nothing, and the older item may be gone."""
    kept, there, new = (0, b"get a\r\n", hit(b"a", b"1")), b"END\r\n", b"set a 0 0 1\r\n2\r\n"
    for size in (1, 1 << 20, (1 << 20) + 1):
        large = b"set a 0 0 %d\r\n%s\r\n" % (size, b"x" * size)
        for answer in (FAILED, b"SERVER_ERROR out of memory storing object\r\n", b"SERVER_ERROR Out of memory during read\r\n"):
            name = f"{size} bytes, {answer!r}"
            same(f"the item is there, {name}", "order found", judged([ONE, (0, large, answer), kept])[0])
            word, counts, _ = judged([ONE, (0, large, answer), GONE])
            same(f"the item is gone, {name}", ("order found", 1), (word, counts["items that a failed command removed"]))
            same(f"there was none, {name}", "order found", judged([(0, large, answer), GONE])[0])
            same(f"it was stored, {name}", "no", judged([(0, large, answer), (0, b"get a\r\n", hit(b"a", b"x" * size))])[0])
            back = [ONE, (0, large, answer), GONE, kept]
            same(f"it comes back, {name}", "no", judged(back)[0])
    for line in (b"append a 0 0 1\r\n2\r\n", b"incr a 1\r\n", b"cas a 0 0 1 7\r\n2\r\n", b"ms a 1 MP\r\n2\r\n"):
        same(f"{line!r}", "order found", judged([ONE, (0, line, b"SERVER_ERROR out of memory\r\n"), kept])[0])
        same(f"{line!r}, gone", "order found", judged([ONE, (0, line, b"SERVER_ERROR out of memory\r\n"), GONE])[0])
    proxy = b"SERVER_ERROR Connection timed out\r\n"
    for answer in (hit(b"a", b"1"), hit(b"a", b"2")):
        same(f"a proxy, {answer!r}", "order found", judged([ONE, (0, new, proxy), (0, b"get a\r\n", answer)])[0])
        same(f"a proxy, {answer!r}", "order found", judged([ONE, (0, b"get a\r\n", proxy), (0, new, proxy), (1, b"get a\r\n", answer)])[0])
    same("a proxy, and a value of nobody", "no", judged([ONE, (0, new, proxy), (0, b"get a\r\n", hit(b"a", b"3"))])[0])
    several = [ONE, (1, b"get a\r\n", hit(b"a", b"1")), (0, new, FAILED), (1, b"get a\r\n", there), (2, new, b"STORED\r\n"),
               (1, b"get a\r\n", hit(b"a", b"2"))]
    for more in ({}, {"loses": True}, {"is_warm": True}, {"shards": 1}):
        same(f"several, {more}", "order found", judged(several, **more)[0])


def stores_that_fail_early():
    """A memcached refuses a store when its line has come, and removes the older item before the block has come."""
    line, block = b"set a 0 0 1048576\r\n", b"x" * (1 << 20) + b"\r\n"
    for told, wanted in ((b"END\r\n", "unknown"), (hit(b"a", b"1"), "order found"), (hit(b"a", b"2"), "no")):
        records = [segment(0, ONE[1]), segment(0, b""), *pieces(1, line + block[:100]), segment(2, b"get a\r\n"), segment(2, b""),
                   *pieces(1, block[100:]), segment(1, b"")]
        word, lines = verdict(capture(3, records), outputs_of(replies([b"STORED\r\n", FAILED, told])))
        same(f"{told!r}", wanted, word)
        if wanted == "unknown":
            same("what is said", ["unknown: key a: a store that failed may have removed the older item before it had come whole;"
                                  " --except-keys 'a' leaves it out", True], [lines[0], lines[1].startswith("  connection 1, ")])
    before = [segment(0, ONE[1]), segment(0, b""), segment(2, b"get a\r\n"), segment(2, b""), *pieces(1, line + block), segment(1, b"")]
    same("before its line", "no", verdict(capture(3, before), outputs_of(replies([b"STORED\r\n", FAILED, b"END\r\n"])))[0])


def quiet_stores_that_may_fail():
    """With noreply nobody is told that a store failed."""
    large = b"set a 0 0 1040000 noreply\r\n%s\r\n" % bytes(1040000)
    kept = (0, b"get a\r\n", hit(b"a", b"1"))
    for after in (kept, GONE):
        same("a large value", "unknown", judged([ONE, (0, large, b""), after])[0])
    quiet = (0, b"set a 0 0 1 noreply\r\n2\r\n", b"")
    same("a small value", "no", judged([ONE, quiet, kept])[0])
    same("a small value, with --may-forget", "unknown", judged([ONE, quiet, kept], loses=True)[0])


def lines_that_may_be_carried_out():
    """A faulty line that had no error may have been carried out, and its block read as memcached reads it."""
    quiet = b"set a 0 +5 1 noreply\r\n2\r\n"
    steps = [ONE, (1, *stored(b"b", b"1")), (0, quiet, b""), (0, b"get b\r\n", hit(b"b", b"1")), (0, b"get a\r\n", hit(b"a", b"2"))]
    word, _, judge = judged(steps)
    same("a block after a faulty line", "unknown", word)
    same("an incr with a sign", "unknown", judged([ONE, (0, b"incr a +5 noreply\r\n", b""), (0, b"get a\r\n", hit(b"a", b"6"))])[0])
    same("one that was answered", "unknown", judged([ONE, (0, b"incr a +5\r\n", b"6\r\n"), (0, b"get a\r\n", hit(b"a", b"6"))])[0])


def commands_of_sessions_that_ended():
    """A server may read what a client sent after the client has gone, and another one has come."""
    late = b"set a 0 0 1 noreply\r\n1\r\n"
    told = replies_file(2, [Output(0, 0, b""), Output(0, 1, b"END\r\n"), Output(1, 0, hit(b"a", b"1"))])
    sent = capture(2, [segment(0, late), close(0), segment(0, b"get a\r\n"), segment(0, b""), segment(1, b"get a\r\n"),
                       segment(1, b"")], 2)
    same("a set that comes late", "unknown", verdict(sent, outputs_of(told))[0])


# ---- what is said


def words(*given, **texts):
    """The status of the tool with these words, and its first line; files are named by their texts."""
    with tempfile.TemporaryDirectory() as folder:
        paths = written(folder, **texts)
        ran = run("judge", *[paths.get(word, word) for word in given])
    said = (ran.stdout or ran.stderr).decode()
    return ran.returncode, said.split("\n")[0].replace(folder + "/", "")


def no_key_is_left():
    """Patterns that match no key give no verdict."""
    sent, told = recorded([ONE, GONE])
    for given, line in ((("--keys", "zzz*"), "no key matches zzz*"), (("--except-keys", "*"), "no key is left by --except-keys *")):
        same(f"{given}", (7, f"unknown: {line}"), words(*given, "--out", os.devnull, "sent", "told", sent=sent, told=told))
    status, line = words("--json", "--keys", "zzz*", "sent", "told", sent=sent, told=told)
    same("as JSON", (7, "unknown"), (status, json.loads(line)["verdict"]))
    same("a no", 1, words("--out", os.devnull, "sent", "told", sent=sent, told=told)[0])


def files_that_are_none():
    """A file that is none of the two is named after its first bytes, with a status of its own."""
    sent, told = recorded([ONE])
    zipped = b"\x1f\x8b\x08" + bytes(100)
    for name, given, line in (("gzip", (zipped, told), "sent: this is a compressed file; decompress it first"),
                              ("nothing", (b"", told), "sent: this is an empty file; nothing was recorded into it, or the recorder was"
                               " killed"), ("no replies", (sent, b""), "told: this is an empty file; nothing was recorded into it, or"
                                            " the recorder was killed"), ("swapped", (told, sent), "sent: this is a replies file; the"
                                                                          " capture comes first")):
        same(name, (3, f"tools/judge: {line}"), words("--out", os.devnull, "sent", "told", sent=given[0], told=given[1]))
    with tempfile.TemporaryDirectory() as folder:
        name = os.path.join(folder, "large")
        with open(name, "wb") as file:
            file.write(b"ZYGCAP1\n\0\0\0\1")
            file.truncate(1 << 36)
        same("a wrong byte early in a large file", (3, f"tools/judge: {name}: capture: bad-tag at 12 byte 0"), words(name, "x"))


def at_a_terminal():
    """At a terminal there is a verdict, and no file."""
    sent, told = recorded([ONE])
    with tempfile.TemporaryDirectory() as folder:
        paths = written(folder, sent=sent, told=told)
        above, below = pty.openpty()
        with subprocess.Popen([os.path.join(TOP, "tools", "judge"), "--keys", "*", paths["sent"], paths["told"]], stdout=below,
                              stderr=below) as tool:
            status = tool.wait(LONGEST)
        os.close(below)
        shown = os.read(above, 10000).decode().split("\r\n")
        os.close(above)
    same("the lines", (0, "order found, by search: 1 commands, 1 calls, 1 keys", "not certified: "), (status, shown[0], shown[2][:15]))


def hot_keys_hold_nobody_up():
    """A key that takes long has its share of the time, and all others are judged; the last line counts all kinds."""
    steps = [(0, *stored(b"a", b"1")), (0, *stored(b"b", b"1")), (0, b"get b\r\n", hit(b"b", b"7")), (0, *stored(b"c", b"1"))]
    sent, told = recorded(steps)
    judge = Judge(sent, outputs_of(told), clock=Clock(60), is_first=False)
    begun = judge.keys.order_of

    def order_of(calls, found=None):
        while b"a" in calls.names:
            judge.clock.look()
        return begun(calls, found)

    judge.keys.order_of = order_of
    with mock.patch.object(clock, "FIRST", 0.01):
        judge.clock.seconds = judge.clock.used() + 0.2
        judge.search()
    same("what is said of each key", {b"a": "unknown", b"b": "no"}, {fault.keys[0]: fault.word for fault in judge.faults})
    same("the keys that have an order", [b"c"], sorted(judge.keys.found))
    status, _ = words("--out", os.devnull, "sent", "told", sent=sent, told=told)
    same("the status", 1, status)


def flags_are_told():
    """A value that was stored with other flags says so."""
    told = judged([(0, *stored(b"a", b"4.17", 5)), (0, b"get a\r\n", hit(b"a", b"4.17"))])[1]
    same("what was read", "get a -> '4.17' with flags 0", told[1].split(": ", 1)[1])
    same("where it was stored", "  the same value is stored with flags 5, by connection 0, command 0", told[2][:67])


Tests = cases(uniques_after_a_restart, uniques_that_do_not_count, items_that_were_not_shown, items_before_drawn_recordings,
              a_block_that_is_dropped, batches_that_cannot_be_followed, what_is_unknown_names_commands,
              items_in_any_order, lists_of_operators, a_list_without_an_end, answers_that_are_left, flushes_with_a_delay, items_from_before_that_expire, connections_that_are_refused,
              authentications, stores_that_fail, stores_that_fail_early, quiet_stores_that_may_fail, lines_that_may_be_carried_out, commands_of_sessions_that_ended,
              no_key_is_left, files_that_are_none, at_a_terminal, flags_are_told, hot_keys_hold_nobody_up)
