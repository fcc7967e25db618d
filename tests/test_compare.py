"""Tests tools/compare: which differences it prints, and what it says of where they come from."""
import os
import random
import resource
import tempfile
import unittest

from checks import TOP, cases, fail, prints, run, same, says, written
import drawn
import plain
from zygos_tools.comparing.apart import Callers
from zygos_tools.comparing.causes import Causes
from zygos_tools.comparing.ahead import MOVES, MOVES_OF_ANSWERS, PAIRED
from zygos_tools.comparing.steps import BOTH, ENDED, LEFT, Steps, by_answers, by_commands
from zygos_tools.files.formats import capture, close, journal, pieces, read_capture, replies, segment, sessions
from zygos_tools.files.part import Part
from zygos_tools.protocol.answers import answers
from zygos_tools.protocol.meaning import commands_of
from zygos_tools.protocol.model import Shard, calls, text_of

FIRST = os.path.join(TOP, "examples/first.replies")
ITEM, OTHER = b"VALUE a 0 1\r\nx\r\nEND\r\n", b"VALUE a 0 1\r\ny\r\nEND\r\n"
SERVERS = (": of the servers, if both began with the same items and no client bypassed the recorder: no order of connections"
           " explains it (the last section of docs/PROFILE.md)")
BEFORE = (": items that the capture does not store: from before it, of others, or of requests that were lost; tools/warm puts"
          " them into it")
UNIQUES = ": a `cas` names a unique, which is each server's own, and what follows from it; tools/inline translates them"
LOST = (": items that were lost where it was recorded, though no command removed them: evicted, or removed by a client that"
        " was not recorded; tools/judge --may-forget")
OWN = ": what each server says of itself; --except leaves it out"
EXPIRY = ": items with an exptime, which may have passed on one side; in zygos exptimes have no effect"
REFUSED = ": lines that zygos does not serve (docs/PROFILE.md), and what follows from them"
PADDED = ": a number became shorter, and memcached pads it with spaces, and what follows from it"
AFTER = "; tools/inline takes the order of arrival; what is left after it: tools/judge --warm --may-forget"
ORDER = (": of the order in which connections are served, for {}; near that of arrival, which tools/inline takes, zygos answers as"
         " recorded")
TIMES = (": may come of the order in which the server took commands that came at one time, for {}; tools/judge --warm"
         " --may-forget looks for one")
STEP = "  out of step from here by one answer; those after it are compared in step again"


def missing(answers, sessions, file):
    """The line of answers that only the other file has."""
    return (f"{answers} answer{'s' * (answers > 1)} at the end of {sessions} session{'s' * (sessions > 1)}: not in {file},"
            " so not recorded, or its server or client ended there")


def compared(one, other, *words, sent=None):
    """The status, and the lines that are printed of two files and a capture."""
    with tempfile.TemporaryDirectory() as folder:
        paths = written(folder, a=one, b=other, sent=sent or b"")
        more = ("--capture", paths["sent"], "--seconds", "3600") if sent else ()
        ran = run("compare", *more, *words, paths["a"], paths["b"])
    return ran.returncode, (ran.stdout + ran.stderr).decode().replace(folder + "/", "").rstrip("\n").split("\n")


def differ(name, one, other, *lines, words=(), sent=None):
    same(name, (1, list(lines)), compared(one, other, *words, sent=sent))


def first_differences():
    differ("another item", replies([b"OK\r\n" + ITEM]), replies([b"OK\r\n" + OTHER]), "connection 0, session 0, answer 1",
           r"  a: VALUE a 0 1\x0d\x0ax\x0d\x0aEND", r"  b: VALUE a 0 1\x0d\x0ay\x0d\x0aEND")
    differ("an answer more", replies([b"OK\r\n"]), replies([b"OK\r\nOK\r\n"]), "connection 0, session 0, answer 1",
           "  a: ends here, with 1 answer missing", "  b: OK", missing(1, 1, "a"))
    differ("another session", sessions([[b"OK\r\n", b"A\r\n"]]), sessions([[b"OK\r\n", b"B\r\n"]]),
           "connection 0, session 1, answer 0", "  a: A", "  b: B")
    differ("an output more", replies([b"OK\r\n"]), replies([b"OK\r\n", b"OK\r\n"]), "connection 1, session 0",
           "  a: no output", "  b: 4 bytes",
           "not of the same traffic: a has 1 connection and 1 session; b has 2 connections and 2 sessions")
    differ("a session more", sessions([[b"A\r\n"], [b""]]), sessions([[b"A\r\n", b"B\r\n"], [b""]]),
           "connection 0, session 1", "  a: no output", "  b: 3 bytes",
           "not of the same traffic: a has 2 connections and 2 sessions; b has 2 connections and 3 sessions")
    differ("sessions of other connections", sessions([[b"", b""], [b""]]), sessions([[b""], [b"", b""]]),
           "connection 0, session 1", "  a: 0 bytes", "  b: no output",
           "not of the same traffic: their connections have other sessions")
    differ("the end of an item's lines", replies([ITEM + b"END\r\n"]), replies([ITEM + b"OK\r\n"]),
           "connection 0, session 0, answer 1", "  a: END", "  b: OK")
    value = b"VALUE a 0 5\r\nEND\r\n\r\nEND\r\n"
    differ("a value with END in it", replies([value + b"A\r\n"]), replies([value + b"B\r\n"]),
           "connection 0, session 0, answer 1", "  a: A", "  b: B")
    long = b"VALUE a 0 9000\r\n%s\r\nEND\r\n"
    differ("a long value", replies([long % (b"x" * 9000)]), replies([long % (b"x" * 8000 + b"y" * 1000)]),
           "connection 0, session 0, answer 0", f"  a: ..{'x' * 160}..", f"  b: ..{'x' * 40}{'y' * 120}..")
    whole = open(FIRST, "rb").read()
    prints("a journal before the replies", b"same: connections 1, sessions 1, answers 2\n", "compare", "-", FIRST,
           given=journal([], []) + whole)
    says("a file after the replies", "standard input: journal: not expected here: one replies file is compared, in the part"
         " that begins at byte 51",
         "compare", "-", FIRST, given=whole + journal([], []))


def one_answer_each():
    """What `stats` answers is one answer, and what `mg` with `v` answers too."""
    stats = b"STAT cmd_get 1\r\nSTAT cmd_set 2\r\nEND\r\n"
    sent = capture(1, pieces(0, b"stats\r\nset k 0 0 1 noreply\r\nx\r\nmg a v\r\nget THIS\r\n"))
    value = b"VA 13 f0\r\nEND\r\nHD\r\nEN\r\n\r\n"
    differ("after stats and mg v", replies([stats + value + b"END\r\n"]), replies([stats + value + b"OK\r\n"]),
           "connection 0, session 0, answer 2, command 3: get THIS", "  a: END", "  b: OK",
           "  why: servers", "get 1" + SERVERS, sent=sent)
    differ("of stats", replies([stats]), replies([stats.replace(b"2", b"3")]), "connection 0, session 0, answer 0",
           r"  a: STAT cmd_get 1\x0d\x0aSTAT cmd_set 2\x0d\x0aEND", r"  b: STAT cmd_get 1\x0d\x0aSTAT cmd_set 3\x0d\x0aEND")


def quiet(*keys):
    """Stores these keys, without answers."""
    return b"".join(b"set %s 0 0 1 noreply\r\n5\r\n" % key for key in keys)


def all_differences():
    sent = capture(2, pieces(0, quiet(b"a", b"b") + b"version\r\nget a\r\nget b\r\n") + pieces(1, quiet(b"c", b"d") + b"get c\r\nincr d 1\r\n"))
    one = replies([b"VERSION 1\r\nEND\r\nEND\r\n", b"END\r\n7\r\n"])
    other = replies([b"VERSION 2\r\nEND\r\n" + ITEM, OTHER + b"8\r\n"])
    version = ["connection 0, session 0, answer 0, command 2: version", "  a: VERSION 1", "  b: VERSION 2",
               "  why: its own text"]
    rest = ["connection 0, session 0, answer 2, command 4: get b", "  a: END", r"  b: VALUE a 0 1\x0d\x0ax\x0d\x0aEND",
            "  why: servers", "connection 1, session 0, answer 0, command 2: get c", "  a: END",
            r"  b: VALUE a 0 1\x0d\x0ay\x0d\x0aEND", "  why: servers",
            "connection 1, session 0, answer 1, command 3: incr d 1", "  a: 7", "  b: 8", "  why: servers"]
    differ("the first of several", one, other, *version, *rest[:4], "4 differences: get 2, version 1, incr 1; --all prints them",
           "version 1" + OWN, "get 2, incr 1" + SERVERS, sent=sent)
    differ("all of them", one, other, *version, *rest, "4 differences: get 2, version 1, incr 1", "version 1" + OWN,
           "get 2, incr 1" + SERVERS, sent=sent, words=("--all",))
    differ("all but one", one, other, *rest, "3 differences: get 2, incr 1", "get 2, incr 1" + SERVERS, sent=sent,
           words=("--all", "--except", "version"))
    same("all are left out", (0, ["same: connections 2, sessions 2, answers 5; left out: get 2, version 1, incr 1"]),
         compared(one, other, "--except=version,get,incr", sent=sent))
    same("left out without a capture", (0, ["same: connections 1, sessions 1, answers 1; left out: version 1"]),
         compared(replies([b"VERSION 1\r\n"]), replies([b"VERSION 2\r\n"]), "--except", "version,stats"))
    differ("without a capture", one, other, "connection 0, session 0, answer 0", *version[1:3],
           "4 differences; --all prints them")
    beyond = capture(1, pieces(0, b"get a\r\nge"))
    differ("an answer that no command has", replies([b"END\r\n"]), replies([b"END\r\nERROR\r\n"]),
           "connection 0, session 0, answer 1", "  a: ends here, with 1 answer missing", "  b: ERROR",
           "1 answer: of no command in the capture, so not all requests were recorded, or the capture is of other traffic",
           sent=beyond)


def silent_commands():
    """Commands with `q`, whose answers may be missing, are one with those after them."""
    sent = capture(1, pieces(0, b"get x\r\nmg a v q\r\nmg b v q\r\nmn\r\nget c\r\n"))
    one = b"END\r\nVA 1\r\nx\r\nMN\r\nEND\r\n"
    differ("one of two silent commands", replies([one]), replies([one.replace(b"x\r\nMN", b"y\r\nMN")]),
           "connection 0, session 0, answer 1, commands 1 to 3: mg a v q", r"  a: VA 1\x0d\x0ax\x0d\x0aMN",
           r"  b: VA 1\x0d\x0ay\x0d\x0aMN", "  why: from before", "mg 1" + BEFORE, sent=sent)
    sent = capture(1, pieces(0, quiet(b"b", b"c") + b"mg a v q\r\nmg b v q\r\nmn\r\nget c\r\n"))
    differ("after silent commands", replies([one[5:]]), replies([b"MN\r\nOK\r\n"]),
           "connection 0, session 0, answer 0, commands 2 to 4: mg a v q", r"  a: VA 1\x0d\x0ax\x0d\x0aMN", "  b: MN",
           "  why: flag q", "connection 0, session 0, answer 2, command 5: get c", "  a: END", "  b: OK", "  why: servers",
           "2 differences: mg 1, get 1",
           "mg 1: commands with the flag q, of which it is not known which one differs", "get 1" + SERVERS, sent=sent,
           words=("--all",))


# ---- causes


def caused(name, sent, one, other, *lines, words=()):
    """The last lines that are printed of outputs, which say why they differ."""
    version = 2 if isinstance(one[0], list) else 1
    made = sent if isinstance(sent, bytes) else capture(len(sent), [record for number, text in enumerate(sent)
                                                                    for record in pieces(number, text)])
    files = [(sessions if version == 2 else replies)(texts) for texts in (one, other)]
    got = compared(*files, *words, sent=made)
    same(name, (1, list(lines)), (got[0], got[1][-len(lines) :]))
    return got[1]


def numbered(count):
    """Commands on keys of one connection, and their answers."""
    return (b"".join(b"set k%d 0 0 1\r\nx\r\n" % at for at in range(count)) + b"".join(b"get k%d\r\n" % at for at in range(count)),
            b"STORED\r\n" * count + b"".join(b"VALUE k%d 0 1\r\nx\r\nEND\r\n" % at for at in range(count)))


def not_recorded():
    """The end of outputs is missing: the last packets were not written, packets were lost, a recording was killed, or a
    server was stopped while a capture was played."""
    sent, whole = numbered(4)
    caused("the last packets", [sent, b"get a\r\n"], [whole[:-22], b""], [whole, b"END\r\n"], missing(2, 2, "a"))
    caused("lost packets", [sent] * 3, [whole[:30], whole, b""], [whole] * 3, missing(13, 2, "a"))
    lines = caused("a recording that was killed", [sent], [whole[:40]], [whole], missing(4, 1, "a"))
    same("where it ends", ["connection 0, session 0, answer 4, command 4: get k0", "  a: ends here, with 4 answers missing",
                           r"  b: VALUE k0 0 1\x0d\x0ax\x0d\x0aEND"], lines[:3])
    caused("a server that was stopped", [sent] * 3, [whole] * 3, [whole[:8], b"", b""], missing(23, 3, "b"))
    caused("and another difference", [sent], [whole[:-22]], [whole.replace(b"STORED", b"NOT_STORED", 1)], missing(1, 1, "a"),
           "set 1" + SERVERS)


def items_from_before():
    """Hits on keys that the capture did not store, and what follows from them."""
    sent = b"get a\r\nget a b\r\nadd a 0 0 1\r\ny\r\nget a\r\ndelete c\r\nincr d 1\r\nappend e 0 0 1\r\nx\r\nget e\r\n"
    one = ITEM * 2 + b"NOT_STORED\r\n" + ITEM + b"DELETED\r\n8\r\nSTORED\r\nVALUE e 0 2\r\nzx\r\nEND\r\n"
    other = b"END\r\nEND\r\nSTORED\r\n" + OTHER + b"NOT_FOUND\r\nNOT_FOUND\r\nNOT_STORED\r\nEND\r\n"
    caused("items from before", [sent], [one], [other],
           "8 differences: get 4, add 1, delete 1, incr 1, append 1; --all prints them",
           "get 4, add 1, delete 1, incr 1, append 1" + BEFORE)
    caused("the same, of meta commands", [b"mg a v\r\nmd b\r\nms c 1 ME\r\nx\r\nms d 1 MA\r\nx\r\n"],
           [b"VA 1\r\nx\r\nHD\r\nNS\r\nHD\r\n"], [b"EN\r\nNF\r\nHD\r\nNS\r\n"], "4 differences: ms 2, mg 1, md 1; --all prints them",
           "ms 2, mg 1, md 1" + BEFORE)
    caused("an item that the capture stored", [b"set a 0 0 1 noreply\r\nx\r\nget a\r\nget b\r\n"], [ITEM + b"END\r\n"],
           [b"END\r\nVALUE b 0 1\r\nx\r\nEND\r\n"], "get 1" + BEFORE, "get 1" + SERVERS)
    caused("an item that is the same again", [b"get a\r\nset a 0 0 1\r\nx\r\nget a\r\n"], [ITEM + b"STORED\r\n" + ITEM],
           [b"END\r\nSTORED\r\n" + OTHER], "get 1" + BEFORE, "get 1" + SERVERS)
    made = capture(1, [*pieces(0, b"set a 0 0 1\r\nx\r\n"), close(0), *pieces(0, b"get a\r\nget b\r\n")], 2)
    caused("an item of an earlier session", made, [[b"STORED\r\n", ITEM + ITEM.replace(b"a", b"b")]],
           [[b"STORED\r\n", b"END\r\nEND\r\n"]], "get 1" + BEFORE, "get 1" + SERVERS)
    caused("a shared key that nobody stores", [b"get a\r\n", b"get a\r\n"], [ITEM, ITEM], [b"END\r\n"] * 2, "get 2" + BEFORE)


def shared_keys():
    """Keys that two connections call, and other commands that depend on the order."""
    both = "connections 0 and 1 both call the key a"
    for reason, sent, one, other in (
        (both, [b"get a\r\n", b"set a 0 0 1\r\nx\r\n"], [ITEM, b"STORED\r\n"], [b"END\r\n", b"STORED\r\n"]),
        ("connection 1 sends flush_all, command 1", [b"set a 0 0 1\r\nx\r\nget a\r\n", b"get b\r\nflush_all\r\n"],
         [b"STORED\r\n" + ITEM, b"END\r\nOK\r\n"], [b"STORED\r\nEND\r\n", b"END\r\nOK\r\n"]),
    ):
        caused(reason, sent, one, other, "get 1" + ORDER.format(reason))
    stats, sent = b"STAT cmd_get %d\r\nEND\r\n", [b"stats\r\n", b"get a\r\n"]
    caused("stats", sent, [stats % 0, b"END\r\n"], [stats % 1, b"END\r\n"],
           "stats 1: may come of the order in which the server took commands that came at one time, or of the order in which"
           " connections are served, for stats counts the calls of all connections" + AFTER)
    caused("other stats", sent, [b"STAT pid 7\r\n" + stats % 0, b"END\r\n"], [stats % 0, b"END\r\n"], "stats 1" + OWN)
    lines = caused("keys of both kinds", [b"set a 0 0 1\r\nx\r\nget a\r\nset b 0 0 1\r\nx\r\nget b\r\n", b"get b\r\n"],
                   [b"STORED\r\n" + ITEM + b"STORED\r\nVALUE b 0 1\r\nx\r\nEND\r\n", b"END\r\n"],
                   [b"STORED\r\n" + OTHER + b"STORED\r\nEND\r\n", b"END\r\n"],
                   "get 1" + ORDER.format("connections 0 and 1 both call the key b"), "get 1" + SERVERS)
    same("the first of each", 2, sum(line.startswith("connection") for line in lines[:-3]))


def item_of(value, key=b"a"):
    return b"VALUE %s 0 %d\r\n%s\r\nEND\r\n" % (key, len(value), value)


def shared_causes():
    """In a key that several connections call, the cause is that of the recorded answer near the order of arrival."""
    both, store = "connections 0 and 1 both call the key a", b"set a 0 0 1\r\nx\r\n"
    gets, cas = b"VALUE a 0 1 %d\r\nx\r\nEND\r\n", store + b"gets a\r\ncas a 0 0 1 7\r\ny\r\n"
    one, other = b"STORED\r\n" + gets % 7 + b"STORED\r\n", b"STORED\r\n" + gets % 4 + b"EXISTS\r\n"
    for name, sent, ones, others in (
        ("before", [cas, b"get a\r\n"], [one, OTHER], [other, ITEM]),
        ("after", [b"get a\r\n", cas], [OTHER, one], [ITEM, other]),
    ):
        caused(f"the cas of a connection {name}", sent, ones, others,
               f"2 differences: {'cas 1, get 1' if name == 'before' else 'get 1, cas 1'}; --all prints them",
               f"{'cas 1, get 1' if name == 'before' else 'get 1, cas 1'}" + UNIQUES)
    caused("a touch of a shared key", [store + b"touch a 1\r\nmn\r\n", b"get a\r\n"], [b"STORED\r\nTOUCHED\r\nMN\r\n", b"END\r\n"],
           [b"STORED\r\nERROR\r\nMN\r\n", ITEM], "touch 1" + REFUSED,
           "get 1" + ORDER.format(both))
    caused("a touch that both serve", [store + b"touch a 0\r\n", b"get a\r\n"], [b"STORED\r\nTOUCHED\r\n", ITEM],
           [b"STORED\r\nNOT_FOUND\r\n", ITEM], "touch 1: may come of the order in which the server took commands that came at one time,"
           f" or of the order in which connections are served, for {both}" + AFTER)
    caused("one of a key of its own", [b"touch a 0\r\n"], [b"TOUCHED\r\n"], [b"NOT_FOUND\r\n"], "touch 1" + SERVERS)
    caused("a shared number that became shorter", [b"set a 0 0 3\r\n100\r\ndecr a 1\r\n", b"get a\r\n"],
           [b"STORED\r\n99\r\n", item_of(b"99 ")], [b"STORED\r\n99\r\n", item_of(b"99")], "get 1" + PADDED)
    caused("one of a connection, and what follows", [b"set a 0 0 3\r\n100\r\ndecr a 1\r\nget a\r\nappend a 0 0 1\r\nx\r\nget a\r\n"],
           [b"STORED\r\n99\r\n" + item_of(b"99 ") + b"STORED\r\n" + item_of(b"99 x")],
           [b"STORED\r\n99\r\n" + item_of(b"99") + b"STORED\r\n" + item_of(b"99x")], "get 2" + PADDED)
    caused("a shared value that nobody stores", [b"get a\r\n", store], [OTHER, b"STORED\r\n"], [b"END\r\n", b"STORED\r\n"],
           "get 1" + BEFORE)
    caused("one in place of a value that is stored", [b"get a\r\n", store], [OTHER, b"STORED\r\n"], [ITEM, b"STORED\r\n"],
           "get 1" + BEFORE)
    may_be = ("get 1: may come of the order in which the server took commands that came at one time, or of the order in which"
              f" connections are served, for {both}" + AFTER)
    for name, more, answer, shown, cause in (
        ("is joined", b"append a 0 0 1\r\ny\r\n", b"STORED\r\n", OTHER, may_be),
        ("is counted", b"incr a 1\r\n", b"8\r\n", item_of(b"7"), may_be),
        ("is not counted", b"incr a 1\r\n", b"8\r\n", OTHER, "get 1" + BEFORE),
    ):
        caused(f"a value that {name}", [b"get a\r\n", store + more], [shown, b"STORED\r\n" + answer],
               [b"END\r\n", b"STORED\r\n" + answer], cause)


def turned(name, turns, ones, others, why, words=()):
    """The causes of all differences of commands that came like this, each answered before the next one came; a turn has a
    connection and a command."""
    made = capture(len(ones), [record for connection, text in turns for record in (segment(connection, text), segment(connection, b""))])
    lines = compared(replies(ones), replies(others), "--all", *words, sent=made)[1]
    same(name, why, [line[7:] for line in lines if line.startswith("  why: ")])
    return lines


def orders_of_arrival():
    """What is known of the order of arrival leaves one cause."""
    store, get, gets = b"set a 0 0 1\r\n%s\r\n", b"get a\r\n", b"VALUE a 0 1 %d\r\nx\r\nEND\r\n"
    stored, cas = b"STORED\r\n", [(0, store % b"x"), (1, get), (0, b"gets a\r\n"), (0, b"cas a 0 0 1 7\r\ny\r\n"), (1, get)]
    turned("a get before the cas", cas, [stored + gets % 7 + stored, ITEM + OTHER], [stored + gets % 4 + b"EXISTS\r\n", b"END\r\n" + ITEM],
           ["cas", "order", "cas"])
    turned("a cas whose unique is one here by chance", [(0, store % b"x"), (1, b"cas a 0 0 1 1\r\ny\r\n")], [stored, stored],
           [stored, b"EXISTS\r\n"], ["cas"])
    turned("after one that was translated", [*cas, (1, b"decr a 1\r\n"), (0, get)],
           [stored + gets % 7 + stored + b"END\r\n", ITEM + OTHER + b"NOT_FOUND\r\n"],
           [stored + gets % 4 + stored + OTHER, ITEM + OTHER + b"CLIENT_ERROR cannot increment or decrement non-numeric value\r\n"],
           ["lost", "lost"])
    warm = [(0, b"set a 0 2592000 1 noreply\r\nx\r\nget a\r\n"), (1, store % b"y"), (0, get)]
    turned("a warmed item", warm, [ITEM + OTHER, stored], [ITEM + ITEM, stored], ["order"])
    turned("a warmed item that is gone", [*warm[:1], (1, get)], [ITEM, b"END\r\n"], [ITEM, ITEM], ["exptime"])
    turned("an item that is gone, and another order", [*warm[:1], (1, b"delete a\r\n"), (0, get)], [ITEM + b"END\r\n", b"NOT_FOUND\r\n"],
           [b"END\r\n" * 2, b"DELETED\r\n"], ["order", "exptime"])
    turned("one that was there before", [(0, b"delete a\r\n"), (1, get), (0, store % b"x"), (1, get)],
           [b"DELETED\r\n" + stored, b"END\r\n" + ITEM], [b"NOT_FOUND\r\n" + stored, b"END\r\nEND\r\n"], ["from before", "order"])
    lines = turned("an item that was lost", [(0, store % b"x"), (1, get), (1, get)], [stored, ITEM + b"END\r\n"], [stored, ITEM * 2], ["lost"])
    same("what is said of it", "get 1" + LOST, lines[-1])
    turned("one of a connection", [(0, store % b"x" + get)], [stored + b"END\r\n"], [stored + ITEM], ["lost"])
    lines = turned("another value", [(0, store % b"x"), (1, store % b"y"), (0, get)], [stored + ITEM, stored], [stored + OTHER, stored], ["servers"])
    same("what is said of it", "get 1" + SERVERS, lines[-1])
    deletes = [segment(0, b"delete a\r\n"), segment(1, b"delete a\r\n"), segment(0, b""), segment(1, b"")]
    made = capture(2, [segment(0, store % b"x"), segment(0, b""), segment(1, b"mn\r\n"), segment(1, b""), *deletes])
    lines = compared(replies([stored + b"NOT_FOUND\r\n", b"MN\r\nDELETED\r\n"]), replies([stored + b"DELETED\r\n", b"MN\r\nNOT_FOUND\r\n"]),
                     "--all", sent=made)[1]
    same("commands that came at one time", ["  why: order"] * 2, lines[3::4][:2])
    gets = [segment(0, b"get a b\r\n"), segment(1, b"set a 0 0 1\r\ny\r\n"), segment(1, b""), segment(1, b"set b 0 0 1\r\ny\r\n"), segment(1, b""), segment(0, b"")]
    both = b"".join(b"VALUE %s 0 1\r\ny\r\n" % key for key in (b"a", b"b")) + b"END\r\n"
    made, sets = capture(2, [segment(1, quiet(b"a")), segment(1, quiet(b"b")), *gets]), stored * 2
    same("a get that saw keys at two times", "get 1" + TIMES.format("connections 0 and 1 both call the key a"), compared(
        replies([b"VALUE a 0 1\r\n5\r\nVALUE b 0 1\r\ny\r\nEND\r\n", sets]), replies([both, sets]), sent=made)[1][-1])
    turned("numbers and what was joined to them",
           [(0, store % b"1"), (1, b"append a 0 0 1\r\n0\r\n"), (0, b"decr a 1\r\n"), (1, get), (0, b"touch a 9\r\n"), (1, get)],
           [stored + b"9\r\nTOUCHED\r\n", stored + item_of(b"9 ") * 2], [stored + b"9\r\nERROR\r\n", stored + item_of(b"9") * 2],
           ["not served", "padding", "padding"])
    swapped = [(0, store % b"x"), (1, get), (0, b"version\r\n"), (1, get)]
    turned("zygos's answers first", swapped, [stored + b"VERSION zygos-1.0\r\n", ITEM * 2], [stored + b"VERSION 1\r\n", ITEM + b"END\r\n"],
           ["lost"], words=("--except", "version"))


def long_answers():
    """A long answer is cut off on the right of its first difference, and on the left not within a key."""
    keys = [b"key%02d" % at for at in range(20)]
    sent = capture(1, pieces(0, b"get %s\r\n" % b" ".join(keys)))
    whole = b"".join(b"VALUE %s 0 4\r\n%04d\r\n" % (key, at) for at, key in enumerate(keys)) + b"END\r\n"
    for at, begin in ((1, "VALUE key00 0 4"), (15, "..VALUE key15 0 4")):
        lines = compared(replies([whole]), replies([whole.replace(b"%04d" % at, b"abcd")]), sent=sent)[1]
        same(f"the item {at}", (f"  a: {begin}", f"  b: {begin}"), tuple(line[: len(begin) + 5] for line in lines[1:3]))


def steps():
    """A command that one side answers is one difference, whatever comes after it."""
    sent, whole = numbered(50)
    touch = ["connection 0, session 0, answer 0, command 0: touch k0 0 noreply", "  a: nothing", "  b: ERROR", STEP,
             "touch 1: answered in b alone"]
    got = compared(replies([whole]), replies([b"ERROR\r\n" + whole]), sent=capture(1, pieces(0, b"touch k0 0 noreply\r\n" + sent)))
    same("a silent touch", (1, touch), got)
    later, told = numbered(500)
    for name, at in (("in the middle", 250), ("later", 700), ("at the end", 1000)):
        commands = [b"set k%d 0 0 1\r\nx\r\n" % n for n in range(500)] + [b"get k%d\r\n" % n for n in range(500)]
        answers = [b"STORED\r\n"] * 500 + [b"VALUE k%d 0 1\r\nx\r\nEND\r\n" % n for n in range(500)]
        made = b"".join(commands[:at] + [b"touch k0 0 noreply\r\n"] * 3 + commands[at:])
        caused(f"three of them {name}", [made], [b"".join(answers)],
               [b"".join(answers[:at] + [b"ERROR\r\n"] * 3 + answers[at:])],
               "3 differences: touch 3; --all prints them", "touch 3: answered in b alone")
    key = b"k" * 251
    caused("a long key with noreply", [b"set %s 0 0 1 noreply\r\nx\r\n" % key + sent], [b"ERROR\r\n" + whole],
           [b"CLIENT_ERROR bad command line format\r\nERROR\r\n" + whole], STEP, "set 1: answered in b alone")
    caused("and without its block", [b"set %s 0 0 1 noreply\r\nx\r\n" % key + sent], [whole],
           [b"CLIENT_ERROR bad command line format\r\nERROR\r\n" + whole],
           "2 differences: set 1, other lines 1; --all prints them", "set 1, other lines 1: answered in b alone")
    lines = compared(replies([whole]), replies([b"ERROR\r\n" + whole]))[1]
    same("a step without a capture", ["connection 0, session 0, answer 0", "  a: nothing", "  b: ERROR", STEP,
                                      "1 answer: answered in b alone"], lines)
    caused("many keys with other values", [sent], [whole], [whole.replace(b"\r\nx\r\n", b"\r\ny\r\n")],
           "50 differences: get 50; --all prints them", "get 50" + SERVERS)
    caused("other traffic", [sent], [b"END\r\n" * 100], [b"OK\r\n" * 100],
           "100 answers: out of step, and not compared, since they do not fit the commands; is the capture of other traffic?")


def many_steps():
    """Drawn sessions with many commands on which one server is silent."""
    for number in range(30):
        draw, shard, sent, one, other, silent = random.Random(number), Shard(0, 1), [], [], [], 0
        for _ in range(150):
            line = draw.choice((b"get k%d\r\n", b"get k%d\r\n", b"set k%d 0 0 1\r\nx\r\n", b"delete k%d\r\n", b"mg k%d v\r\n",
                                b"touch k%d 0 noreply\r\n", b"append k%d 0 0 1\r\ny\r\n")) % draw.randrange(6)
            [command] = commands_of(line)
            text = text_of(command, [shard.reply(call) for _, call in calls(1, command)])
            silent += command.verb == "fault"
            sent.append(line)
            one.append(b"" if command.verb == "fault" else text)
            other.append(text)
        caused(f"many silent commands {number}", [b"".join(sent)], [b"".join(one)], [b"".join(other)],
               f"{silent} differences: touch {silent}; --all prints them", f"touch {silent}: answered in b alone")


def uniques():
    """The numbers of uniques are left out, and a `cas` that fails by its number is named, with what follows."""
    item = b"VALUE a 0 1 %d\r\nx\r\nEND\r\n"
    sent = capture(1, pieces(0, b"gets a\r\nmg a c k\r\nget b\r\n"))
    made = [replies([item % number + b"HD c%d ka\r\nEND\r\n" % number]) for number in (7, 28)]
    same("uniques", (0, ["same: connections 1, sessions 1, answers 3; left out: uniques 2"]), compared(*made, sent=sent))
    sent = b"set a 0 0 1\r\nx\r\ngets a\r\ncas a 0 0 1 7\r\ny\r\nget a\r\n"
    caused("a recorded cas", [sent], [b"STORED\r\n" + item % 7 + b"STORED\r\n" + OTHER],
           [b"STORED\r\n" + item % 28 + b"EXISTS\r\n" + ITEM], "2 differences: cas 1, get 1; --all prints them",
           "cas 1, get 1" + UNIQUES)
    caused("ms with C", [b"ms a 1\r\nx\r\nms a 1 C7\r\ny\r\n"], [b"HD\r\nHD\r\n"], [b"HD\r\nEX\r\n"], "ms 1" + UNIQUES)


def odd_keys():
    """Keys with white space other than the space."""
    for key in (b"a\tb", b"a\rb", b"a\x0b", b"\x0c"):
        sent = b"set %s 0 0 4\r\nEND\r\r\nget %s\r\nget %s b\r\nget c\r\n" % (key, key, key)
        one = b"STORED\r\n" + b"VALUE %s 0 4\r\nEND\r\r\nEND\r\n" % key * 2
        lines = caused(f"the key {key!r}", [sent], [one + b"END\r\n"], [one + b"VALUE c 0 1\r\nx\r\nEND\r\n"], "get 1" + BEFORE)
        same(f"where the answers to {key!r} are", "connection 0, session 0, answer 3, command 3: get c", lines[0])


def other_causes():
    caused("an exptime", [b"set a 0 1 1\r\nx\r\nget a\r\n"], [b"STORED\r\nEND\r\n"], [b"STORED\r\n" + ITEM], "get 1" + EXPIRY)
    caused("an exptime by touch", [b"set a 0 0 1\r\nx\r\ntouch a 1\r\nget a\r\n"], [b"STORED\r\nTOUCHED\r\nEND\r\n"],
           [b"STORED\r\nERROR\r\n" + ITEM], "get 1" + EXPIRY, "touch 1" + REFUSED)
    for name, count in (("more", 2), ("fewer", 1)):
        made = capture(3 - count, [])
        got = compared(replies([b""] * count), replies([b""] * count), sent=made)
        same(f"a capture of other traffic, with {name} connections", (1, 1), (got[0], len(got[1])))
        same("what is said of it", "not of the same traffic: a has ", got[1][0][:31])


def drawn_captures():
    """Each exchange that is cut has the texts that the plain model gives its commands."""
    for number in range(60):
        sent = drawn.drawn_capture(random.Random(number), 4)
        made = plain.run_of(read_capture(Part("capture", sent)), 4)
        for output in made.outputs:
            texts = texts_of(made, output.connection, output.session)
            stream = made.streams[output.connection][output.session]
            for exchange in by_commands(stream, output.text, output.text):
                wanted = b"".join(texts[exchange.first : exchange.last + 1]) if exchange.line is not None else None
                same(f"drawn capture {number}, {output[:2]}, command {exchange.first}", (wanted or None,) * 2,
                     (exchange.one[1], exchange.other[1]))


def edited(draw, text):
    """An output with an answer left out, put in or changed, or cut off."""
    found = list(answers(text))
    at = draw.randrange(len(found))
    return b"".join(draw.choice((
        found[:at] + found[at + 1 :], [*found[:at], b"ERROR\r\n", *found[at:]], found[:at],
        [*found[:at], b"SERVER_ERROR out of memory\r\n", *found[at + 1 :]], [*found[:at], found[at][:-1]])))


def edited_outputs():
    """Each answer of an edited output is in an exchange, and one edit is few differences; each has a cause."""
    for number in range(200):
        draw = random.Random(number)
        made = plain.run_of(read_capture(Part("capture", drawn.drawn_capture(draw, 4))), 4)
        streams = {output[:2]: made.streams[output[0]][output[1]] for output in made.outputs}
        callers = Callers(streams)
        causes = Causes(callers, lambda: {})
        for output in (output for output in made.outputs if output.text):
            other = edited(draw, output.text)
            causes.begin(*output[:2], streams[output[:2]])
            for pair in ((output.text, other), (other, output.text)):
                for found in (list(by_commands(streams[output[:2]], *pair)), list(by_answers(*pair))):
                    name = f"edited capture {number}, {output[:2]}"
                    ends = [exchange for exchange in found if exchange.kind in (ENDED, LEFT)]
                    sides = [b"".join(exchange[side][1] or b"" for exchange in found if exchange not in ends)
                             for side in (-2, -1)]
                    same(name, (True, True), tuple(text == joined or ends and text.startswith(joined) for text, joined in
                                                   zip(pair, sides)))
                    differ = [exchange for exchange in found if exchange.one[1] != exchange.other[1]]
                    if len(differ) > 3:
                        fail(name, f"{len(differ)} differences")
                    for exchange in differ:
                        if exchange.kind == BOTH and exchange.group:
                            same(f"a cause: {name}", True, bool(causes.differed(exchange)))


def sums():
    """What is kept as sums along each shift is what a count of the answers ahead gives, wherever both sides are."""
    pieces_of = [(b"get a\r\n", ITEM), (b"get b a\r\n", b"END\r\n"), (b"set a 0 0 1\r\nx\r\n", b"STORED\r\n"),
                 (b"gets a\r\n", b"VALUE a 0 1 7\r\nx\r\nEND\r\n"), (b"gets a\r\n", b"VALUE a 0 1 8\r\nx\r\nEND\r\n"),
                 (b"incr n 1\r\n", b"12\r\n"), (b"lru x\r\n", b"OK\r\n"), (b"odd\r\n", b"ERROR\r\n"), (b"mn\r\n", b"MN\r\n")]
    for number in range(12):
        draw = random.Random(number)
        asked = draw.choices(pieces_of, k=draw.choice((3, 70, 200)))
        texts = [[draw.choice(pieces_of)[1] if draw.random() < 0.2 else text for _, text in asked[draw.randrange(3) :]]
                 for _ in range(2)]
        steps = Steps(*map(b"".join, texts), b"".join(sent for sent, _ in asked) if draw.random() < 0.8 else None)
        sides = [side for side in (steps.one, steps.other, steps.groups) if side]
        while all(side.get() for side in sides[:2]):
            if not steps.groups or steps.groups.are_plain():
                same(f"ahead, {number}", steps.ahead(), steps.agreement.look())
                for is_paired, moves in enumerate((draw.sample(MOVES_OF_ANSWERS if not steps.groups else MOVES, 9), PAIRED)):
                    same(f"costs, {number}", [steps.cost(move, 1 << 30, bool(is_paired)) for move in moves],
                         [steps.agreement.cost(move, 1 << 30, bool(is_paired)) for move in moves])
            for side in draw.choice((sides, sides, sides, sides[1:], sides[:2], sides[:1])):
                for _ in range(draw.choice((1, 1, 2, 9))):
                    side.take()


def texts_of(made, connection, session):
    """The text of each command of a session, by the plain model."""
    before = sum(len(commands_of(stream)) for stream in made.streams[connection][:session])
    return [text_of(command, plain.replies_of(made, connection, index))
            for index, command in enumerate(commands_of(made.streams[connection][session]), before)]


def seconds():
    """The processor seconds of the tools that were run."""
    used = resource.getrusage(resource.RUSAGE_CHILDREN)
    return used.ru_utime + used.ru_stime


def large():
    """Ten times the commands of a connection take about ten times the processor time."""
    times = []
    for count in (4000, 40000):
        sent = capture(1, pieces(0, b"".join(b"get later%d\r\n" % at for at in range(count))))
        one = replies([b"END\r\n" * count])
        begin = seconds()
        status, lines = compared(one, replies([b"END\r\n" * (count - 1) + b"OK\r\n"]), sent=sent)
        times.append(seconds() - begin)
        same("the last command", (1, f"connection 0, session 0, answer {count - 1}, command {count - 1}: "
                                     f"get later{count - 1}"), (status, lines[0]))
    if times[1] > 30 * times[0] + 1:
        fail("ten times the commands", f"{times[0]:.2f} s, and then {times[1]:.2f} s")


Tests = cases(first_differences, one_answer_each, all_differences, silent_commands, not_recorded, items_from_before,
              shared_keys, shared_causes, orders_of_arrival, long_answers, steps, many_steps, uniques, odd_keys,
              other_causes, drawn_captures, edited_outputs, sums, large)

if __name__ == "__main__":
    unittest.main()
