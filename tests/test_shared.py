"""Tests tools/warm and tools/inline: items from before a recording, and clients that share keys."""
import os
import random
import re
import subprocess
import tempfile
import unittest
from itertools import zip_longest
from unittest import mock

from checks import LONGEST, built_program, cases, fail, prints, program_path, run, same, says, written
import drawn
import plain
import traffic
from zygos_tools.comparing.arrivals import Arrivals, ends_of, recorded, streams_of, with_answers
from zygos_tools.comparing import orders as near_order
from zygos_tools.comparing.orders import near as near_arrival
from zygos_tools.comparing.seen import Seen
from zygos_tools.files.formats import (Close, capture, close, pieces, read_capture, read_replies, replies, segment,
                                       sessions)
from zygos_tools.files.part import Part
from zygos_tools.protocol.answers import answers
from zygos_tools.protocol.meaning import Framer, commands_of
from zygos_tools.protocol.model import Shard, calls, shard_of, text_of



# a search that a loaded machine does not end
SEARCH = "--seconds", "3600"

# ---- items from before


def warmed(sent, answered):
    """What is put before a capture, by connection."""
    given = sent if isinstance(sent, bytes) else capture(len(sent), [record for number, text in enumerate(sent)
                                                                     for record in pieces(number, text)])
    file = answered if isinstance(answered, bytes) else replies(answered)
    with tempfile.TemporaryDirectory() as folder:
        paths = written(folder, sent=given, answered=file)
        ran = run("warm", paths["sent"], paths["answered"])
    if ran.returncode:
        return ran.stderr.decode().replace(folder + "/", "")
    one, other = (read_capture(Part("capture", text)) for text in (given, ran.stdout))
    begin = len(other.records) - len(one.records)
    same("the records stay", (one.version, one.count, one.records), (other.version, other.count, other.records[begin:]))
    found = {}
    for record in other.records[:begin]:
        found[record.connection] = found.get(record.connection, b"") + record.text
    return found


def set_of(key, value, flags=0):
    return b"set %s %d 2592000 %d noreply\r\n%s\r\n" % (key, flags, len(value), value)


def values():
    """The value that an item had, as a later answer shows it."""
    hit = b"VALUE a 7 3\r\nxyz\r\nEND\r\n"
    for name, value, flags, sent, answered in (
        ("a hit", b"xyz", 7, b"get a\r\n", hit),
        ("a hit without its key", b"xyz", 0, b"mg a v\r\n", b"VA 3\r\nxyz\r\n"),
        ("a hit with its unique", b"xyz", 7, b"gets b a\r\n", b"VALUE a 7 3 99\r\nxyz\r\nEND\r\n"),
        ("a hit of mg", b"xyz", 7, b"mg a f v\r\n", b"VA 3 f7\r\nxyz\r\n"),
        ("a hit of gat", b"xyz", 7, b"gat 0 a\r\n", hit),
        ("a touch and a hit", b"xyz", 7, b"touch a 0\r\nget a\r\n", b"TOUCHED\r\n" + hit),
        ("a deleted item", b"", 0, b"delete a\r\nget a\r\n", b"DELETED\r\nEND\r\n"),
        ("add of an item that is there", b"xyz", 7, b"add a 0 0 1\r\nw\r\nget a\r\n", b"NOT_STORED\r\n" + hit),
        ("an item that was replaced", b"", 0, b"replace a 7 0 3\r\nxyz\r\nget a\r\n", b"STORED\r\n" + hit),
        ("what was appended is taken off", b"xy", 7, b"append a 0 0 1\r\nz\r\nget a\r\n", b"STORED\r\n" + hit),
        ("and what was prepended", b"y", 7, b"prepend a 0 0 1\r\nx\r\nappend a 0 0 1 noreply\r\nz\r\nget a\r\n", b"STORED\r\n" + hit),
        ("a number less its amount", b"10", 0, b"incr a 5\r\n", b"15\r\n"),
        ("and the flags that are shown later", b"10", 7, b"incr a 5\r\nget a\r\n", b"15\r\nVALUE a 7 2\r\n15\r\nEND\r\n"),
        ("but not those of a later item", b"10", 0, b"incr a 5\r\nset a 7 0 1\r\nx\r\nget a\r\n", b"15\r\nSTORED\r\nVALUE a 7 1\r\nx\r\nEND\r\n"),
        ("a number that wrapped", b"18446744073709551615", 0, b"incr a 1\r\n", b"0\r\n"),
        ("a number that was counted down", b"15", 0, b"decr a 5\r\n", b"10\r\n"),
        ("no number", b"xyz", 7, b"incr a 5\r\nget a\r\n",
         b"CLIENT_ERROR cannot increment or decrement non-numeric value\r\n" + hit),
        ("a cas that failed", b"xyz", 7, b"cas a 0 0 1 5\r\nw\r\nget a\r\n", b"EXISTS\r\n" + hit),
        ("meta commands", b"", 0, b"ms a 1 ME\r\nw\r\nmd a\r\n", b"NS\r\nHD\r\n"),
    ):
        same(name, {0: set_of(b"a", value, flags)}, warmed([sent], [answered]))
    odd = b"a\t\x0b"
    same("an odd key", {0: set_of(odd, b"x")}, warmed([b"get %s\r\n" % odd], [b"VALUE %s 0 1\r\nx\r\nEND\r\n" % odd]))
    for name, sent, answered in (
        ("a miss", b"get a\r\nset a 0 0 1\r\nx\r\nget a\r\n", b"END\r\nSTORED\r\nVALUE a 0 1\r\nx\r\nEND\r\n"),
        ("a set", b"set a 0 0 1\r\nx\r\nget a\r\n", b"STORED\r\nVALUE a 0 1\r\nx\r\nEND\r\n"),
        ("a set with noreply", b"set a 0 0 1 noreply\r\nx\r\nget a\r\n", b"VALUE a 0 1\r\nx\r\nEND\r\n"),
        ("an add", b"add a 0 0 1\r\nx\r\nget a\r\n", b"STORED\r\nVALUE a 0 1\r\nx\r\nEND\r\n"),
        ("what is not there", b"delete a\r\nincr b 1\r\nappend c 0 0 1\r\nx\r\nmd d\r\nmg e v\r\ntouch f 0\r\n",
         b"NOT_FOUND\r\nNOT_FOUND\r\nNOT_STORED\r\nNF\r\nEN\r\nNOT_FOUND\r\n"),
        ("after flush_all", b"flush_all\r\nget a\r\n", b"OK\r\nVALUE a 0 1\r\nx\r\nEND\r\n"),
        ("what was not answered", b"get a\r\n", b""),
    ):
        same(f"nothing: {name}", {}, warmed([sent], [answered]))


def connections():
    """A key is put into the connection whose command on it came first; sessions stay as they are."""
    hit = b"VALUE a 0 1\r\nx\r\nEND\r\n"
    made = capture(2, [segment(1, b"get a\r\n"), segment(0, b"get a b\r\n")])
    same("the first one that came", {1: set_of(b"a", b"x")}, warmed(made, replies([hit, hit])))
    made = capture(2, [segment(0, b"get a\r\n"), segment(1, b"set a 0 0 1\r\nx\r\n"), segment(1, b""), segment(0, b"")])
    same("what was stored at one time", {}, warmed(made, replies([hit, b"STORED\r\n"])))
    made = capture(2, [segment(0, b"get a\r\n"), segment(0, b""), segment(1, b"set a 0 0 1\r\nx\r\n"), segment(1, b"")])
    same("what was stored later", {0: set_of(b"a", b"x")}, warmed(made, replies([hit, b"STORED\r\n"])))
    made = capture(1, [segment(0, b"get b\r\n"), close(0), segment(0, b"get a\r\n")], 2)
    same("a later session", {0: set_of(b"a", b"x")}, warmed(made, sessions([[b"END\r\n", hit]])))
    same("other traffic", "tools/warm: not of the same traffic: sent has 1 connections and 1 sessions, answered has 2 and 2\n",
         warmed([b"get a\r\n"], [hit, hit]))
    says("no capture", "a capture, which is a file, and its replies are read; --help says more", "warm", "-", "b", status=2)


# ---- clients that share keys


def joined(given):
    return run("inline", "-", given=given).stdout


def cut_of(name, given, output, line=None):
    """What is cut of the output to all commands in one connection."""
    with tempfile.TemporaryDirectory() as folder:
        paths = written(folder, sent=given)
        ran = run("inline", "--cut", "-", paths["sent"], given=output)
    if line is not None:
        same(name, (1, f"tools/inline: standard input: {line}\n"),
             (ran.returncode, ran.stderr.decode().replace(folder + "/", "")))
        return None
    same(f"the status of {name}", (0, b""), (ran.returncode, ran.stderr))
    read = read_replies(Part("replies", ran.stdout))
    return read.version, {found[:2]: found.text for found in read.outputs}


def served(given):
    """The replies file of a capture of one connection, by the plain model."""
    made = plain.run_of(read_capture(Part("capture", given)), 4)
    return replies([output.text for output in made.outputs])


def orders():
    """Commands in their order of arrival; each answer goes to the connection that asked."""
    turns = [(0, b"set a 0 0 1\r\nx\r\n"), (1, b"get a\r"), (0, b"set a 0 0 1\r\ny\r\n"), (1, b"\n"), (1, b"mg b q\r\nmg a q v\r\nmn\r\n"),
             (0, b"delete a noreply\r\nquit\r\nget a\r\n"), (1, b"get a\r\nge")]
    given = capture(3, [segment(*turn) for turn in turns])
    [one] = {record.connection for record in read_capture(Part("capture", joined(given))).records}
    same("the only connection", 0, one)
    wanted = {(0, 0): b"STORED\r\nSTORED\r\n", (1, 0): b"VALUE a 0 1\r\ny\r\nEND\r\nVA 1\r\ny\r\nMN\r\nEND\r\n", (2, 0): b""}
    same("answers by connection", (1, wanted), cut_of("turns", given, served(joined(given))))
    prints("nothing", capture(1, []), "inline", "-", given=capture(0, []))
    for name, words, line in (
        ("swapped files", ("recorded", "sent"), "recorded: this is a replies file; the capture comes first"),
        ("no capture", ("recorded",), "recorded: this is a replies file; the capture comes first"),
        ("an empty capture", ("empty", "recorded"), "empty: this is an empty file; nothing was recorded into it, or the recorder was killed"),
    ):
        with tempfile.TemporaryDirectory() as folder:
            paths = written(folder, sent=given, recorded=replies([b""] * 3), empty=b"")
            ran = run("inline", *(paths.get(word, word) for word in words))
        same(name, (1, b"", f"tools/inline: {line}\n"), (ran.returncode, ran.stdout, ran.stderr.decode().replace(folder + "/", "")))
    output = served(joined(given))
    for name, other, line in (
        ("too few answers", replies([b"STORED\r\n"]), "no answer to command 1 of sent in its order: these are not zygos's"
         " replies to what tools/inline wrote of the same files"),
        ("too many", replies([read_replies(Part("replies", output)).outputs[0].text + b"OK\r\n"]),
         "more answers than the 7 commands of sent have"),
        ("two outputs", replies([b"", b""]), "2 outputs; the replies to what tools/inline wrote have one"),
        ("no replies", b"", "no replies file in it; `zygos run` writes one"),
    ):
        cut_of(name, given, other, line)
    for words in ([], ["-", "b"], ["--cut", "-", "-"], ["a", "b", "c"]):
        says(f"wrong words: {words}", "a capture is joined, and its replies may follow; --help says more", "inline", *words,
             status=2)


def in_order(read):
    """The outputs of the plain model, which carries out each command where its last byte came."""
    shards, framers, session = [Shard(number, 4) for number in range(4)], {}, [0] * read.count
    texts = {(number, 0): b"" for number in range(read.count)}
    for record in read.records:
        number = record.connection
        if isinstance(record, Close):
            session[number] += 1
            texts[number, session[number]] = b""
            framers.pop(number, None)
            continue
        for command, _ in framers.setdefault(number, Framer()).feed(record.text):
            found = [shards[shard].reply(call) for shard, call in calls(4, command)]
            texts[number, session[number]] += text_of(command, found)
    return texts


def drawn_captures():
    """Of drawn captures: the answers in the order of arrival, by the plain model."""
    for number in range(25):
        given = drawn.drawn_capture(random.Random(number), 4)
        read = read_capture(Part("capture", given))
        same(f"drawn capture {number}", (read.version, in_order(read)),
             cut_of(f"drawn capture {number}", given, served(joined(given))))


# ---- orders near that of arrival


def near(name, turns, texts, words=()):
    """The answers in an order near that of arrival, where a server answered like this."""
    count = len(texts)
    given = capture(count, [segment(*turn) for turn in turns])
    with tempfile.TemporaryDirectory() as folder:
        paths = written(folder, sent=given, recorded=replies(texts))
        files = paths["sent"], paths["recorded"]
        ran = run("inline", *SEARCH, *words, *files)
        same(f"the status of {name}", (0, b""), (ran.returncode, ran.stderr))
        ran = run("inline", *SEARCH, "--cut", "-", *files, given=served(ran.stdout))
    same(f"the status of {name}, cut", (0, b""), (ran.returncode, ran.stderr))
    return [output.text for output in read_replies(Part("replies", ran.stdout)).outputs]


def near_orders():
    """A server took commands in another order than they came."""
    store, item = b"set a 0 0 1\r\n%s\r\n", b"VALUE a 0 1\r\n%s\r\nEND\r\n"
    for name, turns, texts in (
        ("a get before a set that came first", [(0, store % b"x"), (1, b"get a\r\n")], [b"STORED\r\n", b"END\r\n"]),
        ("a set before a get that came first", [(1, b"get a\r\n"), (0, store % b"x")], [b"STORED\r\n", item % b"x"]),
        ("two sets", [(0, store % b"x"), (1, store % b"y"), (2, b"get a\r\n"), (0, b"get a\r\n"), (1, b"get a\r\n")],
         [b"STORED\r\n" + item % b"x", b"STORED\r\n" + item % b"x", item % b"y"]),
        ("a set that nobody sees", [(0, store % b"x"), (1, store % b"y"), (2, b"get a\r\n"), (0, b"mn\r\n"), (2, b"get a\r\n")],
         [b"STORED\r\nMN\r\n", b"STORED\r\n", item % b"y" * 2]),
        ("noreply", [(0, b"set a 0 0 1 noreply\r\nx\r\n"), (1, b"get a\r\n")], [b"", b"END\r\n"]),
        ("a set after a number", [(0, store % b"1"), (0, b"incr a 1\r\n"), (1, store % b"5"), (2, b"get a\r\n")],
         [b"STORED\r\n2\r\n", b"STORED\r\n", item % b"5"]),
        ("a set that comes later, after a delete", [(0, b"delete a\r\n"), (2, b"get a\r\n"), (1, store % b"5")],
         [b"NOT_FOUND\r\n", b"STORED\r\n", item % b"5"]),
        ("a set that comes later, after an add", [(0, b"add a 0 0 1\r\nx\r\n"), (2, b"get a\r\n"), (1, store % b"5")],
         [b"STORED\r\n", b"STORED\r\n", item % b"5"]),
    ):
        same(name, texts, near(name, turns, texts))
    same("not beyond the next command of a connection", [b"STORED\r\nMN\r\n", item % b"x"],
         near("beyond", [(0, store % b"x"), (0, b"mn\r\n"), (1, b"get a\r\n")], [b"STORED\r\nMN\r\n", b"END\r\n"]))


def uniques():
    """A `cas` names the unique here of the item whose unique it named in the recording."""
    store, stored, shards = b"set a 0 0 1\r\nx\r\n", b"STORED\r\n", ("--shards", "4")
    gets, cas = b"VALUE a 0 1 %d\r\n%s\r\nEND\r\n", b"cas a 0 0 1 %d\r\n%s\r\n"
    [other] = {unique for at in range(1, 9) if (unique := 4 * at + shard_of(b"a", 4)) > 8} & {12 + shard_of(b"a", 4)}
    for name, turns, texts in (
        ("a cas", [(0, store), (1, b"gets a\r\n"), (1, cas % (7, b"y")), (0, b"get a\r\n")],
         [stored + b"VALUE a 0 1\r\ny\r\nEND\r\n", gets % (7, b"x") + stored]),
        ("of two connections, the first", [(0, store), (0, b"gets a\r\n"), (1, b"gets a\r\n"), (0, cas % (7, b"y")), (1, cas % (7, b"z"))],
         [stored + gets % (7, b"x") + stored, gets % (7, b"x") + b"EXISTS\r\n"]),
        ("by meta commands", [(0, store), (0, b"mg a c v\r\n"), (0, b"ms a 1 C7\r\ny\r\n"), (0, b"ms a 1 C7\r\nz\r\n")],
         [stored + b"VA 1 c7\r\nx\r\nHD\r\nEX\r\n"]),
        ("with a unique that nothing showed", [(0, store), (0, cas % (7, b"y")), (0, cas % (7, b"z"))], [stored * 2 + b"EXISTS\r\n"]),
        ("with one that is another item's here", [(0, store), (0, store), (0, cas % (other, b"y"))], [stored * 2 + b"EXISTS\r\n"]),
        ("shown by a gats", [(0, store), (0, b"gats 0 a\r\n"), (0, cas % (7, b"y"))], [stored + gets % (7, b"x") + stored]),
    ):
        got = near(name, turns, texts, shards)
        same(name, *([without_numbers(text) for text in some] for some in (texts, got)))
    made = capture(1, pieces(0, store + cas % (7, b"y")))
    same("without replies", True, b" 7\r\ny" in joined(made))


def limits():
    """A search that meets its most states of a key says so."""
    turns, item = [*((c, b"set a 0 0 1\r\n%d\r\n" % c) for c in range(3)), (3, b"get a\r\n"), (3, b"get a\r\n")], b"VALUE a 0 1\r\n%d\r\nEND\r\n"
    sets = [b"STORED\r\n"] * 3
    with tempfile.TemporaryDirectory() as folder, mock.patch.object(near_order, "LIMIT", 1):
        paths = written(folder, sent=capture(4, [segment(*turn) for turn in turns]),
                        recorded=replies([*sets, item % 1 + item % 0]), other=replies([*sets, item % 2 * 2]))
        for tool, then, *words in (("inline", "the order is one", "sent", "recorded"), ("compare", "causes are those", "--capture", "sent",
                                                                                  "recorded", "other")):
            said = run(tool, *SEARCH, *(paths.get(word, word) for word in words)).stderr.decode()
            same(f"what {tool} says", f"tools/{tool}: no order was found: key a: given up after 1 state; {then} near ", said[: said.find("near ") + 5])


def without_numbers(text):
    """An output without uniques, and without what answers a `gats`."""
    lines = [re.sub(rb"(^VALUE a 0 1| c)( ?[0-9]+)$", rb"\1", line) for line in text.split(b"\r\n")]
    return [line for line in lines if line[:5] not in (b"VALUE", b"ERROR") and line not in (b"x", b"END")]


def orders_of_their_own():
    """An order near that of arrival has each command once, those of a connection in their order."""
    for number in range(20):
        draw = random.Random(number)
        turns, texts = drawn_turns(draw, 2 + number % 7, 200, ALL)
        given = capture(len(texts), [segment(*turn) for turn in turns])
        with tempfile.TemporaryDirectory() as folder:
            paths = written(folder, sent=given, recorded=replies(texts))
            arrivals = Arrivals(paths["sent"])
            texts_of = recorded(arrivals, paths["recorded"])
            found = list(with_answers(arrivals, streams_of(arrivals.records()), texts_of))
            ends = ends_of(arrivals, found)
        seen = [Seen(one.arrival.command, one.answer) for one in found]
        for is_single in (True, False):
            order = [found[at].arrival for at in near_arrival(found, seen, ends, is_single)]
            same(f"the commands of {number}", sorted(one.arrival.record for one in found), sorted(one.record for one in order))
            for connection in range(len(texts)):
                own = [one.record for one in order if one.connection == connection]
                same(f"those of a connection of {number}", sorted(own), own)


STORING = (b"get %s\r\n", b"set %s 0 0 4\r\n%04d\r\n")
ALL = (*STORING, b"add %s 0 0 4\r\n%04d\r\n", b"append %s 0 0 4\r\n%04d\r\n", b"incr %s %d\r\n", b"delete %s\r\n")


def drawn_orders():
    """Clients that wait for answers, and a server that takes their commands in another order: nearly all answers are
    those of the server in an order near that of arrival, and many are not in that of arrival."""
    count, found, arrival = differing("drawn orders", random.Random(1), 40, 4000, STORING)
    if found > count / 100 or arrival < count / 5:
        fail("drawn orders", f"{found} and {arrival} of {count} answers differ")
    for number in range(12):
        name = f"drawn orders of all commands, {number}"
        count, found, arrival = differing(name, random.Random(number), 3 + number % 8, 60, ALL)
        if found > arrival:
            fail(name, f"{found} of {count} answers differ, and {arrival} in the order of arrival")


def differing(name, draw, clients, most, lines):
    """How many commands drawn clients send, and how many answers differ in an order near that of arrival, and in that."""
    turns, texts = drawn_turns(draw, clients, most, lines)
    differ = [0, 0]
    found = near(name, turns, texts), in_order(read_capture(Part("capture", capture(
        clients, [segment(*turn) for turn in turns]))))
    for at, of_all in enumerate((found[0], [found[1][client, 0] for client in range(clients)])):
        differ[at] = sum(one != other for pair in zip(of_all, texts) for one, other in zip_longest(*map(answers, pair)))
    return len(turns), *differ


def drawn_turns(draw, clients, most, lines):
    """What drawn clients send that wait for answers, and what a server answers that takes commands in an order of its own."""
    shard, turns, waiting, texts = Shard(0, 1), [], {}, [b""] * clients
    for number in range(most):
        idle = [client for client in range(clients) if client not in waiting]
        if idle and (draw.randrange(3) or not waiting):
            client, line = draw.choice(idle), draw.choice(lines)
            line %= (b"k%d" % draw.randrange(5), number)[: line.count(b"%")]
            turns.append((client, line))
            waiting[client] = line
        else:
            client = draw.choice(list(waiting))
            [command] = commands_of(waiting.pop(client))
            texts[client] += text_of(command, [shard.reply(call) for _, call in calls(1, command)])
    for client, line in waiting.items():
        [command] = commands_of(line)
        texts[client] += text_of(command, [shard.reply(call) for _, call in calls(1, command)])
    return turns, texts


# ---- a memcached, and the program


def against_memcached():
    """Clients that share keys, at a memcached that held items before: recorded, warmed, served in one order, compared."""
    built_program()
    with tempfile.TemporaryDirectory() as folder, traffic.memcached() as place:
        os.chdir(folder)
        traffic.talk(place, b"".join(b"set old%d 3 0 4\r\nwarm\r\n" % at for at in range(20)))
        recorder = traffic.Recorder(place)
        traffic.at_once([lambda number=number: client(recorder.place, number) for number in range(20)])
        recorder.end()
        before = differences("my.cap", "my.replies")
        with open("warm.cap", "wb") as file:
            ran = run("warm", "my.cap", "my.replies")
            file.write(ran.stdout)
        after = differences("warm.cap", "my.replies")
        os.chdir("/")
    same("the items from before", (True, "tools/warm: 20 items\n"), ("items that the capture" in before, ran.stderr.decode()))
    same("what is left", False, "items that the capture" in after or "of the servers" in after)


def client(place, number):
    """A client that waits for each answer: its own keys, keys that all share, and items from before."""
    draw = random.Random(number)
    with traffic.connected(place) as one:
        lines = one.makefile("rb")
        for at in range(30):
            key = b"shared%d" % draw.randrange(4) if at % 3 else b"old%d" % draw.randrange(20)
            one.sendall(b"get %s\r\n" % key)
            while lines.readline() != b"END\r\n":
                pass
            one.sendall(b"set shared%d 0 0 4\r\n%04d\r\n" % (draw.randrange(4), number * 100 + at))
            lines.readline()


def differences(given, recorded):
    """What is said of a recording and what the program answers near the order of arrival."""
    output = subprocess.run([program_path(), "run"], input=run("inline", *SEARCH, given, recorded).stdout, stdout=subprocess.PIPE,
                            timeout=LONGEST, check=True).stdout
    cut = run("inline", *SEARCH, "--cut", "-", given, recorded, given=output)
    same("the replies are cut", (0, b""), (cut.returncode, cut.stderr))
    with open("its.replies", "wb") as file:
        file.write(cut.stdout)
    ran = run("compare", "--all", *SEARCH, "--capture", given, recorded, "its.replies")
    last = ran.stdout.decode().splitlines()[-1:]
    same("the comparison", (True, True, b""), (ran.returncode in (0, 1), bool(last), ran.stderr))
    return ran.stdout.decode()


Tests = cases(values, connections, orders, drawn_captures, near_orders, limits, uniques, orders_of_their_own, drawn_orders,
              against_memcached)

if __name__ == "__main__":
    unittest.main()
