"""Tests tools/play on a small server and, where there are some, on a memcached and the program."""
import os
import random
import re
import resource
import signal
import subprocess
import tempfile
import unittest

from checks import LONGEST, TOP, built_program, cases, fail, program_path, run, same, skip
from traffic import (Recorder, Server, at_once, connected, files_of, free_port, memcached, patched, take, talk,
                     until)
from zygos_tools.files import spool
from zygos_tools.files.formats import capture, close, pieces, read_replies, replies, segment, sessions
from zygos_tools.files.growing import Growing
from zygos_tools.files.part import Part
from zygos_tools.judging.reading import Recording
from zygos_tools.protocol.meaning import Framer, framed
from zygos_tools.protocol.pace import Answers, Commands, Pace
from zygos_tools.recording.counting import Count

# a wait for answers that a loaded machine does not end
WAITS = "--wait", "3600"
# the open files of a server of 4,096 connections, and of what else a test has open
FILES = 4200


def played(name, server, given, *words, status=0):
    """What is written when a capture is played, and what is said besides times."""
    wait = () if "--wait" in words else WAITS
    ran = run("play", "-", "--server", server.place, *wait, *words, given=given)
    said = re.sub(r" in [0-9.]+ s\n", "\n", ran.stderr.decode())
    said = re.sub(r"tools/play: answered within: .*\n", "", said)
    same(f"the status of {name}", status, ran.returncode)
    return ran.stdout, said


def plays(name, wanted, given, *words, status=0, said=None):
    """A new server gives these replies."""
    with Server() as server:
        written, told = played(name, server, given, *words, status=status)
        same(name, wanted, written)
        if said is not None:
            same(f"what is said of {name}", said, told)


def both_orders(name, wanted, given):
    for words in ((), ("--in-order",)):
        plays(f"{name} {' '.join(words)}", wanted, given, *words)


def numbered(connections, commands):
    """Commands of each connection on its own keys, and their answers."""
    asked = [[b"set c%d:%d 0 0 2\r\nxy\r\nget c%d:%d\r\n" % (c, k, c, k) for k in range(commands)]
             for c in range(connections)]
    told = [b"".join(b"STORED\r\nVALUE c%d:%d 0 2\r\nxy\r\nEND\r\n" % (c, k) for k in range(commands))
            for c in range(connections)]
    return asked, told


def orders():
    """Commands in one segment, in several, and cut anywhere."""
    asked, told = numbered(5, 20)
    whole = [record for c in range(5) for record in pieces(c, b"".join(asked[c]))]
    both_orders("streams at once", replies(told), capture(5, whole))
    turns = [record for k in range(20) for c in range(5) for record in pieces(c, asked[c][k], 11)]
    both_orders("commands in pieces", replies(told), capture(5, turns))
    plays("what is said", replies(told), capture(5, turns),
          said="tools/play: 5 connections, 200 commands answered\n")
    both_orders("nothing", replies([]), capture(0, []))
    ends = [record for k in range(20) for c in range(5) for record in [*pieces(c, asked[c][k]), segment(c, b"")]]
    both_orders("segments without bytes", replies(told), capture(5, ends))
    both_orders("a connection that sends nothing", replies([b"", b"MN\r\n"]), capture(2, [segment(1, b"mn\r\n"),
                                                                                        segment(0, b"")]))


def in_order():
    """Each command is sent after the answers to all before it, on whatever connection."""
    records = [record for k in range(200) for record in (
        segment(k % 7, b"set a 0 0 3\r\n%03d\r\n" % k), segment((k + 1) % 7, b"get a\r\n"))]
    wanted = [b""] * 7
    for k in range(200):
        wanted[k % 7] += b"STORED\r\n"
        wanted[(k + 1) % 7] += b"VALUE a 0 3\r\n%03d\r\nEND\r\n" % k
    plays("the order of a capture", replies(wanted), capture(7, records), "--in-order")


def later_sessions():
    """Sessions come one after the other; some send nothing."""
    records = [segment(0, b"mn\r\n"), close(0), segment(0, b"set a 0 0 1\r\nx\r\n"), segment(1, b"mn\r\n"), close(0),
               close(0), segment(0, b"get a\r\nget a"), close(1)]
    found = b"VALUE a 0 1\r\nx\r\nEND\r\n"
    both_orders("sessions", sessions([[b"MN\r\n", b"STORED\r\n", b"", found], [b"MN\r\n", b""], [b""]]),
                capture(3, records, 2))


def many():
    records = [segment(c, b"mn\r\n") for c in range(20)]
    plays("few connections at a time", replies([b"MN\r\n"] * 20), capture(20, records), "--connections", "3",
          said="tools/play: 20 connections, 20 commands answered\n")
    # the server of this process has a file for each connection
    most = resource.getrlimit(resource.RLIMIT_NOFILE)[1]
    if 0 <= most < FILES:
        skip(f"{most} files may be open (ulimit -Hn), not {FILES}")
    resource.setrlimit(resource.RLIMIT_NOFILE, (most, most))
    records = [segment(c, b"mn\r\n") for c in range(4096)]
    plays("4,096 connections", replies([b"MN\r\n"] * 4096), capture(4096, records),
          said="tools/play: 4096 connections, 4096 commands answered\n")


def large():
    """Answers and values that fill the buffers of both sides."""
    value = b"0123456789abcdef" * 6400
    asked = b"set a 0 0 %d\r\n%s\r\n" % (len(value), value) * 20 + b"get a\r\n" * 300
    told = b"STORED\r\n" * 20 + b"VALUE a 0 %d\r\n%s\r\nEND\r\n" % (len(value), value) * 300
    plays("large values", replies([told, told]), capture(2, [*pieces(0, asked), *pieces(1, asked)]))


def quiet():
    """Commands that are not answered, or only perhaps."""
    text = (b"set a 0 0 1 noreply\r\nx\r\nmg a v q\r\nmg b v q\r\nmn\r\nset b 0 0 1 noreply\r\ny\r\n", b"mg b v q\r\n",
            b"get b\r\n")
    both_orders("quiet commands", replies([b"VA 1\r\nx\r\nMN\r\nVA 1\r\ny\r\nVALUE b 0 1\r\ny\r\nEND\r\n"]),
                capture(1, [segment(0, one) for one in text]))


def tabs():
    """A tab is part of a key."""
    text = b"set a\tb 0 0 1\r\nx\r\nget a\tb 1 2\r\nset \t 0 0 1 noreply\r\ny\r\nget \t\r\n"
    both_orders("keys with tabs", replies([b"STORED\r\nVALUE a\tb 0 1\r\nx\r\nEND\r\nVALUE \t 0 1\r\ny\r\nEND\r\n"]),
                capture(1, pieces(0, text)))


def swaps(first):
    """Commands of a client that compares and swaps, each with its answer, for a server whose uniques begin after
    `first`. The last two name a unique of no item, and one that the key had before."""
    return [(b"set a 0 0 1\r\nx\r\n", b"STORED\r\n"), (b"set b 0 0 1\r\nx\r\n", b"STORED\r\n"),
            (b"gets a b\r\n", b"VALUE a 0 1 %d\r\nx\r\nVALUE b 0 1 %d\r\nx\r\nEND\r\n" % (first + 1, first + 2)),
            (b"cas a 0 0 1 %d\r\ny\r\n" % (first + 1), b"STORED\r\n"), (b"mg b c\r\n", b"HD c%d\r\n" % (first + 2)),
            (b"ms b 1 C%d\r\nz\r\n" % (first + 2), b"HD\r\n"), (b"get b\r\n", b"VALUE b 0 1\r\nz\r\nEND\r\n"),
            (b"gets a\r\n", b"VALUE a 0 1 %d\r\ny\r\nEND\r\n" % (first + 3)),
            (b"cas a 0 0 1 1234567\r\nx\r\n", b"EXISTS\r\n"), (b"cas a 0 0 1 %d\r\nx\r\n" % (first + 1), b"EXISTS\r\n")]


def uniques():
    """A recorded `cas` names the unique of the server to which it is played."""
    asked, told = (b"".join(texts) for texts in zip(*swaps(77)))
    answered = b"".join(answer for _, answer in swaps(1000))
    with open("recorded", "wb") as file:
        file.write(replies([told]))
    for name, size in (("by command", None), ("in pieces", 7), ("byte by byte", 1)):
        given = capture(1, [segment(0, text) for text, _ in swaps(77)] if size is None else pieces(0, asked, size))
        for words in ((), ("--in-order",)):
            with Server(unique=1000) as server:
                same(f"uniques, {name}", (replies([answered]), "tools/play: 1 connections, 10 commands answered\n"
                     "tools/play: 2 uniques translated, 2 sent as they are\n"),
                     played(f"uniques, {name}", server, given, "--recorded", "recorded", *words))
    given = capture(1, [segment(0, text) for text, _ in swaps(77)])
    says("replies of another recording", "recorded: replies of 1 connections, and the capture has 2: give those of"
         " its recording", "-", "--server", "127.0.0.1:1", "--recorded", "recorded", given=capture(2, []))
    with Server(unique=1000) as server:
        stored = answered.replace(b"EXISTS\r\n", b"STORED\r\n", 1)
        same("uniques without a recording", (replies([stored]), "tools/play: 1 connections, 10 commands answered\n"
             "tools/play: 4 uniques translated, 0 sent as they are\n"), played("no recording", server, given))
    with Server(unique=1000) as server:
        same("uniques as they are", (4, True), (lambda text, said: (text.count(b"EX"), "uniques" not in said))(
            *played("uniques as they are", server, given, "--as-is")))
    with Server(unique=77) as server:
        same("uniques as they are, and right", replies([told]), played("right uniques", server, given, "--as-is")[0])


def uniques_of_others():
    """A `cas` names a unique that another connection, or another session, was shown; those of its own come first."""
    shows = b"VALUE a 0 1 %d\r\nx\r\nEND\r\n"
    store, look, swap = b"set a 0 0 1\r\nx\r\n", b"gets a\r\n", b"cas a 0 0 1 %d\r\nx\r\n"
    # the number of the connection, what is sent, and what is answered in the recording and here
    steps = [(0, store, b"STORED\r\n", b"STORED\r\n"), (0, look, shows % 8, shows % 501),
             (1, swap % 8, b"STORED\r\n", b"STORED\r\n"), (1, look, shows % 9, shows % 502), (1, None, b"", b""),
             (1, store, b"STORED\r\n", b"STORED\r\n"), (1, look, shows % 8, shows % 503),
             (0, swap % 8, b"EXISTS\r\n", b"EXISTS\r\n"), (1, swap % 8, b"STORED\r\n", b"STORED\r\n")]
    given = capture(2, [segment(c, text) if text else close(c) for c, text, _, _ in steps], 2)
    files = []
    for at in (2, 3):
        second = [one[at] for one in steps if one[0] == 1]
        files.append(sessions([[b"".join(one[at] for one in steps if one[0] == 0)],
                               [b"".join(second[:2]), b"".join(second[3:])]]))
    with open("recorded", "wb") as file:
        file.write(files[0])
    with Server(unique=500) as server:
        same("uniques of others", files[1], played("uniques of others", server, given, "--in-order", "--recorded",
                                                   "recorded")[0])


def held_back():
    """A line that may name a unique waits for its end; at the end of a session it is sent as it is."""
    for text in (b"mn\r\ncas a 0 0 1 7", b"mn\r\nc", b"mn\r\n ms a 1 C5"):
        with Server() as server:
            recorder = Recorder(server.place)
            given = capture(1, pieces(0, text, 1))
            ran = run("play", "-", "--server", recorder.place, *WAITS, given=given)
            recorder.end()
            same(f"what is sent of {text}", {(0, 0): text}, files_of()[0])
            same(f"what is answered to {text}", replies([b"MN\r\n"]), ran.stdout)


def interrupted():
    """Ctrl-C ends it, and what came back is written."""
    given = capture(2, [segment(0, b"mn\r\n"), segment(0, b"hush\r\n"), segment(1, b"hush\r\n"), close(1),
                        segment(1, b"mn\r\n")], 2)
    with open("my.cap", "wb") as file:
        file.write(given)
    with Server() as server:
        words = [os.path.join(TOP, "tools/play"), "my.cap", "--server", server.place, *WAITS]
        with subprocess.Popen(words, stdout=subprocess.PIPE, stderr=subprocess.PIPE) as process:
            until("both connections ask", lambda: server.hushed == 2)
            process.send_signal(signal.SIGINT)
            text, said = process.communicate(timeout=LONGEST)
    lines = [line for line in said.decode().splitlines() if " in " not in line and "within" not in line]
    same("what is interrupted", (1, {(0, 0): b"MN\r\n", (1, 0): b""}, ["tools/play: 2 commands were not answered",
         "tools/play: interrupted: what came back so far is written"]), (process.returncode, {
             (one.connection, one.session): one.text for one in read_replies(Part("replies", text)).outputs}, lines))


# a clock that goes on by 10 seconds whenever it is read, once the file exists: so answers may come after the file
LATE = """import os
from zygos_tools.playing import playing


class Clock:
    now = 0.0

    @classmethod
    def perf_counter(cls):
        cls.now += 10.0 * os.path.exists("late")
        return cls.now


playing.time = Clock
"""


def faulty_servers():
    """Answers that do not come, and a server that closes."""
    tool = patched("play", LATE)
    with open("my.cap", "wb") as file:
        file.write(capture(2, [segment(0, b"mn\r\n"), segment(0, b"hush\r\n"), segment(0, b"mn\r\n"),
                               segment(1, b"hold\r\n"), segment(1, b"mn\r\n"), segment(1, b"hush\r\n")]))
    with Server() as server:
        words = [*tool, "my.cap", "--server", server.place, "--wait", "60"]
        with subprocess.Popen(words, stdout=subprocess.PIPE, stderr=subprocess.PIPE) as process:
            until("both wait", lambda: server.hushed == server.held == 1)
            server.release()
            until("the other one waits too", lambda: server.hushed == 2)
            with open("late", "wb"):
                pass
            text, said = process.communicate(timeout=LONGEST)
    lines = [line for line in said.decode().splitlines() if "within:" not in line]
    same("missing answers", (1, replies([b"MN\r\nMN\r\n", b"OK\r\nMN\r\n"]), [
        "tools/play: 2 commands were not answered",
        "tools/play: 2 of them after 60 seconds without any answer; --wait waits longer"]),
         (process.returncode, text, lines[1:]))
    plays("a quit", replies([b"MN\r\n"]), capture(1, [segment(0, b"mn\r\nquit\r\nmn\r\n"), segment(0, b"mn\r\n")]),
          said="tools/play: 1 connections, 1 commands answered\n")
    plays("a server that closes", replies([b"MN\r\n", b"MN\r\n"]),
          capture(2, [segment(0, b"mn\r\nquitting\r\nmn\r\n"), segment(1, b"mn\r\n")]), status=1,
          said="tools/play: connection 0: closed by the server\ntools/play: 2 connections, 2 commands answered\n"
          "tools/play: 2 commands were not answered\ntools/play: 1 sessions ended too early\n"
          "tools/play: 1 of them the server closed: if it allows fewer connections, --connections 50 has no more at a"
          " time\n")


def other_sockets():
    given, wanted = capture(2, [segment(0, b"mn\r\n"), segment(1, b"mn\r\n" * 2)]), replies([b"MN\r\n", b"MN\r\n" * 2])
    for place in (("::1", 0), os.path.abspath("server")):
        with Server(place) as server:
            same(f"through {place}", wanted, played(f"through {place}", server, given)[0])


def says(name, line, *words, given=b"", status=1):
    ran = run("play", *words, given=given)
    same(name, (status, b"", f"tools/play: {line}\n"), (ran.returncode, ran.stdout, ran.stderr.decode()))


def words():
    usage = "a capture is played, and --server says where; --help says more"
    place = f"127.0.0.1:{free_port()}"
    ran = run("play", "--help")
    lines = ran.stdout.decode().splitlines()
    if ran.returncode or len(lines) > 40 or max(map(len, lines)) > 120:
        fail("the help of play", f"{ran.returncode} {len(lines)} lines")
    says("no server", usage, "-", status=2)
    says("no capture", usage, "--server", place, status=2)
    says("an unknown word", "no such option: --what; --help lists them", "--what", status=2)
    says("uniques in two ways", "--recorded is a replies file, for uniques that are not sent --as-is; --help says more",
         "-", "--server", place, "--recorded", "x", "--as-is", status=2)
    says("no time", "--wait takes a number of seconds, not x", "--wait", "x", status=2)
    says("no file", "none: No such file or directory", "none", "--server", place)
    one = capture(1, [segment(0, b"mn\r\n")])
    says("nobody listens", f"{place}: Connection refused: start the server, or give another --server",
         "-", "--server", place, given=one)
    for given, line in ((one[:-1], "capture: truncated at 25"), (one + b"E", "capture: trailing at 26"),
                        (b"ZYGREP", "capture: bad-magic at 3"), (replies([b""]), "this is a replies file; the capture comes first"),
                        (b"get a\r\n", "this is text; tools/capture makes a capture of text"),
                        (b"\x1f\x8b\x08", "this is a compressed file; decompress it first")):
        says(f"a faulty capture: {line}", f"standard input: {line}", "-", "--server", place, given=given)


def closed_pipe():
    """The reader of the output goes away: the tool says nothing of it."""
    with Server() as server, open("my.cap", "wb") as file:
        file.write(capture(1, [segment(0, b"big 1000000\r\n")]))
        file.flush()
        ran = subprocess.run(["bash", "-c", '"$0" "$@" | head -c 1 > /dev/null', os.path.join(TOP, "tools/play"),
                              "my.cap", "--server", server.place, *WAITS], capture_output=True, timeout=LONGEST, check=False)
        same("a closed pipe", 2, ran.stderr.count(b"\n"))


# ---- a memcached, and the program


def zygos(*words, given):
    return subprocess.run([program_path(), *words], input=given, stdout=subprocess.PIPE, timeout=LONGEST, check=False).stdout


def alike(name, one, other):
    """tools/compare finds no difference of two replies files."""
    with open("one", "wb") as file:
        file.write(one)
    ran = run("compare", "one", "-", given=other)
    same(name, (0, b"same"), (ran.returncode, ran.stdout[:4]))


def swapped(place):
    """A client of a memcached learns uniques and names them; gives whether each `cas` stored."""
    stored = []
    with connected(place) as one:
        for number in range(20):
            one.sendall(b"set k%d 0 0 1\r\nx\r\ngets k%d\r\n" % (number, number))
            text = b""
            while not text.endswith(b"END\r\n"):
                text += one.recv(1000)
            one.sendall(b"cas k%d 0 0 1 %s\r\ny\r\n" % (number, re.search(rb"1 ([0-9]+)\r\n", text)[1]))
            stored.append(take(one, 8) == b"STORED\r\n")
    return all(stored)


def uniques_of_memcached():
    """A memcached is recorded whose uniques differ from those of another one, to which the capture is played."""
    with memcached() as place:
        talk(place, b"set a 0 0 1\r\nx\r\n" * 7)
        recorder = Recorder(place)
        same("swaps of a memcached", True, swapped(recorder.place))
        recorder.end()
    for words in (("--recorded", "my.replies"), ()):
        with memcached() as place:
            ran = run("play", "my.cap", "--server", place, *WAITS, *words)
        same(f"swaps that are played {words}", (0, 40, True), (ran.returncode, ran.stdout.count(b"STORED"),
             b"20 uniques translated, 0 sent as they are" in ran.stderr))


def against_memcached():
    """A memcached is recorded; the program serves the capture alike, the run is certified, and it is played alike."""
    built_program()
    asked, _ = numbered(3, 50)
    texts = [b"".join(lines) + b"incr c%d:0 1\r\nset n 0 0 1 noreply\r\n7\r\nmg c%d:1 v\r\nmn\r\n" % (c, c)
             for c, lines in enumerate(asked)]
    with memcached() as place:
        recorder = Recorder(place, "--ends")
        at_once([lambda text=text: talk(recorder.place, text, 9) for text in texts])
        recorder.end()
    same("what is recorded", sorted(texts), sorted(files_of()[0].values()))
    with open("my.cap", "rb") as one, open("my.replies", "rb") as other:
        given, recorded = one.read(), other.read()
    served = zygos("run", "--out", "both", given=given)
    same("the certificate", b"yes\n", zygos("check", given=given + served))
    alike("the program serves what a memcached did", recorded, served)
    made = zygos("gen", "--conns", "50", "--commands", "40", given=b"")
    for name, traffic in (("recorded", given), ("generated", made)):
        for order in ((), ("--in-order",)):
            with memcached() as place:
                ran = run("play", "-", "--server", place, *WAITS, *order, given=traffic)
            same(f"playing {name} traffic", 0, ran.returncode)
            alike(f"{name} traffic, played {' '.join(order)}", ran.stdout, zygos("run", given=traffic))
    count = len(read_replies(Part("replies", ran.stdout)).outputs)
    same("the outputs of generated traffic", 50, count)


class Silent:
    """A screen on which nothing is shown."""

    def progress(self, *_):
        return lambda _: None

    def clear(self):
        pass


def joined():
    """What came back is joined alike in a file and for a pipe."""
    for number in range(40):
        draw = random.Random(number)
        with tempfile.TemporaryFile() as kept, tempfile.TemporaryFile() as made:
            growing, count, version = Growing(kept.fileno()), draw.randrange(1, 6), 1 + number % 2
            for _ in range(draw.randrange(50)):
                if version == 2 and draw.random() < 0.2:
                    growing.close(draw.randrange(count))
                else:
                    growing.segment(draw.randrange(count), draw.randbytes(draw.choice((0, 1, 100, 65535))))
            growing.finish(version, count)
            spool.replies_of(kept.fileno(), made.fileno(), version, count, Silent())
            made.seek(0)
            same(f"replies {number}", made.read(), b"".join(spool.replies_in_order(kept.fileno(), version, count, Silent())))


def error_lines():
    """An error line is counted for the first command that waits, be it a meta command or not; so is what answers `me`."""
    for sent, heard in ((b"foo\r\nmg a v\r\nget a\r\n", (b"ERROR\r\n", b"EN\r\n", b"END\r\n")),
                        (b"get a\r\nmg\r\nmg a v\r\n", (b"END\r\n", b"CLIENT_ERROR bad\r\n", b"EN\r\n")),
                        (b"me a\r\nget a\r\nme a\r\n", (b"EN\r\n", b"END\r\n", b"ME a exp=-1 la=0\r\n"))):
        for pace in (Pace(), Count()):
            pace.sent(sent)
            owed = [pace.owed]
            for text in heard:
                pace.heard(text)
                owed.append(pace.owed)
            same("the commands that wait", [3, 2, 1, 0], owed)


# commands and answers of each form, whole and as a connection's end leaves them
STREAMS = (b"get a\r\nset a 0 0 5\r\nhello\r\nset a 0 0 2\nxx\r\nms a 3 T0\r\nabc\r\n\r\n get b\r\nms a 2 ?\r\nxy\r\nget c\r\nquit\r\nget d\r\n",
           b"cas a 0 0 1 5\r\nx\r\nset a 0 0 0\r\n\r\nset b 0 0 9 noreply\r\n123", b"gets a b\r\nfoo\r\nincr a 1\r\nge")
TOLD = b"END\r\nVALUE a 0 5 7\r\nhello\r\nVALUE b 0 0\r\n\r\nEND\r\nVA 3 c5\r\nabc\r\nSTAT a b\r\nEND\r\n7\r\nITEM a [1 b; 0 s]\r\nEND\r\nHD c"


def streams_in_pieces():
    """However a stream comes in pieces, its frames and its answers are the same, for all who cut it."""
    draw = random.Random(1)
    for turn in range(300):
        stream = STREAMS[turn % 3] if turn % 4 else TOLD
        some, at = [], 0
        while at < len(stream):
            some.append(stream[at : at + draw.choice((1, 2, 3, 5, 20))])
            at += len(some[-1])
        if stream is TOLD:
            same("the answers", ends_of(Answers(), [stream]), ends_of(Answers(), some))
            continue
        same("the commands", ends_of(Commands(), [stream]), ends_of(Commands(), some))
        framer = Framer()
        same("the frames", list(framed(stream)), [frame for piece in some for frame in framer.feed(piece)])
        whole, cut = (Recording(capture(1, [segment(0, text) for text in texts])).table for texts in ([stream], some))
        same("what the judge reads", [whole.original(one) for one in range(len(whole.verb))],
             [cut.original(one) for one in range(len(cut.verb))])


def ends_of(cutter, pieces):
    """Where the commands or the answers of a stream end, each with its first word."""
    found, begin = [], 0
    for piece in pieces:
        found += [(one[0], begin + one.end) for one in cutter.feed(piece)]
        begin += len(piece)
    return found


Tests = cases(words, error_lines, streams_in_pieces, joined, orders, in_order, later_sessions, many, large, quiet, tabs, uniques,
              uniques_of_others, held_back, interrupted, faulty_servers, other_sockets, closed_pipe,
              uniques_of_memcached, against_memcached, has_folder=True)

if __name__ == "__main__":
    unittest.main()
