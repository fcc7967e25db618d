"""Tests tools/record by the habits of real clients and servers: nothing is lost."""
import contextlib
import fcntl
import os
import pty
import random
import re
import resource
import select
import signal
import socket
import struct
import subprocess
import threading
import time
import unittest

from checks import LONGEST, TOP, cases, fail, run, same
from traffic import (Recorder, Server, at_once, big, connected, files_of, has_size, memcached, patched, rest_of, take,
                     talk, until)
from zygos_tools.cli.screen import Progress
from zygos_tools.files.formats import capture, capture_start, close, read_capture, read_replies, replies, segment
from zygos_tools.files.part import Part
from zygos_tools.protocol.pace import Pace
from zygos_tools.recording.counting import Count
from zygos_tools.recording.parts import HEAD, PartFile, join

# limits that tests make smaller
LIMITS = "from zygos_tools.recording import proxy, recording; "
SET, GET = b"set %d 0 0 5\r\nvalue\r\n", b"get %d\r\n"
ASKED = b"set a 0 0 1\r\nx\r\nget a\r\n"
ANSWERED = b"STORED\r\nVALUE a 0 1\r\nx\r\nEND\r\n"


def recorded(connections, commands, sent, back):
    return (f"tools/record: {connections} connections recorded, {commands} commands, {sent} bytes sent,"
            f" {back} bytes back\n")


def says(name, line, *words, status=1):
    """The tool ends with a line, and makes no file."""
    before = sorted(os.listdir("."))
    ran = subprocess.run([os.path.join(TOP, "tools/record"), *words], capture_output=True, timeout=LONGEST, check=False)
    same(name, (status, f"tools/record: {line}\n", before),
         (ran.returncode, ran.stderr.decode(), sorted(os.listdir("."))))


# ---- what is recorded


def several_clients():
    with Server() as server:
        recorder = Recorder(server.place)
        texts = [b"".join(SET % (c * 1000 + k) + GET % (c * 1000 + k) for k in range(300)) for c in range(5)]
        got = {}
        at_once([lambda text=text: got.update({text: talk(recorder.place, text, 7)}) for text in texts])
        status, said = recorder.end()
        sent, back = files_of()
        same("what was sent", sorted(texts), sorted(sent.values()))
        same("what came back", got, {sent[key]: back[key] for key in sent})
        length = sum(map(len, texts))
        same("what is said", (0, recorded(5, 3000, length, sum(map(len, got.values())))), (status, said))
        same("no spool is left", ["my.cap", "my.replies"], sorted(os.listdir(".")))


def no_client():
    with Server() as server:
        recorder = Recorder(server.place)
        same("a recording without a client", (0, recorded(0, 0, 0, 0)), recorder.end())
        same("its files", ({}, {}), files_of())


def two_hundred():
    with Server() as server:
        recorder = Recorder(server.place, "--connections", "200")
        ones = [connected(recorder.place) for _ in range(200)]
        for number, one in enumerate(ones):
            one.sendall(SET % number + GET % number)
        told = b"STORED\r\nVALUE %d 0 5\r\nvalue\r\nEND\r\n"
        got = [take(one, len(told % number)) for number, one in enumerate(ones)]
        for one in ones:
            one.close()
        same("200 at a time end by themselves", 0, recorder.end(None)[0])
        sent, back = files_of()
        same("200 at a time", {SET % number + GET % number: got[number] for number in range(200)},
             {sent[key]: back[key] for key in sent})


def other_sockets():
    """IPv6, and Unix sockets."""
    for server_place, listen in ((("::1", 0), "[::1]:0"), (os.path.abspath("server"), "./clients"),
                                 (("127.0.0.1", 0), "unix:clients")):
        with Server(server_place) as server:
            recorder = Recorder(server.place, listen=listen)
            place = f"./{recorder.place}" if "/" not in recorder.place and ":" not in recorder.place else recorder.place
            same(f"through {listen}", ANSWERED, talk(place, ASKED))
            same(f"the status of {listen}", 0, recorder.end()[0])
            same(f"recorded through {listen}", ({(0, 0): ASKED}, {(0, 0): ANSWERED}), files_of())
            same(f"the path of {listen} is removed", False, os.path.exists("clients"))
    with Server() as server:
        recorder = Recorder(server.place, listen="./clients")
        recorder.end(signal.SIGKILL)
        repaired(0)
        recorder = Recorder(server.place, listen="./clients")
        same("a path that was left", ANSWERED, talk("./clients", ASKED))
        recorder.end()


def later_sessions():
    """More connections than a capture has: a later one is a session of one that closed, or it is not recorded."""
    with Server() as server:
        recorder = Recorder(server.place, tool=patched(
            "record", f"{LIMITS}proxy.MOST_CONNECTIONS = recording.MOST_CONNECTIONS = 2"))
        first, second = connected(recorder.place), connected(recorder.place)
        for one in (first, second):
            one.sendall(b"mn\r\n")
            same("an open connection is served", b"MN\r\n", take(one, 4))
        same("a connection too many", ANSWERED, talk(recorder.place, ASKED))
        second.close()
        size = os.path.getsize("my.cap")
        until("a later session is recorded",
              lambda: talk(recorder.place, ASKED) == ANSWERED and os.path.getsize("my.cap") > size)
        first.close()
        status, said = recorder.end()
        said = re.sub("[0-9]+ connections were", "some were", said)
        same("its lines", (1, "tools/record: 2 connections are open, the most of a recording: others are passed on and"
                           " not recorded\ntools/record: some were passed on and not recorded\n"
                           + recorded(3, 4, 8 + len(ASKED), 8 + len(ANSWERED))), (status, said))
        same("its files", ({(0, 0): b"mn\r\n", (1, 0): b"mn\r\n", (1, 1): ASKED},
                           {(0, 0): b"MN\r\n", (1, 0): b"MN\r\n", (1, 1): ANSWERED}), files_of())


def ends_of_answers():
    """With --ends a segment without bytes is where an answer is whole."""
    with Server() as server:
        recorder = Recorder(server.place, "--ends")
        with connected(recorder.place) as one, connected(recorder.place) as other:
            texts = ((one, b"hold\r\n", b""), (other, ASKED[:5], b""), (other, ASKED[5:], ANSWERED),
                     (one, b"", b"OK\r\n"), (one, b"set b 0 0 1 noreply\r\nx\r\nmg c v q\r\nmg b v q\r\nmn\r\n",
                                               b"VA 1\r\nx\r\nMN\r\n"))
            ends, size = (0, 0, 2, 1, 2), 12
            for (client, sent, back), count in zip(texts, ends):
                client.sendall(sent)
                if not sent:
                    server.release()
                same(f"the answers to {sent}", back, take(client, len(back)))
                size += (9 + len(sent) if sent else 0) + 9 * count
                has_size("my.cap", size)
        same("the end of a recording with ends", 0, recorder.end()[0])
        number, sent, back = {one: 0, other: 1}, {0: b"", 1: b""}, {0: b"", 1: b""}
        for client, asked, told in texts:
            sent[number[client]] += asked
            back[number[client]] += told
        same("a recording with ends", ({(at, 0): text for at, text in sent.items()},
                                       {(at, 0): text for at, text in back.items()}), files_of())
        wanted = [record for (client, asked, _), count in zip(texts, ends)
                  for record in [*([(number[client], asked)] if asked else []), *[(number[client], b"")] * count]]
        with open("my.cap", "rb") as file:
            read = read_capture(Part("capture", file.read()))
        same("where answers end", wanted, [tuple(record) for record in read.records])


def few_files():
    """Few files may be open: clients wait until others have gone."""
    with Server() as server:
        recorder = Recorder(server.place, "--connections", "30",
                            preexec_fn=lambda: resource.setrlimit(resource.RLIMIT_NOFILE, (80, 80)))
        clients = [threading.Thread(target=lambda: same("a client that waits", b"OK\r\n", talk(recorder.place, b"hold\r\n")))
                   for _ in range(30)]
        for client in clients:
            client.start()
        same("what is said", "tools/record: no more files may be open (ulimit -n): clients wait\n", recorder.line())
        server.release()
        for client in clients:
            client.join()
        same("few files", (0, recorded(30, 30, 180, 120)), recorder.end(None))


def standard_output():
    with Server() as server:
        for files in (("-", "my.replies"), ("my.cap", "-")):
            with open("out", "wb") as out:
                recorder = Recorder(server.place, "--connections", "1", files=files, stdout=out)
                talk(recorder.place, ASKED)
                same(f"recorded to {files}", 0, recorder.end(None)[0])
            names = ["out" if name == "-" else name for name in files]
            same(f"the files of {files}", ({(0, 0): ASKED}, {(0, 0): ANSWERED}), files_of(*names))


# ---- habits of clients


def gives_up():
    """A client that times out on a large value, and one that closes at once: the others go on."""
    with Server() as server:
        recorder, size = Recorder(server.place), 20000000
        with connected(recorder.place) as other:
            with connected(recorder.place) as one:
                one.sendall(b"big %d\r\n" % size)
                take(one, 1000)
            for linger in (None, struct.pack("ii", 1, 0)):
                with connected(recorder.place) as one:
                    one.sendall(ASKED)
                    if linger:  # it has its answers, and does not read them
                        one.recv(len(ANSWERED), socket.MSG_PEEK | socket.MSG_WAITALL)
                        one.setsockopt(socket.SOL_SOCKET, socket.SO_LINGER, linger)
            other.sendall(ASKED)
            same("another client goes on", ANSWERED, take(other, len(ANSWERED)))
            has_size("my.replies.spool", len(big(size)) + 3 * len(ANSWERED))
        status, _ = recorder.end()
        sent, back = files_of()
        same("clients that give up", (0, {b"big %d\r\n" % size: big(size), ASKED: ANSWERED}),
             (status, {sent[key]: back[key] for key in sent}))


def half_closed():
    """A client that ends what it sends, and then waits for its answers."""
    with Server() as server:
        recorder = Recorder(server.place)
        with connected(recorder.place) as one:
            one.sendall(b"hold\r\n" + ASKED)
            one.shutdown(socket.SHUT_WR)
            until("the server waits", lambda: server.held)
            server.release()
            same("a half-closed connection", b"OK\r\n" + ANSWERED, rest_of(one))
        recorder.end()
        same("what is recorded of it", ({(0, 0): b"hold\r\n" + ASKED}, {(0, 0): b"OK\r\n" + ANSWERED}), files_of())


def slow_reader():
    """A client that does not read for a while is waited for, and so is a server; others are served."""
    with Server() as server:
        recorder, few, size = Recorder(server.place), 20000000, 100000000
        before = recorder.most_memory()
        with connected(recorder.place) as slow:
            slow.sendall(b"big %d\r\n" % few)
            has_size("my.replies.spool", 100000)
            same("beside a slow reader", ANSWERED, talk(recorder.place, ASKED))
            got = take_all(slow, len(big(few)))
        with connected(recorder.place) as one:
            text = b"echo %d\r\n" % size + b"y" * (size + 2)
            at_once([lambda: one.sendall(text), lambda: same("what is sent and comes back", True, take_all(one, size))])
        same("what a slow reader gets", True, got)
        grown = recorder.most_memory() - before
        recorder.process.send_signal(signal.SIGINT)
        most = 0
        while recorder.process.poll() is None:
            with contextlib.suppress(OSError, StopIteration):
                most = max(most, recorder.most_memory())
            time.sleep(0.02)
        if max(grown, most - before) > 40 << 20:
            fail("memory does not grow", f"by {grown} bytes, and {most - before} in all")
        same("the size of the files", (True, True), (os.path.getsize("my.replies") > few + size,
                                                     size < os.path.getsize("my.cap") < size + 1000000))
        recorder.process.communicate()


def take_all(one, count):
    """Whether these bytes come, in number."""
    while count and (piece := one.recv(min(count, 1 << 20))):
        count -= len(piece)
    return not count


def binary():
    with Server() as server:
        recorder = Recorder(server.place)
        for text in (b"\x80\x0b\n", b"\x16\x03\x01\n", b"mn\r\n"):
            talk(recorder.place, text)
        *lines, last = recorder.end()[1].splitlines()
        begin = "tools/record: warning: connection"
        same("connections that are no text", [
            f"{begin} 0 begins with byte 0x80, as the binary protocol does; its commands will be read as text",
            f"{begin} 1 begins with byte 0x16, as TLS does; its commands will be read as text",
            "tools/record: 2 connections begin as the binary protocol or TLS does"], lines)
        same("what is counted", recorded(3, 1, 11, 18).strip(), last)


# ---- habits of servers


def server_restarts():
    """A server that stops closes its clients; others are turned away until it is back."""
    name = os.path.abspath("server")
    server = Server(name)
    recorder = Recorder(name)
    one = connected(recorder.place)
    one.sendall(ASKED)
    take(one, len(ANSWERED))
    server.__exit__()
    same("a client whose server went", b"", rest_of(one))
    with contextlib.suppress(OSError):
        same("a client without a server", b"", talk(recorder.place, ASKED))
    with Server(name):
        same("a client after it is back", ANSWERED, talk(recorder.place, ASKED))
        status, said = recorder.end()
    # a server that begins takes the place away for a moment, in which the recorder may look
    said = said.replace("No such file or directory", "Connection refused")
    same("the lines of a restart", (0, f"tools/record: {name}: Connection refused: clients are turned away until"
                                    " it is there; --server names it\n"
                                    f"tools/record: {name}: connected again; clients turned away: 1\n"
                                    + recorded(2, 4, 2 * len(ASKED), 2 * len(ANSWERED))), (status, said))
    same("the recording of a restart", ({(0, 0): ASKED, (1, 0): ASKED}, {(0, 0): ANSWERED, (1, 0): ANSWERED}),
         files_of())
    one.close()


# ---- how it ends


def signals():
    """Ctrl-C, a termination and a closed terminal: answers that come later are kept."""
    signal.signal(signal.SIGHUP, signal.SIG_DFL)  # where the tests run under nohup, the recorder would ignore it
    for number in (signal.SIGINT, signal.SIGTERM, signal.SIGHUP):
        with Server() as server:
            recorder = Recorder(server.place)
            with connected(recorder.place) as one:
                one.sendall(ASKED)
                take(one, len(ANSWERED))
                one.sendall(b"hold\r\n")
                has_size("my.cap", 12 + 9 + len(ASKED) + 9 + 6)
                until("the server waits", lambda: server.held)
                recorder.process.send_signal(number)
                until("nothing more is taken", lambda: not listens(recorder.place))
                server.release()
                same(f"a client at {number!r}", b"OK\r\n", rest_of(one))
                status, said = recorder.end(None)
            same(f"the end by {number!r}", (0, recorded(1, 3, len(ASKED) + 6, len(ANSWERED) + 4)), (status, said))
            same(f"the files of {number!r}", ({(0, 0): ASKED + b"hold\r\n"}, {(0, 0): ANSWERED + b"OK\r\n"}),
                 files_of())


def listens(place):
    """Whether something listens at a place, as the kernel's table says: to connect would be recorded."""
    port = int(place.rsplit(":", 1)[1])
    with open("/proc/net/tcp", encoding="ascii") as table:
        rows = [line.split() for line in table.readlines()[1:]]
    return any(int(row[1].rsplit(":", 1)[1], 16) == port and row[3] == "0A" for row in rows)


def ends_with_a_slow_reader():
    """An answer that its client does not take is recorded to its end."""
    with Server() as server:
        recorder, size = Recorder(server.place), 20000000
        with connected(recorder.place) as slow:
            slow.sendall(b"big %d\r\n" % size)
            has_size("my.replies.spool", 100000)
            same("the end with a slow reader", 0, recorder.end()[0])
        same("what a slow reader leaves", {(0, 0): big(size)}, files_of()[1])


def closed_errors():
    """Standard error is closed, or its reader has gone: all is recorded."""
    with Server() as server:
        path, name = os.path.abspath("clients"), os.path.join(TOP, "tools/record")
        words = f"{name} --over --listen {path} --server '{server.place}' --connections 1 my.cap my.replies"
        for ending in ("2>&-", "2> >(true)"):
            with subprocess.Popen(["bash", "-c", f"exec {words} {ending}"]) as process:
                talk(path, b"\x80\n")
                same(f"the end with {ending}", 0, process.wait(timeout=LONGEST))
            same(f"the files with {ending}", ({(0, 0): b"\x80\n"}, {(0, 0): b"ERROR\r\n"}), files_of())


def killed():
    """A recorder that is killed: --repair completes its files, cuts where records are not whole, and says so."""
    with Server() as server:
        recorder = Recorder(server.place)
        ones = [connected(recorder.place) for _ in range(3)]
        for one in ones[:2]:
            one.sendall(ASKED)
            take(one, len(ANSWERED))
        says("files that a recorder writes", "my.replies.spool: another recording writes this file", "--listen",
             "127.0.0.1:0", "my.cap", "my.replies")
        says("files that a recorder writes, to repair", "my.replies.spool: another recording writes this file",
             "--repair", "my.cap", "my.replies")
        recorder.end(signal.SIGKILL)
        for one in ones:
            one.close()
    same("what a killed recorder leaves", ["my.cap", "my.replies", "my.replies.spool"], sorted(os.listdir(".")))
    says("a start over it", "my.replies.spool: left by a recording that did not end; complete that with --repair",
         "my.cap", "my.replies")
    kept = {name: open(name, "rb").read() for name in os.listdir(".")}
    ran = subprocess.run([os.path.join(TOP, "tools/top"), "my.cap"], capture_output=True, timeout=LONGEST, check=False)
    same("what a tool says of its capture", f"tools/top: my.cap: capture: truncated at {len(kept['my.cap'])}; if it was"
         " left by a recording that was killed, tools/record --repair completes it\n", ran.stderr.decode())
    both = {(0, 0): ASKED, (1, 0): ASKED}, {(0, 0): ANSWERED, (1, 0): ANSWERED}
    for cut, spoiled, tail in ((0, both, ""), (3, cut_of(both, 0, 3), f", {len(ASKED) - 3} of the {len(ASKED)} bytes of"
                                                                      " the last segment")):
        for name, text in kept.items():
            with open(name, "wb") as file:
                file.write(text[: len(text) - cut] if name == "my.cap" else text)
        lines = repaired(0)
        same(f"repaired without the last {cut} bytes", spoiled, files_of())
        back = sum(map(len, spoiled[1].values()))
        same("what is said of it", f"my.cap: completed: 2 connections, 2 sessions, {2 * len(ASKED) - cut} bytes sent"
             f"{tail}\nmy.replies: completed: {back} bytes back\n", lines)
    with open("my.replies.spool", "wb") as file:
        file.write(kept["my.replies.spool"])
    repaired(0)
    same("repaired from a spool that was left at the end", cut_of(both, 0, 3), files_of())
    same("repaired once more", f"my.cap: whole: 2 connections, {2 * len(ASKED) - 3} bytes sent\nmy.replies: whole\n",
         repaired(0))
    faulty(kept)


def unanswered():
    """How many commands --repair finds without an answer, over connections that close."""
    asked = [segment(0, b"get a\r\nget b\r\nset c 0 0 1 noreply\r\nx\r\n"),
             segment(1, b"mg a v q\r\nmg b v q\r\nmn\r\nget"), close(0), segment(0, b"get d\r\nget e\r\n"),
             segment(1, b""), close(0), segment(2, b"\x80\nget a\r\n"),
             segment(3, b"mg a v\r\nmg b v\r\nset a 0 0 1\r\n"), segment(0, b"get f\r\nquit\r\nget g\r\n")]
    told = [segment(1, b"VA 1\r\nx"), segment(0, b"END\r\nVALUE b 0 1\r\nx\r\n"), segment(1, b"\r\nMN\r\n"), close(0),
            segment(0, b"END\r\nEND\r\nERROR\r\n"), close(0), segment(3, b"EN\r\n")]
    for name, records in (("my.cap", asked), ("my.replies.spool", told)):
        with open(name, "wb") as file:
            file.write(capture_start(4096, 2) + b"".join(records))
    sent, back = (sum(len(text) - 9 for text in records if text != close(0)) for records in (asked, told))
    same("commands without an answer", f"my.cap: completed: 4 connections, 6 sessions, {sent} bytes sent\n"
         f"my.replies: completed: {back} bytes back\n3 commands are not answered whole\n", repaired(0))


def cut_of(both, at, count):
    """What is left when the last bytes of the last connection are gone."""
    last = max(both[at])
    return tuple({key: text[:-count] if number == at and key == last else text for key, text in part.items()}
                 for number, part in enumerate(both))


def repaired(status):
    """What is said by --repair."""
    ran = subprocess.run([os.path.join(TOP, "tools/record"), "--repair", "my.cap", "my.replies"], capture_output=True,
                         timeout=LONGEST, check=False)
    same("the status of --repair", status, ran.returncode)
    return ran.stderr.decode().replace("tools/record: ", "")


def faulty(kept):
    """Files that --repair does not complete."""
    for name, text, line in (
        ("my.cap", kept["my.cap"] + b"X", f"my.cap: capture: bad-tag at {len(kept['my.cap'])} byte 88\n"),
        ("my.cap", b"ZYGCAP", "my.cap: capture: truncated at 6\n"),
        ("my.replies.spool", b"x", "my.replies.spool: capture: bad-magic at 0\n"),
    ):
        for file_name, bytes_of in {**kept, name: text}.items():
            with open(file_name, "wb") as file:
                file.write(bytes_of)
        same("what cannot be repaired", line, repaired(1))
    os.unlink("my.replies.spool")
    same("without a spool", f"my.cap: completed: 2 connections, {2 * len(ASKED)} bytes sent\nmy.replies: no replies"
         " file, and there is no my.replies.spool of which one could be made\n", repaired(1))


def full():
    """The most that a capture has, and no more space for files: all is passed on, and what there is is written."""
    more = ": all is passed on, and nothing more recorded; Ctrl-C ends it, and completes the files"
    with Server() as server:
        hold = b"hold\r\n"
        size = 12 + 9 + len(ASKED) + 2 * 9 + 9 + len(hold)
        most = size + 9 + 4 + 1  # also for a short segment that comes later
        recorder = Recorder(server.place, "--ends", tool=patched("record", f"{LIMITS}recording.MOST_CAPTURE = {most}"))
        with connected(recorder.place) as one:
            for sent, back in ((ASKED, ANSWERED), (hold, b""), (b"mn\r\nmn\r\n", b"OK\r\nMN\r\nMN\r\n"),
                               (b"mn\r\n", b"MN\r\n"), (ASKED, ANSWERED)):
                one.sendall(sent)
                if sent == hold:
                    has_size("my.cap", size)
                elif b"OK" in back:
                    same("what is said of a full capture", f"tools/record: my.cap: a capture has at most {most} bytes{more}\n",
                         recorder.line())
                    server.release()
                same("what is passed on of a connection that was recorded", back, take(one, len(back)))
            same("a connection that is not recorded", ANSWERED, talk(recorder.place, ASKED))
        same("a full capture", (1, "tools/record: 1 connections were passed on and not recorded\n"
                                + recorded(1, 3, len(ASKED) + len(hold), len(ANSWERED) + 4)), recorder.end())
        same("its files", ({(0, 0): ASKED + hold}, {(0, 0): ANSWERED + b"OK\r\n"}), files_of())

        for room in (0, 1):
            no_space(server, room, more)


def no_space(server, room, more):
    """No space after a hundred answers and `room` more bytes, one of which the end of the answers needs: without it, the
    recorder says that --repair completes the files."""
    sets, stored, gets, found = b"set a 0 0 1\r\nx\r\n", b"STORED\r\n", b"get a\r\n", b"VALUE a 0 1\r\nx\r\nEND\r\n"
    most = 12 + 9 + len(stored) + 100 * (9 + len(found)) + room

    def small():
        resource.setrlimit(resource.RLIMIT_FSIZE, (most, most))

    recorder = Recorder(server.place, preexec_fn=small)
    with connected(recorder.place) as one:
        for sent, back in ((sets, stored), *[(gets, found)] * 200):
            one.sendall(sent)
            same("what is passed on without space", back, take(one, len(back)))
    status, said = recorder.end()
    lines = said.replace("tools/record: ", "").splitlines()
    same("no space", (1, f"my.replies: File too large{more}"), (status, lines[0]))
    if not room:
        same("no space for the end", "my.replies: File too large: not all is written; --repair completes the files", lines[-1])
        repaired(0)
    same("its files", ({(0, 0): sets + gets * 101}, {(0, 0): stored + found * 100}), files_of())


def before_it_begins():
    """What is wrong is said before anything is recorded, and old files stay."""
    says("a folder that isn't there", "none/my.cap: No such file or directory", "none/my.cap", "my.replies")
    says("another one", "none/my.replies: No such file or directory", "my.cap", "none/my.replies")
    says("a folder", ".: Is a directory", "my.cap", ".")
    says("one file twice", "my.cap: both files cannot be this one", "my.cap", "my.cap")
    with open("my.cap", "wb") as file:
        file.write(b"old")
    with Server() as server:
        listen = server.place
        says("a place that is taken", f"{listen}: Address already in use; --listen names another place", "--over",
             "--listen", listen, "my.cap", "my.replies")
        if not listen.startswith("[127"):
            fail("the place of a server", listen)
    says("a name without an address", "nowhere.invalid:1: no address has this name", "--over", "--server",
         "nowhere.invalid:1", "--listen", "127.0.0.1:0", "my.cap", "my.replies")
    same("an old file", b"old", open("my.cap", "rb").read())
    old = "there is something in this file; --over writes over it"
    says("an old file without --over", f"my.cap: {old}", "my.cap", "my.replies")
    says("old replies without --over", f"my.cap: {old}", "other.cap", "my.cap")
    same("an old file that is refused", b"old", open("my.cap", "rb").read())
    for option, word in (("--listen", "foo"), ("--server", "foo:70000"), ("--server", "[::1]"), ("--listen", "unix:")):
        says(f"{option} {word}", f"{option} takes HOST:PORT, [HOST]:PORT or a path with a slash, of at most 107 bytes,"
             f" not {word}", option, word, "my.cap", "my.replies", status=2)
    says("no number of connections", "--connections takes a number from 1 to 1000000000, not 0", "--connections", "0",
         "my.cap", "my.replies", status=2)
    says("one file", "two files are written; --help says more", "my.cap", status=2)


def terminal():
    """On a terminal a line says each second what was recorded."""
    with Server() as server:
        above, below = pty.openpty()
        path = os.path.abspath("clients")
        words = ["--listen", path, "--server", server.place, "--connections", "2", "my.cap", "my.replies"]
        with subprocess.Popen([os.path.join(TOP, "tools/record"), *words], stderr=below) as process:
            talk(path, ASKED)
            shown = bytearray()

            def is_shown(line):
                while select.select([above], [], [], 0.1)[0]:
                    shown.extend(os.read(above, 1 << 16))
                return line.encode() in shown

            with connected(path) as one:
                line = f"1 connections open, 1 closed; 2 commands, {len(ASKED)} bytes sent, {len(ANSWERED)} bytes back"
                until("a line a second", lambda: is_shown(line))
                one.sendall(b"mn\r\n")
                take(one, 4)
            process.wait(timeout=LONGEST)
            line = recorded(2, 3, len(ASKED) + 4, len(ANSWERED) + 4).strip()
            until("the last line", lambda: is_shown(f"\x1b[K{line}\r\n"))
        os.close(above)
        os.close(below)


class Terminal:
    """A terminal, by the lines that are shown on it."""

    def __init__(self):
        self.is_terminal, self.lines = True, []

    def show(self, line):
        self.lines.append(line)


def joining():
    """What is said while the replies are joined: on a terminal each second, elsewhere once, if they are many."""
    with Server() as server:
        recorder = Recorder(server.place, tool=patched("record", "from zygos_tools.cli import screen; screen.MUCH = 0"))
        talk(recorder.place, ASKED)
        same("many replies", (0, "tools/record: joining 0 MB of replies\n" + recorded(1, 2, len(ASKED), len(ANSWERED))),
             recorder.end())
    shown = Terminal()
    progress = Progress(shown, "joining", 10)
    for seconds in (-1, 1000000, -1):
        progress.next = time.monotonic() + seconds
        progress(3)
    same("how far it is", ["joining: 30 %", "joining: 90 %"], shown.lines)


def quits():
    """A `quit` is no command, as for tools/top."""
    with Server() as server:
        recorder = Recorder(server.place)
        talk(recorder.place, b"mn\r\nmn\r\nquit\r\n")
        same("a quit", (0, recorded(1, 2, 14, 8)), recorder.end())
    ran = subprocess.run([os.path.join(TOP, "tools/top"), "my.cap"], capture_output=True, timeout=LONGEST, check=False)
    same("a quit, by top", b"capture: 2 commands, 1 connections, 0 keys\n", ran.stdout[:43])


def real_memcached():
    with memcached() as place:
        recorder = Recorder(place)
        asked = b"set c%d:%d 0 0 1\r\nx\r\nget c%d:%d c%d:none\r\n"
        told = b"STORED\r\nVALUE c%d:%d 0 1\r\nx\r\nEND\r\n"
        texts = [b"".join(asked % (c, k, c, k, c) for k in range(200)) + b"quit\r\n" for c in range(2)]
        at_once([lambda text=text: talk(recorder.place, text, 50) for text in texts])
        recorder.end()
        sent, back = files_of()
        wanted = {text: b"".join(told % (c, k) for k in range(200)) for c, text in enumerate(texts)}
        same("what a memcached answers", wanted, {sent[key]: back[key] for key in sent})


# ---- counting


SENT = (b"get a\r\n", b"gets a b  c\r\n", b"get a\n", b"set a 0 0 5\r\nvalue\r\n", b"set a 0 0 5 noreply\r\nval\nu\r\n",
        b"set a 0 -1 5\r\nv\0lue\r\n", b"cas a 0 0 1 7\r\nx\r\n", b"cas a 0 0 1 7 noreply\r\nx\r\n", b"delete a\r\n",
        b"delete a noreply\r\n", b"incr a 5\r\n", b"incr a 5 noreply\r\n", b"touch noreply\r\n", b"get noreply\r\n",
        b"mg a v\r\n", b"mg a v q\r\n", b"ms a 2\r\nxx\r\n", b"mn\r\n", b"bogus\r\n", b"set a 0 0\r\n", b"get \0\r\n",
        b"delete  a\r\n", b"version\r\n", b"flush_all\r\n", b"\r\n", b"set a 0 0 5 x\r\nvalue\r\n", b"quit\r\n")
TOLD = (b"END\r\n", b"VALUE a 0 5\r\nval\nu\r\nEND\r\n", b"VALUE a 0 5 77\r\nvalue\r\nVALUE b 1 0\r\n\r\nEND\r\n", b"15\r\n",
        b"STORED\r\n", b"NOT_FOUND\r\n", b"HD\r\n", b"VA 2 f\r\nxx\r\n", b"MN\r\n", b"ERROR\r\n", b"OK\r\n", b"EN\r\n",
        b"VERSION 1\r\n", b"STAT a b\r\nEND\r\n", b"CLIENT_ERROR x\r\n")


def counting():
    """The usual lines are counted as all others are, in whatever pieces they come."""
    for number in range(3000):
        draw = random.Random(number)
        some = [one for one in SENT if draw.random() < 0.4] or SENT
        texts = [b"".join(draw.choice(lines) for _ in range(draw.randint(1, 8))) for lines in (some, TOLD)]
        count, pace = Count(), Pace()
        while any(texts):
            at = draw.choice([at for at in (0, 1) if texts[at]])
            size = draw.choice((1, 5, 7, 10, 30, 100, 1000))
            piece, texts[at], early = texts[at][:size], texts[at][size:], count.early
            got = [(one.heard if at else one.sent)(piece) for one in (count, pace)]
            same(f"talk {number}: {piece}", got[1], got[0] + (count.early - early if at else 0))
            same(f"talk {number}: lines with a NUL", pace.nuls, count.nuls)
            if not (pace.has_quiet or count.early or count.late):
                same(f"talk {number}: what is owed", pace.owed, count.owed)


def quiet():
    """When no command of a connection is in flight."""
    for sent, back, is_quiet in (
        (b"", b"", True), (b"get a\r\n", b"", False), (b"get a\r\n", b"END\r\n", True), (b"get a\r\nge", b"END\r\n", False),
        (b"set a 0 0 1 noreply\r\nx\r\n", b"", False), (b"set a 0 0 1 noreply\r\nx\r\nmn\r\n", b"MN\r\n", True),
        (b"mn\r\nset a 0 0 1 noreply\r\nx\r\n", b"MN\r\n", False), (b"set a 0 0 9\r\nx\r\n", b"", False),
        (b"get a\r\n", b"VALUE a 0 1\r\nx\r\n", False), (b"mg a v q\r\nmn\r\n", b"MN\r\n", True),
        (b"mg a v q\r\nmg b v\r\n", b"EN\r\n", False), (b"mg b v\r\n", b"EN\r\n", True), (b"mn\r\nquit\r\n", b"MN\r\n", True),
        (b"mg a v q\r\nmg b v\r\nmn\r\nmg c v\r\n", b"EN\r\nMN\r\nEN\r\n", False), (b"\x80\n", b"", True),
    ):
        count = Count()
        count.sent(sent)
        count.heard(back)
        same(f"whether {sent} with {back} is quiet", is_quiet, count.is_quiet())
    count = Count()
    same("an early answer ends with its command", (0, 0, 1, 1, 0),
         (count.sent(b"set a 0 0 9999999\r\nx"), count.heard(b"SERVER_ERROR object too large for cache\r\n"),
          count.sent(b"y" * 9999998 + b"\r\n"), count.late, count.owed))


# ---- several processes, and windows


def order_of_parts():
    """Parts are joined by the times of their blocks; what a process could not write whole is left out."""
    blocks = [(at, time) for at in range(3) for time in sorted(random.Random(at).sample(range(100), 30))]
    for at in range(3):
        part = PartFile(f"part.{at}")
        for number, time_of in blocks:
            if number == at:
                part.block(time_of, b"%d at %d;" % (at, time_of), b"%d;" % time_of)
        os.close(part.file)
    with open("part.1", "ab") as file:
        file.write(HEAD.pack(50, 9, 0) + b"cut")
    found = Gathered(), Gathered()
    join([f"part.{at}" for at in range(3)], *found)
    wanted = sorted((time_of, at) for at, time_of in blocks)
    same("what was sent", b"".join(b"%d at %d;" % (at, time_of) for time_of, at in wanted), found[0].text)
    same("what came back", b"".join(b"%d;" % time_of for time_of, _ in wanted), found[1].text)


class Gathered:
    """A file that gathers what is added."""

    text = b""

    def add(self, text):
        self.text += text


def judged(name):
    """The capture of this name and its replies have an order, or none is found; the server is not accused."""
    ran = run("judge", "--warm", "--out", "/dev/null", name, name.replace(".cap", ".replies"))
    if not ran.stdout.startswith((b"order found, by search: ", b"unknown: ")):
        fail(f"the order of {name}", ran.stdout + ran.stderr)


def joined(names):
    """Windows that follow each other are one recording, in which each has connections of its own."""
    records, told = [], []
    for name in names:
        with open(name, "rb") as one, open(name.replace(".cap", ".replies"), "rb") as other:
            read, answered = read_capture(Part("capture", one.read())), read_replies(Part("replies", other.read()))
        records += [segment(len(told) + number, text) for number, text in read.records]
        told += [output.text for output in answered.outputs]
    with open("joined.cap", "wb") as one, open("joined.replies", "wb") as other:
        one.write(capture(len(told), records))
        other.write(replies(told))
    ran = run("judge", "--out", "/dev/null", "joined.cap", "joined.replies")
    if not ran.stdout.startswith((b"order found, by search: 2000 commands", b"unknown: ")):
        fail("the order of all windows", ran.stdout + ran.stderr)
    os.unlink("joined.cap")
    os.unlink("joined.replies")


def loaded(place):
    """Lets 20 clients send commands on the same keys."""
    kinds = "get get mget gets cas set setq add delete incr"
    ran = run("load", "--commands", "100", "--keys", "30", "--kinds", kinds, place)
    same("a load", (0, b"20 clients, 2000 commands\n"), (ran.returncode, ran.stdout))


def several_processes():
    """Several processes record clients that share keys: the order of what came is true, also through a Unix socket."""
    for listen in ("127.0.0.1:0", "./clients"):
        with memcached("-t", "4") as place:
            recorder = Recorder(place, "--ends", "--processes", "3", "--connections", "20", listen=listen)
            loaded(recorder.place)
            status, said = recorder.end(None)
            same(f"what is said of several processes at {listen}", (0, True),
                 (status, said.startswith("tools/record: 20 connections recorded, 2000 commands, ")))
        names = sorted(os.listdir("."))
        same("no part is left", ["my.cap", "my.replies"], [name for name in names if name != "clients"])
        judged("my.cap")
        sent, back = files_of()
        same("connections", (20, 20), (len(sent), len(back)))


def in_windows():
    """Windows of a number of commands: each is whole, all commands are in one of them, and each has an order."""
    for processes in ("1", "3"):
        with memcached("-t", "4") as place:
            recorder = Recorder(place, "--ends", "--every", "400", "--processes", processes, "--connections", "20")
            loaded(recorder.place)
            status, said = recorder.end(None)
        names = sorted(name for name in os.listdir(".") if name.endswith(".cap"))
        same("the windows", ["my.%06d.cap" % at for at in range(1, len(names) + 1)], names)
        same("more than one", True, len(names) > 1)
        same("each with its replies and no part", sorted(names + [name.replace(".cap", ".replies") for name in names]),
             sorted(os.listdir(".")))
        counts = [int(count) for count in re.findall(r"my\.[0-9]{6}\.cap: ([0-9]+) commands, ", said)]
        same("all commands are in a window", (0, 2000, len(names)), (status, sum(counts), len(counts)))
        joined(names)
        for name in names:
            judged(name)
            sent, _ = files_of(name, name.replace(".cap", ".replies"))
            for text in sent.values():
                pace = Pace()
                pace.sent(text)
                same("windows have whole commands", (b"", 0), (pace.commands.begun, pace.commands.block))


def waits_for_quiet():
    """A window does not end while a command is in flight, or may be: it is said, and other clients go on."""
    for text, rest, back in ((b"hold\r\n", b"", b"OK\r\n"), (b"set a 0 0 1\r\nx", b"\r\n", b"STORED\r\n"), (b"ge", b"t b\r\n", b"END\r\n"),
                             (b"set a 0 0 1 noreply\r\nx\r\n", b"mn\r\n", b"MN\r\n")):
        with Server() as server:
            recorder = Recorder(server.place, "--every", "1")
            with connected(recorder.place) as one, connected(recorder.place) as other:
                one.sendall(text)
                until("the first client is heard", lambda: os.path.getsize("my.000001.replies.spool.0") > 24)
                other.sendall(b"mn\r\n")
                same("an answer", b"MN\r\n", take(other, 4))
                same(f"what is said while {text} is in flight", "tools/record: my.000001.cap: no quiet moment within 0.1"
                     " seconds: it goes on until there is one\n", recorder.line())
                other.sendall(b"mn\r\n")
                same("another client goes on", (b"MN\r\n", False), (take(other, 4), os.path.exists("my.000001.cap")))
                if rest:
                    one.sendall(rest)
                else:
                    server.release()
                same("the first client goes on", back, take(one, len(back)))
                until("the window ends", lambda: os.path.exists("my.000001.cap"))
                other.sendall(b"mn\r\n")
                same("an answer in the next window", b"MN\r\n", take(other, 4))
            same("the end of windows", 0, recorder.end()[0])
        sent, got = files_of("my.000001.cap", "my.000001.replies")
        same("the first window", ({text + rest: back, b"mn\r\n" * 2: b"MN\r\n" * 2}), {sent[key]: got[key] for key in sent})
        sent, got = files_of("my.000002.cap", "my.000002.replies")
        same("the second window", ({(0, 0): b"mn\r\n"}, {(0, 0): b"MN\r\n"}), (sent, got))


def by_seconds():
    """Windows of a second; there is none without a command."""
    with Server() as server:
        recorder = Recorder(server.place, "--every", "1s")
        with connected(recorder.place) as one:
            for number in (1, 2, 3):
                one.sendall(b"mn\r\n")
                take(one, 4)
                until("a window ends", lambda number=number: os.path.exists(f"my.00000{number}.cap"))
        same("the end of windows of a second", 0, recorder.end()[0])
    same("the commands of all windows", [{(0, 0): b"mn\r\n"}] * 3 + [{}],
         [files_of(f"my.00000{number}.cap", f"my.00000{number}.replies")[0] for number in (1, 2, 3, 4)])


def killed_with_parts():
    """A recorder of several processes that is killed: --repair makes the files of its parts. So it does of a window."""
    for words, files in ((("--processes", "2"), ("my.cap", "my.replies")),
                         (("--every", "100"), ("my.000001.cap", "my.000001.replies"))):
        with Server() as server:
            recorder = Recorder(server.place, *words)
            ones = [connected(recorder.place) for _ in range(6)]
            for one in ones:
                one.sendall(ASKED)
                same("an answer", ANSWERED, take(one, len(ANSWERED)))
            says("parts that a recorder writes", f"{files[1]}.spool.0: another recording writes this file", "--listen",
                 "127.0.0.1:0", *words, "my.cap", "my.replies")
            recorder.end(signal.SIGKILL)
            for one in ones:
                same("its clients are cut off", b"", rest_of(one))
                one.close()
        until("no process is left", lambda files=files: is_free(f"{files[1]}.spool.0"))
        says("a start over parts", f"{files[1]}.spool.0: left by a recording that did not end; complete that with --repair",
             *words, "my.cap", "my.replies")
        ran = subprocess.run([os.path.join(TOP, "tools/record"), "--repair", *files], capture_output=True, timeout=LONGEST,
                             check=False)
        same("repaired", (0, True), (ran.returncode, b"completed: 6 connections, 6 sessions" in ran.stderr))
        same("its files", [[ASKED] * 6, [ANSWERED] * 6], [list(one.values()) for one in files_of(*files)])
        same("no part is left", sorted(files), sorted(os.listdir(".")))
        for name in files:
            os.unlink(name)


def is_free(name):
    """Whether no process has locked a file."""
    with open(name, "rb") as file, contextlib.suppress(BlockingIOError):
        fcntl.flock(file, fcntl.LOCK_EX | fcntl.LOCK_NB)
        return True
    return False


def a_process_ends():
    """If one process is killed, the others end too; all that was written is kept, and the status says so."""
    with Server() as server:
        recorder = Recorder(server.place, "--processes", "2")
        ones = [connected(recorder.place) for _ in range(8)]
        for one in ones:
            one.sendall(ASKED)
            take(one, len(ANSWERED))
        with open(f"/proc/{recorder.process.pid}/task/{recorder.process.pid}/children", encoding="ascii") as file:
            os.kill(int(file.read().split()[0]), signal.SIGKILL)
        status, said = recorder.end(None)
        same("a process that ends", (1, "tools/record: process 0 of the recorder has ended; its clients are cut off"),
             (status, said.splitlines()[0]))
        for one in ones:
            one.close()
    same("what is kept", [[ASKED] * 8, [ANSWERED] * 8], [list(one.values()) for one in files_of()])


def sessions_of_processes():
    """More connections than there are numbers: later ones are sessions of those that closed."""
    with Server() as server:
        recorder = Recorder(server.place, "--every", "1000", tool=patched(
            "record", "from zygos_tools.recording import board; board.MOST_CONNECTIONS = 2"))
        for _ in range(5):
            same("one after the other", ANSWERED, talk(recorder.place, ASKED))
        status, said = recorder.end()
    same("sessions", (0, "tools/record: my.000001.cap: 10 commands, 2 connections"), (status, said.splitlines()[0]))
    sent, back = files_of("my.000001.cap", "my.000001.replies")
    same("their files", ([ASKED] * 5, [ANSWERED] * 5), (list(sent.values()), list(back.values())))


def words_for_windows():
    with open("my.000007.cap", "wb") as file:
        file.write(b"old")
    says("older windows", "./my.000007.cap: there is something in this file; --over writes over it".replace("./", ""),
         "--every", "5", "my.cap", "my.replies")
    for option, word, takes in (("--every", "0", "a number of commands, or a time such as 60s, 10m or 1h"),
                                ("--every", "5d", "a number of commands, or a time such as 60s, 10m or 1h"),
                                ("--processes", "0", "a number from 1 to 64")):
        says(f"{option} {word}", f"{option} takes {takes}, not {word}", option, word, "my.cap", "my.replies", status=2)
    says("standard output", "several processes or windows need two files; neither can be -", "--every", "5", "-",
         "my.replies", status=2)
    says("one file for both", "my.cap: both files cannot be this one", "--processes", "2", "my.cap", "my.cap")
    says("no folder", "none: No such file or directory", "--every", "5", "none/my.cap", "my.replies")


Tests = cases(before_it_begins, several_clients, no_client, two_hundred, other_sockets, ends_of_answers, later_sessions,
              few_files, standard_output, gives_up, half_closed, slow_reader, binary, server_restarts, signals,
              ends_with_a_slow_reader, closed_errors, killed, unanswered, full, terminal, joining, quits,
              real_memcached, counting, quiet, order_of_parts, several_processes, in_windows, waits_for_quiet, by_seconds,
              killed_with_parts, a_process_ends, sessions_of_processes, words_for_windows, has_folder=True)

if __name__ == "__main__":
    unittest.main()
