"""Tests tools/packets: what it says of recorded packets, and the captures and replies files that it writes.

What needs the program, tcpdump or memcached is left out, with a line, where these are not there."""
import contextlib
import os
import random
import re
import shutil
import signal
import struct
import subprocess
import unittest

import checks
import packets
from checks import LONGEST, built_program, cases, program_path, same, skip
from traffic import connected, memcached, take, until
from zygos_tools.files.formats import Close, capture, close, read_capture, read_replies, segment, sessions
from zygos_tools.files.part import Part
from zygos_tools.protocol.meaning import framed
from zygos_tools.protocol.pace import Answers
from zygos_tools.recording.packets import command as TOOL
from zygos_tools.recording.packets.quick import answer_ends
from packets import expected, frame_of, said

CLIENTS = [bytes([10, 0, 0, at, 10, 0, 0, 9]) + struct.pack(">HH", 40000 + at, 11211) for at in (1, 2)]


def run(*words, given=b"", tool="packets"):
    return checks.run(tool, *words, given=given)


def number_of(flow):
    return packets.toeplitz(flow) % 128


def answer_of(payload, sequence, flow, flags=16):
    """A frame of the server, in a flow by its requests."""
    return frame_of(payload, sequence, flags, flow[4:8] + flow[:4] + flow[10:] + flow[8:10])


def timed(*frames):
    """A file of frames, each after its time in microseconds."""
    records = [struct.pack(">IIII", time // 1000000, time % 1000000, len(frame), len(frame)) + frame
               for time, frame in frames]
    return packets.file_of() + b"".join(records)


def streams(text):
    """The count of a capture, and the stream of each session."""
    read, found = read_capture(Part("capture", text)), {}
    session = [0] * read.count
    for record in read.records:
        if isinstance(record, Close):
            session[record.connection] += 1
        else:
            key = record.connection, session[record.connection]
            found[key] = found.get(key, b"") + record.text
    return read.version, session, found


# ---- what it says




def looked(text, port=11211):
    """The status and the lines of a file, and its capture in order; in this process, as many are looked at."""
    reading, report, why = TOOL.look(text, "-", port)
    lines = [*report.lines, *(f"tools/packets: standard input: {why}".split("\n") if why else [])]
    return int(bool(why or report.sums["cut"])), lines, b"".join(reading.flows.in_order(reading.arrivals))


def messages():
    """The corpus: the status and a line of each file."""
    for name, text, status, line in said():
        got, lines, _ = looked(text)
        same(f"the status of {name}", status, got)
        if line not in lines:
            same(name, line, lines)
    name, text, status, line = next(one for one in said() if one[2])
    ran = run(given=text)
    same(f"{name}, as it is printed", (status, "\n".join(looked(text)[1]) + "\n", b""),
         (ran.returncode, ran.stdout.decode(), ran.stderr))
    ran = run(given=b"")
    same("an empty file, as it is said", (1, b"", "\n".join(looked(b"")[1]) + "\n"),
         (ran.returncode, ran.stdout, ran.stderr.decode()))


def words():
    for given, line in (
        (["--port", "0"], "--port takes a number from 1 to 65535, not 0"),
        (["--what"], "no such option: --what; --help lists them"),
        (["a", "b"], "one file is read, and at most one is written to standard output; --help says more"),
        (["--ends"], "--ends needs --in-order, the capture in which answers end"),
        (["--in-order", "-", "--replies", "-"],
         "one file is read, and at most one is written to standard output; --help says more"),
    ):
        ran = run(*given)
        same(f"words {given}", (2, b"", f"tools/packets: {line}\n".encode()), (ran.returncode, ran.stdout, ran.stderr))
    for given, line in ((["none"], "none: No such file or directory"), (["/"], "/: Is a directory"),
                        (["--in-order", "/none/file"], "/none/file: No such file or directory")):
        ran = run(*given, given=packets.file_of(frame_of(b"a")))
        same(f"words {given}", (1, f"tools/packets: {line}\n".encode()), (ran.returncode, ran.stderr))
    page = run("--help").stdout.decode().split("\n")
    same("help", True, "  tcpdump -i lo -B 65536 -w traffic.pcap port 11211" in page and max(map(len, page)) <= 120)


# ---- what it writes


def model():
    """A file is refused exactly where the model has a fault; else the streams in order are those of the model."""
    for number in range(100):
        text, port = packets.drawn(number)
        status, wanted, error = expected(text, port)
        got, lines, made = looked(text, port)
        name = f"drawn file {number}"
        if status:
            fault = error.decode().removeprefix("zygos: pcap: ").strip()
            is_said = any(re.match(f"tools/packets: standard input: {fault}[: ]", line) for line in lines)
            same(name, (1, True), (got, is_said))
        else:
            is_empty = wanted == capture(0, [], 2)
            same(name, streams(wanted), streams(made))
            same(f"{name}: its status", is_empty or any("cut after byte" in line for line in lines), bool(got))


def order():
    """Two clients in turn, the second with two sessions, and their packets out of the order of their times."""
    one, other = CLIENTS
    frames = [frame_of(b"", 99, 2, one), frame_of(b"", 199, 2, other), frame_of(b"set a 0 0 1\r\n", 100, 16, one),
              frame_of(b"get a\r\n", 200, 16, other), frame_of(b"x\r\n", 113, 16, one),
              frame_of(b"get ", 207, 16, other), frame_of(b"b\r\n", 211, 16, other), frame_of(b"", 900, 2, other),
              frame_of(b"get a\r\n", 901, 16, other), frame_of(b"get a\r\n", 116, 16, one)]
    first, second = map(number_of, CLIENTS)
    wanted = capture(max(first, second) + 1, [
        segment(first, b"set a 0 0 1\r\n"), segment(second, b"get a\r\n"), segment(first, b"x\r\n"),
        segment(second, b"get b\r\n"), close(second), segment(second, b"get a\r\n"), segment(first, b"get a\r\n")], 2)
    moments = list(enumerate(frames, 5))
    for name, given in (("in order", moments), ("the first client's packets first", sorted(
            moments, key=lambda moment: moment[1][29]))):
        same(name, wanted, run("--in-order", "-", given=timed(*given)).stdout)
    late = [moments[at] for at in (0, 1, 4, 3, 2)]
    wanted = capture(max(first, second) + 1, [
        segment(second, b"get a\r\n"), segment(first, b"set a 0 0 1\r\nx\r\n")], 2)
    same("a gap that is filled later", wanted, run("--in-order", "-", given=timed(
        *((at, frame) for at, (_, frame) in enumerate(late)))).stdout)


def ends():
    """With --ends a segment without bytes is where an answer is whole, at the time of its last packet."""
    one, other = CLIENTS
    first, second = map(number_of, CLIENTS)
    frames = [frame_of(b"", 99, 2, one), answer_of(b"", 499, one, 18), frame_of(b"", 199, 2, other),
              answer_of(b"", 899, other, 18), frame_of(b"get a\r\nget b\r\nset c 0 0 1 noreply\r\n", 100, 16, one),
              frame_of(b"get d\r\n", 200, 16, other), answer_of(b"END\r\nVALUE b 0 1\r\n", 500, one),
              frame_of(b"z\r\nget", 135, 16, one), answer_of(b"END\r\n", 900, other), frame_of(b" e\r\n", 141, 16, one),
              answer_of(b"x\r\nEND\r\nEND\r\n", 518, one), answer_of(b"END\r\n", 523, one),
              frame_of(b"", 300, 2, one), frame_of(b"get f\r\n", 301, 16, one), answer_of(b"", 7, one, 18),
              answer_of(b"END\r\n", 8, one), answer_of(b"too much", 13, one)]
    wanted = [(first, b"get a\r\nget b\r\nset c 0 0 1 noreply\r\n"), (second, b"get d\r\n"), (first, b""),
              (first, b"z\r\nget"), (second, b""), (first, b" e\r\n"), (first, b""), (first, b""), None,
              (first, b"get f\r\n"), (first, b"")]
    records = [close(first) if record is None else segment(*record) for record in wanted]
    made = capture(max(first, second) + 1, records, 2)
    given = timed(*enumerate(frames))
    same("ends", made, run("--in-order", "-", "--ends", given=given).stdout)
    same("streams with ends", *(streams(run("--in-order", "-", *words, given=given).stdout)
                                for words in ((), ("--ends",))))
    lost = timed(*((at, frame) for at, frame in enumerate(frames) if at != 6))
    same("ends after a lost answer", made.replace(segment(first, b"") * 2, b"").replace(segment(first, b""), b"", 1),
         run("--in-order", "-", "--ends", given=lost).stdout)


def answers():
    """The server's side: late and doubled packets, a flow without answers, and what came before the first request."""
    one, other = CLIENTS
    frames = [answer_of(b"END\r\n", 495, one), frame_of(b"", 99, 2, one), answer_of(b"", 500, one, 18),
              frame_of(b"get a\r\n", 100, 16, one), answer_of(b"a\r\n", 508, one), answer_of(b"VALUE ", 501, one),
              answer_of(b"a\r\n", 507, one), answer_of(b"a\r\n", 507, one),
              frame_of(b"", 900, 2, one), frame_of(b"get b\r\n", 901, 16, one), answer_of(b"", 4294967295, one, 18),
              answer_of(b"END\r\n", 0, one), frame_of(b"get c\r\n", 7, 16, other)]
    first, second = map(number_of, CLIENTS)
    frames[4] = answer_of(b"\r\n", 508, one)
    wanted = [[b""] for _ in range(max(first, second) + 1)]
    wanted[first] = [b"VALUE a\r\n", b"END\r\n"]
    ran = run("--replies", "-", given=packets.file_of(*frames))
    same("replies", (0, sessions(wanted)), (ran.returncode, ran.stdout))
    same("what came too early", True,
         b"  5 bytes of the server left out, before the first request of a flow\n" in ran.stderr)
    ran = run("--replies", "-", given=packets.file_of(*frames[:5], *frames[6:]))
    wanted[first][0] = b""
    same("a lost answer", (1, sessions(wanted), True), (ran.returncode, ran.stdout,
         b"the server's side: cut after byte 0, sequence number 501: 6 bytes lost, 3 bytes after that" in ran.stderr))


def answers_to_lost_requests():
    """Where requests are left out, the answers to them are too."""
    one, number = CLIENTS[0], number_of(CLIENTS[0])
    asked = [b"set a 0 0 1 noreply\r\nx\r\n", b"get a\r\n", b"get b\r\n", b"get c\r\n", b"get d\r\n"]
    got = [b"", b"VALUE a 0 1\r\nx\r\nEND\r\n", b"END\r\n", b"END\r\n", b"END\r\n"]
    frames, sent, answered = [frame_of(b"", 99, 2, one), answer_of(b"", 499, one, 18)], 100, 500
    for request, answer in zip(asked, got):
        frames += [frame_of(request, sent, 16, one), answer_of(answer, answered, one)]
        sent, answered = sent + len(request), answered + len(answer)
    for lost, count in ((None, 5), (6, 2), (10, 4), (2, 0)):
        given = [frame for at, frame in enumerate(frames) if at != lost] + [frame_of(b"", sent, 16, one)]
        ran = run("--replies", "-", given=packets.file_of(*given))
        same(f"the answers without packet {lost}", (int(lost is not None), b"".join(got[:count])),
             (ran.returncode, read_replies(Part("replies", ran.stdout)).outputs[number].text))


def acknowledging(frame, number):
    """A frame that expects the byte of this number next."""
    return frame[:42] + struct.pack(">I", number % 2**32) + frame[46:]


class Talk:
    """The frames of a client that waits for its answers, with a server."""

    def __init__(self, draw, flow):
        self.draw, self.flow, self.frames = draw, flow, []
        self.sent, self.back = draw.choice([100, 2**32 - 500]), draw.choice([500, 2**32 - 300])
        self.frames += [frame_of(b"", self.sent - 1, 2, flow),
                        acknowledging(answer_of(b"", self.back - 1, flow, 18), self.sent)]

    def pieces(self, text):
        at = self.draw.choice([0, 0, self.draw.randrange(len(text) - 1), text.index(b"\n") + 1])
        return [piece for piece in (text[:at], text[at:]) if piece]

    def ask(self, request, answer):
        for piece in self.pieces(request):
            self.frames.append(acknowledging(frame_of(piece, self.sent, 24, self.flow), self.back))
            self.sent += len(piece)
        for piece in self.pieces(answer) if answer else ():
            self.frames.append(acknowledging(answer_of(piece, self.back, self.flow), self.sent))
            self.back += len(piece)
        if self.draw.random() < 0.3:
            self.frames.append(acknowledging(frame_of(b"", self.sent, 16, self.flow), self.back))


def drawn_talk(draw):
    """Frames of a client, some of them lost, and for each command its answer."""
    talk, answers = Talk(draw, CLIENTS[0]), {}
    for number in range(60):
        key, kind = b"k%d" % number, draw.randrange(6)
        request, answer = b"get %s\r\n" % key, b"VALUE %s 0 6\r\nget a\n\r\nEND\r\n" % key
        if kind == 0:
            request, answer = b"set %s 0 0 7\r\nget b\r\n\r\n" % key, b"STORED\r\n"
        elif kind == 1:
            request, answer = b"set %s 0 0 1 noreply\r\nx\r\n" % key, b""
        answers[request] = answer
        talk.ask(request, answer)
    lost = draw.choice([0.01, 0.05, 0.2])
    kept = [frame for frame in talk.frames[2:] if draw.random() > lost]
    return talk.frames[:2] + [frame for one in kept for frame in [one] * draw.choice([1] * 9 + [2])], answers


def resumed():
    """With --resume sessions begin anew after losses, and each answer is that of its command. Only where a value begins
    as a command does, in a packet of its own, and the packet before was lost, it may be taken for one."""
    begun = kept = wrong = 0
    for number in range(150):
        frames, answers = drawn_talk(random.Random(number))
        reading, _, _ = TOOL.look(packets.file_of(*frames), "-", 11211, resumes=True)
        once = set()
        for session in reading.flows.sessions[number_of(CLIENTS[0])]:
            requests = [frame for _, frame in framed(session.requests.text())]
            begun, kept = begun + session.is_resumed, kept + len(requests)
            if requests[:1] == [b"get b\r\n"]:
                wrong += 1
                continue
            same(f"talk {number}: each request once", True, once.isdisjoint(requests))
            once.update(requests)
            wanted = b"".join(answers.get(request, b"?") for request in requests)
            same(f"talk {number}: the answers of a session", True, wanted.startswith(TOOL.answered(session)))
    same("sessions are begun anew", True, begun > 500 and kept > 0.8 * 60 * 150 and wrong < 0.02 * begun)


def drawn_pipeline(draw):
    """Frames of a client that has up to four commands on their way, some of the frames lost, and for each its answer."""
    talk, asked, told = Talk(draw, CLIENTS[0]), 0, 0
    hits = [b"VALUE k%d 0 6\r\nget a\n\r\n" % number if draw.random() < 0.7 else b"" for number in range(80)]
    texts = [(b"get k%d\r\n" % number, hit + b"END\r\n") for number, hit in enumerate(hits)]
    while told < 80:
        if asked < 80 and (asked == told or asked < told + 4 and draw.random() < 0.5):
            talk.ask(texts[asked][0], b"")
            asked += 1
        else:
            talk.frames.append(acknowledging(answer_of(texts[told][1], talk.back, talk.flow), talk.sent))
            talk.back += len(texts[told][1])
            told += 1
    return talk.frames[:2] + [frame for frame in talk.frames[2:] if draw.random() > 0.04], dict(texts)


def pipelines():
    """With --resume, answers to requests before a session began anew are passed over. Only where a session has but a few
    answers, and hardly a key in them, these may be of other requests."""
    early = begun = wrong = 0
    for number in range(150):
        frames, answers = drawn_pipeline(random.Random(number))
        reading, _, _ = TOOL.look(packets.file_of(*frames), "-", 11211, resumes=True)
        for session in reading.flows.sessions[number_of(CLIENTS[0])]:
            requests = [frame for _, frame in framed(session.requests.text())]
            wanted = b"".join(answers.get(request, b"?") for request in requests)
            got = TOOL.answered(session)
            begun, early = begun + session.is_resumed, early + (session.early > 0)
            if not wanted.startswith(got):
                same(f"pipeline {number}: answers of other requests", True, got.count(b"END") < 4)
                wrong += 1
    same("answers are passed over, and seldom wrong ones left", (True, True), (early > 50, 0.05 * begun > wrong))


def resume():
    """What is said, and written, of a session that begins anew: after a lost request, and after a lost answer."""
    draw = random.Random(0)
    draw.choice, draw.random = lambda some: some[0], lambda: 1
    talk, number = Talk(draw, CLIENTS[0]), number_of(CLIENTS[0])
    for key in b"abcde":
        talk.ask(b"get %c\r\n" % key, b"VALUE %c 0 1\r\nx\r\nEND\r\n" % key)
    told = [b"VALUE %c 0 1\r\nx\r\nEND\r\n" % key for key in b"abcde"]
    cut = "cut after byte {}, sequence number {}: {} bytes lost, 0 bytes after that left out"
    for name, lost, sent, back, lines in (
        ("request", 4, [b"get a\r\n", b"get c\r\nget d\r\nget e\r\n"], [told[0], b"".join(told[2:])],
         ["  session 0: " + cut.format(7, 107, 7) + ", about 0 requests", "  1 stream cut, 0 bytes left out",
          "  session 1: it begins anew, after a loss", "  1 session begun anew after a loss"]),
        ("answer", 5, [b"get a\r\nget b\r\n", b"get c\r\nget d\r\nget e\r\n"], [told[0], b"".join(told[2:])],
         ["  session 0: 1 request without a whole reply", "  1 request without a whole reply",
          "  session 0: the server's side: " + cut.format(21, 521, 21)]),
    ):
        given = packets.file_of(*(frame for at, frame in enumerate(talk.frames) if at != lost))
        ran = run("--resume", "--in-order", "-", given=given)
        same(f"the capture without a {name}", (1, {(number, at): text for at, text in enumerate(sent)}),
             (ran.returncode, streams(ran.stdout)[2]))
        said = ran.stderr.decode().split("\n")
        same(f"what is said without a {name}", [], [line for line in lines if line not in said])
        outputs = read_replies(Part("replies", run("--resume", "--replies", "-", given=given).stdout)).outputs
        same(f"the replies without a {name}", back, [output.text for output in outputs if output.connection == number])
    given = packets.file_of(*talk.frames)
    same("nothing lost", *(run("--in-order", "-", *words, given=given).stdout for words in ((), ("--resume",))))


def nothing_written():
    """A file that is refused, or has nothing for the port, writes nothing."""
    for given in (packets.file_of(frame_of(b"a"), frame_of(b"x", kind=b"\x81\x00")), packets.file_of()):
        ran = run("--in-order", "made", "--replies", "made", given=given)
        same("a refused file", (1, False), (ran.returncode, os.path.exists("made")))


# ---- windows


class Traffic:
    """Frames of clients, each after its time. A client has at most one command in flight; times have the given gaps."""

    def __init__(self, draw, count, gap=1000):
        self.draw, self.gap, self.time, self.frames = draw, gap, 10**6, []
        self.flows = [bytes([10, 0, at, 1, 10, 0, 0, 9]) + struct.pack(">HH", 40000 + at, 11211) for at in range(count)]
        self.numbers, self.asked, self.told = {}, {flow: [] for flow in self.flows}, {flow: [] for flow in self.flows}
        for flow in self.flows:
            self.numbers[flow] = [draw.choice([100, 2**32 - 500]), draw.choice([500, 2**32 - 300])]
            self.add(frame_of(b"", self.numbers[flow][0] - 1, 2, flow))
            self.add(acknowledging(answer_of(b"", self.numbers[flow][1] - 1, flow, 18), self.numbers[flow][0]))

    def add(self, frame):
        self.time += self.draw.randint(1, self.gap)
        self.frames.append((self.time, frame))

    def send(self, flow, text, is_answer=False):
        numbers, make = self.numbers[flow], answer_of if is_answer else frame_of
        frame = make(text, numbers[is_answer], flow) if is_answer else make(text, numbers[0], 24, flow)
        self.add(acknowledging(frame, numbers[not is_answer]))
        numbers[is_answer] = (numbers[is_answer] + len(text)) % 2**32
        (self.told if is_answer else self.asked)[flow].append(text)

    def ask_all(self, rounds):
        """Each client asks in each round, and all are answered in another order."""
        for number in range(rounds):
            for some in (False, True):
                for flow in self.draw.sample(self.flows, len(self.flows)):
                    value = b"%d" % number * self.draw.choice([1, 300])
                    text = b"VALUE k 0 %d\r\n%s\r\nEND\r\n" % (len(value), value) if some else b"get k\r\n"
                    at = self.draw.choice([0, 3])
                    for piece in (text[:at], text[at:]):
                        if piece:
                            self.send(flow, piece, some)

    def files(self, count, shuffle=0):
        """Writes files of these packets; a packet may be up to `shuffle` packets from its place."""
        order = sorted(range(len(self.frames)), key=lambda at: at + self.draw.uniform(0, shuffle))
        size = -(-len(order) // count)
        names = [f"traffic.pcap{at:02}" for at in range(count)]
        for at, name in enumerate(names):
            with open(name, "wb") as file:
                file.write(timed(*(self.frames[one] for one in order[at * size : (at + 1) * size])))
        return names


def windows_of(ran):
    """What each window has, by flow: what was asked and what was told; the streams of the lines that a run printed."""
    lines = sorted(line for line in ran.stdout.decode().splitlines() if line.startswith("my."))
    found = []
    for at in range(len(lines)):
        with open(f"my.{at + 1:06}.cap", "rb") as one, open(f"my.{at + 1:06}.replies", "rb") as other:
            _, _, asked = streams(one.read())
            told = read_replies(Part("replies", other.read())).outputs
        found.append((asked, {(output.connection, output.session): output.text for output in told}))
    return found


def in_windows():
    """Windows are whole: each has whole commands and all their answers, and together they have all."""
    for number in range(8):
        traffic = Traffic(random.Random(number), 1 + number)
        traffic.ask_all(60)
        names = traffic.files(1 + number % 4, shuffle=number % 3 * 3)
        random.Random(number).shuffle(names)
        for length in ("25", "1s"):
            more = ["--resume"] if number % 2 else []
            ran = run("--every", length, "--over", "--in-order", "my.cap", "--ends", "--replies", "my.replies", *more, *names)
            same(f"traffic {number}", (0, b""), (ran.returncode, ran.stderr))
            found = windows_of(ran)
            if length == "25" and len(found) < 2:
                checks.fail(f"traffic {number}", "there is one window")
            count = 0
            for asked, told in found:
                for key, text in asked.items():
                    count += text.count(b"get")
                    same("whole commands, and their answers", (True, text.count(b"get")),
                         (text.endswith(b"\r\n"), told[key].count(b"END")))
            same("all commands are in a window", 60 * len(traffic.flows), count)
            same("all answers are", sum(len(b"".join(texts)) for texts in traffic.told.values()),
                 sum(len(text) for _, told in found for text in told.values()))


def no_quiet_moment():
    """A window goes on while a command is in flight, or may be: also for an answer at the time of the next request."""
    flows = CLIENTS
    for name, slow, end in (("a command", b"get k\r\n", b"END\r\n"), ("a noreply", b"delete k noreply\r\n", b""),
                            ("a part of a command", b"set k 0 0 5\r\nab", b"")):
        traffic = Traffic(random.Random(1), 2)
        one, other = traffic.flows
        traffic.send(one, slow)
        for _ in range(5):
            traffic.send(other, b"get k\r\n")
            traffic.send(other, b"END\r\n", True)
        if end:
            traffic.send(one, end, True)
        for _ in range(2):
            traffic.send(other, b"get k\r\n")
            traffic.send(other, b"END\r\n", True)
        ran = run("--every", "2", "--over", "--in-order", "my.cap", "--ends", "--replies", "my.replies", *traffic.files(1))
        counts = [sum(text.count(b"get") for text in asked.values()) for asked, _ in windows_of(ran)]
        same(f"{name} in flight", [6, 2] if end else [7], [count for count in counts if count])
    asked = [frame_of(b"", 99, 2, flow) for flow in flows] + [answer_of(b"", 499, flow, 18) for flow in flows]
    turn = [frame_of(b"get a\r\n", 100, 16, flows[0]), acknowledging(answer_of(b"END\r\n", 500, flows[0]), 107)]
    late = acknowledging(frame_of(b"get b\r\n", 100, 16, flows[1]), 500)
    told = acknowledging(answer_of(b"END\r\n", 500, flows[1]), 107)
    for time, wanted in ((11, 1), (12, 2)):
        moments = [*enumerate(asked), (10, turn[0]), (11, turn[1]), (time, late), (13, told)]
        with open("file.pcap", "wb") as file:
            file.write(timed(*moments))
        ran = run("--every", "1", "--over", "--in-order", "my.cap", "--replies", "my.replies", "file.pcap")
        same(f"a request at {time}", wanted, sum(1 for asked, _ in windows_of(ran) if any(asked.values())))


def words_of_windows():
    traffic = Traffic(random.Random(1), 1)
    traffic.ask_all(3)
    name, = traffic.files(1)
    given = "--every", "2", "--in-order", "my.cap", "--replies", "my.replies"
    ran = run("--every", "2", "--in-order", "my.cap", name)
    same("one file is written", (2, b"tools/packets: --every needs --in-order and --replies, and both write files\n"),
         (ran.returncode, ran.stderr))
    with open(name, "rb") as file:
        text = file.read()
    with open("cut.pcap", "wb") as file:
        file.write(text[:-3])
    ran = run(*given, "cut.pcap")
    same("a file that is still written", (0, b"tools/packets: cut.pcap: it ends within a record, as a file that tcpdump still"
                                             b" writes: that is left out\n"), (ran.returncode, ran.stderr))
    ran = run(*given, name)
    same("older windows", (1, b"tools/packets: my.000001.cap: there is something in this file; --over writes over it\n"),
         (ran.returncode, ran.stderr))
    with open("bad.pcap", "wb") as file:
        file.write(text + timed((5, frame_of(b"x", kind=b"\x81\x00")))[24:])
    ran = run(*given, "--over", "bad.pcap")
    same("a frame that is refused", (1, b"tools/packets: bad.pcap: a frame has a VLAN tag\n  tools/packets bad.pcap says where\n"),
         (ran.returncode, ran.stderr))


def usual_answers():
    """Where the usual answers end is where all others do."""
    some = (b"END\r\n", b"VALUE a 0 5\r\nval\nu\r\nEND\r\n", b"VALUE a 0 5 77\r\nvalue\r\nVALUE b 1 0\r\n\r\nEND\r\n", b"15\r\n",
            b"STORED\r\n", b"HD\r\n", b"HD c5\r\n", b"VA 2 f\r\nxx\r\n", b"VA 2\r\nxx\r\n", b"MN\r\n", b"ERROR\r\n", b"OK\r\n",
            b"VERSION 1\r\n", b"STAT a b\r\nEND\r\n", b"CLIENT_ERROR x\r\n", b"VA x\r\n", b"mg a b\r\nEN\r\n", b"HDx\r\n", b"ERRORS\r\n",
            b"END\n", b"VALUE a b c\r\n", b"\r\n", b"VAL")
    for number in range(3000):
        draw = random.Random(number)
        text = b"".join(draw.choice(some) for _ in range(draw.randint(1, 8)))
        text = text[: len(text) - draw.choice([0, 0, 1, 5])]
        same(f"answers {text}", [answer.end for answer in Answers().feed(text)], answer_ends(text))


# ---- with the program, tcpdump and memcached


def served(text, *words):
    """What the program writes for these words and this input."""
    return subprocess.run([program_path(), *words], input=text, stdout=subprocess.PIPE, timeout=LONGEST, check=False).stdout


def is_recorded(path):
    """Whether a file of packets has the ends of all answers."""
    with open(path, "rb") as file:
        return file.read().count(b"END\r\n") >= 200


@contextlib.contextmanager
def dumped(path, port):
    """Records the packets of a port; where that cannot be done, the rest of the test is left out."""
    if not shutil.which("tcpdump"):
        skip("tcpdump is not installed")
    # as root, tcpdump would otherwise become a user who may not write there
    words = ["-i", "lo", "-U", "-B", "65536", *(["-Z", "root"] if os.geteuid() == 0 else []), "-w", path, "tcp", "port", port]
    with subprocess.Popen(["tcpdump", *words], stderr=subprocess.PIPE) as dump:
        is_recording = any(b"listening" in line for line in dump.stderr)
        if not is_recording:
            skip("tcpdump may not record")
        yield
        until("all packets are recorded", lambda: is_recorded(path))
        dump.send_signal(signal.SIGINT)
        dump.stderr.read()


def talked(place):
    """Two clients on keys of their own, one after the other at each step."""
    with connected(place) as one, connected(place) as other:
        for at in range(100):
            for name, client in (b"a", one), (b"b", other):
                client.sendall(b"set %s%d 0 0 1\r\nx\r\nget %s%d\r\n" % (name, at, name, at))
                take(client, len(b"STORED\r\nVALUE %s%d 0 1\r\nx\r\nEND\r\n" % (name, at)))


def real():
    """What tcpdump recorded of memcached is served, and compared with what memcached answered."""
    with memcached() as place:
        port = place.rsplit(":", 1)[1]
        with dumped("file.pcap", port):
            talked(place)
    ran = run("--port", port, "--in-order", "made", "--replies", "answered", "file.pcap")
    same("a recording", (0, True), (ran.returncode, b", 2 sessions, 400 requests, " in ran.stdout))
    made, answered, recorded = [open(name, "rb").read() for name in ("made", "answered", "file.pcap")]
    outputs = read_replies(Part("replies", answered)).outputs
    same("its answers", 2, sum(output.text.count(b"STORED") == 100 for output in outputs))
    built_program()
    capture_of_program = served(recorded, "pcap", "--port", port)
    same("the streams of the program", streams(capture_of_program), streams(made))
    for text in (made, capture_of_program):
        compared = run("answered", "-", given=served(text, "run", "--threads", "1"), tool="compare")
        same("memcached and the program", (0, True), (compared.returncode, compared.stdout.startswith(b"same")))


Tests = cases(messages, words, model, order, ends, answers, answers_to_lost_requests, resumed, pipelines, resume,
              nothing_written, in_windows, no_quiet_moment, words_of_windows, usual_answers, real, has_folder=True)

if __name__ == "__main__":
    unittest.main()
