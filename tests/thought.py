"""Recordings of a memcached that is only thought of: it carries out calls at random moments, as many clients send them.

The capture has the ends of answers, as `tools/record --ends` writes them. The server is the plain model's, but for what
memcached does otherwise: it pads numbers, its uniques are of one count, and it has `touch`, `gat` and many stats.
"""
import heapq
import random

from zygos_tools.files.formats import END, Output, capture_start, close, replies_file, segment
from zygos_tools.protocol.meaning import Command, Framer
from zygos_tools.protocol.model import Shard, call_of, text_of
from zygos_tools.trying.clients import Client

USUAL = "get get get mget gets set set setq add delete cas cas incr incrq decr append prepend number mg ms"
WIDE = USUAL + " md quiet touch touchq gat gats stats version verbosity fault"


class Memcached(Shard):
    """The store, with the answers to commands."""

    pads = True

    def __init__(self):
        super().__init__(0, 1)

    def answer_to(self, command, frame, replies):
        """The text that answers a command."""
        word = frame.split()[0]
        if word == b"touch":
            return b"" if b"noreply" in frame else b"TOUCHED\r\n" if replies[0].name == "hit" else b"NOT_FOUND\r\n"
        if word == b"stats":
            return b"STAT pid 1\r\nSTAT uptime 2\r\nEND\r\n"
        if word == b"version":
            return b"VERSION 1.6.18\r\n"
        if word == b"md" and replies[0].name == "not found":
            return b"NF k%s\r\n" % command.keys[0] if "k" in command.letters else b"NF\r\n"
        if command.verb == "fault":
            return b"ERROR what\r\n"
        return text_of(command, replies)


def understood(command, frame):
    """A command as this server has it, also those that the profile leaves out."""
    words = frame.split()
    if words[0] in (b"gat", b"gats"):
        return Command("gets" if words[0] == b"gats" else "get", words[2:])
    if words[0] == b"touch":
        return Command("get", words[1:2])
    return Command("version") if words[0] == b"stats" else command


class Draw:
    """A recording that is drawn: `server` answers `clients`, each with up to `in_flight` commands at a time."""

    def __init__(self, seed, clients, commands, keys, in_flight=1, kinds=USUAL, server=None, has_ends=True):
        self.draw, self.server, self.in_flight, self.has_ends = random.Random(seed), server or Memcached(), in_flight, has_ends
        names = [b"key:%d" % at for at in range(keys)]
        self.clients = [Client(number, self.draw, names, kinds) for number in range(clients)]
        self.left, self.due = [commands] * clients, [0] * clients
        self.records, self.outputs, self.heap, self.count = [], [b""] * clients, [], 0
        self.framers, self.late = [Framer() for _ in range(clients)], [0.0] * clients
        self.asked, self.truth = [0] * clients, []  # how many commands there were, and the calls as they were made

    def at(self, time, client, what, *more):
        self.count += 1
        heapq.heappush(self.heap, (time, self.count, client, what, more))

    def wait(self):
        return self.draw.expovariate(1) + 1e-9

    def run(self):
        """Plays all clients to their ends."""
        for number in range(len(self.clients)):
            self.at(self.draw.random(), number, self.send)
        while self.heap:
            time, _, number, what, more = heapq.heappop(self.heap)
            what(time, number, *more)
        return self

    def send(self, time, number):
        """A client sends some commands, sometimes in two segments; without ends a segment says that all before is answered."""
        count = min(self.left[number], self.draw.randint(1, self.in_flight))
        self.left[number] -= count
        text = b"".join(self.clients[number].command() for _ in range(count))
        cut = self.draw.randrange(1, len(text)) if count and self.has_ends and self.draw.random() < 0.1 else len(text)
        for piece in (text[:cut], text[cut:]):
            if piece:
                self.records.append(segment(number, piece))
                for command, frame in self.framers[number].feed(piece):
                    time = self.plan(time, number, understood(command, frame), frame)

    def plan(self, time, number, command, frame):
        """The moments at which a command's calls are made."""
        self.due[number] += 1
        keys, replies = command.keys or [None], []
        for at, key in enumerate(keys):
            time += 0.3 * self.wait()
            self.at(time, number, self.make, command, frame, (self.asked[number], at), key, replies, at == len(keys) - 1)
        self.asked[number] += 1
        return time

    def make(self, time, number, command, frame, place, key, replies, is_last):
        """A call is made."""
        self.truth.append((number, *place))
        if command.verb == "flush_all":
            self.server.items = {}
        elif key is not None:
            replies.append(self.server.answer(call_of(command, key)))
        if is_last:
            self.clients[number].learn(command, replies)
            text = self.server.answer_to(command, frame, replies) if not command.quiet else b""
            self.late[number] = max(self.late[number], time) + 0.3 * self.wait()
            self.at(self.late[number], number, self.hear, text)

    def hear(self, time, number, text):
        """A client has an answer."""
        self.outputs[number] += text
        if text and self.has_ends:
            self.records.append(segment(number, b""))
        self.due[number] -= 1
        if not self.due[number]:
            self.at(time + 0.3 * self.wait(), number, self.send)

    def capture(self):
        return capture_start(len(self.clients)) + b"".join(self.records) + END

    def replies(self):
        return replies_file(1, [Output(number, 0, text) for number, text in enumerate(self.outputs)])


def recording(*words, **more):
    """A capture and a replies file."""
    drawn = Draw(*words, **more).run()
    return drawn.capture(), drawn.replies()


def in_sessions(seed, clients, commands, keys, in_flight):
    """A recording in which each connection is used twice, one after the other."""
    server, records, outputs = Memcached(), [], []
    for session in range(2):
        drawn = Draw(seed + session, clients, commands, keys, in_flight, server=server).run()
        records += [close(number) for number in range(clients) if session] + drawn.records
        outputs += [Output(number, session, text) for number, text in enumerate(drawn.outputs)]
    return capture_start(clients, 2) + b"".join(records) + END, replies_file(2, sorted(outputs))
