"""Random small recordings, as of a memcached that a few clients use at once, and the same with something changed.

A memcached takes its own CAS values, may fail to store, pads numbers, and loses items that have an exptime. A recording
is cut short anywhere, so that answers are missing or cut. What is changed is one answer, or one place in the order of the
records. Whether a changed recording is explained is for `explained.py` to say.
"""
from __future__ import annotations

import random
from typing import NamedTuple

from zygos_tools.files.formats import Output, capture, close, replies_file, segment

KEYS = (b"a", b"b")
VALUES = (b"x", b"y", b"xy", b"1", b"9", b"10", b"100")
FAILURE = b"SERVER_ERROR out of memory storing object\r\n"
CLOSED = None
MOST = 1 << 64


class Drawn(NamedTuple):
    """A recording: its records, each of a connection, with the bytes or the end of a session; the answers of each session;
    and how it is to be judged."""

    records: list[tuple[int, bytes | None]]
    answers: dict[tuple[int, int], list[bytes]]
    words: list[str]
    what: str

    def text(self) -> bytes:
        count = max((connection for connection, _ in self.records), default=-1) + 1
        records = [close(connection) if text is CLOSED else segment(connection, text) for connection, text in self.records]
        closes = [sum(one == (connection, CLOSED) for one in self.records) for connection in range(count)]
        outputs = [Output(connection, session, b"".join(self.answers.get((connection, session), [])))
                   for connection in range(count) for session in range(closes[connection] + 1)]
        return capture(count, records, 2) + replies_file(2, outputs)


class Server:
    """A memcached: its items, and what it does to a call."""

    def __init__(self, draw: random.Random, may_forget: bool, may_fail: bool) -> None:
        self.draw, self.may_forget, self.may_fail = draw, may_forget, may_fail
        self.items: dict[bytes, tuple[bytes, bytes, int]] = {}
        self.lasting: set[bytes] = set()
        self.last = draw.choice((0, 5, 1 << 33))

    def store(self, key: bytes, flags: bytes, value: bytes) -> bytes:
        self.last += 1
        self.items[key] = flags, value, self.last
        return b"STORED\r\n"

    def lose(self) -> None:
        """Loses an item, or is started again."""
        if self.may_forget and self.draw.randrange(20) == 0:
            self.items, self.last = {}, 0
        for key in KEYS:
            if (self.may_forget or key in self.lasting) and self.draw.randrange(6) == 0:
                self.items.pop(key, None)

    def get(self, key: bytes, asked: bool) -> bytes:
        self.lose()
        if key not in self.items:
            return b""
        flags, value, unique = self.items[key]
        return b"VALUE %s %s %d%s\r\n%s\r\n" % (key, flags, len(value), b" %d" % unique if asked else b"", value)

    def storage(self, words: list[bytes], value: bytes, quiet: bool) -> bytes:
        verb, key, flags = words[:3]
        self.lose()
        if words[3] != b"0":
            self.lasting.add(key)
        if self.fails(key, quiet):
            return FAILURE
        if verb == b"set" or (verb == b"add") == (key not in self.items) and verb in (b"add", b"replace"):
            return self.store(key, flags, value)
        if verb in (b"add", b"replace"):
            return b"NOT_STORED\r\n"
        if key not in self.items:
            return b"NOT_FOUND\r\n" if verb == b"cas" else b"NOT_STORED\r\n"
        old = self.items[key]
        if verb == b"cas":
            return self.store(key, flags, value) if old[2] == int(words[5]) else b"EXISTS\r\n"
        return self.store(key, old[0], old[1] + value if verb == b"append" else value + old[1])

    def fails(self, key: bytes, quiet: bool) -> bool:
        if not self.may_fail or quiet and not self.may_forget or self.draw.randrange(8):
            return False
        if self.draw.randrange(2):
            self.items.pop(key, None)
        return True

    def count(self, verb: bytes, key: bytes, amount: int, quiet: bool) -> bytes:
        self.lose()
        if self.fails(key, quiet):
            return FAILURE
        if key not in self.items:
            return b"NOT_FOUND\r\n"
        flags, value, _ = self.items[key]
        bare = value.rstrip(b" ")
        if not bare.isdigit():
            return b"CLIENT_ERROR cannot increment or decrement non-numeric value\r\n"
        number = (int(bare) + amount) % MOST if verb == b"incr" else max(0, int(bare) - amount)
        text = b"%d" % number
        self.store(key, flags, text.ljust(len(value)) if self.draw.randrange(2) else text)
        return text + b"\r\n"

    def delete(self, key: bytes) -> bytes:
        self.lose()
        return b"NOT_FOUND\r\n" if self.items.pop(key, None) is None else b"DELETED\r\n"

    def flush(self) -> bytes:
        self.items = {}
        return b"OK\r\n"

    def fixed(self, words: list[bytes]) -> bytes:
        return b"VERSION 1.6\r\n" if words[0] == b"version" else b"ERROR\r\n"


class Client:
    """A connection: what it sent that was not done, and the answers that are to be recorded."""

    def __init__(self) -> None:
        self.session, self.todo, self.parts, self.ready = 0, [], [], 0


class Play:
    """Draws a recording."""

    def __init__(self, draw: random.Random) -> None:
        self.draw = draw
        self.forget, self.warm = draw.randrange(5) == 0, draw.randrange(8) == 0
        self.server = Server(draw, self.forget, draw.randrange(3) == 0)
        self.lasts = draw.randrange(4) == 0
        if self.warm:
            for key in KEYS:
                if draw.randrange(2):
                    self.server.store(key, b"0", draw.choice(VALUES))
        self.shards = draw.choice((1, 1, 2))
        self.clients = [Client() for _ in range(draw.choice((1, 2, 2, 3)))]
        self.records: list[tuple[int, bytes | None]] = []
        self.answers: dict[tuple[int, int], list[bytes]] = {}
        self.left = draw.randrange(1, 8)

    def command(self) -> bytes:
        draw = self.draw
        key, kind = draw.choice(KEYS), draw.randrange(20)
        quiet = b" noreply" if draw.randrange(6) == 0 else b""
        if kind < 6:
            keys = draw.sample(KEYS, 2) if draw.randrange(5) == 0 else [key]
            return b" ".join([draw.choice((b"get", b"get", b"gets")), *keys]) + b"\r\n"
        if kind < 14:
            verb = draw.choice((b"set", b"set", b"set", b"add", b"replace", b"append", b"prepend", b"cas"))
            value, exptime = draw.choice(VALUES), b"100" if self.lasts and draw.randrange(3) == 0 else b"0"
            unique = b" %d" % (self.server.last + draw.choice((0, 0, 0, 1, -1)) if self.server.last else 1) if verb == b"cas" else b""
            return b"%s %s %d %s %d%s%s\r\n%s\r\n" % (verb, key, draw.randrange(2), exptime, len(value), unique, quiet, value)
        if kind < 16:
            return b"%s %s %d%s\r\n" % (draw.choice((b"incr", b"decr")), key, draw.choice((0, 1, 2, 90)), quiet)
        if kind < 18:
            return b"delete %s%s\r\n" % (key, quiet)
        if kind < 19:
            return b"flush_all%s\r\n" % quiet
        return draw.choice((b"version\r\n", b"nonsense\r\n"))

    def send(self, at: int) -> None:
        text = self.command()
        if self.draw.randrange(8) == 0:
            place = self.draw.randrange(1, len(text))
            self.records.append((at, text[:place]))
            text, whole = text[place:], text
        else:
            whole = text
        self.records.append((at, text))
        self.clients[at].todo.append(whole)
        self.left -= 1

    def do(self, at: int) -> None:
        """Makes the next call of a client's first command."""
        client = self.clients[at]
        line, _, block = client.todo[0].partition(b"\r\n")
        words = line.split()
        quiet = words[-1] == b"noreply"
        if words[0] in (b"get", b"gets"):
            client.parts.append(self.server.get(words[1 + len(client.parts)], words[0] == b"gets"))
            if len(client.parts) < len(words) - 1:
                return
            if self.draw.randrange(4) == 0:
                client.parts.reverse()
            answer = b"".join(client.parts) + b"END\r\n"
        elif words[0] in (b"incr", b"decr"):
            answer = self.server.count(words[0], words[1], int(words[2]), quiet)
        elif words[0] == b"delete":
            answer = self.server.delete(words[1])
        elif words[0] == b"flush_all":
            answer = self.server.flush()
        elif block:
            answer = self.server.storage(words, block[:-2], quiet)
        else:
            answer = self.server.fixed(words)
        client.todo.pop(0)
        client.parts = []
        if not quiet:
            self.answers.setdefault((at, client.session), []).append(answer)
            client.ready += 1

    def step(self) -> bool:
        """Something happens: a client sends, the server makes a call, or an answer comes."""
        some = []
        for at, client in enumerate(self.clients):
            if self.left and len(client.todo) < 3:
                some.append((self.send, at))
            some += [(self.do, at)] * bool(client.todo) + [(self.mark, at)] * bool(client.ready)
            if not client.todo and not client.ready and self.left and self.draw.randrange(12) == 0:
                some.append((self.leave, at))
        if not some:
            return False
        what, at = self.draw.choice(some)
        what(at)
        return True

    def mark(self, at: int) -> None:
        self.records.append((at, b""))
        self.clients[at].ready -= 1

    def leave(self, at: int) -> None:
        self.records.append((at, CLOSED))
        self.clients[at].session += 1

    def drawn(self) -> Drawn:
        stops = self.draw.randrange(40) if self.draw.randrange(3) == 0 else 1000
        for _ in range(stops):
            if not self.step():
                break
        if self.draw.randrange(6) == 0:
            self.shorten()
        words = ["--shards", str(self.shards), *["--warm"] * self.warm, *["--may-forget"] * self.forget]
        return Drawn(self.records, self.answers, words, "right")

    def shorten(self) -> None:
        """Cuts the output of a session short, with an answer that was not recorded as complete."""
        some = [at for at, client in enumerate(self.clients)
                if client.ready and not self.answers[at, client.session][-1].startswith(b"VALUE")]
        for at in some[:1]:
            answers = self.answers[at, self.clients[at].session]
            answers[-1] = answers[-1][: self.draw.randrange(len(answers[-1]))]


# ---- changes


def changed_answer(draw: random.Random, given: Drawn) -> Drawn | None:
    """One answer is another one."""
    places = [(session, at) for session, answers in given.answers.items() for at in range(len(answers))]
    if not places:
        return None
    session, at = draw.choice(places)
    others = [one for answers in given.answers.values() for one in answers] + [
        b"END\r\n", b"STORED\r\n", b"NOT_STORED\r\n", b"NOT_FOUND\r\n", b"DELETED\r\n", b"EXISTS\r\n", b"2\r\n", FAILURE,
        b"VALUE a 0 1\r\n%s\r\nEND\r\n" % draw.choice((b"x", b"y", b"1", b"9")),
        b"VALUE b 1 2\r\n%s\r\nEND\r\n" % draw.choice((b"xy", b"yy", b"10", b"9 "))]
    answers = {name: list(some) for name, some in given.answers.items()}
    answers[session][at] = draw.choice(others)
    return given._replace(answers=answers, what="an answer is another one")


def changed_value(draw: random.Random, given: Drawn) -> Drawn | None:
    """An item is shown with another value or unique."""
    places = [(session, at) for session, answers in given.answers.items() for at, one in enumerate(answers)
              if one.startswith(b"VALUE")]
    if not places:
        return None
    session, at = draw.choice(places)
    answers = {name: list(some) for name, some in given.answers.items()}
    head, value, rest = answers[session][at].split(b"\r\n", 2)
    words = head.split()
    if len(words) == 5 and draw.randrange(2):
        words[4] = b"%d" % max(0, int(words[4]) + draw.choice((-1, 1)))
    else:
        value = bytes(draw.choice(b"xy19") for _ in value)
    answers[session][at] = b" ".join(words) + b"\r\n" + value + b"\r\n" + rest
    return given._replace(answers=answers, what="an item is another one")


def changed_order(draw: random.Random, given: Drawn) -> Drawn | None:
    """A record comes earlier or later than one of another connection."""
    places = [at for at in range(1, len(given.records)) if given.records[at - 1][0] != given.records[at][0]]
    if not places:
        return None
    records = list(given.records)
    for _ in range(draw.randrange(1, 4)):
        at = draw.choice(places)
        if records[at - 1][0] != records[at][0]:
            records[at - 1], records[at] = records[at], records[at - 1]
    return given._replace(records=records, what="records come in another order")


def changed_marks(draw: random.Random, given: Drawn) -> Drawn | None:
    """A mark comes earlier, or once more."""
    places = [at for at, (_, text) in enumerate(given.records) if text == b""]
    if not places:
        return None
    records = list(given.records)
    at = draw.choice(places)
    one = records[at]
    if draw.randrange(3):
        records.pop(at)
    records.insert(draw.randrange(at + 1), one)
    return given._replace(records=records, what="a mark comes earlier")


CHANGES = (changed_answer, changed_value, changed_order, changed_order, changed_marks)


def drawn(number: int) -> list[Drawn]:
    """A recording, and some that are made of it by a change or two."""
    draw = random.Random(number)
    right = Play(draw).drawn()
    found = [right]
    for change in draw.sample(CHANGES, 3):
        if made := change(draw, right):
            again = draw.choice(CHANGES)(draw, made) if draw.randrange(4) == 0 else None
            found.append(again or made)
    return found
