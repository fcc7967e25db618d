"""The commands of a recording: a capture is cut into commands, whose calls go into the table.

Commands that the profile leaves out are read as those that do the same to items: `gat` and `gats` as `get` and `gets`,
`bget` as `get`, and `touch` as an `mg` that shows nothing. `stats` and other commands of operators, which touch no
item, are dropped with their answers. A line with a NUL is read up to there, as memcached reads it. A faulty `ms` has a
block if its length is good, which memcached drops.
"""
from __future__ import annotations

import base64
import contextlib
import re
from array import array
from collections import Counter, defaultdict
from collections.abc import Callable, Iterable, Iterator
from typing import NamedTuple

from zygos_tools.files.formats import MOST_KEY, MOST_VALUE, Segment, capture_head, capture_records, read_end, shown
from zygos_tools.files.part import Part
from zygos_tools.judging.events import FLUSH, GET, KINDS, SET
from zygos_tools.judging.table import (ANSWERED, DROPPED, LOST, NO_KEY, QUIET, REPLACED, V_FAULT, V_FLUSH,
                                       V_STATS, VERB_OF, Table)
from zygos_tools.protocol.cutting import NOT_YET, OVER, Cutter
from zygos_tools.protocol.meaning import (KEY, STORAGE, TOO_LARGE, Command, command_in, framed, line_of, stored,
                                          words_of)
from zygos_tools.protocol.table import does, keys_of, kind_of

# a usual line: of a retrieval, or of a command that stores
USUAL_KEY = KEY.replace(rb"\r", rb"\r\0")
USUAL = re.compile(rb"(?:(gets?) (%s(?: %s)*)|(%s) (%s) ([0-9]{1,9}) ([0-9]{1,9}) ([0-9]{1,9})( noreply)?)\r\n"
                   % (USUAL_KEY, USUAL_KEY, "|".join(STORAGE).encode(), USUAL_KEY))
STORING = {name.encode(): (VERB_OF[name], KINDS[name]) for name in STORAGE}

# at which records the clock is looked at
LOOKS = (1 << 16) - 1
# memcached's limits: the length of a line that is no retrieval, exptimes, and the lengths of blocks
MOST_PLAIN_LINE, MOST_EXPTIME, MOST_BLOCK = 2048, (1 << 63) - 1, (1 << 31) - 3
# what memcached reads otherwise, after which nothing is sure in a session
NUL_BLOCK = "a line has a NUL, where memcached ends it, so that it reads what follows otherwise"
LONG_LINE = "a line is longer than memcached takes"
LONG_KEY = "a key is longer than 250 bytes, and memcached may lose the answers before its line"
FAR_EXPTIME = "an exptime is one that memcached does not take"
LONG_BLOCK = "a block is longer than memcached takes"
BINARY = "a stream begins as the binary protocol does"
CLOSING = "a line is one on which memcached closes the connection"
DISABLING = "after `stats sizes_disable` the server sends no END, and where its answer ends is not known"
WATCHING = "after a watch the server sends lines that no command asked for"
BAD_LINE = "a line is one that the profile leaves out, and what follows it may have been read otherwise"
LEFT_OUT = "a command on it is one that the profile leaves out"
BAD_META = "an ms has a flag that the profile leaves out, and its block may be dropped, stored, or read as lines"
# how many keys are named in a line
MOST_NAMED = 8
# the commands of operators, which touch no item
OPERATORS = (b"stats", b"slabs", b"lru", b"lru_crawler", b"watch", b"extstore", b"cache_memlimit", b"me",
             b"refresh_certs", b"shutdown")


class Odd(NamedTuple):
    """Why nothing is sure in a session, and the number of the first command of its connection of which that is so."""

    why: str
    since: int


class Recording:
    """What clients asked; `notes` counts what is left out or read as something else.

    By connection and session, `marks` has the times at which answers were whole, and `starts` those at which the client
    began to send after a whole command. In the sessions of `odd` is something that memcached reads otherwise, each with
    what that is, and those of `outside` have a faulty line, each with its number. Of keys that are `unsure` nothing can
    be refused, each for its reason. `forgetting` has the commands after which the server may lose items, and `tails` the
    last commands of sessions, if they have no end and another session follows. `surplus` has the sessions whose last
    answer is to no command. `entered` has the authentications that are left out. `early` has when the first bytes of a
    command came, if it came in several segments, and `since` the same of each connection's command that is not whole.
    """

    def __init__(self, capture: bytes, shards: int = 16, look: Callable[[], None] = lambda: None):
        self.capture, self.table, self.look_at_clock = capture, Table(capture, shards), look
        self.marks: dict[tuple[int, int], array[int]] = defaultdict(lambda: array("q"))
        self.starts: dict[tuple[int, int], array[int]] = defaultdict(lambda: array("q"))
        self.sessions: Counter[int] = Counter()
        self.notes: Counter[str] = Counter()
        self.odd: dict[tuple[int, int], Odd] = {}
        self.outside: dict[tuple[int, int], int] = {}
        self.forgetting: list[int] = []
        self.tails: set[int] = set()
        self.surplus: set[tuple[int, int]] = set()
        self.entered: list[int] = []
        self.early: dict[int, int] = {}
        self.since: dict[int, int] = {}
        self.unsure: dict[bytes, str] = {}
        # what was read last: a usual line, or the command of another one and where its line ends
        self.usual: re.Match[bytes] | None = None
        self.command, self.line = Command(""), 0
        part = Part("capture", capture)
        self.version, self.count = capture_head(part)
        self.begin = part.at
        self.of_connection: list[array[int]] = [array("I") for _ in range(self.count)]
        self.read(part)
        read_end(part)
        self.table.close()

    # ---- records

    def read(self, part: Part) -> None:
        """Cuts the streams into commands."""
        streams: dict[int, Cutter] = {}
        for place, record in enumerate(capture_records(part, self.version, self.count)):
            connection = record.connection
            if not place & LOOKS:
                self.look_at_clock()
            if not isinstance(record, Segment):
                self.end(connection, streams.pop(connection, None))
                self.sessions[connection] += 1
                continue
            text, session = record.text, self.sessions[connection]
            if not text:
                self.marks[connection, session].append(2 * place)
                continue
            stream = streams.get(connection)
            if stream is None:
                stream = streams[connection] = Cutter()
                if text[0] in (0x80, 0x16):
                    self.be_odd(connection, BINARY)
            if not stream.size:
                self.starts[connection, session].append(2 * place)
            self.take(stream, connection, text, part.at - len(text), 2 * place + 1)
        for connection, stream in streams.items():
            self.end(connection, stream)

    def end(self, connection: int, stream: Cutter | None) -> None:
        """A session has ended."""
        if stream and stream.least > MOST_BLOCK:
            self.be_odd(connection, LONG_BLOCK)

    def be_odd(self, connection: int, why: str) -> None:
        """Nothing is sure in the current session of a connection, from its last command on."""
        since = max(0, len(self.of_connection[connection]) - 1)
        self.odd.setdefault((connection, self.sessions[connection]), Odd(why, since))

    def doubt(self, one: int, is_refused: bool) -> None:
        """A faulty line: if the server did not refuse it, it may have been carried out. If it may have a block, that may
        have been read otherwise than here, and nothing is sure in its session any more."""
        table = self.table
        line = line_of(table.original(one))
        kind = kind_of(line)
        if kind is None and not is_refused or kind is not None and kind.block:
            self.odd.setdefault((table.connection[one], table.session[one]), Odd(BAD_LINE, table.number[one]))
        for key in () if is_refused else keys_left_out(line):
            self.unsure.setdefault(key, LEFT_OUT)

    def lose(self, commands: Iterable[int]) -> None:
        """It is not known which answers these commands had, nor whether they were carried out."""
        table = self.table
        for command in commands:
            table.state[command] = table.state[command] & ~ANSWERED | (DROPPED if table.reads(command) else LOST)
            for call in table.calls_of(command):
                table.want[call] = 0

    def take(self, stream: Cutter, connection: int, piece: bytes, place: int, begin: int) -> None:
        """The commands that end in a further piece of a session, which is at this place of the capture."""
        since = self.since[connection] if stream.size else begin
        for text, at, end in stream.frames(piece, self.end_of):
            before = len(text) - len(piece)
            frame_at = place + at - before if at >= before else self.table.put(text[at:end])
            if self.usual:
                self.add_usual(self.usual, connection, begin, frame_at, end - at)
            else:
                command = self.command if "bytes" not in self.command.numbers else stored(self.command, text[self.line : end])
                self.add(connection, command, text[at:end], self.line - at, begin, frame_at)
            if since != begin:
                self.early[self.of_connection[connection][-1]] = since
            since = begin
        self.since[connection] = since

    def end_of(self, text: bytes, at: int) -> int:
        """Where the frame ends that begins at a place; `usual` has what was found of a usual one, and for another one
        `command` has the command of its line, and `line` where that ends."""
        self.usual = found = USUAL.match(text, at)
        if found is not None:
            length, end = found[7], found.end()
            if length is None:
                return end
            end += int(length) + 2
            if end <= len(text) and int(length) <= MOST_VALUE and text[end - 2 : end] == b"\r\n":
                return end
            self.usual = None
        self.line = text.find(b"\n", at) + 1
        if not self.line:
            return NOT_YET
        self.command = command_in(text[at : self.line])
        if self.command.verb == "quit":
            return OVER
        size = self.command.numbers.get("bytes", dropped_size(self.command, text[at : self.line]))
        return self.line + size + 2 if size >= 0 else self.line

    def add_usual(self, found: re.Match[bytes], connection: int, begin: int, frame_at: int, size: int) -> None:
        """A command of a usual line, with its place and size in the capture."""
        getting, keys, storing, key, flags, _, length, noreply = found.groups()
        table, asked, session = self.table, self.of_connection[connection], self.sessions[connection]
        if getting:
            command = table.add(connection, session, len(asked), VERB_OF[getting.decode()], 0, begin, frame_at, size)
            number_of, add = table.number_of, table.add_call
            for name in keys.split(b" "):
                add(command, GET, number_of(name))
        else:
            verb, kind = STORING[storing]
            command = table.add(connection, session, len(asked), verb, 1 if noreply else 0, begin, frame_at, size)
            line = found.end() - found.start()
            value_at = frame_at + line if frame_at >= 0 else frame_at - line
            table.add_call(command, kind, table.number_of(key), 0, int(flags), value_at, int(length))
        asked.append(command)

    # ---- commands that are not usual

    def add(self, connection: int, command: Command, frame: bytes, line_size: int, begin: int, frame_at: int) -> None:
        """Adds a command, or the one that takes its place."""
        read = self.read_as(connection, command, frame, line_size)
        meant, table = read or command, self.table
        verb = VERB_OF[meant.verb]
        is_dropped = verb == V_STATS or meant.verb == "mg" and meant.quiet
        if is_dropped:
            self.leave_out(len(table.verb), connection, words_of(line_of(frame)))
        state = QUIET * meant.quiet | DROPPED * is_dropped | REPLACED * (read is not None)
        asked = self.of_connection[connection]
        number = table.add(connection, self.sessions[connection], len(asked), verb, state, begin, frame_at, len(frame))
        asked.append(number)
        if read is not None:
            cut = frame[: frame.find(b"\0")] if b"\0" in frame[:line_size] else frame
            table.replaced[number] = read, line_for(read) if read.verb != "fault" else cut + b"\r\n"
        if verb == V_FAULT:
            table.errors[number] = meant.error or b""
        elif verb == V_FLUSH:
            for _ in range(table.shards):
                table.add_call(number, FLUSH, NO_KEY)
        elif meant.keys and not is_dropped:
            self.add_calls(number, meant, frame_at, line_size)
        if verb == V_FAULT and meant.error == TOO_LARGE:  # it may have removed the older item
            table.add_call(number, SET, table.number_of(frame[:line_size].split()[1]))
        self.look(connection, command, frame, line_size)

    def leave_out(self, number: int, connection: int, words: list[bytes]) -> None:
        """Counts a command that is dropped, and notes what it may do later."""
        name = words[0].decode() if words else "faulty line"
        self.notes[f"{name} with a delay left out" if name == "flush_all" else f"{name} left out"] += 1
        if name in ("flush_all", "cache_memlimit") or words[:2] == [b"slabs", b"reassign"]:
            self.forgetting.append(number)
        if name == "watch" or words[:2] == [b"stats", b"sizes_disable"]:
            self.be_odd(connection, WATCHING if name == "watch" else DISABLING)

    def add_calls(self, number: int, command: Command, frame_at: int, line_size: int) -> None:
        """The calls of a command on its keys."""
        table, numbers = self.table, command.numbers
        kind = KINDS[does(command)]
        given = numbers.get("unique", 0) if kind == KINDS["cas"] else numbers.get("amount", 0)
        value_at = frame_at + line_size if frame_at >= 0 else frame_at - line_size
        for key in command.keys:
            table.add_call(number, kind, table.number_of(key), given, numbers.get("flags", 0), value_at,
                           len(command.value) if command.value is not None else 0)

    def look(self, connection: int, command: Command, frame: bytes, line_size: int) -> None:
        """Notes what memcached reads otherwise."""
        if line_size > MOST_PLAIN_LINE and not frame.startswith((b"get ", b"gets ", b"gat ", b"gats ", b"mg ")):
            self.be_odd(connection, LONG_LINE)
        if command.numbers.get("exptime", 0) > MOST_EXPTIME:
            self.be_odd(connection, FAR_EXPTIME)
        if command.verb == "fault":
            self.look_at_fault(connection, command, frame, line_size)

    def look_at_fault(self, connection: int, command: Command, frame: bytes, line_size: int) -> None:
        """Notes what a faulty line does on a memcached alone."""
        words, error = frame[:line_size].split(), command.error or b""
        if error == TOO_LARGE and command.quiet:
            self.unsure.setdefault(words[1], "a value is too large, and it is not known whether it was stored")
        if len(frame) > line_size and words[0] == b"ms" and error != TOO_LARGE:
            self.be_odd(connection, BAD_META)
            for inner, _ in framed(frame[line_size:]):
                for key in inner.keys:
                    self.unsure.setdefault(key, BAD_META)
        if error.startswith(b"CLIENT_ERROR") and any(len(word) > 250 for word in words[1:]):
            self.be_odd(connection, LONG_KEY)
        if words and words[-1].startswith(b"HTTP/") or words[:1] == [b"quit"]:
            self.be_odd(connection, CLOSING)

    def read_as(self, connection: int, command: Command, frame: bytes, line_size: int) -> Command | None:
        """The command that takes the place of one that the profile leaves out, or reads otherwise than memcached."""
        if b"\0" in frame[:line_size]:
            return self.cut_at_nul(connection, command, frame[:line_size])
        if command.verb not in ("fault", "stats"):
            return None
        words = words_of(line_of(frame))
        return READ_AS[words[0]](words) if words and words[0] in READ_AS else None

    def cut_at_nul(self, connection: int, command: Command, line: bytes) -> Command | None:
        """The command of a line up to its first NUL."""
        cut = line[: line.index(b"\0")] + b"\r\n"
        meant = command_in(cut)
        if "bytes" in meant.numbers or command.value is not None or command.verb == "fault" and b"\0" in line[:2]:
            self.be_odd(connection, NUL_BLOCK)
            return None
        if meant.verb in ("fault", "stats"):
            words = words_of(line_of(cut))
            read = READ_AS[words[0]](words) if words and words[0] in READ_AS else None
            if read is not None and read.verb == "stats":
                return read
            meant = read or meant
        for key in meant.keys:
            self.unsure.setdefault(key, "a line has a NUL, where memcached ends it and another server may not")
        self.notes["lines cut at a NUL"] += 1
        return meant


def keys_left_out(line: bytes) -> list[bytes]:
    """The keys on which a line that the profile leaves out may do something: with the flag `b`, its key in base64."""
    words = words_of(line)
    keys = list(keys_of(Command("fault"), line))
    if words[:1] in ([b"ms"], [b"mg"], [b"md"], [b"ma"]) and b"b" in words[2:]:
        with contextlib.suppress(ValueError):
            keys.append(base64.b64decode(words[1], validate=True))
    return keys


def keys_named(table: Table, one: int) -> list[bytes]:
    """The keys of a command, also of one that the profile leaves out."""
    if table.verb[one] == V_FAULT:
        return keys_left_out(line_of(table.original(one)))
    return [table.keys[table.key[call]] for call in table.calls_of(one) if table.key[call] >= 0]


def may_concern(table: Table, one: int, is_chosen: Callable[[bytes], bool]) -> bool:
    """Whether a command may have read or changed an item of a key that is chosen."""
    keys = keys_named(table, one)
    return any(map(is_chosen, keys)) if keys else table.verb[one] == V_FAULT or table.count_of_calls(one) > 0


def advice_on(table: Table, commands: Iterable[int], whose: str) -> str:
    """The words that leave out the keys of commands, to be printed; nothing if they have none."""
    keys = list(dict.fromkeys(key for one in commands for key in keys_named(table, one)))
    some = " ".join(map(shown, keys[:MOST_NAMED])) + " .." * (len(keys) > MOST_NAMED)
    return f"; --except-keys '{some}' leaves out {whose}" if keys else ""


def dropped_size(command: Command, line: bytes) -> int:
    """The length of the block of a faulty `ms` line; below 0 where it has none."""
    if command.verb != "fault" or not line.lstrip(b" ").startswith(b"ms "):
        return -1
    words = words_of(line_of(line))
    is_good = len(words) > 2 and len(words[1]) <= MOST_KEY and words[2].isdigit() and len(words[2]) < 11
    return int(words[2]) if is_good and int(words[2]) <= MOST_BLOCK else -1


def line_for(command: Command) -> bytes:
    """The line of a command that takes the place of another one."""
    if command.verb == "stats":
        return b"stats\r\n"
    numbers = command.numbers
    words = [command.verb.encode(), *command.keys]
    if command.verb in ("incr", "decr"):
        words.append(b"%d" % numbers["amount"])
    elif command.verb == "verbosity":
        words.append(b"%d" % numbers["level"])
    words += [letter.encode() for letter in command.letters]
    words += [b"noreply"] * (command.quiet and command.verb != "mg")
    return b" ".join(words) + b"\r\n"


# ---- commands that the profile leaves out


def read_operator(words: list[bytes]) -> Command | None:
    """`stats` and the like, which are dropped."""
    return Command("stats") if words else None


def read_flush(words: list[bytes]) -> Command | None:
    """`flush_all` with a delay, which is dropped, for it may take items away later."""
    quiet = words[-1] == b"noreply"
    numbers = words[1 : len(words) - quiet]
    return Command("stats", quiet=quiet) if len(numbers) == 1 and is_exptime(numbers[0]) else None


def read_get(words: list[bytes]) -> Command | None:
    """`gat` and `gats`: an exptime, and keys; `bget`. Without a key it does nothing."""
    if len(words) == 2 and words[0] != b"bget" and is_exptime(words[1]):
        return Command("stats")
    keys = words[1:] if words[0] == b"bget" else words[2:]
    is_one = len(keys) > 0 and (words[0] == b"bget" or is_exptime(words[1]))
    return meant(b" ".join([b"gets" if words[0] == b"gats" else b"get", *keys])) if is_one else None


def read_touch(words: list[bytes]) -> Command | None:
    """`touch`: a key, and an exptime."""
    quiet = words[3:] == [b"noreply"]
    if len(words) != 3 + quiet or not is_exptime(words[2]):
        return None
    command = meant(b"mg " + words[1])
    return Command("mg", command.keys, quiet=quiet, call="get") if command else None


def read_version(words: list[bytes]) -> Command | None:
    """`version` and `mn`, of which memcached ignores the words after the name."""
    return meant(words[0])


def meant(line: bytes) -> Command | None:
    """The command of a line without its end; None where it is faulty."""
    command: Command = command_in(line + b"\r\n")
    return None if command.verb == "fault" else command


def is_exptime(word: bytes) -> bool:
    """Whether a word is an exptime."""
    return word.removeprefix(b"-").isdigit()


READ_AS = {**dict.fromkeys(OPERATORS, read_operator), b"flush_all": read_flush, b"gat": read_get, b"gats": read_get, b"bget": read_get, b"touch": read_touch,
           b"version": read_version, b"mn": read_version}


def sessions_of(recording: Recording) -> Iterator[tuple[tuple[int, int], array[int]]]:
    """The commands of each session, also of those without any."""
    sessions = recording.table.session
    for connection in range(recording.count):
        asked, at = recording.of_connection[connection], 0
        for session in range(recording.sessions[connection] + 1):
            begin = at
            while at < len(asked) and sessions[asked[at]] == session:
                at += 1
            yield (connection, session), asked[begin:at]
