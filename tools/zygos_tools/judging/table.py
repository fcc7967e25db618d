"""The commands and the calls of a recording, in arrays of numbers; their bytes stay in the recorded files.

Commands are numbered in the order in which they were sent, and calls in the order of their commands. Events are made of
calls where they are needed, and let go after that.
"""
from __future__ import annotations

from array import array
from collections.abc import Iterable

from zygos_tools.judging.events import CAS, GET, Asked, Event
from zygos_tools.protocol.meaning import BAD_CHUNK, TOO_LARGE, Command, command_in
from zygos_tools.protocol.model import shard_of
from zygos_tools.protocol.table import KINDS
from zygos_tools.protocol.table import READING as READS

# the names of commands, by number: those of the table, and a line that is none
VERBS = (*KINDS, "fault")
VERB_OF = {verb: number for number, verb in enumerate(VERBS)}
V_GET, V_GETS, V_INCR, V_DECR = map(VERB_OF.__getitem__, ("get", "gets", "incr", "decr"))
V_FLUSH, V_VERSION, V_VERBOSITY = map(VERB_OF.__getitem__, ("flush_all", "version", "verbosity"))
V_MN, V_MG, V_MS, V_MD = METAS = tuple(map(VERB_OF.__getitem__, ("mn", "mg", "ms", "md")))
V_STATS, V_FAULT = map(VERB_OF.__getitem__, ("stats", "fault"))
# those that change no item
READING = {VERB_OF[name] for name, kind in KINDS.items() if kind.does in READS} | {V_FAULT}

# what is known of a command: it is not answered; it should have been answered; it is not in the certificate; another
# one takes its place; it has an answer
QUIET, LOST, DROPPED, REPLACED, ANSWERED = 1, 2, 4, 8, 16

# the replies that were seen, by number; then what is known of an item
WANTS = (None, "hit", "miss", "stored", "not stored", "exists", "not found", "deleted", "number", "no number",
         "flushed", "failed")
WANT_OF = {want: number for number, want in enumerate(WANTS)}
W_NONE, W_HIT, W_MISS = 0, 1, 2
WANT_BITS, HAS_FLAGS, HAS_VALUE, HAS_UNIQUE = 15, 16, 32, 64

# the key of a call that has none
NO_KEY = -1


class Table:
    """The commands and the calls of a recording, by number.

    `begin`, `end` and `hint` are the times of commands. A frame is at a place of the capture or, where the place is
    below 0, of `extra`, which has the frames that came in pieces. Of a call, `seen` is the unique that was shown or
    the number that was answered, and `given` the amount or the unique that the command gives. The value of a `get` is
    at a place of the output of its session, and any other one where frames are.
    """

    def __init__(self, capture: bytes, shards: int):
        self.capture, self.shards, self.extra = capture, shards, bytearray()
        self.outputs: dict[tuple[int, int], bytes] = {}
        self.connection, self.session, self.number = array("H"), array("I"), array("I")
        self.begin, self.end, self.hint = array("q"), array("q"), array("q")
        self.frame_at, self.frame_size = array("q"), array("I")
        self.answer_at, self.answer_size = array("q"), array("I")
        self.verb, self.state, self.first_call = array("B"), bytearray(), array("I")
        self.command, self.kind, self.want, self.key = array("I"), array("B"), array("B"), array("i")
        self.seen, self.given, self.flags = array("Q"), array("Q"), array("I")
        self.value_at, self.value_size = array("q"), array("I")
        self.keys: list[bytes] = []
        self.key_of: dict[bytes, int] = {}
        self.shard_of = array("H")
        self.replaced: dict[int, tuple[Command, bytes]] = {}
        self.errors: dict[int, bytes] = {}
        self.shown: dict[int, Asked] = {}

    # ---- commands

    def add(self, connection: int, session: int, number: int, verb: int, state: int, begin: int, frame_at: int,
            frame_size: int) -> int:
        """Adds a command."""
        found = len(self.verb)
        self.connection.append(connection)
        self.session.append(session)
        self.number.append(number)
        self.begin.append(begin)
        self.frame_at.append(frame_at)
        self.frame_size.append(frame_size)
        self.verb.append(verb)
        self.state.append(state)
        self.first_call.append(len(self.kind))
        return found

    def close(self) -> None:
        """Makes room for the answers and the times of all commands, and for what is seen of their calls."""
        count, calls = len(self.verb), len(self.kind)
        self.first_call.append(calls)
        for table, size in ((self.end, count), (self.hint, count), (self.answer_at, count), (self.answer_size, count),
                            (self.want, calls), (self.seen, calls)):
            table.frombytes(bytes(size * table.itemsize))

    def calls_of(self, command: int) -> range:
        """The calls of a command."""
        return range(self.first_call[command], self.first_call[command + 1])

    def count_of_calls(self, command: int) -> int:
        """How many calls a command makes."""
        return self.first_call[command + 1] - self.first_call[command]

    def reads(self, command: int) -> bool:
        """Whether a command changes no item; a faulty line with a call may remove one."""
        verb = self.verb[command]
        return verb in READING and not (verb == V_FAULT and self.count_of_calls(command))

    def has_block(self, command: int) -> bool:
        """Whether a faulty line has a block here and is a line alone for zygos."""
        is_bad_block = self.errors.get(command) in (TOO_LARGE, BAD_CHUNK)
        return not is_bad_block and self.original(command).index(b"\n") + 1 < self.frame_size[command]

    def at(self, place: int, size: int) -> bytes:
        """Bytes of the capture, or of a frame that came in pieces."""
        if place >= 0:
            return self.capture[place : place + size]
        return bytes(self.extra[-1 - place : -1 - place + size])

    def put(self, text: bytes) -> int:
        """Keeps a frame that came in pieces. Gives its place."""
        place = -1 - len(self.extra)
        self.extra += text
        return place

    def original(self, command: int) -> bytes:
        """The bytes of a command, as they were recorded."""
        return self.at(self.frame_at[command], self.frame_size[command])

    def frame(self, command: int) -> bytes:
        """The bytes of a command, or of the one that takes its place."""
        return self.replaced[command][1] if self.state[command] & REPLACED else self.original(command)

    def answer(self, command: int) -> bytes | None:
        """The answer to a command; None where it has none."""
        if not self.state[command] & ANSWERED:
            return None
        at = self.answer_at[command]
        return self.outputs[self.connection[command], self.session[command]][at : at + self.answer_size[command]]

    def meaning(self, command: int) -> Command:
        """What a command means; one that stores has no value here."""
        if self.state[command] & REPLACED:
            return self.replaced[command][0]
        if self.verb[command] == V_FAULT:
            return Command("fault", error=self.errors[command], quiet=bool(self.state[command] & QUIET))
        original = self.original(command)
        meaning: Command = command_in(original[: original.index(b"\n") + 1])
        return meaning

    def asked(self, command: int) -> Asked:
        """A command, to be printed."""
        if command not in self.shown:
            self.shown[command] = Asked(self, command)
        return self.shown[command]

    # ---- keys

    def number_of(self, key: bytes) -> int:
        """The number of a key."""
        found = self.key_of.get(key)
        if found is None:
            found = self.key_of[key] = len(self.keys)
            self.keys.append(key)
            self.shard_of.append(shard_of(key, self.shards))
        return found

    # ---- calls

    def add_call(self, command: int, kind: int, key: int, given: int = 0, flags: int = 0, value_at: int = 0,
                 value_size: int = 0) -> None:
        """Adds a call of the last command."""
        self.command.append(command)
        self.kind.append(kind)
        self.key.append(key)
        self.given.append(given)
        self.flags.append(flags)
        self.value_at.append(value_at)
        self.value_size.append(value_size)

    def shard(self, call: int) -> int:
        """The shard of a call."""
        key = self.key[call]
        return self.shard_of[key] if key >= 0 else call - self.first_call[self.command[call]]

    def value(self, call: int) -> bytes:
        """The value that a call stores, or that was shown of it."""
        at, size = self.value_at[call], self.value_size[call]
        if self.kind[call] != GET:
            return self.at(at, size)
        command = self.command[call]
        return self.outputs[self.connection[command], self.session[command]][at : at + size]

    def event(self, call: int) -> Event:
        """The event of a call."""
        return self.events([call])[0]

    def events(self, calls: Iterable[int]) -> list[Event]:
        """The events of calls."""
        found, commands, kinds, wants, keys = [], self.command, self.kind, self.want, self.keys
        begins, ends, hints, states, connections = self.begin, self.end, self.hint, self.state, self.connection
        for call in calls:
            event = Event()
            command, want, key = commands[call], wants[call], self.key[call]
            event.id, event.command, event.table, event.connection = call, command, self, connections[command]
            event.kind = kind = kinds[call]
            event.key = None if key < 0 else keys[key]
            event.shard = self.shard_of[key] if key >= 0 else call - self.first_call[command]
            event.want, event.given, event.item = WANTS[want & WANT_BITS], self.given[call], None
            event.begin, event.end, event.hint = begins[command], ends[command], hints[command]
            event.optional = states[command] & LOST != 0
            event.flags = event.value = event.unique = event.number = None
            if kind == GET:
                if want & HAS_FLAGS:
                    event.flags = self.flags[call]
                if want & HAS_VALUE:
                    event.value = self.value(call)
                if want & HAS_UNIQUE:
                    event.unique = self.seen[call]
            elif kind <= CAS:
                event.flags, event.value = self.flags[call], self.value(call)
            elif event.want == "number":
                event.number = self.seen[call]
            found.append(event)
        return found

