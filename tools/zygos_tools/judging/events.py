"""The events of a recording: commands as they were asked and answered, and the calls that they made on keys.

A time is a place in the capture. What begins has odd times and what ends even ones, so no two of them are equal.
"""
from __future__ import annotations

from collections.abc import Iterable
from typing import TYPE_CHECKING

from zygos_tools.files.formats import shown

if TYPE_CHECKING:
    from zygos_tools.judging.table import Table

FOREVER = 1 << 62

# the kinds of calls; one that only says whether there is an item is a get
GET, SET, ADD, REPLACE, APPEND, PREPEND, CAS, INCR, DECR, DELETE, FLUSH = range(11)
KINDS = {"get": GET, "set": SET, "add": ADD, "replace": REPLACE, "append": APPEND, "prepend": PREPEND, "cas": CAS,
         "incr": INCR, "decr": DECR, "delete": DELETE, "flush": FLUSH, "touch": GET}

# how many bytes of a line and of a value are shown
MOST_LINE, MOST_VALUE = 60, 40
# how many keys and connections are named in a line
MOST_NAMED = 8


class Verdict(Exception):
    """What is said in place of an order: why, with lines about the commands that it is about.

    `connections` are those of these commands, `record` is that of the first fault, where it is known, and `keys` are
    the keys that have no order.
    """

    word = ""

    def __init__(self, why: str, asked: Asked | None = None, lines: Iterable[str] = (), connections: Iterable[int] = (),
                 record: int | None = None, keys: Iterable[bytes] = ()):
        super().__init__(why)
        self.keys = list(keys)
        self.why, self.lines = why, [asked.told()] if asked else list(lines)
        self.connections = [asked.connection] if asked else sorted(set(connections))
        self.record = asked.begin // 2 if asked and record is None else record

    def told(self) -> list[str]:
        """The verdict, to be printed."""
        return [f"{self.word}: {self.why}", *self.lines]

    def subject(self) -> str:
        """What the verdict is about."""
        if not self.keys:
            return self.lines[0].strip() if self.lines else self.why
        return ("keys " if len(self.keys) > 1 else "key ") + ", ".join(map(shown, self.keys[:MOST_NAMED]))

    def brief(self) -> str:
        """The verdict in a line."""
        many = "s" if len(self.connections) > 1 else ""
        some = ", ".join(map(str, self.connections[:MOST_NAMED])) + ", .." * (len(self.connections) > MOST_NAMED)
        who = f"; connection{many} {some}" if self.connections and self.keys else ""
        when = f", by record {self.record}" if self.record is not None and self.keys else ""
        why = self.why.replace(f"{self.subject()}: ", "", 1)
        return f"  {self.word}: {self.subject()}{f': {why}' if self.word == 'unknown' and self.keys else ''}{who}{when}"

    def __reduce__(self) -> tuple[object, ...]:
        return remade, (self.__class__, self.why, self.lines, self.connections, self.record, self.keys)


def remade(kind: type[Verdict], why: str, lines: list[str], connections: list[int], record: int | None,
           keys: list[bytes]) -> Verdict:
    """A verdict that comes from another process."""
    return kind(why, None, lines, connections, record, keys)


class No(Verdict):
    """No order explains what was answered."""

    word = "no"


class Unknown(Verdict):
    """Neither an order nor a reason why there is none was found."""

    word = "unknown"


class Limited(Unknown):
    """The search of a key ended at its most states, as it does each time."""


class Asked:
    """A command as it was recorded, to be printed; `number` is its number among those of its connection."""

    __slots__ = ("id", "connection", "session", "number", "begin", "end", "original", "answer")

    connection: int
    begin: int

    def __init__(self, table: Table, number: int):
        self.id, self.connection, self.session = number, table.connection[number], table.session[number]
        self.number, self.begin, self.end = table.number[number], table.begin[number], table.end[number]
        self.original, self.answer = table.original(number), table.answer(number)

    def name(self) -> str:
        """The command by its numbers."""
        session = f", session {self.session}" if self.session else ""
        return f"connection {self.connection}{session}, command {self.number}"

    def line(self) -> str:
        """What was asked."""
        text = shown(self.original[: self.original.index(b"\n")].removesuffix(b"\r"))
        return cut(text, MOST_LINE)

    def when(self) -> str:
        """When the command was sent and answered."""
        word = "ended by" if self.answer is None else "answered"
        ended = f", {word} {self.end // 2}" if self.end < FOREVER else ""
        return f"sent {self.begin // 2}{ended}"

    def told(self) -> str:
        """The command with its answer."""
        answer = "no answer" if self.answer is None else first_line(self.answer)
        return f"  {self.name()}, {self.when()}: {self.line()} -> {answer}"


class Event:
    """A call, and what is known of its reply: `want` is its name, or None where nothing was seen.

    `flags` and `value` are what the call stores or, for a `get`, what was shown; `unique` is the one that was shown,
    `number` the one that was answered, and `given` the amount or the unique that the command gives. `item` is the
    number of the flags and the value, once they are numbered. A call that is `optional` may not have been made. The
    call was carried out between `begin` and `end`, and probably shortly before `hint`.
    """

    __slots__ = ("id", "command", "table", "connection", "kind", "key", "shard", "want", "flags", "value", "unique",
                 "number", "given", "item", "begin", "end", "hint", "optional")

    id: int
    command: int
    table: Table
    connection: int
    kind: int
    key: bytes | None
    shard: int
    want: str | None
    flags: int | None
    value: bytes | None
    unique: int | None
    number: int | None
    given: int
    item: int | None
    begin: int
    end: int
    hint: int
    optional: bool

    @property
    def asked(self) -> Asked:
        """The command of the call."""
        return self.table.asked(self.command)

    def told(self, has_flags: bool = False) -> str:
        """The call with what was seen of it, to be printed, and with its flags if these matter."""
        asked = self.asked
        value = f" '{brief(self.value)}'" if self.kind != GET and self.value is not None else ""
        is_one_of_many = self.key is not None and self.table.count_of_calls(self.command) > 1
        key = f" (key {shown(self.key or b'')})" if is_one_of_many else ""
        perhaps = " (if it was made then)" if self.optional and self.want is not None else ""
        return f"  {asked.name()}, {asked.when()}: {asked.line()}{value}{key} -> {self.seen(has_flags)}{perhaps}"

    def seen(self, has_flags: bool = False) -> str:
        """What was seen of the call."""
        if self.want is None:
            return "may have been made" if self.optional else "no answer"
        if self.want == "number":
            return str(self.number)
        if self.want != "hit":
            return self.want
        marks = [f"flags {self.flags}"] * (has_flags and self.flags is not None)
        marks += [f"unique {self.unique}"] * (self.unique is not None)
        return (f"'{brief(self.value)}'" if self.value is not None else "an item") + " with " * bool(marks) + \
            " and ".join(marks)


def cut(text: str, most: int) -> str:
    """A text of at most so many characters."""
    return text if len(text) <= most else text[: most - 3] + "..."


def brief(value: bytes) -> str:
    """The beginning of a value, to be printed."""
    return cut(shown(value), MOST_VALUE)


def first_line(answer: bytes) -> str:
    """The first line of an answer, to be printed."""
    return brief(answer.partition(b"\n")[0].rstrip())


def counted(count: float, name: str) -> str:
    """A count of what the name names."""
    return f"{count:,} {name}" + ("" if count == 1 else "s") if isinstance(count, int) else f"{count} {name}s"
