"""The files of zygos, captures, journals, replies files and items files, read and written as docs/FORMATS.md says.

`capture_records`, `journal_records`, `replies_records` and the like give what bytes spell, a record after the other, or
raise the first fault; they keep nothing of what they gave. `read_capture` and its like gather all records. `capture`,
`segment` and the like give the bytes of values, and `capture_start` and its like those before the first record, to
which records and END are appended.
"""
from __future__ import annotations

import os
import re
import struct
from collections.abc import Callable, Iterable, Iterator
from operator import itemgetter
from typing import Any, NamedTuple, TypeVar, Union

from zygos_tools.files.part import Part

MOST_CONNECTIONS, MOST_SESSIONS, MOST_SHARDS, MOST_CORES, MOST_HOLD = 4096, 1 << 31, 256, 64, 64
MOST_SEGMENT, MOST_KEY, MOST_VALUE = 65535, 250, 1048576
MOST_STAMP, MOST_INDEX = (1 << 60) - 1, (1 << 40) - 1


# a field that a call or a reply does not have
ABSENT: Any = None


class Segment(NamedTuple):
    """Bytes that a connection sent."""

    connection: int
    text: bytes


class Close(NamedTuple):
    """The end of a session of a connection."""

    connection: int


Record = Union[Segment, Close]


class Capture(NamedTuple):
    version: int
    count: int  # type: ignore[assignment]
    records: list[Record]


class Call(NamedTuple):
    """A call on a shard; it has the fields that CALLS lists."""

    name: str
    key: bytes = ABSENT
    flags: int = ABSENT
    unique: int = ABSENT
    value: bytes = ABSENT
    number: int = ABSENT


class Reply(NamedTuple):
    """The reply to a call; it has the fields that REPLIES lists."""

    name: str
    flags: int = ABSENT
    unique: int = ABSENT
    value: bytes = ABSENT
    number: int = ABSENT
    gets: int = ABSENT
    sets: int = ABSENT
    hits: int = ABSENT
    misses: int = ABSENT
    items: int = ABSENT


class Entry(NamedTuple):
    """A call of a journal, with its reply and its place."""

    stamp: int
    shard: int
    connection: int
    index: int  # type: ignore[assignment]
    part: int
    call: Call
    reply: Reply


class Hold(NamedTuple):
    """A core held a connection, for some commands."""

    connection: int
    core: int
    count: int  # type: ignore[assignment]


class Journal(NamedTuple):
    entries: list[Entry]
    holds: list[Hold]


class Output(NamedTuple):
    """What was answered in a session."""

    connection: int
    session: int
    text: bytes


class OutputHead(NamedTuple):
    connection: int
    session: int
    length: int


class Replies(NamedTuple):
    version: int
    outputs: list[Output]


class Item(NamedTuple):
    """A key and its item."""

    key: bytes
    flags: int
    unique: int
    value: bytes


class Items(NamedTuple):
    """What a server has between two recordings."""

    bound: int
    items: list[Item]
    # the keys to which an exptime was given
    lasting: list[bytes]


Coded = TypeVar("Coded", Call, Reply)
Table = list[tuple[str, str]]

# the calls and the replies by their codes, from 1 on, each with its fields in order
CALLS = [("get", "key"), ("set", "key flags value"), ("add", "key flags value"), ("replace", "key flags value"),
         ("append", "key value"), ("prepend", "key value"), ("cas", "key flags unique value"),
         ("incr", "key number"), ("decr", "key number"), ("delete", "key"), ("flush", ""), ("tally", "")]
# the calls that a shard counts as gets, and as sets
GETS, SETS = ("get",), ("set", "add", "replace", "append", "prepend", "cas")
REPLIES = [("miss", ""), ("hit", "flags unique value"), ("stored", ""), ("not stored", ""), ("exists", ""),
           ("not found", ""), ("deleted", ""), ("number", "number"), ("no number", ""), ("too large", ""),
           ("flushed", ""), ("tally", "gets sets hits misses items")]

# how the files of each format begin, and how they all end
FORMATS = {b"ZYGCAP": "capture", b"ZYGJRN": "journal", b"ZYGREP": "replies", b"ZYGITM": "items"}
END = b"E"

# more bytes than an entry or a segment has
MOST_ENTRY, MOST_RECORD = 2 * MOST_VALUE + 1024, MOST_SEGMENT + 9


# ---- captures

SEGMENT = struct.Struct(">BII")


# the version and the count of connections of a capture that is being recorded
GROWING = 2, MOST_CONNECTIONS


def capture_head(part: Part) -> tuple[int, int]:
    """The version of a capture and its count of connections."""
    version = part.magic([b"ZYGCAP1\n", b"ZYGCAP2\n"], "bad-magic")
    count = part.within(4, 0, MOST_CONNECTIONS, "conn-count {number}")
    if (version, count) == GROWING:
        part.hint = "; if it was left by a recording that was killed, tools/record --repair completes it"
    return version, count


def capture_records(part: Part, version: int, count: int) -> Iterator[Record]:
    """The records of a capture after its head."""
    while True:
        yield from whole_segments(part, count)
        if not part.want(MOST_RECORD):
            record = read_record(part, version, count)
            if record is None:
                return
            yield record


def whole_segments(part: Part, count: int) -> Iterator[Segment]:
    """The segments up to a record that is not a good segment, or is not whole in the window."""
    text, at, limit, new = part.text, part.at, part.limit(), tuple.__new__
    while at + 9 <= limit:
        tag, connection, length = SEGMENT.unpack_from(text, at)
        at += 9 + length
        if tag != 83 or connection >= count or length > MOST_SEGMENT or at > limit:
            return
        part.at = at
        yield new(Segment, (connection, text[at - length : at]))


def read_record(part: Part, version: int, count: int) -> Record | None:
    """A record of a capture; None at its end."""
    tag = part.take(1)
    if tag == END:
        return None
    if tag != b"S" and (tag != b"C" or version == 1):
        raise part.fault(f"bad-tag at {part.place - 1} byte {tag[0]}")
    connection = part.within(4, 0, count - 1, "conn-range at {at} number {number}")
    if tag == b"C":
        return Close(connection)
    return Segment(connection, part.take(part.within(4, 0, MOST_SEGMENT, "segment-length at {at} number {number}")))


def read_capture(part: Part) -> Capture:
    version, count = capture_head(part)
    return Capture(version, count, list(capture_records(part, version, count)))


def segment(connection: int, text: bytes) -> bytes:
    return SEGMENT.pack(83, connection, len(text)) + text


def pieces(connection: int, text: bytes, size: int = MOST_SEGMENT) -> list[bytes]:
    """Segments of `size` bytes; the last may have fewer."""
    return [segment(connection, text[at : at + size]) for at in range(0, len(text), size)]


def close(connection: int) -> bytes:
    return b"C" + big(4, connection)


def capture_start(count: int, version: int = 1) -> bytes:
    return b"ZYGCAP%d\n" % version + big(4, count)


def capture(count: int, records: Iterable[bytes], version: int = 1) -> bytes:
    """A capture of records that are given as bytes."""
    return capture_start(count, version) + b"".join(records) + END


# ---- journals

JOURNAL_START = b"ZYGJRN1\n"
ENTRY, HOLD = struct.Struct(">BQIIQI"), struct.Struct(">BIII")
SIZES = {"flags": "I", "value": "I"}

# how a call or a reply is read at once: whether it has a key, the numbers and lengths after it, whether the last of
# these is the length of a value, and how (name, key, None, value, *numbers) are put in the order of the fields
class Form(NamedTuple):
    name: str
    has_key: bool
    numbers: struct.Struct
    has_value: bool
    order: Callable[[tuple[object, ...]], tuple[object, ...]]


def forms(kind: type[Call] | type[Reply], table: Table) -> dict[int, Form]:
    """The forms of calls or replies, by their codes."""
    found = {}
    for code_of, (name, line) in enumerate(table, 1):
        fields = line.split()
        numbers = [field for field in fields if field != "key"]
        places = {**{field: 4 + at for at, field in enumerate(numbers)}, "name": 0, "key": 1, "value": 3}
        order = itemgetter(*(places[field] if field in ["name", *fields] else 2 for field in kind._fields))
        layout = ">" + "".join(SIZES.get(field, "Q") for field in numbers)
        found[code_of] = Form(name, "key" in fields, struct.Struct(layout), "value" in fields, order)
    return found


CALL_FORMS, REPLY_FORMS = forms(Call, CALLS), forms(Reply, REPLIES)


def journal_records(part: Part) -> Iterator[Entry | Hold]:
    """The entries of a journal, and then its holds."""
    part.magic([JOURNAL_START])
    entry_before = hold_before = None
    while True:
        if not hold_before:
            for entry_before in whole_entries(part, entry_before):
                yield entry_before
        for hold_before in whole_holds(part, hold_before):
            yield hold_before
        if part.want(MOST_ENTRY):
            continue
        tag = part.take(1)
        if tag == b"J" and hold_before is None:
            entry_before = read_entry(part, entry_before)
            yield entry_before
        elif tag == b"H":
            hold_before = read_hold(part, hold_before)
            yield hold_before
        elif tag == END:
            return
        else:
            raise part.fault(f"form at {part.place - 1}")


def whole_entries(part: Part, before: Entry | None) -> Iterator[Entry]:
    """The entries after another one up to a record that is not a good entry, or is not whole in the window."""
    text, at, limit, new = part.text, part.at, part.limit(), tuple.__new__
    last, last_shard = (before.stamp, before.shard) if before else (1, -1)
    try:
        while True:
            tag, stamp, shard, connection, index, piece = ENTRY.unpack_from(text, at)
            is_next = stamp > last or stamp == last and shard > last_shard
            is_within = stamp <= MOST_STAMP and shard < MOST_SHARDS and connection < MOST_CONNECTIONS
            if tag != 74 or not is_next or not is_within or index > MOST_INDEX:
                return
            call, at = coded_at(text, at + 29, Call, CALL_FORMS)
            reply, at = coded_at(text, at, Reply, REPLY_FORMS)
            if at > limit:
                return
            part.at, last, last_shard = at, stamp, shard
            yield new(Entry, (stamp, shard, connection, index, piece, call, reply))
    except (struct.error, LookupError):
        return


def coded_at(text: bytes, at: int, kind: type[Coded], forms_of: dict[int, Form]) -> tuple[Coded, int]:
    """A call or a reply at an index, and the index after it; a LookupError or struct.error where it is none."""
    name, has_key, numbers, has_value, order = forms_of[text[at]]
    key = value = None
    at += 1
    if has_key:
        end = at + 1 + text[at]
        key = text[at + 1 : end]
        if not 0 < end - at - 1 <= MOST_KEY:
            raise LookupError
        at = end
    found: tuple[int, ...] = numbers.unpack_from(text, at)
    at += numbers.size
    if has_value:
        if found[-1] > MOST_VALUE:
            raise LookupError
        value = text[at : at + found[-1]]
        at += found[-1]
    return tuple.__new__(kind, order((name, key, None, value, *found))), at


def whole_holds(part: Part, before: Hold | None) -> Iterator[Hold]:
    """The holds after another one up to a record that is not a good hold, or is not whole in the window."""
    text, at, limit, last = part.text, part.at, part.limit(), before.connection if before else 0
    while at + 13 <= limit:
        tag, connection, core, count = HOLD.unpack_from(text, at)
        if tag != 72 or not last <= connection < MOST_CONNECTIONS or core >= MOST_CORES or not 0 < count <= MOST_HOLD:
            return
        at += 13
        part.at, last = at, connection
        yield Hold(connection, core, count)


def read_entry(part: Part, before: Entry | None) -> Entry:
    """An entry after another one, or the first."""
    stamp = part.within(8, before.stamp if before else 1, MOST_STAMP)
    shard = part.within(4, before.shard + 1 if before and before.stamp == stamp else 0, MOST_SHARDS - 1)
    connection, index = part.within(4, 0, MOST_CONNECTIONS - 1), part.within(8, 0, MOST_INDEX)
    piece = part.number(4)
    return Entry(stamp, shard, connection, index, piece, coded(part, Call, CALLS), coded(part, Reply, REPLIES))


def read_hold(part: Part, before: Hold | None) -> Hold:
    """A hold after another one, or the first."""
    connection = part.within(4, before.connection if before else 0, MOST_CONNECTIONS - 1)
    return Hold(connection, part.within(4, 0, MOST_CORES - 1), part.within(4, 1, MOST_HOLD))


def coded(part: Part, kind: type[Coded], table: Table) -> Coded:
    """A call or a reply: its code, and its fields."""
    name, fields = table[part.within(1, 1, len(table)) - 1]
    return kind(name, **{field: read_field(part, field) for field in fields.split()})  # type: ignore[arg-type]


def read_field(part: Part, field: str) -> bytes | int:
    if field == "key":
        return part.take(part.within(1, 1, MOST_KEY))
    if field == "value":
        return part.take(part.within(4, 0, MOST_VALUE))
    return part.number(4 if field == "flags" else 8)


def read_journal(part: Part) -> Journal:
    records = list(journal_records(part))
    return Journal([record for record in records if isinstance(record, Entry)],
                   [record for record in records if isinstance(record, Hold)])


def entry(stamp: int, shard: int, connection: int, index: int, part: int, call: Call, reply: Reply) -> bytes:
    return ENTRY.pack(74, stamp, shard, connection, index, part) + code(call, CALLS) + code(reply, REPLIES)


def hold(connection: int, core: int, count: int) -> bytes:
    return HOLD.pack(72, connection, core, count)


def code(value: Call | Reply, table: Table) -> bytes:
    """The bytes of a call or of a reply."""
    number, fields = next((at + 1, fields) for at, (name, fields) in enumerate(table) if name == value.name)
    return big(1, number) + b"".join(field_bytes(field, getattr(value, field)) for field in fields.split())


def field_bytes(field: str, value: bytes | int) -> bytes:
    if isinstance(value, bytes):
        return big(1 if field == "key" else 4, len(value)) + value
    return big(4 if field == "flags" else 8, value)


def journal(entries: Iterable[Entry], holds: Iterable[Hold]) -> bytes:
    return JOURNAL_START + b"".join([entry(*one) for one in entries] + [hold(*one) for one in holds]) + END


# ---- replies files


def replies_version(part: Part) -> int:
    return part.magic([b"ZYGREP1\n", b"ZYGREP2\n"])


def replies_heads(part: Part, version: int) -> Iterator[OutputHead]:
    """The connection, session and length of each output, after the magic. Its bytes may then be taken from the part, by
    `take` or `pieces`; those that are not are passed over."""
    before = None
    while (tag := part.take(1)) != END:
        if tag != b"R":
            raise part.fault(f"form at {part.place - 1}")
        before = OutputHead(*next_session(part, version, before), part.number(8))
        end = part.place + before.length
        yield before
        for _ in part.pieces(end - part.place):
            pass


def replies_records(part: Part, version: int) -> Iterator[Output]:
    """The outputs of a replies file after its magic, each as a whole."""
    for connection, session, length in replies_heads(part, version):
        yield Output(connection, session, part.take(length))


def next_session(part: Part, version: int, before: OutputHead | None) -> tuple[int, int]:
    """The connection and the session of an output after another one, or of the first."""
    last = before.connection if before else -1
    least = last if before and version == 2 else last + 1
    connection = part.within(4, least, min(last + 1, MOST_CONNECTIONS - 1))
    if version == 1:
        return connection, 0
    due = before.session + 1 if before and connection == last else 0
    return connection, part.within(4, due, min(due, MOST_SESSIONS - 1))


def read_replies(part: Part) -> Replies:
    version = replies_version(part)
    return Replies(version, list(replies_records(part, version)))


def read_end(part: Part) -> None:
    """Nothing follows."""
    part.want(1)
    if part.at < len(part.text):
        raise part.fault(f"form at {part.place}")


def replies_start(version: int) -> bytes:
    return b"ZYGREP%d\n" % version


def output_start(version: int, connection: int, session: int, length: int) -> bytes:
    """What is before the bytes of an output."""
    return b"R" + big(4, connection) + (big(4, session) if version == 2 else b"") + big(8, length)


def output(version: int, connection: int, session: int, text: bytes) -> bytes:
    return output_start(version, connection, session, len(text)) + text


def replies_file(version: int, outputs: Iterable[Output]) -> bytes:
    return replies_start(version) + b"".join(output(version, *one) for one in outputs) + END


def replies(texts: Iterable[bytes]) -> bytes:
    """A replies file of version 1: the output of each connection."""
    return replies_file(1, [Output(connection, 0, text) for connection, text in enumerate(texts)])


def sessions(texts: Iterable[Iterable[bytes]]) -> bytes:
    """A replies file of version 2: of each connection, the outputs of its sessions."""
    return replies_file(2, [Output(connection, session, text) for connection, of_sessions in enumerate(texts)
                            for session, text in enumerate(of_sessions)])


# ---- items files

ITEMS_START = b"ZYGITM1\n"


def items_bound(part: Part) -> int:
    """The bound of an items file, after its magic."""
    part.magic([ITEMS_START])
    return part.number(8)


def items_records(part: Part, bound: int) -> Iterator[Item | bytes]:
    """The items of an items file after its bound, and then its lasting keys."""
    last = last_lasting = b""
    while (tag := part.take(1)) != END:
        if tag == b"I" and not last_lasting:
            last = next_key(part, last)
            yield Item(last, part.number(4), part.within(8, 0, bound), part.take(part.number(8)))
        elif tag == b"L":
            last_lasting = next_key(part, last_lasting)
            yield last_lasting
        else:
            raise part.fault(f"form at {part.place - 1}")


def next_key(part: Part, last: bytes) -> bytes:
    """A key that is above another one, or above none."""
    length, at = part.within(8, 1, MOST_KEY), part.place
    key = part.take(length)
    if key <= last:
        raise part.fault(f"form at {at}")
    return key


def read_items(part: Part) -> Items:
    bound = items_bound(part)
    records = list(items_records(part, bound))
    return Items(bound, [record for record in records if isinstance(record, Item)],
                 [record for record in records if not isinstance(record, Item)])


def items_file(items: Items) -> bytes:
    texts = [b"I" + sized(one.key) + big(4, one.flags) + big(8, one.unique) + sized(one.value) for one in items.items]
    return ITEMS_START + big(8, items.bound) + b"".join([*texts, *(b"L" + sized(key) for key in items.lasting)]) + END


def sized(text: bytes) -> bytes:
    """Bytes after their length."""
    return big(8, len(text)) + text


# ---- what all share


def skim(part: Part) -> None:
    """Reads a part to its end, for its faults alone."""
    records: Iterator[object]
    if part.name == "capture":
        records = capture_records(part, *capture_head(part))
    elif part.name == "journal":
        records = journal_records(part)
    elif part.name == "items":
        records = items_records(part, items_bound(part))
    else:
        records = replies_heads(part, replies_version(part))
    for _ in records:
        pass


def cut(part: Part, write: Callable[[bytes], object]) -> None:
    """Reads a part to its end, and gives its bytes to `write`."""
    part.passed = write
    skim(part)
    part.pass_rest()


def cut_all(text: bytes) -> dict[str, bytes]:
    """The bytes of each of several files that are joined, by their names."""
    found = {}
    while text:
        part = Part(FORMATS[text[:6]], text)
        skim(part)
        found[part.name], text = text[: part.at], text[part.at :]
    return found


def big(size: int, number: int) -> bytes:
    """A number in `size` bytes, the most significant first."""
    return number.to_bytes(size, "big")


# the bytes that are printed as they are, and how others are, but for those above 127
PRINTED = bytes(byte for byte in range(32, 127) if byte != 92)
ESCAPED = [(b"\\", b"\\\\")] + [(bytes([byte]), b"\\x%02x" % byte) for byte in (*range(32), 127)]


def shown_bytes(text: bytes, kept: bytes = PRINTED) -> bytes:
    """Bytes as printed ones: as \\xNN those that cannot be printed, and are none that is kept."""
    odd = text.translate(None, kept)
    if odd:
        for byte, escape in ESCAPED:
            if byte in odd:
                text = text.replace(byte, escape)
        if not text.isascii():
            text = text.decode("latin-1").encode("ascii", "backslashreplace")
    return text


def shown(text: bytes) -> str:
    """Bytes as text; those that cannot be printed as \\xNN."""
    return shown_bytes(text).decode("ascii")


def bytes_of(words: str) -> bytes:
    """The bytes that are shown as this text."""
    return re.sub(rb"\\(?:\\|x([0-9a-fA-F]{2}))", lambda match: bytes([int(match[1] or b"5c", 16)]), os.fsencode(words))


# the fields of each kind of call and reply, with their places
SHOWN_FIELDS: dict[tuple[object, str], list[tuple[int, str]]] = {
    (kind, name): [(names.index(field), field) for field in fields.split()]
    for kind, names, table in ((Call, Call._fields, CALLS), (Reply, Reply._fields, REPLIES)) for name, fields in table}


def told(value: Call | Reply) -> str:
    """A call or a reply as text."""
    words = [value[0]]
    for at, field in SHOWN_FIELDS[value.__class__, value[0]]:
        found = value[at]
        label = "" if field == "number" else field + " "
        words.append(f"{label}'{shown(found)}'" if isinstance(found, bytes) else f"{label}{found}")
    return " ".join(words)
