#!/usr/bin/env python3
"""Drawn journals, and a plain model of the report on them.

usage: tests/reports.py [--files N] [--from NUMBER] [PROGRAM]

Draws N journals (2,000 if not said), numbered from NUMBER (0) on, after cases of calls, replies and faults. Each is given
to the command `report` of PROGRAM (crates/zygos/out/zygos if not said); what comes back is compared byte for byte with the
model, which counts the entries of each shard as docs/FORMATS.md says, "Report".
"""
import os
import random
import subprocess
import sys

import checks
from zygos_tools.files.formats import CALLS, REPLIES, Call, Entry, Hold, Reply, journal, read_end, read_journal
from zygos_tools.files.part import Fault, Part
from zygos_tools.protocol.model import tally
from zygos_tools.repository import TOP

KEYS = (b"a", b"b", b"ab", b"k" * 250)

# ---- the model


def counts(entries):
    """The gets, sets, hits, misses and items that the entries of one shard count."""
    found = tally([(one.call, one.reply) for one in entries])
    return found.gets, found.sets, found.hits, found.misses, found.items


def line(name, numbers):
    return f"{name:>3}" + "".join(f"{number:>12}" for number in numbers) + "\n"


def table(entries):
    """The report on some entries."""
    found = [(shard, counts([one for one in entries if one.shard == shard])) for shard in range(256)]
    all_counts = [sum(numbers) for numbers in zip(*(numbers for _, numbers in found))]
    return "".join(line(shard, numbers) for shard, numbers in found if any(numbers)) + line("all", all_counts)


def expected(text):
    """The status, and what the program is to write to its two outputs."""
    part = Part("journal", text)
    try:
        found = read_journal(part)
        read_end(part)
    except Fault as fault:
        return 3, b"", f"zygos: {fault}\n".encode()
    return 0, table(found.entries).encode(), b""


# ---- journals


def made(kind, table_row, number, key=None):
    """A call or a reply of this row of its table, whose fields are drawn by a number."""
    name, fields = table_row
    of_field = {"key": key or KEYS[number % len(KEYS)], "value": b"v" * (number % 5), "flags": number % (1 << 32)}
    return kind(name, **{field: of_field.get(field, number) for field in fields.split()})


def cases():
    """Each call with each reply; keys that come and go; no entry; and each fault of a journal once."""
    yield "an empty journal", journal([], [])
    pairs = [(call, reply) for call in CALLS for reply in REPLIES]
    yield "each call with each reply", journal(
        [Entry(1 + at, at % 256, at % 4096, at, at, made(Call, call, at), made(Reply, reply, at))
         for at, (call, reply) in enumerate(pairs)], [Hold(0, 0, 1), Hold(4095, 63, 64)])
    names = dict(CALLS)
    for name, reply in (("set", "stored"), ("incr", "number"), ("delete", "deleted"), ("flush", "flushed")):
        yield f"{name} after all calls, on one shard", journal(
            [Entry(1 + at, 255, 0, at, 0, made(Call, call, at, b"a"), Reply("stored")) for at, call in enumerate(CALLS)]
            + [Entry(99, 255, 0, 99, 0, made(Call, (name, names[name]), 3, b"a"),
                     made(Reply, (reply, dict(REPLIES)[reply]), 3))], [])
    first = Entry(2, 3, 0, 0, 0, made(Call, ("set", names["set"]), 1, b"a"), Reply("stored"))
    whole = journal([first], [Hold(1, 0, 1)])
    for at in range(len(whole)):
        yield f"a journal cut before byte {at}", whole[:at]
        yield f"a journal whose byte {at} is 255", whole[:at] + b"\xff" + whole[at + 1:]
        yield f"a journal whose byte {at} is 0", whole[:at] + b"\0" + whole[at + 1:]
    yield "a byte after a journal", whole + b"E"
    for name, edit in (("no stamp", {"stamp": 0}), ("a stamp that is too great", {"stamp": 1 << 60}),
                       ("an earlier stamp", {"stamp": 1}), ("an equal stamp on a lower shard", {"shard": 2}),
                       ("an equal stamp on one shard", {}), ("shard 256", {"stamp": 3, "shard": 256}),
                       ("connection 4,096", {"stamp": 3, "connection": 4096}),
                       ("a command that is too great", {"stamp": 3, "index": 1 << 40})):
        yield name, journal([first, first._replace(**edit)], [])
    for name, holds in (("a hold of connection 4,096", [Hold(4096, 0, 1)]), ("a hold of core 64", [Hold(0, 64, 1)]),
                        ("a hold of no command", [Hold(0, 0, 0)]), ("a hold of 65 commands", [Hold(0, 0, 65)]),
                        ("a hold of an earlier connection", [Hold(1, 0, 1), Hold(0, 0, 1)])):
        yield name, journal([first], holds)


def drawn(number):
    """A journal of calls that may have any reply, now and then with a byte changed, cut off or added."""
    draw, stamp, entries = random.Random(number), 0, []
    shards = draw.choice((1, 2, 16, 256))
    for at in range(draw.randrange(60)):
        stamp += draw.choice((1, 1, 2, 1000))
        entries.append(Entry(stamp, draw.randrange(shards), draw.randrange(4), at, 0,
                             made(Call, draw.choice(CALLS), draw.randrange(1 << 40), draw.choice(KEYS)),
                             made(Reply, draw.choice(REPLIES), draw.randrange(1 << 40))))
    text = journal(entries, [Hold(0, draw.randrange(64), draw.randrange(1, 65)) for _ in range(draw.randrange(3))])
    at, edit = draw.randrange(len(text)), draw.randrange(8)
    if edit == 0:
        text = text[:at] + bytes([draw.randrange(256)]) + text[at + 1:]
    elif edit == 1:
        text = text[:at]
    elif edit == 2:
        text = text[:at] + bytes([draw.randrange(256)]) + text[at:]
    return text


# ---- the comparison


def answer(program, text):
    """What the program answers."""
    ran = subprocess.run([program, "report"], input=text, capture_output=True, check=False)
    return ran.returncode, ran.stdout, ran.stderr


def main(words):
    count, first = 2000, 0
    while words[:1] and words[0].startswith("--"):
        if words[0] == "--files" and words[1:]:
            count, words = int(words[1]), words[2:]
        elif words[0] == "--from" and words[1:]:
            first, words = int(words[1]), words[2:]
        else:
            sys.exit(__doc__)
    program = words[0] if words else os.path.join(TOP, "crates/zygos/out/zygos")
    given = [*cases(), *((f"journal {number}", drawn(number)) for number in range(first, first + count))]
    good = 0
    for name, text in given:
        wanted = expected(text)
        good += wanted[0] == 0
        if answer(program, text) != wanted:
            with open("report.failed", "wb") as file:
                file.write(text)
            sys.exit(f"tests/reports.py: {name}: the program and the model differ (report.failed)")
    print(f"{len(given)} journals, {good} of these without a fault: no difference")


if __name__ == "__main__":
    checks.help_if_asked()
    main(sys.argv[1:])
