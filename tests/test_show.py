"""Tests tools/show, tools/part, and how files.formats reads files that come in pieces."""
import os
import random
import subprocess
import tempfile
import unittest

from checks import LONGEST, TOP, built_program, cases, fail, most_memory, path_of, prints, run, same, says
import drawn
import reports
from zygos_tools.files import formats, part as part_of_file
from zygos_tools.files.formats import (Call, Entry, Hold, Reply, capture, capture_start, close, journal, output_start,
                                       pieces, replies, replies_start, segment, sessions)
from zygos_tools.files.part import Fault, Part

# what writes a part that is missing
HINTS = {"capture": "; tools/record and tools/packets write one", "journal": "; `zygos run --out both` writes one",
         "replies": "; `zygos run` writes one"}
JOURNAL = journal([Entry(1, 0, 0, 0, 0, Call("set", b"a", 0, value=b"x"), Reply("stored")),
                   Entry(2, 0, 1, 0, 0, Call("get", b"a\\\xff"), Reply("hit", 5, 1, b"\0\\")),
                   Entry(3, 2, 1, 1, 0, Call("incr", b"a", number=7), Reply("number", number=8))],
                  [Hold(0, 0, 1), Hold(1, 3, 2)])
ENTRIES = [b"  1: shard 0, connection 0, command 0.0: set key 'a' flags 0 value 'x' -> stored\n",
           rb"  2: shard 0, connection 1, command 0.0: get key 'a\\\xff' -> hit flags 5 unique 1 value '\x00\\'" + b"\n",
           b"  3: shard 2, connection 1, command 1.0: incr key 'a' 7 -> number 8\n"]
HOLDS = [b"  hold of connection 0 by core 0: 1 commands\n", b"  hold of connection 1 by core 3: 2 commands\n"]


def lines():
    """How lines are printed, also those that are not as usual."""
    for text, wanted in (
        (b"get a\r\n", rb"  get a|"), (b"get a\n", rb"  get a  (no \r)|"), (b"get a", rb"  get a  (no \r)|"),
        (b"\r\n", b"  |"), (b"\n", b"  |"), (b"\n\n", b"  |  |"), (b"a\r", b"  a|"), (b"a\rb\r\n", rb"  a\x0db|"),
        (b"a\r\r\n", rb"  a\x0d|"), (b"a\\b\r\n", rb"  a\\b|"), (b"\0\t\x7f\x80\xff\r\n", rb"  \x00\x09\x7f\x80\xff|"),
        (b"\\x00\r\n\x00\n", rb"  \\x00|  \x00  (no \r)|"), (b"a\n\r\nb\r\n", rb"  a  (no \r)|  |  b|"),
    ):
        prints(f"the lines of {text}", b"capture, version 1, connections 1\nconnection 0: %d bytes\n%s"
               % (len(text), wanted.replace(b"|", b"\n")), "show", given=capture(1, [segment(0, text)]))


def choices():
    prints("a journal", b"".join([b"journal\n", *ENTRIES, *HOLDS]), "show", given=JOURNAL)
    for words, wanted in (
        (("--connection", "1"), [*ENTRIES[1:], HOLDS[1]]), (("--connection=2",), []), (("--key", "a"), ENTRIES[::2]),
        (("--key", r"a\\\xff"), [ENTRIES[1]]), (("--first", "4"), [*ENTRIES, HOLDS[0]]), (("--first", "9"), [*ENTRIES, *HOLDS]),
        (("--connection", "1", "--key", "a", "--first", "1"), [ENTRIES[2]]),
    ):
        prints(f"a journal with {words}", b"".join([b"journal\n", *wanted]), "show", *words, given=JOURNAL)
    sent = capture(2, [segment(1, b"set k 0 0 3\r\na"), segment(0, b"get k j\r\n"), segment(1, b"bc\r\nget j\r\n"), close(1),
                       segment(1, b"get j k\r\n")], 2)
    head = b"capture, version 2, connections 2\n"
    first, other, last = b"connection 1: 14 bytes\n  set k 0 0 3\n  a  (no \\r)\n", b"connection 0: 9 bytes\n  get k j\n", \
        b"connection 1: 9 bytes\n  get j k\n"
    second = b"connection 1: 11 bytes\n  bc\n  get j\nconnection 1: closed\n"
    keyed = [b"connection 0, command 0, sent 1: 9 bytes\n  get k j\n", b"connection 1, command 0, sent 2: 18 bytes\n  set k 0 0 3\n  abc\n",
             b"connection 1, command 2, sent 4: 9 bytes\n  get j k\n"]
    for words, wanted in (((), [first, other, second, last]), (("--connection", "1"), [first, second, last]),
                          (("--first", "2"), [first, other]), (("--key", "k"), keyed),
                          (("--key", "k", "--connection", "1"), keyed[1:]), (("--key", "k", "--first", "1"), keyed[:1])):
        prints(f"a capture with {words}", head + b"".join(wanted), "show", *words, given=sent)
    given = sessions([[b"A\r\n", b"B\r\n"], [b"C\r\n"]])
    prints("replies of a connection", b"replies, version 2\nconnection 0 session 0: 3 bytes\n  A\nconnection 0 session 1: "
           b"3 bytes\n  B\n", "show", "--connection", "0", given=given)
    numbered = sessions([[b"A\r\nVALUE a 0 1\r\nx\r\nEND\r\n"]])
    prints("replies with the numbers of answers", b"replies, version 2\nconnection 0 session 0: 24 bytes\n  answer 0\n  A\n  answer 1\n"
           b"  VALUE a 0 1\n  x\n  END\n", "show", "--answers", given=numbered)
    prints("replies and a key", b"replies, version 2\n", "show", "--key", "a", given=given)


# ---- items files

ITEMS = formats.Items(28, [formats.Item(b"a", 0, 28, b"x"), formats.Item(b"a\xff", 7, 3, b"")], [b"b", b"ba"])


def items_files():
    """What is written is read back, each error is at its byte, and the file is printed."""
    text = formats.items_file(ITEMS)
    same("an items file read back", ITEMS, formats.read_items(Part("items", text)))
    shown = [b"items, bound 28\n", b"  'a' flags 0 unique 28 value 'x'\n", b"  'a\\xff' flags 7 unique 3 value ''\n",
             b"  lasting 'b'\n", b"  lasting 'ba'\n"]
    prints("an items file", b"".join(shown), "show", given=text)
    prints("an items file and a key", shown[0] + shown[1], "show", "--key", "a", given=text)
    prints("the first item", b"".join(shown[:2]), "show", "--first", "1", given=text)
    for at, byte, wanted in ((7, 0, "form at 7"), (16, 74, "form at 16"), (24, 0, "form at 17"), (24, 251, "form at 17"),
                             (37, 29, "form at 30"), (56, 0, "form at 56"), (88, 73, "form at 88")):
        faulty = text[:at] + bytes([byte]) + text[at + 1 :]
        says(f"byte {byte} at {at} of an items file", f"standard input: items: {wanted}", "show", given=faulty)
    says("an items file that is cut off", f"standard input: items: truncated at {len(text) - 1}", "show", given=text[:-1])
    with open(f"{TOP}/examples/first.items", "rb") as file:
        same("the example", formats.Items(28, ITEMS.items[:1], [b"b"]), formats.read_items(Part("items", file.read())))


# ---- parts


def parts():
    sent, told = capture(1, pieces(0, b"get a\r\n")), sessions([[b"END\r\n", b""]])
    whole = sent + JOURNAL + told
    for name, wanted in (("capture", sent), ("journal", JOURNAL), ("replies", told)):
        prints(f"the {name} of three parts", wanted, "part", name, given=whole)
        prints(f"the {name} alone", wanted, "part", name, "-", given=wanted)
        says(f"no {name}", f"standard input: no {name} in it{HINTS[name]}", "part", name)
        says(f"two times the {name}", f"standard input: {name}: there are two of them, in the part that begins at byte "
             f"{len(wanted)}", "part", name, given=wanted * 2)
    ran = run("part", "journal", given=sent + JOURNAL[:-1])
    fault = f"tools/part: standard input: journal: truncated at {len(JOURNAL) - 1}, in the part that begins at byte {len(sent)}\n"
    same("a part that is cut off", (1, fault.encode(), True), (ran.returncode, ran.stderr, JOURNAL.startswith(ran.stdout)))
    zygos = built_program()
    line = f"{zygos} run --cores 1 --threads 1 --out both < {TOP}/examples/first.cap | {path_of('part')} journal | {zygos} report"
    ran = subprocess.run(["bash", "-c", f"set -o pipefail; {line}"], capture_output=True, check=False, timeout=LONGEST)
    same("run --out both | part journal | report", (0, b"all           1           1           1           0           1", b""),
         (ran.returncode, ran.stdout.split(b"\n")[-2], ran.stderr))


# ---- files in pieces


def records_of(part):
    """The records of a part, its end, and its first fault."""
    found = []
    try:
        if part.name == "capture":
            records = formats.capture_records(part, *formats.capture_head(part))
        elif part.name == "journal":
            records = formats.journal_records(part)
        else:
            records = formats.replies_records(part, formats.replies_version(part))
        for record in records:
            found.append((type(record).__name__, *record))
        found.append(part.place)
        formats.read_end(part)
    except Fault as fault:
        found.append(str(fault))
    return found


def by_fields(part):
    """The same, with each field read by itself."""
    kept = formats.whole_segments, formats.whole_entries, formats.whole_holds
    formats.whole_segments = formats.whole_entries = formats.whole_holds = lambda *_: ()
    try:
        return records_of(part)
    finally:
        formats.whole_segments, formats.whole_entries, formats.whole_holds = kept


def in_pieces(name, text, draw):
    """A part that comes in drawn pieces, and the list of what it passes on."""
    at, most, passed = 0, draw.choice((1, 5, 300)), []

    def more(count):
        nonlocal at
        piece = text[at : at + min(count, draw.randrange(1, most + 1))]
        at += len(piece)
        return piece

    part = Part(name, b"", more)
    part.passed = passed.append
    return part, passed


def spoiled(text, draw):
    """Bytes that are cut off, changed, or followed by others."""
    at = draw.randrange(len(text))
    return draw.choice((text, text[:at], text[:at] + bytes([text[at] ^ 1 << draw.randrange(8)]) + text[at + 1 :], text + b"E"))


def readers():
    """Files are read alike at once, field by field and in pieces, also those with a fault."""
    most = part_of_file.MOST_CAPTURE, part_of_file.MOST_FILE
    for number in range(150):
        draw = random.Random(number)
        name = ("capture", "journal", "replies")[number % 3]
        text = drawn.drawn_capture(draw, 4) if name == "capture" else reports.drawn(number // 3) if name == "journal" else \
            sessions([[draw.randbytes(draw.choice((0, 1, 50))) for _ in range(draw.randrange(1, 4))] for _ in range(3)])
        text = spoiled(text or b"Z", draw)
        if number % 5 == 0:
            part_of_file.MOST_CAPTURE = part_of_file.MOST_FILE = draw.randrange(len(text) + 2)
        wanted = by_fields(Part(name, text))
        same(f"drawn {name} {number} at once", wanted, records_of(Part(name, text)))
        part, passed = in_pieces(name, text, draw)
        same(f"drawn {name} {number} in pieces", wanted, records_of(part))
        part.pass_rest()
        same(f"what is passed on of drawn {name} {number}", text[: part.place], b"".join(passed))
        part_of_file.MOST_CAPTURE, part_of_file.MOST_FILE = most


def heads():
    """The bytes of an output that are not taken are passed over."""
    part = Part("replies", replies([b"abc", b"", b"defg"]))
    found = [(head, part.take(min(2, head.length))) for head in formats.replies_heads(part, formats.replies_version(part))]
    same("heads of outputs", [((0, 0, 3), b"ab"), ((1, 0, 0), b""), ((2, 0, 4), b"de")], found)


# ---- large files


def large(size=12 << 20):
    """Memory does not grow with the file. The files are written as they are made."""
    with tempfile.TemporaryDirectory() as folder:
        path = os.path.join(folder, "large")
        line, block = b"set key 0 0 10\r\n0123456789\r\nget key\r\n", b"".join(pieces(0, bytes(range(256)) * 4000))
        for name, begin, piece in (
            ("small segments", capture_start(2), b"".join(segment(at % 2, line[:at] + line[at:]) for at in range(200))),
            ("large values", capture_start(1), block), ("one output", replies_start(1) + output_start(1, 0, 0, size), line),
        ):
            with open(path, "wb") as file:
                file.write(begin)
                written, repeated = 0, piece * (1 + (1 << 20) // len(piece))
                while written < size:
                    repeated = repeated if begin[:6] != b"ZYGREP" else repeated[: size - written]
                    written += file.write(repeated)
                file.write(b"E")
            memory, status = most_memory("show", source=path)
            if status or memory > 36:
                fail(f"large files: {name}", f"status {status}, {memory:.0f} MiB")
        memory, status = most_memory("part", "replies", source=path)
        if status or memory > 36:
            fail("a part of a large file", f"status {status}, {memory:.0f} MiB")


Tests = cases(lines, choices, items_files, parts, readers, heads, large)

if __name__ == "__main__":
    unittest.main()
