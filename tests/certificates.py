"""What `zygos check` answers to journals and replies, of runs and of none, and what the plain checker answers."""
import random

import edits
import plain
from drawn import OTHERS, crowded_capture, drawn_capture
from zygos_tools.files.formats import (Call, Entry, Hold, Reply, capture, close, journal, read_capture, read_journal,
                                       read_replies, replies, segment, sessions)
from zygos_tools.files.part import Part
from program import BOTH, ONE, answer, check, run, same

FIRST = b"set a 0 0 1\r\nx\r\ngets a\r\n"
FIRST_TOLD = b"STORED\r\nVALUE a 0 1 28\r\nx\r\nEND\r\n"
FIRST_CAPTURE = capture(1, [segment(0, FIRST)])
FIRST_JOURNAL = bytes.fromhex(
    "5a59474a524e310a"
    "4a00000000000000010000000c0000000000000000000000000000000002016100000000000000017803"
    "4a00000000000000020000000c000000000000000000000001000000000101610200000000000000000000001c0000000178"
    "48000000000000000000000002" "45")
# two connections with two and three sessions, and commands of many kinds
SEVERAL = capture(2, [
    segment(0, b"set a 1 0 1\r\n5\r\nincr a 7\r\n"), segment(1, b"append a 0 0 1\r\n0\r\nversion\r\ncas c 3 0 1 9\r\n"),
    segment(0, b"quit\r\nget a\r\n"), close(0), segment(1, b"z\r\nset c 0 0 1 noreply\r\ny\r\nbogus\r\n"), close(1),
    segment(0, b"gets a c\r\ndelete c\r\nget"), segment(1, b"flush_all\r\nget a\r\n"), close(1)], 2)


def of_shards(shards):
    """The words for this number of shards; none for 16, which is the default."""
    return [] if shards == 16 else ["--shards", str(shards)]


def certify(name, given, status, written, said=b"", shards=16):
    """Both the plain checker and the program answer this."""
    same(f"{name}, by the plain checker", (status, written, said), plain.answer(given, shards))
    check(name, ["check", *of_shards(shards)], given, status, written, said)


def says(name, given, line, shards=16):
    """Both write this line."""
    certify(name, given, int(line != "yes"), f"{line}\n".encode(), shards=shards)


def agree(name, given, shards=16):
    """The program answers as the plain checker does."""
    same(name, plain.answer(given, shards), answer(["check", *of_shards(shards)], given))


# ---- worked certificates


def worked():
    whole, told = FIRST_CAPTURE, replies([FIRST_TOLD])
    good = whole + FIRST_JOURNAL + told
    says("a run is right", good, "yes")
    for name, given, said in (
        ("a capture that is cut", whole[:-1], b"capture: truncated at 45"),
        ("a journal with another last byte", whole + FIRST_JOURNAL[:-1] + b"X" + told, b"journal: form at 113"),
        ("a journal that is cut", whole + FIRST_JOURNAL[:-1], b"journal: truncated at 113"),
        ("a byte after the replies", good + b"x", b"replies: form at 54"),
        ("replies that are cut", good[:-1], b"replies: truncated at 53"),
    ):
        certify(name, given, 3, b"", b"zygos: " + said + b"\n")


def first_entry(stamp, connection, call, reply):
    """An entry of a first command, of one part, on the shard of the key `a` among 16."""
    return Entry(stamp, 12, connection, 0, 0, call, reply)


def orders():
    """A `set` and a `get` of two connections, in both orders, with both outputs."""
    two = capture(2, [segment(0, b"set a 0 0 1\r\n1\r\n"), segment(1, b"get a\r\n")])
    stored = first_entry(1, 0, Call("set", b"a", 0, value=b"1"), Reply("stored"))
    hit, miss = (first_entry(2, 1, Call("get", b"a"), reply) for reply in (Reply("hit", 0, 28, b"1"), Reply("miss")))
    holds = [Hold(0, 0, 1), Hold(1, 0, 1)]
    first = journal([stored, hit], holds)
    second = journal([miss._replace(stamp=1), stored._replace(stamp=2)], holds)
    found, absent = replies([b"STORED\r\n", b"VALUE a 0 1\r\n1\r\nEND\r\n"]), replies([b"STORED\r\n", b"END\r\n"])
    says("the set first", two + first + found, "yes")
    says("the get first", two + second + absent, "yes")
    says("the set first, with a miss", two + first + absent, "no wrong-output connection 1 at 0")
    says("the get first, with a hit", two + second + found, "no wrong-output connection 1 at 0")
    says("a reply that no shard gave", two + journal([stored, miss], holds) + absent, "no wrong-reply entry 1")


def later_sessions():
    closed = capture(1, [segment(0, b"version\r\n"), close(0), segment(0, b"version\r\n")], 2)
    told, held = b"VERSION zygos-1.0\r\n", journal([], [Hold(0, 0, 2)])
    says("two sessions", closed + held + sessions([[told, told]]), "yes")
    says("the output of a second session", closed + held + sessions([[told, told[:-1]]]),
         "no wrong-output connection 0 session 1 at 18")
    says("a second session left out", closed + held + replies([told]), "no wrong-output connection 0 session 1 at 0")


# ---- changes of a run's files


def changed(text, first=0):
    """A text with one bit changed, for each of its bits; of its first bytes, for one bit each."""
    for place, byte in enumerate(text):
        for bit in [place % 8] if place < first else range(8):
            yield f"bit {bit} of byte {place} changed", text[:place] + bytes([byte ^ 1 << bit]) + text[place + 1 :]


def changes():
    """Two small runs with each bit of the journal and of the replies changed, and with each byte of the capture."""
    for name, whole, shards, first in (("the first run", FIRST_CAPTURE, 16, 0),
                                       ("a run of sessions", SEVERAL, 3, len(SEVERAL))):
        files = whole + run([*ONE, *BOTH, *of_shards(shards)], whole).stdout
        says(name, files, "yes", shards)
        for what, text in changed(files, first):
            agree(f"{name}, {what}", text, shards)


def known_edits():
    """Edits of a run of which it is known what is wrong then."""
    whole = edits.PAIR
    made = plain.run_of(read_capture(Part("capture", whole)))
    held = made._replace(holds=[Hold(0, 3, 1), Hold(0, 63, 2), *made.holds[1:]])
    says("a run of the plain model", whole + edits.written(made), "yes")
    says("other holds that add up", whole + edits.written(held), "yes")
    says("a replies file of version 2", whole + edits.written(made, 2), "yes")
    for find in (edits.wrong_entries, edits.wrong_fields, edits.wrong_holds, edits.wrong_twice):
        for name, edited, line in find(made):
            says(name, whole + edits.written(edited), line)
    for name, texts, line in edits.wrong_outputs(made):
        says(name, whole + journal(made.entries, made.holds) + sessions(texts), line)


def all_edits():
    """Edits of each entry, hold and output of a run's own files."""
    part = Part("journal", run([*ONE, *BOTH, *of_shards(3)], SEVERAL).stdout)
    entries, holds = read_journal(part)
    version, outputs = read_replies(Part("replies", part.text[part.at :]))
    for name, edited in edits.all_edits(plain.Given(3, None, entries, holds, outputs)):
        agree(f"a run of sessions, {name}", SEVERAL + edits.written(edited, version), 3)


def other_shards():
    """Runs on other numbers of shards, checked as runs on 16."""
    for text, lines in (
        # among 1, 8, 16 and 256, `a` has shard 0, 4, 12 and 44; `e` has 0, 0, 0 and 224; `g` has 0, 6, 6 and 6
        (FIRST, {1: "not-next entry 0", 8: "not-next entry 0", 256: "not-next entry 0"}),
        (FIRST.replace(b"a", b"e"), {1: "wrong-reply entry 1", 8: "wrong-reply entry 1", 256: "not-next entry 0"}),
        (FIRST.replace(b"a", b"g"), {1: "not-next entry 0", 8: "wrong-reply entry 1", 256: "wrong-reply entry 1"}),
        (b"flush_all\r\n", {8: "missing connection 0 command 0", 256: "not-next entry 16"}),
    ):
        whole = capture(1, [segment(0, text)])
        for count, line in lines.items():
            files = whole + run([*ONE, *BOTH, *of_shards(count)], whole).stdout
            says(f"{text!r} on {count} shards", files, "yes", count)
            says(f"{text!r} on {count} shards, checked as on 16", files, f"no {line}")


def edges():
    """A run of all lines at the edges of the profile, each followed by a look at some keys."""
    text = b"".join(line + b"gets a b c\r\nincr c 1\r\n" for line in OTHERS)
    whole = capture(1, [segment(0, text)])
    says("lines at the edges of the profile", whole + run([*ONE, *BOTH], whole).stdout, "yes")


def crowded():
    """The same of captures whose keys are in one line of an index: more keys than it has slots for."""
    drawn(range(1000, 1020), crowded_capture, (1, 3))


def drawn(numbers=range(100), captured=drawn_capture, counts=(1, 3, 16, 256)):
    """Runs of drawn captures, by the program and by the plain model, with a bit changed, and edited."""
    for number in numbers:
        draw = random.Random(number)
        shards = draw.choice(counts)
        whole = captured(draw, shards)
        read = read_capture(Part("capture", whole))
        threads = draw.choice((1, 4))
        words = ["--cores", str(draw.randrange(threads, 9)), "--threads", str(threads)]
        words += ["--order", str(draw.randrange(100))] if threads == 1 else []
        made = plain.run_of(read, shards, draw)
        for name, files in ((f"drawn run {number}", run(["run", *words, *of_shards(shards), *BOTH], whole).stdout),
                            (f"drawn run {number} of the plain model", edits.written(made, read.version))):
            says(name, whole + files, "yes", shards)
            text = bytearray(whole + files)
            place, bit = draw.randrange(len(text)), draw.randrange(8)
            text[place] ^= 1 << bit
            agree(f"{name}, bit {bit} of byte {place} changed", bytes(text), shards)
        name, edited = draw.choice(list(edits.all_edits(made)))
        agree(f"drawn run {number} of the plain model, {name}", whole + edits.written(edited, read.version), shards)


def certificates():
    for part in (worked, orders, later_sessions, changes, known_edits, all_edits, other_shards, edges, drawn, crowded):
        part()
