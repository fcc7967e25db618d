"""Tests that no input makes a tool end with a trace, or lose something in silence.

Each case is an input and a tool. A tool may have a result, or one line that names the file and what is wrong with it;
what is left of an input that is not whole must be said. Most tools are carried out in a process that is forked of this
one, which takes little time.
"""
import contextlib
import itertools
import json
import os
import random
import re
import signal
import struct
import subprocess
import sys
import tempfile
import time
import unittest
from collections import Counter

import forked
import packets
from checks import LONGEST, cases, fail, path_of, same, written
from zygos_tools.protocol.order_files import FIRST_LINE, digest, order_text
from zygos_tools.files.formats import Call, Entry, Hold, Reply, capture, close, journal, replies, segment

ASKED = b"set a 0 0 1\r\nx\r\nget a\r\ngets b\r\nincr n 1\r\nmg a v f c\r\nms a 1\r\ny\r\n"
TOLD = b"STORED\r\nVALUE a 0 1\r\nx\r\nEND\r\nEND\r\nNOT_FOUND\r\nVA 1 f0 c7\r\nx\r\nHD\r\n"
CAPTURE = capture(2, [segment(0, ASKED), segment(1, b"get a\r\n")])
LATER = capture(1, [segment(0, b"mn\r\n"), close(0), segment(0, b"get a\r\n")], 2)
REPLIES = replies([TOLD, b"END\r\n"])
JOURNAL = journal([Entry(1, 0, 0, 0, 0, Call("set", b"a", 0, value=b"x"), Reply("stored"))], [Hold(0, 0, 1)])
PLACE = "127.0.0.1:1"
# the seconds after which a tool that still runs gets its signal again
SECONDS_BETWEEN = 20
# how often all tools are interrupted, and within how many seconds: about as long as they live beside each other
ROUNDS, LIFE = 3, 2.0


# ---- tools in forked processes


def forked_tool(words, given=b"", environment=()):
    """Carries out a tool with its words. Gives its status, and what it writes and says."""
    assert forked.can_be_forked(words[0])
    ran = forked.run(words[0], tuple(words[1:]), given, dict(environment))
    return ran.returncode, ran.stdout, ran.stderr.decode(errors="backslashreplace")


def is_plain(tool, said):
    """Whether what a tool says has no trace in it, and all lines are its own."""
    lines = said.splitlines()
    return "Traceback" not in said and all(line.startswith((f"tools/{tool}: ", "  ")) for line in lines)


def looks(name, words, given=b"", must_fail=False, wanted="", **more):
    """A case: the tool ends plainly; an input that is not whole must not pass in silence."""
    status, output, said = forked_tool(words, given, **more)
    if status not in range(8) or not is_plain(words[0], said):
        fail(name, f"{words}: status {status}, {said[-400:]!r}")
    elif must_fail and status == 0 or wanted and not re.search(wanted, said + output.decode(errors="replace")):
        fail(name, f"{words}: status {status}, says {said!r}, and should say {wanted!r}")


@contextlib.contextmanager
def files(**texts):
    with tempfile.TemporaryDirectory() as folder:
        yield written(folder, **texts)


def readers(path, other):
    """The tools that read a file, each with its words; `other` is a file of the other kind, of the same traffic."""
    capture_of, replies_of = path["capture"], path["replies"]
    return {
        "capture": [["show", capture_of], ["top", capture_of], ["part", "capture", capture_of],
                    ["compare", "--capture", capture_of, other["replies"], other["replies"]],
                    ["warm", capture_of, other["replies"]], ["inline", capture_of], ["inline", capture_of, other["replies"]],
                    ["judge", "--out", os.devnull, capture_of, other["replies"]], ["play", capture_of, "--server", PLACE]],
        "replies": [["show", replies_of], ["part", "replies", replies_of], ["compare", replies_of, other["replies"]],
                    ["compare", "--capture", other["capture"], other["replies"], replies_of],
                    ["warm", other["capture"], replies_of], ["inline", other["capture"], replies_of],
                    ["inline", "--cut", replies_of, other["capture"]],
                    ["judge", "--out", os.devnull, other["capture"], replies_of]],
        "journal": [["show", path["journal"]], ["top", path["journal"]], ["picture", path["journal"]],
                    ["part", "journal", path["journal"]]],
    }


# ---- cases


def cut_files():
    """Each format cut at random places, for each reader."""
    draw = random.Random(1)
    for name, text in (("capture", CAPTURE), ("capture", LATER), ("replies", REPLIES), ("journal", JOURNAL)):
        for at in sorted({*range(0, 9), *(draw.randrange(len(text)) for _ in range(3)), len(text) - 1}):
            with files(**{"capture": CAPTURE, "replies": REPLIES, "journal": JOURNAL, name: text[:at]}) as path, \
                    files(capture=CAPTURE, replies=REPLIES) as other:
                for words in readers(path, other)[name]:
                    looks(f"{name} cut at {at}", words, must_fail=at > 0)


def wrong_files():
    """Empty files, garbage, wrong magics, folders, files that are not there, and files in each other's place."""
    swapped = {"capture": REPLIES, "replies": CAPTURE, "journal": CAPTURE}
    for name in ("capture", "replies", "journal"):
        for what, text in (("empty", b""), ("garbage", bytes(range(256)) * 4), ("magic", b"ZYGXXX1\n" + b"E" * 9),
                           ("text", b"set a 0 0 1\r\nx\r\n"), ("swapped", swapped[name])):
            with files(**{"capture": CAPTURE, "replies": REPLIES, "journal": JOURNAL, name: text}) as path, \
                    files(capture=CAPTURE, replies=REPLIES) as other:
                for words in readers(path, other)[name]:
                    looks(f"{name}, {what}", words)
        for what in ("/", "/none/file", "/proc/self/mem"):
            path = dict.fromkeys(("capture", "replies", "journal"), what)
            with files(capture=CAPTURE, replies=REPLIES) as other:
                for words in readers(path, other)[name]:
                    looks(f"{name}, {what}", words, must_fail=True, wanted=re.escape(what))


def faults_by_json():
    """judge --json has a line also for a file that cannot be judged, with what is wrong in it."""
    with files(capture=CAPTURE, replies=REPLIES, cut=CAPTURE[:20]) as path:
        for one, other, wanted, why in (
                (path["cut"], path["replies"], 3, "capture: truncated at 20"),
                ("/none/file", path["replies"], 4, "No such file or directory"),
                (path["capture"], path["capture"], 3, "capture: not expected here: the replies file comes second")):
            status, output, said = forked_tool(["judge", "--json", one, other])
            told = json.loads(output)
            name = other if one == path["capture"] else one
            same(f"judge --json of {why}", (wanted, "", "fault", f"{name}: {why}"),
                 (status, said, told["verdict"], told["fault"]))
    looks("an option in place of a file", ["packets", "--in-order", "--ends", "t.cap"], must_fail=True,
          wanted="--in-order takes .*, not --ends")


def bytes_after():
    """What follows the end of a file is not passed over."""
    for name, text in (("capture", CAPTURE), ("replies", REPLIES)):
        for what, more in (("joined", text), ("a byte", b"x"), ("cut", text[:9])):
            with files(**{"capture": CAPTURE, "replies": REPLIES, "journal": JOURNAL, name: text + more}) as path, \
                    files(capture=CAPTURE, replies=REPLIES) as other:
                for words in readers(path, other)[name]:
                    is_single = words[0] not in ("show", "top", "part")
                    if is_single or what != "joined":
                        looks(f"{name} with {what} after it", words, must_fail=True, wanted=f"{len(text)}|not expected|two of them")


def orders():
    """Orders that are cut, spoiled, of another recording, or go on after their end are refused, with the file and the
    line."""
    texts = {(0, 0): TOLD, (1, 0): b"END\r\n"}
    right = b"".join(order_text([0, 0, 1, 0, 0, 0, 0], digest(CAPTURE, texts)))
    other = b"".join(order_text([0, 0, 1, 0, 0, 0, 0], digest(LATER, texts)))
    odd = {**{f"cut at {at}": right[:at] for at in (*range(len(FIRST_LINE)), 40, 90, 99, len(right) - 1, len(right) - 3)},
           "of another recording": other, "joined": right + right, "with a byte after it": right + b"x",
           "of a command too many": right.replace(b"1 1", b"1 2"), "of a command too few": right.replace(b"0 2", b"0 1"),
           "of no connection": right.replace(b"1 1", b"7 1"), "with a huge count": right.replace(b"1 1", b"1 99999999999"),
           "garbage": bytes(range(256)), "a capture": CAPTURE, "with a negative count": right.replace(b"1 1", b"1 -1")}
    for name, text in {"right": right, **odd}.items():
        with files(capture=CAPTURE, replies=REPLIES, order=text) as path:
            for words in (["inline", "--order", path["order"], path["capture"], path["replies"]],
                          ["compare", "--capture", path["capture"], "--order", path["order"], path["replies"], "-"]):
                looks(f"an order that is {name}", words, given=replies([b"STORED\r\nEND\r\n" + TOLD[26:], b"END\r\n"]),
                      must_fail=name != "right", wanted="" if name == "right" else re.escape(path["order"]))


def ended_by_ctrl_c(tool):
    """Ends a tool by Ctrl-C, and returns what it has printed. If a signal comes just before a read, Python handles it only
    after the read, so the signal is sent again if the tool still runs."""
    for _ in range(LONGEST // SECONDS_BETWEEN):
        tool.send_signal(signal.SIGINT)
        with contextlib.suppress(subprocess.TimeoutExpired):
            return tool.communicate(timeout=SECONDS_BETWEEN)
    return fail(f"Ctrl-C does not end {tool.args}")


def interrupted():
    """A tool that is ended by Ctrl-C says nothing, and leaves nothing."""
    with tempfile.TemporaryDirectory() as folder:
        pipe, kept = os.path.join(folder, "pipe"), os.path.join(folder, "kept")
        os.mkfifo(pipe)
        for words in (["judge", "--out", kept, pipe, "/dev/null"], ["inline", "--write-order", kept, pipe, "/dev/null"],
                      ["compare", "--capture", "/dev/null", pipe, "/dev/null"], ["warm", pipe, "/dev/null"], ["show", pipe],
                      ["packets", "--in-order", kept, pipe]):
            with subprocess.Popen([path_of(words[0]), *words[1:]], stdout=subprocess.PIPE, stderr=subprocess.PIPE) as tool:
                with open(pipe, "wb"):  # the tool has opened it
                    said = ended_by_ctrl_c(tool)
            same(f"{words[0]} at Ctrl-C", (-signal.SIGINT, (b"", b"")), (tool.returncode, said))
            same(f"what {words[0]} leaves", ["pipe"], os.listdir(folder))


# how each tool that sh starts is called in a folder with files of these names
CALLED = {"capture": [], "show": ["capture"], "top": ["capture"], "part": ["replies", "replies"], "picture": ["journal"],
          "compare": ["replies", "replies"], "inline": ["capture", "replies"], "warm": ["capture", "replies"],
          "judge": ["--out", "/dev/null", "capture", "replies"], "packets": ["pcap"], "play": ["capture", "--server", PLACE],
          "load": [PLACE], "lie": ["127.0.0.1:0", "stale"], "test": ["--help"], "check": ["--help"],
          "record": ["--over", "--server", PLACE, "--listen", "127.0.0.1:0", "new.cap", "new.replies"]}


def starts_by_sh(path):
    if not os.path.isfile(path):
        return False
    with open(path, "rb") as file:
        return file.read(10) == b"#!/bin/sh\n"


# a Python that is interrupted as it begins, and then becomes the one that is at {0}
INTERRUPTED = """#!{0} -IS
import os, signal, sys
os.kill(os.getpid(), signal.SIGINT)
os.execv({0!r}, [{0!r}, *sys.argv[1:]])
"""


def interrupted_while_python_starts():
    """A Ctrl-C that comes before the first module of a tool ends the tool as soon as that is imported, and nothing is said.
    It is ignored if env cannot let it wait."""
    same("the tools that sh starts", {name for name in os.listdir(path_of("")) if starts_by_sh(path_of(name))}, set(CALLED))
    can_wait = not subprocess.run(["env", "--block-signal=INT", "true"], stderr=subprocess.DEVNULL, check=False).returncode
    with tempfile.TemporaryDirectory() as folder:
        environment = {**os.environ, "PATH": os.pathsep.join([folder, os.environ.get("PATH", os.defpath)])}
        for name, text in (("python3", INTERRUPTED.format(sys.executable)), ("env", "#!/bin/sh\nexit 125\n")):
            with open(os.path.join(folder, name), "w", encoding="utf-8") as file:
                file.write(text)
            os.chmod(file.name, 0o755)
            for tool in CALLED:
                ran = subprocess.run([path_of(tool), "--help"], env=environment, capture_output=True, check=False,
                                     timeout=LONGEST)
                is_ended = can_wait and name == "python3"
                same(f"{tool}, interrupted while Python starts", (-signal.SIGINT if is_ended else 0, b"", not is_ended),
                     (ran.returncode, ran.stderr, bool(ran.stdout)))


def begun_together(draw):
    """Begins all tools at once, each as the first of a group, and interrupts each at a random time of its life, half of
    them with all that they began; a fourth twice. Returns what each has printed, with its status."""
    with contextlib.ExitStack() as stack:
        path = stack.enter_context(files(capture=CAPTURE, replies=REPLIES, journal=JOURNAL, pcap=packets.file_of()))
        begun = {tool: stack.enter_context(subprocess.Popen(
            [path_of(tool), *words], cwd=os.path.dirname(path["capture"]), stdin=subprocess.DEVNULL, stdout=subprocess.PIPE,
            stderr=subprocess.PIPE, start_new_session=True)) for tool, words in CALLED.items()}
        moments = sorted((draw.random() * LIFE, tool) for tool in [*begun, *draw.sample(sorted(begun), len(begun) // 4)])
        start = time.monotonic()
        for moment, tool in moments:
            time.sleep(max(0, start + moment - time.monotonic()))
            with contextlib.suppress(ProcessLookupError):
                (os.killpg if draw.random() < 0.5 else os.kill)(begun[tool].pid, signal.SIGINT)
        return {tool: (*ended_by_ctrl_c(one), one.returncode) for tool, one in begun.items()}


def interrupted_at_any_time():
    """A tool that Ctrl-C ends at any time of its life, beside others, prints no trace: it is ended by the signal, or as
    without it."""
    draw, ends_by = random.Random(3), Counter()
    for _ in range(ROUNDS):
        for tool, (_, said, status) in begun_together(draw).items():
            text = said.decode(errors="replace")
            ends_by[status == -signal.SIGINT] += 1
            if not is_plain(tool, text) or status not in (-signal.SIGINT, *range(8)):
                fail(f"{tool}, interrupted", f"status {status}, {text!r}")
    same("some were ended by Ctrl-C", True, ends_by[True] > 0)


def full_disks():
    """A full disk, and outputs that are inputs, or each other, or there already."""
    with files(capture=CAPTURE, replies=REPLIES, pcap=packets.file_of()) as path:
        for words in (["judge", "--out", "/dev/full", path["capture"], path["replies"]],
                      ["judge", "--out", "/none/file", path["capture"], path["replies"]],
                      ["judge", "--order", "/none/file", path["capture"], path["replies"]],
                      ["inline", "--write-order", "/none/file", path["capture"], path["replies"]]):
            looks("an output that cannot be written", words, must_fail=True, wanted="/dev/full|/none/file")
        for words in (["judge", "--out", path["capture"], path["capture"], path["replies"]],
                      ["judge", "--over", "--out", path["replies"], path["capture"], path["replies"]],
                      ["inline", "--write-order", path["capture"], path["capture"], path["replies"]],
                      ["packets", "--in-order", path["pcap"], path["pcap"]],
                      ["packets", "--over", "--in-order", path["pcap"], path["pcap"]],
                      ["packets", "--in-order", path["capture"], path["pcap"]],
                      ["packets", "--in-order", "/none/a", "--replies", "/none/a", path["pcap"]]):
            looks("an output that is there", words, must_fail=True, wanted="File exists|this file|read; write|both")
        for name, text in (("capture", CAPTURE), ("replies", REPLIES), ("pcap", packets.file_of())):
            with open(path[name], "rb") as file:
                same(f"the {name} is as it was", text, file.read())


def encodings():
    """Names that are not of UTF-8, and output in ASCII."""
    with tempfile.TemporaryDirectory() as folder:
        odd = os.fsdecode(os.path.join(os.fsencode(folder), b"caf\xe9-\xff-\xc3\xa9"))
        for text, tools in ((CAPTURE, ("show", "top")), (JOURNAL, ("show", "picture")), (REPLIES, ("show",))):
            with open(odd, "wb") as file:
                file.write(text)
            for tool, encoding in itertools.product(tools, ("utf-8", "ascii", "latin-1")):
                looks(f"{tool}, {encoding}", [tool, odd], environment={"ENCODING": encoding})
        with open(odd, "wb") as file:
            file.write(replies([b"END\r\n"]))
        other = os.path.join(folder, "other")
        with open(other, "wb") as file:
            file.write(replies([b"VALUE a 0 1\r\nx\r\nEND\r\n"]))
        for encoding in ("utf-8", "ascii"):
            looks(f"compare, {encoding}", ["compare", odd, other], environment={"ENCODING": encoding}, wanted="1 difference|connection")


# answers that a server may give by mistake, to the command of the same row
HOSTILE = [
    (b"get a\r\n", text) for text in (
        b"VALUE\r\nEND\r\n", b"VALUE \r\nEND\r\n", b"VALUE a\r\nEND\r\n", b"VALUE a 0\r\nEND\r\n", b"VALUE a 0 x\r\nx\r\nEND\r\n",
        b"VALUE a xx 1\r\nx\r\nEND\r\n", b"VALUE a 0 99999999999\r\nx\r\nEND\r\n", b"VALUE a 0 1 z\r\nx\r\nEND\r\n",
        b"VALUE a 0 1\r\nx\r\nVALUE a 0 1\r\nx\r\nEND\r\n", b"VALUE a " + b"9" * 5000 + b" 1\r\nx\r\nEND\r\n", b"\r\n", b"\n\n\n",
        b"END", b"ERROR\r\n", b"STAT\r\nEND\r\n", b"VALUE b 0 1\r\nx\r\nEND\r\n", b"\x00\xff\r\n")
] + [
    (b"mg a v f c k\r\n", text) for text in (
        b"HD fzz\r\n", b"HD c\r\n", b"\r\n", b" \r\n", b"VA\r\n", b"VA x\r\n\r\n", b"VA 1 f" + b"1" * 5000 + b" c0\r\nx\r\n",
        b"VA 5\r\nx\r\n", b"HD\r\nHD\r\n", b"EN f1\r\n", b"VA 1 cxx\r\nx\r\n")
] + [(b"incr a 1\r\n", text) for text in (b"9" * 5000 + b"\r\n", b"-1\r\n", b"1x\r\n", b" \r\n", b"18446744073709551616\r\n")] + [
    (b"gets a\r\n", b"VALUE a 0 1 " + b"8" * 5000 + b"\r\nx\r\nEND\r\n"), (b"touch a 1\r\n", b"TOUCHED x\r\n"),
    (b"gat 1 a\r\n", b"VALUE a\r\nEND\r\n"), (b"md a\r\n", b"HD \r\n"), (b"ms a 1\r\nx\r\n", b"\r\n"), (b"stats\r\n", b"STAT \r\nEND\r\n"),
    (b"version\r\n", b"VERSION\r\n"), (b"flush_all\r\n", b"NO\r\n"),
]


def hostile_answers():
    """Odd answers, to tools that read them."""
    for number, (asked, told) in enumerate(HOSTILE):
        sent = capture(2, [segment(0, b"set a 0 0 1\r\n1\r\n"), segment(1, asked), segment(0, b"get a\r\n"), segment(1, b"mn\r\n")])
        right = replies([b"STORED\r\nVALUE a 0 1\r\n1\r\nEND\r\n", b"END\r\nMN\r\n"])
        odd = replies([b"STORED\r\nVALUE a 0 1\r\n1\r\nEND\r\n", told + b"MN\r\n"])
        with files(sent=sent, right=right, odd=odd) as path:
            for words in (["judge", "--out", os.devnull, path["sent"], path["odd"]],
                          ["judge", "--warm", "--may-forget", "--out", os.devnull, path["sent"], path["odd"]],
                          ["warm", path["sent"], path["odd"]], ["inline", path["sent"], path["odd"]],
                          ["inline", "--cut", path["odd"], path["sent"], path["right"]],
                          ["compare", "--capture", path["sent"], path["odd"], path["right"]],
                          ["compare", "--capture", path["sent"], path["right"], path["odd"]],
                          ["compare", path["odd"], path["right"]], ["show", path["odd"]]):
                looks(f"answer {number}, {told[:20]!r}", words)


def deep_pipelines():
    """Clients that send up to 5,000 commands before they read an answer."""
    for count in (400, 5000):
        asked = [b"".join(b"get k%d\r\n" % (at % 7) for at in range(count)),
                 b"".join(b"set k%d 0 0 1\r\n%d\r\n" % (at % 7, at % 10) for at in range(count // 10))]
        hits = b"".join(b"VALUE k%d 0 1\r\n%d\r\nEND\r\n" % (at % 7, at % 10) if at % 3 else b"END\r\n" for at in range(count))
        told = [hits, b"STORED\r\n" * (count // 10)]
        sent = capture(2, [segment(number, text[at : at + 60000]) for number, text in enumerate(asked)
                           for at in range(0, len(text), 60000)])
        with files(sent=sent, told=replies(told), other=replies([b"END\r\n" * count, told[1]])) as path:
            looks(f"{count} commands at a time", ["inline", path["sent"], path["told"]])
            looks(f"{count} commands at a time", ["compare", "--capture", path["sent"], path["told"], path["other"]],
                  must_fail=True, wanted="difference")
            looks(f"{count} commands at a time", ["judge", "--seconds", "20", "--out", os.devnull, path["sent"], path["told"]])


def spoiled_packets():
    """Files of packets whose bytes are spoiled."""
    draw = random.Random(5)
    record = struct.pack(">IIII", 0, 0, 60, 60) + bytes(60)
    whole = packets.file_of() + record * 3
    for number in range(12):
        text = bytearray(whole)
        for _ in range(1 + number):
            text[draw.randrange(len(text))] = draw.randrange(256)
        for words in (["packets"], ["packets", "--resume"]):
            looks(f"spoiled packets {number}", words, given=bytes(text[: draw.randrange(len(text))] if number % 2 else text))


def no_packets():
    """tools/packets says what a file is that has no packets, and what may be done about it."""
    for given, wanted in ((b"\x1f\x8b\x08" + bytes(99), "it is a compressed file: decompress it first"),
                          (b"PK\x03\x04" + bytes(99), "it is a compressed file: decompress it first"),
                          (CAPTURE, "it is a capture: give it to zygos run"), (REPLIES, "it is a replies file: give a file"),
                          (JOURNAL, "it is a journal: give a file"), (b"set a 0 0 1\r\n" * 3, "it is text: give a file"),
                          (bytes(99), "give a file as tcpdump -w writes it"), (packets.file_of(), "no request goes to port")):
        looks(f"packets of {given[:8]!r}", ["packets"], given=given, must_fail=True, wanted=wanted)


def unforeseen():
    """What nobody foresaw is one line with status 70, and its trace is in a file."""
    with tempfile.TemporaryDirectory() as folder:
        program = ("import sys; sys.path.insert(0, sys.argv.pop(1)); sys.argv[0] = 'tools/show'\n"
                   "from zygos_tools.cli import ends\ndef main(words): {}\nends.run(main, '')\n")
        for what, status, wanted in (
            ("raise KeyError('lines\\n of it')", 70, r"tools/show: this is a fault of the tool: KeyError: '.*'; please report it"
             r" with the trace in .*zygos-.*\.trace\n"),
            ("raise RecursionError('deep')", 70, r"tools/show: this is a fault of the tool: RecursionError: deep; .*\n"),
            ("raise MemoryError", 1, r"tools/show: out of memory; record a shorter time\n"),
        ):
            path = os.path.join(folder, "odd.py")
            with open(path, "w", encoding="utf-8") as file:
                file.write(program.format(what))
            ran = subprocess.run([sys.executable, path, path_of("")], capture_output=True, check=False,
                                 env=dict(os.environ, TMPDIR=folder), timeout=LONGEST)
            same(f"what is said of {what}", (status, True),
                 (ran.returncode, re.fullmatch(wanted, ran.stderr.decode()) is not None))
        same("the traces", 2, sum(name.endswith(".trace") for name in os.listdir(folder)))


Tests = cases(cut_files, wrong_files, faults_by_json, bytes_after, orders, interrupted,
              interrupted_while_python_starts, interrupted_at_any_time, full_disks, encodings, hostile_answers, deep_pipelines,
              spoiled_packets, no_packets,
              unforeseen)

if __name__ == "__main__":
    unittest.main()
