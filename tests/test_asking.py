"""Tests that tools/judge asks the proved program `judge` first, with a stand-in that gives one answer to everything."""
import json
import os
import stat
import tempfile
from unittest import mock

from checks import cases, run, same, written
from zygos_tools.files.formats import capture, replies, segment
from zygos_tools.judging import asking, command

SET, MARK = b"set a 0 0 1\r\nx\r\n", b""
GET = b"get a\r\n"
STORED, HIT, OTHER = b"STORED\r\n", b"VALUE a 0 1\r\nx\r\nEND\r\n", b"VALUE a 0 1\r\ny\r\nEND\r\n"
RIGHT = [segment(0, SET), segment(0, MARK), segment(1, GET), segment(1, MARK)]
WITHOUT = [RIGHT[0], RIGHT[2]]
YES, NO = "yes commands 2 ended 2", "no unmet connection 1 command 0 part 0"
SEARCHED, OTHER_LINE = "unknown search connection 1 command 0", "unknown other connection 1 command 0"
BY_PROGRAM = "order found, by the proved program, on the bytes as they were recorded"
FOUND = "order found, by search: 2 commands, 2 calls, 1 keys"
ACCUSED = "no: key a: no order of these commands explains their answers, whatever came before"
# what stands for ./zygos: it keeps its words and what it reads, and `judge` says one thing, or first one and then another
STAND_IN = """#!/bin/sh
echo "$@" >>%(folder)s/words
if [ "$1" = judge ]; then
    cat >%(folder)s/given
    if [ "$(grep -c ^judge %(folder)s/words)" = 1 ]; then echo '%(line)s'; exit %(status)s; fi
    echo '%(line_then)s'
    exit %(status_then)s
fi
cat >/dev/null
echo 'yes commands 2 ended 2 by linear'
"""


def asked(line, status, *words, records=RIGHT, answers=(STORED, HIT), names=("sent", "told"), given=b"", said=b"", then=None):
    """What the tool does if the program says this, and `then` when it is asked again: its status, its lines, the words of all
    that it ran, and what the program read last."""
    with tempfile.TemporaryDirectory() as folder:
        line_then, status_then = then or (line, status)
        script = STAND_IN % {"folder": folder, "line": line, "status": status, "line_then": line_then,
                             "status_then": status_then}
        paths = written(folder, sent=capture(len(answers), records), told=replies(answers), zygos=script.encode(), words=b"",
                        given=b"")
        os.chmod(paths["zygos"], stat.S_IRWXU)
        with mock.patch.object(command, "ZYGOS", paths["zygos"]):
            ran = run("judge", *[word.replace("FOLDER", folder) for word in words],
                      *[paths.get(name, name) for name in names], given=given)
        kept = []
        for name in ("words", "given"):
            with open(paths[name], "rb") as file:
                kept.append(file.read())
    same(f"after {line}, on standard error", said, ran.stderr)
    return ran.returncode, ran.stdout.decode().split("\n")[:-1], kept[0].decode().split("\n")[:-1], kept[1]


def yes_needs_no_search():
    """After its `yes` nothing is searched; it is given the bytes as they are, and the words that are its own."""
    recorded = capture(2, RIGHT) + replies((STORED, HIT))
    for words, theirs in ((("--check",), "--shards 16"), (("--check", "--warm"), "--warm --shards 16"),
                          (("--check", "--may-forget", "--warm", "--shards", "3"), "--warm --may-forget --shards 3"),
                          (("--check", "--times", "ends"), "--shards 16"), (("--check", "--first"), "--shards 16")):
        same(f"{words}", (0, [BY_PROGRAM, YES], [f"judge {theirs}"], recorded), asked(YES, 0, *words))
    same("one from standard input", (0, [BY_PROGRAM, YES], ["judge --shards 16"], recorded),
         asked(YES, 0, "--check", names=("sent", "-"), given=replies((STORED, HIT))))
    status, lines, words, _ = asked(YES, 0, "--json")
    told = json.loads(lines[0])
    same("as JSON", (0, 1, ["judge --shards 16"], "order found", True, YES, 2, None, 0),
         (status, len(lines), words, told["verdict"], told["proved"], told["checked"], told["commands"], told["keys"],
          told["without"]))


def it_is_not_asked():
    """It is not asked about some keys, for files, or if the times are not those of marks."""
    for words, records in ((("--keys", "a"), RIGHT), (("--except-keys", "b"), RIGHT), ((), WITHOUT),
                           (("--out", "FOLDER/files"), RIGHT), (("--order", "FOLDER/order"), RIGHT),
                           (("--times", "segments"), RIGHT)):
        status, lines, run_words, _ = asked(NO, 1, "--check", *words, records=records)
        same(f"{words}", (0, FOUND, 1), (status, lines[0], len(run_words)))
    said = b"tools/judge: this capture has no ends of answers (record with --ends); --times segments or none\n"
    same("no marks", (2, [], []), asked(NO, 1, "--times", "ends", "--check", records=WITHOUT, said=said)[:3])
    status, _, run_words, _ = asked(NO, 1, said=f"{FOUND}\nnothing is translated\n".encode())
    same("files to standard output", (0, []), (status, run_words))


def without_times():
    """With --times none it is asked, and marks that it takes into account may only help."""
    for line, status, records, first in ((YES, 0, WITHOUT, BY_PROGRAM), (YES, 0, RIGHT, BY_PROGRAM),
                                         (NO, 1, RIGHT, FOUND), (SEARCHED, 7, RIGHT, FOUND)):
        got, lines, words, _ = asked(line, status, "--check", "--times", "none", records=records)
        same(f"{line}, {len(records)}", (0, first, "judge --shards 16"), (got, lines[0], words[0]))


def no_is_explained():
    """After its `no` the search explains it; if it cannot, the line says what the program said."""
    status, lines, words, _ = asked(NO, 1, "--check", answers=(STORED, OTHER))
    same("explained", (1, f"proved {ACCUSED}"[:20], 1), (status, lines[0][:20], len(words)))
    status, lines, words, _ = asked(NO, 1, "--check")
    unmet = "no command can have made in time what it was answered"
    shared = "fewer commands can have made in time what it and others were answered than these took away"
    same("not explained", (1, f"proved no: unmet, connection 1, command 0, key a: {unmet}",
                           "  connection 1, command 0, sent 2, answered 3: get a -> VALUE a 0 1", 1),
         (status, lines[0], lines[1], len(words)))
    for line, told in (
            ("no early-end record 3", "early end, record 3: it ends an answer before one of its session can have been"
                                      " complete"),
            ("no surplus connection 1 session 0", "surplus, connection 1, session 0: more was answered than was asked"),
            ("no kind connection 1 command 0", "kind, connection 1, command 0: what was answered is no answer to it"),
            ("no shared connection 1 command 0 part 0", f"shared, connection 1, command 0, key a: {shared}"),
            ("no unmet connection 1 command 9 part 0", f"unmet, connection 1, command 9: {unmet}")):
        status, lines, _, _ = asked(line, 1, "--check")
        same(line, (1, f"proved no: {told}"), (status, lines[0]))
    for answers in ((STORED, OTHER), (STORED, HIT)):
        status, lines, _, _ = asked(NO, 1, "--json", answers=answers)
        told = json.loads(lines[0])
        same("as JSON", (1, "no", True, NO, 1, ["a"]),
             (status, told["verdict"], told["proved"], told["checked"], told["without"], told["faults"][0]["keys"]))


def unknown_is_searched():
    """After its `unknown` the search goes on as without it, and its `no`, which is not proved, is unknown."""
    for line in (SEARCHED, OTHER_LINE):
        status, lines, words, _ = asked(line, 7, "--check")
        same(line, (0, [FOUND, "nothing is translated", f"{YES} by linear"],
                    ["judge --shards 16", "linear --shards 16"]), (status, lines, words))
        status, lines, _, _ = asked(line, 7, "--check", answers=(STORED, OTHER))
        same(f"{line}, refused", (7, "unknown: not proved: key a: no"), (status, lines[0][:30]))
        told = json.loads(asked(line, 7, "--json", answers=(STORED, OTHER))[1][0])
        same("as JSON", ("unknown", False, None, 0, 1, ["a"]),
             (*(told[name] for name in ("verdict", "proved", "checked", "without", "unknown")), told["faults"][0]["keys"]))
    told = json.loads(asked(SEARCHED, 7, "--json", "--check")[1][0])
    same("checked by linear", ("order found", False, f"{YES} by linear"),
         (told["verdict"], told["proved"], told["checked"]))


# a `touch`, a `stats` and a `gat` between RIGHT, and what the program is given in their place
TOUCH, STATS, GAT = b"touch a 5\r\n", b"stats\r\n", b"gat 0 a\r\n"
LISTED, TOUCHED = b"STAT pid 1\r\nEND\r\n", b"TOUCHED\r\n"
OUTSIDE = [RIGHT[0], RIGHT[1], segment(0, TOUCH + STATS), segment(0, MARK), segment(0, MARK), segment(1, STATS), segment(1, MARK),
           segment(1, GAT), segment(1, MARK)]
INSIDE = [segment(0, b"set a 0 1 1\r\nx\r\n"), RIGHT[1], segment(0, b"mg a\r\n"), segment(0, MARK), *RIGHT[2:]]
TRANSLATED = "translated: gat 1, stats left out 2, touch 1"
OF_TRANSLATED = "order found, by the proved program, on the bytes as they are translated"


def others_are_translated():
    """If it does not know a command, it is asked about what the recording is translated to, and its verdict is about that."""
    more = {"records": OUTSIDE, "answers": (STORED + TOUCHED + LISTED, LISTED + HIT)}
    yes = "yes commands 3 ended 3"
    status, lines, words, given = asked(OTHER_LINE, 7, "--check", then=(yes, 0), **more)
    same("an order", (0, [OF_TRANSLATED, TRANSLATED, yes], ["judge --shards 16"] * 2,
                      capture(2, INSIDE) + replies((STORED + b"HD\r\n", HIT))), (status, lines, words, given))
    told = json.loads(asked(OTHER_LINE, 7, "--json", then=(yes, 0), **more)[1][0])
    same("as JSON", ("order found", True, {"gat": 1, "stats left out": 2, "touch": 1}, 3),
         (told["verdict"], told["proved"], told["translated"], told["commands"]))
    lie = {**more, "answers": (STORED + TOUCHED + LISTED, LISTED + OTHER)}
    no = "proved no of the recording as it is translated: "
    status, lines, _, _ = asked(OTHER_LINE, 7, "--check", then=(NO, 1), **lie)
    same("a no", (1, f"{no}key a: no", TRANSLATED), (status, lines[0][: len(no) + 9], lines[-1]))
    status, lines, _, _ = asked(OTHER_LINE, 7, "--check", then=("no early-end record 5", 1), **more)
    same("its records have the recorded numbers", (1, f"{no}early end, record 8"), (status, lines[0][: len(no) + 19]))
    status, lines, _, _ = asked(OTHER_LINE, 7, "--check", then=("no kind connection 1 command 0", 1), **more)
    same("so have its commands", (1, f"{no}kind, connection 1, command 1"), (status, lines[0][: len(no) + 29]))
    status, lines, words, _ = asked(OTHER_LINE, 7, "--check", then=(SEARCHED, 7), **lie)
    same("unknown again", (7, "unknown: not proved: key a", 2), (status, lines[0][:26], len(words)))
    same("nothing to translate", ["judge --shards 16", "linear --shards 16"], asked(OTHER_LINE, 7, "--check")[2])
    same("with --may-forget, no exptime", capture(2, [RIGHT[0], *INSIDE[1:]]) + replies((STORED + b"HD\r\n", HIT)),
         asked(OTHER_LINE, 7, "--check", "--may-forget", then=(yes, 0), **more)[3])


NEVER, TWO_WORDS, PROXY = b"ERROR Too many open connections\r\n", b"set a 0 0 3\r\nx y\r\n", b"SERVER_ERROR Connection timed out\r\n"
LARGE = b"set a 0 0 9\r\n123456789\r\n"
FULL = b"SERVER_ERROR out of memory storing object\r\n"
LOOKS = [segment(1, GET), segment(1, MARK)]
# recordings of right servers that the program refuses, each with its line
DOUBTFUL = (
    ("a connection that is refused and sends nothing", [*RIGHT, segment(2, MARK)], (STORED, HIT, NEVER), "no early-end record 4"),
    ("a connection that is refused", [*RIGHT, segment(2, GET), segment(2, MARK)], (STORED, HIT, NEVER), NO),
    ("an authentication", [segment(0, TWO_WORDS), segment(0, MARK), *LOOKS], (STORED, b"END\r\n"), NO),
    ("a set that a proxy passed on", [segment(0, SET), segment(0, MARK), *LOOKS], (PROXY, HIT), NO),
    ("a store that removes an item before it is whole",
     [*RIGHT[:2], segment(2, LARGE[:15]), *LOOKS, segment(2, LARGE[15:]), segment(2, MARK)], (STORED, b"END\r\n", FULL), NO),
)


def no_of_a_right_server():
    """A `no` is passed over if a right server may have given the answers: its connections may not have been served, a proxy
    may have passed on what it says has failed, or a command was executed before it was whole."""
    for name, records, answers, line in DOUBTFUL:
        status, lines, _, _ = asked(line, 1, "--check", records=records, answers=answers)
        same(name, (True, False), (status in (0, 7), "proved" in lines[0]))
    lie = [*RIGHT, segment(2, GET), segment(2, MARK)]
    status, lines, _, _ = asked(NO, 1, "--check", records=lie, answers=(STORED, OTHER, NEVER))
    same("a lie beside one", (7, "unknown: not proved: key a"), (status, lines[0][:26]))
    other = [*RIGHT, segment(0, b"set b 0 0 3\r\nx y\r\n"), segment(0, MARK)]
    status, lines, _, _ = asked(NO, 1, "--check", records=other, answers=(STORED * 2, OTHER))
    same("another key's two words", (1, "proved no: key a"), (status, lines[0][:16]))


def it_may_not_be_there():
    """Without the program, or if it fails, all is as if nobody had asked."""
    for line, status in (("", 0), (YES, 1), (NO, 0), ("no", 1), (YES, 70), ("", 6), ("yes commands 0 ended 0", 0),
                         (f"{YES}\nmore", 0)):
        got, lines, _, _ = asked(line, status, "--check")
        same(f"{line}, {status}", (0, [FOUND, "nothing is translated", f"{YES} by linear"]), (got, lines))
        got, lines, _, _ = asked(line, status, "--check", answers=(STORED, OTHER))
        same(f"{line}, {status}, refused", (1, "no: key a"), (got, lines[0][:9]))


def nobody_waits_for_it():
    """It is stopped when its time has passed, and a program that is not there is none."""
    with tempfile.TemporaryDirectory() as folder:
        paths = written(folder, zygos=b"#!/bin/sh\nexec sleep 3600\n")
        os.chmod(paths["zygos"], stat.S_IRWXU)
        same("stopped", None, asking.ask(paths["zygos"], [], [b""], 0.5))
        same("not there", None, asking.ask(os.path.join(folder, "none"), [], [b""], 10))


Tests = cases(yes_needs_no_search, it_is_not_asked, without_times, no_is_explained, unknown_is_searched, others_are_translated, no_of_a_right_server,
              it_may_not_be_there, nobody_waits_for_it)
