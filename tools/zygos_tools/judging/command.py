"""Judges a server by its recorded answers: looks for an order of all calls that explains them, for the proved checkers.

usage: tools/judge [--check] [--out FILES] [--order FILE] [--over] [--shards N] [--times KIND] [--warm] [--may-forget]
                   [--keys GLOBS] [--except-keys GLOBS] [--first] [--json] [--seconds N] [--states N] [--processes N]
                   [--from ITEMS] [--to ITEMS] CAPTURE REPLIES
       tools/judge --windows FOLDER [options]

    tools/judge --check examples/shared.cap examples/shared.replies

CAPTURE, REPLIES  what clients sent and what the server answered, best as `tools/record --ends` writes them
--check       runs `./zygos linear` on the files that are made, or `./zygos check` if times are not known, and prints
              what it says
--out FILES   where the files are written, one after the other: a capture, a journal of the order, and replies. Without
              --out, --order, --check and --json they go to standard output, and what is said to standard error; at a
              terminal no files are written
--order FILE  where the order of the commands is written, for tools/inline and tools/compare
--over        overwrites files that are not empty
--shards N    the shards of the journal's run, 1 to 256 (if left out, 16); give the checkers the same number
--times KIND  what is known of when commands ended. ends: segments without bytes, which `--ends` writes; segments: each
              client waits for its answers before it sends again; none. If left out, ends if there are any
--warm        the server had items before: a connection is added that stores those that answers imply
--may-forget  the server may lose items: a connection is added that deletes those that answers show to be gone
--keys GLOBS  judges the keys that match one of these patterns, separated by spaces, as 'user:* count:*'
--except-keys GLOBS  judges all keys except those that match
--first       stops at the first key without an order; without it, all keys are searched
--json        prints one line with the verdict and the counts, or with the error of a file, and nothing else
--seconds N   gives up after N seconds of processor time, of which each key has a share (if left out, 600, of which only
              a part is used to fit keys to each other)
--states N    gives up on a key after N of its states (if left out, 200,000)
--processes N  searches keys in N processes (if left out, as many as there are processors that are not busy)
--from ITEMS, --to ITEMS  items files: what the server had before, and where what it has at the end is written
--windows FOLDER  judges the windows of `tools/record --every`, N at a time by themselves, and then each from the items
              that the one before it left. It keeps in FOLDER what it finds: a later run judges only what is new

The first line is `order found, by search: ..`, and a second one says what is translated; `no: ..`, with a few commands
that no order explains; or `unknown: ..`. Then come the numbers of keys. The status is 0 for an order, 1 for `no` and
nothing else, and 7 for `unknown`. After an order, with --check, the checker says `yes`. Other statuses: 2 a wrong
option, 3 an error in a file, 4 a failed read, 5 a failed write, 6 too little memory. docs/JUDGE.md says more.

If all keys are judged, no files are written, and ends of answers are known or --times none is given, the proved program
`./zygos judge` is asked first, if it is there. After its `yes` nothing is searched, and the first line is `order
found, by the proved program, ..`. A `no` that it proves begins with `proved no: ..`; one of the search alone is then
`unknown: not proved: ..`. If the program does not know a command, it is asked again about what the recording is
translated to, and the first line says so.
"""
from __future__ import annotations

import contextlib
import gc
import io
import itertools
import json
import os
import re
import subprocess
import sys
import tempfile
import time
from collections import Counter
from collections.abc import Callable, Iterable, Iterator
from fnmatch import fnmatchcase
from typing import IO, Any

from zygos_tools.cli import ends
from zygos_tools.cli.screen import Screen, as_called
from zygos_tools.files.formats import Output, shown
from zygos_tools.files.inputs import capture_alone, check_items, outputs_in, pieces_of
from zygos_tools.files.outputs import Beside, refuse_full, told_apart
from zygos_tools.files.part import Fault
from zygos_tools.judging import asking, narrowing, sharing, windows
from zygos_tools.judging.certificate import Certificate
from zygos_tools.judging.clock import Clock
from zygos_tools.judging.events import No, Unknown, Verdict, counted
from zygos_tools.judging.firsts import Item, items_in, needed, texts_of
from zygos_tools.judging.judge import Judge
from zygos_tools.judging.reading import Recording
from zygos_tools.judging.times import ENDS, NONE, SEGMENTS
from zygos_tools.judging.translating import Translation
from zygos_tools.judging.trusting import is_doubtful
from zygos_tools.protocol.order_files import connections_of, digest, order_text
from zygos_tools.repository import TOP

# options that are not for what the proved program alone judges
SEARCHING = ("--out", "--order", "--keys", "--except-keys", "--first")
# beside the folder that the tool was called in, which may be a link to the repository's
BESIDE = os.path.join(os.path.dirname(os.path.dirname(os.path.abspath(sys.argv[0]))), "zygos")
ZYGOS = BESIDE if os.path.exists(BESIDE) else os.path.join(TOP, "zygos")
# the status of each verdict, and of a failed read
STATUS, READING = {"order found": 0, "no": 1, "unknown": 7}, 4
NO_ENDS = ("the capture has no ends of answers: each client is taken to have waited for its answers; tools/record"
           " --ends writes them; a `no` may be false without them")
NOT_USED = "ends of answers are not used (--times segments): each client is taken to have waited"
NOT_CLOSED = "commands name keys that are left out too, so no checker is asked"
NOT_CERTIFIED = "not certified: --check asks the proved program, and --out FILES keeps the files for it"
BY_PROGRAM = "order found, by the proved program, on the bytes as they were recorded"
OF_TRANSLATED = "order found, by the proved program, on the bytes as they are translated"
BETWEEN = "only the proved program takes items, and it "
# the beginning of its line if it found no order
SEARCHED = "unknown search"
NO_CHECKER = "the proved program that certifies an order has no verdict"
REFUSED = "the proved program refuses this order, so there is no verdict; please report it, with the recording"
# how much processor time the search has
SECONDS = 600
# of how many keys without an order something is said
MOST_FAULTS = 100
# memory: of the tool itself in MB, and of each command and each byte of the files in bytes; less than so many MB is not
# worth a line
OWN, OF_COMMAND, OF_BYTE, MUCH = 30, 450, 1.2, 200
# of how many bytes the commands are counted
SAMPLE = 1 << 20
LINE = re.compile(rb"(?:\n|S\0\0..\0\0..)(?:gets?|gats?|set|add|replace|append|prepend|cas|incr|decr|delete|touch"
                  rb"|m[gsdn]) ", re.DOTALL)
GLOBS: ends.Option = ("patterns of keys", lambda word: word or None)
OPTIONS: dict[str, ends.Option | None] = {
           "--check": None, "--out": ends.OUTPUT, "--order": ends.OUTPUT, "--over": None,
           "--shards": ends.number(1, 256),
           "--times": ("ends, segments or none", lambda word: word if word in (ENDS, SEGMENTS, NONE) else None),
           "--warm": None, "--may-forget": None, "--keys": GLOBS, "--except-keys": GLOBS, "--first": None,
           "--json": None, "--from": ends.FILE, "--to": ends.OUTPUT,
           "--seconds": ends.number(1), "--states": ends.number(1), "--processes": ends.number(1, 64),
           "--windows": ("a folder", lambda word: word or None)}


def chosen_by(given: dict[str, Any]) -> Callable[[bytes], bool] | None:
    """Which keys are judged; None where all are."""
    keys, but = given.get("--keys", "").split(), given.get("--except-keys", "").split()
    if not keys and not but:
        return None

    def is_chosen(key: bytes) -> bool:
        name = shown(key)
        is_in = not keys or any(fnmatchcase(name, one) for one in keys)
        return is_in and not any(fnmatchcase(name, one) for one in but)

    return is_chosen


def expected_memory(capture: bytes, outputs_of: list[Output]) -> tuple[int, int]:
    """About how many commands a capture has, and how many MB their judging takes."""
    sample = capture[:SAMPLE]
    commands = len(LINE.findall(sample)) * len(capture) // max(1, len(sample))
    size = len(capture) + sum(len(one.text) for one in outputs_of)
    return commands, int(OWN + (commands * OF_COMMAND + size * OF_BYTE) / 1e6)


def counts_in(found: Counter[str]) -> str:
    """What is counted, to be printed."""
    return ", ".join(f"{name} {count}" for name, count in sorted(found.items()) if count)


def unproved(fault: No) -> Unknown:
    """What is said of a `no` of the search that the proved program was asked about, and did not prove: it accuses nobody."""
    return Unknown(f"not proved: {fault.why}", lines=fault.lines, connections=fault.connections, record=fault.record,
                   keys=fault.keys)


class Explained(Exception):
    """The proved program knows an order."""


class Unsearched(Exception):
    """All was asked, and nothing is to be searched."""


class Judging:
    """A recording that is judged by the words of the command."""

    def __init__(self, names: list[str], given: dict[str, Any]):
        self.names, self.given, self.screen, self.begun = names, given, Screen(), time.monotonic()
        self.is_json, self.is_between = "--json" in given, bool({"--from", "--to", "unsearched"} & set(given))
        is_silent = not {"--check", "--out", "--order", "--json", "--from", "--to"} & set(given)
        self.at_terminal = is_silent and os.isatty(1)
        self.to_output = is_silent and not self.at_terminal
        self.is_read = False
        self.judge: Judge | None = None
        self.certificate: Certificate | None = None
        self.checked = self.recording = ""
        # what the proved program `judge` said, if it was asked and answered
        self.answer: asking.Answer | None = None
        # the items at first of an order that was searched, if other CAS values were given of them
        self.needed: dict[bytes, Item] = {}
        # the recording as it was translated for that, if it was, and as it was read, if nothing is searched
        self.translation: Translation | narrowing.Narrowed | None = None
        self.read: Recording | None = None
        self.clock = Clock(given.get("--seconds", SECONDS), self.screen.ticker(), "--seconds" in given)

    def say(self, line: str) -> None:
        """Prints a line."""
        self.screen.clear()
        if not self.is_json:
            print(as_called(line), file=sys.stderr if self.to_output else sys.stdout)

    # ---- the search

    def run(self) -> int:
        """Judges, prints what is to be said, and gives the status."""
        faults = self.found()
        self.screen.clear()
        if self.is_told("no") and not any(isinstance(fault, No) for fault in faults):
            faults.append(self.refuted())
        if self.answer and not self.is_told("no"):
            faults = [unproved(fault) if isinstance(fault, No) else fault for fault in faults]
        faults.sort(key=lambda fault: (fault.word != "no", fault.record is None, fault.record or 0))
        word = faults[0].word if faults else "order found"
        if faults:
            self.refuse(faults)
        elif self.is_told("yes"):
            self.say(OF_TRANSLATED if self.translation else BY_PROGRAM)
            self.say_translated()
            self.say(self.checked)
            self.say_items()
        elif not self.accept():
            word = "unknown"
        if self.is_json:
            self.print_json(word, faults)
        return STATUS[word]

    def found(self) -> list[Verdict]:
        """Looks for an order. Gives the faults, if there are some."""
        try:
            return self.search()
        except Explained:
            return []
        except Verdict as verdict:
            others = self.judge.faults if self.judge else []
            return [*others, verdict] if verdict not in others else [*others]
        except MemoryError:
            if not self.is_told("no"):
                raise
            return []

    def search(self) -> list[Verdict]:
        """Looks for an order of what is in the files. Gives the faults of single keys and answers, if there are some."""
        given, capture = self.given, capture_alone(self.names[0])
        kept: list[bytes] = []
        replies = outputs_in(self.names[1], capture_hint=": the replies file comes second",
                             keep=kept.append if self.may_ask() else None)[0]
        self.is_read = True
        may_ask = self.ask([capture, *kept])
        kept.clear()
        if self.is_between:
            return self.unexplained(capture, replies, may_ask)
        commands, megabytes = expected_memory(capture, replies)
        if megabytes > MUCH:
            self.screen.say(f"about {commands:,} commands, for which about {megabytes:,} MB of memory are needed")
        judge = self.judge = Judge(
            capture, replies, given.get("--shards", 16), given.get("--times"), "--warm" in given,
            "--may-forget" in given, given.get("--states", 200000), self.clock, is_first="--first" in given,
            is_chosen=chosen_by(given), asks=self.ask_translated if may_ask else None)
        self.doubt(judge.recording)
        if not judge.keys.names and {"--keys", "--except-keys"} & set(given):
            raise Unknown(f"no key {self.choice()}")
        if "--order" in given:
            self.recording = digest(capture, {one[:2]: one.text for one in replies})
        del capture, replies
        if judge.kind == ENDS and not judge.recording.marks:
            ends.stop("this capture has no ends of answers (record with --ends); --times segments or none", 2)
        count = len(judge.table.kind)
        judge.search(given.get("--processes") or sharing.free_processors(count))
        if judge.faults or self.is_told("no"):
            return judge.faults
        judge.merge()
        if judge.is_closed:
            self.certificate = judge.certificate()
        return []

    def unexplained(self, capture: bytes, replies: list[Output], may_ask: bool) -> list[Verdict]:
        """What is said if the program found no order from the items that are given. It is asked about the translated
        recording too, and nothing is searched: the search knows no items but those that answers imply."""
        given = self.given

        def ask(recording: Recording) -> None:
            self.read = recording
            self.ask_translated(recording)
            raise Unsearched

        try:
            judge = Judge(capture, replies, given.get("--shards", 16), given.get("--times"), "--warm" in given,
                          "--may-forget" in given, clock=self.clock, asks=ask)
            if judge.faults and not self.is_told("no"):
                return judge.faults
        except Unsearched:
            pass
        if "--from" in given:
            self.is_read = False
            check_items(given["--from"])
            self.is_read = True
        if self.is_told("no"):
            return []
        said = f"says: {self.answer.line}" if self.answer else "gives no answer" if may_ask else "is not asked"
        keys = self.answer.keys(self.read) if self.answer and self.read else []
        said += f", key {', '.join(map(shown, keys))}" if keys else ""
        others = self.unnarrowed(capture, replies) if said.startswith(f"says: {SEARCHED}") else []
        return [Unknown(BETWEEN + said, keys=keys), *others]

    def unnarrowed(self, capture: bytes, replies: list[Output]) -> list[Verdict]:
        """Searches an order from the items that are given, and asks the program about the recording at the times of this
        order. Gives what is said of the keys without one."""
        given = self.given
        if "unsearched" in given:
            return []
        try:
            judge = self.judge = Judge(capture, replies, given.get("--shards", 16), given.get("--times"),
                                       loses="--may-forget" in given, clock=self.clock, has_reasons=False, is_first=False)
            known = items_in(given["--from"], judge.table.key_of) if "--from" in given else {}
            judge.keys.first.update({key: known[key][:2] if key in known else None for key in judge.keys.names})
            judge.search(given.get("helpers", given.get("--processes", 1)))
            if judge.faults:
                return judge.faults
            self.needed = needed(judge.table, judge.keys.found, known)
            judge.merge()
            narrowed = narrowing.narrowed(judge)
        except Verdict as verdict:
            return [verdict]
        answer = self.answered(narrowed.pieces) if narrowed else None
        if answer and answer.word == "yes":
            self.answer, self.translation, self.checked = answer, narrowed, answer.line
            raise Explained
        return []

    # ---- the proved program

    def may_ask(self) -> bool:
        """Whether the proved program `judge` is asked before the search: if all is judged, and no file is wanted."""
        return (not self.to_output and self.given.get("--times") in (None, ENDS, NONE)
                and not {"--keys", "--except-keys", "--out", "--order"} & set(self.given))

    def ask(self, recorded: list[bytes]) -> bool:
        """Asks the proved program about the bytes of a capture and a replies file, if it may say something of them.
        Gives whether it says something, which is no order."""
        has_marks = self.may_ask() and asking.has_marks(recorded[0])
        is_empty = self.is_between and not asking.has_records(recorded[0])
        if not self.may_ask() or self.given.get("--times") != NONE and not has_marks and not is_empty:
            return False
        return self.ask_of(lambda items: itertools.chain(recorded[:1], items, recorded[1:]), has_marks) is not None

    def ask_translated(self, recording: Recording) -> None:
        """Asks about what the recording is translated to, if that is another one, and if there is no verdict yet."""
        self.doubt(recording)
        if self.is_told("no"):
            return
        translation = Translation(recording, "--may-forget" in self.given)
        if not (translation.frames or translation.counts) or not translation.is_whole():
            return
        self.ask_of(translation.pieces, bool(recording.marks), translation)

    def ask_of(self, pieces: Callable[[Iterable[bytes]], Iterable[bytes]], has_marks: bool,
               translation: Translation | None = None) -> asking.Answer | None:
        """Asks about these bytes, which have an items file in their midst, and keeps a verdict, which is raised if it is an
        order. Gives the program's answer."""
        self.screen.show("asking the proved program")
        answer = self.answered(pieces)
        if answer is None or answer.word == "yes" and not answer.commands() and not self.is_between:
            return None
        # it takes marks into account, so that only its `yes` holds also without them
        if answer.word == "yes" or self.given.get("--times") != NONE or not has_marks:
            known = answer.word != "unknown"
            self.answer = answer.renumbered(translation) if translation else answer
            self.translation, self.checked = translation if known else None, answer.line if known else ""
            if answer.word == "yes":
                raise Explained
        return answer

    def answered(self, pieces: Callable[[Iterable[bytes]], Iterable[bytes]]) -> asking.Answer | None:
        """The program's answer to these bytes. After a `yes` the items that are left are in their file."""
        given = self.given
        words = [word for word in ("--warm", "--may-forget", "--from", "--to") if word in given]
        words += ["--shards", str(given.get("--shards", 16))]
        seconds = given.get("--seconds", SECONDS)
        text = pieces(pieces_of(given["--from"]) if "--from" in given else ())
        if "--to" not in given:
            return asking.ask(ZYGOS, words, text, seconds)
        with Beside(given["--to"], "--over" in given) as left:
            answer = asking.ask(ZYGOS, words, text, seconds, left.write)
            if answer is None or answer.word != "yes":
                left.take_back()
            return answer

    def doubt(self, recording: Recording) -> None:
        """Passes over a `no` of the program, if a right server may have given these answers."""
        if self.answer and self.is_told("no") and is_doubtful(recording, self.answer, "--may-forget" in self.given):
            self.answer, self.checked, self.translation = self.answer.passed_over(), "", None

    def is_told(self, word: str) -> bool:
        """Whether the proved program gave this verdict."""
        return self.answer is not None and self.answer.word == word

    def refuted(self) -> No:
        """The `no` of the proved program, for which the search has no commands."""
        assert self.answer
        return self.answer.fault(self.judge.recording if self.judge else self.read)

    def headed(self, fault: Verdict) -> list[str]:
        """What is said of the first fault: whether a `no` is proved."""
        line, *more = fault.told()
        if fault.word == "no" and self.answer:
            line = f"proved no{' of the recording as it is translated' if self.translation else ''}: {fault.why}"
        return [line, *more]

    def say_translated(self) -> None:
        """Says what the proved program was given in place of what was recorded."""
        if self.translation:
            self.say(f"translated: {counts_in(self.translation.counts)}")

    def say_items(self) -> None:
        """Says between which items the order leads."""
        some = [f"{word} {self.given[option]}" for option, word in (("--from", "from the items of"),
                                                                    ("--to", "to the items of")) if option in self.given]
        if some:
            self.say(" ".join(some))

    # ---- what is found

    def choice(self) -> str:
        """The patterns of keys, to be printed."""
        keys, but = self.given.get("--keys"), self.given.get("--except-keys")
        some = [f"matches {keys}"] * bool(keys) + [f"is left by --except-keys {but}"] * bool(but)
        return " and ".join(some)

    # ---- what is said

    def counts(self, faults: list[Verdict]) -> dict[str, int]:
        """How many keys have an order, have none, or are unknown, as those are that were not searched."""
        no = {key for fault in faults if isinstance(fault, No) for key in fault.keys}
        unknown = {key for fault in faults if isinstance(fault, Unknown) for key in fault.keys} - no
        total = len(self.judge.keys.names) if self.judge and hasattr(self.judge, "keys") else 0
        done = len(self.judge.keys.found.keys() - no - unknown) if total and self.judge else 0
        return {"keys": total, "ordered": done, "without": len(no), "unknown": max(0, total - done - len(no))}

    def refuse(self, faults: list[Verdict]) -> None:
        """Prints a no or an unknown."""
        for line in self.headed(faults[0]):
            self.say(line)
        counts = self.counts(faults)
        if counts["keys"] and "--first" not in self.given and (len(faults) > 1 or counts["keys"] > 1):
            self.say(f"{counted(counts['keys'], 'key')}: {counts['ordered']:,} with an order,"
                     f" {counts['without']:,} without, {counts['unknown']:,} unknown")
        for fault in faults[:MOST_FAULTS] if len(faults) > 1 else ():
            self.say(fault.brief())
        if len(faults) > MOST_FAULTS:
            self.say(f"  and {len(faults) - MOST_FAULTS:,} more")
        self.say_left_out()
        self.say_translated()
        if faults[0].word == "no" and self.judge and self.judge.kind == SEGMENTS:
            self.say(NOT_USED if self.judge.recording.marks else NO_ENDS)

    def say_left_out(self) -> None:
        """Says which commands are left out by the words."""
        left = self.judge.recording.notes["commands on keys left out"] if self.judge else 0
        if left:
            self.say(f"commands on keys left out: {left:,}")

    def lines(self, judge: Judge) -> Iterator[str]:
        """What is said of an order that was found."""
        commands = len(judge.table.verb)
        yield f"order found, by search: {commands} commands, {len(judge.order)} calls, {len(judge.keys.names)} keys"
        found = self.certificate.counts if self.certificate else judge.recording.notes
        counts = counts_in(found)
        yield f"translated: {counts}" if counts else "nothing is translated"
        if judge.kind == SEGMENTS:
            yield NOT_USED if judge.recording.marks else NO_ENDS
        elif judge.kind == NONE:
            yield "nothing is taken to be known of times"
        if not judge.is_closed:
            yield NOT_CLOSED

    def accept(self) -> bool:
        """Writes the files of an order, and asks the checker. Gives whether that does not refuse it."""
        assert self.judge
        for line in self.lines(self.judge):
            self.say(line)
        if "--order" in self.given:
            self.write_order(self.judge)
        if self.certificate and not self.at_terminal:
            self.write(self.certificate)
        if self.at_terminal:
            self.say(NOT_CERTIFIED)
        if self.checked.startswith("no"):
            self.say(f"unknown: {REFUSED}")
            return False
        return True

    def write(self, certificate: Certificate) -> None:
        """Writes the files where they are wanted, and has them checked."""
        if self.to_output:
            sys.stdout.buffer.writelines(certificate.pieces())
        if "--out" in self.given:
            with Beside(self.given["--out"], "--over" in self.given) as out:
                out.write(certificate.pieces())
        if "--check" not in self.given:
            return
        if "--out" in self.given:
            with open(self.given["--out"], "rb") as file:
                self.check(file)
            return
        with tempfile.TemporaryFile() as made:
            made.writelines(certificate.pieces())
            made.seek(0)
            self.check(made)

    def write_order(self, judge: Judge) -> None:
        """Writes the order of the commands."""
        counts = {connection: len(asked) for connection, asked in enumerate(judge.recording.of_connection)}
        with Beside(self.given["--order"], "--over" in self.given) as file:
            file.write(order_text(connections_of(list(judge.places()), counts), self.recording))

    def check(self, file: IO[bytes]) -> None:
        """Runs a proved checker on the files. Where it has no verdict, its status is that of the tool."""
        assert self.judge
        words = ["linear" if self.judge.kind == ENDS else "check", "--shards", str(self.given.get("--shards", 16))]
        sys.stdout.flush()
        ran = subprocess.run([ZYGOS, *words], stdin=file, check=False, stdout=subprocess.PIPE)
        self.checked = ran.stdout.decode("ascii", "replace").strip()
        if self.checked:
            self.say(self.checked)
        if not self.checked.startswith(("yes", "no")):
            ends.end(ran.returncode if ran.returncode > 1 else ends.UNFORESEEN)

    def print_json(self, word: str, faults: list[Verdict]) -> None:
        """Prints the verdict and the counts as one line."""
        judge, is_proved = self.judge, self.is_told("yes") or self.is_told("no")
        found = self.certificate.counts if self.certificate else judge.recording.notes if judge else Counter[str]()
        found = self.translation.counts if self.translation else found
        counts: dict[str, int | None] = {"commands": len(judge.table.verb) if judge else 0,
                                         "calls": len(judge.table.kind) if judge else 0, **self.counts(faults)}
        if self.answer and self.is_told("yes"):
            # it prints no others
            counts.update(commands=self.answer.commands(), calls=None, keys=None, ordered=None)
            counts.update({"ended": self.answer.ended()} if self.is_between else {})
        line = {"verdict": word, "proved": is_proved, **counts,
                "translated": {name: count for name, count in sorted(found.items()) if count},
                "checked": self.checked or None, **({"answered": self.answer is not None, "needed": texts_of(self.needed)} if self.is_between else {}),
                "faults": [{"verdict": fault.word, "keys": [shown(key) for key in fault.keys], "why": fault.why,
                            "connections": fault.connections, "record": fault.record}
                           for fault in faults[:MOST_FAULTS]],
                "seconds": round(time.monotonic() - self.begun, 1)}
        print(json.dumps(line))

    def make_sure(self) -> None:
        """Sees that the items can be read, and that the files can be written."""
        if "--from" in self.given:
            os.close(os.open(self.given["--from"], os.O_RDONLY))
        written = [self.given[option] for option in ("--out", "--order", "--to") if option in self.given]
        self.is_read = True
        told_apart(written, [*self.names, *([self.given["--from"]] if "--from" in self.given else ())])
        for name in () if "--over" in self.given else written:
            refuse_full(name)
        self.is_read = False

    def status_of(self, fault: Exception) -> int:
        """The status after what prevents a verdict."""
        return READING if isinstance(fault, OSError) and not self.is_read else ends.status_of(fault)

    def say_fault(self, fault: Exception) -> None:
        """Says what prevents a verdict."""
        lines = ends.told(fault)
        if not self.is_json:
            for line in lines:
                self.screen.say(line)
            return
        self.screen.clear()
        why = "; ".join(lines)
        print(json.dumps({"verdict": "fault", "fault": why, "seconds": round(time.monotonic() - self.begun, 1)}))


def line_of(names: list[str], given: dict[str, Any]) -> str:
    """The line of --json about a recording."""
    gc.disable()  # what is read stays to the end
    said = io.StringIO()
    judging = Judging(names, {**given, "--json": True, "--processes": 1})
    with contextlib.redirect_stdout(said):
        try:
            judging.run()
        except (Fault, OSError, MemoryError, ends.Stop) as fault:
            judging.say_fault(fault)
        except ends.End:
            return json.dumps({"verdict": "fault", "fault": NO_CHECKER})
    return said.getvalue()


def judge_windows(given: dict[str, Any], names: list[str]) -> int:
    """Judges the windows of a folder. Gives the status."""
    alone = [option for option in windows.ALONE if option in given]
    if names or alone:
        ends.stop(f"--windows FOLDER takes no {alone[0] if alone else 'other files'}; --help has the options", 2)
    return windows.Judging(given, line_of, ZYGOS).run()


def refuse_between(given: dict[str, Any]) -> None:
    """Refuses words that do not fit items that are known."""
    if "--warm" in given:
        ends.stop("--warm says that there were any items, and --from and --to are for those that are known", 2)
    other = next((option for option in SEARCHING if option in given), None)
    other = other or ("--times segments" if given.get("--times") == SEGMENTS else None)
    if other:
        ends.stop(f"only the proved program takes items, and nothing is searched: --from and --to take no {other}", 2)


def main(words: list[str]) -> None:
    """Judges a recording, or its windows."""
    ends.tell_failures_apart()
    given, names = ends.options(words, OPTIONS)
    if "--windows" in given:
        ends.end(judge_windows(given, names))
    if {"--from", "--to"} & set(given):
        refuse_between(given)
    if len(names) != 2 or names.count("-") > 1:
        ends.stop("judge takes [options] CAPTURE REPLIES; --help has the options", 2)
    gc.disable()  # what is read stays to the end
    judging = Judging(names, given)
    try:
        judging.make_sure()
        status = judging.run()
    except (Fault, OSError, MemoryError) as fault:
        judging.say_fault(fault)
        status = judging.status_of(fault)
    ends.end(status)
