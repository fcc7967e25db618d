"""Asks the proved program `judge` about the bytes of a recording, before anything is searched: as they were recorded,
and if it does not know some command, as they are translated.

Nothing is proved or built for this. If the program is not there, is stopped or ends without a verdict, nothing is said,
and the search goes on as if there were no such program.
"""
from __future__ import annotations

import functools
import itertools
import os
import re
import subprocess
import tempfile
from collections.abc import Callable, Iterable
from typing import IO, NamedTuple

from zygos_tools.files.formats import ITEMS_START, Segment, capture_head, capture_records, shown
from zygos_tools.files.part import PIECE, Part
from zygos_tools.judging.events import Asked, No
from zygos_tools.judging.reading import Recording
from zygos_tools.judging.translating import Translation
from zygos_tools.repository import TOP

# the lines of the program, and the status that each has
LINES = {0: re.compile(r"yes commands (?P<commands>\d+) ended (?P<ended>\d+)"),
         1: re.compile(r"no (?P<rule>early-end) record (?P<record>\d+)"
                       r"|no (?P<of_session>surplus) connection (?P<connection>\d+) session (?P<session>\d+)"
                       r"|no (?P<of_command>kind|unmet|shared) connection (?P<where>\d+) command (?P<command>\d+)"
                       r"(?: part (?P<part>\d+))?"),
         7: re.compile(r"unknown (?P<what>other|search) connection (?P<where>\d+) command (?P<command>\d+)")}
# what each rule says of a command
RULES = {"kind": "what was answered is no answer to it",
         "unmet": "no command can have made in time what it was answered",
         "shared": "fewer commands can have made in time what it and others were answered than these took away"}

# how many bytes its line has, at most
MOST_LINE = 4096


def has_marks(capture: bytes) -> bool:
    """Whether a capture has ends of answers."""
    part = Part("capture", capture)
    return any(isinstance(one, Segment) and not one.text for one in capture_records(part, *capture_head(part)))


def has_records(capture: bytes) -> bool:
    """Whether a capture has records."""
    part = Part("capture", capture)
    return next(iter(capture_records(part, *capture_head(part))), None) is not None


class Answer(NamedTuple):
    """What the program said: its line, what this says, and whether the line is `yes`, `no` or `unknown`."""

    line: str
    found: re.Match[str]

    @property
    def word(self) -> str:
        return self.line.split()[0]

    def renumbered(self, translation: Translation) -> Answer:
        """The same about the recording of a translation: commands and records have the numbers that they have there."""
        line = self.line
        if self.word != "no":
            return self
        if self.found["rule"]:
            record = int(self.found["record"])
            line = line.replace(f"record {record}", f"record {translation.record(record)}")
        elif self.found["of_command"]:
            where, command = int(self.found["where"]), int(self.found["command"])
            line = line.replace(f"command {command}", f"command {translation.command(where, command)}")
        found = self.found.re.fullmatch(line)
        return Answer(line, found) if found else self

    def passed_over(self) -> Answer:
        """What is left of a `no` that is passed over."""
        return self._replace(line="unknown")

    def commands(self) -> int:
        """How many commands an order has that was found."""
        return int(self.found["commands"])

    def ended(self) -> int:
        """How many of these have a recorded end."""
        return int(self.found["ended"])

    def keys(self, recording: Recording) -> list[bytes]:
        """The key that a `no` is about, if it is about one, or the keys of the command that an `unknown` names."""
        found = self.found.groupdict()
        if "what" in found:
            return self.keys_of_unknown(recording)
        if not found.get("of_command") or found["of_command"] == "kind":
            return []
        table, asked = recording.table, recording.of_connection[int(self.found["where"])]
        command = int(self.found["command"])
        calls = table.calls_of(asked[command]) if command < len(asked) else []
        keys = [table.key[call] for call in calls][int(self.found["part"] or 0) :]
        return [table.keys[key] for key in keys[:1] if key >= 0]

    def keys_of_unknown(self, recording: Recording) -> list[bytes]:
        """The keys of the command that an `unknown` names."""
        table, asked = recording.table, recording.of_connection[int(self.found["where"])]
        command = int(self.found["command"])
        calls = table.calls_of(asked[command]) if command < len(asked) else []
        return list(dict.fromkeys(table.keys[table.key[call]] for call in calls if table.key[call] >= 0))

    def fault(self, recording: Recording | None) -> No:
        """A `no` of the program in words, with the command if it is found in what was read."""
        if self.found["rule"]:
            record = int(self.found["record"])
            return No(f"early end, record {record}: it ends an answer before one of its session can have been complete",
                      record=record)
        if self.found["of_session"]:
            connection = int(self.found["connection"])
            return No(f"surplus, connection {connection}, session {self.found['session']}: more was answered than was asked",
                      connections=[connection])
        rule, connection, command = self.found["of_command"], int(self.found["where"]), int(self.found["command"])
        why = f"{rule}, connection {connection}, command {command}"
        if not recording or command >= len(recording.of_connection[connection]):
            return No(f"{why}: {RULES[rule]}", connections=[connection])
        table, number = recording.table, recording.of_connection[connection][command]
        named = self.keys(recording)
        why += "".join(f", key {shown(key)}" for key in named)
        return No(f"{why}: {RULES[rule]}", Asked(table, number), keys=named)


def is_there(zygos: str) -> bool:
    """Whether the program can be run at once, by this script. A checkout has it if it was built, or assembles it."""
    top = os.path.dirname(os.path.realpath(zygos))
    if top != TOP or not os.path.exists(os.path.join(TOP, "crates.txt")):
        return True
    ran = subprocess.run([os.path.join(TOP, "tools", "build"), "judge", "--take"], check=False, stdin=subprocess.DEVNULL,
                         stdout=subprocess.DEVNULL, stderr=subprocess.DEVNULL)
    return ran.returncode == 0


def ask(zygos: str, words: list[str], pieces: Iterable[bytes], seconds: float,
        keep: Callable[[Iterable[bytes]], object] | None = None) -> Answer | None:
    """The program's answer to a capture and a replies file, one after the other, and with `--from` an items file between
    them; None if there is none in time. After a `yes` with `--to`, `keep` is given the items file that it writes."""
    said = run(zygos, words, pieces, seconds)
    if said is None:
        return None
    with said[1] as text:
        answer = read_answer(said[0], text.readline(MOST_LINE))
        if answer and answer.word == "yes" and keep:
            head = text.read(len(ITEMS_START))
            if head != ITEMS_START:
                return None
            keep(itertools.chain([head], iter(functools.partial(text.read, PIECE), b"")))
        return None if text.read(1) else answer


def run(zygos: str, words: list[str], pieces: Iterable[bytes], seconds: float) -> tuple[int, IO[bytes]] | None:
    """The status of the program and what it writes; None if it cannot be run, or does not end in time."""
    environment = {name: value for name, value in os.environ.items() if name != "ZYGOS_ADVICE"}
    try:
        if not is_there(zygos):
            return None
        said = tempfile.TemporaryFile()
        with tempfile.TemporaryFile() as given:
            given.writelines(pieces)
            given.seek(0)
            ran = subprocess.run([zygos, "judge", *words], stdin=given, stdout=said, stderr=subprocess.DEVNULL,
                                 check=False, timeout=seconds, env=environment)
    except (OSError, subprocess.TimeoutExpired):
        return None
    said.seek(0)
    return ran.returncode, said


def read_answer(status: int, text: bytes) -> Answer | None:
    """What a line of the program says, if it is one that it ends with this status."""
    found = LINES[status].fullmatch(text.decode("ascii", "replace").removesuffix("\n")) if status in LINES else None
    return Answer(found[0], found) if found else None
