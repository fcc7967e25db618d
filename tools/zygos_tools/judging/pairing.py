"""Gives each command of a recording its answer, and what the answer says of the replies to its calls.

An answer that no run gives is refused, or is unknown where what was sent has a meaning of its own on a memcached.
"""
from __future__ import annotations

import re
from array import array
from collections.abc import Callable, Iterable
from typing import NamedTuple

from zygos_tools.files.formats import Output
from zygos_tools.judging.events import No, Unknown, Verdict, first_line
from zygos_tools.judging.reading import Odd, Recording, advice_on, may_concern, sessions_of
from zygos_tools.judging.table import ANSWERED, DROPPED, LOST, QUIET, V_FAULT, V_MD, V_MG, V_MS, Table
from zygos_tools.protocol.answers import FAULT, answer_end, is_whole
from zygos_tools.protocol.fits import SHORT, is_answered
from zygos_tools.protocol.meaning import Command, line_of

# which answers of a meta command with the flag `q` are not hidden, by its call
NOT_HIDDEN = {"get": (b"HD", b"VA"), "set": (), "cas": (b"EX", b"NF"), "delete": (b"NF",)}
STORING = (b"NS",)
ONE_RECORDING = "are both files of one recording?"
# what memcached says to a connection that it closes before it reads anything, and to one without an authentication
REFUSED = re.compile(rb"ERROR Too many open connections\r\n")
UNKNOWN = re.compile(rb"(CLIENT_ERROR (unauthenticated|authentication failure)\r\n)+")
LATE = "the server asks for an authentication first (-Y), and may have read what came before it otherwise"


def several(text: bytes, at: int, most: int) -> list[bytes]:
    """The answers of an output from a place on, as many as are wanted."""
    found: list[bytes] = []
    while at < len(text) and len(found) < most:
        begin, at = at, answer_end(text, at)
        found.append(text[begin:at])
    return found


class Unfollowed(NamedTuple):
    """What is said of a session that cannot be followed, and its commands of which nothing is known."""

    verdict: Verdict
    commands: list[int]

    def concerns(self, table: Table, is_chosen: Callable[[bytes], bool]) -> bool:
        """Whether one of these commands may have read or changed an item of a key that is chosen."""
        return isinstance(self.verdict, No) or any(may_concern(table, one, is_chosen) for one in self.commands)


def pair(recording: Recording, outputs: Iterable[Output]) -> list[Unfollowed]:
    """Gives each command its answer. Gives the sessions that cannot be followed."""
    faults: list[Unfollowed] = []
    texts = {(one.connection, one.session): one.text for one in outputs}
    recording.table.outputs = texts
    met = set()
    for key, asked in sessions_of(recording):
        pairing = Pairing(recording, asked, texts.setdefault(key, b""), key)
        try:
            pairing.pair()
        except Verdict as verdict:
            table, left = recording.table, asked[pairing.followed :]
            lost = [one for one in left if not table.state[one] & DROPPED]
            if isinstance(verdict, Unknown):
                verdict.why += advice_on(table, lost, "its keys")
            faults.append(Unfollowed(verdict, lost))
            recording.lose(left)
            recording.surplus.add(key)
        recording.look_at_clock()
        met.add(key)
    surplus = [key for key in texts if key not in met and texts[key]]
    if surplus:
        connection, session = min(surplus)
        raise Unknown(f"the replies have an output of connection {connection}, session {session}, and the capture"
                      f" hasn't; {ONE_RECORDING}")
    return faults


class Pairing:
    """The commands of a session, and its answers. If the session cannot be followed to its end, it is up to the command
    `followed`."""

    def __init__(self, recording: Recording, asked: array[int], text: bytes, key: tuple[int, int]):
        self.recording, self.table, self.asked, self.text, self.key = recording, recording.table, asked, text, key
        self.met: set[tuple[bytes, bytes]] = set()
        self.at = self.followed = 0

    def pair(self) -> None:
        """Gives the commands the answers, one after the other."""
        if self.asked and (found := REFUSED.match(self.text) or UNKNOWN.match(self.text)):
            if found.end() == len(self.text):
                self.refuse("connections without an authentication" if found.re is UNKNOWN else "refused connections")
                return
            self.recording.odd.setdefault(self.key, Odd(LATE, self.table.number[self.asked[0]]))
        table, text, at, count = self.table, self.text, 0, 0
        states, verbs, answer_at, answer_size = table.state, table.verb, table.answer_at, table.answer_size
        size = end = len(text)
        for number, one in enumerate(self.asked):
            if states[one] & QUIET:
                continue
            if verbs[one] in (V_MG, V_MS, V_MD, V_FAULT):
                self.at = at
                if not self.met:
                    self.followed = number
                if not self.is_answered(number, one):
                    continue
            elif self.met:
                self.met.clear()
            if at >= end:
                states[one] |= LOST
                continue
            begin, at = at, answer_end(text, at)
            if at == size and self.is_cut_off(begin):
                states[one] |= LOST
                at = end = begin
                continue
            answer_at[one], answer_size[one] = begin, at - begin
            states[one] |= ANSWERED
            count += 1
        if at < end and not (answer_end(text, at) == size and self.is_cut_off(at)):
            self.refuse_rest(count, at)

    def refuse(self, whose: str) -> None:
        """The server served nothing on this connection."""
        for one in self.asked:
            self.table.state[one] |= DROPPED
        self.recording.notes[f"commands of {whose} left out"] += len(self.asked)
        self.recording.surplus.add(self.key)

    def is_cut_off(self, begin: int) -> bool:
        """Whether the last answer, which begins there, is cut off."""
        if is_whole(self.text[begin:]):
            return False
        self.recording.notes["bytes of an answer that is cut off"] += len(self.text) - begin
        return True

    def refuse_rest(self, count: int, at: int) -> None:
        """Answers are left; an error line alone may be to no command."""
        recording, first = self.recording, self.table.number[self.asked[0]] if self.asked else 0
        if FAULT.match(self.text, at) and answer_end(self.text, at) == len(self.text):
            recording.notes["error lines to no command"] += 1
            recording.surplus.add(self.key)
            return
        why = (f"connection {self.key[0]}, session {self.key[1]}: answer {count} is to no command: "
               f"{first_line(self.text[at : at + 200])}")
        self.followed = len(self.asked)
        if self.key in recording.odd:
            odd = recording.odd[self.key]
            self.followed = max(0, odd.since - first)
            raise Unknown(f"{why}; {odd.why}", connections=[self.key[0]])
        if self.key in recording.outside:
            self.followed = recording.outside[self.key] - first
            raise Unknown(f"{why}; a line before it is one that the profile leaves out", connections=[self.key[0]])
        raise No(f"{why}; {ONE_RECORDING}", connections=[self.key[0]])

    def is_answered(self, number: int, one: int) -> bool:
        """Whether the next answer is that of a meta command or of a faulty line."""
        table, text = self.table, self.text
        if table.verb[one] == V_FAULT:
            if self.is_silent(number, one):
                table.state[one] |= DROPPED
                self.recording.notes["faulty line left out"] += 1
                self.recording.doubt(one, False)
                return False
            if self.at < len(text):
                self.recording.outside.setdefault(self.key, table.number[one])
            self.met.clear()
            return True
        command = table.meaning(one)
        if "q" not in command.letters:
            self.met.clear()
            return True
        return is_shown(self.recording, one, command, b"".join(several(text, self.at, 1)), self.met)

    def is_silent(self, number: int, one: int) -> bool:
        """Whether a faulty line has noreply and no answer."""
        table = self.table
        if not line_of(table.original(one)).rstrip().endswith(b" noreply"):
            return False
        lines = [line_of(table.original(other)) for other in self.asked[number : number + 2 * SHORT]
                 if not table.state[other] & QUIET]
        texts = several(self.text, self.at, SHORT)
        return not is_answered(lines[: len(texts)], texts)


def is_shown(recording: Recording, one: int, command: Command, answer: bytes, met: set[tuple[bytes, bytes]]) -> bool:
    """Whether an answer is that of a command with the flag `q`. It must have the flag `k` too, and no other such
    command of this key may have an answer of this kind before the next command that is surely answered."""
    key = command.keys[0]
    if "k" not in command.letters:
        raise Unknown("a command with the flag q and without k: whether it was answered is not known",
                      recording.table.asked(one))
    codes = NOT_HIDDEN.get(command.call or "", STORING)
    for code in codes:
        if (key, code) in met:
            raise Unknown("a key twice with the flag q: which of the commands was answered is not known",
                          recording.table.asked(one))
        met.add((key, code))
    words = answer.split(b"\n", 1)[0].split()
    return words[:1] != [] and words[0] in codes and b"k" + key in words[1:]
