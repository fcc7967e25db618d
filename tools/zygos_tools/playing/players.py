"""A session that is played to a server, and the times that its answers took."""
from __future__ import annotations

import collections
from collections.abc import Callable, Iterable
import math
import selectors
import socket
from typing import TYPE_CHECKING, NamedTuple

from zygos_tools.protocol.pace import NEVER, Answers, Command, Commands, Pending
from zygos_tools.protocol.uniques import AsTheyAre, SessionUniques, held_back
from zygos_tools.recording.places import Address

if TYPE_CHECKING:
    from zygos_tools.playing.playing import Script

READ, WRITE = selectors.EVENT_READ, selectors.EVENT_WRITE


class Sent(NamedTuple):
    """A command that was sent, its number in its session, and when."""

    command: Command
    number: int
    time: float


class Times:
    """Times, counted by their size, to some percent."""

    def __init__(self) -> None:
        self.count, self.most = 0, 0.0
        self.counts: collections.Counter[tuple[int, int]] = collections.Counter()

    def note(self, seconds: float) -> None:
        part, exponent = math.frexp(seconds)
        self.counts[exponent, int(part * 64)] += 1
        self.count += 1
        self.most = max(self.most, seconds)

    def within(self, share: float) -> float:
        """The time within which this share of all were."""
        wanted, found = share * self.count, 0
        for exponent, part in sorted(self.counts):
            found += self.counts[exponent, part]
            if found >= wanted:
                return min(self.most, math.ldexp((part + 1) / 64, exponent))
        return self.most


class Player:
    """A session that is played: what it sends, with the uniques of the server, and the answers that it waits for."""

    def __init__(self, number: int, script: Script, addresses: Iterable[Address],
                 uniques: AsTheyAre | SessionUniques) -> None:
        self.number, self.script, self.left = number, script, list(addresses)
        self.socket: socket.socket | None = None
        self.handler: Callable[[int], None] | None = None
        self.mask, self.waiting = 0, memoryview(b"")
        self.is_connected = self.is_ending = self.is_shut = self.is_over = False
        self.commands, self.answers, self.asked = Commands(), Answers(), 0
        self.pending: Pending[Sent] = Pending()
        self.uniques, self.held = uniques, b""

    def is_ready(self) -> bool:
        """Whether the next step can be carried out."""
        return self.is_over or not (self.waiting or self.pending.sure or self.is_ending)

    def ask(self, text: bytes, now: float) -> None:
        """Takes a segment to send, up to a `quit`."""
        if self.commands.has_quit or self.is_over:
            return
        end = len(text)
        for command in self.commands.feed(text):
            if command.answered != NEVER:
                sent = Sent(command, self.asked, now)
                self.pending.add(sent)
                self.uniques.sent(sent)
            self.asked += 1
            end = command.end if self.commands.has_quit else end
        whole = self.uniques.translated(self.held, text[:end], self.commands.naming)
        count = held_back(self.commands)
        self.held = whole[len(whole) - count :]
        self.waiting = memoryview(whole[: len(whole) - count])

    def finish(self) -> None:
        """Nothing more is asked: sends the rest, and then the end."""
        self.is_ending = True
        self.waiting, self.held = memoryview(bytes(self.waiting) + self.held), b""

    def send(self) -> None:
        """Sends what the server takes."""
        assert self.socket
        try:
            while self.waiting:
                self.waiting = self.waiting[self.socket.send(self.waiting) :]
            if self.is_ending and not self.is_shut:
                self.is_shut = True
                self.socket.shutdown(socket.SHUT_WR)
        except BlockingIOError:
            pass
        except OSError:
            self.waiting = memoryview(b"")  # what the server said before is still read

    def hear(self, text: bytes, note: Callable[[float], None]) -> None:
        """Takes bytes of the server; `note` gets the time of each command that they answer."""
        for answer in self.answers.feed(text):
            sent = self.pending.take(answer)
            if sent is not None:
                self.uniques.answered(sent, answer)
                note(sent.time)

    def wanted(self) -> int:
        return (READ if self.is_connected else 0) | (WRITE if self.waiting or not self.is_connected else 0)
