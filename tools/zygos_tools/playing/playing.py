"""Plays a capture to a server: one loop over its sockets, one for each session that sends something.

A script is a sequence of steps: a connection sends a segment, or its session ends. With one script for each connection
they go on side by side; with one script for all of them they go in the order of the capture. After a segment a script
waits until all commands that its connection has sent are answered, and after a session until the server closed it too.
"""
from __future__ import annotations

import collections
from collections.abc import Callable, Iterable, Iterator
import errno
import functools
import os
import selectors
import socket
import time
from typing import Any, NamedTuple

from zygos_tools.cli.screen import Screen
from zygos_tools.files.formats import MOST_SEGMENT
from zygos_tools.files.growing import Growing
from zygos_tools.playing.players import READ, WRITE, Player, Times
from zygos_tools.protocol.uniques import AsTheyAre, SessionUniques
from zygos_tools.recording.places import beginning

# how many connections are begun at a time, seconds between looks at what waits, and how many faults are printed
MOST_BEGUN, LOOK, MOST_LINES = 64, 0.05, 20


class Step(NamedTuple):
    """A connection sends a segment, which is not empty; or, without a text, its session ends, for another one if
    `is_close`."""

    connection: int
    text: bytes | None
    is_close: bool


class Script:
    """Steps to be carried out, and the session that is waited for."""

    def __init__(self, steps: Iterator[Step]) -> None:
        self.steps = steps
        self.waits_for: Player | None = None
        self.closing: int | None = None

    def is_ready(self) -> bool:
        return self.waits_for is None or self.waits_for.is_ready()


class Play:
    """The loop: scripts are carried out, and what comes back is kept in a spool. `uniques` gives what translates the
    uniques of a connection's session."""

    def __init__(self, scripts: Iterable[Script], options: dict[str, Any], spool: Growing, screen: Screen,
                 uniques: Callable[[int, int], AsTheyAre | SessionUniques]) -> None:
        self.uniques, self.is_interrupted = uniques, False
        self.sessions: collections.Counter[int] = collections.Counter()
        self.queue, self.players = collections.deque(scripts), dict[int, Player]()
        self.running, self.active = set[Script](), set[Player]()
        self.server, self.addresses = options["--server"].name, options["--server"].addresses()
        self.most, self.wait = options["--connections"], options["--wait"]
        self.spool, self.screen = spool, screen
        self.selector, self.begun = selectors.DefaultSelector(), 0
        self.later: list[Callable[[], None]] = []
        self.times, self.connected, self.missing, self.late, self.faults, self.closed = Times(), 0, 0, 0, 0, 0
        self.now = self.last = time.perf_counter()

    # ---- scripts

    def go(self, script: Script) -> None:
        """Carries out the steps of a script, up to one that must wait."""
        while script in self.running and script.is_ready():
            if script.closing is not None:
                self.spool.close(script.closing)
                self.sessions[script.closing] += 1
                script.closing = None
            step = next(script.steps, None)
            if step is None:
                self.running.discard(script)
                return
            if step.text is None:
                self.end_session(script, step)
            elif step.text:
                script.waits_for = player = self.players.get(step.connection) or self.begin(step.connection, script)
                player.ask(step.text, time.perf_counter())
                self.push(player)

    def end_session(self, script: Script, step: Step) -> None:
        script.waits_for = player = self.players.pop(step.connection, None)
        if step.is_close:
            script.closing = step.connection
        if player and not player.is_over:
            player.finish()
            self.push(player)

    # ---- sessions

    def begin(self, connection: int, script: Script) -> Player:
        """A new session."""
        uniques = self.uniques(connection, self.sessions[connection])
        player = self.players[connection] = Player(connection, script, self.addresses, uniques)
        player.handler = functools.partial(self.handle, player)
        self.active.add(player)
        self.begun += 1
        self.dial(player)
        return player

    def dial(self, player: Player, fault: int = 0) -> None:
        """Connects the next address of the server."""
        while player.left:
            try:
                player.socket, fault = beginning(*player.left[0])
            except OSError as error:
                fault = error.errno or 0
                break
            if fault in (0, errno.EINPROGRESS):
                self.watch(player)
                return
            player.socket.close()
            if fault == errno.EAGAIN:  # many wait at a Unix socket
                self.later.append(functools.partial(self.dial, player))
                return
            player.left.pop(0)
        if not self.connected:
            raise OSError(fault, f"{os.strerror(fault)}: start the server, or give another --server", self.server)
        self.begun -= 1
        self.over(player, os.strerror(fault))

    def dialed(self, player: Player) -> None:
        """A connection is there, or has failed."""
        assert player.socket
        fault = player.socket.getsockopt(socket.SOL_SOCKET, socket.SO_ERROR)
        if not fault:
            player.is_connected = True
            self.begun -= 1
            self.connected += 1
            return
        self.unwatch(player)
        player.socket.close()
        player.left.pop(0)
        self.dial(player, fault)

    def over(self, player: Player, fault: str | None = None) -> None:
        """A session is over; the fault is why it is too early."""
        if player.is_over:
            return
        if player.socket is not None:
            self.unwatch(player)
            player.socket.close()
        player.is_over, player.waiting = True, memoryview(b"")
        self.active.discard(player)
        self.missing += player.pending.clear()
        if fault is None and not player.is_ending and not player.commands.has_quit:
            fault = "closed by the server"
            self.closed += 1
        if fault is not None:
            self.tell(f"connection {player.number}: {fault}")

    def tell(self, line: str) -> None:
        """Prints a fault, if few were printed."""
        self.faults += 1
        if self.faults <= MOST_LINES:
            self.screen.say(line)

    # ---- sockets

    def watch(self, player: Player) -> None:
        assert player.socket
        player.mask = player.wanted()
        self.selector.register(player.socket, player.mask, player.handler)

    def unwatch(self, player: Player) -> None:
        if player.mask and player.socket:
            self.selector.unregister(player.socket)
            player.mask = 0

    def push(self, player: Player) -> None:
        """Sends at once what can be sent."""
        if player.is_connected:
            player.send()
            self.update(player)

    def update(self, player: Player) -> None:
        if player.socket and player.mask and player.mask != player.wanted():
            player.mask = player.wanted()
            self.selector.modify(player.socket, player.mask, player.handler)

    def handle(self, player: Player, events: int) -> None:
        """Does what a socket is ready for, and then the next steps."""
        if player.is_over:
            return
        if not player.is_connected:
            self.dialed(player)
        if player.is_connected and events & WRITE:
            player.send()
        if player.is_connected and events & READ:
            self.read(player)
        self.update(player)
        self.go(player.script)

    def read(self, player: Player) -> None:
        assert player.socket
        try:
            text = player.socket.recv(MOST_SEGMENT)
        except BlockingIOError:
            return
        except OSError:
            text = b""
        if not text:
            self.over(player)
            return
        self.spool.segment(player.number, text)
        now = time.perf_counter()
        player.hear(text, lambda sent: self.times.note(now - sent))

    # ---- the loop

    def run(self) -> None:
        second = self.now
        while (self.queue or self.running) and not self.is_interrupted:
            while self.queue and self.begun < MOST_BEGUN and len(self.running) < self.most:
                script = self.queue.popleft()
                self.running.add(script)
                self.go(script)
            events = self.selector.select(LOOK) if self.running else []
            for key, mask in events:
                key.data(mask)
            self.now = time.perf_counter()
            later, self.later = self.later, []
            for one in later:
                one()
            if events:
                self.last = self.now
            elif self.now > self.last + self.wait:
                self.release()
            if self.now > second:
                second = self.now + 1
                self.screen.show(f"{len(self.active)} connections open; {self.times.count} commands answered")
        self.missing += sum(player.pending.clear() for player in self.active)

    def interrupt(self, *_: object) -> None:
        """Ends soon, with what has come so far."""
        self.is_interrupted = True

    def release(self) -> None:
        """Nothing came for long: all go on without the answers that they wait for."""
        self.last = self.now
        for player in list(self.active):
            count = player.pending.clear()
            self.missing, self.late = self.missing + count, self.late + count
            if player.is_connected and (player.waiting or player.is_ending):
                self.over(player, f"nothing was taken for {self.wait} seconds" if player.waiting else None)
        for script in list(self.running):
            self.go(script)
