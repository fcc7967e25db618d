"""The first process of a recorder of several processes, or of one that records in windows.

It begins the others, which have the clients, and completes the files. A window ends at a quiet moment: all processes
hold their clients, and once no command is in flight in any of them, all go on with the next window. If this takes too
long, clients go on, and it is tried again.
"""
from __future__ import annotations

import json
import os
import selectors
import signal
import socket
import time
from collections.abc import Sequence
from typing import Any, NoReturn, Optional

from zygos_tools.cli import ends
from zygos_tools.cli.screen import Screen
from zygos_tools.recording.board import Board
from zygos_tools.recording.completing import Window, complete
from zygos_tools.recording.parts import part_name, remove_parts
from zygos_tools.recording.proxy import QUIET, Address
from zygos_tools.recording.windows import Due, Names
from zygos_tools.recording.worker import Parted, Worker

# seconds: for which clients are held at most at first, and later; until they are held again; between looks
HOLD, MOST_HOLD, AGAIN, LOOK = 0.1, 0.8, 1.0, 0.02
FAULT = 1


class Process:
    """A process with clients, and what it said last."""

    def __init__(self, at: int, orders: socket.socket, number: int) -> None:
        self.at, self.orders, self.number, self.text = at, orders, number, b""
        self.counts: dict[str, Any] = {}
        self.is_quiet = self.has_cut = self.is_done = False

    def order(self, line: str) -> None:
        try:
            self.orders.sendall(line.encode() + b"\n")
        except OSError:
            pass  # it has gone, as is seen when its socket is read

    def lines(self) -> Optional[list[dict[str, Any]]]:
        """What it says; None once it has gone."""
        try:
            text = self.orders.recv(1 << 16)
        except OSError:
            text = b""
        if not text:
            return None
        *lines, self.text = (self.text + text).split(b"\n")
        return [json.loads(line) for line in lines]


class Head:
    """The processes, the windows, and how it all ends; `most` is the number of connections after which it does."""

    def __init__(self, names: Names, due: Due, most: Optional[int], screen: Screen, count: int) -> None:
        self.names, self.due, self.most, self.screen, self.board = names, due, most, screen, Board(count)
        self.processes: list[Process] = []
        self.selector = selectors.DefaultSelector()
        self.window, self.attempt = 1, 0
        self.held: Optional[float] = None  # since when clients are held
        self.is_cutting = self.has_said = self.has_fault = False
        self.hold, self.next_try = HOLD, 0.0
        self.ending: Optional[float] = None
        self.commands = 0  # of the windows that have ended
        self.waiting: list[Window] = []  # windows to be completed
        self.child: Optional[int] = None  # the process that completes one

    # ---- processes

    def begin(self, rows: Sequence[Sequence[socket.socket]], server: str, addresses: list[Address], has_ends: bool) -> None:
        """Begins a process for each row of listening sockets."""
        every = {one for row in rows for one in row}
        for at, row in enumerate(rows):
            ours, orders = socket.socketpair()
            number = os.fork()
            if not number:
                for one in {ours, *every, *(process.orders for process in self.processes)} - set(row):
                    one.close()
                self.work(at, row, server, addresses, has_ends, orders)
            orders.close()
            self.processes.append(Process(at, ours, number))
            self.selector.register(ours, selectors.EVENT_READ, self.processes[-1])
        for one in every:
            one.close()
        for process in self.processes:
            if not process.lines():
                self.stop_all()

    def stop_all(self) -> NoReturn:
        """A process could not begin, and has said why: the others end, and nothing is left of them."""
        for process in self.processes:
            process.order("end")
            process.order("hurry")
            os.waitpid(process.number, 0)
        remove_parts(part_name(self.names.window(1)[1], process.at) for process in self.processes)
        ends.end(FAULT)

    def work(self, at: int, row: Sequence[socket.socket], server: str, addresses: list[Address], has_ends: bool,
             orders: socket.socket) -> NoReturn:
        """Records in this process until its end."""
        status = FAULT
        try:
            signal.set_wakeup_fd(-1)
            ends.handle_endings(signal.SIG_IGN)
            recording = Parted(self.names, at, self.board, self.screen.say, has_ends)
            worker = Worker(recording, server, addresses, self.screen, orders)
            worker.tell("begun")
            worker.listen(row)
            worker.screen = Silent()
            worker.run()
            recording.pass_marks()
            worker.tell("done", counts=recording.counts())
            status = 0
        except OSError as error:
            self.screen.say(f"{error.filename or 'process'}: {error.strerror}")
        except Exception as error:
            self.screen.say(ends.unforeseen(error))
        finally:
            os._exit(status)

    def alive(self) -> list[Process]:
        return [process for process in self.processes if not process.is_done]

    def hear(self, process: Process) -> None:
        """Takes what a process says."""
        lines = process.lines()
        if lines is None:
            self.selector.unregister(process.orders)
            os.waitpid(process.number, 0)
            if not process.is_done:
                process.is_done = self.has_fault = True
                self.screen.say(f"process {process.at} of the recorder has ended; its clients are cut off")
                self.end()
            return
        for line in lines:
            process.counts = line.get("counts", process.counts)
            if line["kind"] == "quiet":
                process.is_quiet |= line["number"] == self.attempt
            elif line["kind"] == "cut":
                process.has_cut = True
            elif line["kind"] == "done":
                process.is_done = True

    def order(self, line: str) -> None:
        for process in self.alive():
            process.order(line)

    # ---- windows

    def step(self) -> None:
        """Begins the next window if it is time, and no command is in flight."""
        now = time.monotonic()
        if self.is_cutting:
            if all(process.has_cut or process.is_done for process in self.processes):
                self.end_window()
        elif self.ending is not None:
            return
        elif self.held is not None:
            if all(process.is_quiet or process.is_done for process in self.processes):
                self.cut()
            elif now > self.held + self.hold:
                self.give_up()
        elif now >= self.next_try and self.due.is_due(self.board.sum("commands"), self.board.sum("size")):
            self.attempt, self.held = self.attempt + 1, now
            for process in self.processes:
                process.is_quiet = False
            self.order(f"hold {self.attempt}")

    def give_up(self) -> None:
        """Clients go on without a new window."""
        self.order("go")
        if not self.has_said:
            name = self.names.window(self.window)[0]
            self.screen.say(f"{name}: no quiet moment within {self.hold} seconds: it goes on until there is one")
        self.has_said, self.held = True, None
        self.hold, self.next_try = min(2 * self.hold, MOST_HOLD), time.monotonic() + AGAIN

    def cut(self) -> None:
        self.held, self.is_cutting = None, True
        self.board.begin_window(self.window + 1)
        for process in self.processes:
            process.has_cut = False
        self.order(f"cut {self.window + 1}")

    def end_window(self) -> None:
        """All processes are in the next window."""
        self.is_cutting = self.has_said = False
        self.hold, self.next_try = HOLD, 0.0
        self.add_window()
        self.due.begin_next(self.sum("commands"))
        self.window += 1

    def add_window(self) -> None:
        """All parts of the current window are written."""
        capture, replies = self.names.window(self.window)
        parts = [part_name(replies, process.at) for process in self.processes]
        commands = self.sum("commands") - self.commands
        self.commands += commands
        self.waiting.append(Window(capture, replies, parts, self.board.connections(self.window), commands,
                                   any(process.counts.get("has_sessions") for process in self.processes)))

    def complete_next(self) -> None:
        """Completes windows in a process of its own, one at a time."""
        if self.child is not None:
            number, status = os.waitpid(self.child, os.WNOHANG)
            if number:
                self.child, self.has_fault = None, self.has_fault or status != 0
        if self.child is None and self.waiting:
            window = self.waiting.pop(0)
            self.child = os.fork()
            if not self.child:
                signal.set_wakeup_fd(-1)
                ends.handle_endings(signal.SIG_IGN)
                os._exit(self.completed(window, Silent()))

    def completed(self, window: Window, screen: Screen) -> int:
        """Completes a window. Gives 0, or 1 after a fault."""
        try:
            complete(window, screen)
        except OSError as error:
            self.screen.say(f"{error.filename}: {error.strerror}: not all is written; --repair completes the files")
            return FAULT
        if self.names.has_windows:
            self.screen.say(f"{window.capture}: {window.commands} commands, {window.connections} connections")
        return 0

    # ---- until the end

    def run(self, woken: socket.socket) -> bool:
        """Records until the end, and completes the files. Gives whether all was recorded."""
        self.selector.register(woken, selectors.EVENT_READ, None)
        second = 0.0
        while self.alive():
            for key, _ in self.selector.select(LOOK if self.due.every else 5 * LOOK):
                if key.data is not None:
                    self.hear(key.data)
                else:
                    woken.recv(64)
                    self.signalled()
            if self.most is not None and self.board.sum("gone") >= self.most:
                self.end()
            self.step()
            self.complete_next()
            if time.monotonic() >= second:
                second = time.monotonic() + 1
                self.screen.show(self.status())
        self.screen.clear()
        return self.finish()

    def signalled(self) -> None:
        if self.ending is None:
            self.end()
        elif time.monotonic() > self.ending + QUIET:
            self.order("hurry")

    def end(self) -> None:
        if self.ending is None:
            self.ending, self.held = time.monotonic(), None
            self.order("end")

    def finish(self) -> bool:
        """Completes what is left, in this process."""
        if self.is_cutting:
            self.end_window()
        self.add_window()
        if self.child is not None:
            self.has_fault |= os.waitstatus_to_exitcode(os.waitpid(self.child, 0)[1]) != 0
        for window in self.waiting:
            self.has_fault |= bool(self.completed(window, self.screen))
        for line in self.lacks():
            self.screen.say(line)
        self.screen.say(f"{self.sum('done')} connections recorded, {self.sum('commands')} commands,"
                        f" {self.sum('sent_bytes')} bytes sent, {self.sum('answered_bytes')} bytes back")
        has_fault = self.has_fault or any(process.counts.get("has_fault", True) for process in self.processes)
        return not has_fault and not self.sum("passed_on")

    # ---- what is said

    def sum(self, name: str) -> int:
        return sum(process.counts.get(name, 0) for process in self.processes)

    def status(self) -> str:
        board = self.board
        window = f"window {self.window}; " if self.names.has_windows else ""
        return (f"{window}{board.sum('open')} connections open, {board.sum('gone')} closed; {board.sum('commands')}"
                f" commands, {board.sum('sent')} bytes sent, {board.sum('back')} bytes back")

    def lacks(self) -> list[str]:
        """What the recording lacks, as lines."""
        found = [(self.sum("missing"), "commands are not answered whole"),
                 (self.sum("passed_on"), "connections were passed on and not recorded"),
                 (self.sum("nuls"), "lines have a NUL, where memcached ends them"),
                 (self.sum("odd"), "connections begin as the binary protocol or TLS does")]
        return [f"{count} {what}" for count, what in found if count]


class Silent(Screen):
    """A screen that shows only lines that are said."""

    def __init__(self) -> None:
        super().__init__()
        self.is_terminal = False
