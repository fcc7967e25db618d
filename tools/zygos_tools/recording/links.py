"""A client and its server, as a proxy joins them: what comes on one side is kept and then passed on to the other one.

A side that does not take bytes is waited for, and until then the other one is not read. If a client goes away, what its
server still answers is kept; if a server goes away, its client gets the end.
"""
from __future__ import annotations

import select
import socket
from typing import TYPE_CHECKING, Optional, Union

from zygos_tools.files.formats import MOST_SEGMENT
from zygos_tools.recording.counting import Count

if TYPE_CHECKING:
    from zygos_tools.recording.recording import Recording

READ, WRITE = select.EPOLLIN, select.EPOLLOUT
# seconds: without an answer to a client that has gone; in which a client may read what a server sent that has gone
GONE, LINGER = 10, 1


class Way:
    """One direction of a link: bytes of a source are passed on to a sink as it takes them."""

    def __init__(self, link: Link, source: socket.socket, sink: socket.socket, is_up: bool) -> None:
        self.link, self.source, self.sink, self.is_up = link, source, sink, is_up
        self.receive, self.send = source.recv, sink.send
        self.waiting: Union[bytes, memoryview] = b""
        self.is_ended = self.is_broken = False  # no more bytes come; and that is by a fault
        self.is_lost = self.is_shut = False  # the sink has gone; it was given the end
        self.is_dropping = False  # what comes is neither recorded nor passed on

    def read(self, most: int = MOST_SEGMENT) -> Optional[bytes]:
        """The next bytes, none at the end; None if there are none yet."""
        try:
            text = self.receive(most)
        except BlockingIOError:
            return None
        except OSError:
            text, self.is_broken = b"", True
        return text

    def read_current(self, count: Count) -> Optional[bytes]:
        """The next bytes, but none after the current command of the client."""
        try:
            text = self.source.recv(MOST_SEGMENT, socket.MSG_PEEK)
        except OSError:
            text = b""
        return self.read(count.room(text) or 1)

    def write(self) -> None:
        """Passes on what waits."""
        try:
            while self.waiting:
                self.waiting = self.waiting[self.send(self.waiting) :]
        except BlockingIOError:
            return
        except OSError:
            self.lose()

    def lose(self) -> None:
        self.is_lost, self.waiting = True, b""

    def settle(self) -> None:
        """Passes the end on, after all bytes."""
        if self.is_ended and not self.waiting and not self.is_shut:
            self.is_shut = True
            try:
                self.sink.shutdown(socket.SHUT_WR)
            except OSError:
                self.lose()


class Link:
    """A client and its server. `number` is that of the connection in the recording; None if it is not recorded."""

    def __init__(self, client: socket.socket, server: socket.socket, recording: Recording) -> None:
        self.sockets, self.masks = (client, server), [0, 0]
        self.up, self.down = Way(self, client, server, True), Way(self, server, client, False)
        self.number: Optional[int] = None
        self.has_begun = self.is_counted = False  # it was given a number, or none; something of it was recorded
        self.count, self.mark = Count(), b""
        self.until: Optional[float] = None
        self.is_taking, self.is_held, self.is_closed = True, False, False
        recording.add(self)

    def settle(self, now: float) -> bool:
        """Passes ends on. Gives whether the link is over."""
        self.up.settle()
        self.down.settle()
        if self.down.is_shut:  # the server has gone: what the client still sends is not recorded
            self.up.is_dropping, self.up.waiting = True, b""
            self.until = self.until or now + LINGER
        elif self.down.is_lost:
            self.until = self.until or now + GONE
        is_over = self.down.is_ended and not self.down.waiting and (self.up.is_ended or self.down.is_lost)
        return is_over or self.until is not None and now > self.until

    def wanted(self) -> tuple[int, int]:
        """What is waited for, of the client and of the server."""
        up, down = self.up, self.down
        is_open = self.is_taking and not up.is_lost and not down.is_ended and not self.is_held
        is_read = not up.is_ended and not up.waiting and (is_open or down.is_shut)
        client = (READ if is_read else 0) | (WRITE if down.waiting else 0)
        return client, (0 if down.is_ended or down.waiting else READ) | (WRITE if up.waiting else 0)
