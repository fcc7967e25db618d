"""A proxy between clients and a server: one loop over its sockets, which gives what passes to a recording.

Each round of the loop reads all that has come, has it recorded in one write, and then passes it on. A client is a link
as soon as its server is connected.
"""
from __future__ import annotations

import errno
import functools
import os
import resource
import select
import socket
import time
from collections.abc import Callable, Iterable
from typing import Any, Optional

from zygos_tools.cli.screen import Screen
from zygos_tools.files.formats import MOST_SEGMENT
from zygos_tools.recording.links import READ, WRITE, Link, Way
from zygos_tools.recording.places import beginning, forget, prompt
from zygos_tools.recording.recording import Recording

# seconds: between looks at what was put off, and at all links; and at the end, without further bytes, the same while
# answers are owed, and in all
LOOK, IDLE, QUIET, OWED, LONGEST = 0.05, 0.25, 0.3, 5, 30
# files that are no sockets of links; and how many sockets are read in a round
OTHERS, MOST_READ = 64, 64

Address = tuple[int, Any]


class Dial:
    """A client whose server is being connected."""

    def __init__(self, client: socket.socket, addresses: Iterable[Address]) -> None:
        self.client, self.left = client, list(addresses)
        self.socket: Optional[socket.socket] = None


class Proxy:
    """The loop; `most` is the number of connections after which it ends, and None where there is none."""

    def __init__(self, recording: Recording, server: str, addresses: Iterable[Address], most: Optional[int],
                 screen: Screen) -> None:
        self.recording, self.server, self.addresses, self.most = recording, server, list(addresses), most
        self.screen, self.epoll = screen, select.epoll()
        # by the numbers of their files: how bytes go on, and what is done about other sockets
        self.ways: dict[int, Way] = {}
        self.handlers: dict[int, Callable[[], object]] = {}
        self.listening: list[socket.socket] = []
        self.links: set[Link] = set()
        self.dials: set[Dial] = set()
        self.later: list[Callable[[], object]] = []
        self.changed: set[Link] = set()  # links of which something else may be waited for now
        self.turned_away = self.gone = 0  # clients without a server, and those that have come and gone
        self.room = max(1, (resource.getrlimit(resource.RLIMIT_NOFILE)[0] - OTHERS) // 2)
        self.now = self.last = self.next_look = self.next_line = time.monotonic()
        self.ending: Optional[float] = None
        self.is_crowded = self.is_signalled = self.is_hurried = False
        self.unsettled: Optional[set[Link]] = None  # while clients are held: links with a command in flight

    # ---- sockets

    def wait_for(self, one: socket.socket, mask: int, handler: Callable[[], object]) -> None:
        """From now on a socket that is none of a link is waited for."""
        self.handlers[one.fileno()] = handler
        self.epoll.register(one.fileno(), mask)

    def wait_no_more(self, one: socket.socket) -> None:
        if one.fileno() in self.handlers:
            del self.handlers[one.fileno()]
            self.epoll.unregister(one.fileno())

    # ---- clients

    def listen(self, listening: Iterable[socket.socket]) -> None:
        for one in listening:
            self.listening.append(one)
            self.take_clients(one)

    def take_clients(self, one: socket.socket) -> None:
        self.wait_for(one, READ, functools.partial(self.accept, one))

    def accept(self, one: socket.socket) -> None:
        """Takes clients that wait."""
        for _ in range(64):
            if len(self.links) + len(self.dials) >= self.room:
                self.pause(one)
                return
            try:
                client = prompt(one.accept()[0])
            except BlockingIOError:
                return
            except OSError as error:
                if error.errno in (errno.EMFILE, errno.ENFILE, errno.ENOBUFS, errno.ENOMEM):
                    self.pause(one)
                    return
                continue
            self.dial(Dial(client, self.addresses))

    def pause(self, one: socket.socket) -> None:
        """No client is taken for a while, since no more files may be open."""
        if not self.is_crowded:
            self.screen.say("no more files may be open (ulimit -n): clients wait")
        self.is_crowded = True
        self.wait_no_more(one)
        self.later.append(functools.partial(self.take_clients, one))

    # ---- the server

    def dial(self, dial: Dial, fault: int = 0) -> None:
        """Connects the next address of the server."""
        self.dials.add(dial)
        while dial.left:
            try:
                one, fault = beginning(*dial.left[0])
            except OSError as error:
                fault = error.errno or 0
                break
            if fault in (0, errno.EINPROGRESS):
                dial.socket = one
                self.wait_for(one, WRITE, functools.partial(self.dialed, dial, one))
                return
            one.close()
            if fault == errno.EAGAIN:  # many wait at a Unix socket
                self.later.append(functools.partial(self.dial, dial))
                return
            dial.left.pop(0)
        self.turn_away(dial, fault)

    def dialed(self, dial: Dial, one: socket.socket) -> None:
        """A connection to the server is there, or has failed."""
        self.wait_no_more(one)
        fault = one.getsockopt(socket.SOL_SOCKET, socket.SO_ERROR)
        if fault:
            one.close()
            dial.left.pop(0)
            self.dial(dial, fault)
            return
        if self.turned_away:
            self.screen.say(f"{self.server}: connected again; clients turned away: {self.turned_away}")
            self.turned_away = 0
        self.dials.discard(dial)
        self.add(Link(dial.client, one, self.recording))

    def turn_away(self, dial: Dial, fault: int) -> None:
        self.dials.discard(dial)
        dial.client.close()
        if not self.turned_away:
            self.screen.say(f"{self.server}: {os.strerror(fault)}: clients are turned away until it is there;"
                            " --server names it")
        self.turned_away += 1

    # ---- links

    def add(self, link: Link) -> None:
        for one, way in zip(link.sockets, (link.up, link.down)):
            self.ways[one.fileno()] = way
        link.is_held = self.unsettled is not None
        self.links.add(link)
        self.settle(link)

    def settle(self, link: Link) -> None:
        """Closes a link that is over; else its sockets are waited for as it wants."""
        if link.settle(self.now):
            self.close(link)
            return
        for at, mask in enumerate(link.wanted()):
            if mask == link.masks[at]:
                continue
            one = link.sockets[at].fileno()
            if not mask:
                self.epoll.unregister(one)
            elif link.masks[at]:
                self.epoll.modify(one, mask)
            else:
                self.epoll.register(one, mask)
            link.masks[at] = mask

    def close(self, link: Link) -> None:
        link.is_closed = True
        for one, mask in zip(link.sockets, link.masks):
            if mask:
                self.epoll.unregister(one.fileno())
            del self.ways[one.fileno()]
            one.close()
        self.links.discard(link)
        if self.unsettled is not None:
            self.unsettled.discard(link)
        self.gone += 1
        self.recording.end(link)

    # ---- the loop

    def run(self) -> None:
        """Passes bytes on until the end."""
        while not self.is_done():
            self.turn()
        for link in list(self.links):
            self.close(link)

    def turn(self) -> None:
        """Does what there is to do, or waits for it."""
        self.round(self.epoll.poll(LOOK if self.ending is not None or self.later else IDLE, MOST_READ))
        self.now = time.monotonic()
        if self.is_signalled or self.most is not None and self.gone >= self.most:
            self.end()
        if self.now >= self.next_look:
            self.next_look = self.now + LOOK
            self.look()
        if self.now >= self.next_line:
            self.next_line = self.now + 1
            self.screen.show(self.status())

    def round(self, events: list[tuple[int, int]]) -> None:
        """Reads all that has come, has it recorded, and passes it on; then does what else is to be done."""
        ways, others = self.ways, []
        sent: list[tuple[Way, bytes]] = []
        answered: list[tuple[Way, bytes]] = []
        is_usual = self.unsettled is None
        for file, event in events:
            way = ways.get(file)
            if way is None:
                others.append(file)
                continue
            if event == READ and (is_usual or not way.is_up):
                try:
                    text = way.receive(MOST_SEGMENT)
                    if text:
                        (sent if way.is_up else answered).append((way, text))
                        continue
                except BlockingIOError:
                    continue
                except OSError:
                    way.is_broken = True
                self.ended(way)
            else:
                self.read(way, event, sent if way.is_up else answered)
        if answered or sent:
            self.pass_on(answered, sent)
        if self.changed:
            self.settle_changed()
        for file in others:
            if file in self.handlers:
                self.handlers[file]()

    def read(self, way: Way, event: int, found: list[tuple[Way, bytes]]) -> None:
        """Does what a socket of a link is ready for. What is read is added to `found`."""
        link = way.link
        mask = link.masks[not way.is_up]
        if event & ~READ and mask & WRITE:
            (link.down if way.is_up else link.up).write()
            self.changed.add(link)
        if not mask & READ or not event & ~WRITE:
            return
        text = way.read() if self.unsettled is None or not way.is_up else way.read_current(link.count)
        if text:
            found.append((way, text))
        elif text is not None:
            self.ended(way)

    def pass_on(self, answered: list[tuple[Way, bytes]], sent: list[tuple[Way, bytes]]) -> None:
        """Has what was read recorded, and passes it on."""
        self.recording.keep(answered, sent)
        for some in (answered, sent):
            for way, text in some:
                if way.is_lost or way.is_dropping:
                    way.link.until = None if way is way.link.down else way.link.until
                    self.changed.add(way.link)
                    continue
                try:
                    count = way.send(text)
                except BlockingIOError:
                    count = 0
                except OSError:
                    way.lose()
                    self.changed.add(way.link)
                    continue
                if count < len(text):
                    way.waiting = memoryview(text)[count:]
                    self.changed.add(way.link)
        if answered:
            self.last = time.monotonic()
        if self.unsettled:
            self.hold_settled(way.link for way, _ in answered + sent)

    def ended(self, way: Way) -> None:
        """No more bytes come of a socket."""
        way.is_ended = True
        link = way.link
        back = link.down if way is link.up else link.up
        if way.is_broken:
            back.lose()
        if way is link.down:
            self.last = time.monotonic()
            if way.is_lost:
                link.until = None
        self.changed.add(link)

    def settle_changed(self) -> None:
        changed, self.changed = self.changed, set()
        for link in changed:
            if not link.is_closed:
                self.settle(link)

    def look(self) -> None:
        """Does what was put off, and closes links whose time is over."""
        self.recording.pass_marks()
        later, self.later = self.later, []
        for one in later:
            one()
        for link in list(self.links):
            if link.until is not None or self.ending is not None:
                self.settle(link)

    def status(self) -> str:
        one = self.recording
        return (f"{len(self.links)} connections open, {self.gone} closed; {one.commands} commands,"
                f" {one.sent_bytes} bytes sent, {one.answered_bytes} bytes back"
                + ("; nothing more is recorded" if one.fault else ""))

    # ---- quiet moments

    def hold(self) -> None:
        """Takes nothing more of clients than the commands that they are sending, and those that show that all before
        them were executed."""
        self.unsettled = {link for link in self.links if not link.count.is_quiet()}
        for link in list(self.links):
            link.is_held = link not in self.unsettled
            if link.is_held:
                self.settle(link)

    def hold_settled(self, links: Iterable[Link]) -> None:
        """Takes nothing more of these clients, if none of their commands is in flight."""
        for link in links:
            if self.unsettled and link in self.unsettled and link.count.is_quiet():
                self.unsettled.discard(link)
                link.is_held = True
                self.changed.add(link)

    def is_quiet(self) -> bool:
        """Whether clients are held, and no command is in flight."""
        return self.unsettled is not None and not self.unsettled

    def go_on(self) -> None:
        """Clients are held no more."""
        self.unsettled = None
        for link in list(self.links):
            link.is_held = False
            self.settle(link)

    # ---- the end

    def signal(self, one: socket.socket) -> None:
        """Signals came: they begin the end and, if they come later, end at once."""
        one.recv(64)
        self.is_signalled = True
        self.is_hurried = self.ending is not None and self.now > self.ending + QUIET

    def end(self) -> None:
        """Takes nothing more of clients; answers to what they sent are waited for."""
        if self.ending is not None:
            return
        self.ending, self.unsettled = self.now, None
        self.later = []
        connecting = [dial.socket for dial in self.dials if dial.socket]
        for one in [*self.listening, *connecting]:
            self.wait_no_more(one)
        forget([*self.listening, *connecting, *(dial.client for dial in self.dials)])
        self.dials.clear()
        for link in list(self.links):
            link.is_taking = False
            self.settle(link)

    def is_done(self) -> bool:
        """Whether all has come, or enough was waited for it."""
        if self.ending is None:
            return False
        if not self.links or self.is_hurried or self.now > self.ending + LONGEST:
            return True
        quiet = self.now - max(self.ending, self.last)
        if quiet < QUIET:
            return False
        slow = [link for link in self.links if link.down.waiting]
        for link in slow:  # these do not take their answers, which are recorded without them
            link.down.lose()
            self.settle(link)
            self.last = self.now
        return not slow and (quiet > OWED or not self.recording.owed())
