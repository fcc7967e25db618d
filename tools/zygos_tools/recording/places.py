"""Places where servers listen, as words name them: HOST:PORT, [HOST]:PORT, or a Unix socket by its path."""
from __future__ import annotations

import contextlib
import errno
import os
import re
import socket
import stat
from collections.abc import Iterable
from typing import Any

# an address, as its family has it, after the family
Address = tuple[int, Any]
# how many connections may wait to be accepted, how long the path of a Unix socket may be, and the last port
BACKLOG, MOST_PATH, MOST_PORT = 4096, 107, 65535


class Place:
    """A place: what is printed of it, and its addresses, each with its family; these are looked up when asked for."""

    def __init__(self, name: str, host: str | None = None, port: int | None = None, path: str | None = None) -> None:
        self.name, self.host, self.port, self.path = name, host, port, path

    def addresses(self) -> list[Address]:
        if self.path is not None:
            return [(socket.AF_UNIX, self.path)]
        try:
            found = socket.getaddrinfo(self.host, self.port, type=socket.SOCK_STREAM)
        except (socket.gaierror, UnicodeError):
            raise OSError(errno.EADDRNOTAVAIL, "no address has this name", self.name) from None
        return list(dict.fromkeys((family, address) for family, _, _, _, address in found))


def place(word: str) -> Place | None:
    """The place that a word names; None where it names none."""
    path = word[5:] if word.startswith("unix:") else word if "/" in word else None
    if path is not None:
        return Place(word, path=path) if 0 < len(os.fsencode(path)) <= MOST_PATH else None
    match = re.fullmatch(r"\[([^\[\]]+)\]:([0-9]{1,5})", word) or re.fullmatch(r"([^\[\]]+):([0-9]{1,5})", word)
    return Place(word, match[1], int(match[2])) if match and int(match[2]) <= MOST_PORT else None


# an option that takes a place
OPTION = f"HOST:PORT, [HOST]:PORT or a path with a slash, of at most {MOST_PATH} bytes", place


def named(family: int, address: Any) -> str:
    """An address, as a word names it."""
    if family == socket.AF_UNIX:
        return str(address)
    host, port = address[:2]
    return f"[{host}]:{port}" if ":" in host else f"{host}:{port}"


def prompt(one: socket.socket) -> socket.socket:
    """A socket that never waits, neither in its calls nor to gather bytes."""
    one.setblocking(False)
    if one.family != socket.AF_UNIX:
        one.setsockopt(socket.IPPROTO_TCP, socket.TCP_NODELAY, 1)
    return one


def beginning(family: int, address: Any) -> tuple[socket.socket, int]:
    """A socket that is being connected, and the number of the fault that it has at once: 0, or EINPROGRESS, is none."""
    one = prompt(socket.socket(family, socket.SOCK_STREAM))
    return one, one.connect_ex(address)


def is_left(path: str) -> bool:
    """Whether a path is a socket that nobody listens at any more."""
    try:
        if not stat.S_ISSOCK(os.stat(path).st_mode):
            return False
        with socket.socket(socket.AF_UNIX, socket.SOCK_STREAM) as one:
            one.settimeout(1)
            return one.connect_ex(path) == errno.ECONNREFUSED
    except OSError:
        return False


def shared(found: Iterable[socket.socket], count: int) -> list[list[socket.socket]]:
    """For each of a number of processes, sockets that listen where these do, which are closed. The kernel gives each
    client that comes to one of them; at a Unix socket all processes listen at the same one."""
    rows: list[list[socket.socket]] = [[] for _ in range(count)]
    for one in found:
        family, address = one.family, one.getsockname()
        if family == socket.AF_UNIX:
            for row in rows:
                row.append(one)
            continue
        one.close()
        for row in rows:
            row.append(bound(family, address, is_shared=True))
            row[-1].listen(BACKLOG)
    return rows


def listening(one: Place) -> list[socket.socket]:
    """Sockets that listen at a place, at each of its addresses that there is."""
    found: list[socket.socket] = []
    fault: OSError | None = None
    for family, address in one.addresses():
        try:
            found.append(bound(family, address))
            found[-1].listen(BACKLOG)
        except OSError as error:
            what = "; --listen names another place" if error.errno == errno.EADDRINUSE else ""
            fault = OSError(error.errno, os.strerror(error.errno) + what, one.name)
            if error.errno not in (errno.EADDRNOTAVAIL, errno.EAFNOSUPPORT):
                break
    else:
        fault = None if found else fault
    if fault:
        forget(found)
        raise fault
    return found


def forget(found: Iterable[socket.socket]) -> None:
    """Closes sockets, and removes the paths of those that listen."""
    for one in found:
        with contextlib.suppress(OSError):
            if one.family == socket.AF_UNIX and one.getsockopt(socket.SOL_SOCKET, socket.SO_ACCEPTCONN):
                os.unlink(one.getsockname())
        one.close()


def bound(family: int, address: Any, is_shared: bool = False) -> socket.socket:
    """A socket that is bound to an address, which it may share with others."""
    one = socket.socket(family, socket.SOCK_STREAM)
    try:
        if family == socket.AF_UNIX:
            if is_left(address):
                os.unlink(address)
        else:
            one.setsockopt(socket.SOL_SOCKET, socket.SO_REUSEPORT if is_shared else socket.SO_REUSEADDR, 1)
        if family == socket.AF_INET6:
            one.setsockopt(socket.IPPROTO_IPV6, socket.IPV6_V6ONLY, 1)
        one.bind(address)
        one.setblocking(False)
    except BaseException:
        one.close()
        raise
    return one
