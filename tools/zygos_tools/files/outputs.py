"""The files that the tools write: written beside their place, and put there once they are whole.

A file in which there is something is refused unless it may be written over, and so are an output that is also an input
and two outputs that are one file. Pipes, devices and standard output are written directly.
"""
from __future__ import annotations

import contextlib
import errno
import os
import stat
import sys
import tempfile
from collections.abc import Iterable, Iterator

STANDARD_OUTPUT = "standard output"


@contextlib.contextmanager
def naming(name: str) -> Iterator[None]:
    """Faults that name no file get this name."""
    try:
        yield
    except OSError as error:
        name = STANDARD_OUTPUT if name == "-" else name
        raise OSError(error.errno, error.strerror, error.filename or name) from None


def refuse_full(name: str) -> None:
    """Refuses to write over a file in which there is something."""
    if os.path.isfile(name) and os.path.getsize(name):
        raise OSError(errno.EEXIST, "there is something in this file; --over writes over it", name)


def identity(name: str) -> tuple[int, int] | None:
    """The device and the inode of a regular file; None for anything else."""
    try:
        found = os.fstat(0) if name == "-" else os.stat(name)
    except OSError:
        return None
    return (found.st_dev, found.st_ino) if stat.S_ISREG(found.st_mode) else None


def told_apart(outputs: Iterable[str], inputs: Iterable[str] = ()) -> None:
    """Refuses outputs of which one is an input, or two are one file."""
    read = {identity(name) for name in inputs} - {None}
    seen: set[object] = set()
    for name in outputs:
        if name == "-":
            continue
        found = identity(name)
        if found in read:
            raise OSError(errno.EEXIST, "this file is read; write another one", name)
        place: object = found or os.path.realpath(name)
        if place in seen and (found or not os.path.exists(name)):
            raise OSError(errno.EEXIST, "both files cannot be this one", name)
        seen.add(place)


def synced(file: int) -> None:
    """Waits until a file is on its disk; pipes and devices have none."""
    if stat.S_ISREG(os.fstat(file).st_mode):
        os.fsync(file)


class Beside:
    """A file that is written beside its place. As a context it is put there at the end, or removed after a fault."""

    def __init__(self, name: str, is_over: bool = False):
        self.name, self.place, self.kept = name, os.path.realpath(name), None
        if name == "-":
            self.out = sys.stdout.fileno()
        elif os.path.lexists(name) and os.path.exists(name) and not os.path.isfile(name):
            self.out = os.open(name, os.O_WRONLY)  # a pipe or a device; a folder is refused
        else:
            if not is_over:
                refuse_full(name)
            with naming(name):
                self.out, self.kept = self.made(*os.path.split(self.place))

    @staticmethod
    def made(folder: str, base: str) -> tuple[int, str]:
        """A new file in the folder of another one."""
        try:
            file, kept = tempfile.mkstemp(prefix=f".{base[:100]}.", suffix=".part", dir=folder)
        except OSError as error:
            raise OSError(error.errno, error.strerror) from None
        mask = os.umask(0)
        os.umask(mask)
        os.fchmod(file, 0o666 & ~mask)
        return file, kept

    def write(self, pieces: Iterable[bytes]) -> None:
        """Writes further bytes."""
        with naming(self.name):
            for piece in pieces:
                left = memoryview(piece)
                while left:
                    left = left[os.write(self.out, left) :]

    def put(self) -> None:
        """Puts the file to its place."""
        if self.kept is None:
            return
        with naming(self.name):
            os.fsync(self.out)
            os.rename(self.kept, self.place)
            self.kept = None
            folder = os.open(os.path.dirname(self.place), os.O_RDONLY)
            try:
                os.fsync(folder)
            finally:
                os.close(folder)

    def take_back(self) -> None:
        """Removes what was written, if it was not put to its place."""
        if self.kept is not None:
            os.unlink(self.kept)
            self.kept = None

    def __enter__(self) -> "Beside":
        return self

    def __exit__(self, kind: object, *_: object) -> None:
        try:
            if kind is None:
                self.put()
        finally:
            self.take_back()
            if self.name != "-":
                os.close(self.out)
