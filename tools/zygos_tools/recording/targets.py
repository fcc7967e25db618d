"""The files that a recording writes: all are opened before it begins, and none is changed until it has begun."""
from __future__ import annotations

import errno
import fcntl
import os
import resource
import shutil
import stat
import sys
import tempfile
from collections.abc import Sequence

from zygos_tools.files.outputs import refuse_full, synced

SPOOL = ".spool"


def more_files() -> None:
    """Lets the process have as many open files as it may, for it has one or two for each connection."""
    most = resource.getrlimit(resource.RLIMIT_NOFILE)[1]
    resource.setrlimit(resource.RLIMIT_NOFILE, (most, most))


class Target:
    """A file that is written. `file` can be read and written at any place: it is the file itself or, for standard
    output, pipes and devices, a temporary one whose bytes are passed on at the end. A file in which there is something
    is refused, unless `is_over` says that it is written over."""

    def __init__(self, name: str, is_over: bool) -> None:
        self.name, self.is_made = name, name != "-" and not os.path.lexists(name)
        self.out: int | None = None
        if name == "-":
            self.out = sys.stdout.fileno()
        elif self.is_made or stat.S_ISREG(os.stat(name).st_mode):
            if not is_over:
                refuse_full(name)
            self.file = os.open(name, os.O_RDWR | os.O_CREAT, 0o666)
        else:
            self.out = os.open(name, os.O_WRONLY)
        self.is_plain = self.out is None
        if not self.is_plain:
            self.kept = tempfile.TemporaryFile()
            self.file = self.kept.fileno()

    def pass_on(self) -> None:
        """Passes on what is in a temporary file; a file of its own is brought to its disk."""
        if self.out is None:
            synced(self.file)
            return
        self.kept.seek(0)
        with open(self.out, "wb", closefd=False) as out:
            shutil.copyfileobj(self.kept, out, 1 << 20)


def locked(name: str, flags: int = 0) -> int:
    """A spool that is opened, and that no other recording may use now."""
    file = os.open(name, os.O_RDWR | flags, 0o666)
    try:
        fcntl.flock(file, fcntl.LOCK_EX | fcntl.LOCK_NB)
    except BlockingIOError:
        raise OSError(errno.EAGAIN, "another recording writes this file", name) from None
    return file


def refuse_left(name: str) -> None:
    """Refuses a spool that another recording writes, or has left."""
    if os.path.lexists(name):
        locked(name)
        raise OSError(errno.EEXIST, "left by a recording that did not end; complete that with --repair", name)


class Files:
    """The files of a recording: what is sent, what comes back, and its spool."""

    def __init__(self, names: Sequence[str], is_over: bool) -> None:
        self.targets: list[Target] = []
        self.spool_name: str | None = None
        refuse_left(names[1] + SPOOL)
        try:
            for name in names:
                self.targets.append(Target(name, is_over))
            self.capture, self.replies = self.targets
            if os.path.samestat(os.fstat(self.capture.file), os.fstat(self.replies.file)):
                raise OSError(errno.EEXIST, "both files cannot be this one", names[1])
            self.open_spool()
        except BaseException:
            self.take_back()
            raise

    def open_spool(self) -> None:
        if not self.replies.is_plain:
            self.kept = tempfile.TemporaryFile()
            self.spool = self.kept.fileno()
            return
        name = self.replies.name + SPOOL
        self.spool = locked(name, os.O_CREAT | os.O_EXCL)
        self.spool_name = name

    def take_back(self) -> None:
        """Removes what was made for a recording that does not begin."""
        for target in self.targets:
            if target.is_made:
                os.unlink(target.name)
        self.remove_spool()

    def remove_spool(self) -> None:
        if self.spool_name is not None:
            os.unlink(self.spool_name)
