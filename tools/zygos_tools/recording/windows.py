"""The files of windows: recordings that follow each other, numbered from 1, and when the next one begins."""
from __future__ import annotations

import os
import re
import time
from typing import NamedTuple, Optional

from zygos_tools.files.outputs import refuse_full
from zygos_tools.recording.parts import parts_of
from zygos_tools.recording.targets import SPOOL, refuse_left

DIGITS = 6
# a window ends early if its capture has as many bytes
LARGE = 3 << 30


class Every(NamedTuple):
    """How long a window is: a number of commands, or of seconds."""

    commands: Optional[int] = None
    seconds: Optional[float] = None


def every(word: str) -> Optional[Every]:
    """What a word says of windows; None if it says nothing."""
    found = re.fullmatch(r"([1-9][0-9]{0,11})(s|m|h)?", word)
    if not found:
        return None
    number = int(found[1])
    return Every(seconds=number * {"s": 1, "m": 60, "h": 3600}[found[2]]) if found[2] else Every(commands=number)


# the option --every
OPTION = "a number of commands, or a time such as 60s, 10m or 1h", every


def window_name(name: str, number: int) -> str:
    """The name of a window's file: that of the recording with a number before its ending."""
    stem, ending = os.path.splitext(name)
    return f"{stem}.{number:0{DIGITS}}{ending}"


def windows_of(name: str) -> list[str]:
    """The files of this recording's windows that are there, also those that a killed recorder left."""
    folder, base = os.path.split(name)
    stem, ending = os.path.splitext(base)
    form = re.compile(rf"{re.escape(stem)}\.[0-9]{{{DIGITS},}}{re.escape(ending)}(?:{re.escape(SPOOL)}(?:\.[0-9]+)?)?")
    return sorted(os.path.join(folder, one) for one in os.listdir(folder or ".") if form.fullmatch(one))


class Names:
    """The two files of a recording, or those of its windows."""

    def __init__(self, capture: str, replies: str, has_windows: bool) -> None:
        self.both, self.has_windows = (capture, replies), has_windows

    def window(self, number: int) -> tuple[str, str]:
        """The capture and the replies of a window; those of the recording, if it has no windows."""
        capture, replies = self.both
        return (window_name(capture, number), window_name(replies, number)) if self.has_windows else (capture, replies)

    def refuse(self, is_over: bool) -> None:
        """Refuses names if there is something that must not be written over. With `is_over`, removes older windows."""
        capture, replies = self.both
        if os.path.abspath(capture) == os.path.abspath(replies):
            raise FileExistsError(17, "both files cannot be this one", replies)
        found = [*windows_of(capture), *windows_of(replies)] if self.has_windows else [capture, replies]
        for name in found if self.has_windows else [*parts_of(replies), replies + SPOOL]:
            if SPOOL in name:
                refuse_left(name)
        for name in found:
            if not is_over:
                refuse_full(name)
            elif self.has_windows:
                os.unlink(name)
        for name in self.window(1):  # a folder that isn't there is said now
            os.close(os.open(name, os.O_RDWR | os.O_CREAT, 0o666))
            if not os.path.getsize(name):
                os.unlink(name)


class Due:
    """When the current window is to end."""

    def __init__(self, one: Optional[Every]) -> None:
        self.every, self.begin, self.commands = one, time.monotonic(), 0

    def is_due(self, commands: int, size: int) -> bool:
        """Whether it is time, after as many commands of the recording, and with as many bytes of the window."""
        if self.every is None:
            return False
        if self.every.commands is not None and commands - self.commands >= self.every.commands:
            return True
        is_late = self.every.seconds is not None and time.monotonic() >= self.begin + self.every.seconds
        return size >= LARGE or is_late

    def begin_next(self, commands: int) -> None:
        self.begin, self.commands = time.monotonic(), commands
