"""Lines on standard error: those that stay and, on a terminal, one that is written over again and again."""
from __future__ import annotations

import os
import re
import sys
import time
from collections.abc import Callable

from zygos_tools.repository import TOP

# bytes that it takes seconds to go over
MUCH = 1 << 28
# after how many seconds it is said that a search goes on, where there is no terminal
SECONDS = 10
# what texts call the commands; an installed copy has no source, and its commands have no folders
COMMANDS = re.compile(r"(?<![\w/.-])(?:\./zygos\b|tools/([a-z]+)\b(?!/))")
IS_INSTALLED = not os.path.exists(os.path.join(TOP, "crates.txt"))


def name_of(path: str) -> str:
    """How the lines of a tool begin: with the name under which it was called, after the folder if that is one of tools."""
    folder, name = os.path.split(os.path.abspath(path))
    kind = os.path.basename(folder)
    return {"tools": f"tools/{name}", "repo": f"tools/repo/{name}"}.get(kind, name)


# the tool, as its lines begin
NAME = name_of(sys.argv[0])


def as_called(text: str) -> str:
    """A text with the names that commands have here."""
    return COMMANDS.sub(lambda found: f"zygos-{found[1]}" if found[1] else "zygos", text) if IS_INSTALLED else text


def hold_first() -> None:
    """Opens those of the first three descriptors that are closed, so that no other file becomes one of them."""
    while (file := os.open(os.devnull, os.O_RDWR)) < 3:
        pass
    os.close(file)


def write(text: str) -> None:
    """Writes on standard error; where that has gone, nothing."""
    try:
        os.write(2, text.encode(errors="backslashreplace"))
    except OSError:
        pass


def say(text: str) -> None:
    """Prints a line of the tool."""
    write(f"{NAME}: {as_called(text)}\n")


class Screen:
    """Standard error."""

    def __init__(self) -> None:
        self.is_terminal, self.is_shown = os.isatty(2), False

    def show(self, text: str) -> None:
        """Shows a line in place of the one shown before; only on a terminal."""
        if self.is_terminal:
            write(f"\r{text}\x1b[K")
            self.is_shown = True

    def say(self, text: str) -> None:
        """Prints a line that stays."""
        self.clear()
        say(text)

    def clear(self) -> None:
        """Takes away the line that is written over."""
        if self.is_shown:
            write("\r\x1b[K")
            self.is_shown = False

    def ticker(self) -> Callable[[str], None]:
        """What is called about once a second with how far a search is."""
        shown: Callable[[str], None] = self.show
        return shown if self.is_terminal else Patience(self).__call__

    def progress(self, what: str, size: int) -> "Progress":
        """Work on a number of bytes that begins now."""
        return Progress(self, what, size)


class Patience:
    """Says every few seconds how far a search is, where lines cannot be written over."""

    def __init__(self, screen: Screen) -> None:
        self.screen, self.left = screen, SECONDS

    def __call__(self, text: str) -> None:
        self.left -= 1
        if not self.left:
            self.left = SECONDS
            self.screen.say(f"{text}; it goes on")


class Progress:
    """Work on a number of bytes. On a terminal a line a second says how much is done, and elsewhere one line that it
    has begun, where it is much."""

    def __init__(self, screen: Screen, what: str, size: int) -> None:
        self.screen, self.what, self.size, self.done = screen, what, size, 0
        self.next = time.monotonic() + 1
        if size > MUCH and not screen.is_terminal:
            screen.say(what)

    def __call__(self, count: int) -> None:
        self.done += count
        if time.monotonic() > self.next:
            self.next = time.monotonic() + 1
            self.screen.show(f"{self.what}: {100 * self.done // self.size} %")
