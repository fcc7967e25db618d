"""What was found of windows, in a file beside them: with the sums of a window's files and of what judges, so that a later
run judges only what is new."""
from __future__ import annotations

import fcntl
import hashlib
import json
import os
from collections.abc import Iterable
from typing import Any, NamedTuple, Optional

from zygos_tools.repository import TOP, matching

PIECE = 1 << 20

Found = dict[str, Any]


class Window(NamedTuple):
    """A window: its number and its files."""

    number: int
    capture: str
    replies: str

    def is_there(self) -> bool:
        """Whether it is whole: the capture comes last."""
        return os.path.isfile(self.capture) and os.path.isfile(self.replies)


# ---- sums


def sum_of(paths: Iterable[str]) -> str:
    """The sum of the bytes of files, one after the other."""
    found = hashlib.sha256()
    for path in paths:
        with open(path, "rb") as file:
            while piece := file.read(PIECE):
                found.update(piece)
    return found.hexdigest()


def sum_of_judge(zygos: str) -> str:
    """The sum of what judges: the proved program and these tools."""
    top = os.path.dirname(os.path.realpath(zygos))
    programs = [os.path.join(top, path) for path in ("crates/judge/out/judge", "bin/judge")]
    tools = [os.path.join(TOP, "tools", path) for path in matching("zygos_tools/**/*.py", os.path.join(TOP, "tools"))]
    return sum_of([zygos, *(path for path in programs if os.path.isfile(path)), *tools])


def state_of(path: str) -> list[int]:
    """What changes if a file is written: its size, its time and its inode."""
    found = os.stat(path)
    return [found.st_size, found.st_mtime_ns, found.st_ino]


# ---- what was found before


class Link(NamedTuple):
    """A window that has an order from the items that the one before it left, or else from others.

    `before` is the sum of the items that it began with, or None if it begins a part, with any items if `is_warm`; `items`
    is that of those that it left. `gets` are the keys of the retrievals that were added at its end. `broken` says why a
    window begins a part although the one before it has an order, after the sum of what that left."""

    before: Optional[str]
    items: str
    is_warm: bool
    gets: list[str]
    found: Found
    broken: Optional[list[Any]] = None


class Kept:
    """What was found of windows, in a file that only one tool has at a time."""

    def __init__(self, name: str, judge: str, words: dict[str, Any], is_warm: bool):
        self.judge, self.words, self.is_warm = judge, {word: words[word] for word in sorted(words)}, is_warm
        self.file = open(name, "a+", encoding="utf-8")
        # the last line about each window that was judged so, by itself and as a link, and if the program had no order of
        # it; and the sums of files by their names and states
        self.lines: dict[int, Found] = {}
        self.links: dict[int, Found] = {}
        self.failures: dict[int, Found] = {}
        self.sums: dict[tuple[str, tuple[int, ...]], str] = {}

    def lock(self) -> bool:
        """Takes the file, and reads it. Gives whether no other tool has it."""
        try:
            fcntl.flock(self.file, fcntl.LOCK_EX | fcntl.LOCK_NB)
        except BlockingIOError:
            return False
        self.file.seek(0)
        text = self.file.read()
        for line in text.split("\n"):
            self.take(line)
        if text and not text.endswith("\n"):
            self.file.write("\n")
        return True

    def take(self, text: str) -> None:
        """Takes a line, unless it was cut short or is of another tool."""
        try:
            line = json.loads(text)
            for name, state, found in line["files"]:
                self.sums[name, tuple(state)] = found
            if line["judge"] != self.judge or line["words"] != self.words:
                return
            if "window" in line:
                self.lines[line["window"]] = line
            elif line["any"] == self.is_warm:
                name, lines = ("link", self.links) if "link" in line else ("failure", self.failures)
                lines[line[name]] = line
        except (ValueError, TypeError, KeyError):
            return

    def file_of(self, path: str) -> list[Any]:
        """A file's name, its state and its sum. One that did not change is not read again."""
        name, state = os.path.basename(path), state_of(path)
        known = self.sums.get((name, tuple(state)))
        return [name, state, known or sum_of([path])]

    def files_of(self, window: Window) -> list[list[Any]]:
        """The same of each file of a window."""
        return [self.file_of(path) for path in (window.capture, window.replies)]

    def are_same(self, window: Window, line: Found) -> bool:
        """Whether the files of a window have the sums that a line says."""
        return [found[2] for found in self.files_of(window)] == [found[2] for found in line["files"][:2]]

    def known(self, window: Window, words: dict[str, Any]) -> Optional[Found]:
        """What was found of a window with these words, if its files have the same sums."""
        line = self.lines.get(window.number)
        if line is None or line["own"] != sorted(words):
            return None
        return line["found"] if self.are_same(window, line) else None

    def keep(self, window: Window, words: dict[str, Any], found: Found, files: list[list[Any]]) -> None:
        """Keeps what was found of a window with these files."""
        self.write({"window": window.number, "files": files, "own": sorted(words), "found": found})

    # ---- links

    def link(self, window: Window) -> Optional[Link]:
        """The link that a window was, if its files have the same sums; they may be gone."""
        line = self.links.get(window.number)
        if line is None or window.is_there() and not self.are_same(window, line):
            return None
        return Link(line["before"], line["files"][2][2], line["warm"], line["gets"], line["found"], line["broken"])

    def has_items(self, path: str, link: Link) -> bool:
        """Whether a file has the items that a link left."""
        return os.path.isfile(path) and self.file_of(path)[2] == link.items

    def keep_link(self, window: Window, link: Link, files: list[list[Any]]) -> None:
        """Keeps a link, with the files of its window and that of the items that it left."""
        self.write({"link": window.number, "files": files, "before": link.before, "warm": link.is_warm,
                    "gets": link.gets, "found": link.found, "broken": link.broken})

    def failure(self, window: Window, before: Optional[str]) -> str:
        """Why the program had no order of a window, from these items or from others; nothing if that is not known."""
        line = self.failures.get(window.number)
        return str(line["why"]) if line and line["before"] == before and self.are_same(window, line) else ""

    def keep_failure(self, window: Window, before: Optional[str], why: str, files: list[list[Any]]) -> None:
        """Keeps why the program has no order of a window."""
        self.write({"failure": window.number, "files": files, "before": before, "why": why})

    def write(self, line: Found) -> None:
        """Adds a line."""
        line = {**line, "judge": self.judge, "words": self.words, "any": self.is_warm}
        self.file.write(json.dumps(line) + "\n")
        self.file.flush()
        self.take(json.dumps(line))
