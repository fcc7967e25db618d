"""Work on windows side by side, each in a process of its own, which has no more in memory than its window."""
from __future__ import annotations

import json
import os
import selectors
import signal
from collections.abc import Callable, Iterable, Iterator
from typing import IO, Any, Optional

from zygos_tools.cli import ends
from zygos_tools.judging.keeping import PIECE, Found, Window

# works on a recording by the words of a command, and gives a line of JSON
JudgeOne = Callable[[list[str], dict[str, Any]], str]


class Processes:
    """Windows that are judged side by side, each in a process of its own."""

    def __init__(self, most: int, judge_one: JudgeOne):
        self.most, self.judge_one = most, judge_one
        self.children: dict[int, tuple[Window, IO[bytes], list[bytes]]] = {}
        self.selector = selectors.DefaultSelector()

    def found(self, windows: Iterable[tuple[Window, dict[str, Any]]]) -> Iterator[tuple[Window, Optional[Found]]]:
        """Judges these windows, each with its words. Gives what is found of each, as it comes; None if its process
        ended."""
        try:
            for window, words in windows:
                while len(self.children) >= self.most:
                    yield from self.ended()
                self.begin(window, words)
            while self.children:
                yield from self.ended()
        finally:
            for child, (_, pipe, _) in self.children.items():
                os.killpg(child, signal.SIGKILL)
                pipe.close()
                os.waitpid(child, 0)

    def begin(self, window: Window, words: dict[str, Any]) -> None:
        """Begins a process for a window."""
        read, write = os.pipe()
        child = ends.fork()
        if child:
            os.close(write)
            set_group(child)
            pipe = open(read, "rb", buffering=0)
            self.children[child] = window, pipe, []
            self.selector.register(pipe, selectors.EVENT_READ, child)
            return
        try:
            os.close(read)
            set_group(0)
            with open(write, "wb") as file:
                file.write(self.judged(window, words).encode())
            os._exit(0)
        finally:
            os._exit(1)

    def judged(self, window: Window, words: dict[str, Any]) -> str:
        """The line of --json about a window."""
        try:
            return self.judge_one([window.capture, window.replies], words)
        except Exception as error:
            return json.dumps({"verdict": "fault", "fault": ends.unforeseen(error)})

    def ended(self) -> Iterator[tuple[Window, Optional[Found]]]:
        """Waits for what processes say. Gives the windows of those that have ended, with what they found."""
        for key, _ in self.selector.select():
            window, pipe, pieces = self.children[key.data]
            piece = pipe.read(PIECE)
            if piece:
                pieces.append(piece)
                continue
            self.selector.unregister(pipe)
            pipe.close()
            del self.children[key.data]
            os.waitpid(key.data, 0)
            yield window, json.loads(b"".join(pieces)) if pieces else None


def set_group(child: int) -> None:
    """Gives a process a group of its own, so that it ends with all that it started."""
    try:
        os.setpgid(child, child)
    except OSError:
        pass  # it has ended, or has done so itself
