"""A part of an input, one file of zygos, whose bytes are read in order; a fault is named by its place."""
from __future__ import annotations

from collections.abc import Callable, Iterator

MOST_CAPTURE, MOST_FILE = (1 << 32) - 1, (1 << 63) - 1
# how many bytes are read at once
PIECE = 1 << 20


class Fault(Exception):
    """The first fault of a part, in the words of the program; `hint` says what may be done about it."""

    hint = ""


class Part:
    """The bytes of one part of an input, from its start on; places count from there.

    Without `more` they are `text`. With it, `text` is followed by what `more(count)` gives, at most `count` bytes each
    time, and none at the end of the input; then only a window of the part is kept. `text` is the window, which begins
    at the place `begin` of the part, and `at` the index in it of the next byte. If `passed` is set, it is called with
    all bytes of the part that were read, in order and in pieces, the last of them by `pass_rest`. The words of a fault
    are between `before` and `after`; `hint` says what may be done about a part that ends too early.
    """

    def __init__(self, name: str, text: bytes = b"", more: Callable[[int], bytes] | None = None, before: str = "",
                 after: str = "") -> None:
        self.name, self.text, self.at, self.begin, self.more = name, text, 0, 0, more
        self.before, self.after, self.hint = before, after, ""
        self.passed: Callable[[bytes], object] | None = None
        self.most = MOST_CAPTURE if name == "capture" else MOST_FILE

    @property
    def place(self) -> int:
        """The place of the next byte."""
        return self.begin + self.at

    def fault(self, words: str) -> Fault:
        return Fault(f"{self.before}{self.name}: {words}{self.after}")

    def want(self, count: int) -> bool:
        """Reads on where fewer than `count` bytes follow in the window. Gives whether anything was read."""
        found = left = len(self.text) - self.at
        if left >= count or self.more is None:
            return False
        self.pass_rest()
        pieces = [self.text[self.at :]]
        while found < count and self.more is not None:
            pieces.append(self.more(PIECE))
            found += len(pieces[-1])
            if not pieces[-1]:
                self.more = None
        self.text, self.begin, self.at = b"".join(pieces), self.begin + self.at, 0
        return found > left

    def pass_rest(self) -> None:
        """Lets go of what was read."""
        if self.passed:
            self.passed(self.text[: self.at])
            self.text, self.begin, self.at = self.text[self.at :], self.begin + self.at, 0

    def ran_out(self) -> Fault:
        """The fault of an input that ends too early, or has more bytes than a part may have."""
        end = self.begin + len(self.text)
        fault = self.fault("too-long" if end > self.most else f"truncated at {end}")
        fault.hint = self.hint
        return fault

    def take(self, count: int) -> bytes:
        """The next `count` bytes."""
        if self.at + count > len(self.text):
            self.want(count)
        end = self.at + count
        if end > len(self.text) or self.begin + end > self.most:
            raise self.ran_out()
        begin, self.at = self.at, end
        return self.text[begin:end]

    def pieces(self, count: int) -> Iterator[bytes]:
        """The next `count` bytes in pieces, as they are in the window."""
        while count:
            self.want(1)
            piece = self.text[self.at : min(self.at + count, self.limit())]
            if not piece:
                raise self.ran_out()
            self.at += len(piece)
            count -= len(piece)
            yield piece

    def number(self, size: int) -> int:
        return int.from_bytes(self.take(size), "big")

    def within(self, size: int, least: int, most: int, fault: str = "form at {at}") -> int:
        """A number of `size` bytes, from least to most; any other is this fault."""
        at, number = self.place, self.number(size)
        if not least <= number <= most:
            raise self.fault(fault.format(at=at, number=number))
        return number

    def magic(self, magics: list[bytes], fault: str = "form") -> int:
        """Which of these magics the part begins with, counted from 1; a byte that is in none of them is wrong."""
        found = b""
        for at in range(len(magics[0])):
            found += self.take(1)
            if found[at:] not in [magic[at : at + 1] for magic in magics]:
                raise self.fault(f"{fault} at {at}")
        return 1 + magics.index(found)

    def limit(self) -> int:
        """The end of the bytes in the window that may be of the part."""
        return min(len(self.text), self.most - self.begin)
