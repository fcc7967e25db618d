"""The inputs of the tools: files by their names, and standard input, whose name is -."""
from __future__ import annotations

import functools
import os
import sys
from collections.abc import Callable, Iterator
from typing import Protocol

from zygos_tools.files import kinds
from zygos_tools.files.formats import FORMATS, Output, replies_records, replies_version, skim
from zygos_tools.files.part import PIECE, Fault, Part

# how many bytes say which file of zygos a file is
MAGIC = 6
# what to do about a text, and about another file than a capture
TEXT = {kinds.TEXT: "tools/capture makes a capture of text"}
NO_CAPTURE = {kinds.REPLIES: "the capture comes first", kinds.JOURNAL: "a capture is read here",
              kinds.ITEMS: "a capture is read here", **TEXT}
NO_REPLIES = {kinds.CAPTURE: "the replies file comes second", kinds.JOURNAL: "replies are read here",
              kinds.ITEMS: "replies are read here"}
NO_ITEMS = {kind: "items are read here" for kind in (kinds.CAPTURE, kinds.REPLIES, kinds.JOURNAL)}


class Reads(Protocol):
    """A file that gives what there is, up to a number of bytes."""

    def read1(self, count: int) -> bytes: ...


def name_of(name: str) -> str:
    """The name of an input as messages have it."""
    return "standard input" if name == "-" else name


def pieces(name: str) -> Callable[[int], bytes]:
    """A function that reads an input: up to `count` of its next bytes, and none at its end."""
    if name == "-" and sys.stdin is None:
        raise Fault("standard input is closed")
    file: Reads = sys.stdin.buffer if name == "-" else open(name, "rb")  # type: ignore[assignment]

    def more(count: int) -> bytes:
        try:
            return file.read1(count)
        except OSError as error:
            raise OSError(error.errno, error.strerror, name_of(name)) from None

    return more


def read(name: str, is_wanted: Callable[[bytes], bool] = lambda head: True) -> bytes:
    """The bytes of an input; only the first ones, if these say that it is not what is wanted."""
    more = pieces(name)
    head = beginning(more)
    return b"".join([head, *iter(functools.partial(more, PIECE), b"")]) if is_wanted(head) else head


def pieces_of(name: str) -> Iterator[bytes]:
    """The bytes of an input, piece by piece."""
    return iter(functools.partial(pieces(name), PIECE), b"")


def beginning(more: Callable[[int], bytes], head: bytes = b"") -> bytes:
    """The first bytes of an input, as many as say what it is; it begins with `head`."""
    while len(head) < (MAGIC if head[:MAGIC] in FORMATS else kinds.HEAD) and (piece := more(PIECE)):
        head += piece
    return head


def expect(name: str, head: bytes, cures: dict[str, str]) -> None:
    """Refuses an input that is of another kind: of one with a cure, or of none of zygos's files."""
    kind = kinds.kind_of(head)
    is_other = kind in cures and kind != kinds.TEXT
    if is_other or head[:MAGIC] not in FORMATS and kind or kind == kinds.CHANGED:
        raise Fault(f"{name_of(name)}: {kinds.told(head, cures)}")


def expect_at(file: int, name: str, cures: dict[str, str]) -> None:
    """The same of a file that can be read at any place."""
    try:
        head = os.pread(file, kinds.HEAD, 0)
    except OSError as error:
        raise OSError(error.errno, error.strerror, name_of(name)) from None
    if head:
        expect(name, head, cures)


def parts(name: str, cures: dict[str, str] = TEXT) -> Iterator[Part]:
    """The files of zygos in an input, one after the other; a fault names the input, the part and the place in it. An
    input that begins as one with a cure is refused.

    The caller reads each part to its end, or takes nothing of it: then it is read here, for its faults.
    """
    more, text, at = pieces(name), b"", 0
    while True:
        while len(text) < MAGIC and (piece := more(PIECE)):
            text += piece
        if not text:
            return
        if not at:
            text = beginning(more, text)
            expect(name, text, cures)
        if text[:MAGIC] not in FORMATS:
            raise Fault(f"{name_of(name)}: no capture, journal or replies file begins at byte {at}")
        after = f", in the part that begins at byte {at}" if at else ""
        part = Part(FORMATS[text[:MAGIC]], text, more, f"{name_of(name)}: ", after)
        yield part
        if not part.place:
            skim(part)
        at, text = at + part.place, part.text[part.at :]


def capture_alone(name: str) -> bytes:
    """The bytes of an input that is one capture; anything after its end is refused."""
    more, gathered = pieces(name), list[bytes]()
    head = beginning(more)
    expect(name, head, NO_CAPTURE)
    part = Part("capture", head, more, f"{name_of(name)}: ")
    part.passed = gathered.append
    skim(part)
    part.pass_rest()
    if part.want(MAGIC) or part.text:
        what = FORMATS.get(part.text[:MAGIC])
        after = f"a {what} begins" if what else "bytes follow the end of the capture"
        raise Fault(f"{name_of(name)}: {after} at byte {part.place}; a capture is read alone")
    return b"".join(gathered)


def check_items(name: str) -> None:
    """Reads an input that is one items file to its end, for its faults."""
    for part in parts(name, NO_ITEMS):
        if part.name != "items":
            raise part.fault("items are read here")


def outputs_in(name: str, hint: str = "", capture_hint: str = "", second_hint: str = "",
               keep: Callable[[bytes], object] | None = None) -> tuple[list[Output], bool]:
    """The outputs of the replies file in an input, and whether a journal comes before it.

    `hint` says what writes one if there is none, `capture_hint` and `second_hint` what may be done about a capture or
    something after the replies. `keep` is given the bytes of the replies file.
    """
    found, has_journal, is_empty = None, False, True
    for part in parts(name, {}):
        is_empty = False
        if found is not None or part.name == "capture":
            raise part.fault(f"not expected here{capture_hint if part.name == 'capture' else second_hint}")
        if part.name == "replies":
            part.passed = keep
            found = list(replies_records(part, replies_version(part)))
            part.pass_rest()
        has_journal = has_journal or part.name == "journal"
    if is_empty and not hint:
        raise Fault(f"{name_of(name)}: {kinds.told(b'')}")
    if found is None:
        raise Fault(f"{name_of(name)}: no replies file in it{hint}")
    return found, has_journal
