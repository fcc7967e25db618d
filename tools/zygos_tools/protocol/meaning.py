"""The commands of a stream, as docs/PROFILE.md says: how it is cut into frames, and what each frame means.

It is a part of the plain model (model.py), written from the tables of the page.
"""
from __future__ import annotations

import functools
import re
from collections.abc import Callable, Iterator, Sequence
from typing import Any, NamedTuple

from zygos_tools.files.formats import MOST_KEY, MOST_VALUE
from zygos_tools.protocol.cutting import NOT_YET, OVER, Cutter

MOST_LINE = 65536
STORAGE = ["set", "add", "replace", "append", "prepend"]

# the words after a command's name; those in brackets may be left out, and of `get` and `gets` the key is repeated
FORMS = {
    **{verb: "key flags exptime bytes [noreply]" for verb in STORAGE},
    "cas": "key flags exptime bytes unique [noreply]",
    "get": "key", "gets": "key", "delete": "key [zero] [noreply]",
    "incr": "key amount [noreply]", "decr": "key amount [noreply]",
    "version": "", "stats": "", "verbosity": "level [noreply]", "flush_all": "[zero] [noreply]", "quit": "",
}
# what the number of a word is below
BOUNDS = {"flags": 1 << 32, "bytes": 1 << 32, "level": 1 << 32, "unique": 1 << 64, "amount": 1 << 64, "zero": 1}

ERROR, BAD_LINE = b"ERROR", b"CLIENT_ERROR bad command line format"
BAD_DELTA, LONG_LINE = b"CLIENT_ERROR invalid numeric delta argument", b"CLIENT_ERROR line too long"
BAD_CHUNK, TOO_LARGE = b"CLIENT_ERROR bad data chunk", b"SERVER_ERROR object too large for cache"

# how many words must follow a meta command's name, the letters that it may have, and what the tokens of some say
LEAST = {"mn": 0, "mg": 1, "ms": 2, "md": 1}
LETTERS = {"mg": "vkfcsq", "ms": "FCMTkq", "md": "kq"}
TOKENS = {"F": "flags", "C": "unique", "T": "exptime", "M": "mode"}
MODES = {b"E": "add", b"A": "append", b"P": "prepend", b"R": "replace", b"S": "set"}


class Command(NamedTuple):
    """A command. `error` is the text of a faulty one, `numbers` has those of its words that are numbers, and a meta command
    has its letters without a token, and the name of its call."""

    verb: str
    keys: Sequence[bytes] = ()
    numbers: dict[str, int] = {}
    value: bytes | None = None
    quiet: bool = False
    error: bytes | None = None
    letters: str = ""
    call: str | None = None


Frame = tuple[Command, bytes]


# the lines of most commands, without their ends
KEY = rb"[^ \r\n]{1,%d}" % MOST_KEY
USUAL = re.compile(rb"(gets?) (%s(?: %s)*)|(%s) (%s) ([0-9]{1,9}) ([0-9]{1,9}) ([0-9]{1,9})( noreply)?"
                   % (KEY, KEY, "|".join(STORAGE).encode(), KEY))


# ---- commands


def faulty(error: bytes, quiet: bool = False) -> Command:
    return Command("fault", error=error, quiet=quiet)


def number_of(name: str, word: bytes) -> int | None:
    """The number that a word spells; None where it is a bad one."""
    if name == "exptime":
        return int(word) if re.fullmatch(b"-?[0-9]{1,19}", word) else None
    return int(word) if re.fullmatch(b"[0-9]{1,20}", word) and int(word) < BOUNDS[name] else None


def names_of(verb: str, count: int) -> list[str]:
    """The names of `count` words after a command's name, and of those that may follow."""
    return ["key"] * max(1, count) if verb in ("get", "gets") else FORMS[verb].split()


def has_noreply(names: list[str], words: list[bytes]) -> bool:
    """Whether the last word is the noreply word: the last one that there can be, or in place of the zero."""
    can_be = names[-1:] == ["[noreply]"] and words[-1:] == [b"noreply"]
    return can_be and (len(words) == len(names) or "[zero]" in names and len(words) == len(names) - 1)


def said_by(letter: str, token: bytes) -> Any:
    """What a letter's token says; None where it is a bad one."""
    if letter in "FCT":
        return number_of(TOKENS[letter], token)
    if letter == "M":
        return token.upper() if token.upper() in MODES else None
    return None if token else 0


def meta_of(verb: str, words: list[bytes]) -> Command:
    """The meta command of the words after its name; one that stores has no value yet."""
    if len(words) < LEAST[verb] or verb == "mn" and words:
        return faulty(ERROR)
    if verb == "mn":
        return Command(verb)
    key, *flags = words
    numbers: dict[str, Any] = {"flags": 0, "bytes": number_of("bytes", flags.pop(0))} if verb == "ms" else {}
    letters = "".join(flag[:1].decode("latin-1") for flag in flags)
    said = {letter: said_by(letter, flag[1:]) for letter, flag in zip(letters, flags)}
    is_listed = set(letters) <= set(LETTERS[verb]) and len(said) == len(letters)
    mode = said.pop("M", b"S")
    is_read = None not in [mode, *said.values(), *numbers.values()] and ("C" not in said or mode == b"S")
    if len(key) > MOST_KEY or not is_listed or not is_read:
        return faulty(BAD_LINE)
    numbers.update({TOKENS[letter]: number for letter, number in said.items() if letter in TOKENS})
    call = {"mg": "get", "md": "delete", "ms": "cas" if "C" in said else MODES[mode]}[verb]
    marks = "".join(letter for letter in letters if letter not in TOKENS)
    return Command(verb, [key], numbers, letters=marks, call=call)


def usual(getting: bytes | None, keys: bytes, storing: bytes, key: bytes, flags: bytes, exptime: bytes, size: bytes,
          noreply: bytes | None) -> Command:
    """The command of a usual line, by its words."""
    if getting:
        return Command(getting.decode(), keys.split(b" "))
    numbers = {"flags": int(flags), "exptime": int(exptime), "bytes": int(size)}
    return Command(storing.decode(), [key], numbers, quiet=noreply is not None)


def words_of(line: bytes) -> list[bytes]:
    """The words of a line: its longest runs of bytes other than the space."""
    return [word for word in line.split(b" ") if word]


def command_of(line: bytes) -> Command:
    """The command of a line; that of a storage line has no value yet."""
    if found := USUAL.fullmatch(line):
        return usual(*found.groups())
    words = words_of(line)
    verb = words.pop(0).decode("latin-1") if words else ""
    if verb in LEAST:
        return meta_of(verb, words)
    if verb not in FORMS:
        return faulty(ERROR)
    names = names_of(verb, len(words))
    if not sum("[" not in name for name in names) <= len(words) <= len(names):
        return faulty(ERROR)
    quiet = has_noreply(names, words)
    if "[noreply]" in names and len(words) == len(names) and not quiet:
        return faulty(ERROR)
    named = [(name.strip("[]"), word) for name, word in zip(names, words[:-1] if quiet else words)]
    keys = [word for name, word in named if name == "key"]
    if any(len(key) > MOST_KEY for key in keys):
        return faulty(BAD_LINE)
    spelt = {name: number_of(name, word) for name, word in named if name != "key"}
    numbers = {name: found for name, found in spelt.items() if found is not None}
    if len(numbers) < len(spelt):
        return faulty(BAD_DELTA if spelt.get("amount", 0) is None else BAD_LINE)
    return Command(verb, keys, numbers, quiet=quiet)


def line_of(frame: bytes) -> bytes:
    """The first line of a frame, without its end."""
    return frame[: frame.index(b"\n")].removesuffix(b"\r")


# the commands of short lines are kept, for these often come again
usual_command: Callable[[bytes], Command] = functools.lru_cache(1 << 15)(command_of)


def command_in(line: bytes) -> Command:
    """The command of a line with its end; that of a storage line has no value yet."""
    if len(line) > MOST_LINE + 1:
        return faulty(LONG_LINE)
    meant = usual_command if len(line) < 100 else command_of
    return meant(line[:-1].removesuffix(b"\r"))


def stored(command: Command, block: bytes) -> Command:
    """The command of a storage line with its block."""
    if command.numbers["bytes"] > MOST_VALUE:
        return faulty(TOO_LARGE, command.quiet)
    if block[-2:] != b"\r\n":
        return faulty(BAD_CHUNK, command.quiet)
    return command._replace(value=block[:-2])


# ---- frames


class Framer(Cutter):
    """Cuts a stream that comes in pieces into frames, up to a line `quit`."""

    def __init__(self) -> None:
        super().__init__()
        # the command of the last line that was read, and where that line ends
        self.command, self.line = Command(""), 0

    @property
    def has_quit(self) -> bool:
        """Whether the line `quit` has come."""
        return self.is_over

    def feed(self, piece: bytes) -> Iterator[Frame]:
        """The frames that end in a further piece, each after its command. They are all taken before the next piece."""
        for text, at, end in self.frames(piece, self.end_of):
            command = self.command if self.line == end else stored(self.command, text[self.line : end])
            yield command, text[at:end]

    def end_of(self, text: bytes, at: int) -> int:
        """Where the frame ends that begins at a place."""
        self.line = text.find(b"\n", at) + 1
        if not self.line:
            return NOT_YET
        self.command = command_in(text[at : self.line])
        if self.command.verb == "quit":
            return OVER
        return self.line + self.command.numbers["bytes"] + 2 if "bytes" in self.command.numbers else self.line


def framed(stream: bytes) -> Iterator[Frame]:
    """The frames of a whole stream, each after its command."""
    return Framer().feed(stream)


@functools.lru_cache(1 << 12)
def frames_of(stream: bytes) -> tuple[Frame, ...]:
    """The same, of a stream that is asked for again and again, as those of the sessions of a capture are."""
    return tuple(framed(stream))


@functools.lru_cache(1000)
def commands_of(stream: bytes) -> list[Command]:
    """The commands of the frames of a stream."""
    return [command for command, _ in framed(stream)]
