"""Where the commands of a connection end, whether they are answered, and where the answers end; both come in pieces.

A command is what a memcached takes for one, also of those that docs/PROFILE.md leaves out. Of the commands of binary
clients, and of lines that a server may take for this or that, nothing exact is said.
"""
from __future__ import annotations

from collections import deque
from collections.abc import Iterator
from typing import Generic, NamedTuple, Protocol, TypeVar

from zygos_tools.protocol.answers import LAST_STAT
from zygos_tools.protocol.cutting import NOT_YET, Cutter
from zygos_tools.protocol.table import BY_WORD, ERRORS, META_CODES, NO_KIND

# the commands whose flag `q` hides answers, with these
HIDDEN = {word: tuple(kind.hidden.encode().split()) for word, kind in BY_WORD.items() if kind.hidden}
# the commands whose answers begin with a code, and these codes
META, SHORT = (*HIDDEN, b"me"), (*META_CODES, b"ME")
# the commands that may name a unique
NAMING = tuple(word for word, kind in BY_WORD.items() if kind.unique)
CODES = (*META_CODES, *ERRORS)
# first bytes that are not those of text
ODD = {0x80: "the binary protocol", 0x16: "TLS"}
# the first words of lines after which an answer goes on, and how others begin
LONG, KEY = (b"VALUE", b"STAT", b"ITEM", b"PREFIX", b"mg"), b"key="
# the first words of lines that name a key or may show a unique, and how many words they have where they do neither
ITEMS = {b"VALUE": 1, b"VA": 2, b"HD": 1}
# which word of a line is the length of its block
SIZES = {b"VALUE": 3, b"VA": 1}

ALWAYS, PERHAPS, NEVER = "always", "perhaps", "never"


class Command(NamedTuple):
    """A command: its first word, when it is answered, the words of its line, and where it ends in the bytes that were fed."""

    verb: bytes
    answered: str
    words: list[bytes]
    end: int


class Answer(NamedTuple):
    """An answer: the first word of its last line, or VA, the words of its lines with a key or a unique, and where it ends."""

    word: bytes
    items: list[list[bytes]]
    end: int


class Noted(Protocol):
    """What is noted of a command that was sent."""

    @property
    def command(self) -> Command: ...


Sent = TypeVar("Sent", bound=Noted)


def number(words: list[bytes], at: int) -> int | None:
    """The number that a word spells, if it is one of few digits; else None."""
    return int(words[at]) if len(words) > at and words[at].isdigit() and len(words[at]) <= 10 else None


def words_of(line: bytes) -> list[bytes]:
    """The words of a line without its line feed. Only spaces are between words: a tab is part of one."""
    words = line.removesuffix(b"\r").split(b" ")
    return [word for word in words if word] if b"" in words else words


def command_of(words: list[bytes]) -> tuple[bytes, str, int | None]:
    """The first word of a line, when it is answered, and the length of its block; None where it has none."""
    verb = words[0] if words else b""
    kind = BY_WORD.get(verb, NO_KIND)
    size = number(words, kind.block) if kind.block else None
    if kind.flags:
        is_quiet = any(word.startswith(b"q") for word in words[kind.flags :])
        return verb, PERHAPS if is_quiet else ALWAYS, size
    return verb, NEVER if kind.noreply and words[-1] == b"noreply" else ALWAYS, size


def can_answer(word: bytes, verb: bytes) -> bool:
    """Whether an answer that begins with a word can be that of a command with the flag `q`."""
    return word in CODES and word not in HIDDEN[verb]


class Commands(Cutter):
    """Cuts what a client sends into commands, up to a `quit`."""

    def __init__(self) -> None:
        super().__init__(keeps=False)
        self.waiting: tuple[bytes, str, list[bytes]] = b"", NEVER, []
        self.has_quit = False
        # the lines of the last bytes that may name a unique, each after the place of its end
        self.naming: list[tuple[int, bytes]] = []
        self.length = 0

    def feed(self, text: bytes) -> Iterator[Command]:
        """The commands that end in these further bytes; a `quit` is the last one."""
        self.naming, self.length = [], len(text)
        for whole, _, end in self.frames(text, self.end_of):
            verb, answered, words = self.waiting
            self.has_quit = self.is_over = verb == b"quit"
            yield Command(verb, NEVER if self.has_quit else answered, words, end - len(whole) + len(text))

    def end_of(self, text: bytes, at: int) -> int:
        """Where the command ends that begins at a place."""
        stop = text.find(b"\n", at)
        if stop < 0:
            return NOT_YET
        line = text[at:stop]
        words = words_of(line)
        verb, answered, size = command_of(words)
        if verb in NAMING:
            self.naming.append((stop + 1 - len(text) + self.length, line))
        self.waiting = verb, answered, words
        return stop + 1 if size is None else stop + size + 3


class Answers(Cutter):
    """Cuts what a server sends into answers."""

    def __init__(self) -> None:
        super().__init__(keeps=False)
        # the first word of the last line, and what the answer has so far that this line is of
        self.word = b""
        self.items: list[list[bytes]] = []
        # whether that line is the last one of `stats sizes_enable`
        self.is_last = False

    def feed(self, text: bytes) -> Iterator[Answer]:
        """The answers that end in these further bytes."""
        for whole, _, end in self.frames(text, self.end_of):
            if (self.word not in LONG or self.is_last) and not self.word.startswith(KEY):
                items, self.items = self.items, []
                yield Answer(self.word, items, end - len(whole) + len(text))

    def end_of(self, text: bytes, at: int) -> int:
        """Where the line ends that begins at a place, with its block."""
        stop = text.find(b"\n", at)
        if stop < 0:
            return NOT_YET
        words = words_of(text[at:stop])
        word = self.word = words[0] if words else b""
        self.is_last = word == b"STAT" and LAST_STAT.match(text[at : stop + 1]) is not None
        if word in ITEMS and len(words) > ITEMS[word]:
            self.items.append(words)
        size = number(words, SIZES[word]) if word in SIZES else None
        return stop + 1 if size is None else stop + size + 3


class Pending(Generic[Sent]):
    """The commands of a connection that wait for their answers, in their order; of some it is sure that one comes."""

    def __init__(self) -> None:
        self.commands: deque[Sent] = deque()
        self.sure = 0

    def add(self, sent: Sent) -> None:
        """Adds a command that may be answered, with what is noted of it."""
        self.commands.append(sent)
        self.sure += sent.command.answered == ALWAYS

    def take(self, answer: Answer) -> Sent | None:
        """What was noted of the command that an answer belongs to; None where there is none."""
        waiting = self.commands
        while waiting:
            sent = waiting.popleft()
            if sent.command.answered == ALWAYS or can_answer(answer.word, sent.command.verb):
                self.sure -= sent.command.answered == ALWAYS
                return sent
        return None

    def clear(self) -> int:
        """Waits no more for answers; gives how many were to come."""
        count, self.sure = self.sure, 0
        self.commands.clear()
        return count


class Pace:
    """What passes on a connection, and how many commands wait for their answer.

    Where some have the flag `q` it is not known which meta commands the answers of these belong to: then the other
    commands are counted alone.
    """

    def __init__(self) -> None:
        self.is_new = self.is_text = True
        self.commands, self.answers = Commands(), Answers()
        # of each command that waits for its answer, in their order, whether it is a meta command
        self.waiting: deque[bool] = deque()
        self.meta = 0
        self.has_quiet = False
        self.nuls = 0  # how many lines have a NUL, where a memcached ends them

    @property
    def owed(self) -> int:
        """How many commands wait for their answer."""
        return len(self.waiting) - (self.meta if self.has_quiet else 0)

    def sent(self, text: bytes) -> int:
        """How many commands end in these further bytes of the client; a `quit` is none."""
        if self.is_new and text:
            self.is_new, self.is_text = False, text[0] not in ODD
        count, may_have_nul = 0, b"\0" in text or b"\0" in self.commands.begun
        for verb, answered, words, _ in self.commands.feed(text) if self.is_text else ():
            count += verb != b"quit"
            self.nuls += may_have_nul and any(b"\0" in word for word in words)
            if answered == PERHAPS:
                self.has_quiet = True
            elif answered == ALWAYS:
                self.waiting.append(verb in META)
                self.meta += verb in META
        return count

    def heard(self, text: bytes) -> int:
        """How many answers end in these further bytes of the server."""
        count = 0
        for answer in self.answers.feed(text) if self.is_text else ():
            count += 1
            self.take(answer)
        return count

    def take(self, answer: Answer) -> None:
        """Takes an answer. An error line is that of the first command that waits; with flags `q`, of a meta command."""
        is_meta = answer.word in SHORT
        if answer.word in ERRORS and self.waiting:
            is_meta = self.meta > 0 if self.has_quiet else self.waiting[0]
        if is_meta in self.waiting:
            self.waiting.remove(is_meta)
            self.meta -= is_meta

    def last(self, text: bytes) -> bytes:
        """These further bytes of the server, up to the end of the last answer that is waited for."""
        if not self.owed:
            return b""
        for answer in self.answers.feed(text):
            self.take(answer)
            if not self.owed:
                return text[: answer.end]
        return text
