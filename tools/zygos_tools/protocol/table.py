"""The commands of memcached's text protocol, each in one line: how it is sent and answered, and what it does to items.

The forms of those that zygos serves, as docs/PROFILE.md has them, are in meaning.py; the lines of the others are faulty
there. What is here is true of a memcached: which words are keys, the length of a block or a unique, which answers a
command has, and which of these the flag `q` hides.
"""
from __future__ import annotations

from collections.abc import Sequence
from dataclasses import dataclass

from zygos_tools.protocol.meaning import FORMS, Command, line_of, words_of

ERRORS = (b"ERROR", b"CLIENT_ERROR", b"SERVER_ERROR")
META_CODES = (b"HD", b"VA", b"EN", b"NS", b"EX", b"NF")
STORED = "STORED NOT_STORED EXISTS NOT_FOUND"


@dataclass(frozen=True)
class Kind:
    """A command. Places are numbers of words of its line, from 0 on; 0 where there is no such word.

    `does` is what it does to the item of its key, as a call of the profile is named. `answers` are the first words of
    its answers besides errors; `0` is a number, and without any each answer is taken. Its keys begin at `key`, `block`
    is the length of its block, and `unique` the unique that it names. The flags of a meta command begin at `flags`, and
    `hidden` are the answers that its flag `q` hides. Its answers may show a unique (`shows`), and it may give an item
    another exptime, and no more (`touches`).
    """

    name: str
    does: str = ""
    answers: str = ""
    key: int = 1
    block: int = 0
    unique: int = 0
    flags: int = 0
    hidden: str = ""
    noreply: bool = False
    shows: bool = False
    touches: bool = False

    def fits(self, word: bytes) -> bool:
        """Whether an answer that begins with this word can be one of the command; errors always can."""
        text = word.decode("latin-1")
        words = self.answers.split()
        return word in ERRORS or not words or text in words or "0" in words and word.isdigit()


KINDS = {kind.name: kind for kind in (
    Kind("get", "get", "VALUE END"),
    Kind("gets", "get", "VALUE END", shows=True),
    Kind("gat", "get", "VALUE END", key=2, touches=True),
    Kind("gats", "get", "VALUE END", key=2, shows=True, touches=True),
    Kind("bget", "get", "VALUE END"),
    Kind("set", "set", STORED, block=4, noreply=True),
    Kind("add", "add", STORED, block=4, noreply=True),
    Kind("replace", "replace", STORED, block=4, noreply=True),
    Kind("append", "append", STORED, block=4, noreply=True),
    Kind("prepend", "prepend", STORED, block=4, noreply=True),
    Kind("cas", "cas", STORED, block=4, unique=5, noreply=True),
    Kind("incr", "incr", "0 NOT_FOUND", noreply=True),
    Kind("decr", "decr", "0 NOT_FOUND", noreply=True),
    Kind("delete", "delete", "DELETED NOT_FOUND", noreply=True),
    Kind("touch", "touch", "TOUCHED NOT_FOUND", noreply=True, touches=True),
    Kind("mg", "get", "HD VA EN", flags=2, hidden="EN", shows=True),
    Kind("ms", "set", "HD NS EX NF", block=2, unique=3, flags=3, hidden="HD"),
    Kind("md", "delete", "HD NF EX", unique=2, flags=2, hidden="HD NF"),
    Kind("ma", "arithmetic", "HD VA NF NS EX", unique=2, flags=2, hidden="HD NF"),
    Kind("me", "", "ME EN"),
    Kind("mn", "", "MN", key=0),
    Kind("version", "", "VERSION", key=0),
    Kind("verbosity", "", "OK", key=0, noreply=True),
    Kind("stats", "", "STAT END RESET OK ITEM PREFIX", key=0),
    Kind("flush_all", "flush", "OK", key=0, noreply=True),
    Kind("cache_memlimit", "", "OK", key=0),
    Kind("extstore", key=0), Kind("slabs", key=0), Kind("lru", key=0), Kind("lru_crawler", key=0), Kind("watch", key=0),
    Kind("shutdown", key=0), Kind("quit", key=0),
)}
BY_WORD = {name.encode(): kind for name, kind in KINDS.items()}
NO_KIND = Kind("", key=1)

# what `does` may say: it changes nothing; it stores a value; it makes one of what is there; it may make an item where
# there is none
READING, STORING, JOINING = ("get", "touch", ""), ("set", "add", "replace", "cas"), ("append", "prepend")
COUNTING, MAKING = ("incr", "decr", "arithmetic"), ("set", "add", "arithmetic")
# after which two servers that answer alike have the same item
SHOWING = ("get", "set", "delete")
# the first words of answers that show of which command they are
TELLING = {"version": b"VERSION ", "stats": b"STAT "}

# by what a command does, the first words of answers that say that there is an item, and that there is none
THERE = {
    "get": ("HD VA", "EN"), "add": ("NOT_STORED NS", "STORED HD"), "cas": ("STORED EXISTS HD EX", "NOT_FOUND NF"),
    "delete": ("DELETED HD", "NOT_FOUND NF"), "incr": ("0", "NOT_FOUND"), "decr": ("0", "NOT_FOUND"),
    **dict.fromkeys(("replace", "append", "prepend"), ("STORED HD", "NOT_STORED NS")), "touch": ("TOUCHED", "NOT_FOUND"),
}
# the words of classic answers that codes of meta answers are, by what the command does
CLASSIC = {"NS": "NOT_STORED", "EX": "EXISTS", "NF": "NOT_FOUND", "HD": "STORED"}
# the answers after which nothing has changed
SAME = (b"NOT_STORED", b"EXISTS", b"NOT_FOUND", *ERRORS)
NOT_A_NUMBER = b"CLIENT_ERROR cannot"


def kind_of(line: bytes) -> Kind | None:
    """The command of a line, if memcached has it."""
    words = words_of(line[:MOST_NAME])
    return BY_WORD.get(words[0]) if words else None


MOST_NAME = 400


def does(command: Command) -> str:
    """What a command of the profile does to the item of its key; a faulty line does nothing here."""
    if command.call is not None:
        return command.call
    kind = KINDS.get(command.verb)
    return kind.does if kind is not None else ""


def action_of(command: Command, frame: bytes) -> str:
    """What a command does to the item of its key; of a faulty line, what it may do on another server."""
    if command.verb != "fault":
        return does(command)
    kind = kind_of(line_of(frame))
    return kind.does if kind else ""


def is_touching(line: bytes) -> bool:
    """Whether a line gives an item another exptime, and does no more to it."""
    kind = kind_of(line)
    return kind is not None and kind.touches


def keys_of(command: Command, line: bytes) -> Sequence[bytes]:
    """The keys of a command; those of a line that is faulty here too, for a memcached may serve it."""
    if command.verb != "fault":
        return command.keys
    words = words_of(line)
    kind = BY_WORD.get(words[0], NO_KIND) if words else NO_KIND
    return words[kind.key :] if kind.key > 1 else words[1:2]


def is_served(kind: Kind) -> bool:
    """Whether zygos serves a command, in some form."""
    return kind.name in FORMS or kind.name in ("mg", "ms", "md", "mn")


def is_there(action: str, answer: bytes) -> bool | None:
    """Whether an answer to a command that does this says that its key has an item; None where it says nothing of it."""
    word = answer.split(None, 1)[0] if answer.strip() else b""
    there, none = (words.split() for words in THERE.get(action, ("", "")))
    if word.decode("latin-1") in there or "0" in there and (word.isdigit() or answer.startswith(NOT_A_NUMBER)):
        return True
    return False if word.decode("latin-1") in none else None


def classic_word(action: str, word: bytes) -> bytes:
    """The first word of an answer, and for a code of a meta answer the classic word that says the same."""
    found = CLASSIC.get(word.decode("latin-1"))
    if found is None or action in READING:
        return word
    return b"DELETED" if word == b"HD" and action == "delete" else found.encode()
