"""The words of the tools, and how they end.

A tool ends quietly when it is interrupted or the reader of its output goes away. At a fault of its input, or of reading
and writing, it prints one line that says where, and ends with status 1; words that it does not know have status 2. A
tool whose verdict has status 1 tells these apart. What nobody foresaw is one line too, with status 70: it names the
file with the trace.
"""
from __future__ import annotations

import io
import os
import re
import signal
import sys
import tempfile
import time
import traceback
from collections.abc import Callable, Container, Iterable
from typing import Any, NoReturn

from zygos_tools.cli import advice, screen, version
from zygos_tools.files.outputs import STANDARD_OUTPUT
from zygos_tools.files.part import Fault

# an option: what it takes, in the words of a message, and how a word is read, which gives None for a wrong one
Option = tuple[str, Callable[[str], Any]]
UNFORESEEN = 70
# the statuses of what ends a tool with a line
FAILED: dict[type[Exception], int] = {Fault: 1, OSError: 1, MemoryError: 1}
# signals that end a tool once it has removed what it had begun to write
ENDING = (signal.SIGINT, signal.SIGTERM, signal.SIGHUP)
# how long a tool that was ended has for what is left to do
SECONDS_OF_ENDING = 1
FILE: Option = ("a file", lambda word: word or None)
OUTPUT: Option = ("a file other than standard output", lambda word: word if word not in ("", "-") else None)


class End(Exception):
    """The tool ends with this status."""

    def __init__(self, status: int) -> None:
        super().__init__(status)
        self.status = status


class Stop(Exception):
    """The tool ends with a line on standard error and a status."""

    def __init__(self, why: str, status: int = 1) -> None:
        super().__init__(why)
        self.status = status


class Signalled(BaseException):
    """A signal ends the tool."""

    def __init__(self, number: int) -> None:
        super().__init__(number)
        self.number = number


def end(status: int) -> NoReturn:
    raise End(status)


def stop(why: str, status: int = 1) -> NoReturn:
    raise Stop(why, status)


def unknown(word: str, known: Iterable[str] = ()) -> NoReturn:
    """The tool ends, as it has no such option; a known one that is much like it may be meant."""
    from difflib import get_close_matches  # which is hardly ever needed
    names = [name.lstrip("-") for name in known]
    meant = "".join(f"; did you mean --{name}?" for name in get_close_matches(word.lstrip("-"), names, 1, 0.8))
    stop(f"no such option: {word}{meant or ';'} --help lists them", 2)


def number(least: int, most: int | None = None) -> Option:
    """An option that takes a number of this range."""
    def read_number(word: str) -> int | None:
        is_number = re.fullmatch("[0-9]{1,18}", word) and least <= int(word) and (most is None or int(word) <= most)
        return int(word) if is_number else None

    return f"a number of {least} or more" if most is None else f"a number from {least} to {most}", read_number


def options(words: Iterable[str], known: dict[str, Option | None],
            several: Container[str] = ()) -> tuple[dict[str, Any], list[str]]:
    """The values of the options among the words, by their names, and the other words, which are the files.

    `known` has the options of the tool. One that takes nothing has None there, and then the value True. Those of `several`
    may be given more than once, and have a list of values.
    """
    found: dict[str, Any] = {}
    files: list[str] = []
    rest = list(words)
    while rest:
        word = rest.pop(0)
        name, joined, value = word.partition("=")
        if word == "--":
            return found, files + rest
        if not word.startswith("-") or word == "-":
            files.append(word)
        elif name not in known:
            unknown(name, known)
        elif (option := known[name]) is not None:
            if not joined and rest and rest[0].startswith("--"):
                stop(f"{name} takes {option[0]}, not {rest[0]}", 2)
            one = value_of(name, option, [value] if joined else rest)
            found[name] = [*found.get(name, ()), one] if name in several else one
        elif joined:
            stop(f"{name} takes no value", 2)
        else:
            found[name] = True
    return found, files


def value_of(name: str, option: Option, rest: list[str]) -> Any:
    """The value of an option, whose word is the first of these."""
    takes, read_word = option
    if not rest:
        stop(f"{name} takes {takes}", 2)
    word = rest.pop(0)
    value = read_word(word)
    if value is None:
        stop(f"{name} takes {takes}, not {word or 'nothing'}", 2)
    return value


# ---- how a tool ends


def one_line(text: object) -> str:
    """A text without ends of lines."""
    return " ".join(str(text).split())


def unforeseen(error: BaseException) -> str:
    """A line about what nobody foresaw, whose trace is kept in a file."""
    what = f"this is a fault of the tool: {type(error).__name__}: {one_line(error)[:200]}"
    try:
        file, name = tempfile.mkstemp(prefix="zygos-", suffix=".trace")
        with open(file, "w", encoding="utf-8", errors="backslashreplace") as kept:
            kept.writelines(traceback.format_exception(type(error), error, error.__traceback__))
    except OSError as fault:
        return f"{what}; its trace could not be written: {fault.strerror}"
    return f"{what}; please report it with the trace in {name}"


def of_system(error: OSError) -> str:
    """A line about a file that cannot be read or written."""
    return f"{error.filename or STANDARD_OUTPUT}: {error.strerror or one_line(error)}"


def signalled(number: int, _: object) -> NoReturn:
    """The handler of the first ending signal. One Ctrl-C may come twice, as from `timeout`, so what comes next waits a
    second for the tool to remove what it had begun to write."""
    last = time.monotonic() + SECONDS_OF_ENDING

    def end_at_once(again: int, _: object) -> None:
        if time.monotonic() > last:
            signal.signal(again, signal.SIG_DFL)
            signal.raise_signal(again)

    handle_endings(end_at_once)
    raise Signalled(number)


def repeat_signal(lost: Any) -> None:
    """Where Python would only print what was raised, as in a destructor, an ending signal is raised anew."""
    if isinstance(lost.exc_value, Signalled):
        handle_endings(signalled)
        signal.raise_signal(lost.exc_value.number)
    else:
        sys.__unraisablehook__(lost)


def ending_signals() -> list[signal.Signals]:
    """The signals that end a tool. A hangup that is ignored, as nohup has it, stays ignored."""
    return [number for number in ENDING if number != signal.SIGHUP or signal.getsignal(number) != signal.SIG_IGN]


def handle_endings(handler: signal.Handlers | Callable[[int, object], None]) -> None:
    """From now on the ending signals have this handler."""
    for number in ending_signals():
        signal.signal(number, handler)


def fork() -> int:
    """Makes a process, which an ending signal ends at once: none comes before that holds. Gives its number, or 0 in it."""
    before = signal.pthread_sigmask(signal.SIG_BLOCK, ENDING)
    try:
        child = os.fork()
        if not child:
            handle_endings(signal.SIG_DFL)
        return child
    finally:
        signal.pthread_sigmask(signal.SIG_SETMASK, before)


def tell_failures_apart() -> None:
    """From now on status 1 is a verdict, and what ends the tool with a line has the statuses of the program."""
    FAILED.update({Fault: 3, OSError: 5, MemoryError: 6})


def status_of(fault: Exception) -> int:
    """The status after what ends a tool."""
    return next(status for kind, status in FAILED.items() if isinstance(fault, kind))


def told(fault: Exception) -> list[str]:
    """What is printed about a fault of a file, of reading and writing, or of memory: a line, and perhaps what to do."""
    if isinstance(fault, MemoryError):
        return ["out of memory; record a shorter time"]
    if isinstance(fault, OSError):
        return [of_system(fault)]
    hint = getattr(fault, "hint", "")
    cure = None if hint else advice.on_fault(str(fault))
    return [f"{fault}{hint}", *([cure] if cure else [])]


def leave(*lines: str, status: int) -> NoReturn:
    """Ends the process with lines, after what was printed."""
    try:
        if sys.stdout is not None:
            sys.stdout.flush()
    except (OSError, ValueError):
        pass
    for line in lines:
        screen.say(line)
    os._exit(status)  # what could not be written is not tried again


def carried_out(main: Callable[[list[str]], object], page: str) -> int:
    """Carries out a tool with its words. Gives its status."""
    status = 0
    try:
        if {"-h", "--help"} & set(sys.argv[1:]):
            print(screen.as_called(page.strip()))
        elif "--version" in sys.argv[1:]:
            print(*version.lines(screen.NAME), sep="\n")
        else:
            main(sys.argv[1:])
    except End as end_of:
        status = end_of.status
    sys.stdout.flush()
    return status


def guarded(main: Callable[[list[str]], object], page: str) -> int:
    """Carries out a tool with its words. Gives its status, or ends the process with a line."""
    if sys.stdout is None:
        leave("standard output is closed", status=FAILED[OSError])
    if isinstance(sys.stdout, io.TextIOWrapper):
        sys.stdout.reconfigure(errors="backslashreplace")
    try:
        return carried_out(main, page)
    except Stop as why:
        leave(str(why), status=why.status)
    except (Fault, MemoryError, OSError) as fault:
        leave(*told(fault), status=status_of(fault))
    except Exception as error:
        leave(unforeseen(error), status=UNFORESEEN)


def run(main: Callable[[list[str]], object], page: str, name: str | None = None) -> NoReturn:
    """Runs a tool with its words, and ends the process; `page` is what it prints for --help, and `name` how its lines begin
    if not with the name under which it was called."""
    screen.NAME = name or screen.NAME
    signal.signal(signal.SIGPIPE, signal.SIG_DFL)
    sys.unraisablehook = repeat_signal
    try:
        handle_endings(signalled)
        status = guarded(main, page)
        handle_endings(signal.SIG_DFL)
    except Signalled as ending:
        handle_endings(signal.SIG_DFL)
        os.kill(os.getpid(), ending.number)
        os._exit(128 + ending.number)
    sys.exit(status)
