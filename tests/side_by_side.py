"""Runs tests of unittest side by side, each in a process of its own, so that no test depends on another.

A test that ends its process, or takes too long, has failed, and the others run all the same.
"""
from __future__ import annotations

import io
import os
import pickle
import selectors
import signal
import sys
import tempfile
import time
import traceback
import unittest
from collections.abc import Iterator
from contextlib import suppress
from dataclasses import dataclass, field
from typing import IO

from checks import counts_of

# seconds after which a test is ended: it hangs
LONGEST = 5400
# what a process of Python begins with
USUAL = {signal.SIGPIPE: signal.SIG_IGN, signal.SIGINT: signal.default_int_handler, signal.SIGTERM: signal.SIG_DFL,
         signal.SIGHUP: signal.SIG_DFL}


@dataclass
class Outcome:
    """The result of a test: how many passed, failed and were skipped, and the texts about it; then its seconds of wall
    time and of a processor, with those of the processes that it started."""

    name: str
    counts: tuple[int, int, int] = (0, 1, 0)
    faults: list[str] = field(default_factory=list)
    left_out: list[str] = field(default_factory=list)
    wall: float = 0
    used: float = 0

    def sign(self) -> str:
        """The letter that shows it."""
        return "F" if self.counts[1] else "s" if self.counts[2] else "."

    def word(self) -> str:
        """The word that shows it."""
        return {"F": "FAILED", "s": "left out, wholly or in part", ".": "ok"}[self.sign()]


def tests_of(suite: unittest.TestSuite) -> Iterator[unittest.TestCase]:
    """The tests of a suite, and of those in it."""
    for one in suite:
        if isinstance(one, unittest.TestSuite):
            yield from tests_of(one)
        else:
            yield one


def outcome_of(test: unittest.TestCase) -> Outcome:
    """Runs a test in this process."""
    result = unittest.TestResult()
    unittest.TestSuite([test]).run(result)
    faults = [f"FAILED: {one}\n{text}" for one, text in [*result.failures, *result.errors]]
    return Outcome(test.id(), counts_of(result), faults, [f"{one}: {why}" for one, why in result.skipped])


class Running:
    """A test that runs in a process of its own, which writes the result to a file."""

    def __init__(self, test: unittest.TestCase) -> None:
        self.name, self.begun, self.is_ended = test.id(), time.monotonic(), False
        self.file: IO[bytes] = tempfile.TemporaryFile()
        sys.stdout.flush()
        self.process = os.fork()
        if not self.process:
            self.carry_out(test)
        self.end_of = os.pidfd_open(self.process)

    def carry_out(self, test: unittest.TestCase) -> None:
        """Runs the test in its process. The process leads a group, so that all processes that it leaves can be ended."""
        try:
            os.setpgid(0, 0)
            os.dup2(os.open(os.devnull, os.O_RDONLY), 0)
            for number, handler in USUAL.items():
                signal.signal(number, handler)
            found = outcome_of(test)
        except BaseException:
            found = Outcome(self.name, faults=[f"FAILED: {self.name}\n{traceback.format_exc()}"])
        with suppress(OSError, ValueError):
            sys.stdout.flush()
        os.pwrite(self.file.fileno(), pickle.dumps(found), 0)
        os._exit(0)

    def is_late(self) -> bool:
        return time.monotonic() > self.begun + LONGEST

    def end(self) -> None:
        """Ends the test and all processes that it has started."""
        self.is_ended = True
        for kill in (os.killpg, os.kill):
            with suppress(OSError):
                kill(self.process, signal.SIGKILL)

    def outcome(self) -> Outcome:
        """Returns the result of a test whose process has ended, and ends the processes that it left."""
        _, status, used = os.wait4(self.process, 0)
        os.close(self.end_of)
        with suppress(OSError):
            os.killpg(self.process, signal.SIGKILL)
        self.file.seek(0)
        with self.file:
            text = self.file.read()
        found = pickle.loads(text) if text else Outcome(self.name, faults=[f"FAILED: {self.name}\n{self.why(status)}\n"])
        found.wall, found.used = time.monotonic() - self.begun, used.ru_utime + used.ru_stime
        return found

    def why(self, status: int) -> str:
        """The reason why there is no result."""
        return f"it takes over {LONGEST} seconds" if self.is_ended else \
            f"its process ended early, with {os.waitstatus_to_exitcode(status)}"


def outcomes(tests: list[unittest.TestCase], jobs: int) -> Iterator[Outcome]:
    """Runs tests, `jobs` of them at a time, and yields the result of each when it ends."""
    waiting, running = tests[::-1], selectors.DefaultSelector()
    try:
        while waiting or running.get_map():
            while waiting and len(running.get_map()) < jobs:
                one = Running(waiting.pop())
                running.register(one.end_of, selectors.EVENT_READ, one)
            ended = [key.data for key, _ in running.select(1)]
            for key in list(running.get_map().values()):
                if key.data not in ended and key.data.is_late():
                    key.data.end()
            for one in ended:
                running.unregister(one.end_of)
                yield one.outcome()
    finally:
        for key in running.get_map().values():
            key.data.end()


def report(found: list[Outcome], has_times: bool) -> str:
    """The text that is printed after the last test."""
    page = io.StringIO()
    for one in found:
        for fault in one.faults:
            print(f"{'=' * 70}\n{fault}", file=page)
    if has_times:
        print("seconds, and those of a processor, slowest first", file=page)
        for one in sorted(found, key=lambda one: -one.used):
            print(f"{one.wall:8.1f} {one.used:8.1f}  {one.name}", file=page)
    for one in found:
        for why in one.left_out:
            print(f"left out: {why}", file=page)
    return page.getvalue()


def run(suite: unittest.TestSuite, jobs: int, is_wordy: bool, has_times: bool) -> bool:
    """Runs a suite, and prints the results and, in a last line, their counts. Returns whether nothing failed."""
    begun, found = time.monotonic(), []
    for one in outcomes(list(tests_of(suite)), jobs):
        found.append(one)
        print(f"{one.name} ... {one.word()} ({one.wall:.1f} s)" if is_wordy else one.sign(), end="\n" if is_wordy else "", flush=True)
    print("" if is_wordy else "\n", end="")
    print(report(found, has_times), end="")
    passed, failed, skipped = (sum(one.counts[at] for one in found) for at in range(3))
    used = sum(one.used for one in found)
    print(f"{len(found)} tests in {time.monotonic() - begun:.0f} seconds, {used:.0f} of a processor, {jobs} at a time")
    print(f"{passed} passed, {failed} failed, {skipped} skipped", flush=True)
    return not failed
