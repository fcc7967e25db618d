"""How long a search takes, in processor time: it has a limit, and each key has a share of it.

A key whose calls take long to search so does not hold up the others: it is searched again once they are done.
"""
from __future__ import annotations

import contextlib
import time
from collections.abc import Callable, Iterator, Sequence

from zygos_tools.files.formats import shown
from zygos_tools.judging.events import Limited, Unknown, Verdict, brief, counted
from zygos_tools.judging.keys import Keys

# how many seconds a key is searched at first, and for how many keys are fitted to each other if nobody asked for more
FIRST, FITTING = 2.0, 30.0


class Late(Unknown):
    """A share of the time has passed."""


class Clock:
    """How much processor time the search has taken; after `seconds` it is given up. `show` is called about once a second.
    Without `is_asked` nobody asked for this time, and fitting keys to each other takes only a part of it."""

    def __init__(self, seconds: float | None = None, show: Callable[[str], None] | None = None, is_asked: bool = True):
        self.begun, self.seconds, self.show, self.is_asked = time.process_time(), seconds, show, is_asked
        self.began, self.shown, self.what = time.monotonic(), time.monotonic(), "reading"
        self.until: float | None = None

    def set(self, what: str) -> None:
        """What is done now."""
        self.what = what
        self.look()

    def no_limit(self) -> None:
        """From here on nothing is given up."""
        self.seconds = self.until = None

    def used(self) -> float:
        """How much time was taken."""
        return time.process_time() - self.begun

    def left(self) -> float | None:
        """How much time is left; None if there is no limit."""
        return None if self.seconds is None else max(0.0, self.seconds - self.used())

    def go_on_in(self, seconds: float | None) -> None:
        """From here on another process takes the time, of which so much is left."""
        self.begun, self.seconds, self.show = time.process_time(), seconds, None

    def look(self) -> None:
        """Gives up where the time has passed, or the share of it."""
        used, now = self.used(), time.monotonic()
        if self.seconds is not None and used > self.seconds:
            raise Unknown(f"{self.what}; given up after {counted(self.seconds, 'second')}; give --seconds more")
        if self.until is not None and used > self.until:
            raise Late(self.what)
        if self.show and now - self.shown >= 1:
            self.shown = now
            self.show(f"{now - self.began:.0f} s: {self.what}")

    @contextlib.contextmanager
    def share(self, seconds: float | None) -> Iterator[None]:
        """What is done takes at most so much time; as much as there is, if it is None."""
        self.until = None if seconds is None else self.used() + seconds
        try:
            yield
        finally:
            self.until = None

    def for_fitting(self) -> float | None:
        """For how long keys are fitted to each other: all the time that was asked for, or as much as was taken so far, and
        somewhat more."""
        return None if self.is_asked else FITTING + self.used()


def search(keys: Keys, names: Sequence[bytes], clock: Clock, faults: list[Verdict], is_first: bool = False) -> None:
    """Looks for the orders of keys; those that have none are among the faults. With `is_first` the first fault is raised.
    """
    late: list[bytes] = []
    for at, key in enumerate(names):
        clock.set(f"key {brief(key)}, {at + 1:,} of {len(names):,}")
        try:
            with clock.share(FIRST):
                keys.search([key])
        except Late:
            late.append(key)
        except Verdict as verdict:
            faults.append(verdict)
            if is_first:
                raise
    for at, key in enumerate(late):
        clock.set(f"key {brief(key)}, one of {len(late):,} that take long")
        left = clock.left()
        share = None if left is None else left / 2 / (len(late) - at)
        try:
            with clock.share(share):
                keys.search([key])
        except Late:
            faults.append(Limited(f"key {shown(key)}: given up after its share, {share or 0:.0f} seconds; give --seconds more",
                                  keys=[key]))
        except Verdict as verdict:
            faults.append(verdict)
        if is_first and faults:
            raise faults[-1]
