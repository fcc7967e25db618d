"""Counts that the processes of a recorder share: each process writes a row, and all read the sums."""
from __future__ import annotations

import fcntl
import mmap
import tempfile
from typing import Optional

from zygos_tools.files.formats import MOST_CONNECTIONS

# what is counted in a row; `size` is how many bytes the process gave to the capture of its current window
ROW = ("commands", "sent", "back", "open", "gone", "size")


class Board:
    """The rows of a number of processes; and how many connections have a number in the current window, and in the next
    one, which processes may already write while others do not."""

    def __init__(self, count: int) -> None:
        self.count, self.memory = count, mmap.mmap(-1, 8 * (2 + len(ROW) * count))
        self.cells = memoryview(self.memory).cast("Q")
        self.lock = tempfile.TemporaryFile()

    def row(self, at: int) -> memoryview:
        """The row of a process, as numbers in the order of ROW."""
        begin = 2 + at * len(ROW)
        return self.cells[begin : begin + len(ROW)]

    def sum(self, name: str) -> int:
        return sum(self.cells[2 + ROW.index(name) :: len(ROW)])

    def next_number(self, window: int) -> Optional[int]:
        """The next number of a connection; None if there are no more."""
        fcntl.lockf(self.lock, fcntl.LOCK_EX)
        try:
            number = self.cells[window % 2]
            if number == MOST_CONNECTIONS:
                return None
            self.cells[window % 2] = number + 1
            return number
        finally:
            fcntl.lockf(self.lock, fcntl.LOCK_UN)

    def connections(self, window: int) -> int:
        """How many connections have a number."""
        return self.cells[window % 2]

    def begin_window(self, window: int) -> None:
        """All numbers of a window are free."""
        self.cells[window % 2] = 0
