"""The one cutter of streams: where the frames of a stream end, which comes in pieces.

A frame is a line and, if it has one, its block. What a line says, and so how long its block is, is the caller's.
"""
from __future__ import annotations

from collections.abc import Callable, Iterator

# what is kept of a line that has not ended, if blocks are passed over, in bytes
MOST_LINE = 1 << 16
# gives where the frame ends that begins at a place of some bytes, which is behind them if it is not whole; NOT_YET if its
# line is not whole; OVER if nothing more is cut
EndOf = Callable[[bytes, int], int]
NOT_YET, OVER = 0, -1


class Cutter:
    """What is left of a stream, and whether it `is_over`: then nothing more is cut.

    Of a frame that is not whole the bytes are kept, `size` of them, and it is known that it has at least `least`. If the
    cutter does not keep blocks, then such a frame ends after `block` more bytes.
    """

    __slots__ = ("pieces", "size", "least", "block", "keeps", "is_over")

    def __init__(self, keeps: bool = True) -> None:
        self.pieces: list[bytes] = []
        self.size = self.least = self.block = 0
        self.keeps, self.is_over = keeps, False

    @property
    def begun(self) -> bytes:
        """What is kept of the frame that is not whole."""
        return b"".join(self.pieces)

    def frames(self, piece: bytes, end_of: EndOf) -> Iterator[tuple[bytes, int, int]]:
        """The frames that end in a further piece, each as bytes that end as the piece does, and as its begin and its end
        in these. Of a frame whose block was passed over there is only the end. All are taken before the next piece."""
        if self.is_over:
            return
        at, text = 0, piece
        if self.block:
            at = min(self.block, len(piece))
            self.block -= at
            if self.block:
                return
            yield piece, 0, at
        elif self.size:
            self.keep(piece)
            if self.size < self.least or not self.least and b"\n" not in piece:
                return
            text = b"".join(self.pieces)
            self.pieces, self.size = [], 0
        size, self.least = len(text), 0
        while at < size:
            end = end_of(text, at)
            if end <= NOT_YET or end > size:
                self.wait(end, at, size)
                break
            yield text, at, end
            if self.is_over:
                return
            at = end
        if at < size and not self.block:
            self.keep(text[at:] if at else text)

    def wait(self, end: int, at: int, size: int) -> None:
        """Notes what is known of the frame at `at`, of which only the bytes up to `size` have come."""
        if end == OVER:
            self.is_over = True
        elif end and self.keeps:
            self.least = end - at
        elif end:
            self.block = end - size

    def keep(self, piece: bytes) -> None:
        """Keeps what the frame that is not whole has of a piece."""
        if not self.keeps and b"\n" not in piece:
            piece = piece[: MOST_LINE - self.size]
        if piece:
            self.pieces.append(piece)
            self.size += len(piece)
