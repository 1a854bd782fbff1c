"""The bytes of one file, a piece at a time."""

from __future__ import annotations

import os
import re
import stat
from contextlib import contextmanager
from typing import Iterator, NamedTuple

_PIECE_BYTES = 1 << 20
_EMPTY_LINE = re.compile(rb"\n\r?\n")


class NoFile(OSError):
    """What was a file is one no more."""


class Message(NamedTuple):
    """A file that is open for reading."""

    descriptor: int
    size: int
    seconds: int

    def pieces(self) -> Iterator[bytes]:
        """All its bytes, to whatever end it has by then."""
        wanted = min(self.size + 1, _PIECE_BYTES)
        while piece := os.read(self.descriptor, wanted):
            yield piece
            wanted = _PIECE_BYTES


@contextmanager
def opened(path: bytes) -> Iterator[Message]:
    """Opens a file. A name that is by now a link or a fifo is neither followed nor waited for."""
    descriptor = os.open(path, os.O_RDONLY | os.O_NOFOLLOW | os.O_NONBLOCK | os.O_CLOEXEC)
    try:
        status = os.fstat(descriptor)
        if not stat.S_ISREG(status.st_mode):
            raise NoFile("it is no file any more")
        # Whole seconds, rounded down: a stamp has no parts of a second.
        yield Message(descriptor, status.st_size, status.st_mtime_ns // 1_000_000_000)
    finally:
        os.close(descriptor)


def up_to_empty_line(pieces: Iterator[bytes]) -> Iterator[bytes]:
    """The bytes up to the first empty line, and that line; all bytes where no line is empty.

    An empty line is LF or CRLF at the start of a line.
    """
    # The two bytes before each piece, since an empty line may lie across two pieces. The first line
    # starts as if LF were before it.
    before = b"\n"
    for piece in pieces:
        text = before + piece
        found = _EMPTY_LINE.search(text)
        if found:
            yield text[len(before) : found.end()]
            return
        yield piece
        before = text[-2:]
