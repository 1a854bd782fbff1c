"""The progress line of a terminal."""

from __future__ import annotations

import time
from typing import TextIO

_SECONDS_BETWEEN = 0.1


class Progress:
    """One line that is written again and again, on a terminal alone."""

    def __init__(self, stream: TextIO) -> None:
        self._stream = stream
        self._is_terminal = stream.isatty()
        self._is_shown = False
        self._next = 0.0

    def show(self, verb: str, done: int, total: int) -> None:
        """Says how many lines are done, ten times a second at most."""
        if not self._is_terminal:
            return
        now = time.monotonic()
        if now < self._next:
            return
        self._next = now + _SECONDS_BETWEEN
        self._stream.write(f"\r{verb} {done:,} of {total:,} lines\033[K")
        self._stream.flush()
        self._is_shown = True

    def clear(self) -> None:
        """Takes the line away, so that another can be printed."""
        if self._is_shown:
            self._stream.write("\r\033[K")
            self._stream.flush()
            self._is_shown = False
