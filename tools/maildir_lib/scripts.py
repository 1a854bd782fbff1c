"""The scripts that an export reads, each of them twice: to check it, and to write what it says."""

from __future__ import annotations

import os
import select
import stat
import tempfile
from typing import IO, Iterator, Optional

from .interrupts import Interrupts
from .language import Limits
from .refused import Refused, refusing
from .script_lines import BadLine, Line, ScriptReader
from .shown import shown

_PIECE_BYTES = 1 << 20
_STANDARD_INPUT = b"-"


class Script:
    """A script in a file. One from a pipe or standard input is first copied to a file."""

    def __init__(self, path: bytes, limits: Limits, interrupts: Interrupts) -> None:
        self._path = path
        self._limits = limits
        self._interrupts = interrupts
        self._kept: Optional[IO[bytes]] = None

    def lines(self) -> Iterator[Line]:
        """Its folder and file lines from the first on. The first bad one ends the run."""
        with refusing(f"{shown(self._path)}: can't be read"), self._opened() as file:
            yield from self._read(file)

    def close(self) -> None:
        """Lets what was kept go."""
        if self._kept is not None:
            self._kept.close()

    def _read(self, file: IO[bytes]) -> Iterator[Line]:
        reader = ScriptReader(file, self._limits)
        try:
            yield from reader
        except BadLine as error:
            raise Refused(f"{shown(self._path)}: line {reader.number}: {error}") from error

    def _opened(self) -> IO[bytes]:
        if self._kept is None:
            file = open(self._descriptor(), "rb")
            status = os.fstat(file.fileno())
            if stat.S_ISREG(status.st_mode) and self._path != _STANDARD_INPUT:
                self._check_size(status.st_size)
                return file
            with file:
                self._kept = self._copied(file.fileno())
        self._kept.seek(0)
        return open(self._kept.fileno(), "rb", closefd=False)

    def _descriptor(self) -> int:
        if self._path == _STANDARD_INPUT:
            return os.dup(0)
        # A pipe that nobody writes to yet is not waited for here.
        return os.open(self._path, os.O_RDONLY | os.O_NONBLOCK | os.O_CLOEXEC)

    def _copied(self, descriptor: int) -> IO[bytes]:
        copy = tempfile.TemporaryFile()
        size = 0
        while piece := self._read_piece(descriptor):
            size += len(piece)
            self._check_size(size)
            copy.write(piece)
        copy.flush()
        return copy

    def _read_piece(self, descriptor: int) -> bytes:
        self._interrupts.wait(descriptor, select.POLLIN)
        return os.read(descriptor, _PIECE_BYTES)

    def _check_size(self, size: int) -> None:
        if size > self._limits.script_bytes:
            most = f"a script has at most {self._limits.script_bytes:,} bytes"
            raise Refused(f"{shown(self._path)}: script too long: {most}")
