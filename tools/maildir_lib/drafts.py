"""Scripts while they are written. A script comes to its place whole or not at all."""

from __future__ import annotations

import os
import tempfile
from contextlib import suppress
from typing import IO

from .refused import refusing
from .shown import shown

_BUFFER_BYTES = 1 << 20


class Draft:
    """A script that only has a size: that of a dry run."""

    def __init__(self) -> None:
        self.size = 0

    def write(self, data: bytes) -> None:
        """Adds to the end."""
        self.size += len(data)

    def cut(self, size: int) -> None:
        """Takes away all after so many bytes."""
        self.size = size

    def set_aside(self) -> None:
        """Ends the writing; `seal` may come much later, when all scripts are written."""

    def seal(self, head: bytes) -> None:
        """Writes the head over the first bytes."""

    def discard(self) -> None:
        """Takes the draft away. It may be gone already."""


class _KeptDraft(Draft):
    """A draft whose bytes are kept in a file."""

    def __init__(self, file: IO[bytes], place: str) -> None:
        super().__init__()
        self.file = file
        self.unwritten = f"{place}: can't be written"

    def write(self, data: bytes) -> None:
        with refusing(self.unwritten):
            self.file.write(data)
        self.size += len(data)

    def cut(self, size: int) -> None:
        with refusing(self.unwritten):
            self.file.seek(size)
            self.file.truncate()
        self.size = size


class SpooledDraft(_KeptDraft):
    """A draft without a name, which is copied to a stream in the end."""

    def __init__(self) -> None:
        file = tempfile.TemporaryFile(buffering=_BUFFER_BYTES)
        super().__init__(file, f"a temporary file in {tempfile.gettempdir()}")

    def seal(self, head: bytes) -> None:
        with refusing(self.unwritten):
            self.file.seek(0)
            self.file.write(head)
            self.file.seek(0)

    def discard(self) -> None:
        _close(self.file)


class NamedDraft(_KeptDraft):
    """A draft under a temporary name, in the directory of the name that it gets in the end."""

    def __init__(self, path: bytes) -> None:
        self.path = path
        with refusing(f"{shown(path)}: can't be made"):
            descriptor = os.open(path, os.O_RDWR | os.O_CREAT | os.O_EXCL | os.O_CLOEXEC, 0o600)
        super().__init__(open(descriptor, "w+b", buffering=_BUFFER_BYTES), shown(path))

    def set_aside(self) -> None:
        with refusing(self.unwritten):
            self.file.close()

    def seal(self, head: bytes) -> None:
        with refusing(self.unwritten), open(self.path, "r+b", buffering=0) as file:
            file.write(head)
            os.fsync(file.fileno())

    def discard(self) -> None:
        _close(self.file)
        with suppress(OSError):
            os.unlink(self.path)


def _close(file: IO[bytes]) -> None:
    """Closes a file that is thrown away: a failure to write its last bytes doesn't matter."""
    with suppress(OSError):
        file.close()
