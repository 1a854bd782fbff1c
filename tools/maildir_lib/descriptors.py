"""Calls on open files and directories."""

from __future__ import annotations

import errno
import os
from contextlib import suppress


def keep_standard_closed() -> None:
    """Lets no file get the number of a standard stream that is closed. It stays one that fails."""
    for descriptor, wrong_way in ((0, os.O_WRONLY), (1, os.O_RDONLY), (2, os.O_RDONLY)):
        try:
            os.fstat(descriptor)
        except OSError:
            # The lowest number that is free is given out.
            os.open(os.devnull, wrong_way)


def write_all(descriptor: int, data: bytes) -> None:
    """Writes all bytes, in as many calls as it takes."""
    left = memoryview(data)
    while left:
        left = left[os.write(descriptor, left) :]


def let_go(descriptor: int) -> None:
    """Closes what was only read, where a failure loses nothing."""
    with suppress(OSError):
        os.close(descriptor)


def sync_directory(descriptor: int) -> None:
    """Writes a directory's names to the disk, where its file system can do that."""
    try:
        os.fsync(descriptor)
    except OSError as error:
        if error.errno not in (errno.EINVAL, errno.EOPNOTSUPP):
            raise
