"""Files on their way into a maildir: written to tmp, flushed to the disk, put at their places."""

from __future__ import annotations

import os
import secrets
import time
from collections import deque
from concurrent.futures import Executor
from contextlib import suppress
from typing import Iterator, NamedTuple, Optional

from .descriptors import let_go, write_all
from .open_maildir import OpenMaildir
from .placing import place
from .script_lines import FileLine

_MOST_FILES = 128
# So many files are flushed by one thread.
_SHARE = 8
_MOST_BYTES = 1 << 24
_GREATEST_TIME = 2**63 - 1
_NANOSECONDS = 1_000_000_000


class _Written(NamedTuple):
    file: FileLine
    fresh: bytes
    descriptor: int
    keeps_time: bool


class Delivery(NamedTuple):
    """What became of a file: the failure that it met, or none where it is at its place."""

    file: FileLine
    failure: Optional[OSError]
    keeps_time: bool = True


class Deliveries:
    """Files that are put into one maildir together.

    A disk flushes some files at once in little more time than one file.
    """

    def __init__(self, maildir: OpenMaildir, flushers: Executor) -> None:
        self._maildir = maildir
        self._flushers = flushers
        self._written: deque[_Written] = deque()
        self._bytes = 0
        self._run = secrets.token_hex(8).encode()
        self._count = 0

    @property
    def is_full(self) -> bool:
        """Whether it is time to `settle`."""
        return len(self._written) >= _MOST_FILES or self._bytes >= _MOST_BYTES

    def write(self, file: FileLine) -> None:
        """Writes a file to tmp. Where that fails, nothing of it is left."""
        self._count += 1
        fresh = b"%d.P%dQ%dR%b.export" % (time.time(), os.getpid(), self._count, self._run)
        tmp = self._maildir.places[b"tmp"]
        descriptor = os.open(fresh, os.O_WRONLY | os.O_CREAT | os.O_EXCL | os.O_CLOEXEC, 0o600, dir_fd=tmp)
        try:
            write_all(descriptor, file.body)
            keeps_time = _set_time(descriptor, file.stamp)
        except BaseException:
            let_go(descriptor)
            self._unlink(fresh)
            raise
        self._written.append(_Written(file, fresh, descriptor, keeps_time))
        self._bytes += len(file.body)

    def settle(self) -> Iterator[Delivery]:
        """Flushes all files, then puts each at its place, where none is yet."""
        self._bytes = 0
        for failure in self._flush():
            yield self._deliver(self._written.popleft(), failure)

    def _flush(self) -> list[Optional[OSError]]:
        """Flushes all files, and answers the failure that each met, if any."""
        descriptors = [written.descriptor for written in self._written]
        shares = [descriptors[at : at + _SHARE] for at in range(0, len(descriptors), _SHARE)]
        return [failure for share in self._flushers.map(_flush_all, shares) for failure in share]

    def _deliver(self, written: _Written, failure: Optional[OSError]) -> Delivery:
        file = written.file
        try:
            os.close(written.descriptor)
            if failure is None:
                place(written.fresh, file.name, self._maildir.places[b"tmp"], self._maildir.places[file.place])
                return Delivery(file, None, written.keeps_time)
        except OSError as error:
            failure = failure or error
        self._unlink(written.fresh)
        return Delivery(file, failure)

    def discard(self) -> None:
        """Takes away the files that are in tmp."""
        while self._written:
            written = self._written.popleft()
            let_go(written.descriptor)
            self._unlink(written.fresh)

    def _unlink(self, fresh: bytes) -> None:
        # Whoever cleans tmp takes it away later.
        with suppress(OSError):
            os.unlink(fresh, dir_fd=self._maildir.places[b"tmp"])


def _set_time(descriptor: int, stamp: int) -> bool:
    """Sets the time of the last change, and answers whether the file system keeps it.

    The time of the last use is now, so that none who cleans tmp takes the file for an old one.
    """
    os.utime(descriptor, ns=(time.time_ns(), min(stamp, _GREATEST_TIME) * _NANOSECONDS))
    return os.fstat(descriptor).st_mtime_ns // _NANOSECONDS == stamp


def _flush_all(descriptors: list[int]) -> list[Optional[OSError]]:
    return [_flush(descriptor) for descriptor in descriptors]


def _flush(descriptor: int) -> Optional[OSError]:
    try:
        os.fsync(descriptor)
    except OSError as error:
        return error
    return None
