"""Readings of a directory on a disk, which pass over the directories in it, as `mailbox.Maildir` does.

A reading is no one moment: a name that another program changes meanwhile may be shown twice, or not at all. So a name that was
found may be used at once, since one that is gone by then is looked for again; but that a message is not there, that it has two
names, and what stands in a listing, are believed only of a reading in which the directory rested.
"""

from __future__ import annotations

import os
import time
from typing import Callable, List, NamedTuple, Optional, TypeVar

from .errors import Restless

_Read = TypeVar("_Read")

# How often a directory is read that does not rest.
_READINGS = 100
# A change may bear the time of the system's last tick, so a directory that was changed less than so many nanoseconds ago may be
# changed again without a new time.
_GRAIN = 10_000_000
# How long is waited for a directory to rest, in seconds.
_PAUSE = 0.005


class Found(NamedTuple):
    """The names of a message in a directory: one that was found, and whether it has two or more."""

    name: Optional[bytes]
    is_twice: bool = False


def find_name(directory: bytes, unique: bytes) -> Found:
    """The name of a message in a directory. Raises OSError, and `Restless` where none was found in a directory that never rests."""
    return _rested(directory, lambda: _find_once(directory, unique), _is_one)


def _is_one(found: Found) -> bool:
    return found.name is not None and not found.is_twice


def all_names(directory: bytes) -> List[bytes]:
    """The names of all files of a directory, of a reading in which it rested. Raises OSError, and `Restless` where it never does."""
    return _rested(directory, lambda: _read_names(directory), lambda names: False)


def _read_names(directory: bytes) -> List[bytes]:
    with os.scandir(directory) as entries:
        return [entry.name for entry in entries if not entry.is_dir()]


def _find_once(directory: bytes, unique: bytes) -> Found:
    first: Optional[bytes] = None
    start = unique + b":"
    with os.scandir(directory) as entries:
        for entry in entries:
            if (entry.name == unique or entry.name.startswith(start)) and not entry.is_dir():
                if first is not None:
                    return Found(first, True)
                first = entry.name
    return Found(first)


def _rested(directory: bytes, read: Callable[[], _Read], is_enough: Callable[[_Read], bool]) -> _Read:
    """What a reading gives that is enough, or in which the directory rested."""
    changed: Optional[int] = None
    since = 0
    for _ in range(_READINGS):
        before, now = _changed_at(directory), time.monotonic_ns()
        if before != changed:
            # Since when it is seen to bear that time.
            changed, since = before, now
        # Its time may be one to come, by another machine's clock or where the clock was set back. Then it rests if it bears that time
        # for longer than the grain.
        is_old = before is not None and (time.time_ns() - before > _GRAIN or now - since > _GRAIN)
        given = read()
        if is_enough(given) or (is_old and _changed_at(directory) == before):
            return given
        time.sleep(_PAUSE)
    raise Restless(f"{os.fsdecode(directory)} was changed again and again")


def _changed_at(directory: bytes) -> Optional[int]:
    """The time of change and not that of modification, which anybody may set."""
    try:
        return os.stat(directory).st_ctime_ns
    except OSError:
        return None
