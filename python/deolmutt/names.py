"""The names of messages' files, as "Using maildir format" and maildir(5) have them."""

from __future__ import annotations

import ctypes
from enum import Enum
from typing import NamedTuple

from ._library import library
from ._numbers import MOST_U64, check, given, letters_of
from .errors import BadMicrosecond
from .lines import decoded, encoded


class InfoKind(Enum):
    """What follows the unique name of a message's file."""

    NONE = 0
    FLAGS = 1
    OTHER = 2


class Parts(NamedTuple):
    """A message's file name: its unique name, which info follows it, and the flags of the info in order
    of their letters, each once."""

    unique: str
    info: InfoKind
    flags: str = ""


def unique_name(second: int, microsecond: int, process: int, count: int, host: str) -> str:
    """The unique name of a delivery: `SECOND.MmicrosecondPprocessQcount.host`, where a slash and a colon
    of the host are `\\057` and `\\072`. `deolmutt.fresh_unique()` makes one of this moment and process.

    Refused: `BadMicrosecond`; `BadHost`. Numbers are 0 to 2**64 - 1, else a ValueError is raised.
    """
    if not all(0 <= number < MOST_U64 for number in (second, process, count)):
        raise ValueError("a second, a process and a count are 0 to 2**64 - 1")
    if not 0 <= microsecond < MOST_U64:
        raise BadMicrosecond()
    name = encoded(host)
    return decoded(given(library().deolmutt_unique, second, microsecond, process, count, name, len(name)))


def split_name(name: str) -> Parts:
    """The parts of a message's file name. Refused as `NoMessageName` where it is no message's."""
    whole = encoded(name)
    length, info, flags = ctypes.c_size_t(), ctypes.c_uint32(), ctypes.c_uint64()
    check(library().deolmutt_split(whole, len(whole), ctypes.byref(length), ctypes.byref(info), ctypes.byref(flags)))
    return Parts(decoded(whole[: length.value]), InfoKind(info.value), letters_of(flags.value))
