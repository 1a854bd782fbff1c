"""The arguments of a call as strace prints them with -y and -xx: each string is in hexadecimal digits."""

from __future__ import annotations

import re
from functools import lru_cache
from typing import List, NamedTuple, Optional

_DESCRIPTOR = re.compile(r"(-?\d+|AT_FDCWD)(?:<([^>]*)>(\(deleted\))?)?")
_STRING = re.compile(r'"([^"]*)"(?:\.\.\.)?')
_SHOWN = re.compile(r'd_name="((?:\\x[0-9a-f]{2})*)"')
_OPENS, _MARK = frozenset("[{("), re.compile(r"[\[\]{}(),]")
# A program names a file in several calls, one soon after the other: so many words are kept as they were read.
_MOST_KEPT = 1024


class Descriptor(NamedTuple):
    """An open file's number, None for the working directory; the path that the system knows for it, and whether that name is taken away."""

    number: Optional[int]
    path: Optional[bytes]
    is_deleted: bool


def split(text: str) -> List[str]:
    """The arguments of a call."""
    if "(" not in text and "[" not in text and "{" not in text:
        return text.split(", ") if text else []
    parts, depth, begin = [], 0, 0
    for mark in _MARK.finditer(text):
        if mark[0] in _OPENS:
            depth += 1
        elif mark[0] != ",":
            depth -= 1
        elif depth == 0:
            parts.append(text[begin:mark.start()].strip())
            begin = mark.end()
    last = text[begin:].strip()
    return parts + [last] if last else parts


@lru_cache(_MOST_KEPT)
def read_descriptor(text: str) -> Optional[Descriptor]:
    """An open file, or the working directory."""
    found = _DESCRIPTOR.fullmatch(text)
    path = None if found is None or found[2] is None else read_digits(found[2])
    if found is None or path is None and found[2] is not None:
        return None
    return Descriptor(None if found[1] == "AT_FDCWD" else int(found[1]), path, found[3] is not None)


@lru_cache(_MOST_KEPT)
def read_string(text: str) -> Optional[bytes]:
    """A string; None for NULL or an address that couldn't be read."""
    found = _STRING.fullmatch(text)
    return None if found is None else read_digits(found[1])


def shown_names(text: str) -> List[bytes]:
    """The names of a reading of a directory, without the directory itself and the one above it."""
    names = [bytes.fromhex(digits.replace("\\x", "")) for digits in _SHOWN.findall(text)]
    return [name for name in names if name not in (b".", b"..")]


def read_digits(text: str) -> Optional[bytes]:
    """The bytes of a text of hexadecimal digits, None of any other one."""
    digits = text.replace("\\x", "")
    if 2 * len(digits) != len(text):
        return None
    try:
        return bytes.fromhex(digits)
    except ValueError:
        return None
