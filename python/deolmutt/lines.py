"""The lines that a world is loaded with, of the script language: `folder` and `file`."""

from __future__ import annotations

import re
from typing import NamedTuple, Optional

from .errors import BadName

_ESCAPE = re.compile(r"\\([nr\\])")
_ESCAPED = {"n": "\n", "r": "\r", "\\": "\\"}


class FileLine(NamedTuple):
    """The words of a `file` line, and what stands after them: nothing, or a space and the escaped body."""

    folder: bytes
    place: bytes
    name: bytes
    stamp: bytes
    rest: bytes

    @property
    def unique(self) -> bytes:
        """The unique part of the name."""
        return self.name.partition(b":")[0]


def encoded(name: str) -> bytes:
    """The bytes of a name. Bytes that are no UTF-8 are surrogates, as in the names of `os`."""
    return name.encode("utf-8", "surrogateescape")


def decoded(name: bytes) -> str:
    """The name that bytes are."""
    return name.decode("utf-8", "surrogateescape")


def folder_line(name: str) -> bytes:
    """A line that gives a world one more folder, numbered from 0 in order of these lines."""
    return b"folder %b\n" % _word(name)


def file_line(folder: str, place: str, name: str, stamp: int, body: bytes) -> bytes:
    """A line for a file that a world begins with: its whole name in `tmp`, `new` or `cur`, the time
    of its last change in seconds since 1970, and its bytes."""
    head = b"file %b %b %b %d " % (_word(folder), _word(place), _word(name), max(stamp, 0))
    return head + escaped(body) + b"\n"


def escaped(body: bytes) -> bytes:
    """The bytes as a line has them."""
    return body.replace(b"\\", b"\\\\").replace(b"\n", b"\\n").replace(b"\r", b"\\r")


def unescaped(text: str) -> str:
    """What a line has escaped."""
    return _ESCAPE.sub(lambda found: _ESCAPED[found[1]], text) if "\\" in text else text


def parted(line: bytes) -> Optional[FileLine]:
    """The words of a `file` line, or None for another line, and for one with too few words."""
    words = line.split(b" ", 5)
    if len(words) < 5 or words[0] != b"file":
        return None
    _, folder, place, name, stamp, *body = words
    return FileLine(folder, place, name, stamp, b" " + body[0] if body else b"")


def is_word(name: str) -> bool:
    """Whether a line can say a name."""
    return bool(name) and not set(name) & {" ", "\n", "\r"}


def _word(name: str) -> bytes:
    if not is_word(name):
        raise BadName(f"a line can't say the name {name!r}: it is empty, or has a space, LF or CR")
    return encoded(name)
