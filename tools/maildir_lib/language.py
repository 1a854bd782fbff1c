"""What a script can say of folders and files: its limits, escapes and names (docs/SCRIPT.md)."""

from __future__ import annotations

import re
from dataclasses import dataclass
from typing import Optional

PLACES = (b"tmp", b"new", b"cur")
FOLDER_NAME_BYTES = 100
FILE_NAME_BYTES = 255
UNIQUE_NAME_BYTES = 200
STAMP_DIGITS = 20
GREATEST_STAMP = 2**64 - 1
_NEVER_IN_NAMES = re.compile(rb"[/\0\n\r]")


@dataclass(frozen=True)
class Limits:
    """What one script may hold. Tests give smaller numbers."""

    script_bytes: int = 67_108_864
    folders: int = 64


class BadEscape(ValueError):
    """A backslash that begins no escape."""


def escape(text: bytes) -> bytes:
    """The bytes as a BODY has them. A text may be escaped in pieces."""
    return text.replace(b"\\", b"\\\\").replace(b"\n", b"\\n").replace(b"\r", b"\\r")


def unescape(text: bytes) -> bytes:
    """The bytes that a BODY stands for.

    Before the first pair of backslashes no backslash follows another, so a cut at each pair, from
    the left, parts no escape.
    """
    return b"\\".join(_unescape_line_ends(piece) for piece in text.split(b"\\\\"))


def _unescape_line_ends(piece: bytes) -> bytes:
    plain = piece.replace(b"\\n", b"\n").replace(b"\\r", b"\r")
    if b"\\" in plain:
        raise BadEscape
    return plain


def unique_name(place: bytes, name: bytes) -> Optional[bytes]:
    """The unique name of the message that a file is, or None where it is no message."""
    unique = name.partition(b":")[0]
    if place == b"tmp" or not unique or unique.startswith(b"."):
        return None
    return unique


def is_file_name(name: bytes) -> bool:
    """Whether a store takes a file of this name."""
    return 0 < len(name) <= FILE_NAME_BYTES and not _NEVER_IN_NAMES.search(name)


def is_folder_name(name: bytes) -> bool:
    """Whether a `folder` line may name this, as far as the word alone tells."""
    return len(name) <= FOLDER_NAME_BYTES and not name.startswith(b".") and not _NEVER_IN_NAMES.search(name)


def has_long_unique_name(place: bytes, name: bytes) -> bool:
    """Whether a file is a message whose unique name is longer than a store takes."""
    unique = unique_name(place, name)
    return unique is not None and len(unique) > UNIQUE_NAME_BYTES
