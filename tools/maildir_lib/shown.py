"""Names and paths as they are printed, without control characters."""

from __future__ import annotations

import os
from typing import Union


def shown(name: Union[bytes, str]) -> str:
    """The name, with escapes for backslashes, bytes that are no UTF-8 and control characters."""
    return "".join(_shown_character(character) for character in os.fsdecode(name))


def _shown_character(character: str) -> str:
    if "\udc80" <= character <= "\udcff":
        return "\\x%02x" % (ord(character) - 0xDC00)
    if character == "\\" or not character.isprintable():
        return character.encode("unicode_escape").decode("ascii")
    return character


def because(error: OSError) -> str:
    """What the system says of a call that failed."""
    return error.strerror or str(error)
