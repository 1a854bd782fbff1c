"""Names of a maildir: what a log writes of them, and what they say of a message."""

from __future__ import annotations

import re
from functools import lru_cache
from typing import FrozenSet, NamedTuple, Optional

from maildir_lib.language import escape

PLACES = ("tmp", "new", "cur")

_FLAGS = re.compile(rb"2,([A-Za-z]*)", re.DOTALL)


class Path(NamedTuple):
    """A path of a file in a judged folder."""

    folder: bytes
    place: str
    name: bytes

    def word(self) -> bytes:
        """The path as a log writes it."""
        return _place_word(self.folder, self.place) + escaped(self.name)

    def is_message(self) -> bool:
        """Whether the path makes its file a message."""
        return self.place != "tmp" and not self.name.startswith(b".") and unique_of(self.name) != b""


@lru_cache
def _place_word(folder: bytes, place: str) -> bytes:
    return b"%b/%b/" % (escaped(folder), place.encode())


def escaped(name: bytes) -> bytes:
    """A name as a log writes it: as a body of a script, and a space has an escape too."""
    return escape(name).replace(b" ", b"\\s")


def unique_of(name: bytes) -> bytes:
    """The unique part of a name."""
    return name.partition(b":")[0]


def flags_of(name: bytes) -> Optional[FrozenSet[str]]:
    """The flags that a name shows; None where what follows its colon is no `2,` and letters."""
    _, colon, info = name.partition(b":")
    if not colon:
        return frozenset()
    found = _FLAGS.fullmatch(info)
    return frozenset(found[1].decode()) if found else None
