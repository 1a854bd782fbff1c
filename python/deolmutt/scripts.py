"""Whole scripts of the script language (docs/SCRIPT.md), played or indexed by the library."""

from __future__ import annotations

from typing import Any, Optional

from ._library import library
from ._numbers import OK, at_line, given_of_lines, refusal


def transcript(script: bytes, room: Optional[int] = None) -> bytes:
    """What a script prints, in a store of its own.

    The first refused line is raised, by its own class, with its `line` and, as `printed`, what was printed
    before it. `room` says how many bytes may be printed: a script that prints more is played once more.
    """
    return _printed(library().deolmutt_transcript, script, room)


def index_lines(lines: bytes, room: Optional[int] = None) -> bytes:
    """The index of `folder` and `file` lines, as `maildir_cli index` prints it: for each message a line
    `FOLDER UNIQUE`, the lines of its header summary, and `end`.

    The first refused line is raised, by its own class, with its `line`. Where the files together make no
    store it is the last one, as for the program. `room` says how many bytes the index may have: one that
    has more is made once more.
    """
    return _printed(library().deolmutt_index, lines, room)


def _printed(function: Any, script: bytes, room: Optional[int]) -> bytes:
    """What a function prints of a script. A refused line is raised with what was printed before it."""
    status, printed, line = given_of_lines(function, bytes(script), room)
    if status != OK:
        raise at_line(refusal(status), line, printed)
    return printed
