"""Logs of the directory calls that mail programs made, judged by the proved judge (docs/JUDGE.md)."""

from __future__ import annotations

import ctypes
import struct
from dataclasses import dataclass
from typing import Iterable, List, Union

from ._library import library
from ._numbers import OK, at_line, given_of_lines, refusal
from .errors import BadLog, DeolmuttError, NotJudged
from .lines import encoded

# A finding as the library gives it: the number of its line, that of its clause, and a number that is 0.
_FINDING = struct.Struct("<QII")

# A whole log, or a line.
Log = Union[bytes, bytearray, memoryview, str]
Lines = Union[Log, Iterable[Log]]


@dataclass(frozen=True)
class Finding:
    """A step of a log that breaks a clause of the law."""

    line: int
    """The number of its line, from 1."""
    clause: str
    """The name of the clause."""
    why: str
    """Why such a step is wrong."""


def judge(lines: Lines) -> List[Finding]:
    """The findings of a whole log: its text, or its lines, each with its line end or without.

    They are in the order of the lines, and at one line in the order of the law: none where the log keeps it. Refused as `BadLog`, with the
    first wrong line, and as `NoMemory`; and as `NotJudged` by a library without the judge.
    """
    loaded = library()
    if not hasattr(loaded, "deolmutt_judge"):
        raise NotJudged()
    status, found, line = given_of_lines(loaded.deolmutt_judge, _text(lines))
    if status != OK:
        raise _refused(loaded, status, line)
    return [_finding(loaded, number, clause) for number, clause, _ in _FINDING.iter_unpack(found)]


def _text(lines: Lines) -> bytes:
    """The text of a log."""
    if isinstance(lines, (bytes, bytearray, memoryview, str)):
        return _bytes(lines)
    return b"".join(_bytes(line).removesuffix(b"\n") + b"\n" for line in lines)


def _bytes(text: Log) -> bytes:
    """Bytes as they are, and of a text its UTF-8. A number, of which `bytes` would make so many, is none."""
    return encoded(text) if isinstance(text, str) else bytes(memoryview(text))


def _finding(loaded: ctypes.CDLL, line: int, clause: int) -> Finding:
    return Finding(line, loaded.deolmutt_clause_name(clause).decode("ascii"), loaded.deolmutt_clause_text(clause).decode("ascii"))


def _refused(loaded: ctypes.CDLL, status: int, line: int) -> DeolmuttError:
    """Why a log is not judged."""
    error = refusal(status)
    if isinstance(error, BadLog):
        error.text = loaded.deolmutt_strerror(status).decode("ascii")
        error.args = (error.text,)
    return at_line(error, line)
