"""What the header of a message says, by RFC 5322."""

from __future__ import annotations

from typing import NamedTuple, Optional

from ._library import library
from ._numbers import given
from .lines import decoded, unescaped


class Summary(NamedTuple):
    """The fields of a header that an index shows, each None where it isn't there: the values, unfolded,
    and the instant of the date in seconds since 1970, where the date says one. Bytes that are no UTF-8
    are surrogates, as in names."""

    subject: Optional[str] = None
    sender: Optional[str] = None
    message_id: Optional[str] = None
    date: Optional[str] = None
    seconds: Optional[int] = None


# What the lines of a summary begin with, in the order of its fields.
KEYS = ("subject", "from", "message-id", "date", "seconds")


def summary(message: bytes) -> Summary:
    """The summary of a message, of which the header alone is read. Refused only as `NoMemory`."""
    text = bytes(message)
    lines = decoded(given(library().deolmutt_summary, text, len(text))).split("\n")
    said = dict(line.partition("=")[::2] for line in lines)
    *values, seconds = map(said.get, KEYS)
    return Summary._make([*(value and unescaped(value) for value in values), seconds and int(seconds)])
