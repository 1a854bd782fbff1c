"""What is known of a message beside its bytes: its unique name, its directory and its info, which spells the flags."""

from __future__ import annotations

import mailbox
import time
from functools import lru_cache
from typing import NamedTuple, Optional

from ._numbers import LETTERS
from .calls import Place
from .errors import BadFlag, OtherInfo

TRASHED = "T"
FLAGS_FOLLOW = "2,"


class Message(NamedTuple):
    """Where a message is: its unique name, its directory and its info, if it has any."""

    unique: str
    place: Place
    info: Optional[str] = None

    @property
    def flags(self) -> str:
        """Its flags, as `mailbox` reads them: what its info has after `2,`. Other info has none."""
        if self.info is None or not self.info.startswith(FLAGS_FOLLOW):
            return ""
        return self.info[len(FLAGS_FOLLOW) :]

    def check_info(self) -> None:
        """Refuses a message with another program's mark, whose flags no job changes."""
        flags_in(self.info or "")


def message_of(name: str, place: Place, colon: str = ":") -> Message:
    """The message whose file has this name."""
    unique, found, info = name.partition(colon)
    return Message(unique, place, info if found else None)


def name_of(unique: str, info: Optional[str], colon: str = ":") -> str:
    """The name of a message's file."""
    return unique if info is None else unique + colon + info


class Wanted(NamedTuple):
    """What a message is to be beside its bytes."""

    place: Place
    flags: str
    date: float


def wanted_of(message: object, old: Optional[Message] = None) -> Wanted:
    """What a message is to be: what it says itself, else what the one before it was."""
    date: float
    if isinstance(message, mailbox.MaildirMessage):
        flags, date = flags_in(message.get_info()), message.get_date()
        is_new = message.get_subdir() == Place.NEW.value
    else:
        flags, date = old.flags if old else "", time.time()
        is_new = old is None or old.place is Place.NEW
    return Wanted(Place.NEW if is_new and not flags else Place.CUR, flags, date)


@lru_cache(maxsize=256)
def flags_in(info: str) -> str:
    """The flags that info says: none, or `2,` and letters. All else is refused as `OtherInfo`."""
    flags = info[len(FLAGS_FOLLOW) :]
    if info and not (info.startswith(FLAGS_FOLLOW) and _is_flags(flags)):
        raise OtherInfo(f"info is empty, or 2, and letters: {info!r}")
    return flags


def check_flags(flags: str) -> None:
    """Refuses flags that are no letters."""
    if not isinstance(flags, str):
        raise TypeError(f"flags must be a string: {type(flags)}")
    if not _is_flags(flags):
        raise BadFlag(f"flags are letters: {flags!r}")


def _is_flags(flags: str) -> bool:
    """Whether a text is letters alone, A to Z and a to z, or empty."""
    return not flags or (flags.isascii() and flags.isalpha())


@lru_cache(maxsize=256)
def others_than(flags: str) -> str:
    """All flags but these."""
    return "".join(letter for letter in LETTERS if letter not in flags)
