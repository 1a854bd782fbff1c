"""Jobs whose directory calls a program makes itself: the machines of the store, over a disk or anything else."""

from __future__ import annotations

import ctypes
from typing import NamedTuple, Optional, Union

from ._closing import Handle
from ._library import RequestStruct, StepStruct, library
from ._numbers import MOST_U64, answer_of, asked, check, given
from .calls import Answer, Call
from .errors import Failed, NotDriven

CREATE, APPEND, LINK, RENAME, UNLINK, LIST = range(1, 7)
DONE, EXISTS, NOT_FOUND, FAULTED = range(1, 5)
TMP, NEW, CUR = range(3)


class Request(NamedTuple):
    """A directory call that a job asks for: which of CREATE to LIST it is, and its folder, its place and its name.

    A link and a rename have a second name, `other`, in `to_folder` and `to_place`. An append adds `other`.
    """

    call: int
    folder: int
    place: int
    name: bytes
    to_folder: int
    to_place: int
    other: bytes


class Driven(Handle):
    """A job whose directory calls its caller makes: `ask`, `request`, for a reading `row`, and `take`, again and again until it is answered.

    Folders are the caller's own numbers. One job is for one thread at a time.
    """

    _what = "a driven job"

    def __init__(self, call: Call) -> None:
        """The job of a call, of which no step was taken.

        Refused: `BadFlag`, `SameFolder`, `BadUnique`, `BadTries`, `BadPiece`; and `NotDriven` by a library without driven jobs.
        """
        self._handle = ctypes.c_void_p()
        self._library = library()
        if not hasattr(self._library, "deolmutt_drive"):
            raise NotDriven()
        check(self._library.deolmutt_drive(*asked(call).words(), ctypes.byref(self._handle)))

    def ask(self, second: int) -> None:
        """Asks for the next call, at a second of the caller's clock.

        Refused: `Answered`, and `AskedBefore` where the reply to a call is waited for.
        """
        check(self._library.deolmutt_driven_ask(self._open(), _number(second)))

    def request(self) -> Request:
        """The call that was asked for, as often as wanted. Refused: `NotAsked`."""
        shown = RequestStruct()
        names = given(self._library.deolmutt_driven_request, self._open(), ctypes.byref(shown))
        name, other = names[: shown.name], names[shown.name :]
        return Request(shown.call, shown.folder, shown.place, name, shown.to_folder, shown.to_place, other)

    def row(self, name: bytes, stamp: int = 0, size: int = 0) -> None:
        """Tells the job a row of the reading that it asked for. Refused: `NotAsked`.

        A clean goes by the stamp, the second of the file's last use; the others go by the name alone.
        """
        check(self._library.deolmutt_driven_row(self._open(), name, len(name), _number(stamp), _number(size)))

    def take(self, reply: int) -> Optional[Union[Answer, Failed]]:
        """Tells the job what was replied, DONE to FAULTED, and gives its answer where that was the last call.

        An answer that is no success is given as its exception. Refused: `NotAsked`.
        """
        step = StepStruct()
        check(self._library.deolmutt_driven_take(self._open(), reply, ctypes.byref(step)))
        return answer_of(step.answer.kind, step.answer.value) if step.answer.kind else None

    def close(self) -> None:
        """Lets the job go, at any time. Each other method is refused as `Closed` from then on."""
        self._let_go(self._library.deolmutt_driven_free)


def _number(value: int) -> int:
    """A number as the library takes it: one that is too small or too great is the nearest that it takes."""
    return min(max(value, 0), MOST_U64 - 1)
