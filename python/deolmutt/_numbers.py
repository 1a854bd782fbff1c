"""The numbers of the C interface, of the kinds of calls, the refusals and the answers (deolmutt.h), and what comes of them here."""

from __future__ import annotations

import ctypes
import string
from functools import lru_cache
from typing import Any, Callable, NamedTuple, Optional, Tuple, Union

from . import errors
from ._library import FIRST_ROOM, filled
from .calls import Answer, Call, Clean, Copy, Deliver, Expunge, Flag, Move, Outcome, Seen, Step
from .errors import DeolmuttError, Failed, Refused
from .lines import encoded

OK = 0

REFUSALS: dict[int, type[DeolmuttError]] = {
    **dict.fromkeys((1, 2, 3, 5, 6, 7, 11, 14, 15, 16), errors.Misused),
    4: errors.NoMemory,
    8: errors.NotThere,
    9: errors.NoMessageName,
    10: errors.Unanswered,
    12: errors.NotAsked,
    13: errors.AskedBefore,
    20: errors.BadName,
    21: errors.LongUnique,
    22: errors.DuplicateUnique,
    23: errors.NameUsed,
    24: errors.NoFolder,
    25: errors.SameFolder,
    26: errors.BadUnique,
    27: errors.BadTries,
    28: errors.BadPiece,
    29: errors.TooManyJobs,
    30: errors.BodyTooLong,
    31: errors.NoJob,
    32: errors.Answered,
    40: errors.BadHost,
    41: errors.BadMicrosecond,
    42: errors.BadFlag,
    50: errors.BadCommand,
    51: errors.BadNumber,
    52: errors.BadEscape,
    53: errors.BadPlace,
    54: errors.BadFolder,
    55: errors.UnknownFolder,
    56: errors.TooLate,
    57: errors.NoFirstReading,
    58: errors.SamePath,
    59: errors.NotInThisRun,
    **dict.fromkeys(range(70, 87), errors.BadLog),
}

# Those that say nothing more, each the same object. The outcomes are in the order of their numbers.
_ANSWERS = {number: Answer(outcome) for number, outcome in enumerate(Outcome, 1)}
_FLAGS, _CLEANED = 2, 6

FAILURES: dict[int, type[Failed]] = {
    7: errors.NotThere,
    8: errors.NotTrashed,
    9: errors.OtherInfo,
    10: errors.Lost,
    11: errors.TimedOut,
    12: errors.TmpGone,
    13: errors.NameTaken,
    14: errors.Fault,
}

MOST_U32 = 1 << 32
MOST_U64 = 1 << 64

# The letters in the order of their bits.
LETTERS = string.ascii_uppercase + string.ascii_lowercase


def refusal(status: int) -> DeolmuttError:
    """The exception of a refusal's number."""
    kind = REFUSALS.get(status, errors.Misused)
    return kind(f"the library's refusal {status}") if kind is errors.Misused else kind()


def check(status: int) -> None:
    """Raises the refusal that a status is."""
    if status != OK:
        raise refusal(status)


def given(function: Callable[..., int], *asked: Any) -> bytes:
    """What a function gives into a buffer. A refusal is raised."""
    status, found = filled(function, *asked)
    check(status)
    return found


def given_of_lines(function: Callable[..., int], text: bytes, room: Optional[int] = None) -> Tuple[int, bytes, int]:
    """What a function comes to over the lines of a text, what it gives, and the number of the line that it refuses."""
    line = ctypes.c_uint64()
    status, found = filled(function, text, len(text), room=room or FIRST_ROOM, after=(ctypes.byref(line),))
    return status, found, line.value


def at_line(error: DeolmuttError, line: int, printed: bytes = b"") -> DeolmuttError:
    """A refusal with the number of its line, 0 for none, and what was printed before it."""
    if isinstance(error, Refused):
        error.line, error.printed = line, printed
        error.args = (f"line {line}: {error}" if line else str(error),)
    return error


def answer_of(kind: int, value: int) -> Union[Answer, Failed]:
    """A job's answer: how it took effect, or an exception, which is not raised."""
    if kind == _FLAGS:
        return Answer(Outcome.FLAGS, flags=letters_of(value))
    if kind == _CLEANED:
        return Answer(Outcome.CLEANED, removed=value)
    return _ANSWERS.get(kind) or FAILURES[kind]()


def success_of(answer: Union[Answer, DeolmuttError]) -> Answer:
    """An answer that is a success. Any other end of a job is raised."""
    if isinstance(answer, DeolmuttError):
        raise answer
    return answer


@lru_cache(maxsize=4096)
def letters_of(bits: int) -> str:
    """The letters of flags."""
    return "".join(letter for at, letter in enumerate(LETTERS) if bits >> at & 1)


_APPEND, _LIST = 2, 6
_DIR_CALLS = dict(enumerate(("create", "append", "link", "rename", "unlink", "list"), 1))
PLACES = ("tmp", "new", "cur")
_REPLIES = dict(enumerate(("ok", "exists", "notfound", "fault"), 1))


def step_of(call: int, value: int, reply: int, effect: int) -> Step:
    """What a step did."""
    text = _DIR_CALLS[call]
    if call == _APPEND:
        text += f" {value}"
    elif call == _LIST:
        text += f" {PLACES[value]}"
    return Step(text, _REPLIES[reply], bool(effect))


class Asked(NamedTuple):
    """What a call asks of the library."""

    kind: int
    folder: int
    unique: bytes
    to: int = 0
    first: bytes = b""
    second: bytes = b""
    number: int = 0

    def words(self) -> Tuple[Any, ...]:
        """What it asks, as the library takes it: after each text its length."""
        first, second = (self.first, len(self.first)), (self.second, len(self.second))
        return self.kind, self.folder, self.unique, len(self.unique), self.to, *first, *second, self.number


def _bytes(body: Union[bytes, bytearray, memoryview]) -> bytes:
    """The bytes of a body. A number, of which `bytes` would make so many, is none."""
    return body if type(body) is bytes else bytes(memoryview(body))


_ASKED: dict[type, Callable[..., Asked]] = {
    Deliver: lambda c: Asked(1, c.folder, encoded(c.unique), 0, _bytes(c.body), b"", c.piece),
    Seen: lambda c: Asked(2, c.folder, encoded(c.unique), 0, encoded(c.flags), b"", c.tries),
    Flag: lambda c: Asked(3, c.folder, encoded(c.unique), 0, encoded(c.add), encoded(c.remove), c.tries),
    Move: lambda c: Asked(4, c.folder, encoded(c.unique), c.to, b"", b"", c.tries),
    Expunge: lambda c: Asked(5, c.folder, encoded(c.unique), 0, b"", b"", c.tries),
    Copy: lambda c: Asked(6, c.folder, encoded(c.unique), c.to, encoded(c.fresh), b"", c.tries),
    Clean: lambda c: Asked(7, c.folder, b""),
}


def asked(call: Call) -> Asked:
    """What a call asks of the library. Numbers that its types don't hold are refused here."""
    if type(call) not in _ASKED:
        raise TypeError(f"no call of deolmutt.calls: {call!r}")
    found = _ASKED[type(call)](call)
    if not (0 <= found.folder < MOST_U32 and 0 <= found.to < MOST_U32):
        raise errors.NoFolder()
    if not 0 <= found.number < MOST_U64:
        raise errors.BadPiece() if isinstance(call, Deliver) else errors.BadTries()
    return found
