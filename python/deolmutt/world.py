"""A world: a store's folders, their messages, and the jobs on them."""

from __future__ import annotations

import ctypes
import struct
import threading
import time
from typing import Any, Callable, Iterable, Iterator, List, Optional, Tuple, Union

from ._closing import Handle
from ._library import AnswerStruct, StepStruct, library, start_of
from ._numbers import MOST_U32, MOST_U64, OK, answer_of, asked, at_line, check, given, refusal, step_of, success_of
from .calls import Answer, Call, Clean, Copy, Deliver, Entry, Expunge, Flag, Move, Place, Seen, Step
from .errors import DeolmuttError, Failed, NoFolder, NoJob, NoMemory, NotSettled, Unanswered, WrongThread
from .lines import decoded, encoded, folder_line

# The bytes of records and of listings are little-endian on each machine; an answer is a struct of C's.
_RECORD = struct.Struct("<4I4Q")
_ENTRY = struct.Struct("<IIQ")
_ANSWER = struct.Struct("=QQ")
_PLACES = {1: Place.NEW, 2: Place.CUR}
# Where many calls are made at once, so many of them, or of bytes, go to the library together.
_MOST_TOGETHER = 1024
_MOST_BYTES_TOGETHER = 1 << 24


class _Hold:
    """The right to a world, which is taken without waiting: the library is not for two threads at once."""

    def __init__(self) -> None:
        # A thread that has it may take it again.
        self._lock = threading.RLock()

    def __enter__(self) -> None:
        if not self._lock.acquire(blocking=False):
            raise WrongThread()

    def __exit__(self, *_: object) -> None:
        self._lock.release()


class World(Handle):
    """A store: folders, numbered from 0, and the messages in them, which lives until it is closed.

    One world is for one thread at a time. A call from a second thread while the first is in one is
    refused as `WrongThread`, and has done nothing. Worlds share nothing, so each thread may have one.

    A unique name belongs to one message of the whole store, and is used for good. A world takes
    10,000 calls; `settle` gives it as many again. Moments are seconds since 1970; `now` is this
    moment where it is left out, and `own` the moment by the clock of a job's host.

    Each method says what it refuses and which answers are no success, and all are raised. Each method
    may be refused as `Closed`, `WrongThread` or `NoMemory` too, and a call as `TooManyJobs`. After
    `NoMemory` its `job` is the number of a job that is there without an answer, which `step` goes on
    with, or 0.
    """

    _what = "a world"

    def __init__(self, lines: bytes) -> None:
        """As `load`."""
        self._handle = ctypes.c_void_p()
        self._hold = _Hold()
        self._changes = 0
        self._job = ctypes.c_uint64()
        self._answer = AnswerStruct()
        self._length = ctypes.c_size_t()
        self._library = library()
        self._handle = self._loaded(lines)

    @classmethod
    def load(cls, lines: bytes) -> World:
        """A world over the folders and files of `folder` and `file` lines (deolmutt.lines).

        Refused, each a `BadLine`, as a script's line is; or, with line 0, as `SamePath`, `BadName`,
        `LongUnique` and `DuplicateUnique`, where the files together make no store.
        """
        return cls(bytes(lines))

    @classmethod
    def with_folders(cls, *names: str) -> World:
        """A world of empty folders, numbered from 0 as they are named here.

        Refused: `BadName`, of what a line can't say; `BadFolder`, of a name twice and of over 64.
        """
        return cls(b"".join(folder_line(name) for name in names))

    # One call to its answer.

    def deliver(self, folder: int, unique: str, body: bytes, now: Optional[int] = None) -> None:
        """Delivers a message to new of a folder, under a unique name that was never used.

        Refused: `NoFolder`, `BadUnique`, `BodyTooLong` (16 MiB), `NameUsed`.
        """
        self.call(Deliver(folder, unique, body), now)

    def seen(self, folder: int, unique: str, flags: str = "", now: Optional[int] = None) -> str:
        """Takes a message from new to cur, its flags joined by these, and answers its flags.

        Refused: `BadFlag`, `NoFolder`, `BadUnique`. Answered without success: `NotThere`, where it is
        not in new; `OtherInfo`.
        """
        return self.call(Seen(folder, unique, flags), now).flags

    def flag(self, folder: int, unique: str, add: str = "", remove: str = "", now: Optional[int] = None) -> str:
        """Adds and removes flags of a message in cur, and answers its flags.

        Refused: `BadFlag`, `NoFolder`, `BadUnique`. Answered without success: `NotThere`, where it is
        not in cur; `OtherInfo`.
        """
        return self.call(Flag(folder, unique, add, remove), now).flags

    def move(self, folder: int, unique: str, to: int, now: Optional[int] = None) -> None:
        """Takes a message to another folder: from new to new, and from cur to cur.

        Refused: `NoFolder`, `SameFolder`, `BadUnique`. Answered without success: `NotThere`.
        """
        self.call(Move(folder, unique, to), now)

    def copy(self, folder: int, unique: str, to: int, fresh: str, now: Optional[int] = None) -> None:
        """Gives a message a second name, in this folder or another, which was never used.

        The two names share one file. Refused: `NoFolder`, `BadUnique`, `NameUsed`. Answered without
        success: `NotThere`, `OtherInfo`.
        """
        self.call(Copy(folder, unique, to, fresh), now)

    def expunge(self, folder: int, unique: str, now: Optional[int] = None) -> None:
        """Removes a message of cur that has the flag T.

        Refused: `NoFolder`, `BadUnique`. Answered without success: `NotThere`, where it is not in cur;
        `NotTrashed`.
        """
        self.call(Expunge(folder, unique), now)

    def clean(self, folder: int, now: Optional[int] = None) -> int:
        """Removes the files of tmp that were not used for 36 hours, and answers how many.

        Refused: `NoFolder`.
        """
        return self.call(Clean(folder), now).removed

    def call(self, call: Call, now: Optional[int] = None, own: Optional[int] = None) -> Answer:
        """Submits a call (deolmutt.calls), and takes its job's steps at one moment until it is answered.

        Refused: as the call's own method says, and `BadTries`, `BadPiece`. An answer that is no success
        is raised: `Failed`.
        """
        with self._hold:
            self._changes += 1
            self._job.value = 0
            status = self._library.deolmutt_call(
                self._open(), *asked(call).words(), _moment(now), _pointer(own),
                ctypes.byref(self._job), ctypes.byref(self._answer),
            )  # fmt: skip
            self._check_with_job(status)
            return success_of(answer_of(self._answer.kind, self._answer.value))

    # Many calls.

    def deliver_many(self, folder: int, messages: Iterable[tuple[str, bytes]], now: Optional[int] = None) -> None:
        """Delivers messages, each a unique name and its bytes, faster than one by one.

        The first that is refused or fails is raised, as by `deliver`; those before it are delivered.
        """
        for answer in self.call_many([Deliver(folder, *message) for message in messages], now):
            success_of(answer)

    def flag_many(
        self, folder: int, uniques: Iterable[str], add: str = "", remove: str = "", now: Optional[int] = None
    ) -> List[str]:
        """Adds and removes flags of messages in cur, and answers the flags of each.

        The first that is refused is raised, with those before it changed. Where some answer without
        success, the others are changed all the same, and the first such answer is raised.
        """
        calls = [Flag(folder, unique, add, remove) for unique in uniques]
        return [success_of(answer).flags for answer in self.call_many(calls, now)]

    def call_many(self, calls: Iterable[Call], now: Optional[int] = None) -> List[Union[Answer, Failed]]:
        """Makes calls one after the other, and answers how each ended: an answer that is no success is
        given as its exception, and not raised.

        The first refused is raised: its `done` has the answers of those before it.
        """
        answers: List[Union[Answer, Failed]] = []
        moment = _moment(now)
        with self._hold:
            for records, count in _together(calls):
                status, ended = self._made(records, len(records), count, moment)
                answers += (answer_of(kind, value) for kind, value in _ANSWER.iter_unpack(ended))
                if status != OK:
                    error = refusal(status)
                    error.done = answers
                    raise error
        return answers

    def _made(self, records: Any, size: int, count: int, now: int) -> Tuple[int, bytes]:
        """Makes so many calls, by records of so many bytes, and says what refused the next one, and the answers."""
        ended = bytearray(count * _ANSWER.size)
        self._length.value = 0
        self._changes += 1
        status: int = self._library.deolmutt_calls(
            self._open(), records, size, now, start_of(ended), count, ctypes.byref(self._length)
        )
        return status, bytes(memoryview(ended)[: self._length.value * _ANSWER.size])

    # A job step by step.

    def submit(self, call: Call) -> int:
        """Submits a call, and answers the number of its job, from 1. No step is taken of it yet.

        Refused: as by `call`.
        """
        with self._hold:
            check(self._library.deolmutt_submit(self._open(), *asked(call).words(), ctypes.byref(self._job)))
            return self._job.value

    def step(self, job: int, now: Optional[int] = None, own: Optional[int] = None) -> Step:
        """Takes one step of a job, one directory call, and says which it was.

        `answer` says whether it was the last. Refused: `NoJob`, `Answered`.
        """
        step = StepStruct()
        with self._hold:
            self._changes += 1
            status = self._library.deolmutt_step(
                self._open(), _checked(job, NoJob), _moment(now), _pointer(own), ctypes.byref(step)
            )
            check(status)
        return step_of(step.call, step.value, step.reply, step.effect)

    def answer(self, job: int) -> Optional[Answer]:
        """The answer of a job, or None where it has none yet.

        An answer that is no success is raised: `Failed`. Refused: `NoJob`.
        """
        with self._hold:
            check(self._library.deolmutt_job_answer(self._open(), _checked(job, NoJob), ctypes.byref(self._answer)))
            if self._answer.kind == 0:
                return None
            return success_of(answer_of(self._answer.kind, self._answer.value))

    # What is there.

    def list(self, folder: int) -> List[Entry]:
        """The messages of a folder, in order of the bytes of their unique names. Refused: `NoFolder`."""
        number = _checked(folder, NoFolder, MOST_U32)
        return list(_entries(self._given(self._library.deolmutt_list, number)))

    def read(self, unique: str) -> bytes:
        """The bytes of a message, in new or cur of any folder. Raises `NotThere` where there is none."""
        name = encoded(unique)
        return self._given(self._library.deolmutt_read, name, len(name))

    def _given(self, function: Callable[..., int], *asked: Any) -> bytes:
        """What a function of the library gives into a buffer."""
        with self._hold:
            return given(function, self._open(), *asked)

    # Its life.

    def settle(self) -> None:
        """Begins anew over the same directories, with no job, so that 10,000 calls may come again.

        A name that is gone may be used again then. It takes no memory and looks at no message.
        Refused as `Unanswered` where a job has no answer, and as `NotSettled` by a library without it.
        """
        if not hasattr(self._library, "deolmutt_settle"):
            raise NotSettled()
        with self._hold:
            self._check_with_job(self._library.deolmutt_settle(self._open(), ctypes.byref(self._job)))

    def reload(self, lines: bytes) -> None:
        """Begins anew over these lines, in place of all that it holds.

        Refused: as by `load`. Then it keeps what it holds.
        """
        with self._hold:
            self._changes += 1
            handle, self._handle = self._open(), self._loaded(bytes(lines))
            self._library.deolmutt_free(handle)

    def close(self) -> None:
        """Lets all that the world holds go. Each other method is refused as `Closed` from then on."""
        with self._hold:
            self._let_go(self._library.deolmutt_free)

    @property
    def held(self) -> _Hold:
        """A context in which no other thread may use the world: there it is refused as `WrongThread`."""
        return self._hold

    @property
    def is_closed(self) -> bool:
        """Whether the world was closed."""
        return not self._handle

    @property
    def changes(self) -> int:
        """A number that is another one after each call that may have changed a message, also one that
        was refused."""
        return self._changes

    def _loaded(self, lines: bytes) -> ctypes.c_void_p:
        handle, line = ctypes.c_void_p(), ctypes.c_uint64()
        status = self._library.deolmutt_load(lines, len(lines), ctypes.byref(handle), ctypes.byref(line))
        if status != OK:
            raise at_line(refusal(status), line.value)
        return handle

    def _check_with_job(self, status: int) -> None:
        """Raises a refusal, with the number of the job that it is about."""
        try:
            check(status)
        except (NoMemory, Unanswered) as error:
            error.job = self._job.value
            raise


def _moment(now: Optional[int]) -> int:
    moment = int(time.time()) if now is None else now
    if not 0 <= moment < MOST_U64:
        raise ValueError(f"a moment is 0 to 2**64 - 1 seconds since 1970: {moment}")
    return moment


def _pointer(own: Optional[int]) -> Optional[ctypes.c_uint64]:
    return None if own is None else ctypes.c_uint64(_moment(own))


def _checked(number: int, refused: type[DeolmuttError], most: int = MOST_U64) -> int:
    """A number that the library's type holds. Another one would be taken for one that it holds."""
    if not 0 <= number < most:
        raise refused()
    return number


def _together(calls: Iterable[Call]) -> Iterator[tuple[bytes, int]]:
    """Calls as records, some together, and how many they are."""
    parts: list[bytes] = []
    count = size = 0
    for call in calls:
        a = asked(call)
        lengths = len(a.unique), len(a.first), len(a.second)
        parts += (_RECORD.pack(a.kind, a.folder, a.to, 0, *lengths, a.number), a.unique, a.first, a.second)
        count += 1
        size += lengths[1]
        if count == _MOST_TOGETHER or size >= _MOST_BYTES_TOGETHER:
            yield b"".join(parts), count
            parts, count, size = [], 0, 0
    if parts:
        yield b"".join(parts), count


def _entries(given: bytes) -> Iterator[Entry]:
    at, end = 0, len(given)
    while at < end:
        place, length, size = _ENTRY.unpack_from(given, at)
        first = at + _ENTRY.size
        at = first + length
        yield Entry(_PLACES[place], decoded(given[first:at]), size)
