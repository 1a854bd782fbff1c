"""What can go wrong: an exception for each refusal of the store, and for each answer that is no success.

A refusal says that a call was not taken, and nothing has changed. A failed answer says how a job
ended that had no effect on any message.
"""

from __future__ import annotations

from typing import Any, Sequence


class DeolmuttError(Exception):
    """Anything that the store refuses or answers without success."""

    # Where many calls were made at once, how those before it ended: an `Answer` or a `Failed` each.
    done: Sequence[Any] = ()

    def __str__(self) -> str:
        # Some of these are KeyErrors too, which would show their text in quotes.
        return str(self.args[0]) if self.args else (type(self).__doc__ or "").strip().partition("\n")[0]


class Refused(DeolmuttError):
    """A call that was not taken. Nothing has changed.

    Where a line of a script is refused, `line` is its number from 1, else 0, and `printed` what the
    lines before it printed.
    """

    line: int = 0
    printed: bytes = b""


class Failed(DeolmuttError):
    """A job that ended without an effect on any message."""


# What the rules of this package refuse, before the library is asked.


class LibraryMissing(DeolmuttError, ImportError):
    """The shared library was not found, or is of another version."""


class DaskMissing(DeolmuttError, ImportError):
    """Dask, which `deolmutt.cluster` runs on, is not installed."""


class WrongThread(DeolmuttError):
    """One world, one thread at a time: another thread is in a call of this world."""


class Closed(DeolmuttError, ValueError):
    """The world was closed, and what it held is gone."""


class NoSpareFolder(DeolmuttError):
    """All folders that the store was loaded with are in use: load it with more spare folders."""


class NotSettled(DeolmuttError):
    """The library has no settle, so that a world ends after 10,000 calls."""


class NotDriven(DeolmuttError):
    """The library has no driven jobs: it was built before them."""


class NotJudged(DeolmuttError):
    """The library has no judge: it was built before it."""


class Restless(DeolmuttError, OSError):
    """A directory was changed again and again, so that no reading of it could be believed."""


class TwoNames(DeolmuttError):
    """Two files of a directory have one unique name, so that nobody can say which is the message."""


# What the store refuses of a call.


class NoFolder(Refused, KeyError):
    """The store has no folder of that number."""


class SameFolder(Refused, ValueError):
    """A move goes to another folder than the message's own."""


class BadUnique(Refused, ValueError):
    """A unique name is 1 to 200 bytes, without colon, slash, NUL, LF and CR, and with no dot in front."""


class BadTries(Refused, ValueError):
    """A call has 1 to 16 tries."""


class BadPiece(Refused, ValueError):
    """A delivery is written in pieces of 1 byte or more."""


class BadFlag(Refused, ValueError):
    """Flags are letters, A to Z and a to z."""


class BodyTooLong(Refused, ValueError):
    """A message that is delivered has at most 16,777,216 bytes."""


class TooManyJobs(Refused):
    """The world has had its 10,000 calls, and takes as many again once it is settled."""


class NameUsed(Refused):
    """The unique name was used before, and a name is used for good."""


class NoJob(Refused, KeyError):
    """The world has no job of that number."""


class Answered(Refused):
    """The job has its answer, and takes no more step."""


class Unanswered(Refused):
    """A job has no answer yet. `job` is the first one's number."""

    job: int = 0


class NotAsked(Refused):
    """No call of a driven job waits for a reply."""


class AskedBefore(Refused):
    """A call of a driven job waits for its reply."""


class NoMemory(Refused, MemoryError):
    """Memory was refused. `job` is the number of a job that is there without its answer, or 0."""

    job: int = 0


class NoMessageName(Refused, ValueError):
    """A message's name is not empty, and begins with neither a dot nor a colon."""


class BadHost(Refused, ValueError):
    """A host is 1 to 100 bytes once escaped, without NUL, LF and CR."""


class BadMicrosecond(Refused, ValueError):
    """A microsecond is 0 to 999,999."""


class Misused(Refused):
    """The library refused how this package called it, which is a fault of the package."""


# What is refused of the lines that a store is loaded with, and of scripts.


class BadLine(Refused, ValueError):
    """A line is refused. `line` is its number from 1, or 0 where the files together make no store."""


class BadCommand(BadLine):
    """No such command, or a word is missing, empty or one too many."""


class BadNumber(BadLine):
    """A word that should be a number is none."""


class BadEscape(BadLine):
    """A backslash begins no escape."""


class BadPlace(BadLine):
    """A word that should be tmp, new or cur is none of these."""


class BadFolder(BadLine):
    """A folder can't have this name, or there are 64 folders."""


class UnknownFolder(BadLine):
    """No folder line named the folder."""


class TooLate(BadLine):
    """A folder or a file after the store was opened."""


class NoFirstReading(BadLine):
    """No first reading of the folder is kept."""


class NotInThisRun(BadLine):
    """A store is loaded from `folder` and `file` lines alone."""


class BadName(BadLine):
    """A file's name is 1 to 255 bytes, without slash, NUL, LF and CR."""


class LongUnique(BadLine):
    """The unique name of a message has at most 200 bytes."""


class DuplicateUnique(BadLine):
    """Two messages of a store have one unique name."""


class SamePath(BadLine):
    """Two files have one path."""


# What is refused of a log that is judged.


class BadLog(BadLine):
    """A log is refused. `line` is the number of its first wrong line, from 1, and `text` says what is wrong."""

    text: str = ""


# How a job ends that had no effect.


class NotThere(Failed, KeyError):
    """No message of that name where the call looks for it."""


class NotTrashed(Failed):
    """An expunge takes messages that have the flag T (trashed), and this one has not."""


class OtherInfo(Failed, ValueError):
    """The message's info is other than `2,` and letters: another program's mark, which is kept."""


class Lost(Failed):
    """The message's name was gone at each try: another job changed it meanwhile."""


class TimedOut(Failed):
    """A delivery is given up after 24 hours."""


class TmpGone(Failed):
    """The delivery's file in tmp was gone: a cleaner took it."""


class NameTaken(Failed):
    """A message of that name is there."""


class Fault(Failed):
    """A directory call failed."""
