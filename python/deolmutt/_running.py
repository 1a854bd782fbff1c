"""Jobs that are run on maildirs of a disk, by the calls of `os`."""

from __future__ import annotations

import ctypes
import errno
import os
import stat
import time
from contextlib import suppress
from functools import lru_cache
from typing import Any, Iterator, List, Optional, Sequence, Tuple, Union

from ._closing import Closing
from ._numbers import PLACES
from ._readings import find_name
from .calls import Answer, Call, Clean
from .driven import APPEND, CREATE, DONE, EXISTS, FAULTED, LINK, LIST, NOT_FOUND, UNLINK, Driven, Request
from .errors import DeolmuttError, Failed, TwoNames
from .lines import encoded

_FILE_MODE = 0o600
# Of renameat2(2): from the directory of the process, and with no replacing.
_AT_FDCWD = -100
_NOREPLACE = 1

# A row of a reading: a name, and the second of its file's last use.
_Row = Tuple[bytes, int]


def run(call: Call, folders: Sequence[bytes], date: Optional[float] = None) -> Answer:
    """Runs the job of a call to its answer, over these maildirs, numbered from 0. A delivery's file gets the date, if there is one.

    An answer that is no success is raised: `Failed`, from the error of the last call that failed, if one did. Refused: as
    `deolmutt.driven.Driven`.
    """
    with _System(folders, date) as system, Driven(call) as job:
        while True:
            job.ask(int(time.time()))
            reply, rows = system.make(job.request(), call)
            for name, stamp in rows:
                job.row(name, stamp)
            answer = job.take(reply)
            if isinstance(answer, Failed):
                raise answer from system.cause
            if answer is not None:
                return answer


class _System(Closing):
    """The calls of the system on some maildirs."""

    def __init__(self, folders: Sequence[bytes], date: Optional[float]) -> None:
        self._folders = folders
        self._date = date
        # The file of the delivery that is under way.
        self._file: Optional[int] = None
        # Why the last call that was not done was not.
        self.cause: Optional[Exception] = None

    def make(self, request: Request, call: Call) -> tuple[int, List[_Row]]:
        """Makes a call, and says what was replied and read."""
        if request.call != LIST:
            return self._reply(request), []
        directory = self._directory(request.folder, request.place)
        try:
            if isinstance(call, Clean):
                return DONE, list(_used_files(directory))
            found = find_name(directory, encoded(call.unique))
            if found.is_twice:
                raise TwoNames(f"two files have the unique name {call.unique}")
        except (OSError, DeolmuttError) as error:
            return self._refused(error), []
        return DONE, [] if found.name is None else [(found.name, 0)]

    def _reply(self, request: Request) -> int:
        path = self._path(request.folder, request.place, request.name)
        try:
            if request.call == CREATE:
                flags = os.O_WRONLY | os.O_CREAT | os.O_EXCL | os.O_CLOEXEC
                self._file = os.open(path, flags, _FILE_MODE)
            elif request.call == APPEND:
                return self._append(request.other)
            elif request.call == UNLINK:
                os.unlink(path)
            else:
                return self._give_name(request, path)
        except OSError as error:
            return self._refused(error)
        return DONE

    def _give_name(self, request: Request, path: bytes) -> int:
        """Links or renames a file. That a name is not found is of the old one only if the directory of the new one is there."""
        target = self._path(request.to_folder, request.to_place, request.other)
        try:
            return self._link(path, target) if request.call == LINK else _rename(path, target)
        except FileNotFoundError as error:
            if os.path.isdir(os.path.dirname(target)):
                raise
            self.cause = error
            return FAULTED

    def _refused(self, error: Exception) -> int:
        """What is replied to a call that failed so. The error is kept."""
        self.cause = error
        if isinstance(error, FileExistsError):
            return EXISTS
        return NOT_FOUND if isinstance(error, FileNotFoundError) else FAULTED

    def _append(self, body: bytes) -> int:
        if self._file is None:
            return FAULTED
        left = memoryview(body)
        while left:
            left = left[os.write(self._file, left) :]
        return DONE

    def _link(self, path: bytes, target: bytes) -> int:
        """Gives a file a second name. The file of a delivery is flushed before, and the directory after."""
        self._flush()
        os.link(path, target)
        # The message is there, whether or not a machine that stops now would keep it.
        with suppress(OSError):
            flush_directory(os.path.dirname(target))
        return DONE

    def _flush(self) -> None:
        if self._file is not None:
            if self._date is not None:
                os.utime(self._file, (self._date, self._date))
            os.fsync(self._file)
            self.close()

    def close(self) -> None:
        """Closes the file of a delivery, also of one that did not come to its link."""
        file, self._file = self._file, None
        if file is not None:
            os.close(file)

    def _directory(self, folder: int, place: int) -> bytes:
        return os.path.join(self._folders[folder], encoded(PLACES[place]))

    def _path(self, folder: int, place: int, name: bytes) -> bytes:
        return os.path.join(self._directory(folder, place), name)


def _rename(path: bytes, target: bytes) -> int:
    """Gives a file another name, which must not be there. Where the system has no call for that, a look before tells."""
    call = _renameat2()
    if call is not None:
        if call(_AT_FDCWD, path, _AT_FDCWD, target, _NOREPLACE) == 0:
            return DONE
        number = ctypes.get_errno()
        if number not in (errno.EINVAL, errno.ENOSYS):
            raise OSError(number, os.strerror(number), path)
    if os.path.lexists(target):
        raise FileExistsError(errno.EEXIST, os.strerror(errno.EEXIST), target)
    os.rename(path, target)
    return DONE


@lru_cache(maxsize=None)
def _renameat2() -> Any:
    """The call of the C library, or None where it has none."""
    call = getattr(ctypes.CDLL(None, use_errno=True), "renameat2", None)
    if call is not None:
        call.argtypes = (ctypes.c_int, ctypes.c_char_p, ctypes.c_int, ctypes.c_char_p, ctypes.c_uint)
    return call


def _used_files(directory: bytes) -> Iterator[_Row]:
    """The regular files of tmp, each with the second of its last write or last read. One that is gone by the look at it is left out."""
    for name in os.listdir(directory):
        try:
            about = os.lstat(os.path.join(directory, name))
        except FileNotFoundError:
            continue
        if stat.S_ISREG(about.st_mode):
            yield name, int(max(about.st_mtime, about.st_atime))


def flush_directory(directory: Union[str, bytes]) -> None:
    """Flushes the names in a directory to the disk."""
    descriptor = os.open(directory, os.O_RDONLY | os.O_DIRECTORY)
    try:
        os.fsync(descriptor)
    finally:
        os.close(descriptor)
