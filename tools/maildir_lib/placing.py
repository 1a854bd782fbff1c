"""Gives a file a second name and takes the first away, and never overwrites."""

from __future__ import annotations

import ctypes
import errno
import os
from contextlib import suppress
from typing import Optional

_RENAME_NOREPLACE = 1
_AT_FDCWD = -100
# What link answers on a file system that has no second names.
_NO_LINKS = (errno.EPERM, errno.EOPNOTSUPP, errno.ENOSYS)


def place(
    old: bytes, new: bytes, old_directory: Optional[int] = None, new_directory: Optional[int] = None
) -> None:
    """Moves a file to a name that is free, and raises FileExistsError where it is taken.

    The names are paths, or names in the directories that are given.
    """
    try:
        os.link(old, new, src_dir_fd=old_directory, dst_dir_fd=new_directory, follow_symlinks=False)
    except OSError as error:
        if error.errno not in _NO_LINKS:
            raise
        _rename_without_replacing(old, new, old_directory, new_directory)
        return
    # The file is at its place. Whatever becomes of its first name, that is no failure.
    with suppress(OSError):
        os.unlink(old, dir_fd=old_directory)


def _rename_without_replacing(old: bytes, new: bytes, old_directory: Optional[int], new_directory: Optional[int]) -> None:
    """The same by renameat2, which only Linux has."""
    library = ctypes.CDLL(None, use_errno=True)
    rename = getattr(library, "renameat2", None)
    if rename is None:
        raise OSError(errno.EOPNOTSUPP, os.strerror(errno.EOPNOTSUPP))
    old_at = _AT_FDCWD if old_directory is None else old_directory
    new_at = _AT_FDCWD if new_directory is None else new_directory
    if rename(old_at, old, new_at, new, _RENAME_NOREPLACE) != 0:
        number = ctypes.get_errno()
        raise OSError(number, os.strerror(number))
