"""`mailbox.Maildir(path)` below a prefix as a mailbox of this package, for tests of code that opens maildirs itself."""

from __future__ import annotations

import mailbox
import os
from contextlib import contextmanager
from typing import Any, Iterator, Optional

from ._base import Factory
from ._disk import StrPath, directory_of, is_maildir
from ._tree import TOP, Trail, Tree
from .disk_maildir import DiskMaildir
from .maildir import Maildir


class MemoryMaildir(Maildir, mailbox.Maildir):  # type: ignore[misc]
    """A mailbox in memory in the place of the one of a path. To close it does nothing, as for that one."""

    _path: str

    def __init__(self, dirname: StrPath, factory: Optional[Factory] = None, create: bool = True) -> None:
        """As code makes another mailbox by the class of one that it has. Of a path elsewhere, and after the context, it is made as ever."""
        above = (kind for kind in type(self).__mro__ if issubclass(kind, mailbox.Maildir))
        self.__class__ = next(kind for kind in above if not issubclass(kind, MemoryMaildir))  # type: ignore[assignment]
        mailbox.Maildir.__init__(self, dirname, factory, create)

    def _at(self, trail: Trail) -> MemoryMaildir:
        found = super()._at(trail)
        assert isinstance(found, MemoryMaildir)
        found._path = directory_of(self._path, trail[len(self._trail) :])
        return found

    def close(self) -> None:
        """Does nothing: whoever opens the path again finds what is there now."""


class PatchedDiskMaildir(DiskMaildir, mailbox.Maildir):  # type: ignore[misc]
    """A `DiskMaildir` that is a `mailbox.Maildir`."""


class _Stores:
    """The stores of mailboxes in memory, by the paths of these."""

    def __init__(self) -> None:
        self._trees: dict[str, Tree] = {}

    def open(self, box: MemoryMaildir, path: str, factory: Optional[Factory], create: bool) -> None:
        """Makes this the mailbox of a path."""
        root, trail = self._parted(os.path.realpath(path))
        tree = self._trees.get(root) or self._load(root, create)
        if tree.folder(trail) is None:
            if not create:
                raise mailbox.NoSuchMailboxError(path)
            tree.add_folder(trail)
        self._trees[root] = tree
        box._begin(tree, trail, factory)
        box._path = os.path.abspath(path)

    def _parted(self, path: str) -> tuple[str, Trail]:
        """The mailbox that a path is in, and the folders on the way there from it."""
        above, name = os.path.split(path)
        if path not in self._trees and len(name) > 1 and name.startswith("."):
            root, trail = self._parted(above)
            tree = self._trees.get(root)
            if is_maildir(above) or (tree is not None and tree.folder(trail) is not None):
                return root, (*trail, name[1:])
        return path, TOP

    @staticmethod
    def _load(path: str, create: bool) -> Tree:
        if is_maildir(path):
            return Maildir.load(path)._tree
        if not create and not os.path.isdir(path):
            raise mailbox.NoSuchMailboxError(path)
        return Maildir()._tree


@contextmanager
def patched(prefix: StrPath, disk: bool = False) -> Iterator[None]:
    """A context in which `mailbox.Maildir(path)` is a mailbox of this package where the path is the prefix or below it.

    It is one in memory for each path, which is loaded from the tree where one is there: nothing is written to the disk, and
    whoever opens the path again finds what is there now. With `disk` it is a `DiskMaildir`. It is a `mailbox.Maildir` too, also
    where code has that class by another name, or a class below it. A path elsewhere is opened as ever.

    The class `mailbox.Maildir` is changed while the context lasts, for all threads.
    """
    top = os.path.realpath(os.fspath(prefix))
    stores = _Stores()
    before = mailbox.Maildir.__init__

    def begin(self: Any, dirname: StrPath, factory: Optional[Factory] = None, create: bool = True) -> None:
        path = os.fsdecode(os.fspath(dirname))
        if os.path.commonpath([os.path.realpath(path), top]) != top:
            before(self, dirname, factory, create)
        elif disk:
            self.__class__ = _with_base(type(self), PatchedDiskMaildir)
            DiskMaildir.__init__(self, path, factory, create)
        else:
            self.__class__ = _with_base(type(self), MemoryMaildir)
            stores.open(self, path, factory, create)

    setattr(mailbox.Maildir, "__init__", begin)
    try:
        yield
    finally:
        setattr(mailbox.Maildir, "__init__", before)


# The classes that were made, each once.
_made: dict[tuple[type, type], type] = {}


def _with_base(kind: type, base: type) -> type:
    """The class, with the methods of `mailbox.Maildir` that it doesn't have itself from the base."""
    if issubclass(kind, base):
        return kind
    if kind is mailbox.Maildir:
        return base
    if (kind, base) not in _made:
        _made[kind, base] = type(kind.__name__, (kind, base), {"__module__": kind.__module__})
    return _made[kind, base]
