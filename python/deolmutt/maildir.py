"""A mailbox in memory, with the methods of Python's `mailbox.Maildir`."""

from __future__ import annotations

import io
import mailbox
import os
import re
import warnings
from typing import IO, Any, Iterable, List, Optional

from . import _disk
from ._base import Addable, BaseMaildir, Factory, Readable, no_message
from ._disk import StrPath
from ._message import Message, check_flags, name_of, wanted_of
from ._names import fresh_unique, is_unique
from ._running import flush_directory
from ._tree import MOST_FOLDERS, TOP, Trail, Tree, loaded_tree, store_name
from .calls import Clean
from .errors import BodyTooLong, Closed, WrongThread
from .lines import file_line
from .world import World

__all__ = ["Addable", "Factory", "Maildir", "Readable"]

# What the store takes of a message that is delivered.
_MOST_BYTES = 16_777_216
_NEVER_IN_FOLDER = re.compile("[/\0]")


class Maildir(BaseMaildir):
    """A mailbox in memory, which begins empty and lives until it is closed.

    It has the methods of `mailbox.Maildir`, and they do what that does, with these differences:

    - A message that is given flags is in cur, as maildir(5) has it. One in new goes there.
    - Info is empty or `2,` and letters. Other info, of a tree that was loaded, is kept: such a message
      can be read and exported, and what would change its flags or remove it raises `OtherInfo`.
    - The folders of a store are fixed when it is made. `add_folder` names a spare one.
    - One thread at a time: a second one's call raises `WrongThread`, and has done nothing.

    No disk is written, but by `export`. `colon` is of the files that it writes, and of those that `load` reads.
    """

    def __init__(
        self, factory: Optional[Factory] = None, folders: Iterable[str] = (), spare_folders: Optional[int] = None
    ) -> None:
        """An empty mailbox with these folders, and so many spare ones for `add_folder`.

        It takes no path: `load` reads a tree, and `DiskMaildir` is the maildir of a path. `factory` makes a
        message of a file that is open for reading bytes; without it messages are
        `mailbox.MaildirMessage`. A store has at most 64 folders, this mailbox itself among them, and
        as many as that leaves are spare where `spare_folders` is None.
        """
        _check_factory(factory)
        named = [_named(TOP, folder) for folder in dict.fromkeys(folders)]
        self._begin(loaded_tree(named, _spare(named, spare_folders), ()), TOP, factory)

    def _begin(self, tree: Tree, trail: Trail, factory: Optional[Factory]) -> None:
        # The base class would keep a path, which no memory has.
        self._factory = factory
        self._tree = tree
        self._trail = trail

    @property
    def world(self) -> World:
        """The store itself. Calls that are made of it are seen here too."""
        return self._tree.world

    def __repr__(self) -> str:
        kind = f"{type(self).__module__.partition('.')[0]}.{type(self).__qualname__}"
        return f"<{' '.join([kind, *map(repr, self._trail)])}: {self._said()}>"

    def _said(self) -> str:
        """What it holds, in words, as far as this thread may know."""
        try:
            counts = _counted(len(self), "message"), _counted(len(self.list_folders()), "folder")
        except (Closed, WrongThread, mailbox.NoSuchMailboxError) as error:
            return f"nothing to see: {type(error).__name__}"
        return ", ".join([*counts, *["closed"] * self._tree.is_closed])

    # Messages in and out.

    def add(self, message: Addable) -> str:
        """Adds a message, and answers its key. A `MaildirMessage` keeps its flags and its date.

        It is delivered to new. One that has flags or is of cur then goes there by a second step: a
        failure between the two leaves it in new without its flags. Its info, other than `2,` and
        letters, is refused as `OtherInfo`, and what is no message as TypeError or ValueError.
        """
        with self._changing():
            return self._tree.deliver(self._number(), self._body(message), wanted_of(message))

    def add_all(self, messages: Iterable[Addable]) -> List[str]:
        """Adds messages, and answers their keys, faster than one by one.

        All are looked at before the first is added, so that one that `add` refuses is raised first.
        """
        with self._changing():
            checked = [(self._body(message), wanted_of(message)) for message in messages]
            return self._tree.deliver_all(self._number(), checked)

    def remove(self, key: str) -> None:
        """Removes a message. Raises KeyError where there is none.

        It takes two steps: the message gets the flag T, and one of new goes to cur by that, and then
        the expunge alone removes it. A failure between them leaves it whole in cur, with the flag T.
        """
        with self._changing():
            self._lookup(key)
            self._tree.remove(self._number(), key)

    def __setitem__(self, key: str, message: Addable) -> None:
        """Puts a message in place of another, under its key. Raises KeyError where there is none.

        A `MaildirMessage` brings its own directory, flags and date; any other message gets those of
        the one before, and this moment as its date. The new one is delivered first, and then the old
        one is removed: a failure between the two leaves both, the new one under a key of its own.
        """
        with self._changing():
            number = self._number()
            old = self._lookup(key)
            old.check_info()
            wanted = wanted_of(message, old)
            fresh = self._tree.deliver(number, self._body(message), wanted)
            self._tree.remove(number, key)
            self._tree.rename_key(number, fresh, key)

    def get_message(self, key: str) -> Any:
        """A message as `MaildirMessage`, or as the factory makes it. Raises KeyError for none."""
        with self._held():
            found = self._lookup(key)
            body = io.BytesIO(self.world.read(found.unique))
            message = self._factory(body) if self._factory else mailbox.MaildirMessage(body)
            message.set_subdir(found.place.value)
            if found.info is not None:
                message.set_info(found.info)
            message.set_date(self._tree.date(found))
            return message

    def get_bytes(self, key: str) -> bytes:
        """The bytes of a message. Raises KeyError for none."""
        with self._held():
            return self.world.read(self._lookup(key).unique)

    def get_file(self, key: str) -> IO[bytes]:
        """The bytes of a message as a file. It is a copy: later changes are not seen in it."""
        return io.BytesIO(self.get_bytes(key))

    # Keys.

    def keys(self) -> List[str]:
        """The keys of the messages, as a list."""
        with self._held():
            return list(self._contents())

    def __contains__(self, key: object) -> bool:
        """Whether there is a message of this key."""
        with self._held():
            return key in self._contents()

    def __len__(self) -> int:
        """How many messages there are."""
        with self._held():
            return len(self._contents())

    # Flags by key.

    def _change_flags(self, key: str, add: str, remove: str) -> None:
        with self._changing():
            self._lookup(key)
            self._tree.change_flags(self._number(), key, add, remove)

    def add_flag_to_all(self, keys: Iterable[str], flag: str) -> None:
        """Adds a flag, or some, to many messages, faster than one by one.

        All keys are looked up before the first message is changed.
        """
        check_flags(flag)
        with self._changing():
            wanted, contents = list(keys), self._contents()
            for key in wanted:
                if key not in contents:
                    raise no_message(key)
            self._tree.add_flags_to_all(self._number(), wanted, flag)

    # Folders.

    def list_folders(self) -> List[str]:
        """The names of the folders in this one."""
        with self._held():
            self._number()
            return self._tree.folders_in(self._trail)

    def get_folder(self, folder: str) -> Maildir:
        """A folder in this one. Raises `mailbox.NoSuchMailboxError` where there is none."""
        with self._held():
            trail = (*self._trail, folder)
            if self._tree.folder(trail) is None:
                raise mailbox.NoSuchMailboxError(folder)
            return self._at(trail)

    def add_folder(self, folder: str) -> Maildir:
        """Makes a folder in this one where it isn't there, and answers it.

        The folders of a store are fixed when it is made, so a spare one is given the name. Raises
        `NoSpareFolder` where none is left, and ValueError for a name that no directory can have.
        """
        with self._changing():
            self._number()
            trail = _named(self._trail, folder)
            if self._tree.folder(trail) is None:
                self._tree.add_folder(trail)
            return self._at(trail)

    def remove_folder(self, folder: str) -> None:
        """Removes a folder in this one, which then is a spare one.

        Raises `mailbox.NotEmptyError` where it has messages or folders, and FileNotFoundError where
        there is none, as `mailbox.Maildir` does.
        """
        with self._changing():
            trail = (*self._trail, folder)
            number = self._tree.folder(trail)
            if number is None:
                raise FileNotFoundError(f"No such folder: {folder}")
            if self._tree.contents(number):
                raise mailbox.NotEmptyError(f"Folder contains message(s): {folder}")
            if self._tree.folders_in(trail):
                raise mailbox.NotEmptyError(f"Folder contains folder(s): {folder}")
            self._tree.remove_folder(trail)

    def _at(self, trail: Trail) -> Maildir:
        found = type(self).__new__(type(self))
        found._begin(self._tree, trail, self._factory)
        return found

    # The mailbox as a whole.

    def clean(self) -> None:
        """Removes the files of tmp that were not used for 36 hours."""
        with self._changing():
            self._tree.call(Clean(self._number()))

    def close(self) -> None:
        """Ends changes: what would change the mailbox raises `Closed` from then on. It can still be read.

        Of a folder in another it does nothing, since the store is that one's. The messages, which are
        nowhere but in memory, go with the last object of this mailbox and its folders, or at once by
        `world.close()`. Export the mailbox first, where they are to stay.
        """
        if self._trail == TOP:
            self._tree.is_closed = True

    # Real trees.

    @classmethod
    def load(cls, tree: StrPath, factory: Optional[Factory] = None, spare_folders: Optional[int] = None) -> Maildir:
        """A mailbox with the messages and folders of a tree, as `mailbox.Maildir` sees them.

        Bytes, keys, flags, other info and dates are those of the tree, which is only read. Files in
        tmp and names that begin with a dot are no messages. Where two messages of a folder have one
        unique name, one gets a key of its own. What the store can't have, info with a space or a line
        end, is left out with a warning of the class `LeftOut`. Raises `mailbox.NoSuchMailboxError`
        where there is no tree, and `NoSpareFolder` for more than 64 folders.
        """
        path = os.fspath(tree)
        if not os.path.isdir(path):
            raise mailbox.NoSuchMailboxError(path)
        trails = list(_disk.find_folders(path))
        loading = _Loading(cls.colon)
        for number, folder in enumerate([TOP, *trails]):
            loading.take_folder(number, _disk.directory_of(path, folder))
        loaded = loaded_tree(trails, _spare(trails, spare_folders), loading.lines)
        for unique, (key, date) in loading.notes.items():
            loaded.note(unique, key, date)
        box = cls.__new__(cls)
        box._begin(loaded, TOP, factory)
        return box

    def export(self, tree: StrPath) -> None:
        """Writes this mailbox and the folders in it into a tree on a disk, made where it isn't there.

        Each message is a file of its key and its info, with its date, which is written to tmp,
        flushed to the disk and linked to its place. Nothing is overwritten: where a folder of the
        tree has a message of the same unique name, `mailbox.ExternalClashError` is raised before
        anything is written. Where the disk refuses, with OSError, the files so far are there whole.
        """
        path = os.fspath(tree)
        with self._held():
            self._number()
            size = len(self._trail)
            folders = {
                trail[size:]: number
                for trail, number in self._tree.all_folders().items()
                if trail[:size] == self._trail
            }
            for trail, number in folders.items():
                self._check_clash(_disk.directory_of(path, trail), number)
            for trail, number in folders.items():
                self._export_folder(_disk.directory_of(path, trail), number, trail == TOP)

    def _check_clash(self, directory: str, number: int) -> None:
        clash = _disk.uniques_in(directory, self.colon) & set(self._tree.contents(number))
        if clash:
            there = os.path.join(directory, min(clash))
            raise mailbox.ExternalClashError(f"Name clash with existing message: {there}")

    def _export_folder(self, directory: str, number: int, is_top: bool) -> None:
        _disk.make_folder(directory, is_top)
        for key, message in self._tree.contents(number).items():
            path = os.path.join(directory, message.place.value, name_of(key, message.info, self.colon))
            _disk.write_file(path, self.world.read(message.unique), self._tree.date(message))
        for path in _disk.new_and_cur(directory):
            flush_directory(path)

    # What the methods share.

    def _held(self) -> Any:
        """Keeps other threads out for the length of a method."""
        return self.world.held

    def _changing(self) -> Any:
        """The same for a method that changes something. Raises `Closed` where the mailbox was closed."""
        if self._tree.is_closed:
            raise Closed("the mailbox was closed: it can be read, and not changed")
        return self._held()

    def _number(self) -> int:
        """The number of this folder. Raises `mailbox.NoSuchMailboxError` where it was removed."""
        number = self._tree.folder(self._trail)
        if number is None:
            raise mailbox.NoSuchMailboxError(self._trail[-1])
        return number

    def _contents(self) -> dict[str, Message]:
        if self.world.is_closed:
            raise Closed()
        return self._tree.contents(self._number())

    def _lookup(self, key: str) -> Message:
        contents = self._contents()
        try:
            return contents[key]
        except KeyError:
            raise no_message(key) from None

    def _body(self, message: Addable) -> bytes:
        body = super()._body(message)
        if len(body) > _MOST_BYTES:
            raise BodyTooLong()
        return body


class _Loading:
    """Messages of a tree on a disk on their way into a store."""

    def __init__(self, colon: str) -> None:
        self._colon = colon
        self.lines: List[bytes] = []
        # The key and the date of each message, by its unique name in the store.
        self.notes: dict[str, tuple[str, float]] = {}

    def take_folder(self, number: int, directory: str) -> None:
        """Takes the messages of a folder."""
        keys: set[str] = set()
        for file in _disk.read_files(directory, self._colon):
            if _disk.is_sayable(file.message.info):
                self._take(number, file, keys)
            else:
                left_out = f"{directory}: {file.message.unique}: left out: its info"
                warnings.warn(left_out, _disk.LeftOut, stacklevel=3)

    def _take(self, number: int, file: _disk.File, keys: set[str]) -> None:
        theirs, place, info = file.message
        # The store has a name once in all its folders, and not every name.
        unique = fresh_unique() if theirs in self.notes or not is_unique(theirs) else theirs
        key = unique if theirs in keys else theirs
        keys.add(key)
        self.notes[unique] = key, file.date
        name = name_of(unique, info)
        self.lines.append(file_line(store_name(number), place.value, name, int(file.date), file.body))


def _check_factory(factory: object) -> None:
    """Refuses the path that `mailbox.Maildir` takes in this place, and all else that makes no message."""
    if isinstance(factory, (str, bytes, os.PathLike)):
        raise TypeError(
            "deolmutt.Maildir takes no path, since it is in memory and begins empty:"
            " deolmutt.Maildir.load(path) reads a tree into one, and deolmutt.DiskMaildir(path) is the maildir on the disk"
        )
    if factory is not None and not callable(factory):
        raise TypeError(f"a factory makes a message of a file, and this can't be called: {factory!r}")


def _counted(count: int, what: str) -> str:
    return f"{count} {what}{'' if count == 1 else 's'}"


def _named(trail: Trail, folder: str) -> Trail:
    """The folder of a name in another one. Refused where no directory can have the name."""
    if folder in ("", ".") or _NEVER_IN_FOLDER.search(folder):
        raise ValueError(f"no directory can have the name of this folder: {folder!r}")
    return (*trail, folder)


def _spare(named: List[Trail], wanted: Optional[int]) -> int:
    if wanted is None:
        return max(MOST_FOLDERS - 1 - len(named), 0)
    if wanted < 0:
        raise ValueError(f"spare_folders is 0 or more: {wanted}")
    return wanted
