"""A maildir on a disk, with the methods of Python's `mailbox.Maildir`, whose changes are the proved jobs."""

from __future__ import annotations

import errno
import mailbox
import os
import re
from typing import IO, Any, List, Optional

from ._base import Addable, BaseMaildir, Factory, no_message
from ._disk import StrPath, directory_of, make_folder, make_maildir, mark_folder, new_and_cur
from ._message import TRASHED, Message, Wanted, flags_in, message_of, name_of, wanted_of
from ._names import fresh_unique
from ._numbers import PLACES
from ._readings import all_names, find_name
from ._running import run
from .calls import Answer, Call, Clean, Copy, Deliver, Expunge, Flag, Place, Seen
from .errors import BadUnique, NameTaken, NotThere, NotTrashed, Restless, TwoNames
from .lines import decoded, encoded

# How many bytes are written at once.
_PIECE_BYTES = 1 << 20
# How often a job looks for a message whose name is gone at the act: as often as one may.
_TRIES = 16
# A message that goes to another name while it is looked for is looked for again so often.
_LOOKS = 8
# What no unique name has, and surrogates that stand for no byte of one.
_NEVER_IN_KEY = re.compile("[:/\0\ud800-\udc7f\udd00-\udfff]")


class DiskMaildir(BaseMaildir):
    """A maildir on a disk, with the methods of `mailbox.Maildir`.

    Other programs may change it meanwhile, as long as they keep to the maildir format. Each change is a job of the store's machine,
    which looks for a message anew where its name is gone, and acts on the name that it read: so flags that another program sets
    meanwhile are not lost, and no message of another name is touched. Keys are unique names. What is read in a directory that is
    changed again and again raises `Restless`, and never says that a message is not there.

    Differences from `mailbox.Maildir`: a message that is given flags is in cur; other info than flags raises `OtherInfo` where it
    would be changed; an answer of a job that is no success is raised as a `Failed`; and a file is flushed to the disk before it is a
    message, and the directory after. docs/PYTHON.md has them all. Another `colon` is not taken.
    """

    def __init__(self, dirname: StrPath, factory: Optional[Factory] = None, create: bool = True) -> None:
        """The maildir of a path, which is made where it isn't there.

        Raises `mailbox.NoSuchMailboxError` where it isn't there and is not to be made.
        """
        # The class beside it of `patched` has another one first.
        mailbox.Mailbox.__init__(self, os.fspath(dirname), factory, create)
        # Where messages were met last, by their unique names.
        self._met: dict[str, Message] = {}
        if not os.path.exists(self._path):
            if not create:
                raise mailbox.NoSuchMailboxError(self._path)
            make_maildir(self._path)

    def __repr__(self) -> str:
        return f"<{type(self).__module__.partition('.')[0]}.{type(self).__qualname__} of {self._path!r}>"

    # Messages in and out.

    def add(self, message: Addable) -> str:
        """Adds a message, and answers its key. A `MaildirMessage` keeps its flags and its date.

        It is delivered to new. One that has flags or is of cur then goes there by a second step: a failure between the two leaves it
        in new without its flags. Raises `mailbox.ExternalClashError` where another message has the name that was made for it.
        """
        return self._deliver(message, wanted_of(message))

    def _deliver(self, message: Addable, wanted: Wanted) -> str:
        key = fresh_unique()
        self._run(Deliver(0, key, self._body(message), _PIECE_BYTES), wanted.date)
        if wanted.place is Place.CUR:
            try:
                self._run(Seen(0, key, wanted.flags, _TRIES))
            except NotThere:
                # Another program took it to cur meanwhile, where it gets its flags, or removed it.
                self._change_in_cur(key, wanted.flags, "")
        return key

    def remove(self, key: str) -> None:
        """Removes a message. Raises KeyError where there is none.

        It takes two steps: the message gets the flag T, and one of new goes to cur by that, and then the expunge removes it. A failure
        between them leaves it whole in cur, with the flag T.
        """
        for _ in range(_LOOKS):
            self._change_flags(key, TRASHED, "")
            try:
                self._run(Expunge(0, key, _TRIES))
                return
            except NotTrashed:
                # Another program took the flag away.
                continue
            except NotThere:
                raise no_message(key) from None
        raise NotTrashed()

    def __setitem__(self, key: str, message: Addable) -> None:
        """Puts a message in place of another, under its key. Raises KeyError where there is none.

        A `MaildirMessage` brings its own flags and date; any other message gets the flags of the one before, as they are at first. The
        new one is delivered under a name of its own, then the old one is removed, and then the new one gets its name. A failure before
        the end leaves the new one under its own name. So does a message of the key that another program brings meanwhile, with
        `mailbox.ExternalClashError`.
        """
        old = self._lookup(key)
        old.check_info()
        fresh = self._deliver(message, wanted_of(message, old))
        self.remove(key)
        self._run(Copy(0, fresh, 0, key, _TRIES))
        self.remove(fresh)

    def get_message(self, key: str) -> Any:
        """A message as `MaildirMessage`, or as the factory makes it. Raises KeyError for none."""
        found, file = self._opened(key)
        with file:
            date = os.fstat(file.fileno()).st_mtime
            message = self._factory(file) if self._factory else mailbox.MaildirMessage(file)
        message.set_subdir(found.place.value)
        if found.info is not None:
            message.set_info(found.info)
        message.set_date(date)
        return message

    def get_bytes(self, key: str) -> bytes:
        """The bytes of a message. Raises KeyError for none."""
        with self._opened(key)[1] as file:
            return file.read()

    def get_file(self, key: str) -> IO[bytes]:
        """The file of a message, open for reading. Raises KeyError for none."""
        return self._opened(key)[1]

    # Keys.

    def keys(self) -> List[str]:
        """The keys of the messages, as a list, in order of their bytes.

        New is read, and then cur, each by a reading in which it rested.
        """
        return sorted(self._listed(), key=encoded)

    def __contains__(self, key: object) -> bool:
        """Whether there is a message of this key."""
        if not isinstance(key, str):
            return False
        try:
            self._lookup(key)
        except KeyError:
            return False
        return True

    def __len__(self) -> int:
        """How many messages there are."""
        return len(self._listed())

    # Flags by key.

    def _change_flags(self, key: str, add: str, remove: str) -> None:
        """Adds flags and takes flags away, wherever the message is: in cur, or in new, from where it goes to cur.

        A message that goes from new to cur meanwhile is met in cur at the second round.
        """
        _check_key(key)
        try:
            for _ in range(2):
                if self._change_in_cur(key, add, remove) or self._change_in_new(key, add, remove):
                    return
        except BadUnique:
            # No job takes the name. That is said only where there is a message of that name.
            self._lookup(key)
            raise
        raise no_message(key)

    def _change_in_cur(self, key: str, add: str, remove: str) -> bool:
        """The same for a message of cur. Whether there is one."""
        try:
            self._run(Flag(0, key, add, remove, _TRIES))
        except NotThere:
            return False
        return True

    def _change_in_new(self, key: str, add: str, remove: str) -> bool:
        """The same for a message of new, which stays there if nothing of it changes. Whether there is one."""
        found = self._find(Place.NEW, key)
        if found is None:
            return False
        flags = set(flags_in(found.info or ""))
        if not add and flags.isdisjoint(remove):
            return True
        try:
            flags = set(self._run(Seen(0, key, add, _TRIES)).flags)
        except NotThere:
            return False
        return flags.isdisjoint(remove) or self._change_in_cur(key, add, remove)

    # Folders.

    def list_folders(self) -> List[str]:
        """The names of the folders in this one."""
        with os.scandir(self._path) as entries:
            return [e.name[1:] for e in entries if len(e.name) > 1 and e.name.startswith(".") and e.is_dir()]

    def get_folder(self, folder: str) -> DiskMaildir:
        """A folder in this one. Raises `mailbox.NoSuchMailboxError` where there is none."""
        return type(self)(directory_of(self._path, (folder,)), self._factory, create=False)

    def add_folder(self, folder: str) -> DiskMaildir:
        """Makes a folder in this one where it isn't there, and answers it."""
        path = directory_of(self._path, (folder,))
        found = type(self)(path, self._factory)
        mark_folder(path)
        return found

    def remove_folder(self, folder: str) -> None:
        """Removes a folder in this one.

        Raises FileNotFoundError where there is none, and `mailbox.NotEmptyError` where it has messages or directories. A message that
        another program delivers meanwhile stays: the folder is not empty then.
        """
        path = directory_of(self._path, (folder,))
        if any(not name.startswith(".") for directory in new_and_cur(path) for name in os.listdir(directory)):
            raise mailbox.NotEmptyError(f"Folder contains message(s): {folder}")
        with os.scandir(path) as entries:
            for entry in entries:
                if entry.is_dir() and entry.name not in PLACES:
                    raise mailbox.NotEmptyError(f"Folder contains subdirectory '{entry.name}': {folder}")
        try:
            for directory in new_and_cur(path):
                _remove_directory(directory, ".")
            if os.path.isdir(os.path.join(path, "tmp")):
                _remove_directory(os.path.join(path, "tmp"), "")
            _remove_directory(path, "")
        except mailbox.NotEmptyError:
            # What was removed by then is a part of the folder, which stays.
            make_folder(path, is_top=False)
            raise

    # The mailbox as a whole.

    def clean(self) -> None:
        """Removes the files of tmp that were not used for 36 hours."""
        self._run(Clean(0))

    def close(self) -> None:
        """Does nothing: nothing is kept open."""

    # What the methods share.

    def _run(self, call: Call, date: Optional[float] = None) -> Answer:
        try:
            return run(call, [os.fsencode(self._path)], date)
        except NameTaken as error:
            raise mailbox.ExternalClashError(f"Name clash with existing message in {self._path}") from error

    def _directory(self, place: Place) -> bytes:
        return os.path.join(os.fsencode(self._path), encoded(place.value))

    def _file(self, found: Message) -> bytes:
        return os.path.join(self._directory(found.place), encoded(name_of(found.unique, found.info)))

    def _listed(self) -> dict[str, Message]:
        """The messages by their unique names: new is read before cur, and one that both show is where cur shows it."""
        listed: dict[str, Message] = {}
        for place in Place:
            for name in all_names(self._directory(place)):
                if not name.startswith((b".", b":")):
                    message = message_of(decoded(name), place)
                    listed[message.unique] = message
        self._met = dict(listed)
        return listed

    def _find(self, place: Place, unique: str) -> Optional[Message]:
        found = find_name(self._directory(place), encoded(unique))
        if found.is_twice:
            raise TwoNames(f"two files have the unique name {unique}")
        return None if found.name is None else message_of(decoded(found.name), place)

    def _lookup(self, key: str) -> Message:
        """A message: where it was met last, if its file is still there, or else in new and then in cur. Raises KeyError for no message."""
        _check_key(key)
        met = self._met.get(key)
        if met is not None and os.path.lexists(self._file(met)):
            return met
        found = self._find(Place.NEW, key) or self._find(Place.CUR, key)
        if found is None:
            raise no_message(key)
        self._met[key] = found
        return found

    def _opened(self, key: str) -> tuple[Message, IO[bytes]]:
        """A message and its file. A name that is gone by the opening is looked for again."""
        for _ in range(_LOOKS):
            found = self._lookup(key)
            try:
                return found, open(self._file(found), "rb")
            except FileNotFoundError:
                continue
        raise Restless(f"the name of {key} was changed again and again")


def _check_key(key: object) -> None:
    """Raises KeyError for what no message has as its key."""
    if not isinstance(key, str) or not key or key.startswith(".") or _NEVER_IN_KEY.search(key):
        raise no_message(key)


def _remove_directory(directory: str, start: str) -> None:
    """Removes a directory and those of its files whose names begin so. Raises `mailbox.NotEmptyError` where it has others."""
    for name in os.listdir(directory):
        path = os.path.join(directory, name)
        if name.startswith(start) and not os.path.isdir(path):
            os.remove(path)
    try:
        os.rmdir(directory)
    except OSError as error:
        if error.errno not in (errno.ENOTEMPTY, errno.EEXIST):
            raise
        raise mailbox.NotEmptyError(f"Directory is not empty: {directory}") from error
