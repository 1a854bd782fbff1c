"""One world as the folders of a mailbox tree, each with its messages by their keys."""

from __future__ import annotations

import time
from typing import Callable, Iterable, Iterator, Optional, Union

from ._message import FLAGS_FOLLOW, TRASHED, Message, Wanted, message_of
from ._names import fresh_unique
from ._numbers import success_of
from ._settling import call_many, settle
from .calls import Answer, Call, Deliver, Expunge, Flag, Place, Seen
from .errors import NoSpareFolder, TooManyJobs
from .lines import file_line, folder_line
from .world import World

# The names of the folders on the way from the top of a tree to one of it.
Trail = tuple[str, ...]
TOP: Trail = ()
MOST_FOLDERS = 64


class Tree:
    """A world, the names of its folders, and what it doesn't keep itself: keys and dates."""

    def __init__(self, world: World, folders: dict[Trail, int], spare: list[int]) -> None:
        self.world = world
        self._folders = folders
        self._spare = spare
        # The key of a message, where it is not its unique name.
        self._keys: dict[str, str] = {}
        # When a message was delivered, in seconds since 1970.
        self._dates: dict[str, float] = {}
        self._contents: dict[int, dict[str, Message]] = {}
        self._known_changes = world.changes
        # Whether it was closed to changes.
        self.is_closed = False

    # Folders.

    def folder(self, trail: Trail) -> Optional[int]:
        """The number of a folder, or None where there is none of that name."""
        return self._folders.get(trail)

    def folders_in(self, trail: Trail) -> list[str]:
        """The names of the folders right in a folder."""
        return [found[-1] for found in self._folders if found and found[:-1] == trail]

    def all_folders(self) -> dict[Trail, int]:
        """All folders with their numbers, a folder before those in it."""
        return dict(sorted(self._folders.items()))

    def add_folder(self, trail: Trail) -> None:
        """Gives a spare folder a name."""
        if not self._spare:
            raise NoSpareFolder(
                f"a store's folders are fixed when it is loaded, and all {len(self._folders)} of this"
                " one are in use: make it with more spare_folders (64 folders at most)"
            )
        self._folders[trail] = self._spare.pop()

    def remove_folder(self, trail: Trail) -> None:
        """Makes a folder a spare one again."""
        self._spare.append(self._folders.pop(trail))

    # Messages.

    def contents(self, number: int) -> dict[str, Message]:
        """The messages of a folder by their keys. They are listed anew after calls of others."""
        if self.world.changes != self._known_changes:
            self._contents.clear()
            self._known_changes = self.world.changes
        found = self._contents.get(number)
        if found is None:
            found = self._contents[number] = self._listed(number)
        return found

    def _keep_contents(self) -> None:
        """Says that the contents are those after the calls so far. What ends on its way there, by an
        exception, leaves them to be listed anew."""
        self._known_changes = self.world.changes

    def _listed(self, number: int) -> dict[str, Message]:
        found: dict[str, Message] = {}
        now = time.time()
        for entry in self.world.list(number):
            message = message_of(entry.name, entry.place)
            self._dates.setdefault(message.unique, now)
            key = self._keys.get(message.unique, message.unique)
            found[message.unique if key in found else key] = message
        return found

    def date(self, message: Message) -> float:
        """When a message was delivered, in seconds since 1970, or first met, where others did that."""
        return self._dates[message.unique]

    def note(self, unique: str, key: str, date: float) -> None:
        """Keeps the key and the date of a message."""
        if key != unique:
            self._keys[unique] = key
        self._dates[unique] = date

    def deliver(self, number: int, body: bytes, wanted: Wanted) -> str:
        """Puts a message into a folder, and answers its key, which is its unique name.

        It is delivered to new, and taken on to cur where it is wanted there.
        """
        contents = self.contents(number)
        unique = fresh_unique()
        self.call(Deliver(number, unique, body))
        self._dates[unique] = wanted.date
        contents[unique] = Message(unique, Place.NEW)
        if wanted.place is Place.CUR:
            contents[unique] = self._flagged(Seen(number, unique, wanted.flags))
        self._keep_contents()
        return unique

    def deliver_all(self, number: int, messages: list[tuple[bytes, Wanted]]) -> list[str]:
        """The same for many messages, in some calls of the library."""
        uniques = [fresh_unique() for _ in messages]
        self._call_all(Deliver(number, unique, body) for unique, (body, _) in zip(uniques, messages))
        for unique, (_, wanted) in zip(uniques, messages):
            self._dates[unique] = wanted.date
        self._call_all(
            Seen(number, unique, wanted.flags)
            for unique, (_, wanted) in zip(uniques, messages)
            if wanted.place is Place.CUR
        )
        return uniques

    def remove(self, number: int, key: str) -> None:
        """Removes a message: it goes to cur with the flag T, and then it is expunged."""
        contents = self.contents(number)
        message = contents[key]
        message.check_info()
        if message.place is Place.NEW:
            self.call(Seen(number, message.unique, TRASHED))
        elif TRASHED not in message.flags:
            self.call(Flag(number, message.unique, TRASHED))
        self.call(Expunge(number, message.unique))
        self._keys.pop(message.unique, None)
        self._dates.pop(message.unique, None)
        del contents[key]
        self._keep_contents()

    def rename_key(self, number: int, key: str, other: str) -> None:
        """Gives a message another key."""
        contents = self.contents(number)
        message = contents[other] = contents.pop(key)
        self._keys[message.unique] = other

    def change_flags(self, number: int, key: str, add: str, remove: str) -> None:
        """Adds and removes flags of a message. One in new that is given any goes to cur."""
        contents = self.contents(number)
        message = contents[key]
        message.check_info()
        if message.place is Place.NEW and (add or message.flags):
            message = self._flagged(Seen(number, message.unique, add))
        flags = set(message.flags)
        if not flags.issuperset(add) or not flags.isdisjoint(remove):
            message = self._flagged(Flag(number, message.unique, add, remove))
        contents[key] = message
        self._keep_contents()

    def add_flags_to_all(self, number: int, keys: Iterable[str], flags: str) -> None:
        """Adds flags to many messages, in some calls of the library."""
        contents = self.contents(number)
        messages = [contents[key] for key in dict.fromkeys(keys)]
        for message in messages:
            message.check_info()
        if flags:
            self._call_all(
                (Seen if message.place is Place.NEW else Flag)(number, message.unique, flags)
                for message in messages
            )

    def _flagged(self, call: Union[Seen, Flag]) -> Message:
        """Makes a call after which a message is in cur, and answers the message as it is then."""
        return Message(call.unique, Place.CUR, FLAGS_FOLLOW + self.call(call).flags)

    # Calls.

    def call(self, call: Call) -> Answer:
        """Makes a call. Where the world has had all its calls, it is settled first."""
        try:
            return self.world.call(call)
        except TooManyJobs:
            self._settle()
            return self.world.call(call)

    def _call_all(self, calls: Iterable[Call]) -> None:
        """Makes many calls. What they changed is listed anew when it is asked for."""
        for answer in call_many(self.world, calls, self._settle):
            success_of(answer)

    def _settle(self) -> None:
        settle(self.world, self._lines)

    def _lines(self) -> Iterator[bytes]:
        """The `folder` and `file` lines of all that the world holds."""
        count = len(self._folders) + len(self._spare)
        return lines_of(self.world, count, count, lambda unique: int(self._dates.get(unique, 0.0)))


def loaded_tree(folders: list[Trail], spare: int, files: Iterable[bytes]) -> Tree:
    """A tree with these folders and the files that these lines say, in folders `f0`, `f1` and so on:
    the top, those that are named, and the spare ones."""
    named = [TOP, *folders]
    count = len(named) + spare
    if count > MOST_FOLDERS:
        raise NoSpareFolder(f"a store has at most {MOST_FOLDERS} folders, not {count}")
    world = World.load(b"".join([folder_lines(count), *files]))
    numbers = {trail: number for number, trail in enumerate(named)}
    return Tree(world, numbers, list(range(count - 1, len(named) - 1, -1)))


def folder_lines(count: int) -> bytes:
    """The lines of so many folders."""
    return b"".join(folder_line(store_name(number)) for number in range(count))


def lines_of(world: World, count: int, used: int, date_of: Callable[[str], int]) -> Iterator[bytes]:
    """The `folder` and `file` lines of a world of so many folders, of which so many from the first on are used."""
    yield folder_lines(count)
    for number in range(used):
        for entry in world.list(number):
            body = world.read(entry.unique)
            yield file_line(store_name(number), entry.place.value, entry.name, date_of(entry.unique), body)


def store_name(number: int) -> str:
    """The name of a folder in the lines that the world is loaded with."""
    return f"f{number}"
