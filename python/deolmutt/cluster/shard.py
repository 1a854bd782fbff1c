"""A shard: the stores of its users, in an actor on a worker."""

from __future__ import annotations

import pickle
import time
import uuid
from typing import Any, Dict, Iterable, Iterator, List, NamedTuple, Optional, Tuple, Union

from distributed.protocol.serialize import Serialized, deserialize

from .. import errors
from .._settling import call_many, settle
from .._tree import MOST_FOLDERS, folder_lines, lines_of
from ..calls import Answer, Call, Copy, Deliver, Entry, Expunge, Move
from ..errors import DeolmuttError, TooManyJobs
from ..lines import decoded, parted
from .errors import OtherStore
from .records import Records, RecordWorld
from .snapshot import PREFIX, Part, ShardPart, read_part, write_durably

# How a call ended: an answer, or an exception that is not raised.
Ended = Union[Answer, DeolmuttError]


class Request(NamedTuple):
    """A method of a shard, what it is given, and the word that the shard was born with."""

    born: str
    method: str
    given: Tuple[Any, ...]


class Reply(NamedTuple):
    """What a method of a shard came to. A fault of the way to the shard is none of these."""

    value: Any
    error: Optional[Exception]


class UserCall(NamedTuple):
    """A call for a user, whose folders are numbered from 0. `to` is another user to move or copy to."""

    user: bytes
    call: Call
    to: Optional[bytes] = None


class Kept(NamedTuple):
    """The folder that a message is in, and when it was delivered, in seconds since 1970."""

    folder: int
    date: int


class _Store:
    """A world whose folders are its users', `width` for each, and where each message is in it."""

    def __init__(self, width: int, lines: Optional[bytes] = None, users: Iterable[bytes] = ()) -> None:
        self._width = width
        self._count = MOST_FOLDERS // width * width
        self.world = RecordWorld(folder_lines(self._count) if lines is None else lines)
        self.users: Dict[bytes, int] = {user: at * width for at, user in enumerate(users)}
        self.kept: Dict[str, Kept] = dict(_kept_in(lines)) if lines else {}

    def is_full(self) -> bool:
        return len(self.users) * self._width >= self._count

    def add(self, user: bytes) -> None:
        self.users[user] = len(self.users) * self._width

    def make(self, calls: List[Call]) -> List[Ended]:
        """Makes calls, each to its end: those after one that is refused are made too."""
        ended = self._made(calls)
        self._note(calls, ended)
        return ended

    def deliver(self, folder: int, records: Records) -> Dict[int, DeolmuttError]:
        """Delivers messages to a folder, and answers which were refused, by their positions."""
        records.name_folder(folder)
        refused, uniques = self._delivered(records), records.uniques()
        if refused:
            uniques = [unique for at, unique in enumerate(uniques) if at not in refused]
        self.kept.update(dict.fromkeys(uniques, Kept(folder, int(time.time()))))
        return refused

    def _delivered(self, records: Records) -> Dict[int, DeolmuttError]:
        """Makes deliveries, and answers which were refused: those after one are made too."""
        refused: Dict[int, DeolmuttError] = {}
        at = 0
        while at < len(records):
            made = self.world.deliver_records(records, at)
            at += made.answered
            refused.update(made.failed)
            error = self._settled() if isinstance(made.refused, TooManyJobs) else made.refused
            if error is not None:
                refused[at] = error
                at += 1
        return refused

    def _settled(self) -> Optional[DeolmuttError]:
        """Settles the world, and answers what refused it."""
        try:
            self._settle()
        except DeolmuttError as error:
            return error
        return None

    def _made(self, calls: List[Call]) -> List[Ended]:
        ended: List[Ended] = []
        while len(ended) < len(calls):
            try:
                ended += call_many(self.world, calls[len(ended) :], self._settle)
            except DeolmuttError as error:
                ended += [*error.done, error]
                error.done = ()
        return ended

    def _note(self, calls: List[Call], ended: List[Ended]) -> None:
        """Keeps where the messages are after these calls."""
        now, kept = int(time.time()), self.kept
        for call, end in zip(calls, ended):
            if not isinstance(end, Answer):
                continue
            if isinstance(call, Deliver):
                kept[call.unique] = Kept(call.folder, now)
            elif isinstance(call, Copy):
                kept[call.fresh] = Kept(call.to, kept[call.unique].date)
            elif isinstance(call, Move):
                kept[call.unique] = Kept(call.to, kept[call.unique].date)
            elif isinstance(call, Expunge):
                del kept[call.unique]

    def _settle(self) -> None:
        settle(self.world, self.lines)

    def lines(self) -> Iterator[bytes]:
        """The store's `folder` and `file` lines."""
        # Amid a batch that settles, what it has delivered so far is not kept yet.
        fresh = Kept(0, int(time.time()))
        used = len(self.users) * self._width
        return lines_of(self.world, self._count, used, lambda unique: self.kept.get(unique, fresh).date)


def _kept_in(lines: bytes) -> Iterator[Tuple[str, Kept]]:
    """Where the messages of a snapshot's lines are."""
    for line in lines.split(b"\n"):
        found = parted(line)
        if found is not None:
            yield decoded(found.unique), Kept(int(found.folder[1:]), int(found.stamp))


class Shard:
    """What an actor holds: stores of 64 folders each, as many as its users need.

    All methods but `run` are called by it. The calls of an actor come one after the other.
    """

    def __init__(self, width: int, folder: str = "", parts: Iterable[Part] = ()) -> None:
        self._width = width
        self._born = uuid.uuid4().hex
        self._stores = [_Store(width, read_part(folder, part), map(bytes.fromhex, part.users)) for part in parts]
        self._homes = {user: store for store in self._stores for user in store.users}

    def born(self) -> str:
        """A word that no other shard has, nor this one where it was made anew."""
        return self._born

    def run(self, *parts: Any) -> bytes:
        """Calls a method, as a `Request` says, which is pickled with buffers, and answers a pickled `Reply`.

        What it raises is answered too, so that what Dask raises is always Dask's own. Pickled, a batch
        is one piece for Dask, which would look at each part of a list.
        """
        request, *buffers = map(_received, parts)
        born, method, given = pickle.loads(request, buffers=buffers)
        if born != self._born:
            raise OSError("the shard was made anew")
        try:
            reply = Reply(getattr(self, method)(*given), None)
        except Exception as error:
            reply = Reply(None, error)
        return pickle.dumps(reply, pickle.HIGHEST_PROTOCOL)

    def deliver_many(self, user: bytes, folder: int, records: Records) -> Dict[int, DeolmuttError]:
        """Delivers messages of one user, and answers which were refused, by their positions. To send an answer
        for each would take half as long as to deliver them."""
        store = self._home(user)
        number = self._number(store, user, folder)
        return store.deliver(number, records)

    def call_many(self, asked: List[UserCall]) -> List[Ended]:
        """Makes calls of some users, those of one store in their order, and answers how each ended."""
        ended: Dict[int, Ended] = {}
        # The calls of each store by their positions.
        of_stores: Dict[_Store, Dict[int, Call]] = {}
        for at, each in enumerate(asked):
            try:
                store, call = self._placed(each)
                of_stores.setdefault(store, {})[at] = call
            except DeolmuttError as error:
                ended[at] = error
        for store, calls in of_stores.items():
            ended.update(zip(calls, store.make(list(calls.values()))))
        return [ended[at] for at in range(len(asked))]

    def list(self, user: bytes, folder: int) -> List[Entry]:
        """The messages of a user's folder."""
        store = self._homes.get(user)
        return [] if store is None else store.world.list(self._number(store, user, folder))

    def read(self, user: bytes, unique: str) -> bytes:
        """The bytes of a user's message, in any folder of that user."""
        store = self._homes.get(user)
        kept = store.kept.get(unique) if store else None
        if store is None or kept is None or not 0 <= kept.folder - store.users[user] < self._width:
            raise errors.NotThere()
        return store.world.read(unique)

    def snapshot(self, shard: int, folder: str) -> ShardPart:
        """Writes the shard's stores into a folder, as they are now."""
        moment, name = int(time.time()), f"{PREFIX}{shard}-{uuid.uuid4().hex}"
        parts = [self._written(store, folder, f"{name}-{at}.lines") for at, store in enumerate(self._stores)]
        return ShardPart(shard, moment, parts)

    @staticmethod
    def _written(store: _Store, folder: str, name: str) -> Part:
        size, digest = write_durably(folder, name, store.lines())
        return Part(name, size, len(store.kept), digest, [user.hex() for user in store.users])

    def counts(self) -> Tuple[int, int]:
        """How many users and messages the shard has."""
        return len(self._homes), sum(len(store.kept) for store in self._stores)

    def _home(self, user: bytes) -> _Store:
        """The store of a user: a new user gets folders in the last one, or in a fresh one."""
        store = self._homes.get(user)
        if store is None:
            if not self._stores or self._stores[-1].is_full():
                self._stores.append(_Store(self._width))
            store = self._homes[user] = self._stores[-1]
            store.add(user)
        return store

    def _number(self, store: _Store, user: bytes, folder: int) -> int:
        if not 0 <= folder < self._width:
            raise errors.NoFolder()
        return store.users[user] + folder

    def _placed(self, asked: UserCall) -> Tuple[_Store, Call]:
        """The store of a call, and the call by the store's own numbers."""
        store, call = self._home(asked.user), asked.call
        placed = call._replace(folder=self._number(store, asked.user, call.folder))
        if isinstance(placed, (Move, Copy)):
            to = asked.user if asked.to is None else asked.to
            if self._home(to) is not store:
                raise OtherStore()
            placed = placed._replace(to=self._number(store, to, placed.to))
        return store, placed


def _received(part: Any) -> Any:
    """The bytes of a part. To a worker in the process of its client, Dask hands a part as it was made."""
    return deserialize(part.header, part.frames) if isinstance(part, Serialized) else part
