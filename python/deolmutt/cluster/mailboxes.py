"""The mailboxes of many users, in stores that actors hold on Dask's workers."""

from __future__ import annotations

import asyncio
import os
import pickle
from typing import Any, Dict, Iterable, List, NamedTuple, Optional, Sequence, Tuple, Union

from distributed import Actor, Client, Future
from distributed.protocol.serialize import Serialized, serialize

from .._closing import Closing
from .._disk import StrPath
from .._names import fresh_unique
from .._numbers import success_of
from .._tree import MOST_FOLDERS
from ..calls import Answer, Call, Clean, Copy, Deliver, Entry, Expunge, Flag, Move, Seen
from ..errors import DeolmuttError, NoFolder
from ..lines import encoded
from .errors import NoSnapshot, NoWorker, OtherShards, OtherStore, ShardLost
from .records import Records
from .rendezvous import shard_of
from .shard import Ended, Reply, Request, Shard, UserCall
from .snapshot import Manifest, ShardPart, read_manifest, remove_others

# A user's name: any bytes, or a text, which is taken as UTF-8.
User = Union[bytes, str]
# How long an answer is waited for before the shard is asked after once more.
_SECONDS = 1.0
_TIMEOUTS = (asyncio.TimeoutError, TimeoutError)


class _Live(NamedTuple):
    """A shard that is there: what keeps it on its worker, its proxy, and the word it was born with."""

    future: Future
    actor: Any
    born: str
    worker: str


class _Sent(NamedTuple):
    """A call on its way to a shard, or None for a shard that was known to be lost."""

    shard: int
    live: _Live
    call: Any


class Mailboxes(Closing):
    """Mailboxes of users, each with the same folders, in so many shards.

    A user goes to a shard by rendezvous hashing of the name, and a shard is an actor on a worker. It
    holds stores of 64 folders each, as many as its users need, and all folders of a user are in one
    store: what is proved of a store holds of each, and nothing of two. A name is any bytes. A store
    settles by itself where it has had its 10,000 calls.

    All methods are as those of `World`, and raise and answer what these do. Where a worker is gone, the
    calls in flight to its shards and all later ones raise `ShardLost`; none is tried again, since a
    delivery could be made twice. What is not in a snapshot goes with its worker, and all of it with the
    client that made it.
    """

    def __init__(self, client: Client, shards: int, folders: Sequence[str] = ("inbox",)) -> None:
        """Empty mailboxes, of shards that go to the workers in turn. Refused: `NoWorker`."""
        if shards < 1:
            raise ValueError(f"there is 1 shard or more: {shards}")
        if not 1 <= len(folders) <= MOST_FOLDERS:
            raise ValueError(f"a user has 1 to {MOST_FOLDERS} folders: {len(folders)}")
        self._client = client
        self._folders = list(folders)
        self._numbers = {name: number for number, name in enumerate(folders)}
        self._snapshot: Optional[str] = None
        self._lost: Dict[int, str] = {}
        # The deliveries that were answered since the last snapshot, by shards, once there is to be one.
        self._since: List[List[Tuple[bytes, str]]] = [[] for _ in range(shards)]
        self._keeps_since = False
        workers = self._workers()
        at = [workers[shard % len(workers)] for shard in range(shards)]
        self._shards = self._started([(worker, ()) for worker in at])

    # A call to its answer.

    def deliver(self, user: User, body: bytes, unique: Optional[str] = None, folder: Optional[str] = None) -> str:
        """Delivers a message to new of a user's folder, and answers its unique name, a fresh one if none
        is given. Refused: as by `World.deliver`."""
        name = fresh_unique() if unique is None else unique
        self.call(user, Deliver(self._number(folder), name, body))
        return name

    def seen(self, user: User, unique: str, flags: str = "", folder: Optional[str] = None) -> str:
        """Takes a message from new to cur, its flags joined by these, and answers its flags."""
        return self.call(user, Seen(self._number(folder), unique, flags)).flags

    def flag(self, user: User, unique: str, add: str = "", remove: str = "", folder: Optional[str] = None) -> str:
        """Adds and removes flags of a message in cur, and answers its flags."""
        return self.call(user, Flag(self._number(folder), unique, add, remove)).flags

    def move(
        self,
        user: User,
        unique: str,
        to: Optional[User] = None,
        folder: Optional[str] = None,
        to_folder: Optional[str] = None,
    ) -> None:
        """Takes a message to another folder, of the same user or of another one in the same store.

        Refused as `OtherStore` where the users are in two: deliver it there and expunge it here.
        """
        self.call(user, Move(self._number(folder), unique, self._number(to_folder)), to)

    def copy(
        self,
        user: User,
        unique: str,
        fresh: Optional[str] = None,
        to: Optional[User] = None,
        folder: Optional[str] = None,
        to_folder: Optional[str] = None,
    ) -> str:
        """Gives a message a second name, which it answers. Refused as `OtherStore`, as a move is."""
        name = fresh_unique() if fresh is None else fresh
        self.call(user, Copy(self._number(folder), unique, self._number(to_folder), name), to)
        return name

    def expunge(self, user: User, unique: str, folder: Optional[str] = None) -> None:
        """Removes a message of cur that has the flag T."""
        self.call(user, Expunge(self._number(folder), unique))

    def clean(self, user: User, folder: Optional[str] = None) -> int:
        """Removes the files of tmp that were not used for 36 hours, and answers how many."""
        return self.call(user, Clean(self._number(folder))).removed

    def call(self, user: User, call: Call, to: Optional[User] = None) -> Answer:
        """Makes a call (deolmutt.calls), whose folders are numbered from 0 as this user's.

        Raises what is refused, and the answer where it is no success: `Failed`.
        """
        [ended] = self.call_many([(user, call, to)])
        return success_of(ended)

    # Many calls.

    def call_many(self, calls: Iterable[Tuple[User, Call, Optional[User]]]) -> List[Ended]:
        """Makes calls of many users, each the user, the call, and None or the user to move or copy to.

        Each shard makes its own in their order. It answers how each ended, in order of the calls: an
        answer, or an exception, which is not raised, also where a shard is lost.
        """
        ended: Dict[int, Ended] = {}
        # The calls of each shard by their positions.
        of_shards: Dict[int, Dict[int, UserCall]] = {}
        for at, (user, call, to) in enumerate(calls):
            shard = self.shard_of(user)
            if to is not None and self.shard_of(to) != shard:
                ended[at] = OtherStore()
            else:
                each = UserCall(_bytes(user), call, None if to is None else _bytes(to))
                of_shards.setdefault(shard, {})[at] = each
        sent = [self._sent(shard, "call_many", list(asked.values())) for shard, asked in of_shards.items()]
        for call_sent, asked in zip(sent, of_shards.values()):
            try:
                ends = self._answer(call_sent)
            except DeolmuttError as error:
                ends = [error] * len(asked)
            ended.update(zip(asked, ends))
            delivered = [
                (it.user, it.call.unique)
                for it, end in zip(asked.values(), ends)
                if isinstance(it.call, Deliver) and isinstance(end, Answer)
            ]
            self._note(call_sent.shard, delivered)
        return [ended[at] for at in range(len(ended))]

    def deliver_many(
        self, user: User, bodies: Sequence[bytes], uniques: Optional[Sequence[str]] = None, folder: Optional[str] = None
    ) -> List[str]:
        """Delivers messages to a user, faster than one by one, and answers their unique names.

        The first that was refused is raised, after all others were delivered.
        """
        names = [fresh_unique() for _ in bodies] if uniques is None else list(uniques)
        if len(names) != len(bodies):
            raise ValueError(f"{len(bodies)} messages have {len(names)} names")
        name, shard = _bytes(user), self.shard_of(user)
        refused: Dict[int, DeolmuttError] = self._ask(
            shard, "deliver_many", name, self._number(folder), Records.of(names, bodies)
        )
        self._note(shard, ((name, unique) for at, unique in enumerate(names) if at not in refused))
        for error in refused.values():
            raise error
        return names

    # What is there.

    def list(self, user: User, folder: Optional[str] = None) -> List[Entry]:
        """The messages of a user's folder, in order of the bytes of their unique names."""
        found: List[Entry] = self._ask(self.shard_of(user), "list", _bytes(user), self._number(folder))
        return found

    def read(self, user: User, unique: str) -> bytes:
        """The bytes of a user's message, in any folder. Refused: `NotThere`."""
        found: bytes = self._ask(self.shard_of(user), "read", _bytes(user), unique)
        return found

    def counts(self) -> List[Tuple[int, int]]:
        """How many users and messages each shard has."""
        return self._ask_all("counts", [()] * len(self))

    def __len__(self) -> int:
        """How many shards there are."""
        return len(self._shards)

    def shard_of(self, user: User) -> int:
        """The shard of a user."""
        return shard_of(_bytes(user), len(self))

    def worker_of(self, shard: int) -> str:
        """The address of the worker that a shard is on, or was on when it was lost."""
        return self._shards[shard].worker

    @property
    def lost(self) -> List[int]:
        """The shards that are known to be lost."""
        return sorted(self._lost)

    # Snapshots.

    def snapshot(self, folder: StrPath) -> None:
        """Writes each shard into a folder that all workers reach, and a manifest with the checksums.

        Each shard is as it was at one moment of its own, and no moment is that of all. The snapshot
        before it stays until this one is whole, and goes then. Raises `ShardLost`, or OSError.
        """
        path = os.path.abspath(folder)
        os.makedirs(path, exist_ok=True)
        # What is answered while the shards write may be in the snapshot or not.
        self._keeps_since = True
        before = [len(since) for since in self._since]
        parts: List[ShardPart] = self._ask_all("snapshot", [(shard, path) for shard in range(len(self))])
        manifest = Manifest(self._folders, parts)
        manifest.write(path)
        self._snapshot = path
        for since, count in zip(self._since, before):
            del since[:count]
        remove_others(path, manifest)

    def restore(self, folder: Optional[StrPath] = None, shard: Optional[int] = None) -> None:
        """Brings back what a snapshot has: of all shards, or of one, on another worker than it was on.

        Without a folder it is the last snapshot that was taken or restored. All that came after it is
        gone. Where it is refused, as a `BadSnapshot` or `NoWorker`, nothing is changed.
        """
        if shard is not None and not 0 <= shard < len(self):
            raise ValueError(f"there is no shard {shard}: there are {len(self)}")
        path = self._snapshot if folder is None else os.path.abspath(folder)
        if path is None:
            raise NoSnapshot("no snapshot was taken yet: name its folder")
        manifest = read_manifest(path)
        if (len(manifest.shards), manifest.folders) != (len(self), self._folders):
            count = len(manifest.shards)
            raise OtherShards(f"the snapshot has {count} shards and folders {manifest.folders}")
        numbers = range(len(self)) if shard is None else [shard]
        at = self._other_workers(numbers)
        made = self._started([(at[number], (path, manifest.shards[number].stores)) for number in numbers])
        for number, each in zip(numbers, made):
            self._shards[number] = each
            self._since[number] = []
            self._lost.pop(number, None)
        self._snapshot, self._keeps_since = path, True

    # Its life.

    def close(self) -> None:
        """Lets all mailboxes go, which were nowhere but in the workers' memory and in snapshots."""
        for shard, live in enumerate(self._shards):
            self._lost[shard] = "the mailboxes were closed"
            live.future.release()

    # How a shard is reached.

    def _number(self, folder: Optional[str]) -> int:
        """The number of a folder; without a name, that of the first."""
        try:
            return 0 if folder is None else self._numbers[folder]
        except KeyError:
            raise NoFolder(f"users have the folders {self._folders}, and no {folder!r}") from None

    def _workers(self) -> List[str]:
        """The addresses of the workers. Refused: `NoWorker`."""
        if self._client.status != "running":
            raise NoWorker("the scheduler is gone")
        workers = sorted(self._client.scheduler_info()["workers"])
        if not workers:
            raise NoWorker("the scheduler has no worker")
        return workers

    def _other_workers(self, shards: Iterable[int]) -> Dict[int, str]:
        """A worker for each of these shards, other than the one that it was on where there is another:
        the one that has the fewest then."""
        workers, moved = self._workers(), list(shards)
        load = {worker: 0 for worker in workers}
        for shard, live in enumerate(self._shards):
            if shard not in moved and live.worker in load:
                load[live.worker] += 1
        chosen: Dict[int, str] = {}
        for shard in moved:
            others = [worker for worker in workers if worker != self._shards[shard].worker] or workers
            chosen[shard] = min(others, key=lambda worker: (load[worker], worker))
            load[chosen[shard]] += 1
        return chosen

    def _started(self, wanted: Sequence[Tuple[str, Tuple[Any, ...]]]) -> List[_Live]:
        """Shards on these workers, each with what it is loaded from."""
        width = len(self._folders)
        futures = [
            self._client.submit(
                Shard, width, *given, actor=True, pure=False, workers=[worker], allow_other_workers=False
            )
            for worker, given in wanted
        ]
        made = []
        for future, (worker, _) in zip(futures, wanted):
            error = future.exception()
            if error is not None:
                raise error
            with self._client.as_current():
                actor = Actor(Shard, worker, future.key)
            # Dask makes a call again where its way to the worker broke and the actor seems to be made
            # anew. A proxy without a future of its own does not.
            actor._future = None
            made.append(_Live(future, actor, actor.born().result(), worker))
        return made

    def _sent(self, shard: int, method: str, *given: Any) -> _Sent:
        """A call of a shard's method, on its way, if the shard is not known to be lost."""
        live = self._shards[shard]
        if shard in self._lost:
            return _Sent(shard, live, None)
        return _Sent(shard, live, live.actor.run(*_packed(Request(live.born, method, given))))

    def _answer(self, sent: _Sent) -> Any:
        """What a call came to. Whatever Dask raises means that it is not known whether it was made."""
        if sent.call is None:
            raise self._lost_error(sent.shard, self._lost.get(sent.shard, "it was restored since"))
        while True:
            try:
                answer: bytes = sent.call.result(timeout=_SECONDS)
                break
            except _TIMEOUTS:
                # Dask leaves some calls to a lost actor without an answer.
                if sent.live.future.status != "finished" or self._client.status != "running":
                    raise self._noted_lost(sent, "its worker is gone") from None
            except Exception as error:
                raise self._noted_lost(sent, f"{type(error).__name__}: {error}") from error
        reply: Reply = pickle.loads(answer)
        if reply.error is not None:
            raise reply.error
        return reply.value

    def _noted_lost(self, sent: _Sent, why: str) -> ShardLost:
        """Keeps later calls from a shard that is lost, unless it was restored meanwhile."""
        if self._shards[sent.shard] is sent.live:
            self._lost.setdefault(sent.shard, why)
        return self._lost_error(sent.shard, why)

    def _lost_error(self, shard: int, why: str) -> ShardLost:
        kept = f"its last snapshot is in {self._snapshot}" if self._snapshot else "there is no snapshot of it"
        error = ShardLost(f"shard {shard} is lost ({why}); {kept}")
        error.shard, error.snapshot = shard, self._snapshot
        error.since = tuple(self._since[shard]) if self._snapshot is not None else ()
        return error

    def _note(self, shard: int, delivered: Iterable[Tuple[bytes, str]]) -> None:
        """Keeps what was delivered since the last snapshot. Without any, all would be gone anyhow."""
        if self._keeps_since:
            self._since[shard] += delivered

    def _ask(self, shard: int, method: str, *given: Any) -> Any:
        return self._answer(self._sent(shard, method, *given))

    def _ask_all(self, method: str, given: Sequence[Tuple[Any, ...]]) -> List[Any]:
        """The answers of all shards, which are asked at once. The first error is raised after all have
        answered."""
        sent = [self._sent(shard, method, *each) for shard, each in enumerate(given)]
        answers, first = [], None
        for each in sent:
            try:
                answers.append(self._answer(each))
            except Exception as error:
                first = first or error
        if first is not None:
            raise first
        return answers


def _packed(request: Request) -> List[Serialized]:
    """A request as it is sent: pickled, and its large parts beside that, of which Dask makes no copy."""
    buffers: List[pickle.PickleBuffer] = []
    pickled = pickle.dumps(request, pickle.HIGHEST_PROTOCOL, buffer_callback=buffers.append)
    return [_as_it_is(memoryview(pickled)), *(_as_it_is(buffer.raw()) for buffer in buffers)]


def _as_it_is(part: memoryview) -> Serialized:
    """Bytes that Dask does not compress, which takes longer than to send them."""
    header, frames = serialize(part)
    header["compression"] = (False,) * len(frames)
    return Serialized(header, frames)


def _bytes(user: User) -> bytes:
    return encoded(user) if isinstance(user, str) else bytes(user)
