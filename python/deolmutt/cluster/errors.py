"""What can go wrong beyond one process."""

from __future__ import annotations

from typing import Optional, Sequence, Tuple

from ..errors import DeolmuttError, Refused


class ShardLost(DeolmuttError):
    """A shard's worker is gone, and its stores with it.

    A call that was in flight may have been made or not; one that came later was not. None is tried
    again. `shard` is the shard's number, and `snapshot` the folder of its last snapshot, if it has one.
    `since` has the deliveries that these mailboxes had answered since then, each the user and the unique
    name: what of them isn't in the snapshot is gone. Without a snapshot all is gone, and it is empty.
    """

    shard: int = 0
    snapshot: Optional[str] = None
    since: Sequence[Tuple[bytes, str]] = ()


class NoWorker(DeolmuttError):
    """The scheduler is gone, or has no worker."""


class NoClone(DeolmuttError):
    """What is needed is in the repository, and the package is not used out of a clone of it."""


class ToolRefused(DeolmuttError):
    """A tool of the repository refuses what it was asked, and says why."""


class OtherStore(Refused):
    """A move or a copy between users of two stores: no step of a directory spans two stores."""


class BadSnapshot(Refused, ValueError):
    """The folder has no whole snapshot. Nothing was restored."""


class NoSnapshot(BadSnapshot):
    """There is no manifest in the folder, or no snapshot was taken yet."""


class OtherVersion(BadSnapshot):
    """The snapshot was made by another version."""


class MissingShard(BadSnapshot):
    """The manifest or the folder lacks a shard."""


class OtherShards(BadSnapshot):
    """The snapshot is of another number of shards, or of other folders, than the mailboxes have."""


class WrongChecksum(BadSnapshot):
    """A shard's file is not as the manifest says."""
