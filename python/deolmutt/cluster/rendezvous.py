"""Which shard a user's mail is in, by rendezvous hashing (highest random weight)."""

from __future__ import annotations

import hashlib
from functools import lru_cache


@lru_cache(maxsize=1 << 16)
def shard_of(user: bytes, shards: int) -> int:
    """The shard of a user, one of so many.

    Each shard has a hash of the user's name, keyed by the shard's number, and the greatest wins. So one
    shard more takes a user from each of the others with the same chance, and moves no other user.
    """
    return max(range(shards), key=lambda shard: _weight(user, shard))


def _weight(user: bytes, shard: int) -> bytes:
    return hashlib.blake2b(user, digest_size=16, key=b"%d" % shard).digest()
