"""Indexes and mailboxes over one worker and over four: what comes of them is the same."""

from __future__ import annotations

import unittest
from typing import Any, List, Tuple

from cluster_support import NO_DASK, Cluster, ClusterCase, needs_cluster, random_lines

from deolmutt.calls import Answer, Call, Deliver, Flag, Outcome, Seen
from deolmutt.errors import NameUsed, NotThere

if not NO_DASK:
    from deolmutt.cluster import Mailboxes, index

USERS = [b"user%d" % number for number in range(200)]
PARTITIONS = (20_000, 1 << 24)


def held_on(client: Any, shards: int) -> Any:
    """Makes the same calls for 200 users on so many shards, and answers how they ended and what is there."""
    calls: List[Tuple[bytes, Call, None]] = [
        (user, Deliver(0, f"{at}.a", b"%d" % at), None) for at, user in enumerate(USERS)
    ]
    calls += [(user, Seen(0, f"{at}.a", "S"), None) for at, user in enumerate(USERS)]
    calls += [(USERS[0], Flag(0, "none", "F"), None), (USERS[1], Deliver(0, "1.a", b""), None)]
    with Mailboxes(client, shards) as boxes:
        ended = boxes.call_many(calls)
        assert ended[:200] == [Answer(Outcome.DELIVERED)] * 200
        assert ended[200:400] == [Answer(Outcome.FLAGS, "S")] * 200
        assert [type(end) for end in ended[400:]] == [NotThere, NameUsed]
        assert tuple(map(sum, zip(*boxes.counts()))) == (200, 200)
        return [(boxes.list(user), boxes.read(user, f"{at}.a")) for at, user in enumerate(USERS[:60])]


@needs_cluster
class WorkersTest(ClusterCase):
    def test_the_same_by_any_number_of_workers(self) -> None:
        cluster = Cluster(1)
        self.addCleanup(cluster.close)
        stores = [random_lines(seed, 400) for seed in range(3)]
        rows = self.client.compute(index(self.client, lines=stores)).result()
        self.assertGreater(len(rows), 600)
        held = held_on(self.client, 5)
        for workers in (1, 4):
            cluster.add_workers(workers - len(cluster.workers))
            cluster.client.wait_for_workers(workers, timeout=60)
            for most in PARTITIONS:
                bag = index(cluster.client, lines=stores, partition_bytes=most)
                self.assertEqual(rows, cluster.client.compute(bag).result())
            for shards in (1, 2, 64):
                self.assertEqual(held, held_on(cluster.client, shards))


if __name__ == "__main__":
    unittest.main()
