"""Mailboxes over Dask: users on shards, snapshots, and workers that are killed."""

from __future__ import annotations

import json
import threading
import time
import unittest
from typing import Any, Dict, List, Set

from cluster_support import NO_DASK, Cluster, ClusterCase, needs_cluster, needs_dask

from deolmutt.calls import Place
from deolmutt.errors import BadUnique, BodyTooLong, NameUsed, NoFolder, NotThere, NotTrashed

if not NO_DASK:
    from distributed import Client

    from deolmutt.cluster import Mailboxes, errors, shard_of
    from deolmutt.cluster.records import Records

USERS = [b"user%d" % number for number in range(200)]
# Users of any bytes: none at all, no UTF-8, line ends, NUL, a slash, and a long one.
ODD_USERS = [b"", b"\xff\xfe", b"a b\r\n", b"\0", b"../x", b":2,S", b"u" * 5000]
MOST_BYTES = 16_777_216
MOST_SECONDS_TO_BE_LOST = 20


@needs_dask
class RendezvousTest(unittest.TestCase):
    def test_a_shard_more_moves_its_share_alone(self) -> None:
        users = [b"%d@example.org" % number for number in range(4000)]
        for shards in (1, 2, 7, 63):
            before = [shard_of(user, shards) for user in users]
            after = [shard_of(user, shards + 1) for user in users]
            moved = [new for old, new in zip(before, after) if old != new]
            self.assertEqual({shards}, set(moved))
            self.assertAlmostEqual(len(users) / (shards + 1), len(moved), delta=len(users) * 0.05)

    def test_it_is_the_same_everywhere(self) -> None:
        self.assertEqual([5, 5, 5, 7], [shard_of(user, 8) for user in (b"", b"alice", b"bob", b"\xff")])


@needs_cluster
class MailboxesTest(ClusterCase):
    def test_each_call_answers_as_a_world(self) -> None:
        boxes = self.mailboxes(3, folders=("inbox", "archive"))
        unique = boxes.deliver("ann", b"Subject: one\n\n", "1.a")
        self.assertEqual("1.a", unique)
        self.assertEqual([(Place.NEW, "1.a", 14)], boxes.list("ann"))
        self.assertEqual("S", boxes.seen("ann", "1.a", "S"))
        self.assertEqual("FS", boxes.flag("ann", "1.a", "F"))
        boxes.move("ann", "1.a", to_folder="archive")
        self.assertEqual("2.b", boxes.copy("ann", "1.a", "2.b", folder="archive"))
        self.assertEqual(["1.a:2,FS", "2.b:2,FS"], [boxes.list("ann", it)[0].name for it in ("archive", "inbox")])
        self.assertEqual(b"Subject: one\n\n", boxes.read("ann", "2.b"))
        self.assertRaises(NotTrashed, boxes.expunge, "ann", "2.b")
        boxes.flag("ann", "2.b", "T")
        boxes.expunge("ann", "2.b")
        self.assertEqual([], boxes.list("ann"))
        self.assertEqual(0, boxes.clean("ann"))
        for refused, call in (
            (NameUsed, lambda: boxes.deliver("ann", b"", "1.a")),
            (NotThere, lambda: boxes.read("ann", "2.b")),
            (NotThere, lambda: boxes.flag("ann", "none", "F")),
            (NoFolder, lambda: boxes.list("ann", "none")),
            (BodyTooLong, lambda: boxes.deliver("ann", bytes(MOST_BYTES + 1))),
        ):
            self.assertRaises(refused, call)

    def test_users_of_any_bytes(self) -> None:
        boxes = self.mailboxes(4)
        for at, user in enumerate(ODD_USERS):
            boxes.deliver(user, b"%d" % at, f"{at}.a")
        boxes.snapshot(self.folder)
        boxes.restore()
        for at, user in enumerate(ODD_USERS):
            self.assertEqual([f"{at}.a"], [entry.unique for entry in boxes.list(user)])
            self.assertEqual(b"%d" % at, boxes.read(user, f"{at}.a"))

    def test_no_user_reads_anothers_message(self) -> None:
        boxes = self.mailboxes(1)
        boxes.deliver("ann", b"x", "1.a")
        boxes.deliver("bob", b"y", "2.a")
        for user, unique in (("bob", "1.a"), ("ann", "2.a"), ("none", "1.a")):
            self.assertRaises(NotThere, boxes.read, user, unique)

    def test_a_move_stays_in_one_store(self) -> None:
        boxes = self.mailboxes(2)
        here, beside = [user for user in USERS if shard_of(user, 2) == 0][:2]
        there = next(user for user in USERS if shard_of(user, 2) == 1)
        boxes.deliver(here, b"x", "1.a")
        for call in (boxes.move, boxes.copy):
            self.assertRaises(errors.OtherStore, call, here, "1.a", to=there)
        boxes.move(here, "1.a", to=beside)
        self.assertEqual(b"x", boxes.read(beside, "1.a"))
        # A store has 64 folders: a shard's 65th user is in another one.
        crowd = self.mailboxes(1)
        for at, user in enumerate(USERS[:65]):
            crowd.deliver(user, b"x", f"{at}.a")
        crowd.move(USERS[0], "0.a", to=USERS[63])
        self.assertRaises(errors.OtherStore, crowd.move, USERS[1], "1.a", to=USERS[64])

    def test_it_settles_by_itself(self) -> None:
        boxes = self.mailboxes(1)
        for at in range(12):
            boxes.deliver_many("ann", [b"x"] * 1000)
        self.assertEqual(12_000, len(boxes.list("ann")))
        boxes.deliver("ann", b"z")

    def test_a_batch_delivers_all_that_is_not_refused(self) -> None:
        boxes = self.mailboxes(1, folders=("inbox", "archive"))
        boxes.deliver("ann", b"x", "0.a")
        names = [f"{at}.a" for at in range(1, 5)]
        bodies: List[Any] = [b"one", bytearray(b"\0two"), memoryview(b"three"), b""]
        self.assertEqual(names, boxes.deliver_many("bob", bodies, names, "archive"))
        self.assertEqual([], boxes.deliver_many("bob", [], [], "archive"))
        self.assertEqual([(Place.NEW, *it) for it in zip(names, (3, 4, 5, 0))], boxes.list("bob", "archive"))
        self.assertEqual([bytes(it) for it in bodies], [boxes.read("bob", name) for name in names])
        self.assertEqual([[], []], [boxes.list("bob"), boxes.list("ann", "archive")])
        too_long = bytes(MOST_BYTES + 1)
        for refused, wrong, body in ((NameUsed, "0.a", b""), (BadUnique, "a\0b", b""), (BodyTooLong, "a", too_long)):
            first, second = f"1.{refused.__name__}", f"2.{refused.__name__}"
            self.assertRaises(refused, boxes.deliver_many, "bob", [b"x", body, b"yz"], [first, wrong, second])
            self.assertEqual([b"x", b"yz"], [boxes.read("bob", name) for name in (first, second)])
        self.assertRaises(TypeError, boxes.deliver_many, "bob", [b"x", 5], ["8.a", "9.a"])
        self.assertEqual(6, len(boxes.list("bob")))

    def test_refused_ones_amid_a_batch_that_settles(self) -> None:
        boxes = self.mailboxes(1)
        names = [f"{at}.a" for at in range(12_000)]
        # A name that is used before it settles, after that, and at the end.
        for at in (5, 10_003, 11_999):
            names[at] = "4.a"
        self.assertRaises(NameUsed, boxes.deliver_many, "ann", [b"x"] * len(names), names)
        self.assertEqual(set(names), {entry.unique for entry in boxes.list("ann")})
        self.assertEqual([(1, 11_997)], boxes.counts())

    def test_a_client_that_sends_by_the_scheduler_and_a_worker_in_the_same_process(self) -> None:
        for how in (
            {"address": self.client.scheduler.address, "direct_to_workers": False},
            {"processes": False, "n_workers": 1, "threads_per_worker": 1, "dashboard_address": None},
        ):
            with self.subTest(how), Client(set_as_default=False, **how) as client, Mailboxes(client, 2) as boxes:
                names = boxes.deliver_many("ann", [b"x" * 50_000, b"y"])
                self.assertEqual([b"x" * 50_000, b"y"], [boxes.read("ann", name) for name in names])

    def test_the_largest_message(self) -> None:
        boxes = self.mailboxes(2)
        body = bytes(range(256)) * (MOST_BYTES // 256)
        boxes.deliver("ann", body, "1.a")
        boxes.snapshot(self.folder)
        boxes.restore()
        self.assertEqual(body, boxes.read("ann", "1.a"))

    def test_a_client_that_goes_away(self) -> None:
        other = self.cluster.new_client()
        gone = Mailboxes(other, 2)
        gone.deliver("ann", b"x")
        boxes = self.mailboxes(2)
        boxes.deliver("ann", b"y", "1.a")
        other.close()
        self.assertRaises(errors.ShardLost, gone.deliver, "ann", b"x")
        self.assertEqual(b"y", boxes.read("ann", "1.a"))

    def test_what_is_closed_is_lost(self) -> None:
        boxes = self.mailboxes(1)
        boxes.close()
        self.assertRaises(errors.ShardLost, boxes.list, "ann")


@needs_cluster
class SnapshotTest(ClusterCase):
    def filled(self) -> Any:
        boxes = self.mailboxes(3, folders=("inbox", "archive"))
        for at, user in enumerate(USERS):
            boxes.deliver(user, b"Subject: %d\r\n\\\n" % at, f"{at}.a")
        boxes.seen(USERS[0], "0.a", "FS")
        boxes.move(USERS[0], "0.a", to_folder="archive")
        return boxes

    def test_a_snapshot_brings_all_back(self) -> None:
        boxes = self.filled()
        boxes.snapshot(self.folder)
        boxes.deliver(USERS[0], b"later", "later.a")
        again = self.mailboxes(3, folders=("inbox", "archive"))
        for each in (boxes, again):
            each.restore(self.folder)
            self.assertEqual(["0.a:2,FS"], [entry.name for entry in each.list(USERS[0], "archive")])
            self.assertEqual([], each.list(USERS[0]))
            for at, user in enumerate(USERS):
                self.assertEqual(b"Subject: %d\r\n\\\n" % at, each.read(user, f"{at}.a"))
            each.deliver(USERS[0], b"x", "fresh.a")

    def test_the_manifest_says_what_it_is(self) -> None:
        self.filled().snapshot(self.folder)
        said = self.manifest()
        self.assertEqual((1, 200, ["inbox", "archive"]), (said["version"], said["messages"], said["folders"]))
        self.assertIn("No moment is that of all shards", said["says"])
        self.assertEqual([0, 1, 2], [part["shard"] for part in said["shards"]])
        # A later one leaves no file of this one.
        self.filled().snapshot(self.folder)
        files = {store["file"] for part in self.manifest()["shards"] for store in part["stores"]}
        self.assertEqual(files | {"manifest.json"}, {path.name for path in self.folder.iterdir()})

    def test_what_is_no_whole_snapshot_is_refused(self) -> None:
        boxes = self.filled()
        boxes.snapshot(self.folder)
        said = self.manifest()
        store = self.folder / said["shards"][0]["stores"][0]["file"]
        whole = store.read_bytes()
        for refused, spoil in (
            (errors.WrongChecksum, lambda: store.write_bytes(whole[:-2] + b"!\n")),
            (errors.WrongChecksum, lambda: store.write_bytes(whole[:-1])),
            (errors.MissingShard, store.unlink),
            (errors.MissingShard, lambda: self.write({**said, "shards": said["shards"][:1] + said["shards"][2:]})),
            (errors.OtherVersion, lambda: self.write({**said, "version": 2})),
            (errors.OtherShards, lambda: self.write({**said, "shards": said["shards"][:2]})),
            (errors.OtherShards, lambda: self.write({**said, "folders": ["inbox"]})),
            (errors.NoSnapshot, (self.folder / "manifest.json").unlink),
        ):
            with self.subTest(refused.__name__):
                spoil()
                self.assertRaises(refused, boxes.restore, self.folder)
                store.write_bytes(whole)
                self.write(said)
        # Nothing was changed.
        self.assertEqual(b"Subject: 1\r\n\\\n", boxes.read(USERS[1], "1.a"))
        boxes.restore(self.folder)

    def manifest(self) -> Any:
        return json.loads((self.folder / "manifest.json").read_bytes())

    def write(self, said: Dict[str, Any]) -> None:
        (self.folder / "manifest.json").write_text(json.dumps(said))


class Deliverer(threading.Thread):
    """Delivers to users in turn until a shard is lost, and keeps which deliveries were answered."""

    def __init__(self, boxes: Any) -> None:
        super().__init__(daemon=True)
        self.boxes = boxes
        self.answered: List[int] = []
        self.lost: Dict[int, Any] = {}
        self.other: List[BaseException] = []
        self.ends = False

    def run(self) -> None:
        number = 0
        try:
            while not self.ends:
                number += 1
                try:
                    self.boxes.deliver(USERS[number % 50], b"%d" % number, f"{number}.a")
                    self.answered.append(number)
                except errors.ShardLost as error:
                    self.lost[number] = error
        except BaseException as error:
            self.other.append(error)


@needs_cluster
class LostWorkerTest(ClusterCase):
    """Each kills one of four workers, so that the last has two."""

    @classmethod
    def made(cls) -> Cluster:
        cluster = Cluster(4)
        cls.addClassCleanup(cluster.close)
        return cluster

    def test_a_worker_is_killed_amid_deliveries(self) -> None:
        boxes = self.mailboxes(4)
        deliverer = Deliverer(boxes)
        deliverer.start()
        self.until(lambda: len(deliverer.answered) >= 100)
        before = list(deliverer.answered)
        boxes.snapshot(self.folder)
        self.until(lambda: len(deliverer.answered) >= len(before) + 50)
        old = boxes.worker_of(1)
        gone = [shard for shard in range(4) if boxes.worker_of(shard) == old]
        self.worker_of(boxes, 1).kill()
        self.until(lambda: len(deliverer.lost) >= 5 and boxes.lost == gone)
        deliverer.ends = True
        deliverer.join(MOST_SECONDS_TO_BE_LOST)
        self.assertEqual([], deliverer.other)
        self.assertFalse(deliverer.is_alive())
        for number, error in deliverer.lost.items():
            self.assertEqual(str(self.folder), error.snapshot)
            self.assertEqual(boxes.shard_of(USERS[number % 50]), error.shard)
            self.assertIn(error.shard, gone)
        for shard in gone:
            boxes.restore(shard=shard)
            self.assertNotEqual(old, boxes.worker_of(shard))
        there = {entry.unique for user in USERS[:50] for entry in boxes.list(user)}
        for number in before:
            self.assertIn(f"{number}.a", there)
        # A later one is there, or its caller got `ShardLost`, which names it.
        told = {each for error in deliverer.lost.values() for each in error.since}
        for number in deliverer.answered:
            user = USERS[number % 50]
            if f"{number}.a" not in there:
                self.assertIn(boxes.shard_of(user), gone)
                self.assertIn((user, f"{number}.a"), told)
        boxes.deliver(next(user for user in USERS if boxes.shard_of(user) == 1), b"x")

    def test_a_call_in_flight_is_lost_and_not_made_again(self) -> None:
        boxes = self.mailboxes(2)
        user = next(user for user in USERS if boxes.shard_of(user) == 0)
        worker = self.worker_of(boxes, 0)
        names = [f"{at}.a" for at in range(9000)]
        sent = boxes._sent(0, "deliver_many", user, 0, Records.of(names, [bytes(2000)] * 9000))
        worker.kill()
        began = time.monotonic()
        self.assertRaises(errors.ShardLost, boxes._answer, sent)
        self.assertRaises(errors.ShardLost, boxes.list, user)
        self.assertLess(time.monotonic() - began, MOST_SECONDS_TO_BE_LOST)
        # Without a snapshot there is nothing to restore.
        self.assertRaises(errors.NoSnapshot, boxes.restore, shard=0)
        time.sleep(1)
        self.assertEqual("error", boxes._shards[0].future.status)

    def test_a_worker_is_killed_amid_a_snapshot(self) -> None:
        boxes = self.mailboxes(2)
        user = next(user for user in USERS if boxes.shard_of(user) == 0)
        boxes.deliver(user, b"old", "old.a")
        boxes.snapshot(self.folder)
        manifest = (self.folder / "manifest.json").read_bytes()
        for at in range(10):
            boxes.deliver_many(user, [bytes(1_000_000)] * 10)
        worker, files = self.worker_of(boxes, 0), self.files()
        sent = boxes._sent(0, "snapshot", 0, str(self.folder))
        self.until(lambda: self.files() != files)
        worker.kill()
        self.assertRaises(errors.ShardLost, boxes._answer, sent)
        self.assertRaises(errors.ShardLost, boxes.snapshot, self.folder)
        self.assertEqual(manifest, (self.folder / "manifest.json").read_bytes())
        boxes.restore(shard=0)
        self.assertEqual(["old.a"], [entry.unique for entry in boxes.list(user)])
        boxes.snapshot(self.folder)
        self.assertEqual(len(files), len(self.files()))

    def worker_of(self, boxes: Any, shard: int) -> Any:
        return self.cluster.worker_at(boxes.worker_of(shard))

    def files(self) -> Set[str]:
        return {path.name for path in self.folder.iterdir()}

    def until(self, has_come: Any) -> None:
        end = time.monotonic() + 60
        while not has_come():
            self.assertLess(time.monotonic(), end)
            time.sleep(0.005)


@needs_cluster
class LostSchedulerTest(unittest.TestCase):
    def test_a_scheduler_that_is_gone(self) -> None:
        cluster = Cluster(1)
        self.addCleanup(cluster.close)
        boxes = Mailboxes(cluster.client, 1)
        boxes.deliver("ann", b"x")
        cluster.scheduler.kill()
        for worker in cluster.workers:
            worker.kill()
        self.assertRaises(errors.ShardLost, boxes.deliver, "ann", b"y")
        self.assertRaises((errors.NoSnapshot, errors.NoWorker), boxes.restore)


if __name__ == "__main__":
    unittest.main()
