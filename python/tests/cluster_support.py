"""What the tests of deolmutt.cluster share: a scheduler and workers of their own on the loopback, which end with the tests."""

from __future__ import annotations

import atexit
import logging
import os
import pathlib
import random
import signal
import subprocess
import sys
import tempfile
import time
import unittest
from functools import lru_cache
from typing import Any, List

from support import PYTHON, WHY_NOT, Case

from deolmutt import lines

try:
    from distributed import Client

    import deolmutt.cluster

    NO_DASK = ""
except ImportError as error:
    NO_DASK = str(error)

_SECONDS_TO_START = 60
# Dask says at length what tests kill.
logging.disable(logging.CRITICAL)

needs_dask = unittest.skipIf(NO_DASK, f"Dask is not here: {NO_DASK}")
needs_cluster = unittest.skipIf(NO_DASK or WHY_NOT, f"Dask or the library is not here: {NO_DASK or WHY_NOT}")


class Cluster:
    """A scheduler and workers, each a process of its own, and a client. No worker is started anew."""

    def __init__(self, workers: int) -> None:
        self._room = tempfile.TemporaryDirectory(prefix="deolmutt-cluster-")
        self.folder = pathlib.Path(self._room.name)
        self._file = self.folder / "scheduler.json"
        self._processes: List[subprocess.Popen[bytes]] = []
        self._clients: List[Client] = []
        self.workers: List[subprocess.Popen[bytes]] = []
        try:
            self.scheduler = self._start("dask_scheduler", "--port", "0", "--no-show")
            self.add_workers(workers)
            self.client = self.new_client()
            self.client.wait_for_workers(workers, timeout=_SECONDS_TO_START)
        except BaseException:
            self.close()
            raise

    def _start(self, program: str, *words: str) -> subprocess.Popen[bytes]:
        ours = [sys.executable, "-m", f"distributed.cli.{program}", "--scheduler-file", str(self._file)]
        plain = ["--host", "127.0.0.1", "--dashboard-address", "127.0.0.1:0", "--no-dashboard"]
        paths = os.pathsep.join([str(PYTHON), str(PYTHON / "tests")])
        with open(self.folder / f"{program}.log", "ab") as log:
            process = subprocess.Popen(
                [*ours, *plain, *words], cwd=self.folder, env={**os.environ, "PYTHONPATH": paths},
                stdin=subprocess.DEVNULL, stdout=log, stderr=log, start_new_session=True,
            )  # fmt: skip
        self._processes.append(process)
        return process

    def add_workers(self, count: int) -> None:
        words = ["--no-nanny", "--nthreads", "1", "--memory-limit", "0", "--death-timeout", str(_SECONDS_TO_START)]
        for _ in range(count):
            room = tempfile.mkdtemp(dir=self.folder)
            self.workers.append(self._start("dask_worker", *words, "--local-directory", room))

    def new_client(self) -> Client:
        until = time.monotonic() + _SECONDS_TO_START
        while not self._file.exists() and self.scheduler.poll() is None and time.monotonic() < until:
            time.sleep(0.05)
        client = Client(
            scheduler_file=str(self._file), timeout=_SECONDS_TO_START, direct_to_workers=True, set_as_default=False
        )
        self._clients.append(client)
        return client

    def worker_at(self, address: str) -> subprocess.Popen[bytes]:
        """The process of a worker, which a test may kill."""
        pid = self.client.run(os.getpid, workers=[address])[address]
        return next(each for each in self.workers if each.pid == pid)

    def close(self) -> None:
        for client in self._clients:
            client.close(timeout=2)
        for process in reversed(self._processes):
            if process.poll() is None:
                os.killpg(process.pid, signal.SIGKILL)
            process.wait()
        self._room.cleanup()


@lru_cache(maxsize=None)
def shared() -> Cluster:
    """A cluster of two workers for all tests that leave it whole. It ends with the process."""
    cluster = Cluster(2)
    atexit.register(cluster.close)
    return cluster


class ClusterCase(Case):
    """Tests over the shared cluster, or, where they kill something, over one of their class."""

    cluster: Any

    @classmethod
    def setUpClass(cls) -> None:
        cls.cluster = cls.made()

    @classmethod
    def made(cls) -> Cluster:
        return shared()

    @property
    def client(self) -> Any:
        return self.cluster.client

    def mailboxes(self, shards: int, **how: Any) -> Any:
        boxes = deolmutt.cluster.Mailboxes(self.client, shards, **how)
        self.addCleanup(boxes.close)
        return boxes


def random_lines(seed: int, count: int) -> bytes:
    """A store of messages in no order, with headers of right, wrong and odd fields."""
    chance = random.Random(seed)
    folders = [b"a", b"b", b"\xff"]
    names = [b"%d.M%dP1.h" % (at, chance.randrange(9)) for at in range(count)]
    chance.shuffle(names)
    said = [b"folder " + folder + b"\n" for folder in folders]
    fields = [b"Subject: one", b"SUBJECT:two\n\tfolded", b"From: a <a@b>", b"Date: x", b"no field", b": x", b"\xff: y",
              b"Date: Fri, 21 Nov 1997 09:55:06 -0600", b"Message-ID: <1@b>", b"Subject: \r back \\ slash", b""]  # fmt: skip
    for name in names:
        body = chance.choice([b"\n", b"\r\n"]).join(chance.choices(fields, k=chance.randrange(8)))
        place, info = chance.choice([(b"new", b""), (b"cur", b":2,S"), (b"cur", b":x"), (b"tmp", b"")])
        body += bytes(chance.randrange(9)) * chance.randrange(200)
        said.append(b"file %b %b %b %d " % (chance.choice(folders), place, name + info, chance.randrange(9)))
        said.append(lines.escaped(body) + b"\n")
    return b"".join(said)
