"""docs/CLUSTER.md: its commands start what they say, and its session prints what it shows."""

from __future__ import annotations

import doctest
import os
import re
import shlex
import signal
import socket
import subprocess
import sys
import unittest

from cluster_support import NO_DASK, needs_cluster
from support import PYTHON, TOP, Case

if not NO_DASK:
    from distributed import Client

PAGE = (TOP / "docs/CLUSTER.md").read_text(encoding="utf-8")
# The guide has the script that the session reads.
GUIDE = (TOP / "docs/GUIDE.md").read_text(encoding="utf-8")
PORT = "8786"
DASK = "import sys; from dask.__main__ import main; sys.exit(main())"


@needs_cluster
class PageTest(Case):
    def test_its_commands_and_its_session(self) -> None:
        with socket.socket() as free:
            free.bind(("127.0.0.1", 0))
            port = str(free.getsockname()[1])
        commands = [shlex.split(line.replace(PORT, port)) for line in re.findall(r"^    dask (.*)$", PAGE, re.M)]
        self.assertEqual(["scheduler", "worker", "worker"], [words[0] for words in commands])
        for words in commands:
            self.start(words)
        address = f"tcp://127.0.0.1:{port}"
        with Client(address, timeout=60, set_as_default=False) as client:
            client.wait_for_workers(2, timeout=60)
        saved = re.search(r"Save this as `headers.script`:\n\n((?:    .*\n)+)", GUIDE)
        assert saved is not None
        (self.folder / "headers.script").write_text(re.sub(r"^    ", "", saved[1], flags=re.M))
        here = os.getcwd()
        self.addCleanup(os.chdir, here)
        os.chdir(self.folder)
        names = {"address": address, "folder": str(self.folder / "snapshot")}
        session = doctest.DocTestParser().get_doctest(PAGE, names, "CLUSTER.md", None, 0)
        self.assertGreater(len(session.examples), 12)
        ran = doctest.DocTestRunner().run(session)
        self.assertEqual(0, ran.failed)

    def start(self, words: list[str]) -> None:
        """Runs a command of Dask by this Python, until the test ends."""
        process = subprocess.Popen(
            [sys.executable, "-c", DASK, *words], cwd=self.folder, env={**os.environ, "PYTHONPATH": str(PYTHON)},
            stdin=subprocess.DEVNULL, stdout=subprocess.DEVNULL, stderr=subprocess.DEVNULL, start_new_session=True,
        )  # fmt: skip
        self.addCleanup(process.wait)
        self.addCleanup(os.killpg, process.pid, signal.SIGKILL)


if __name__ == "__main__":
    unittest.main()
