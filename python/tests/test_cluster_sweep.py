"""Sweeps and explorations over Dask: what they find, and that they go on where they were cut off."""

from __future__ import annotations

import os
import pathlib
import shutil
import sys
import unittest
from typing import Any

from cluster_support import NO_DASK, ClusterCase, needs_cluster
from support import TOP

if not NO_DASK:
    from deolmutt.cluster import NoClone, ToolRefused, explore, sweep

SCRIPTS = 3
# Plays a script as the library does, in the words of `maildir_cli play`. With a word more it answers another text where a script has it.
PLAY = """
import sys
from deolmutt.errors import BadLine, BadCommand
from deolmutt.scripts import transcript
script = sys.stdin.buffer.read()
try:
    out, said, status = transcript(script), b"", 0
except BadLine as error:
    out, said, status = error.printed, b"line %d: refused\\n" % error.line, 1
if len(sys.argv) > 1 and sys.argv[1].encode() in script:
    out += b"more\\n"
sys.stdout.buffer.write(out)
sys.stderr.buffer.write(said)
sys.exit(status)
"""
DEOLMUTT = pathlib.Path(os.environ.get("DEOLMUTT", TOP / "crates/deolmutt/out/deolmutt"))


@needs_cluster
class SweepTest(ClusterCase):
    def setUp(self) -> None:
        super().setUp()
        program = self.folder / "play.py"
        program.write_text(PLAY)
        self.plays = [sys.executable, str(program)]

    def sweep(self, seeds: Any, *plain: str) -> Any:
        return sweep(self.client, seeds, self.folder / "found", self.plays, [*self.plays, *plain], scripts=SCRIPTS)

    def test_programs_that_do_the_same(self) -> None:
        self.assertEqual([], self.sweep(range(2)))
        # What is done is not done again: the program is not even asked.
        pathlib.Path(self.plays[1]).unlink()
        self.assertEqual([], self.sweep(range(2)))

    def test_a_finding_has_the_script_that_shows_it(self) -> None:
        found = self.sweep([3], "job ")
        self.assertEqual([3], [finding.seed for finding in found])
        [finding] = found
        script = pathlib.Path(finding.script).read_bytes()
        self.assertIn(b"job ", script)
        self.assertEqual((finding.ours[0], finding.ours[1] + b"more\n"), finding.plain[:2])
        # It goes on from a journal that was cut off amid a line, and answers the older finding too.
        [journal] = (self.folder / "found").glob("*.jsonl")
        journal.write_bytes(journal.read_bytes() + b'{"seed": 4, "scr')
        self.assertEqual([3, 4], [each.seed for each in self.sweep([3, 4], "job ")])
        self.assertEqual(found, self.sweep([3], "job "))
        # Another thing that is asked begins anew.
        self.assertEqual([], self.sweep([3]))

    def test_without_a_clone(self) -> None:
        with self.assertRaises(NoClone):
            sweep(self.client, [1], self.folder / "none", self.plays, self.plays, clone=str(self.folder))


@needs_cluster
class ExploreTest(ClusterCase):
    SETUP = "mkdir -p box/tmp box/new box/cur; echo > box/cur/u:2,S"

    def test_what_the_tool_refuses(self) -> None:
        self.assertRaises(ToolRefused, explore, self.client, ("true", "true"), self.folder / "x", setup="exit 3")

    @unittest.skipUnless(shutil.which("strace"), "strace is not here")
    @unittest.skipUnless(os.access(DEOLMUTT, os.X_OK), f"deolmutt is not built: {DEOLMUTT}; DEOLMUTT may name it")
    def test_each_interleaving_is_judged(self) -> None:
        commands = "mv box/cur/u:2,S box/cur/u:2,FS", "mv box/cur/u:2,S box/cur/u:2,RS"
        folder = self.folder / "runs"
        some = explore(self.client, commands, folder, setup=self.SETUP, runs=1)
        self.assertFalse(some.is_whole)
        whole = explore(self.client, commands, folder, setup=self.SETUP)
        self.assertTrue(whole.is_whole)
        self.assertLessEqual(set(some.orders), set(whole.orders))
        alone = explore(self.client, commands, self.folder / "alone", setup=self.SETUP)
        self.assertEqual((whole.orders, whole.breaking), (alone.orders, alone.breaking))
        for broken in whole.broken:
            self.assertTrue(pathlib.Path(broken.log).read_bytes())


if __name__ == "__main__":
    unittest.main()
