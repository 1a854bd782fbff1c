"""Tests of tools/needed-definitions: what it prints of the theorem is what docs/THEOREM.md says."""

import re
import subprocess
import unittest

from shared import TOOLS, TOP

THEOREM = "crates/md_core/specs/Interleaving.antt"


class NeededDefinitions(unittest.TestCase):
    def run_tool(self, *words: str) -> subprocess.CompletedProcess[str]:
        return subprocess.run([TOOLS / "needed-definitions", *words], cwd=TOP, capture_output=True, text=True)

    def test_the_page_of_the_theorem_says_how_much_there_is_to_read(self) -> None:
        *files, sums = self.run_tool(THEOREM).stdout.splitlines()
        page = (TOP / "docs/THEOREM.md").read_text(encoding="utf-8")
        told = re.search(r"`Interleaves` needs (\d+) files of definitions, with ([\d,]+) lines", page)
        assert told is not None
        self.assertEqual(sums, f"{told[1]} files of definitions, {told[2].replace(',', '')} lines")
        self.assertEqual(len(files), int(told[1]))
        self.assertIn(THEOREM, "".join(files))

    def test_a_file_that_is_not_there_is_a_usage_error(self) -> None:
        self.assertEqual(self.run_tool("no-file").returncode, 64)
