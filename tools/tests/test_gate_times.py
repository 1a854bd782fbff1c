"""Tests of tools/gate-times, over lines that `rt ci` printed and one that tells of a kept crate."""

import subprocess
import unittest

from shared import TOOLS

LOG = """\
    60.0 rt: md_name proved
    72.0 rt: lists is kept: an earlier run on this machine proved the same files over the same libraries
   180.0 rt: md_dirs proved
   180.0 logic=proved functions=27
   189.0 rt: md_dirs: its tests are proved
   240.1 7 passed, 0 failed
"""


class Times(unittest.TestCase):
    def run_tool(self, text: str) -> str:
        return subprocess.run([TOOLS / "gate-times"], input=text, capture_output=True, text=True, check=True).stdout

    def test_a_part_takes_what_it_took_since_its_libraries_were_proved(self) -> None:
        said = "gate-times:    1.0 md_name\ngate-times:    1.8 md_dirs\ngate-times:    1.9 md_dirs, its tests\n"
        self.assertEqual(self.run_tool(LOG), LOG + said)

    def test_lines_that_come_are_stamped(self) -> None:
        self.assertEqual(self.run_tool("rt: md_name proved\n"), "     0.0 rt: md_name proved\ngate-times:    0.0 md_name\n")
