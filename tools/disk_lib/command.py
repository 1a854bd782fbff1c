"""The command line."""

from __future__ import annotations

import argparse
import os
import sys
import unittest
from pathlib import Path

ABOUT = """Runs the built deolmutt on maildirs in a temporary folder, and shows what each command does there, what it ends with where there
is no maildir, and what it leaves where a call of the system fails or the process is killed, by strace, and beside 63 others. What
can't be tried on this machine is said and passed over. It ends with status 1 where anything is not as it should be."""

MODULES = ("effects", "refusals", "names", "mailboxes", "faults", "crowd")


def main() -> int:
    """The status is 0 where all is as it should be, 1 where it is not, and 2 where there is no such program."""
    parser = argparse.ArgumentParser(prog="check_disk", description=ABOUT)
    parser.add_argument("program", type=Path, metavar="PROGRAM", help="as rt ci leaves it, crates/deolmutt/out/deolmutt")
    parser.add_argument("only", nargs="*", metavar="MODULE", help=f"these alone, of {', '.join(MODULES)}")
    chosen = parser.parse_args()
    program: Path = chosen.program.resolve()
    if not os.access(program, os.X_OK):
        print(f"check_disk: no such program: {chosen.program}", file=sys.stderr)
        return 2
    os.environ["DEOLMUTT"] = str(program)
    # A delivery flushes what it writes, which memory does at once.
    if "TMPDIR" not in os.environ and os.access("/dev/shm", os.W_OK):
        os.environ["TMPDIR"] = "/dev/shm"
    names = [f"disk_lib.{name}" for name in chosen.only or MODULES]
    tests = unittest.defaultTestLoader.loadTestsFromNames(names)
    done = unittest.TextTestRunner(verbosity=1).run(tests)
    return 0 if done.wasSuccessful() else 1
