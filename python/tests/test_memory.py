"""Many calls take no more memory than some: DEOLMUTT_CALLS says how many, 200,000 where it is left out."""

from __future__ import annotations

import os
import subprocess
import sys
import unittest

from support import PYTHON, needs_library

CALLS = int(os.environ.get("DEOLMUTT_CALLS", "200000"))
# Where the peak of some calls is taken.
SOME = 100_000
# The process grows by what the allocator and Python keep as holes. What is in use grows by the 24 bytes that directories keep of 64 files
# that are gone, in a row that doubles where it is full: by less than a byte for each of four calls.
MOST_GROWTH_KIB = 4096
MOST_GROWTH_IN_USE = 1 / 4

# Delivers, flags, reads and removes messages; the store settles by itself. After some calls and after all it prints the peaks so far: of the
# process, in KiB; of what the C library's allocator has given out, in bytes, 0 where it doesn't say; and how many blocks Python has.
PROGRAM = """
import ctypes, resource, sys
sys.path.insert(0, sys.argv[1])
from deolmutt import Maildir

class Given(ctypes.Structure):
    _fields_ = [(name, ctypes.c_size_t) for name in "arena ordblks smblks hblks hblkhd usmblks fsmblks uordblks fordblks keepcost".split()]

def given():
    try:
        ask = ctypes.CDLL(None).mallinfo2
    except AttributeError:
        return int
    ask.restype = Given
    def bytes_given():
        said = ask()
        return said.uordblks + said.hblkhd
    return bytes_given

calls, some, made = int(sys.argv[2]), int(sys.argv[3]), 0
ask, most = given(), [0, 0]
box = Maildir()
kept = [box.add(b"Subject: kept") for _ in range(500)]
while made < calls:
    keys = box.add_all([b"Subject: x\\n\\n" + bytes(200)] * 10)
    box.add_flag_to_all(keys, "S")
    for key in keys:
        box.get_bytes(key)
        box.remove(key)
    made += 50
    most = [max(each) for each in zip(most, (ask(), sys.getallocatedblocks()))]
    if made in (some, calls):
        print(resource.getrusage(resource.RUSAGE_SELF).ru_maxrss, *most)
assert sorted(box.keys()) == sorted(kept)
"""


@needs_library
class MemoryTest(unittest.TestCase):
    def test_many_calls_take_no_more_memory_than_some(self) -> None:
        words = [sys.executable, "-c", PROGRAM, str(PYTHON), str(CALLS), str(SOME)]
        ran = subprocess.run(words, capture_output=True, text=True)
        if "NotSettled" in ran.stderr:
            self.skipTest("this library has no settle")
        self.assertEqual(0, ran.returncode, ran.stderr)
        some, all_of_them = ([int(word) for word in line.split()] for line in ran.stdout.splitlines())
        process, in_use, blocks = (after - before for before, after in zip(some, all_of_them))
        self.assertLess(process, MOST_GROWTH_KIB, "KiB")
        self.assertLess(in_use, (CALLS - SOME) * MOST_GROWTH_IN_USE, "bytes given out")
        self.assertLess(blocks, (CALLS - SOME) * MOST_GROWTH_IN_USE / 200, "blocks of Python's")


if __name__ == "__main__":
    unittest.main()
