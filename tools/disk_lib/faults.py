"""Each system call of each command fails in turn, and the process is killed at each, by strace."""

from __future__ import annotations

import os
import re
import shutil
import subprocess
import unittest
from collections import Counter
from collections.abc import Callable, Iterator
from concurrent.futures import ThreadPoolExecutor
from pathlib import Path
from tempfile import TemporaryDirectory
from typing import NamedTuple

from .boxes import MAIL, UNIQUE, Box, BoxTest, Ended, run

CALLS = ("openat", "read", "write", "close", "fsync", "link", "linkat", "rename", "renameat", "renameat2", "unlink", "unlinkat",
         "getdents64", "stat", "lstat", "newfstatat", "statx", "mkdir", "mkdirat")

# Statuses that a command may end with where a call fails.
STATUSES = {0, 66, 73, 74, 75, 77}

_CALL = re.compile(r"^(\w+)\(")
_READING = re.compile(rb'^openat\([^"]*"box/(?:new|cur)/?"')


class Scene(NamedTuple):
    """A command, what it is run on, and whether what it leaves is what it claims: by the files of both maildirs before and after."""

    words: tuple[str, ...]
    place: str
    name: bytes
    is_done: Callable[[dict[bytes, bytes]], bool]


def _has(*names: bytes) -> Callable[[dict[bytes, bytes]], bool]:
    return lambda files: all(files.get(name) == MAIL for name in names)


def _gone(files: dict[bytes, bytes]) -> bool:
    return not any(UNIQUE in name for name in files)


def _has_one(place: bytes) -> Callable[[dict[bytes, bytes]], bool]:
    return lambda files: [body for name, body in files.items() if name.startswith(place)] == [MAIL]


SCENES = (
    Scene(("deliver", "box"), "", b"", _has_one(b"box/new/")),
    Scene(("seen", "box", UNIQUE.decode()), "new", UNIQUE, _has(b"box/cur/" + UNIQUE + b":2,S")),
    Scene(("flag", "box", "+F", UNIQUE.decode()), "cur", UNIQUE + b":2,S", _has(b"box/cur/" + UNIQUE + b":2,FS")),
    Scene(("move", "box", "other", UNIQUE.decode()), "new", UNIQUE, _has(b"other/new/" + UNIQUE)),
    Scene(("copy", "box", "other", UNIQUE.decode()), "new", UNIQUE, _has_one(b"other/new/")),
    Scene(("expunge", "box", UNIQUE.decode()), "cur", UNIQUE + b":2,T", _gone),
)


class Left(NamedTuple):
    """What a run came to and what it left."""

    ended: Ended
    files: dict[bytes, bytes]


def _tried(scene: Scene, options: list[str]) -> Left:
    """A run under strace on maildirs of its own."""
    with TemporaryDirectory() as scratch:
        top = Path(scratch)
        boxes = {name: Box(top / name) for name in ("box", "other")}
        if scene.place:
            boxes["box"].put(scene.place, scene.name)
        ended = run(*scene.words, given=MAIL, before=["strace", *options], cwd=top)
        files = {name.encode() + b"/" + path: body for name, box in boxes.items() for path, body in box.files().items()}
        return Left(ended, files)


def _calls(scene: Scene, log: Path) -> Iterator[tuple[str, int]]:
    """The calls of a run, from the first one that names a maildir on, each by its name and how many of that name it is."""
    _tried(scene, ["-o", str(log), "-e", "trace=" + ",".join(f"?{call}" for call in CALLS)])
    counts: Counter[str] = Counter()
    has_begun = False
    for line in log.read_text(errors="replace").splitlines():
        found = _CALL.match(line)
        if not found:
            continue
        counts[found[1]] += 1
        has_begun = has_begun or '"box' in line
        if has_begun:
            yield found[1], counts[found[1]]


def _traces() -> bool:
    """Whether strace can be used here."""
    if shutil.which("strace") is None:
        return False
    return subprocess.run(["strace", "-o", os.devnull, "true"], capture_output=True, check=False).returncode == 0


@unittest.skipUnless(_traces(), "no strace")
class Faults(unittest.TestCase):
    """A call that fails, and a process that is killed."""

    def setUp(self) -> None:
        with TemporaryDirectory() as scratch:
            logs = [Path(scratch) / str(number) for number in range(len(SCENES))]
            self.cases = [(scene, call, at) for scene, log in zip(SCENES, logs) for call, at in _calls(scene, log)]
        self.assertGreater(len(self.cases), 40)

    def lefts(self, options: Callable[[str, int], str]) -> Iterator[tuple[Scene, str, Left]]:
        """What each case leaves, where a call is met so."""
        with ThreadPoolExecutor(os.cpu_count()) as pool:
            def tried(case: tuple[Scene, str, int]) -> tuple[Scene, str, Left]:
                scene, call, at = case
                inject = options(call, at)
                return scene, f"{' '.join(scene.words)}, {inject}", _tried(scene, ["-o", os.devnull, "-e", f"trace={call}", "-e", inject])
            yield from pool.map(tried, self.cases)

    def whole(self, scene: Scene, left: Left) -> None:
        """No message is lost, in part or twice."""
        new = [body for name, body in left.files.items() if b"/tmp/" not in name]
        if scene.words[0] in ("deliver", "expunge"):
            self.assertIn(new, ([], [MAIL]))
        elif scene.words[0] == "copy":
            self.assertIn(new, ([MAIL], [MAIL, MAIL]))
        else:
            self.assertEqual(new, [MAIL])

    def test_each_call_fails(self) -> None:
        for error in ("EIO", "ENOENT", "ENOSPC"):
            for scene, case, left in self.lefts(lambda call, at, error=error: f"inject={call}:error={error}:when={at}"):
                with self.subTest(case):
                    self.whole(scene, left)
                    self.assertIn(left.ended.status, STATUSES | {65})
                    if left.ended.status == 0:
                        self.assertTrue(scene.is_done(left.files), left)
                    elif "close" not in case:
                        self.assertFalse(scene.is_done(left.files), left)
                        self.assertTrue(left.ended.said.startswith(b"deolmutt: "), left)
                    # A file that is said to be gone is not taken away.
                    if "unlink" not in case and error != "ENOENT":
                        self.assertEqual([name for name in left.files if b"/tmp/" in name], [], left)

    def test_killed_at_each_call(self) -> None:
        for scene, case, left in self.lefts(lambda call, at: f"inject={call}:signal=KILL:when={at}"):
            with self.subTest(case):
                self.whole(scene, left)


@unittest.skipUnless(_traces(), "no strace")
class Readings(BoxTest):
    """What is read for many messages."""

    def flagged(self, keys: list[bytes]) -> tuple[Ended, list[bytes]]:
        """How an adding of F ended whose keys are read, and its calls that open a file and that rename one."""
        log = self.top / "log"
        before = ["strace", "-o", str(log), "-e", "trace=openat,rename"]
        ended = run("flag", "box", "+F", "-", given=b"".join(key + b"\n" for key in keys), before=before, cwd=self.top)
        return ended, log.read_bytes().splitlines()

    def test_one_reading_for_many(self) -> None:
        """Half of the messages have the flag already. A directory that was changed just now is read more than once."""
        for number in range(5000):
            self.box.put("cur", b"m%d:2,%s" % (number, b"F" * (number % 2)))
        ended, calls = self.flagged([b"m%d" % number for number in range(5000)])
        self.assertEqual((ended.status, ended.said), (0, b""))
        self.assertEqual(sum(call.startswith(b"rename(") for call in calls), 2500)
        self.assertLess(sum(bool(_READING.match(call)) for call in calls), 30)
        self.assertEqual(self.box.names("cur"), sorted(b"m%d:2,F" % number for number in range(5000)))

    def test_no_reading_for_paths(self) -> None:
        for number in range(1000):
            self.box.put("cur", b"m%d:2,S" % number)
        ended, calls = self.flagged([b"box/cur/m%d:2,S" % number for number in range(1000)])
        self.assertEqual((ended.status, ended.said), (0, b""))
        self.assertEqual(sum(call.startswith(b"rename(") for call in calls), 1000)
        self.assertEqual([call for call in calls if _READING.match(call)], [])
        self.assertEqual(self.box.names("cur"), sorted(b"m%d:2,FS" % number for number in range(1000)))

    def test_no_reading_for_a_path_that_is_read(self) -> None:
        """One that is out of date is looked for."""
        self.box.put("cur", b"m:2,S")
        log = self.top / "log"
        before = ["strace", "-o", str(log), "-e", "trace=openat"]
        self.assertEqual(self.run_well("read", "box", "box/cur/m:2,S", before=before), MAIL)
        self.assertEqual([call for call in log.read_bytes().splitlines() if _READING.match(call)], [])
        for key in ("box/cur/m:2,", "box/new/m"):
            self.assertEqual(self.run_well("read", "box", key), MAIL)

    def test_keys_of_all_kinds(self) -> None:
        """By name and by path, right and out of date, twice, of no message, and no keys: each is answered as it would be alone."""
        for name in (b"a:2,", b"b:2,", b"c:2,S", b"d:2,F", b"e:1,x"):
            self.box.put("cur", name)
        keys = [b"none", b"a", b"box/cur/a:2,", b"box/cur/b:2,", b"box/cur/b:2,", b"b", b"box/cur/c:2,", b"c", b"box/new/d", b"d", b"e",
                b"x/y"]
        ended, calls = self.flagged(keys)
        self.assertEqual(ended.said.splitlines(), [
            b"deolmutt: none: no such message", b"deolmutt: e: the name of the message has no flags after its colon",
            b"deolmutt: x/y: not the name of a message, nor its path in this maildir"])
        self.assertEqual(ended.status, 65)
        self.assertLess(sum(bool(_READING.match(call)) for call in calls), 30)
        self.assertEqual(self.box.names("cur"), [b"a:2,F", b"b:2,F", b"c:2,FS", b"d:2,F", b"e:1,x"])
