"""The package is installed by pip, without a network, and says where the library isn't."""

from __future__ import annotations

import os
import pathlib
import shutil
import subprocess
import sys
import tempfile
import unittest

from support import PYTHON, WHY_NOT, library_path

import deolmutt
from deolmutt._library import SONAME

# A program that uses the installed package, away from the tree.
PROGRAM = "import deolmutt; box = deolmutt.Maildir(); print(box.get_bytes(box.add(b'Subject: x')))"
MOST_SECONDS = 240


def without_network() -> list[str]:
    """What runs a command where no network is, if this machine lets us."""
    words = ["unshare", "--map-root-user", "--net"]
    if shutil.which("unshare") and subprocess.run([*words, "true"], capture_output=True).returncode == 0:
        return words
    return []


def run(command: list[str], folder: pathlib.Path, **variables: str) -> subprocess.CompletedProcess[str]:
    """Runs a command without what this test's own environment says of Python."""
    ours = ("DEOLMUTT_", "PYTHON", "PIP_")
    kept = {name: value for name, value in os.environ.items() if not name.startswith(ours)}
    return subprocess.run(
        command, cwd=folder, env={**kept, **variables}, capture_output=True, text=True, timeout=MOST_SECONDS
    )


def has_system_library() -> bool:
    """Whether the system has the library. This process may have loaded another one of that name."""
    return run([sys.executable, "-c", f"import ctypes; ctypes.CDLL({SONAME!r})"], PYTHON).returncode == 0


class InstallTest(unittest.TestCase):
    """One environment for all tests, since making one takes some seconds."""

    folder: pathlib.Path
    work: pathlib.Path
    python: str

    @classmethod
    def setUpClass(cls) -> None:
        folder = tempfile.TemporaryDirectory()
        cls.addClassCleanup(folder.cleanup)
        cls.folder = pathlib.Path(folder.name)
        cls.work = cls.folder / "python"
        shutil.copytree(PYTHON, cls.work, ignore=shutil.ignore_patterns("tests", "__pycache__", "*.so"))
        cls.python = str(cls.folder / "venv" / "bin" / "python")
        if run([sys.executable, "-m", "venv", "venv"], cls.folder).returncode != 0:
            raise unittest.SkipTest("this Python makes no environment of its own (ensurepip is missing)")

    def test_without_a_library_it_is_not_installed(self) -> None:
        if has_system_library():
            self.skipTest("the system has the library")
        cases: dict[str, dict[str, str]] = {
            "there is no libdeolmutt.so, so it is not installed": {},
            "none/libdeolmutt.so: no such library": {"DEOLMUTT_LIBRARY": "none/libdeolmutt.so"},
        }
        for text, variables in cases.items():
            ran = run([*without_network(), self.python, "-m", "pip", "install", "."], self.work, **variables)
            self.assertNotEqual(0, ran.returncode)
            self.assertIn(text, ran.stdout + ran.stderr)
            self.assertNotIn("Traceback", ran.stdout + ran.stderr)

    def test_where_the_library_is_to_come_later_it_says_how_to_get_one(self) -> None:
        self.install("--config-settings", "library=none", ".")
        ran = run([self.python, "-c", PROGRAM], self.folder, DEOLMUTT_LIBRARY="none/libdeolmutt.so")
        self.assertEqual(1, ran.returncode)
        said = ran.stderr.splitlines()[-1]
        for text in ("deolmutt.errors.LibraryMissing", "tools/ffi-build", "none/libdeolmutt.so"):
            self.assertIn(text, said)
        if WHY_NOT:
            self.skipTest(WHY_NOT)
        self.assert_works(DEOLMUTT_LIBRARY=library_path())

    def test_without_dask_the_cluster_names_what_to_install(self) -> None:
        self.install("--config-settings", "library=none", ".")
        ran = run([self.python, "-c", "import deolmutt.cluster"], self.folder)
        self.assertEqual(1, ran.returncode)
        for text in ("deolmutt.errors.DaskMissing", "python3-distributed", "pip"):
            self.assertIn(text, ran.stderr)

    def test_a_library_beside_the_package_goes_with_it(self) -> None:
        if WHY_NOT:
            self.skipTest(WHY_NOT)
        beside = self.work / "deolmutt" / "libdeolmutt.so"
        shutil.copy(library_path(), beside)
        self.addCleanup(beside.unlink)
        self.install()
        self.assert_works()

    def test_its_sources_are_packed_and_installed_from_there(self) -> None:
        pack = "import backend, sys; print(backend.build_sdist(sys.argv[1]))"
        packed = run([self.python, "-c", pack, str(self.folder)], self.work)
        self.assertRegex(packed.stdout, r"\Adeolmutt-[\d.]+\.tar\.gz\n\Z", packed.stderr)
        self.install("--config-settings", "library=none", str(self.folder / packed.stdout.strip()))
        told = run([self.python, "-c", "import importlib.metadata as m; print(m.version('deolmutt'))"], self.folder)
        self.assertEqual(deolmutt.__version__, told.stdout.strip())

    def install(self, *what: str) -> None:
        words = ["-m", "pip", "install", "-q", "--force-reinstall", *(what or ["."])]
        ran = run([*without_network(), self.python, *words], self.work)
        self.assertEqual(0, ran.returncode, ran.stdout + ran.stderr)

    def assert_works(self, **variables: str) -> None:
        ran = run([self.python, "-c", PROGRAM], self.folder, **variables)
        self.assertEqual("b'Subject: x'\n", ran.stdout, ran.stderr)


if __name__ == "__main__":
    unittest.main()
