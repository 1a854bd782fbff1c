"""The tree that the gate has passed: the sum of each of its files, and the prover."""

from __future__ import annotations

import hashlib
import os
import subprocess
from pathlib import Path
from typing import Dict, Iterator

from judge_lib.refused import Refused

TOP = Path(__file__).resolve().parents[2]
# What the gate leaves: a line `prover IDENTITY`, then `SUM PATH` for each file, and `built SUM PATH` for each program.
PASSED = TOP / "out/passed-tree"
# The programs that the gate builds and packages hold. Packages have the library for C built anew.
BUILT = ("crates/deolmutt/out/deolmutt", "crates/maildir_cli/out/maildir_cli")
# What is made of the tree, and is no part of it.
MADE_FOLDERS = {".git", "out", "target", "__pycache__", ".mypy_cache"}
MADE_FILES = {"python/deolmutt/libdeolmutt.so"}


def files() -> Iterator[str]:
    """The paths of the tree's files, in order."""
    for folder, folders, names in os.walk(TOP):
        folders[:] = sorted(set(folders) - MADE_FOLDERS)
        for name in sorted(names):
            path = os.path.relpath(os.path.join(folder, name), TOP)
            if path not in MADE_FILES:
                yield path


def sum_of(path: str) -> str:
    return hashlib.sha256((TOP / path).read_bytes()).hexdigest()


def sums() -> Dict[str, str]:
    """The sum of each file of the tree as it is now."""
    return {path: sum_of(path) for path in files()}


def lines_of(found: Dict[str, str]) -> str:
    return "".join(f"{found[path]} {path}\n" for path in sorted(found))


def prover() -> str:
    try:
        return subprocess.run(["rt", "version"], capture_output=True, text=True, check=True).stdout.strip()
    except (OSError, subprocess.CalledProcessError):
        raise Refused("rt, the toolchain's command, is not on the path") from None


def state() -> str:
    """What the gate keeps of a tree before it begins."""
    return f"prover {prover()}\n{lines_of(sums())}"


def built() -> str:
    """What the gate keeps of the programs that it has built."""
    return "".join(f"built {sum_of(path)} {path}\n" for path in BUILT)


def passed() -> tuple[str, str]:
    """The prover of the tree and the sum of the sums of its files. Refused if the gate has not passed the tree as it is, or has built other
    programs of it."""
    try:
        head, *rows = PASSED.read_text(encoding="utf-8").splitlines()
    except FileNotFoundError:
        raise Refused("the gate has not passed this tree: run .ci/run") from None
    programs = [row for row in rows if row.startswith("built ")]
    then = {path: sum for sum, path in (row.split(" ", 1) for row in rows if row not in programs)}
    now = sums()
    for path in sorted(then.keys() | now.keys()):
        if then.get(path) != now.get(path):
            what = "is gone" if path not in now else "is new" if path not in then else "has changed"
            raise Refused(f"{path} {what} since the gate passed this tree: run .ci/run")
    if programs != built().splitlines():
        raise Refused("the programs are not those that the gate has built: run .ci/run")
    return head.partition(" ")[2], hashlib.sha256(lines_of(now).encode()).hexdigest()
