"""The command line of `tools/package`."""

from __future__ import annotations

import argparse
import os
import re
import subprocess
import sys
import tempfile
from pathlib import Path
from typing import Optional, Sequence

from judge_lib.refused import Refused

from . import debian
from .contents import Entry, below, packed, part, pkg_config, programs, tar
from .tree import TOP, built, passed, state

sys.path.insert(0, str(TOP / "python"))

import backend  # noqa: E402

OUT = TOP / "out/packages"
LIBRARY = TOP / "crates/md_ffi/out/deolmutt"
# The least moment that each kind of package can say.
LEAST_EPOCH = 315_532_800
BESIDE = ("LICENSE-APACHE", "LICENSE-MIT", "SECURITY.md")
ABOUT = """Makes packages of a tree that the gate (.ci/run) has passed: an archive of all for Linux on x86-64, three packages for Debian,
and a wheel for Python. Each says by which prover and of which tree it was proved. A tree that has changed since is refused. Packages of one
tree are the same byte for byte."""


def version() -> str:
    """The version of all, as ./deolmutt --version tells it."""
    found = re.search(r"^version:([^:]*):", (TOP / "launcher/words.txt").read_text(encoding="utf-8"), re.MULTILINE)
    assert found is not None
    return found[1]


def epoch() -> int:
    """The moment that the files of packages have: SOURCE_DATE_EPOCH, or that of the commit."""
    named = os.environ.get("SOURCE_DATE_EPOCH")
    if named is None:
        ran = subprocess.run(["git", "log", "-1", "--format=%ct"], cwd=TOP, capture_output=True, text=True, check=False)
        named = ran.stdout.strip()
    return max(int(named), LEAST_EPOCH) if named.isdigit() else LEAST_EPOCH


def proved_text() -> bytes:
    """What each package says of where it comes from."""
    prover, tree = passed()
    return f"""Deolmutt {version()}
prover: {prover}
tree: {tree}

The gate, .ci/run, proved the tree of this sum and built these files of it. In a clone, `tools/package --tree | sed 1d | sha256sum` prints the
tree's sum. SECURITY.md says what you trust.
""".encode()


def archive(proved: bytes, moment: int, folder: Path) -> Path:
    """An archive of all but what is for Python."""
    stem = f"deolmutt-{version()}"
    notes = {"PROVED": Entry(0o644, proved), **{name: Entry(0o644, (TOP / name).read_bytes()) for name in BESIDE}}
    entries = {**programs(), **part("tools"), **part("shared"), **part("development"), **pkg_config(version()), **notes}
    made = folder / f"{stem}-linux-x86_64.tar.gz"
    made.write_bytes(packed(tar(below(stem, entries), moment)))
    return made


def wheel(proved: bytes, folder: Path) -> Path:
    with tempfile.NamedTemporaryFile() as note:
        note.write(proved)
        note.flush()
        return folder / backend.build_wheel(str(folder), {"library": str(LIBRARY / "libdeolmutt.so.1"), "proved": note.name})


def make(out: Path) -> list[Path]:
    """Makes all packages, and puts them where they belong once they are all there."""
    proved, moment = proved_text(), epoch()
    ran = subprocess.run([TOP / "tools/ffi-build"], stdout=subprocess.DEVNULL, check=False)
    if ran.returncode:
        raise Refused("the library for C was not built")
    out.mkdir(parents=True, exist_ok=True)
    with tempfile.TemporaryDirectory(dir=out) as work:
        folder = Path(work)
        made = [archive(proved, moment, folder), wheel(proved, folder)]
        made += [debian.build(it, version(), proved, moment, folder) for it in debian.packages(version())]
        return [it.rename(out / it.name) for it in made]


def main(words: Optional[Sequence[str]] = None) -> int:
    """Does what the words say, and answers the status."""
    parser = argparse.ArgumentParser(prog="tools/package", description=ABOUT)
    parser.add_argument("--out", type=Path, default=OUT, metavar="DIR", help="where the packages go (out/packages)")
    parser.add_argument("--tree", action="store_true", help="prints the prover and the sum of each file of the tree, and makes nothing")
    parser.add_argument("--built", action="store_true", help="prints the sum of each program that is built, and makes nothing")
    options = parser.parse_args(words)
    # Folders and files have the modes that are said here, whoever makes the packages.
    os.umask(0o022)
    try:
        if options.tree:
            sys.stdout.write(state())
        elif options.built:
            sys.stdout.write(built())
        else:
            for path in make(options.out.resolve()):
                print(f"{path.stat().st_size:>10} {path}")
    except (Refused, OSError) as error:
        print(f"package: {error}", file=sys.stderr)
        return 1
    return 0
