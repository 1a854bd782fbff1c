"""What goes into packages, and how it is written so that the same tree gives the same bytes."""

from __future__ import annotations

import gzip
import io
import tarfile
from pathlib import Path
from typing import Dict, Iterable, NamedTuple

from judge_lib.refused import Refused

from .tree import TOP

PROGRAMS = TOP / "launcher/files.txt"
OTHERS = TOP / "tools/package_lib/files.txt"
# What of a folder is no part of a tool.
NEVER = {".pyc"}


class Entry(NamedTuple):
    """A file of a package, or a link, whose content is where it leads."""

    mode: int
    content: bytes
    is_link: bool = False


Entries = Dict[str, Entry]


def _rows(list_of_files: Path) -> Iterable[list[str]]:
    for line in list_of_files.read_text(encoding="utf-8").splitlines():
        if line and not line.startswith("#"):
            yield line.split()


def _read(path: Path) -> bytes:
    try:
        return path.read_bytes()
    except FileNotFoundError:
        raise Refused(f"{path.relative_to(TOP)} is not there: run .ci/run, which builds it") from None


def _taken(mode: str, source: str, target: str) -> Entries:
    """The entries of a row."""
    if mode == "link":
        return {target: Entry(0o777, source.encode(), is_link=True)}
    path = TOP / source
    if not path.is_dir():
        return {target: Entry(int(mode, 8), _read(path))}
    found = sorted(it for it in path.rglob("*") if it.is_file() and it.suffix not in NEVER)
    return {f"{target}/{it.relative_to(path)}": Entry(int(mode, 8), it.read_bytes()) for it in found}


def programs() -> Entries:
    """The programs with their manual pages and completions."""
    return {path: it for row in _rows(PROGRAMS) for path, it in _taken(*row).items()}


def part(name: str, library_folder: str = "lib") -> Entries:
    """The other files of a part."""
    rows = [row for row in _rows(OTHERS) if row[0] == name]
    return {path: it for _, mode, source, target in rows for path, it in _taken(mode, source, target.replace("LIB", library_folder)).items()}


def pkg_config(version: str, library_folder: str = "lib") -> Entries:
    """The file for pkg-config, which finds the library from its own place."""
    up = "/".join([".."] * (library_folder.count("/") + 2))
    text = f"""prefix=${{pcfiledir}}/{up}
includedir=${{prefix}}/include
libdir=${{prefix}}/{library_folder}

Name: deolmutt
Description: A Maildir store in memory that is proved to lose no mail to a race
Version: {version}
Cflags: -I${{includedir}}
Libs: -L${{libdir}} -ldeolmutt
"""
    return {f"{library_folder}/pkgconfig/deolmutt.pc": Entry(0o644, text.encode())}


def below(folder: str, entries: Entries) -> Entries:
    return {f"{folder}/{path}": it for path, it in entries.items()}


def tar(entries: Entries, epoch: int) -> bytes:
    """A tar file of entries with the folders above them, all of root and of one moment."""
    folders = {str(parent) for path in entries for parent in Path(path).parents} - {"."}
    out = io.BytesIO()
    with tarfile.open(fileobj=out, mode="w", format=tarfile.GNU_FORMAT) as made:
        for path in sorted({*folders, *entries}):
            made.addfile(*_member(path, entries.get(path), epoch))
    return out.getvalue()


def _member(path: str, entry: Entry | None, epoch: int) -> tuple[tarfile.TarInfo, io.BytesIO | None]:
    member = tarfile.TarInfo(path)
    member.mtime, member.uname, member.gname = epoch, "root", "root"
    if entry is None:
        member.type, member.mode = tarfile.DIRTYPE, 0o755
        return member, None
    member.mode = entry.mode
    if entry.is_link:
        member.type, member.linkname = tarfile.SYMTYPE, entry.content.decode()
        return member, None
    member.size = len(entry.content)
    return member, io.BytesIO(entry.content)


def packed(content: bytes) -> bytes:
    """The content as gzip writes it, with no moment in it."""
    return gzip.compress(content, 9, mtime=0)
