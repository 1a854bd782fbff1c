"""The packages for Debian, built by dpkg-deb."""

from __future__ import annotations

import email.utils
import hashlib
import os
import subprocess
import sys
import tempfile
from pathlib import Path
from typing import Dict, NamedTuple

from judge_lib.refused import Refused

from .contents import Entries, Entry, below, packed, part, pkg_config, programs
from .tree import TOP

sys.path.insert(0, str(TOP / "python"))

from backend import SONAME, glibc_of  # noqa: E402

ARCHITECTURE = "amd64"
LIBRARIES = "lib/x86_64-linux-gnu"
MAINTAINER = "Deolmutt maintainers <maintainers@users.noreply.deolmutt.example>"
ABOUT = """ The store follows maildir(5). It is proved, for every order of the directory
 calls of its jobs, that no mail and no flag is lost to a race between them.
"""
SHLIBS = "libdeolmutt 1 libdeolmutt1\n"
TRIGGERS = "activate-noawait ldconfig\n"


class Package(NamedTuple):
    """A package by its name: what it holds, what it needs, and what is said of it."""

    name: str
    section: str
    entries: Entries
    needs: list[str]
    title: str
    control: Dict[str, str] = {}


def packages(version: str) -> list[Package]:
    """The three packages of a version."""
    library = part("shared", LIBRARIES)
    program = {**programs(), **part("tools")}
    development = {**part("development", LIBRARIES), **pkg_config(version, LIBRARIES)}
    return [
        Package("deolmutt", "mail", program, [_libc(program), "python3", "strace"], "proved jobs on maildirs, and a judge of mail programs"),
        Package("libdeolmutt1", "libs", library, [_libc(library)], "Maildir store in memory, proved",
                {"shlibs": SHLIBS, "symbols": _symbols(library, version), "triggers": TRIGGERS}),
        Package("libdeolmutt-dev", "libdevel", development, [f"libdeolmutt1 (= {version})"],
                "Maildir store in memory, proved (development files)"),
    ]  # fmt: skip


def _symbols(entries: Entries, version: str) -> str:
    """The names of the library with their versions, by which dpkg knows what a program asks for."""
    with tempfile.NamedTemporaryFile() as file:
        file.write(entries[f"{LIBRARIES}/{SONAME}"].content)
        file.flush()
        words = ["nm", "--dynamic", "--defined-only", "--with-symbol-versions", file.name]
        printed = subprocess.run(words, capture_output=True, text=True, check=True).stdout
    found = [line.split()[-1].split("@@") for line in printed.splitlines()]
    # A version is a name too, which has itself for a version.
    names = sorted(f"{it[0]}@{it[-1]}" for it in found)
    head = f"{SONAME} libdeolmutt1 #MINVER#\n* Build-Depends-Package: libdeolmutt-dev\n"
    return head + "".join(f" {name} {version}\n" for name in names)


def _libc(entries: Entries) -> str:
    """The C library that these files ask for."""
    asked = [asked for it in entries.values() if (asked := glibc_of(it.content))]
    return "libc6 (>= {}.{})".format(*max(asked)) if asked else "libc6"


def build(package: Package, version: str, proved: bytes, epoch: int, folder: Path) -> Path:
    """Builds a package in a folder, and answers where it is."""
    entries = below("usr", {**_debian_way(package.entries), **_documents(package.name, version, proved, epoch)})
    control = {"control": _control(package, version, entries), "md5sums": _sums(entries), **package.control}
    made = folder / f"{package.name}_{version}_{ARCHITECTURE}.deb"
    with tempfile.TemporaryDirectory() as work:
        _stage(Path(work), {**entries, **{f"DEBIAN/{name}": Entry(0o644, text.encode()) for name, text in control.items()}}, epoch)
        words = ["dpkg-deb", "--root-owner-group", "-Zxz", "--build", work, str(made)]
        ran = subprocess.run(words, env={**os.environ, "SOURCE_DATE_EPOCH": str(epoch)}, capture_output=True, text=True, check=False)
    if ran.returncode:
        raise Refused(ran.stderr.strip().rpartition("\n")[2])
    return made


def _debian_way(entries: Entries) -> Entries:
    """Manual pages are packed, and what is for the linker alone is left out of programs and libraries."""
    pages = {path for path in entries if path.startswith("share/man/")}
    plain = {path: _stripped(it) for path, it in entries.items() if path not in pages}
    return {**plain, **{f"{path}.gz": _packed_page(entries[path]) for path in pages}}


def _packed_page(page: Entry) -> Entry:
    """A manual page as Debian has it, or a link to one."""
    return page._replace(content=page.content + b".gz" if page.is_link else packed(page.content))


# What is stripped, by how it begins, and of what.
STRIPPED = {
    b"\x7fELF": ("--strip-unneeded",),
    b"!<arch>\n": ("--strip-debug", "--enable-deterministic-archives"),
}


def _stripped(entry: Entry) -> Entry:
    how = next((how for start, how in STRIPPED.items() if entry.content.startswith(start)), None)
    if how is None:
        return entry
    with tempfile.TemporaryDirectory() as work:
        path = Path(work) / "file"
        path.write_bytes(entry.content)
        subprocess.run(["strip", *how, "--remove-section=.comment", str(path)], check=True)
        return entry._replace(content=path.read_bytes())


def _documents(name: str, version: str, proved: bytes, epoch: int) -> Entries:
    when = email.utils.formatdate(epoch)
    changes = f"deolmutt ({version}) unstable; urgency=medium\n\n  * CHANGELOG.md of the sources says what changed.\n\n -- {MAINTAINER}  {when}\n"
    texts = {
        "copyright": _copyright(),
        "changelog.gz": packed(changes.encode()),
        "PROVED": proved,
        "SECURITY.md": (TOP / "SECURITY.md").read_bytes(),
    }
    return {f"share/doc/{name}/{path}": Entry(0o644, text) for path, text in texts.items()}


def _copyright() -> bytes:
    _, _, holder, _, *terms = (TOP / "LICENSE-MIT").read_text(encoding="utf-8").strip().splitlines()
    text = "\n".join(f" {line or '.'}" for line in terms)
    return f"""Format: https://www.debian.org/doc/packaging-manuals/copyright-format/1.0/
Upstream-Name: Deolmutt

Files: *
Copyright: {holder.partition(")")[2].strip()}
License: Expat or Apache-2.0

License: Expat
{text}

License: Apache-2.0
 On Debian the text of this licence is in /usr/share/common-licenses/Apache-2.0.
""".encode()


def _control(package: Package, version: str, entries: Entries) -> str:
    size = sum(len(it.content) for it in entries.values()) // 1024 + 1
    multi = "Multi-Arch: same\n" if package.name.startswith("lib") else ""
    return f"""Package: {package.name}
Version: {version}
Architecture: {ARCHITECTURE}
Maintainer: {MAINTAINER}
Installed-Size: {size}
Depends: {', '.join(package.needs)}
Section: {package.section}
Priority: optional
{multi}Description: {package.title}
{ABOUT}"""


def _sums(entries: Entries) -> str:
    return "".join(f"{hashlib.md5(it.content).hexdigest()}  {path}\n" for path, it in sorted(entries.items()) if not it.is_link)


def _stage(folder: Path, entries: Entries, epoch: int) -> None:
    """Writes entries into a folder, each with one moment."""
    folder.chmod(0o755)
    for path, entry in entries.items():
        target = folder / path
        target.parent.mkdir(parents=True, exist_ok=True)
        if entry.is_link:
            target.symlink_to(entry.content.decode())
        else:
            target.write_bytes(entry.content)
            target.chmod(entry.mode)
    for path in [folder, *folder.rglob("*")]:
        os.utime(path, (epoch, epoch), follow_symlinks=False)
