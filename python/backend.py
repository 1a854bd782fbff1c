"""Builds the wheel of the package, with nothing but the standard library (PEP 517 and PEP 427).

A library that lies in the package's folder, or that DEOLMUTT_LIBRARY or the setting `library` names, goes into the wheel, which then is for
this kind of machine alone. Without one the wheel is for any, and is made only where the system has the library, or where `library` is none.
The setting `proved` names a file that says by what the library was proved, and that goes with it.
"""

from __future__ import annotations

import base64
import ctypes
import hashlib
import os
import pathlib
import re
import sysconfig
import tarfile
import zipfile
from typing import Any, Optional

HERE = pathlib.Path(__file__).resolve().parent
PACKAGE = HERE / "deolmutt"
LIBRARY = "libdeolmutt.so"
SONAME = "libdeolmutt.so.1"
LICENCES = ("LICENSE-APACHE", "LICENSE-MIT")
# The least time that a zip file can say: the same tree gives the same wheel.
WHEN = (1980, 1, 1, 0, 0, 0)
NO_LIBRARY = (
    f"deolmutt: there is no {LIBRARY}, so it is not installed. Install the wheel that holds the library; or build the library by"
    " tools/ffi-build in a clone of the repository, and set DEOLMUTT_LIBRARY to the path that it prints; or say"
    " --config-settings library=none, where the library comes later"
)

_Settings = Optional[dict[str, Any]]


def build_wheel(wheel_directory: str, config_settings: _Settings = None, metadata_directory: Optional[str] = None) -> str:
    """Writes the wheel, and answers its name. Where a library is missing, that is said in a line, and none is made."""
    settings = config_settings or {}
    library = _library(settings.get("library"))
    tag = f"py3-none-{_platform(library)}" if library else "py3-none-any"
    files = {**_code(), **_notes(tag, settings.get("proved"))}
    if library:
        files[f"deolmutt/{LIBRARY}"] = library
    record = f"{_stem()}.dist-info/RECORD"
    files[record] = _record(files, record)
    name = f"{_stem()}-{tag}.whl"
    with zipfile.ZipFile(os.path.join(wheel_directory, name), "w", zipfile.ZIP_DEFLATED) as wheel:
        for path, content in files.items():
            entry = zipfile.ZipInfo(path, WHEN)
            entry.external_attr = 0o644 << 16
            wheel.writestr(entry, content, zipfile.ZIP_DEFLATED)
    return name


def build_sdist(sdist_directory: str, config_settings: Optional[dict[str, Any]] = None) -> str:
    """Writes the sources as they are, and answers the name."""
    name = f"{_stem()}.tar.gz"
    with tarfile.open(os.path.join(sdist_directory, name), "w:gz", format=tarfile.PAX_FORMAT) as sources:
        for path in [HERE / "pyproject.toml", HERE / "README.md", HERE / "backend.py", *sorted(PACKAGE.rglob("*.py")), PACKAGE / "py.typed"]:
            sources.add(path, f"{_stem()}/{path.relative_to(HERE)}")
        for path in _licences():
            sources.add(path, f"{_stem()}/{path.name}")
    return name


def _library(named: Optional[str]) -> Optional[bytes]:
    """The library that goes into the wheel, or none where the wheel needs none. Where one is missing, this ends the build with a line."""
    if named == "none":
        return None
    named = named or os.environ.get("DEOLMUTT_LIBRARY")
    path = pathlib.Path(named) if named else PACKAGE / LIBRARY
    if path.is_file():
        return path.read_bytes()
    if named:
        raise SystemExit(f"deolmutt: {named}: no such library")
    try:
        ctypes.CDLL(SONAME)
    except OSError:
        raise SystemExit(NO_LIBRARY) from None
    return None


def _platform(library: bytes) -> str:
    """The kind of machine that the library is for: on Linux by the newest version of glibc that it asks for (PEP 600)."""
    system, _, machine = re.sub("[-.]", "_", sysconfig.get_platform()).partition("_")
    asked = glibc_of(library)
    if system != "linux" or asked is None:
        return f"{system}_{machine}"
    return "manylinux_{}_{}_{}".format(*asked, machine)


def glibc_of(binary: bytes) -> Optional[tuple[int, int]]:
    """The newest version of glibc whose names a program or a library asks for."""
    if not binary.startswith(b"\x7fELF"):
        return None
    return max(((int(major), int(minor)) for major, minor in re.findall(rb"GLIBC_(\d+)\.(\d+)", binary)), default=None)


def _code() -> dict[str, bytes]:
    files = {str(path.relative_to(HERE)): path.read_bytes() for path in sorted(PACKAGE.rglob("*.py"))}
    return {**files, "deolmutt/py.typed": b""}


def _notes(tag: str, proved: Optional[str]) -> dict[str, bytes]:
    """What the wheel says of itself."""
    pure = "true" if tag.endswith("-any") else "false"
    plugins = "".join(f"[{name}]\n{line}\n" for name, line in re.findall(r'^\[project\.entry-points\.(\w+)\]\n(.*)$', _project(), re.M))
    notes = {
        "METADATA": _metadata().encode(),
        "WHEEL": f"Wheel-Version: 1.0\nGenerator: backend\nRoot-Is-Purelib: {pure}\nTag: {tag}\n".encode(),
        "entry_points.txt": plugins.replace('"', "").encode(),
        **{f"licenses/{path.name}": path.read_bytes() for path in _licences()},
    }
    if proved:
        notes["PROVED"] = pathlib.Path(proved).read_bytes()
    return {f"{_stem()}.dist-info/{name}": content for name, content in notes.items()}


def _licences() -> list[pathlib.Path]:
    """The licences, which lie beside this file in the sources as they are packed, and above it in the repository."""
    found = (next((folder / name for folder in (HERE, HERE.parent) if (folder / name).is_file()), None) for name in LICENCES)
    return [path for path in found if path]


def _project() -> str:
    """The project's table, as a text: Python 3.9 has no reader of TOML."""
    return (HERE / "pyproject.toml").read_text(encoding="utf-8")


def _field(name: str) -> str:
    """A text of the project's table."""
    found = re.search(rf'^{name} = "(.*)"$', _project(), re.MULTILINE)
    assert found is not None, name
    return found[1]


def _fields(name: str) -> list[str]:
    """The texts of a list of the project's table."""
    found = re.search(rf"^{name} = \[(.*?)\]", _project(), re.MULTILINE | re.DOTALL)
    assert found is not None, name
    return re.findall(r'"([^"]*)"', found[1])


def _stem() -> str:
    return f"{_field('name')}-{_field('version')}"


def _metadata() -> str:
    names = {"Name": "name", "Version": "version", "Summary": "description", "Requires-Python": "requires-python"}
    lines = [f"{name}: {_field(field)}" for name, field in names.items()]
    lines += [f"License: {_field('license')}", f"Keywords: {','.join(_fields('keywords'))}"]
    lines += [f"Classifier: {classifier}" for classifier in _fields("classifiers")]
    lines += ["Provides-Extra: cluster", *(f'Requires-Dist: {name}; extra == "cluster"' for name in _fields("cluster"))]
    lines += ["Description-Content-Type: text/markdown"]
    readme = (HERE / _field("readme")).read_text(encoding="utf-8")
    return "\n".join(["Metadata-Version: 2.1", *lines, "", readme])


def _record(files: dict[str, bytes], record: str) -> bytes:
    rows = [f"{path},sha256={_digest(content)},{len(content)}" for path, content in files.items()]
    return "\n".join([*rows, f"{record},,", ""]).encode()


def _digest(content: bytes) -> str:
    return base64.urlsafe_b64encode(hashlib.sha256(content).digest()).rstrip(b"=").decode()
