"""Snapshots on a disk: a file of lines for each store, and a manifest that names them.

A file is written under a name that no earlier snapshot has, flushed, and renamed to its place, and the
manifest comes last. So a snapshot that is cut off leaves the one before it whole.
"""

from __future__ import annotations

import hashlib
import json
import os
from dataclasses import asdict, dataclass
from typing import Any, Dict, Iterable, List, Tuple

from .._running import flush_directory
from .errors import BadSnapshot, MissingShard, NoSnapshot, OtherVersion, WrongChecksum

VERSION = 1
# What begins the names of the stores' files.
PREFIX = "shard-"
_MANIFEST = "manifest.json"
_SAYS = "Each shard is as it was at one moment of its own. No moment is that of all shards."


@dataclass(frozen=True)
class Part:
    """A store's file: its `folder` and `file` lines, and the users whose folders these are, in order."""

    file: str
    size: int
    messages: int
    sha256: str
    users: List[str]


@dataclass(frozen=True)
class ShardPart:
    """A shard's stores, and the second since 1970 in which they were written."""

    shard: int
    moment: int
    stores: List[Part]


@dataclass(frozen=True)
class Manifest:
    """What a snapshot is of: the names of each user's folders, and the shards in order."""

    folders: List[str]
    shards: List[ShardPart]

    def write(self, folder: str) -> None:
        """Puts the manifest into its place."""
        count = sum(store.messages for part in self.shards for store in part.stores)
        said = {"version": VERSION, "says": _SAYS, "messages": count, **asdict(self)}
        write_durably(folder, _MANIFEST, [json.dumps(said, indent=1).encode()])

    def files(self) -> List[str]:
        """The names of all files of the snapshot."""
        return [_MANIFEST, *(store.file for part in self.shards for store in part.stores)]


def read_manifest(folder: str) -> Manifest:
    """The manifest of a folder. Refused: `NoSnapshot`, `OtherVersion`, `MissingShard`, `BadSnapshot`."""
    try:
        with open(os.path.join(folder, _MANIFEST), "rb") as file:
            said = json.load(file)
    except FileNotFoundError:
        raise NoSnapshot(f"{folder} has no {_MANIFEST}") from None
    except ValueError as error:
        raise BadSnapshot(f"the {_MANIFEST} of {folder} is no JSON: {error}") from None
    if not isinstance(said, dict) or said.get("version") != VERSION:
        version = said.get("version") if isinstance(said, dict) else said
        raise OtherVersion(f"the snapshot in {folder} is of version {version}, and {VERSION} is needed")
    try:
        manifest = Manifest(said["folders"], [_shard_part(part) for part in said["shards"]])
    except (KeyError, TypeError) as error:
        raise BadSnapshot(f"the {_MANIFEST} of {folder} lacks something: {error}") from None
    _check_whole(folder, manifest)
    return manifest


def _shard_part(said: Dict[str, Any]) -> ShardPart:
    return ShardPart(said["shard"], said["moment"], [Part(**store) for store in said["stores"]])


def _check_whole(folder: str, manifest: Manifest) -> None:
    numbers = [part.shard for part in manifest.shards]
    if not numbers or numbers != list(range(len(numbers))):
        raise MissingShard(f"the snapshot in {folder} has the shards {numbers}, which are not all from 0")
    for name in manifest.files():
        if os.path.basename(name) != name or not os.path.isfile(os.path.join(folder, name)):
            raise MissingShard(f"{folder} lacks the file {name} of its manifest")


def read_part(folder: str, part: Part) -> bytes:
    """The lines of a store's file. Refused: `MissingShard`, `WrongChecksum`."""
    path = os.path.join(folder, part.file)
    try:
        with open(path, "rb") as file:
            lines = file.read()
    except FileNotFoundError:
        raise MissingShard(f"{path} is not there") from None
    if (len(lines), hashlib.sha256(lines).hexdigest()) != (part.size, part.sha256):
        raise WrongChecksum(f"{path} is not as the manifest says")
    return lines


def write_durably(folder: str, name: str, lines: Iterable[bytes]) -> Tuple[int, str]:
    """Writes a file beside its place, flushes it and renames it; answers its size and SHA-256."""
    path = os.path.join(folder, name)
    fresh = f"{path}.tmp"
    size, digest = 0, hashlib.sha256()
    with open(fresh, "wb") as out:
        for line in lines:
            out.write(line)
            size += len(line)
            digest.update(line)
        out.flush()
        os.fsync(out.fileno())
    os.replace(fresh, path)
    flush_directory(folder)
    return size, digest.hexdigest()


def remove_others(folder: str, manifest: Manifest) -> None:
    """Removes what earlier snapshots, or ones that were cut off, have left in a folder."""
    kept = set(manifest.files())
    for name in os.listdir(folder):
        if name not in kept and name.startswith(PREFIX):
            os.unlink(os.path.join(folder, name))
