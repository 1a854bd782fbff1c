"""What mail a run left: which messages, with which bytes, beside what was there before and what a whole run leaves."""

from __future__ import annotations

import os
from typing import Dict, Iterable, List, NamedTuple

from .folders import Folder
from .names import PLACES, Path, unique_of

Mail = Dict[Path, bytes]


def mail_in(folders: Iterable[Folder]) -> Mail:
    """The files of tmp, new and cur, with their bytes."""
    found: Mail = {}
    for folder in folders:
        for place in PLACES:
            directory = os.path.join(folder.directory, place.encode())
            for name in sorted(os.listdir(directory)) if os.path.isdir(directory) else []:
                if os.path.isfile(os.path.join(directory, name)):
                    with open(os.path.join(directory, name), "rb") as file:
                        found[Path(folder.name, place, name)] = file.read()
    return found


class Beside(NamedTuple):
    """The mail before a run, and after a whole one."""

    before: Mail
    whole: Mail

    def lost(self, left: Mail) -> List[str]:
        """The messages of before that a whole run keeps, by their unique names or their bytes, and that are gone."""
        lost = [shown(path, body) for path, body in _messages(self.before).items()
                if _has(self.whole, path, body) and not _has(left, path, body)]
        fewer = min(len(_messages(self.before)), len(_messages(self.whole))) - len(_messages(left))
        return lost or [f"{fewer} messages fewer"] * (fewer > 0)

    def cut(self, left: Mail) -> List[str]:
        """The messages whose bytes nobody meant: they are shorter than each that a whole run brings."""
        known = {*self.before.values(), *_messages(self.whole).values()}
        brought = [len(body) for body in _messages(self.whole).values() if body not in self.before.values()]
        return [shown(path, body) for path, body in _messages(left).items()
                if body not in known and all(len(body) < length for length in brought)]

    def changes(self, left: Mail) -> List[str]:
        """Which paths came, and which went."""
        came = ["has " + shown(path, body) for path, body in left.items() if path not in self.before]
        return came + ["lacks " + shown(path, body) for path, body in self.before.items() if path not in left]

    def doubled(self, left: Mail) -> List[str]:
        """The messages that came, where there are more than a whole run leaves."""
        if len(_messages(left)) <= len(_messages(self.whole)):
            return []
        return [shown(path, body) for path, body in _messages(left).items() if path not in self.before]

    def is_whole(self, left: Mail) -> bool:
        """Whether as many messages are there as after a whole run, and none is lost or cut."""
        return len(_messages(left)) == len(_messages(self.whole)) and not self.lost(left) and not self.cut(left)


def shown(path: Path, body: bytes) -> str:
    """A path, and how many bytes its file has."""
    return f"{path.word().decode('utf-8', 'replace')} ({len(body)} bytes)"


def _messages(mail: Mail) -> Mail:
    return {path: body for path, body in mail.items() if path.is_message()}


def _has(mail: Mail, path: Path, body: bytes) -> bool:
    return any(its == body or other.folder == path.folder and unique_of(other.name) == unique_of(path.name)
               for other, its in _messages(mail).items())
