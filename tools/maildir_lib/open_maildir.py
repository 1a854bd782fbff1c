"""A maildir below a directory that is open.

No symbolic link on the way is followed, so no script leads out of the tree.
"""

from __future__ import annotations

import os
from contextlib import suppress
from typing import Optional

from .descriptors import let_go, sync_directory
from .folder_names import Steps
from .language import PLACES

_OPEN = os.O_RDONLY | os.O_DIRECTORY | os.O_NOFOLLOW | os.O_CLOEXEC


class OpenMaildir:
    """The three directories of a maildir. Some may be lacking where it is only looked at."""

    def __init__(self, tree: int, steps: Steps, is_to_be_made: bool) -> None:
        """Opens the directories, and makes those that aren't there where that is asked for."""
        self._is_to_be_made = is_to_be_made
        # The descriptor of each directory.
        self.places: dict[bytes, int] = {}
        # Whether some of it wasn't there.
        self.is_new = False
        directory: Optional[int] = os.dup(tree)
        try:
            for step in steps:
                directory = self._step(directory, step)
            for place in PLACES:
                descriptor = self._open(directory, place)
                if descriptor is not None:
                    self.places[place] = descriptor
        except BaseException:
            self.close()
            raise
        finally:
            if directory is not None:
                let_go(directory)

    def _step(self, directory: Optional[int], step: bytes) -> Optional[int]:
        """Goes down to a directory, and lets the one above it go."""
        below = self._open(directory, step)
        if directory is not None:
            let_go(directory)
        return below

    def _open(self, directory: Optional[int], name: bytes) -> Optional[int]:
        if directory is None:
            return None
        if self._is_to_be_made:
            self._make(directory, name)
        try:
            return os.open(name, _OPEN, dir_fd=directory)
        except FileNotFoundError:
            if self._is_to_be_made:
                raise
            self.is_new = True
            return None

    def _make(self, directory: int, name: bytes) -> None:
        with suppress(FileExistsError):
            os.mkdir(name, 0o700, dir_fd=directory)
            self.is_new = True
            sync_directory(directory)

    def has(self, place: bytes, name: bytes) -> bool:
        """Whether a name is there, whatever it names."""
        if place not in self.places:
            return False
        try:
            os.stat(name, dir_fd=self.places[place], follow_symlinks=False)
        except FileNotFoundError:
            return False
        return True

    def sync(self) -> None:
        """Writes the names to the disk."""
        for descriptor in self.places.values():
            sync_directory(descriptor)

    def close(self) -> None:
        """Lets the directories go."""
        while self.places:
            let_go(self.places.popitem()[1])
