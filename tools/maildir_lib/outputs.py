"""Where the scripts of an import go: a directory, a file, standard output, or nowhere."""

from __future__ import annotations

import os
import re
import secrets
import select
from contextlib import suppress
from typing import Callable, Generic, TypeVar

from .descriptors import let_go, sync_directory, write_all
from .drafts import Draft, NamedDraft, SpooledDraft
from .interrupts import Interrupts, held
from .placing import place
from .refused import Refused, refusing
from .shown import shown

D = TypeVar("D", bound=Draft)


class Output(Generic[D]):
    """The drafts of the scripts. They come to their places together, once all are written."""

    def __init__(self) -> None:
        self.drafts: list[D] = []

    def check(self) -> None:
        """Refuses a place where no script can be put, before anything is read."""

    def begin(self, why: str) -> D:
        """A draft for the next script, and why the one before it, if any, isn't enough."""
        with held():
            draft = self._new_draft()
            self.drafts.append(draft)
        return draft

    def _new_draft(self) -> D:
        raise NotImplementedError

    def seal(self, head: Callable[[int, int], bytes]) -> None:
        """Writes the head of each script by its number and the number of all."""
        for number, draft in enumerate(self.drafts, 1):
            draft.seal(head(number, len(self.drafts)))

    def publish(self) -> None:
        """Puts the scripts at their places."""

    def discard(self) -> None:
        """Takes away all that isn't at its place."""
        for draft in self.drafts:
            draft.discard()


class _SingleOutput(Output[D]):
    """A place for one script alone."""

    def begin(self, why: str) -> D:
        if self.drafts:
            raise Refused(f"one script can't hold this tree: {why}; --into DIR writes several")
        return super().begin(why)


class Nowhere(Output[Draft]):
    """The output of a dry run, with several scripts where a directory for them was named."""

    def _new_draft(self) -> Draft:
        return Draft()


class ToStream(_SingleOutput[SpooledDraft]):
    """Standard output. Nothing is written to it before the script is whole."""

    def __init__(self, descriptor: int, interrupts: Interrupts) -> None:
        super().__init__()
        self._descriptor = descriptor
        self._interrupts = interrupts

    def _new_draft(self) -> SpooledDraft:
        with refusing("no temporary file can be made"):
            return SpooledDraft()

    def publish(self) -> None:
        with refusing("standard output: can't be written"):
            for draft in self.drafts:
                while piece := draft.file.read(select.PIPE_BUF):
                    # So many bytes don't wait once there is room.
                    self._interrupts.wait(self._descriptor, select.POLLOUT)
                    write_all(self._descriptor, piece)


class ToFile(_SingleOutput[NamedDraft]):
    """A file, which is replaced where it is there."""

    def __init__(self, path: bytes) -> None:
        super().__init__()
        self._path = os.path.realpath(path)

    def check(self) -> None:
        if os.path.lexists(self._path) and not os.path.isfile(self._path):
            raise Refused(f"{shown(self._path)}: is no file; to write to a pipe or a device, leave -o out")

    def _new_draft(self) -> NamedDraft:
        return NamedDraft(_temporary_name(os.path.dirname(self._path), os.path.basename(self._path)))

    def publish(self) -> None:
        for draft in self.drafts:
            with refusing(f"{shown(self._path)}: can't be put in place"):
                os.rename(draft.path, self._path)
            # Where this fails, a crash may bring back the old file, which is whole too.
            with suppress(Refused):
                _sync(os.path.dirname(self._path))


class IntoDirectory(Output[NamedDraft]):
    """A directory, which is made where it isn't there. No script may be in it."""

    def __init__(self, directory: bytes) -> None:
        super().__init__()
        self._directory = directory
        self._is_made = False

    def check(self) -> None:
        with refusing(shown(self._directory)):
            try:
                names = os.listdir(self._directory)
            except FileNotFoundError:
                return
        former = [name for name in names if re.fullmatch(rb"[0-9]{3,}\.script", name)]
        if former:
            raise Refused(f"{shown(self._directory)}: has {shown(min(former))} already")

    def _new_draft(self) -> NamedDraft:
        self._make_directory()
        return NamedDraft(_temporary_name(self._directory, b"%03d.script" % (len(self.drafts) + 1)))

    def _make_directory(self) -> None:
        if os.path.isdir(self._directory):
            return
        with refusing(f"{shown(self._directory)}: can't be made"):
            os.mkdir(self._directory, 0o700)
        self._is_made = True

    def publish(self) -> None:
        placed: list[bytes] = []
        with held():
            try:
                self._place_all(placed)
                _sync(self._directory)
            except BaseException:
                # Some of the scripts alone would be taken for all of them.
                for path in placed:
                    with suppress(OSError):
                        os.unlink(path)
                raise

    def _place_all(self, placed: list[bytes]) -> None:
        digits = max(3, len(str(len(self.drafts))))
        for number, draft in enumerate(self.drafts, 1):
            path = os.path.join(self._directory, b"%0*d.script" % (digits, number))
            with refusing(f"{shown(path)}: can't be put in place"):
                place(draft.path, path)
            placed.append(path)

    def discard(self) -> None:
        super().discard()
        if self._is_made:
            # It stays where scripts are in it.
            with suppress(OSError):
                os.rmdir(self._directory)


def _temporary_name(directory: bytes, name: bytes) -> bytes:
    """A name that no other run takes, hidden beside the one that the file gets."""
    return os.path.join(directory, b".%b.%b.part" % (name[:200], secrets.token_hex(8).encode()))


def _sync(directory: bytes) -> None:
    with refusing(f"{shown(directory)}: can't be flushed to the disk"):
        descriptor = os.open(directory, os.O_RDONLY | os.O_DIRECTORY | os.O_CLOEXEC)
        try:
            sync_directory(descriptor)
        finally:
            let_go(descriptor)
