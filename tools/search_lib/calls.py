"""Calls, their answers, and what each does alone on a mailbox: md_core's Mailbox and Alone."""

from __future__ import annotations

from collections.abc import Mapping
from typing import NamedTuple, Optional

from judge_lib.names import PLACES, Path, flags_of, unique_of
from law_lib.monitor import is_message

NO_FLAGS: frozenset[str] = frozenset()


class Call(NamedTuple):
    """A call of a kind: deliver, seen, flag, move, copy, expunge or clean. A Seen adds flags, a Copy makes a fresh name."""

    kind: str
    folder: bytes
    unique: bytes = b""
    tries: int = 1
    add: frozenset[str] = NO_FLAGS
    remove: frozenset[str] = NO_FLAGS
    to: bytes = b""
    fresh: bytes = b""
    body: bytes = b""
    chunk: int = 1

    def made(self) -> Optional[bytes]:
        """The unique name of the message that the call makes."""
        return {"deliver": self.unique, "copy": self.fresh}.get(self.kind)

    def looks_in_both(self) -> bool:
        return self.kind in ("move", "copy")


class Answer(NamedTuple):
    """What a job answers: a word, of Flags the flags, and of Cleaned how many files."""

    word: str
    flags: Optional[frozenset[str]] = None
    files: Optional[int] = None

    def is_success(self) -> bool:
        return self.word in ("Delivered", "Flags", "Moved", "Copied", "Expunged")

    def __str__(self) -> str:
        if self.files is not None:
            return f"{self.word} {self.files}"
        return self.word if self.flags is None else f"{self.word} {letters(self.flags) or '-'}"


class Entry(NamedTuple):
    """A message of a mailbox. Its info begins with the colon, where its name has one."""

    folder: bytes
    place: str
    info: bytes
    body: bytes


Mailbox = Mapping[bytes, Entry]


def letters(flags: frozenset[str]) -> str:
    return "".join(sorted(flags))


def flagged(unique: bytes, flags: frozenset[str]) -> bytes:
    return b"%s:2,%s" % (unique, letters(flags).encode())


def mailbox_of(names: Mapping[Path, int], files: tuple[bytes, ...]) -> Mailbox:
    """The messages; of one with two paths the first in the order of folders, places and names."""
    there = [(p, n) for p, n in names.items() if is_message(p)]
    if len({unique_of(p.name) for p, _ in there}) < len(there):
        there.sort(key=lambda each: (each[0].folder, PLACES.index(each[0].place), each[0].name), reverse=True)
    return {unique_of(p.name): Entry(p.folder, p.place, p.name[len(unique_of(p.name)) :], files[n]) for p, n in there}


def wanted(call: Call, had: frozenset[str]) -> frozenset[str]:
    """The flags that a message with these gets."""
    return (had | call.add) - call.remove


def alone(call: Call, box: Mailbox) -> tuple[Answer, Mailbox]:
    """What the call answers if nothing else runs, and the mailbox after it."""
    if call.kind == "clean":
        return Answer("Cleaned"), box
    entry = box.get(call.unique)
    if call.kind == "deliver":
        if entry is not None:
            return Answer("NameTaken"), box
        return Answer("Delivered"), {**box, call.unique: Entry(call.folder, "new", b"", call.body)}
    if entry is None or entry.folder != call.folder or entry.place not in places(call):
        return Answer("NotThere"), box
    return errand_alone(call, box, entry, flags_of(b"u" + entry.info))


def places(call: Call) -> tuple[str, ...]:
    """Where an errand looks, in this order."""
    return {"seen": ("new",), "flag": ("cur",), "expunge": ("cur",)}.get(call.kind, ("new", "cur"))


def errand_alone(call: Call, box: Mailbox, entry: Entry, had: Optional[frozenset[str]]) -> tuple[Answer, Mailbox]:
    if call.kind == "move":
        return Answer("Moved"), {**box, call.unique: entry._replace(folder=call.to)}
    if call.kind == "expunge":
        if had is None or "T" not in had:
            return Answer("NotTrashed"), box
        return Answer("Expunged"), {unique: other for unique, other in box.items() if unique != call.unique}
    if had is None:
        return Answer("OtherInfo"), box
    if call.kind == "copy":
        if call.fresh in box:
            return Answer("NameTaken"), box
        return Answer("Copied"), {**box, call.fresh: Entry(call.to, entry.place, entry.info and flagged(b"", had), entry.body)}
    flags = wanted(call, had)
    if call.kind == "flag" and flags == had:
        return Answer("Flags", flags), box
    return Answer("Flags", flags), {**box, call.unique: Entry(entry.folder, "cur", flagged(b"", flags), entry.body)}
