"""Small scenes: what is there, the calls of our jobs, the paths that others may name, and how often twelve hours may pass."""

from __future__ import annotations

from typing import NamedTuple

from judge_lib.names import Path

from .calls import Call
from .worlds import World, world_of

S, F = frozenset("S"), frozenset("F")


class Scene(NamedTuple):
    """A scene by its words. Each file that is there was last written to at 0."""

    image: str
    calls: list[Call]
    paths: str
    now: int = 0
    ticks: int = 0

    def world(self) -> World:
        return world_of([(path_of(word), 0) for word in self.image.split()], self.now)

    def names(self) -> list[Path]:
        return [path_of(word) for word in self.paths.split()]


def path_of(word: str) -> Path:
    folder, place, name = word.split("/")
    return Path(folder.encode(), place, name.encode())


def _deliver(body: bytes) -> Call:
    return Call("deliver", b"a", b"u", body=body)


def _seen(unique: bytes, tries: int) -> Call:
    return Call("seen", b"a", unique, tries, add=S)


def _flag(flags: frozenset[str]) -> Call:
    return Call("flag", b"a", b"u", 2, add=flags)


def _move(tries: int, folder: bytes = b"a", to: bytes = b"b") -> Call:
    return Call("move", folder, b"u", tries, to=to)


def _copy(tries: int, to: bytes, fresh: bytes = b"w") -> Call:
    return Call("copy", b"a", b"u", tries, to=to, fresh=fresh)


_CLEAN = Call("clean", b"a")
_DELIVERED = "a/tmp/u a/tmp/v a/new/u a/new/v a/cur/u:2,T"

# In the last one a clean of ours may take a delivery's file, so that it has more states than all others.
SCENES = {
    "deliver": Scene("", [_deliver(b"xy")], _DELIVERED + " a/cur/v:2,T b/new/u"),
    "deliver1": Scene("", [_deliver(b"x")], _DELIVERED + " a/cur/u:2,ST"),
    "deliver0": Scene("", [_deliver(b"")], _DELIVERED + " b/new/u b/cur/u:2,T"),
    "seen": Scene("a/new/u", [_seen(b"u", 2)], "a/tmp/u a/new/u a/new/v a/cur/u:2,S a/cur/u:2,T b/new/u"),
    "flag": Scene("a/cur/u:2,T", [_flag(S)], "a/tmp/u a/new/u a/cur/u:2,T a/cur/u:2,ST a/cur/u b/cur/u:2,T"),
    "move": Scene("a/new/u", [_move(2)], "a/tmp/v a/new/u a/cur/u:2,T b/tmp/v b/new/u b/cur/u:2,T"),
    "movecur": Scene("a/cur/u:2,S", [_move(1)], "a/tmp/v a/new/u a/cur/u:2,S a/cur/u:2,T b/cur/u:2,S b/new/u b/cur/u:2,T"),
    "copy": Scene("a/new/u", [_copy(2, b"b")], "a/tmp/v a/new/u a/cur/u:2,T b/new/w b/cur/w:2,T b/new/u"),
    "copycur": Scene("a/cur/u:2,S", [_copy(1, b"a")], "a/tmp/v a/new/u a/cur/u:2,S a/cur/u:2,T a/new/w a/cur/w:2,S b/new/u"),
    "expunge": Scene("a/cur/u:2,T", [Call("expunge", b"a", b"u", 2)], "a/tmp/v a/new/u a/cur/u:2,T a/cur/u:2,S a/cur/u b/cur/u:2,T"),
    "clean": Scene("a/tmp/x a/tmp/y", [_CLEAN], "a/tmp/x a/tmp/y a/new/x a/new/v", now=129600),
    "cleanmade": Scene("", [_CLEAN], "a/tmp/x a/new/x", ticks=4),
    "moveused": Scene("b/cur/u:2,T", [_move(1)], "a/tmp/v a/new/u b/cur/u:2,T b/tmp/v"),
    "copymade": Scene("", [_copy(1, b"b")], "a/tmp/u a/new/u a/cur/u:2,T"),
    "movemove": Scene("a/new/u", [_move(1), _move(1, b"b", b"a")], "a/new/u b/new/u a/cur/u:2,T b/cur/u:2,T a/tmp/v"),
    "flagflag": Scene("a/cur/u:2,", [_flag(S), _flag(F)], "a/cur/u:2, a/cur/u:2,F a/cur/u:2,T b/cur/u:2,"),
    "copymove": Scene("a/new/u", [_copy(1, b"a", b"v"), _seen(b"v", 1), _move(1)], ""),
    "deliverclean": Scene("", [_deliver(b"x"), _CLEAN], "a/tmp/u a/new/u a/tmp/v", ticks=4),
}
