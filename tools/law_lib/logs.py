"""Logs without ticks and without wrong lines (docs/JUDGE.md), read as histories, and what the law finds in them."""

from __future__ import annotations

import re
from collections.abc import Callable, Iterator, Mapping

from judge_lib.names import Path

from .clauses import LAW
from .histories import Answer, At, Between, Call, History, List, Said, State, Step, after_step

_ESCAPE = re.compile(rb"\\([snr\\])")
_ESCAPED = {b"s": b" ", b"n": b"\n", b"r": b"\r", b"\\": b"\\"}


def findings(log: bytes, law: Mapping[str, Callable[[History], bool]] = LAW) -> list[tuple[int, str]]:
    """Each line, by its number, with each clause that its step breaks: in the order of lines, and of the law."""
    lines = [(number, line.split(b" ")) for number, line in enumerate(log.splitlines(), 1) if line and not line.startswith(b"#")]
    allowed = {words[1].decode() for _, words in lines if words[0] == b"allow"}
    return [(number, clause) for number, h in _histories(lines) for clause, breaks in law.items() if clause not in allowed and breaks(h)]


def _histories(lines: list[tuple[int, list[bytes]]]) -> Iterator[tuple[int, History]]:
    """The history that ends with each step, and the number of its line."""
    history = _beginning([words for _, words in lines])
    for number, (moment, *words) in lines:
        if moment.isdigit():
            history = after_step(history, Step(int(moment), words[0], _call(*words[1:])))
            yield number, history


def _beginning(lines: list[list[bytes]]) -> History:
    names: dict[Path, int] = {}
    stamps: list[int] = []
    for word, *words in lines:
        if word == b"file":
            names[_path(words[0])] = len(stamps)
            stamps.append(int(words[1]))
        if word == b"also":
            names[_path(words[0])] = names[_path(words[1])]
    return History(State(names, tuple(stamps)), 0)


def _call(word: bytes, *words: bytes) -> Call:
    if word == b"list":
        return List(_name(words[0]), words[1].decode(), words[2].decode(), tuple(map(_name, words[3:])))
    if word == b"answer":
        return Answer(_said(*words[:-2]), _name(words[-2]), _name(words[-1]))
    if word in (b"link", b"rename"):
        return Between(word.decode(), _path(words[0]), _path(words[1]), words[2].decode())
    return At(word.decode(), _path(words[0]), words[1].decode())


def _said(word: bytes, *rest: bytes) -> Said:
    flags = frozenset(rest[0].decode().replace("-", "")) if word == b"flags" else None
    return Said(word.decode(), flags, _name(rest[0]) if word == b"moved" else b"")


def _path(word: bytes) -> Path:
    folder, place, name = word.split(b"/", 2)
    return Path(_name(folder), place.decode(), _name(name))


def _name(word: bytes) -> bytes:
    return _ESCAPE.sub(lambda it: _ESCAPED[it[1]], word)
