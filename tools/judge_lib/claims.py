"""What a command's status claims: the answers of its actor."""

from __future__ import annotations

import re
from typing import Callable, Dict, FrozenSet, Iterator, List, NamedTuple, Optional, Set, Tuple

from .directories import Change, Directories
from .names import Path, escaped, flags_of, unique_of
from .refused import Refused
from .steps import Line, When

_CHANGE = re.compile(r"([+-])([A-Za-z]+)|=([A-Za-z]*)")
_WORDS = {"delivered": (1, 2), "flags": (3, 9), "moved": (3, 3), "expunged": (2, 2), "done": (2, 2)}


class Claim(NamedTuple):
    """What status 0 claims of a message. `unique` is None for whatever message was delivered."""

    word: str
    folder: bytes
    unique: Optional[bytes]
    to: bytes = b""
    added: FrozenSet[str] = frozenset()
    removed: FrozenSet[str] = frozenset()
    exactly: Optional[FrozenSet[str]] = None
    actor: Optional[str] = None


def read_claim(text: str) -> Claim:
    """Reads `[ACTOR:] WORD ..`, as `--claims` has it."""
    words = text.split()
    actor = words.pop(0)[:-1] if words and words[0].endswith(":") else None
    word, rest = words[0] if words else "", words[1:]
    least, most = _WORDS.get(word, (1, 0))
    if not least <= len(rest) <= most:
        raise Refused(f"--claims {text}: is none of: delivered FOLDER [UNIQUE]; flags FOLDER UNIQUE CHANGE..; moved TO FOLDER UNIQUE; "
                      "expunged FOLDER UNIQUE; done FOLDER UNIQUE")
    names = [name.encode("utf-8", "surrogateescape") for name in rest]
    if word == "moved":
        return Claim(word, names[1], names[2], to=names[0], actor=actor)
    claim = Claim(word, names[0], names[1] if len(names) > 1 else None, actor=actor)
    return _with_changes(claim, rest[2:], text) if word == "flags" else claim


def _with_changes(claim: Claim, changes: List[str], text: str) -> Claim:
    for change in changes:
        found = _CHANGE.fullmatch(change)
        if found is None:
            raise Refused(f"--claims {text}: {change} is none of +LETTERS, -LETTERS and =LETTERS")
        if found[1] == "+":
            claim = claim._replace(added=claim.added | set(found[2]))
        elif found[1] == "-":
            claim = claim._replace(removed=claim.removed | set(found[2]))
        else:
            claim = claim._replace(exactly=frozenset(found[3]))
    return claim


def read_claims(texts: List[str]) -> Dict[Optional[str], List[Claim]]:
    """The claims of all actors; those of no actor are the command's."""
    claims: Dict[Optional[str], List[Claim]] = {}
    for text in texts:
        claim = read_claim(text)
        claims.setdefault(claim.actor, []).append(claim)
    return claims


def check_claims(claims: Dict[Optional[str], List[Claim]], folders: List[bytes]) -> None:
    """Refuses claims about folders that are none of the judged ones."""
    for claim in (claim for those in claims.values() for claim in those):
        for folder in filter(None, (claim.folder, claim.to)):
            if folder not in folders:
                there = b" ".join(map(escaped, folders)).decode("utf-8", "replace")
                raise Refused(f"--claims {claim.word}: no judged folder is {folder.decode('utf-8', 'replace')}: they are {there}")


class Seen(NamedTuple):
    """What was seen of a claim's message up to a moment, in so many words as its answer needs."""

    # Its paths in cur.
    there: Tuple[Path, ...]
    has_begun: bool = False
    # Of all flags that it had since the actor began, the last that are as claimed, and the last.
    meant: Optional[FrozenSet[str]] = None
    last: FrozenSet[str] = frozenset()
    # The unique names that the actor added to the folder since it was settled, and the last file that it made in tmp.
    added: Tuple[bytes, ...] = ()
    made: bytes = b""


class Claims:
    """The claims of all actors. Those of no actor are the first process's, whose actor `first` gives."""

    def __init__(self, claims: Dict[Optional[str], List[Claim]], beginning: Tuple[Path, ...], first: Callable[[], Optional[str]]) -> None:
        self._claims, self._first = [claim for each in claims.values() for claim in each], first
        self._seen = [Seen(tuple(path for path in beginning if _is_in_cur(claim, path))) for claim in self._claims]
        self._added: List[Dict[bytes, None]] = [{} for _ in self._claims]
        self._making = {claim.folder: b"create " + escaped(claim.folder) + b"/tmp/" for claim in self._claims}
        self._heard: Set[Optional[str]] = set()

    def settle(self, directories: Directories) -> None:
        """Learns what the directories have been told, for good."""
        for at, claim in enumerate(self._claims):
            seen = self._learnt(claim, self._seen[at], directories)
            self._added[at].update(dict.fromkeys(seen.added))
            self._seen[at] = seen._replace(added=()) if seen.added else seen

    def lines(self, directories: Directories, when: When, status: Optional[int], is_first: bool) -> Iterator[Line]:
        """The answers of an actor whose command ends now."""
        for claim, seen, added in zip(self._claims, self._seen, self._added):
            if claim.actor == when.actor or claim.actor is None and is_first:
                self._heard.add(claim.actor)
                seen = self._learnt(claim, seen, directories)
                # An actor that made no call in a judged folder begins as it answers.
                seen = seen if seen.has_begun else _with_flags(claim, seen._replace(has_begun=True))
                uniques = [claim.unique] if claim.unique is not None else list(dict.fromkeys([*added, *seen.added]))
                yield from _answers(claim, seen, uniques, when, status)

    def unheard(self) -> List[str]:
        """The actors that were to claim something, and never ended."""
        return sorted({claim.actor or "the command" for claim in self._claims if claim.actor not in self._heard})

    def _learnt(self, claim: Claim, seen: Seen, directories: Directories) -> Seen:
        actor, changes = claim.actor or self._first(), iter(directories.changes)
        change = next(changes, None)
        for number, line in enumerate(directories.told):
            if line.actor == actor and not seen.has_begun:
                seen = _with_flags(claim, seen._replace(has_begun=True))
            if line.actor == actor and line.text.startswith(self._making[claim.folder]):
                seen = seen._replace(made=line.text[len(self._making[claim.folder]):].split(b" ")[0])
            # A step's comment, which is nobody's, comes before its lines.
            while change is not None and change.lines <= number and line.actor is not None:
                seen = _changed(claim, seen, change, line.actor == actor)
                change = next(changes, None)
        return seen


def _changed(claim: Claim, seen: Seen, change: Change, is_own: bool) -> Seen:
    path = change.path
    if is_own and change.is_there and path.folder == claim.folder and path.is_message() and claim.word == "delivered":
        seen = seen._replace(added=(*seen.added, unique_of(path.name)))
    if not _is_in_cur(claim, path):
        return seen
    there = (*seen.there, path) if change.is_there else tuple(each for each in seen.there if each != path)
    return _with_flags(claim, seen._replace(there=there))


def _with_flags(claim: Claim, seen: Seen) -> Seen:
    """The flags that the message has now are noted, once the actor has begun."""
    for path in seen.there if seen.has_begun else ():
        flags = flags_of(path.name)
        if flags is not None:
            seen = seen._replace(last=flags, meant=flags if _keeps(claim, flags) else seen.meant)
    return seen


def _answers(claim: Claim, seen: Seen, uniques: List[bytes], when: When, status: Optional[int]) -> Iterator[Line]:
    if status != 0:
        for unique in uniques:
            yield _line(when, b"failed", escaped(claim.folder), escaped(unique))
        return
    # Of a delivery that added nothing, the last file that was made in tmp is what it says is delivered, and isn't.
    for unique in uniques or [unique_of(seen.made).lstrip(b".") or b"none"]:
        yield _line(when, claim.word.encode(), *_words(claim, seen), escaped(claim.folder), escaped(unique))


def _words(claim: Claim, seen: Seen) -> List[bytes]:
    if claim.word == "moved":
        return [escaped(claim.to)]
    if claim.word != "flags":
        return []
    chosen = seen.meant if seen.meant is not None else _wanted(claim, seen.last)
    return ["".join(sorted(chosen)).encode() or b"-"]


def _is_in_cur(claim: Claim, path: Path) -> bool:
    return path[:2] == (claim.folder, "cur") and unique_of(path.name) == claim.unique


def _keeps(claim: Claim, flags: FrozenSet[str]) -> bool:
    if claim.exactly is not None:
        return flags == claim.exactly
    return claim.added <= flags and not claim.removed & flags


def _wanted(claim: Claim, flags: FrozenSet[str]) -> FrozenSet[str]:
    return claim.exactly if claim.exactly is not None else flags - claim.removed | claim.added


def _line(when: When, *words: bytes) -> Line:
    return Line(when.moment, when.actor, b" ".join((b"answer", *words)))
