"""Every interleaving of two programs' directory calls, played on many workers and judged."""

from __future__ import annotations

import os
from typing import Any, Dict, List, NamedTuple, Optional, Sequence, Tuple

from distributed import Client, as_completed

from .._disk import StrPath
from .clone import Journal, module_of_clone
from .errors import ToolRefused
from .snapshot import write_durably


class Broken(NamedTuple):
    """A clause of the law, how many interleavings break it, the first of these in order of their
    names, as in AAB, and the file of its log, which `deolmutt judge` reads."""

    clause: str
    times: int
    order: str
    log: str


class Interleavings(NamedTuple):
    """The interleavings that were played, whether these are all, how many break the law, and by what."""

    orders: List[str]
    is_whole: bool
    breaking: int
    broken: List[Broken]


class _Asked(NamedTuple):
    """What is played: as the words of `tools/explore` say it."""

    setup: str
    commands: Tuple[str, str]
    claims: List[str]
    folders: Tuple[str, ...]
    clone: Optional[str]


def explore(
    client: Client,
    commands: Tuple[str, str],
    folder: StrPath,
    setup: str = "",
    claims: Sequence[str] = (),
    folders: Sequence[str] = (),
    runs: int = 1000,
    clone: Optional[str] = None,
) -> Interleavings:
    """Plays two commands of sh in every interleaving of their directory calls, at most so many runs, and
    has `deolmutt judge` judge each.

    It is what `tools/explore` does, a run for each task, and the words are those of that tool. Each run
    that is done is kept in the folder, and the log of each interleaving that breaks the law. A search
    that was cut off goes on from there where it is called again with the same words.

    Each worker needs strace, the judge, the programs and a clone of the repository. Raises `ToolRefused`
    with what that tool would say.
    """
    path = os.path.abspath(folder)
    asked = _Asked(setup, commands, list(claims), tuple(folders), clone)
    journal = Journal(path, asked)
    done: Dict[str, Dict[str, Any]] = {said["prefix"]: said for said in journal.read()}
    known = {"", *(branch for said in done.values() for branch in said["branches"])}
    waiting = sorted(known - set(done), reverse=True)
    left = runs - len(done)
    with client.as_current():
        tasks = as_completed(with_results=True)
    while True:
        while waiting and left > 0:
            left -= 1
            tasks.add(client.submit(_run, asked, waiting.pop(), pure=False))
        if tasks.is_empty():
            break
        _, (said, log) = next(tasks)
        if log:
            write_durably(path, f"{journal.name}-{said['order']}.log", [log])
        journal.add(said)
        done[said["prefix"]] = said
        waiting += reversed(said["branches"])
    return _summed(os.path.join(path, journal.name), list(done.values()), not waiting)


def _run(asked: _Asked, prefix: str) -> Tuple[Dict[str, Any], bytes]:
    """A worker's part: a run, what the judge finds in it, and its log where that is anything."""
    names = ("refused", "exploring", "schedules", "claims")
    parts = (module_of_clone(asked.clone, "tools", f"judge_lib.{name}") for name in names)
    refused, exploring, schedules, claiming = parts
    try:
        claims = claiming.read_claims(asked.claims)
        pairing = exploring.Pairing(asked.setup, asked.commands, claims, asked.folders)
        played, log = exploring.run_once(pairing, prefix)
        text = log.encoded()
        found = exploring.judge(text)
    except (refused.Refused, OSError) as error:
        raise ToolRefused(str(error)) from None
    said = {
        "prefix": prefix,
        "order": played.order,
        "branches": schedules.branches(played, prefix),
        "clauses": list(dict.fromkeys(finding.clause for finding in found)),
    }
    return said, text if found else b""


def _summed(begin: str, done: List[Dict[str, Any]], is_whole: bool) -> Interleavings:
    """What all runs showed: two of one order are one interleaving."""
    clauses = {said["order"]: said["clauses"] for said in done}
    orders = sorted(clauses)
    broken = []
    for clause in sorted({clause for found in clauses.values() for clause in found}):
        those = [order for order in orders if clause in clauses[order]]
        broken.append(Broken(clause, len(those), those[0], f"{begin}-{those[0]}.log"))
    return Interleavings(orders, is_whole, sum(bool(found) for found in clauses.values()), broken)
