"""Random scripts, played by two programs on many workers, and what they differ on."""

from __future__ import annotations

import os
from typing import Any, Iterable, List, NamedTuple, Optional, Sequence, Tuple

from distributed import Client, as_completed

from .._disk import StrPath
from .clone import Journal, module_of_clone
from .snapshot import write_durably

# What a program came to: its status, what it printed, and what it said on standard error.
Came = Tuple[int, bytes, bytes]


class Finding(NamedTuple):
    """A seed, the file with its script on which two programs differ, and what each came to."""

    seed: int
    script: str
    ours: Came
    plain: Came


def sweep(
    client: Client,
    seeds: Iterable[int],
    folder: StrPath,
    ours: Sequence[str],
    plain: Sequence[str],
    scripts: int = 100,
    clone: Optional[str] = None,
) -> List[Finding]:
    """Plays so many random scripts of each seed by two commands, and answers where they differ.

    It is what `bench/play/compare` does, a seed for each task: a seed has the same scripts everywhere,
    and ends at the first on which the commands differ, in what they print, say or end with. That script
    is kept in the folder, and so is each seed that is done. A sweep that was cut off goes on from there
    where it is called again with the same commands, and answers the older findings too.

    Each worker needs the commands and a clone of the repository.
    """
    path = os.path.abspath(folder)
    journal = Journal(path, [scripts, list(ours), list(plain)])
    done = {said["seed"]: said for said in journal.read()}
    wanted = list(dict.fromkeys(seeds))
    tasks = {
        client.submit(_played, seed, scripts, list(ours), list(plain), clone, pure=False): seed
        for seed in wanted
        if seed not in done
    }
    with client.as_current():
        ended = as_completed(list(tasks), with_results=True)
    for task, difference in ended:
        seed = tasks[task]
        name = f"{journal.name}-{seed}.script"
        done[seed] = {"seed": seed, "script": name, "differ": _kept(path, name, difference)}
        journal.add(done[seed])
    return [_finding(path, done[seed]) for seed in wanted if done[seed]["differ"]]


def _played(
    seed: int, scripts: int, ours: List[str], plain: List[str], clone: Optional[str]
) -> Optional[Tuple[bytes, Came, Came]]:
    """A worker's part: the first difference of a seed."""
    comparing = module_of_clone(clone, "bench/play", "comparing")
    random_scripts = module_of_clone(clone, "bench/play", "random_scripts")
    difference = comparing.compare(random_scripts.random_scripts(scripts, seed), ours, plain).difference
    if difference is None:
        return None
    script, of_ours, of_plain = difference
    return script, of_ours, of_plain


def _kept(folder: str, name: str, difference: Optional[Tuple[bytes, Came, Came]]) -> Optional[List[Any]]:
    """Puts a difference's script into the folder, and answers what the two came to as JSON can say it."""
    if difference is None:
        return None
    script, *both = difference
    write_durably(folder, name, [script])
    return [[status, printed.hex(), said.hex()] for status, printed, said in both]


def _finding(folder: str, said: Any) -> Finding:
    ours, plain = ((status, bytes.fromhex(out), bytes.fromhex(err)) for status, out, err in said["differ"])
    return Finding(said["seed"], os.path.join(folder, said["script"]), ours, plain)
