"""Wrong mains, which the rows of maildir_cli have to refuse."""

from __future__ import annotations

import stat
import tempfile
from collections.abc import Callable, Iterator, Sequence
from pathlib import Path

# What a shell makes of a program, by the fault of the main that it stands for.
PLANTED = {
    "status 0 for refusals": '"$0" "$@"; status=$?; [ $status -ne 1 ] || exit 0; exit $status',
    "status 1 for wrong words": '"$0" "$@"; status=$?; [ $status -ne 2 ] || exit 1; exit $status',
    "refusals on standard output": 'exec "$0" "$@" 2>&1',
    "an index that runs threads": '[ "${1-}" != index ] || { shift; set -- threads "$@"; }; exec "$0" "$@"',
}


def planted(program: str, script: str, folder: str) -> list[str]:
    """A command that runs a program through a shell."""
    path = Path(folder) / "planted"
    path.write_text(f"#!/bin/sh\nset -- '{program}' \"$@\"\nexec sh -c '{script}' \"$@\"\n", encoding="utf-8")
    path.chmod(path.stat().st_mode | stat.S_IXUSR)
    return [str(path)]


def passed_plants(program: str, faults_of: Callable[[Sequence[str]], Iterator[str]]) -> Iterator[str]:
    """The wrong mains that the rows don't refuse. The program as it is, run through the same shell, they must not refuse."""
    with tempfile.TemporaryDirectory() as folder:
        for fault in faults_of(planted(program, 'exec "$0" "$@"', folder)):
            yield f"with nothing planted: {fault}"
        for fault, script in PLANTED.items():
            if next(faults_of(planted(program, script, folder)), None) is None:
                yield f"{fault}: every row is true of it"
