"""The command line of `tools/owed`."""

from __future__ import annotations

import argparse
import re
import sys
from collections.abc import Sequence
from pathlib import Path
from typing import NamedTuple, Optional

from judge_lib.outcomes import program_of, ran_here
from judge_lib.refused import Refused
from judge_lib.results import Results
from judge_lib.scene import read_scenes

from .clauses import not_a_directory
from .logs import findings
from .owed import OWED

_ABOUT = """\
Says of each log which clauses that programs owe each other are broken in it
(docs/LAW.md), and by whom. It evaluates the definitions of md_law, and takes
the calls of a log in the order of its lines.
"""

_MORE = """\
status:
  0    nothing that is owed is broken
  1    some log breaks a clause
  2    refused: wrong words, or no log that can be read
"""

# What the theorem asks of other programs, and that the log is that of directories.
PREMISES = {"NotADirectory": not_a_directory, **OWED}
_TICKS = re.compile(rb"^(\d+)@\d+\.\.\d+ ", re.MULTILINE)


class Broken(NamedTuple):
    """A clause that is broken, by whom, and the lines."""

    clause: str
    actor: str
    lines: list[int]


def main(words: Optional[Sequence[str]] = None) -> int:
    """Does what the words say, and answers the status."""
    parser = _options()
    options = parser.parse_args(words)
    if not options.scenes and not options.logs:
        parser.error("names no log")
    try:
        if options.scenes:
            print("\n".join(_table(options.scenes)))
            return 0
        found = [(log, broken_in(Path(log).read_bytes())) for log in options.logs]
    except (Refused, OSError) as error:
        print(f"owed: {error}", file=sys.stderr)
        return 2
    for log, broken in found:
        print(f"{log}: " + ("; ".join(map(_said, broken)) or "nothing"))
    return 1 if any(broken for _, broken in found) else 0


def _options() -> argparse.ArgumentParser:
    form = argparse.RawDescriptionHelpFormatter
    parser = argparse.ArgumentParser(prog="tools/owed", description=_ABOUT, epilog=_MORE, formatter_class=form)
    parser.add_argument("--scenes", metavar="DIR", help="prints a table of the scenes of one program that tools/scenes --logs DIR kept")
    parser.add_argument("logs", nargs="*", metavar="LOG", help="a log, as docs/JUDGE.md has it")
    return parser


def broken_in(log: bytes) -> list[Broken]:
    """What is broken in a log, in the order of its lines."""
    in_order, overlapping = _TICKS.subn(rb"\1 ", log)
    lines, broken = log.splitlines(), dict[tuple[str, str], Broken]()
    for number, clause in found_in(in_order):
        if clause == "NotADirectory" and overlapping:
            raise Refused(f"line {number}: calls overlap, and took effect in another order than that of their lines")
        actor = lines[number - 1].split(b" ")[1].decode(errors="backslashreplace")
        broken.setdefault((clause, actor), Broken(clause, actor, [])).lines.append(number)
    return list(broken.values())


def found_in(log: bytes) -> list[tuple[int, str]]:
    """The lines of a log without ticks, each with what it breaks."""
    try:
        return findings(log, PREMISES)
    except (ValueError, LookupError, TypeError) as error:
        raise Refused(f"no log that the judge takes: {error}") from None


def _said(broken: Broken) -> str:
    more = ".." if len(broken.lines) > 3 else ""
    return f"{broken.clause} by {broken.actor} ({', '.join(map(str, broken.lines[:3]))}{more})"


def _table(folder: str) -> list[str]:
    """A row for each program: how many of its scenes were read, and what it breaks in which. Scenes of two programs are left out."""
    programs: dict[str, list[tuple[str, list[Broken]]]] = {}
    for scene in read_scenes([]):
        outcome = Results(folder).former(scene) if scene.beside is None else None
        if outcome is not None:
            programs.setdefault(program_of(outcome), []).append((scene.about, broken_in(outcome.log)))
    rows = [f"| {program} | {len(scenes)} | {_cell(scenes)} |" for program, scenes in programs.items()]
    return [ran_here(), "", "| Program | Scenes | What it breaks |", "|---|---|---|", *rows]


def _cell(scenes: list[tuple[str, list[Broken]]]) -> str:
    """What is broken in which of the scenes."""
    clauses = [(about, dict.fromkeys(f"`{each.clause}`" for each in broken)) for about, broken in scenes if broken]
    return "; ".join(f"{', '.join(names)} ({about})" for about, names in clauses) or "nothing"
