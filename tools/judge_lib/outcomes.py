"""What scenes showed, as text and as the table of a page."""

from __future__ import annotations

import shlex
import time
from pathlib import Path
from typing import Dict, List, Optional, Tuple

from .grades import GRADES, at_least
from .scene import Scene, version_of
from .staging import Found, Outcome, trace_words
from .tracing import version

_HEAD = ["| Program | Scene | What the judge found | Shown by |", "|---|---|---|---|"]
_NOTHING = "Nothing is found"


def system() -> str:
    """This system's name."""
    lines = Path("/etc/os-release").read_text(encoding="utf-8").splitlines()
    return next((line.partition("=")[2].strip('"') for line in lines if line.startswith("PRETTY_NAME=")), "this system")


def ran_here() -> str:
    """When and where scenes were run."""
    return f"Run on {time.strftime('%-d %B %Y', time.gmtime())} on {system()}, with {version()}."


def text(outcome: Outcome) -> List[str]:
    """An outcome for people."""
    scene = outcome.scene
    head = f"{scene.name}: {scene.program} ({scene.package} {outcome.version}) {scene.about}"
    if not outcome.found:
        return [head, f"  nothing{_in_runs(outcome)}{_unjudged(outcome)}"]
    return [head, *(f"  {each.grade}: {each.clause}{_in_runs(outcome, each)}: {each.sentence}: {each.line}" for each in outcome.found)]


def chosen(outcome: Outcome, least: str) -> Outcome:
    """An outcome with what it shows of a grade and the worse ones."""
    return outcome._replace(found=[each for each in outcome.found if each.grade in at_least(least)])


def markdown(outcomes: List[Outcome]) -> List[str]:
    """The table, a row for each scene; of pairs, a row for each command."""
    pairs = {outcome.scene.pair: outcome for outcome in outcomes if outcome.scene.pair}
    return [ran_here(), *(["", *_table_of(pairs)] if pairs else _tables(outcomes))]


def _tables(outcomes: List[Outcome]) -> List[str]:
    """A table for each grade, with the scenes of which it is the worst."""
    by_worst: Dict[str, List[Outcome]] = {grade: [] for grade in (*GRADES, _NOTHING)}
    for outcome in outcomes:
        by_worst[outcome.found[0].grade if outcome.found else _NOTHING].append(outcome)
    titles = {**{grade: f"{grade.capitalize()}: {says}" for grade, says in GRADES.items()}, _NOTHING: _NOTHING}
    return [line for grade, those in by_worst.items() if those for line in ("", f"### {titles[grade]}", "", *_HEAD, *map(_row, those))]


def _table_of(pairs: Dict[Tuple[str, str], Outcome]) -> List[str]:
    """A cell for each pair: how many interleavings there are, and what was found in how many, by the command (A) or by the other (B)."""
    packages = {package: version_of(package) for outcome in pairs.values() for package in outcome.scene.packages()}
    firsts, others = (list(dict.fromkeys(pair[at] for pair in pairs)) for at in (0, 1))
    rows = [[first, *(_cell(pairs.get((first, other))) for other in others)] for first in firsts]
    table = [["", *others], ["---"] * (len(others) + 1), *rows]
    return ["With " + ", ".join(f"{package} {version}" for package, version in packages.items()) + ".", "",
            *("| " + " | ".join(row) + " |" for row in table)]


def _cell(outcome: Optional[Outcome]) -> str:
    if outcome is None:
        return "-"
    found = "".join(f"; *{each.grade}*: {each.clause} by {each.actors} in {each.runs}" for each in outcome.found)
    return f"{outcome.runs}{'' if outcome.is_whole else ' of more'}{found}"


def _row(outcome: Outcome) -> str:
    scene = outcome.scene
    found = "; ".join(f"*{each.grade}*: `{each.clause}`{_in_runs(outcome, each)}, {each.sentence}: `{_short(each.line)}`"
                      for each in outcome.found)
    cell = found or f"nothing{_in_runs(outcome)}"
    return f"| {program_of(outcome)} | {scene.about} | {cell}{_unjudged(outcome)} | `tools/scenes {scene.name}` |"


def program_of(outcome: Outcome) -> str:
    """The program of a scene, its package and version."""
    program = outcome.scene.program
    shown = program if "'" in program else f"`{program}`"
    return f"{shown}, {outcome.scene.package} {outcome.version}"


def _in_runs(outcome: Outcome, found: Optional[Found] = None) -> str:
    """How many interleavings there are, and in how many of them something was found."""
    if outcome.scene.beside is None:
        return ""
    share = f"{found.runs} of " if found else ""
    return f" in {share}{outcome.runs} interleavings{'' if outcome.is_whole else ', and there are more'}"


def _unjudged(outcome: Outcome) -> str:
    """Whether nothing was taken to be claimed, so that GaveUp and AnsweredFalsely were not judged."""
    return "" if outcome.scene.claims else " (no claims)"


def _short(line: str) -> str:
    """A line of a log, with what is long in it cut."""
    return line.replace("|", "\\|") if len(line) <= 90 else line[:87].replace("|", "\\|") + ".."


def repeated(scene: Scene) -> List[str]:
    """The commands that a user can type to repeat a scene."""
    words = shlex.join(trace_words(scene))
    if scene.beside is not None:
        return [f"# {scene.name}: {scene.program} {scene.about}", "tools/explore --setup " + shlex.quote("\n".join(scene.setup)) + " \\",
                f"  {words}{' ' if words else ''}{shlex.quote(scene.command)} {shlex.quote(scene.beside)}"]
    whose = ", as another user than root" if scene.is_unprivileged else ""
    return [f"# {scene.name}: {scene.program} {scene.about}; in an empty directory{whose}", *scene.setup,
            f"tools/trace {words}{' ' if words else ''}-o log sh -c {shlex.quote(scene.command)}", "deolmutt judge log"]
