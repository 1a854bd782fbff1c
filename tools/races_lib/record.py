"""Keeps what released programs did: each order of their directory calls, with replies, what they printed, their statuses and the findings.

Numbers of processes, seconds and hosts differ from run to run, so names that programs make are replaced by fixed ones as they come, and
moments are left out."""

from __future__ import annotations

import json
import os
import re
import shlex
import tempfile
from collections.abc import Callable, Iterator, Mapping
from pathlib import Path
from typing import Any, NamedTuple

from judge_lib.claims import read_claims
from judge_lib.exploring import BASE, PREFIX, STOPS, Bounds, Pairing, explore
from judge_lib.judge_run import judge
from judge_lib.outcomes import ran_here, repeated
from judge_lib.refused import Refused
from judge_lib.scene import Scene, version_of
from judge_lib.staging import before, setup_of, traced
from judge_lib.statuses import shown
from judge_lib.stopping import SIDES


Tell = Callable[[str], None]

MADE = re.compile(r"\d{9,}\.[A-Za-z0-9_]+\.[A-Za-z0-9-]+")
SESSION = re.compile(r"<\d+><[^<>\s]+>")
# How many bytes Dovecot sent, which has the digits of its times in it.
SENT = re.compile(r"\bout=\d+")
FOLDER = re.compile(re.escape(os.path.join(tempfile.gettempdir(), PREFIX)) + r"\w+" + re.escape(os.path.join(os.sep, BASE, "")))
FIXED_NAME = "1000.M{}P7.host"
FIXED_SESSION = "<7><session>"
FIXED_SENT = "out=N"
# The name of a scene's message, and a short one, since a page shows it in three columns.
SHORTENED = ("1000.M1P7Q1.a", "u")
BOUNDS = Bounds(1_000, 3_600)


class Run(NamedTuple):
    """One order: who made each call, the log, how each command ended, and what it printed."""

    turns: str
    log: str
    ends: Mapping[str, str]
    printed: Mapping[str, str]


def record(named: Scene, allowed: tuple[str, ...], tell: Tell) -> dict[str, Any]:
    """All that is kept of a scene. Clauses that are allowed are not judged."""
    scene = shortened(named)
    repeat = repeated(scene)
    about = {
        "scene": scene.name,
        "program": scene.program,
        "package": f"{scene.package} {version_of(scene.package)}",
        "ran": ran_here(),
        "commands": dict(zip(SIDES, filter(None, (scene.command, scene.beside)))),
        "repeat": [*repeat[:-1], repeat[-1] + "".join(f" --allow {clause}" for clause in allowed)],
    }
    return about | kept_of(scene_runs(scene, tell) if scene.beside else [traced_run(scene)], allowed)


def shortened(scene: Scene) -> Scene:
    """The scene with a short name for its message."""
    setup, claims, commands = ([line.replace(*SHORTENED) for line in lines]
                               for lines in (scene.setup, scene.claims, [scene.command, scene.beside or ""]))
    return scene._replace(setup=setup, claims=claims, command=commands[0], beside=commands[1] or None)


def traced_run(scene: Scene) -> Run:
    """The one run of a scene that has one command, which is A."""
    with tempfile.TemporaryDirectory(prefix="races-") as top:
        base = os.path.join(top, "work")
        os.mkdir(base)
        log = traced(scene, base, os.path.join(top, "log")).decode()
        said = Path(base, "said")
        printed = said.read_text(encoding="utf-8").replace(f"{base}/", "") if said.exists() else ""
    log = re.sub(rf"^(\d+|#) {re.escape(os.path.basename(scene.runs))} ", r"\1 A ", log, flags=re.M)
    calls = re.findall(r"^\d+ A (?:create|link|rename|unlink|list)", log, re.M)
    ends = "".join(re.findall(r"^# A ended with (.*)$", log, re.M))
    return Run("A" * len(calls), f"{log}# A ends with {ends}\n", {"A": ends}, {"A": printed})


def scene_runs(scene: Scene, tell: Tell) -> list[Run]:
    """The runs of a scene's two commands in every order."""
    first, second = (shlex.join(["exec", *before(scene), "sh", "-c", command]) for command in (scene.command, scene.beside or ""))
    return explored_runs(setup_of(scene), (first, second), scene.claims, scene.stops, tell)


def explored_runs(setup: str, commands: tuple[str, str], claims: list[str], stops: str, tell: Tell) -> list[Run]:
    """The runs of two commands in every order."""
    runs = []
    pairing = Pairing(setup, commands, read_claims(claims), stops=STOPS[stops], tells_looks=True)

    def keep(turns: str, log: Any, _: object) -> None:
        printed = {side: text.decode("utf-8", "backslashreplace") for side, text in log.said.items()}
        ends = {side: shown(status) for side, status in log.statuses.items()}
        runs.append(Run(turns, log.encoded().decode("utf-8", "backslashreplace"), ends, printed))

    if not explore(pairing, BOUNDS, tell, keep).is_whole:
        raise Refused("there are more orders than were run")
    return sorted(runs)


def kept_of(runs: list[Run], allowed: tuple[str, ...]) -> dict[str, Any]:
    """The beginning and the orders of runs. A line that comes in many orders is there once."""
    lines: dict[str, int] = {}
    orders = []
    for run in runs:
        names: dict[str, str] = {}
        steps = list(steps_of(run.log))
        places = {number: at for at, (number, _) in enumerate(steps)}
        orders.append({
            "turns": run.turns,
            "ends": dict(run.ends),
            "broken": [[places[finding.line], finding.clause] for finding in judge(run.log.encode(), allowed)],
            "lines": [lines.setdefault(fixed(step, names), len(lines)) for _, step in steps],
            "printed": {side: fixed(text, names) for side, text in run.printed.items() if text},
        })
    head = [re.sub(r" \d+$", " 1000", line) for line in runs[0].log.split("\n") if re.match("(?:folder|file|also) ", line)]
    return {"head": head, "lines": list(lines), "orders": orders}


def steps_of(log: str) -> Iterator[tuple[int, str]]:
    """The numbers of the lines that are steps, and what they say: calls, looks, answers and ends. A part of a reading that shows nothing
    and ends nothing is none."""
    for number, line in enumerate(log.split("\n"), 1):
        found = re.match(r"(?:\d+ (?=[AB] )|# (?=[AB] (?:looks at|ends with) ))(.*)", line)
        if found and not re.fullmatch(r". list \S+ \S+ more", found[1]):
            yield number, found[1]


def fixed(text: str, names: dict[str, str]) -> str:
    """A text whose made names and numbers of a session are fixed ones, and without the folder of the run."""
    bare = SENT.sub(FIXED_SENT, FOLDER.sub("", SESSION.sub(FIXED_SESSION, text)))
    return MADE.sub(lambda found: names.setdefault(found[0], FIXED_NAME.format(len(names) + 1)), bare)


def written(one: dict[str, Any]) -> str:
    """What is kept as a file: a line for each order and for each line of a log."""
    parts = []
    for key, value in one.items():
        if key in ("lines", "orders"):
            parts.append(f'"{key}": [\n' + ",\n".join(json.dumps(item, ensure_ascii=False) for item in value) + "\n]")
        else:
            parts.append(f'"{key}": {json.dumps(value, ensure_ascii=False)}')
    return "{\n" + ",\n".join(parts) + "\n}\n"
