"""Runs a scene, and says what the judge found in it."""

from __future__ import annotations

import os
import re
import shlex
import subprocess
import sys
import tempfile
from pathlib import Path
from typing import Dict, Iterable, List, NamedTuple, Tuple

from .claims import read_claims
from .exploring import STOPS, Bounds, Order, Pairing, Tell, explore, line_of, make_ready
from .grades import GRADES, grade_of
from .judge_run import SENTENCES, Finding, judge
from .making import Log
from .refused import Refused
from .scene import Scene
from .statuses import Statuses, read_expected, shown, unexpected
from .stopping import LIMITED, SIDES

_TOOLS = Path(__file__).resolve().parent.parent
_MOST_SECONDS = 60
_MOST_SAID = 2000
_ENDED = re.compile(r"^# (\S+) ended with (?:status (\d+)|a signal)$", re.MULTILINE)
_CALL = re.compile(rb"^\d\S* \S+ (?!answer )", re.MULTILINE)
_NOBODY = 65534
# Some programs refuse to run as root.
_AS_NOBODY = ["setpriv", f"--reuid={_NOBODY}", f"--regid={_NOBODY}", "--clear-groups"]


class Found(NamedTuple):
    """A clause that is broken with a grade: in how many of the runs, the line that does it first, without its moment, that line's sentence,
    by whom, and the grade."""

    clause: str
    runs: int
    line: str
    sentence: str
    actors: str = ""
    grade: str = "lost"


class Outcome(NamedTuple):
    """What a scene showed: findings by clause and grade, the worst first, and the log that shows the first of them."""

    scene: Scene
    version: str
    runs: int
    is_whole: bool
    found: List[Found]
    log: bytes


def stage(scene: Scene, version: str, bounds: Bounds, tell: Tell) -> Outcome:
    """Runs a scene in an empty directory."""
    if scene.beside is not None:
        return _explored(scene, version, bounds, tell)
    with tempfile.TemporaryDirectory(prefix="scene-") as top:
        base = os.path.join(top, "work")
        os.mkdir(base)
        log = traced(scene, base, os.path.join(top, "log"))
    check_calls(scene, log)
    gathered = Gathered()
    gathered.add(log, judge(log))
    return Outcome(scene, version, 1, True, gathered.found(), log)


class Gathered:
    """What was found in all runs of a scene."""

    def __init__(self) -> None:
        self._found: Dict[Tuple[str, str], Found] = {}
        self._logs: Dict[Tuple[str, str], bytes] = {}

    def add(self, log: bytes, findings: Iterable[Finding]) -> None:
        """Adds what was found in a run."""
        graded: Dict[Tuple[str, str], List[str]] = {}
        for finding in findings:
            graded.setdefault((finding.clause, grade_of(log, finding)), []).append(line_of(log, finding.line))
        for key, lines in graded.items():
            former = self._found.get(key, Found(key[0], 0, lines[0], SENTENCES[key[0]], "", key[1]))
            actors = "".join(sorted({*former.actors, *(line.split()[0] for line in lines)} & set(SIDES)))
            self._found[key] = former._replace(runs=former.runs + 1, actors=actors)
            self._logs.setdefault(key, log)

    def found(self) -> List[Found]:
        """All of it, the worst first."""
        return sorted(self._found.values(), key=lambda each: list(GRADES).index(each.grade))

    def log(self) -> bytes:
        """The log of the first run that shows the worst of it."""
        return next((self._logs[each.clause, each.grade] for each in self.found()), b"")


def traced(scene: Scene, base: str, log: str) -> bytes:
    """The log of a scene's one command, run in a directory."""
    make_ready(setup_of(scene), base)
    command = [*before(scene), "sh", "-c", LIMITED + scene.command]
    words = ["--seconds", str(_MOST_SECONDS), *trace_words(scene), "-o", log, *command]
    said = _run([sys.executable, str(_TOOLS / "trace"), *words], base, log + ".said", scene.name)
    with open(log, "rb") as file:
        text = file.read()
    ended = {actor: int(status) if status else None for actor, status in _ENDED.findall(text.decode("utf-8", "replace"))}
    check_expected(scene, ended, said)
    return text


def check_calls(scene: Scene, log: bytes) -> None:
    """Refuses a scene whose command did nothing in a maildir: it shows nothing."""
    if not _CALL.search(log):
        raise Refused(f"{scene.name}: its command made no call in a maildir")


def check_expected(scene: Scene, statuses: Statuses, said: str) -> None:
    """Refuses a scene whose command ended with a status that nobody expected."""
    wrong = unexpected(statuses, read_expected(scene.status))
    if wrong:
        raise Refused(f"{scene.name}: {wrong[0]} ended with {shown(statuses[wrong[0]])}, which the scene doesn't expect: {said}")


def setup_of(scene: Scene) -> str:
    """What makes a scene's maildirs, and gives them to nobody where its commands run as nobody."""
    return "\n".join([*scene.setup, *[f"chown -R {_NOBODY}:{_NOBODY} .; chmod 711 .."] * bool(before(scene))])


def before(scene: Scene) -> List[str]:
    """The words that come before a scene's commands."""
    return _AS_NOBODY if scene.is_unprivileged and os.geteuid() == 0 else []


def _run(words: List[str], base: str, said: str, name: str) -> str:
    """Runs `tools/trace`, which ends what it started, and gives the last of what was said."""
    with open(said, "w+b") as out:
        run = subprocess.Popen(words, cwd=base, stdin=subprocess.DEVNULL, stdout=out, stderr=subprocess.STDOUT, start_new_session=True)
        try:
            run.wait(2 * _MOST_SECONDS)
        except BaseException:
            run.terminate()
            run.wait()
            raise
        out.seek(max(0, out.tell() - _MOST_SAID))
        last = out.read().decode("utf-8", "replace").strip()
    if run.returncode:
        raise Refused(f"{name}: {last}")
    return last


def trace_words(scene: Scene) -> List[str]:
    """The words of `tools/trace` or `tools/explore` for a scene's claims, faults and actor."""
    actor = ["--actor", os.path.basename(scene.runs)] if scene.beside is None else []
    claims = [word for claim in scene.claims for word in ("--claims", claim)]
    statuses = [] if scene.beside is None else [*(word for status in scene.status for word in ("--status", status)), "--stop-at", scene.stops]
    return actor + claims + statuses + [word for fault in scene.fail for word in ("--fail", fault)]


def _explored(scene: Scene, version: str, bounds: Bounds, tell: Tell) -> Outcome:
    commands = [shlex.join(["exec", *before(scene), "sh", "-c", command]) for command in (scene.command, scene.beside or "")]
    pairing = Pairing(setup_of(scene), commands, read_claims(scene.claims), stops=STOPS[scene.stops])
    gathered = Gathered()
    explored = explore(pairing, bounds, tell, lambda order, log, judged: _take_order(scene, gathered, order, log, judged))
    if explored.without_call():
        raise Refused(f"{scene.name}: {explored.without_call()} made no call in a maildir")
    return Outcome(scene, version, len(explored.orders), explored.is_whole, gathered.found(), gathered.log())


def _take_order(scene: Scene, gathered: Gathered, order: str, log: Log, judged: Order) -> None:
    said = b"\n".join(log.said.values())[-_MOST_SAID:].decode("utf-8", "replace").strip()
    check_expected(scene, judged.statuses, f"in {order or 'no call'}: {said}")
    gathered.add(log.encoded(), judged.found)
