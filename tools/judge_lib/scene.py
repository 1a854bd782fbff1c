"""Scenes: what real programs do in a maildir, each in a file of a few lines `WORD TEXT` that a user can repeat."""

from __future__ import annotations

import re
import shutil
import subprocess
from pathlib import Path
from typing import Dict, Iterator, List, NamedTuple, Optional, Tuple

from .exploring import STOPS
from .refused import Refused
from .statuses import read_expected

FOLDER = Path(__file__).resolve().parent.parent / "scenes.d"
ENDING = ".scene"
PAIRS = ".pairs"
# Programs of this repository, each with a file of pairs.
OWN = {path.name.removesuffix(PAIRS) for path in FOLDER.glob("*" + PAIRS)}
# What each scene begins with, before its own lines `setup`.
BEGINNING = ["mkdir -p box/tmp box/new box/cur", r"printf 'From: a@example.org\nSubject: one\n\nhello\n' > mail"]
_LINE = re.compile(r"([a-z]+) +(.*)")
_PARTS = re.compile(r" ::(?= |$)")
_ONCE = ("package", "program", "runs", "scene", "needs", "trace", "explore", "beside", "user", "stops")
_MANY = ("setup", "claims", "fail", "status")


class Scene(NamedTuple):
    """A scene: the package of its program, what is made before, and the command, or the two of which every interleaving is run."""

    name: str
    package: str
    program: str
    runs: str
    about: str
    needs: List[str]
    setup: List[str]
    claims: List[str]
    fail: List[str]
    command: str
    beside: Optional[str]
    # With what its commands have to end, as `--status` says it; with 0 where it says nothing.
    status: List[str]
    is_unprivileged: bool
    # After which calls the commands of an interleaving stop, as `--stop-at` says it.
    stops: str = "names"
    # Of a pair: its command and the place of its message, and whom it is beside.
    pair: Optional[Tuple[str, str]] = None

    def packages(self) -> List[str]:
        """All packages that it needs."""
        return [self.package, *self.needs]

    def lacks(self) -> List[str]:
        """Those of its packages that are not installed."""
        return [package for package in self.packages() if version_of(package) is None]


def read_scene(path: Path) -> Scene:
    """Reads the file of a scene."""
    once: Dict[str, str] = {}
    many: Dict[str, List[str]] = {word: [] for word in _MANY}
    for number, line in enumerate(path.read_text(encoding="utf-8").splitlines(), 1):
        if not line or line.startswith("#"):
            continue
        found = _LINE.fullmatch(line)
        word = found[1] if found else ""
        if found and word in many:
            many[word].append(found[2])
        elif found and word in _ONCE and word not in once:
            once[word] = found[2]
        else:
            raise Refused(f"{path.name}: line {number}: is no line of a scene: {line}")
    has_command = ("trace" in once) != ("explore" in once) and ("explore" in once) == ("beside" in once)
    read_expected(many["status"])
    if not has_command or not {"package", "program", "scene"} <= set(once) or once.get("stops", "names") not in STOPS:
        raise Refused(f"{path.name}: needs package, program, scene, and either trace or explore and beside; and it stops at names or looks")
    return Scene(
        name=path.name.removesuffix(ENDING), package=once["package"], program=once["program"],
        runs=once.get("runs", once["program"].split(" ")[0]), about=once["scene"], needs=once.get("needs", "").split(),
        setup=BEGINNING + many["setup"], claims=many["claims"], fail=many["fail"], command=once.get("trace") or once.get("explore") or "",
        beside=once.get("beside"), status=many["status"], is_unprivileged="user" in once, stops=once.get("stops", "names"),
    )


def read_pairs(path: Path) -> Iterator[Scene]:
    """The scenes of a file that has commands of one of our programs, and those of others that each is explored beside."""
    rows: Dict[str, List[List[str]]] = {}
    for line in path.read_text(encoding="utf-8").splitlines():
        found = _LINE.fullmatch(line)
        if found:
            rows.setdefault(found[1], []).append([part.strip() for part in _PARTS.split(found[2])] + [""] * 4)
    program, own_ends, setup = rows["program"][0][0], rows["ends"][0][0], [row[0] for row in rows["setup"]]
    made, others = {row[0]: row[1] for row in rows["place"]}, {row[0]: row for row in rows["others"]}
    for first, command, claim, *_ in rows["explore"]:
        place = first.split()[1]
        own = ["itself " + place, command]
        for other, beside, *_ in [own, *(row for row in rows["beside"] if row[0].endswith(" " + place))]:
            peer = other.split()[0]
            _, packages, makes, user, ends, *_ = others.get(peer, [""] * 5)
            claims = ["A: " + claim] + ["B: " + claim] * (peer == "itself")
            status = [f"A: {own_ends}", f"B: {own_ends}" if peer == "itself" else f"B: 0 {ends}"]
            yield Scene(name="-".join([program, *first.split(), "beside", peer]), package=program, program=program, runs=program,
                        about=f"{first.split()[0]}, its message in {place}, beside {peer}", needs=packages.split(),
                        setup=[*BEGINNING, *setup, made[place], *filter(None, [makes])], claims=claims, fail=[], command=command,
                        beside=beside, status=status, is_unprivileged=bool(user), pair=(first, peer))


def read_scenes(names: List[str]) -> List[Scene]:
    """The scenes of these names, or all that have a file of their own. A file of pairs is named as a whole, or by a scene of it."""
    alone = {scene.name: [scene] for scene in sorted(map(read_scene, FOLDER.glob("*" + ENDING)), key=lambda scene: scene.name)}
    pairs = {path.name.removesuffix(PAIRS): list(read_pairs(path)) for path in FOLDER.glob("*" + PAIRS)}
    there = {**alone, **pairs, **{scene.name: [scene] for scenes in pairs.values() for scene in scenes}}
    for name in names:
        if name not in there:
            raise Refused(f"there is no scene {name}; --list names them")
    return [scene for name in names or alone for scene in there[name]]


def version_of(package: str) -> Optional[str]:
    """The version of an installed package of a Debian system, or of a program of ours; None where there is none."""
    if package in OWN:
        found = shutil.which(package)
        return found and subprocess.run([found, "--version"], capture_output=True, text=True, check=True).stdout.split()[-1]
    if shutil.which("dpkg-query") is None:
        raise Refused("scenes need a system with Debian's packages: there is no dpkg-query")
    run = subprocess.run(["dpkg-query", "-W", "-f", "${db:Status-Abbrev} ${Version}", package], capture_output=True, text=True, check=False)
    status, _, version = run.stdout.partition(" ")
    return version.split()[-1] if run.returncode == 0 and status.startswith("ii") else None
