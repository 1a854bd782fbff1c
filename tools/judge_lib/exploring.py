"""Runs commands in every interleaving of their directory calls, and has each run judged."""

from __future__ import annotations

import os
import subprocess
import tempfile
import time
from contextlib import contextmanager
from typing import Callable, Dict, FrozenSet, Iterator, List, NamedTuple, Optional, Sequence, Tuple

from .claims import Claim
from .folders import Folder, Folders, files_of, found_folders, named_folders
from .judge_run import Finding, judge
from .making import Beginning, Log, Making
from .processes import Actors, Processes
from .refused import Refused
from .schedules import Played, branches, play
from .statuses import Statuses, check_ran
from .stopping import NAMES, SIDES, Stepped
from .strace_lines import LOOKS

_SECONDS_AFTER_WAITING = 30
# How the name of a run's folder begins, and the directory in it that has the maildirs.
PREFIX = "explore-"
BASE = "work"
# After which calls a command stops: those on names and readings, or looks too.
STOPS = {"names": NAMES, "looks": f"{NAMES} {LOOKS}"}


class Pairing(NamedTuple):
    """Commands of a shell, what makes the maildirs before each run, what status 0 of each claims, and after which calls they stop.

    Comments tell of looks at names where it is asked for."""

    setup: str
    commands: Sequence[str]
    claims: Dict[Optional[str], List[Claim]]
    folders: Tuple[str, ...] = ()
    stops: str = STOPS["looks"]
    allowed: Tuple[str, ...] = ()
    tells_looks: bool = False

    def judged_folders(self, base: bytes) -> List[Folder]:
        """The maildirs that are judged, of a run in a directory."""
        return named_folders([os.fsencode(word) for word in self.folders], base) if self.folders else found_folders(base)


class Bounds(NamedTuple):
    """How many runs and seconds a search may take."""

    runs: int
    seconds: float


class Broken(NamedTuple):
    """The first run that broke a clause, how many did, and whose steps broke it in any."""

    order: str
    log: bytes
    finding: Finding
    count: int
    actors: FrozenSet[str] = frozenset()


class Order(NamedTuple):
    """How the commands of an interleaving ended, which clauses it breaks, and all that was found."""

    statuses: Statuses
    clauses: List[str]
    found: Tuple[Finding, ...] = ()


class Explored(NamedTuple):
    """What all runs showed."""

    orders: Dict[str, Order]
    waited: int
    is_whole: bool
    broken: Dict[str, Broken]

    def breaking(self) -> int:
        """How many interleavings break the law."""
        return sum(bool(order.clauses) for order in self.orders.values())

    def without_call(self) -> str:
        """The commands that made no call in any order."""
        sides = {side for order in self.orders.values() for side in order.statuses}
        return "".join(sorted(sides - set("".join(self.orders))))


Tell = Callable[[str], None]
Keep = Callable[[str, Log, Order], None]


def explore(pairing: Pairing, bounds: Bounds, tell: Tell, keep: Keep) -> Explored:
    """Plays every interleaving, as far as the bounds allow."""
    begun, runs, waited, left = time.monotonic(), 0, 0, [""]
    orders: Dict[str, Order] = {}
    broken: Dict[str, Broken] = {}
    while left and runs < bounds.runs and time.monotonic() - begun < bounds.seconds:
        prefix = left.pop()
        played, log = run_once(pairing, prefix)
        runs += 1
        waited += played.waits
        left += branches(played, prefix)
        if played.order not in orders:
            orders[played.order] = judged(pairing, played.order, log, broken)
            keep(played.order, log, orders[played.order])
            tell(f"{runs} runs, {len(orders)} interleavings, {len(broken)} clauses broken")
    return Explored(orders, waited, not left, broken)


def explore_one(pairing: Pairing, prefix: str, keep: Keep) -> Explored:
    """Plays one interleaving."""
    broken: Dict[str, Broken] = {}
    played, log = run_once(pairing, prefix)
    order = judged(pairing, played.order, log, broken)
    keep(played.order, log, order)
    return Explored({played.order: order}, played.waits, True, broken)


def judged(pairing: Pairing, order: str, log: Log, broken: Dict[str, Broken]) -> Order:
    """What the judge finds in a run, which is counted among what others have broken."""
    text = log.encoded()
    found = judge(text, pairing.allowed)
    note(order, text, found, broken)
    return Order(log.statuses, list(dict.fromkeys(finding.clause for finding in found)), tuple(found))


def note(order: str, log: bytes, found: List[Finding], broken: Dict[str, Broken]) -> bool:
    """Counts what the judge has found in a run among what others have broken, and answers whether it is anything."""
    for clause in dict.fromkeys(finding.clause for finding in found):
        those = [finding for finding in found if finding.clause == clause]
        former = broken.get(clause, Broken(order, log, those[0], 0))
        actors = former.actors.union(line_of(log, finding.line).split()[0] for finding in those)
        broken[clause] = former._replace(count=former.count + 1, actors=actors)
    return bool(found)


def line_of(log: bytes, number: int) -> str:
    """A line of a log, without its moment."""
    return log.split(b"\n")[number - 1].decode("utf-8", "replace").partition(" ")[2]


def run_once(pairing: Pairing, prefix: str) -> Tuple[Played, Log]:
    """Plays one interleaving, in a directory of its own."""
    with rooms(pairing.setup) as (base, room):
        stepped, making = started(pairing, base, room)
        try:
            played = play(stepped, prefix)
            if not stepped.run_to_end(_SECONDS_AFTER_WAITING):
                raise Refused(f"the commands did not end, after the calls {played.order}")
        finally:
            stepped.close()
        return played, ended(stepped, making)


@contextmanager
def rooms(setup: str) -> Iterator[Tuple[str, str]]:
    """A directory with the maildirs that are made for a run, and one beside it."""
    with tempfile.TemporaryDirectory(prefix=PREFIX) as top:
        base, room = os.path.join(top, BASE), os.path.join(top, "room")
        os.mkdir(base)
        os.mkdir(room)
        make_ready(setup, base)
        yield base, room


def make_ready(setup: str, base: str) -> None:
    """Runs what makes the maildirs, in a directory."""
    made = subprocess.run(["sh", "-ec", setup], cwd=base, stdin=subprocess.DEVNULL, capture_output=True, check=False)
    if made.returncode:
        raise Refused(f"the setup ended with status {made.returncode}: {made.stderr.decode('utf-8', 'replace').strip()}")


def started(pairing: Pairing, base: str, room: str) -> Tuple[Stepped, Making]:
    """The commands, stopped before their first call, and the log that is made of them."""
    real = os.fsencode(os.path.realpath(base))
    folders = pairing.judged_folders(real)
    processes = Processes(Actors("one", "all"), real)
    notes = [f"tools/explore: {side} is {command}" for side, command in zip(SIDES, pairing.commands)]
    begin = Beginning(Folders(folders), files_of(folders))
    making = Making(begin, processes, pairing.claims, notes, tells_looks=pairing.tells_looks)
    return Stepped(pairing.commands, base, room, making, processes, pairing.stops), making


def ended(stepped: Stepped, making: Making) -> Log:
    """The log of commands that have ended, each of which ran."""
    log, said = making.log(), stepped.said()
    statuses = {side: log.statuses[side] for side in stepped.sides if side in log.statuses}
    check_ran(statuses, said)
    return log._replace(statuses=statuses, said=said)
