"""A script, played by the programs, and what they print."""

from __future__ import annotations

import subprocess
from collections.abc import Collection
from dataclasses import dataclass, field
from pathlib import Path

from judge_lib.refused import Refused

from .scene import Scene, shown

# What a script only prints, and the halves of its listings.
PASSED_OVER = (b"list ", b"read ", b"unique ", b"summary")
HALVES = (b"first ", b"second ")

# A folder, a place, a name, a stamp and a size, as the program prints them.
Row = tuple[bytes, ...]


@dataclass
class Step:
    """A step as the program printed it, and the rows of the directories after it."""

    actor: int
    call: str
    reply: str = ""
    moment: str = ""
    effect: str = ""
    answer: str = ""
    rows: tuple[Row, ...] = ()


@dataclass
class Programs:
    """The programs by their files."""

    deolmutt: Path
    cli: Path


@dataclass
class Played:
    """An interleaving: the rows at the beginning, and the steps."""

    beginning: tuple[Row, ...] = ()
    steps: list[Step] = field(default_factory=list)


def run(command: list[str], script: bytes) -> tuple[int, bytes, str]:
    """The status of a program, what it prints, and what it says."""
    try:
        done = subprocess.run(command, input=script, capture_output=True, check=False)
    except OSError as error:
        raise Refused(f"{command[0]} cannot be run: {error.strerror}") from None
    return done.returncode, done.stdout, shown(done.stderr).strip()


def check_script(programs: Programs, file: Path) -> None:
    """Refuses a script with a line that the program refuses."""
    try:
        script = file.read_bytes()
    except OSError as error:
        raise Refused(f"{file} cannot be read: {error.strerror}") from None
    status, _, said = run([str(programs.deolmutt), "log"], script)
    if status:
        raise Refused(f"{file}: {said}")


def lines_of(scene: Scene, path: list[int]) -> tuple[list[bytes], list[int]]:
    """The lines that take the steps of a path, and how many steps each actor has then taken."""
    done = [0] * len(scene.actors)
    lines = [*scene.head, *(b"job " + actor.call for actor in scene.actors if not actor.folder)]
    for at in path:
        lines.append(scene.actors[at].step(done[at]))
        done[at] += 1
    return lines, done


def play_on(programs: Programs, scene: Scene, path: list[int], left: Collection[int]) -> tuple[list[bytes], bytes]:
    """The script that takes the steps of a path and then lets one actor after another of those left come to its end, and its log.

    Where a job was done with fewer steps, the first of its lines too many is refused, and they are taken out."""
    begin, done = lines_of(scene, path)
    more = [line for at, actor in enumerate(scene.actors) if at in left for line in actor.steps_from(done[at])]
    while True:
        lines = [*begin, *more]
        status, log, said = run([str(programs.deolmutt), "log", "--states"], b"\n".join(lines) + b"\n")
        if status == 0:
            return lines, log
        number = said.removeprefix("line ").split(":")[0]
        if not said.endswith(": answered") or int(number) <= len(begin):
            raise Refused(f"{scene.name}: {said}")
        more = without(more, int(number) - 1 - len(begin))


def without(lines: list[bytes], first: int) -> list[bytes]:
    """The lines but those of the job of one of them, from that one on."""
    job = lines[first].split(b" ")[1]
    return lines[:first] + [line for line in lines[first:] if line.startswith(HALVES) or line.split(b" ")[1] != job]


def read_log(lines: list[bytes], log: bytes, scene: Scene) -> Played:
    """What a log says, with the steps of listings at their places: these change nothing, and no log has them."""
    played = Played()
    logged: list[Step] = []
    rows: list[Row] = []
    numbers = {actor.number: at for at, actor in enumerate(scene.actors) if not actor.folder}
    for line in log.split(b"\n"):
        words = line.split(b" ")
        if line == b"# state":
            rows = []
            states_of(played, logged, rows)
        elif words[0] == b"#" and words[1] in (b"tmp", b"new", b"cur"):
            rows.append((words[2], words[1], *words[3:]))
            states_of(played, logged, rows)
        elif words[0] == b"#":
            setattr(logged[-1], shown(words[1]), shown(b" ".join(words[2:])))
        elif words[0].isdigit() and words[2] != b"answer":
            logged.append(step_of(words, numbers))
    place_listings(lines, scene, played, logged)
    return played


def states_of(played: Played, logged: list[Step], rows: list[Row]) -> None:
    """Keeps the rows of a state where they belong: after the last step, or at the beginning."""
    if logged:
        logged[-1].rows = tuple(rows)
    else:
        played.beginning = tuple(rows)


def step_of(words: list[bytes], numbers: dict[int, int]) -> Step:
    """The step of a line of the log."""
    actor = numbers[int(words[1].removeprefix(b"job"))]
    call, rest = words[2], words[3:]
    if call == b"list":
        names = shown(b" ".join(rest[3:])) or "nothing"
        return Step(actor, f"list {shown(rest[0])} {shown(rest[1])}", f"{shown(rest[2])}: {names}", shown(words[0]))
    return Step(actor, shown(b" ".join([call, *rest[:-1]])), shown(rest[-1]), shown(words[0]))


def place_listings(lines: list[bytes], scene: Scene, played: Played, logged: list[Step]) -> None:
    """Puts the steps of listings among those of jobs, in the order of the script's lines."""
    left = iter(logged)
    last = played.beginning
    for line in lines:
        verb, *words = line.split(b" ")
        if verb in (b"first", b"second"):
            at = next(at for at, actor in enumerate(scene.actors) if actor.folder == words[0])
            place = "new" if verb == b"first" else "cur"
            played.steps.append(Step(at, f"list {shown(words[0])} {place}", "ok: " + names_in(last, words[0], place), rows=last))
        elif verb == b"step":
            played.steps.append(next(left))
            last = played.steps[-1].rows
        elif verb == b"finish":
            for step in left:
                played.steps.append(step)
                last = step.rows
                if step.answer and scene.actors[step.actor].number == int(words[0]):
                    break


def names_in(rows: tuple[Row, ...], folder: bytes, place: str) -> str:
    """The names that a state shows in a directory."""
    return shown(b" ".join(row[2] for row in rows if row[0] == folder and row[1] == place.encode())) or "nothing"


def play_logged(programs: Programs, scene: Scene, path: list[int], left: Collection[int]) -> Played:
    """An interleaving that begins with a path, played by the program that logs alone: what its listings list isn't there."""
    lines, log = play_on(programs, scene, path, left)
    return read_log(lines, log, scene)


def play(programs: Programs, scene: Scene, path: list[int], left: Collection[int] | None = None) -> Played:
    """An interleaving that begins with a path, played by the program that logs and by the one that lists, which must agree.

    All actors are taken to be left, unless it is known which are: those that weren't done before the last step of the path."""
    lines, log = play_on(programs, scene, path, range(len(scene.actors)) if left is None else left)
    return compared(programs, scene, lines, read_log(lines, log, scene))


def play_whole(programs: Programs, scene: Scene) -> Played:
    """The script's own order of steps."""
    lines = scene.whole
    status, log, said = run([str(programs.deolmutt), "log", "--states"], b"\n".join(lines) + b"\n")
    if status:
        raise Refused(f"{scene.name}: {said}")
    return compared(programs, scene, lines, read_log(lines, log, scene))


def compared(programs: Programs, scene: Scene, lines: list[bytes], played: Played) -> Played:
    """The same interleaving, with what each listing lists. What `maildir_cli play` lists in the end must be what the last rows show."""
    played_lines = [line for line in lines if not line.startswith(PASSED_OVER)]
    steps = [line for line in played_lines if not line.startswith(HALVES)]
    last = played.steps[-1].rows if played.steps else played.beginning
    want = [message_of(row) for folder in scene.folders() for row in sorted(messages(last, escaped(folder)))]
    if listed(programs, scene, [*steps, *(b"list " + folder for folder in scene.folders())]) != want:
        raise Refused(f"{scene.name}: the last state is not what `maildir_cli play` lists")
    for at, actor in enumerate(scene.actors):
        own = (b"first " + actor.folder, b"second " + actor.folder)
        if actor.folder:
            found = listed(programs, scene, [line for line in played_lines if line in own or not line.startswith(HALVES)])
            half = [step for step in played.steps if step.actor == at][-1]
            half.answer = "lists " + (", ".join(shown(line) for line in found) or "nothing")
    return played


def listed(programs: Programs, scene: Scene, lines: list[bytes]) -> list[bytes]:
    """The lines of listings that `maildir_cli play` prints."""
    status, printed, said = run([str(programs.cli), "play"], b"\n".join(lines) + b"\n")
    if status:
        raise Refused(f"{scene.name}: {said}")
    return [line for line in printed.split(b"\n") if line.split(b" ")[0] in (b"new", b"cur")]


def escaped(name: bytes) -> bytes:
    """A name as a log has it. A word of a script has no space and no line end."""
    return name.replace(b"\\", b"\\\\")


def messages(rows: tuple[Row, ...], folder: bytes) -> list[tuple[bytes, Row]]:
    """The messages of a folder, each after its unique name."""
    return [(row[2].split(b":")[0], row) for row in rows if row[0] == folder and row[1] != b"tmp" and not row[2].startswith((b".", b":"))]


def message_of(found: tuple[bytes, Row]) -> bytes:
    """A row as a listing shows it."""
    unique, (_, place, name, _, size) = found
    _, colon, info = name.partition(b":")
    letters = bytes(sorted(set(info[2:]))) or b"-"
    is_flags = not colon or (info.startswith(b"2,") and (info == b"2," or info[2:].isalpha()))
    return b" ".join([place, unique.replace(b"\\\\", b"\\"), letters if is_flags else b"?", size])
