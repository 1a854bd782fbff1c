"""The command line."""

from __future__ import annotations

import argparse
import os
import shlex
import subprocess
import sys
from pathlib import Path

from judge_lib.progress import tell
from judge_lib.refused import Refused
from judge_lib.scene import read_scenes

from . import kept, ours
from .count import count
from .losses import Names
from .page import Scene as PageScene
from .page import page
from .picture import delivery, twice
from .play import Played, Programs, check_script, play_whole
from .races import EXAMPLES, RACES, TOP, Race
from .record import explored_runs, kept_of, record, written
from .scene import Scene, read_scene, shown
from .side import Side
from .tree import actors_of, interleavings

MOST = 1_000
PAGE = "docs/races.html"
PREVIEW = "docs/races.png"
LISTING = "A lists a maildir, while B moves the message u from new to cur"
ABOUT = """Makes a page that steps through races. Of a script's two or three jobs or listings it plays every interleaving, each by
deolmutt and by maildir_cli, and shows what they printed. With --explore it runs two commands of any programs in every order of their
directory calls, as tools/explore does, and shows what they did. With --docs it makes docs/races.html and the pictures of docs, of scripts
and of what is kept in tools/races.d; with --check it makes them and says whether those that are there are equal. With --record it runs the
scenes of docs/races.html anew, for which strace, the judge and the programs have to be there, and keeps what they did."""
MORE = """Of a script the orders are its own, and then those that part from it the fewest times. How many there are is counted by states,
and is called `at least` if 100,000 steps don't suffice. A step keeps the moment that its job has at that step in the script, and the last
moment holds for all further ones. Of commands an order is `lost or told falsely` if the judge finds something and every status is 0, or if
it finds GaveUp or AnsweredFalsely, and `said` if a program ended with another status."""


def options() -> argparse.ArgumentParser:
    """What the command line may say."""
    parser = argparse.ArgumentParser(prog="races", description=ABOUT, epilog=MORE)
    parser.add_argument("files", nargs="*", type=Path, metavar="FILE", help="a script")
    parser.add_argument("-o", dest="out", type=Path, metavar="OUT.html", help="where the page goes")
    explored = "what makes the maildirs, and two commands of sh, each in one word"
    parser.add_argument("--explore", nargs=3, metavar=("SETUP", "A", "B"), help=explored)
    parser.add_argument("--claims", action="append", default=[], metavar="WORDS", help="what status 0 claims, as in tools/explore")
    parser.add_argument("--most", type=int, default=MOST, metavar="N", help=f"the most interleavings of a script, {MOST} by itself")
    parser.add_argument("--deolmutt", type=Path, default=TOP / "crates/deolmutt/out/deolmutt", help="deolmutt, as it was built")
    parser.add_argument("--cli", type=Path, default=TOP / "crates/maildir_cli/out/maildir_cli", help="maildir_cli, as it was built")
    parser.add_argument("--docs", action="store_true", help="makes the page and the pictures of docs")
    parser.add_argument("--check", action="store_true", help="says whether those of docs are up to date")
    parser.add_argument("--record", nargs="*", metavar="SCENE", help="runs the scenes of the page anew, or these")
    return parser


def own_turns(scene: Scene, own: Played) -> list[int]:
    """Who takes the steps in the script itself. A listing takes two, however often the script makes it."""
    turns: list[int] = []
    for actor in actors_of(own):
        if not scene.actors[actor].folder or turns.count(actor) < 2:
            turns.append(actor)
    return turns


def played_side(programs: Programs, file: Path, most: int, letters: str) -> Side:
    """What Deolmutt does in a script's interleavings."""
    check_script(programs, file)
    scene = read_scene(file)
    own = play_whole(programs, scene)
    found, has_more = interleavings(programs, scene, own_turns(scene, own), most)
    number, is_all = count(programs, scene, found) if has_more else (len(found), True)
    there_are = f"{'' if is_all else 'at least '}{number:,}"
    print(f"races: {file}: took {len(found):,} interleavings of {there_are}", file=sys.stderr)
    named = file.resolve()
    words = named.relative_to(TOP) if named.is_relative_to(TOP) else file
    repeat = f"tools/races {shlex.quote(shown(os.fsencode(words)))} -o OUT.html"
    return ours.side_of(scene, found, own, there_are, letters, [repeat])


def script_scene(programs: Programs, file: Path, most: int) -> PageScene:
    """The race of a script."""
    side = played_side(programs, file, most, "ABC")
    about = read_scene(file)
    return PageScene(about.name, about.name.replace("-", " "), about.about, [side])


def race_scene(programs: Programs, race: Race) -> PageScene:
    """A race of docs/races.html."""
    sides = [kept.side_of(kept.read_kept(race.kept), race.names)] if race.kept else []
    program = race.names.programs[0] if race.kept else "Deolmutt"
    return PageScene(race.name, race.title, race.about, [*sides, played_side(programs, race.script, MOST, race.letters)], program)


def explored_scene(setup: str, commands: tuple[str, str], claims: list[str]) -> PageScene:
    """The race of two commands."""
    runs = explored_runs(setup, commands, claims, "looks", tell)
    claimed = [word for claim in claims for word in ("--claims", claim)]
    about = {
        "program": "Two commands",
        "package": f"{len(runs)} orders",
        "ran": "Run by tools/races --explore.",
        "commands": dict(zip("AB", commands)),
        "repeat": [shlex.join(["tools/races", "--explore", setup, *commands, *claimed, "-o", "OUT.html"])],
    }
    side = kept.side_of(about | kept_of(runs, ()), Names(("A", "B")))
    return PageScene("explored", " and ".join(commands), "Both commands in every order of their directory calls.", [side])


def documents(programs: Programs) -> dict[str, str]:
    """All that is made for docs, by its file."""
    scenes = [race_scene(programs, race) for race in RACES]
    script = read_scene(EXAMPLES / "deliver.script", fewest=1)
    listing = next(scene for scene in scenes if scene.name == "listing-beside-move")
    return {
        PAGE: page(scenes, is_of_docs=True),
        "docs/delivery.svg": delivery(script, play_whole(programs, script)),
        "docs/listing.svg": twice(listing, LISTING, "A listing beside a move: cur first, the message is missed; new first, it is listed"),
    }


def make_preview() -> None:
    """Makes the picture that other sites show of the page: its first screen, in Chromium. No check compares its bytes."""
    size = ["--window-size=1200,630", "--hide-scrollbars", "--force-prefers-reduced-motion"]
    words = ["chromium", "--headless=new", "--no-sandbox", "--disable-gpu", *size, f"--screenshot={TOP / PREVIEW}", (TOP / PAGE).as_uri()]
    try:
        subprocess.run(words, check=True, capture_output=True, timeout=60)
    except (OSError, subprocess.SubprocessError) as error:
        print(f"races: {PREVIEW} is as it was: {error}", file=sys.stderr)


def check(made: dict[str, str]) -> None:
    """Refuses what is not up to date."""
    for name, text in made.items():
        file = TOP / name
        if not file.exists() or file.read_text(encoding="utf-8") != text:
            raise Refused(f"{name} is not what tools/races --docs makes")
    print(f"{', '.join(made)}: up to date")


def keep(names: list[str]) -> None:
    """Runs the scenes of these names, or all of the page, and keeps what they did."""
    for name in names:
        if name not in [race.kept for race in RACES if race.kept]:
            raise Refused(f"{name}: no race of the page has this scene")
    for race in RACES:
        if race.kept and (not names or race.kept in names):
            one = record(read_scenes([race.kept])[0], race.allowed, tell)
            (kept.KEPT / f"{race.kept}.json").write_text(written(one), encoding="utf-8")
            print(f"races: {race.kept}: {len(one['orders'])} orders", file=sys.stderr)


def work(chosen: argparse.Namespace) -> None:
    """Makes what the command line asks for."""
    if chosen.record is not None:
        keep(chosen.record)
        return
    if chosen.explore:
        setup, first, second = chosen.explore
        chosen.out.write_text(page([explored_scene(setup, (first, second), chosen.claims)], is_of_docs=False), encoding="utf-8")
        return
    programs = Programs(chosen.deolmutt, chosen.cli)
    for program in (programs.deolmutt, programs.cli):
        if not os.access(program, os.X_OK):
            raise Refused(f"{program} is not there: build it, or name it by --deolmutt and --cli")
    if chosen.check:
        check(documents(programs))
    elif chosen.docs:
        for name, text in documents(programs).items():
            (TOP / name).write_text(text, encoding="utf-8")
        make_preview()
    else:
        scenes = [script_scene(programs, file, chosen.most) for file in chosen.files]
        chosen.out.write_text(page(scenes, is_of_docs=False), encoding="utf-8")


def main() -> int:
    """The status is 0 where all was made, and 1 where it was refused; wrong words end with 2."""
    chosen = options().parse_args()
    is_page = bool(chosen.files or chosen.explore)
    asked = (chosen.check, chosen.docs, chosen.record is not None, bool(chosen.files), bool(chosen.explore))
    if sum(asked) != 1 or is_page != bool(chosen.out) or (chosen.claims and not chosen.explore):
        options().error("FILE and -o OUT.html, or --explore SETUP A B and -o OUT.html, or --docs, or --check, or --record")
    if chosen.most < 1:
        options().error("--most is at least 1")
    try:
        work(chosen)
    except (Refused, OSError) as refused:
        print(f"races: {refused}", file=sys.stderr)
        return 1
    return 0
