"""The command line."""

from __future__ import annotations

import argparse
import os
import sys
from collections.abc import Iterator, Sequence
from pathlib import Path

from .faults import wrong_faults
from .large import wrong_cases
from .planted import passed_plants
from .rows import WrongRow, name_of, rows_of, wrong_rows
from .streams import FACES, wrong_streams

ABOUT = f"""Holds a built program to what the rows of its crate have, crates/NAME/rows: its status, what it prints and what it says, for words and an
input. Then come streams that a process alone has: closed ones, a full disk, a folder to read, a reader that has gone, a connection that is reset; and for
maildir_cli scripts at each limit and past it, names that were chosen to collide, scripts that come in pieces, and one that is cut short at each byte;
and, by gcc or the compiler that CC names, reads and writes that are interrupted or fail amid a stream, a million reads, and memory that is refused. It
prints each that is not so, and ends with status 1 where there are any. It knows {', '.join(FACES)}."""

PLANTED_ABOUT = """checks the rows of maildir_cli themselves. The program is run through a shell that makes of it what each of four wrong mains would
be: status 0 for refusals, status 1 for wrong words, refusals on standard output, an `index` that runs `threads`. The rows must fail for each"""


def _faults(program: Path, is_planted: bool) -> Iterator[str]:
    name = name_of(program)
    rows = list(rows_of(name))

    def wrong(command: Sequence[str]) -> Iterator[str]:
        return wrong_rows(command, rows)

    if not rows:
        yield f"{name} has no rows"
    elif is_planted:
        yield from passed_plants(str(program), wrong)
    else:
        yield from wrong([str(program)])
        yield from wrong_streams([str(program)], FACES[name])
        if name == "maildir_cli":
            yield from wrong_cases([str(program)])
            yield from wrong_faults([str(program)])


def main() -> int:
    """The status is 0 where the program does all of it, 1 where it does not, and 2 where there is no such program."""
    parser = argparse.ArgumentParser(prog="check_face", description=ABOUT)
    parser.add_argument("program", type=Path, metavar="PROGRAM", help="as rt ci leaves it, crates/NAME/out/NAME")
    parser.add_argument("--planted", action="store_true", help=PLANTED_ABOUT)
    chosen = parser.parse_args()
    program: Path = chosen.program.resolve()
    if not program.is_file() or not os.access(program, os.X_OK) or name_of(program) not in FACES:
        print(f"check_face: {chosen.program} is none of the programs {', '.join(FACES)}", file=sys.stderr)
        return 2
    if chosen.planted and name_of(program) != "maildir_cli":
        parser.error("--planted is for maildir_cli")
    try:
        wrong = list(_faults(program, chosen.planted))
    except WrongRow as refused:
        wrong = [str(refused)]
    for line in wrong:
        print(f"check_face: {line}")
    return 1 if wrong else 0

