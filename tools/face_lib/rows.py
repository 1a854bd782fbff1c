"""The rows that a program is held to: what it comes to for its words and its standard input."""

from __future__ import annotations

import itertools
import re
import subprocess
from collections.abc import Callable, Iterable, Iterator, Sequence
from pathlib import Path
from typing import NamedTuple

TOP = Path(__file__).resolve().parents[2]
MOST_SECONDS = 60

_ESCAPE = re.compile(r"\\(x[0-9a-f]{2}|.|$)")
_ESCAPED = {"n": "\n", "r": "\r", "t": "\t", "0": "\0", "\\": "\\"}
_CHOICE = re.compile(r"\{([^}]*)\}")


class Ended(NamedTuple):
    """What a program came to."""

    status: int
    printed: bytes
    said: bytes


NOT_ENDED = Ended(-1, b"", b"not ended after a minute")


class Row(NamedTuple):
    """Words and an input. `is_right` says whether an end is right, and `example` is a right one."""

    words: list[str]
    input: bytes
    is_right: Callable[[Ended], bool]
    example: Ended


class WrongRow(Exception):
    """A file of rows that cannot be read, with the line."""


def name_of(program: Path) -> str:
    """The crate of a built program, whichever compiler built it."""
    return program.name.removesuffix(".by-rattle")


def rows_of(name: str) -> Iterator[Row]:
    """The rows of a program's crate, from its folder `rows`, and for deolmutt, which judges, the logs of judge_examples."""
    for file in sorted((TOP / "crates" / name / "rows").glob("*.rows")):
        yield from rows_in_file(str(file.relative_to(TOP)))
    if name == "deolmutt":
        yield from map(_judged, sorted((TOP / "crates/judge_examples/data").glob("*.log")))


def rows_in_file(name: str) -> Iterator[Row]:
    """The rows of a file, by its path from the top."""
    return rows_in(name, (TOP / name).read_text(encoding="utf-8"))


def rows_in(name: str, text: str) -> Iterator[Row]:
    """The rows of a text. Its first line names the columns, which `|` parts; lines that begin with `#` are passed over.

    In a column `\\n`, `\\r`, `\\t`, `\\0` and `\\\\` are as in code, and `\\x7c` is the byte of that number, here `|`. In the words `{1,3}` stands
    for 1 in one run, and for 3 in another."""
    lines = [(number, line) for number, line in enumerate(text.splitlines(), 1) if line and not line.startswith("#")]
    columns = lines[0][1].split("|")
    for number, line in lines[1:]:
        cells = line.split("|")
        if len(cells) != len(columns):
            raise WrongRow(f"{name}:{number}: {len(cells)} columns, and not {len(columns)}")
        try:
            yield from _rows(dict(zip(columns, cells)))
        except (KeyError, ValueError) as error:
            raise WrongRow(f"{name}:{number}: {error}") from None


def run(command: Sequence[str], words: Iterable[str], given: bytes) -> Ended:
    """A run of a program. One that does not end has the status -1."""
    try:
        done = subprocess.run([*command, *words], input=given, capture_output=True, timeout=MOST_SECONDS, check=False)
    except subprocess.TimeoutExpired:
        return NOT_ENDED
    return Ended(done.returncode, done.stdout, done.stderr)


def wrong_rows(command: Sequence[str], rows: Iterable[Row]) -> Iterator[str]:
    """The rows that aren't so."""
    for row in rows:
        ended = run(command, row.words, row.input)
        if not row.is_right(ended):
            yield f"{' '.join(row.words) or 'no words'}, over {row.input!r}: {ended}, and not {row.example}"


def _rows(columns: dict[str, str]) -> Iterator[Row]:
    if "clause" in columns:
        yield _earlier(columns)
        return
    if "fault" in columns:
        yield _third_line(columns)
        return
    given, said = _bytes(columns["input"]), _bytes(columns["said"])
    begins = "begins" in columns
    wanted = Ended(int(columns["status"]), _bytes(columns["begins" if begins else "printed"]), said)
    for words in _words(columns["words"]):
        yield Row(words, given, lambda ended: _is_so(wanted, ended, begins), wanted)


def _earlier(columns: dict[str, str]) -> Row:
    """The judge finds a clause at a line, and names the earlier line that it goes back to."""
    before = f'"before":{columns["before"]},'.encode()
    clause, number = f'"clause":"{columns["clause"]}",'.encode(), f'"line":{columns["line"]},'.encode()

    def is_right(ended: Ended) -> bool:
        found = (line for line in ended.printed.splitlines() if before in line and clause in line and number in line)
        return (ended.status, ended.said) == (1, b"") and any(found)

    return Row(["judge", "--json"], _bytes(columns["input"]), is_right, Ended(1, b"{" + before + clause + number + b"}\n", b""))


def _third_line(columns: dict[str, str]) -> Row:
    """The third line of a log is read, whatever is found there, or the log is refused for it."""
    given = b"maildir_log 1\nfolder i\n" + _bytes(columns["line"]) + b"\n"
    if columns["fault"] != "read":
        wanted = Ended(2, b"", b"line 3: " + _bytes(columns["fault"]) + b"\n")
        return Row(["judge"], given, lambda ended: ended == wanted, wanted)

    def is_right(ended: Ended) -> bool:
        found = ended.printed.splitlines()
        return ended.status == (1 if found else 0) and ended.said == b"" and all(line.startswith(b"line 3: ") for line in found)

    return Row(["judge"], given, is_right, Ended(0, b"", b""))


def _judged(log: Path) -> Row:
    """What the file beside a log has: a line `LINE CLAUSE` for each finding, or the line `line N: TEXT` of a text that is no log, as the library
    for C has it. The program's may go on with the wrong word."""
    found = log.with_suffix(".found").read_bytes()
    wanted = Ended(2, b"", found) if found.startswith(b"line ") else Ended(1 if found else 0, found, b"")
    with_word = re.compile(re.escape(wanted.said.rstrip(b"\n")) + rb": word [^\n]*\n")

    def is_right(ended: Ended) -> bool:
        said = wanted.said if with_word.fullmatch(ended.said) else ended.said
        return ended._replace(said=said) == wanted

    return Row(["judge", "--lines"], log.read_bytes(), is_right, wanted)


def _is_so(wanted: Ended, ended: Ended, begins: bool) -> bool:
    printed = ended.printed[: len(wanted.printed)] if begins else ended.printed
    return ended._replace(printed=printed) == wanted


def _words(text: str) -> Iterator[list[str]]:
    choices = [each.split(",") for each in _CHOICE.findall(text)]
    for chosen in itertools.product(*choices):
        given = iter(chosen)
        yield _CHOICE.sub(lambda _: next(given), text).split()


def _bytes(text: str) -> bytes:
    return _ESCAPE.sub(lambda it: chr(int(it[1][1:], 16)) if it[1][:1] == "x" else _ESCAPED[it[1]], text).encode("latin-1" if text.isascii() else "ascii")
