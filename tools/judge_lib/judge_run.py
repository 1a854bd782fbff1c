"""Asks the judge about a log."""

from __future__ import annotations

import base64
import json
import os
import subprocess
from pathlib import Path
from typing import Any, Dict, Iterable, List, NamedTuple, Optional

from .refused import Refused

BUILT = Path(__file__).resolve().parents[2] / "crates/deolmutt/out/deolmutt"

# What a finding of each clause says, in the words of docs/JUDGE.md.
SENTENCES: Dict[str, str] = {
    "NotADirectory": "no directory gives this reply, or the log lacks a call before",
    "Overwritten": "a path names another file than before",
    "SeenBeforeWhole": "a message is made empty, or written to, where readers see it",
    "Mixed": "a file is written to by another program than made it",
    "NotFlushed": "a message begins to be seen whose last bytes were not flushed",
    "TwoNames": "a second path of a message is added in its folder",
    "Gone": "a unique name leaves its folder otherwise than by unlink of a name with T",
    "UsedAgain": "a unique name that had gone is there again as another file",
    "MovedBack": "a message that was in cur is in new",
    "CleanedEarly": "another program's file in tmp goes before it is 36 hours old",
    "Unlisted": "a listing lacks a message that was in the folder all the while",
    "GaveUp": "a call was refused, and the status is 0 without another look",
    "AnsweredFalsely": "what the status is taken to claim is not so",
}


class Finding(NamedTuple):
    """A line of the log, the clause that it breaks, and what that costs."""

    line: int
    clause: str
    grade: str = "lost"


class Told(NamedTuple):
    """A finding with all that the judge says of it: who made which call, why it breaks the clause, and the earlier line that it goes back to."""

    line: int
    clause: str
    actor: str
    call: str
    why: str
    before: Optional[int]


def deolmutt() -> str:
    """The program that judges: the built one, or the one that DEOLMUTT names."""
    given = os.environ.get("DEOLMUTT")
    program = given or str(BUILT)
    if not os.access(program, os.X_OK):
        raise Refused(f"{program}: is no program" if given else
                      "deolmutt is not built: run ./deolmutt build, or name it by DEOLMUTT")
    return program


def judge(log: bytes, allowed: Iterable[str] = ()) -> List[Finding]:
    """What the judge finds in a log, but for the clauses that are allowed."""
    return [Finding(each["line"], each["clause"], each["grade"]) for each in _found(allowed, input=log)]


def judge_file(path: str, allowed: Iterable[str]) -> List[Told]:
    """What the judge says of a log's file."""
    with open(path, "rb") as log:
        return [_told(each) for each in _found(allowed, stdin=log)]


def _told(found: Dict[str, Any]) -> Told:
    words = {name: found.get(name) or base64.b64decode(found.get(name + "_base64", "")).decode("utf-8", "backslashreplace")
             for name in ("actor", "call")}
    return Told(found["line"], found["clause"], words["actor"], words["call"], found["why"], found["before"])


def _found(allowed: Iterable[str], **given: Any) -> List[Dict[str, Any]]:
    words = [word for clause in allowed for word in ("--allow", clause)]
    run = subprocess.run([deolmutt(), "judge", "--json", *words], capture_output=True, check=False, **given)
    if run.returncode not in (0, 1):
        raise Refused(f"the judge ended with status {run.returncode}: {run.stderr.decode('utf-8', 'replace').strip()}")
    # A name may have characters at which lines of text end too, as U+2028.
    return [json.loads(line) for line in run.stdout.splitlines()]
