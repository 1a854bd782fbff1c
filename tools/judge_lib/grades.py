"""What findings cost, as the judge grades them, and as their log says otherwise."""

from __future__ import annotations

from typing import Dict, List

from .judge_run import Finding

# The grades, the worst first.
GRADES: Dict[str, str] = {
    "lost": "mail or a flag is gone, or is where a kill or a crash can take it",
    "misled": "somebody saw, or was told, what was not so",
    "owed": "other programs, or whoever handed the mail over, rely on the contrary",
    "custom": "a convention",
}


def at_least(grade: str) -> List[str]:
    """A grade and the worse ones."""
    grades = list(GRADES)
    return grades[:grades.index(grade) + 1]


def grade_of(log: bytes, finding: Finding) -> str:
    """The grade of a finding in its log."""
    if finding.clause == "SeenBeforeWhole" and _is_said_otherwise(log.split(b"\n")[:finding.line]):
        return "custom"
    return finding.grade


def _is_said_otherwise(lines: List[bytes]) -> bool:
    """Whether a comment says that the last line isn't quite what was done: what is made is a directory, say."""
    made = next(number for number in range(len(lines) - 1, -1, -1) if lines[number].split(b" ")[2:3] != [b"write"])
    return b": the next line" in lines[made - 1] and lines[made - 1].startswith(b"# not said: ")
