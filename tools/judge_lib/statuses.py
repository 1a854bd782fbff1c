"""With which statuses commands end, and with which they were expected to."""

from __future__ import annotations

from typing import Dict, FrozenSet, Iterable, List, Mapping, Optional

from .refused import Refused

Statuses = Dict[str, Optional[int]]
Expected = Dict[Optional[str], FrozenSet[int]]

# A shell's statuses for a command that it can't run, and finds nowhere.
_NEVER_RAN = (126, 127)


def read_expected(texts: Iterable[str]) -> Expected:
    """Reads `[ACTOR:] STATUS..`, as `--status` has it."""
    expected: Expected = {}
    for text in texts:
        actor, _, numbers = text.rpartition(":")
        if not numbers.split() or not all(number.isdigit() for number in numbers.split()):
            raise Refused(f"--status {text}: is not [ACTOR:] STATUS..")
        expected[actor.strip() or None] = frozenset(map(int, numbers.split()))
    return expected


def shown(status: Optional[int]) -> str:
    """How a command ended."""
    return "a signal" if status is None else f"status {status}"


def unexpected(statuses: Mapping[str, Optional[int]], expected: Expected) -> List[str]:
    """The actors that ended otherwise than expected, which without a word is with status 0."""
    return [actor for actor, status in statuses.items()
            if status not in expected.get(actor, expected.get(None, frozenset({0})))]


def check_ran(statuses: Mapping[str, Optional[int]], said: Mapping[str, bytes]) -> None:
    """Refuses a command that never ran."""
    for actor, status in statuses.items():
        if status in _NEVER_RAN:
            words = said.get(actor, b"").decode("utf-8", "replace").strip().splitlines()
            raise Refused(f"{actor} did not run: {shown(status)}" + (f": {words[-1]}" if words else ""))
