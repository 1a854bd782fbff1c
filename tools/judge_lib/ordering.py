"""The order in which calls took effect: that of their returns, unless calls overlap and their replies tell another one.

The lines of calls that overlap have ticks. The judge keeps the order of the lines where it gives all replies, and refuses a log that has no
such order, so no program is blamed for an order that nobody knows. It is looked for here too: whether an `open` created its file,
which path an open file has, and what a status claims all go by what was there at that moment, and a log says only what came of it.
"""

from __future__ import annotations

from typing import Callable, Iterator, List, NamedTuple, Optional

from .directories import Directories
from .steps import Step

# So many times the steps of a group are tried, until the search for its order ends.
_TRIES = 20
# So many steps may wait before it is looked again whether a group of them is whole; where none is, twice as many.
_WAITING = 64


class Taking:
    """Takes steps, which come in the order of their returns, a group of those that overlap after the other. `settle` is called after each
    group, and takes what the directories have been told."""

    def __init__(self, directories: Directories, settle: Callable[[], None]) -> None:
        self._directories, self._settle = directories, settle
        self._waiting: List[Step] = []
        self._most = _WAITING

    def add(self, steps: List[Step], least: Optional[int]) -> None:
        """Adds steps. `least` is where the first call began that has not returned yet."""
        if least is None and not self._waiting and len(steps) == 1:
            self._directories.told += steps[0].take(self._directories)
            self._settle()
            return
        self._waiting += steps
        if least is None or least > self._waiting[-1].when.end or len(self._waiting) > self._most:
            self._take_whole_groups(least)
            self._most = max(_WAITING, 2 * len(self._waiting))

    def end(self) -> None:
        """Takes all that wait."""
        self._take_whole_groups(None)

    def _take_whole_groups(self, least: Optional[int]) -> None:
        groups = list(_groups(self._waiting, least))
        self._waiting = groups.pop() if groups and least is not None and least <= groups[-1][-1].when.end else []
        for group in groups:
            self._take(group)

    def _take(self, group: List[Step]) -> None:
        # The steps of one call overlap no other.
        overlaps = any(step.when.end != group[0].when.end for step in group)
        for step in group:
            step.overlaps = overlaps
        if len(group) == 1 or not _search(group, self._directories):
            _take_in_order_of_returns(group, self._directories)
        self._settle()


class _Tried(NamedTuple):
    """A state of the search: the steps that are left, which of them is tried next, and what to come back to."""

    left: List[Step]
    next: int
    mark: int
    told: int


def _groups(steps: List[Step], least: Optional[int]) -> Iterator[List[Step]]:
    """The steps in groups such that each group ended before the next began, and the last before a call that has not returned."""
    begins, first = [], steps[-1].when.end + 1 if least is None and steps else least or 0
    for step in reversed(steps):
        begins.append(first)
        first = min(first, step.when.begin)
    group: List[Step] = []
    for step, begin in zip(steps, reversed(begins)):
        group.append(step)
        if begin > step.when.end:
            yield group
            group = []
    if group:
        yield group


def _take_in_order_of_returns(group: List[Step], directories: Directories) -> None:
    if len(group) > 1:
        text = f"the order of {len(group)} calls that overlap: none that was tried gives all their replies"
        directories.told.append(group[0].comment(text))
    for step in group:
        directories.told += step.take(directories)


def _search(group: List[Step], directories: Directories) -> bool:
    """Takes a group in an order that gives all replies, that of the returns where it does; False where none was found."""
    path = [_Tried(group, 0, directories.mark(), len(directories.told))]
    start = path[0]
    for _ in range(_TRIES * len(group)):
        now = path.pop()
        _go_back(directories, now)
        if not now.left:
            return True
        number = _next_fitting(now, directories)
        if number is None:
            if not path:
                break
            continue
        path.append(now._replace(next=number + 1))
        directories.told += now.left[number].take(directories)
        path.append(_Tried(now.left[:number] + now.left[number + 1:], 0, directories.mark(), len(directories.told)))
    _go_back(directories, start)
    return False


def _go_back(directories: Directories, tried: _Tried) -> None:
    directories.take_back(tried.mark)
    del directories.told[tried.told:]


def _next_fitting(tried: _Tried, directories: Directories) -> Optional[int]:
    """The first step from a number on that may be next: none that is left ended before it began, and its reply fits."""
    for at in range(tried.next, len(tried.left)):
        step = tried.left[at]
        if step.when.begin <= tried.left[0].when.end and step.fits(directories):
            return at
    return None
