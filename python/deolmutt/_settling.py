"""Many calls of a world, which is settled where it has had all that it takes."""

from __future__ import annotations

from typing import Callable, Iterable, List, Union

from .calls import Answer, Call
from .errors import DeolmuttError, Failed, NotSettled, TooManyJobs
from .world import World


def settle(world: World, lines: Callable[[], Iterable[bytes]]) -> None:
    """Gives a world as many calls again. It is loaded anew, from the lines of all that it holds, where the library has no settle."""
    try:
        world.settle()
    except NotSettled:
        world.reload(b"".join(lines()))


def call_many(world: World, calls: Iterable[Call], settle: Callable[[], None]) -> List[Union[Answer, Failed]]:
    """Makes calls, and answers how each ended, as `World.call_many` does.

    Where the world has had all its calls, `settle` gives it as many again, and the calls go on. The
    first that is refused otherwise is raised: its `done` has the answers of those before it.
    """
    left = list(calls)
    answers: List[Union[Answer, Failed]] = []
    while left:
        try:
            answers += world.call_many(left)
            break
        except TooManyJobs as error:
            answers += error.done
            left = left[len(error.done) :]
            settle()
        except DeolmuttError as error:
            error.done = [*answers, *error.done]
            raise
    return answers
