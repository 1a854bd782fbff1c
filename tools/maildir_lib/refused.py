"""The refusal that ends a run."""

from __future__ import annotations

from contextlib import contextmanager
from typing import Iterator

from .shown import because


class Refused(Exception):
    """The run can't be made, as its text says. What it had begun is taken away."""


@contextmanager
def refusing(what: str) -> Iterator[None]:
    """Inside, a call that fails refuses the run: the text says what can't be done, and why."""
    try:
        yield
    except OSError as error:
        raise Refused(f"{what}: {because(error)}") from error
