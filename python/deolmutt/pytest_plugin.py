"""A fixture for pytest, which finds it where the package is installed."""

from __future__ import annotations

from typing import Iterator

import pytest

from .maildir import Maildir


@pytest.fixture
def maildir() -> Iterator[Maildir]:
    """A mailbox in memory, which begins empty: a `deolmutt.Maildir`."""
    with Maildir() as box:
        yield box
