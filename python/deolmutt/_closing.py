"""What is closed at the end of its `with`."""

from __future__ import annotations

import ctypes
from typing import Any, Callable, NoReturn, TypeVar

from .errors import Closed

_Self = TypeVar("_Self", bound="Closing")


class Closing:
    """A class with a `close`, whose value closes at the end of its `with`."""

    def close(self) -> None:
        """Closes it."""
        raise NotImplementedError

    def __enter__(self: _Self) -> _Self:
        return self

    def __exit__(self, *_: object) -> None:
        self.close()


class Handle(Closing):
    """Memory of the library, which goes with the last object of it where it was not closed."""

    # What it is, in words.
    _what: str
    # It has none where it was not made, or was closed.
    _handle: ctypes.c_void_p

    def _open(self) -> ctypes.c_void_p:
        if not self._handle:
            raise Closed()
        return self._handle

    def _let_go(self, free: Callable[[ctypes.c_void_p], Any]) -> None:
        handle, self._handle = self._handle, ctypes.c_void_p()
        if handle:
            free(handle)

    def __del__(self) -> None:
        if getattr(self, "_handle", None):
            self.close()

    def __reduce__(self) -> NoReturn:
        raise TypeError(f"{self._what} can't be copied or pickled: it is memory of the library")
