"""The methods of `mailbox.Maildir` that the mailbox in memory and the one on a disk have alike."""

from __future__ import annotations

import io
import mailbox
from contextlib import nullcontext
from email.message import Message as EmailMessage
from typing import IO, Any, Callable, Iterator, Optional, Protocol, Union

from ._closing import Closing
from ._message import Message, check_flags, flags_in, others_than


class Readable(Protocol):
    """A file that is open for reading bytes."""

    def read(self, __length: int = ...) -> bytes: ...

    def readline(self) -> bytes: ...


# What `add` takes, as in `mailbox`. It warns of a StringIO, and takes it by its ASCII bytes.
Addable = Union[EmailMessage, str, bytes, io.StringIO, Readable]
Factory = Callable[[IO[bytes]], Any]


class BaseMaildir(Closing, mailbox.Mailbox):  # type: ignore[type-arg]
    """A mailbox whose keys don't change with the names of the files."""

    # What stands before info in the names of files.
    colon = ":"
    _onetime_keys: Optional[Iterator[str]] = None

    # Keys.

    def iterkeys(self) -> Iterator[str]:
        """The keys of the messages that are there now. Those removed meanwhile are passed over."""
        return (key for key in self.keys() if key in self)

    def next(self) -> Any:
        """The next message of an iteration that a mailbox has once, or None after the last."""
        if self._onetime_keys is None:
            self._onetime_keys = self.iterkeys()
        for key in self._onetime_keys:
            try:
                return self[key]
            except KeyError:
                continue
        return None

    # Flags and info by key.

    def get_info(self, key: str) -> str:
        """What stands after the first colon of a message's name. Raises KeyError for no message."""
        with self._held():
            return self._lookup(key).info or ""

    def set_info(self, key: str, info: str) -> None:
        """Sets the flags that info says: it is empty, or `2,` and letters, else `OtherInfo`.

        A message of cur keeps the info `2,` where it is to be empty.
        """
        if not isinstance(info, str):
            raise TypeError(f"info must be a string: {type(info)}")
        self.set_flags(key, flags_in(info))

    def get_flags(self, key: str) -> str:
        """The flags of a message, as its name spells them. Raises KeyError for no message."""
        with self._held():
            return self._lookup(key).flags

    def set_flags(self, key: str, flags: str) -> None:
        """Gives a message these flags and no others. One in new that is given any goes to cur.

        Raises KeyError for no message, `BadFlag` for what is no letter, and `OtherInfo` where the
        message has another program's mark.
        """
        check_flags(flags)
        self._change_flags(key, flags, others_than(flags))

    def add_flag(self, key: str, flag: str) -> None:
        """Adds a flag, or some, to those that the message has by then. Else as `set_flags`."""
        check_flags(flag)
        self._change_flags(key, flag, "")

    def remove_flag(self, key: str, flag: str) -> None:
        """Takes a flag, or some, away from those that the message has by then. Else as `set_flags`."""
        check_flags(flag)
        self._change_flags(key, "", flag)

    # The mailbox as a whole.

    def flush(self) -> None:
        """Does nothing: each change is there at once, in memory or on the disk."""

    def lock(self) -> None:
        """Does nothing, as for `mailbox.Maildir`: a maildir needs no lock."""

    def unlock(self) -> None:
        """Does nothing: there is no lock."""

    # What the methods share.

    def _held(self) -> Any:
        """Keeps other threads out for the length of a method, where the mailbox is for one at a time."""
        return nullcontext()

    def _lookup(self, key: str) -> Message:
        """Where a message is. Raises KeyError for no message."""
        raise NotImplementedError

    def _change_flags(self, key: str, add: str, remove: str) -> None:
        """Adds flags to a message, and takes flags away."""
        raise NotImplementedError

    def _body(self, message: Addable) -> bytes:
        """The bytes of a message, as the base class writes them to a file."""
        if type(message) is bytes:
            return message
        out = io.BytesIO()
        # The base class has it, and says nothing of its type.
        self._dump_message(message, out)  # type: ignore[attr-defined]
        return out.getvalue()


def no_message(key: object) -> KeyError:
    return KeyError(f"No message with key: {key}")
