"""Which directory of a tree the name of a folder is, one to one.

    the tree itself        INBOX
    .Sent, .Lists.qmail    Sent, Lists.qmail        a Maildir++ folder, without its first dot
    work, work/2024        :work, :work:2024        any other directory, with a colon for each step

Bytes that such a name can't hold are written as `%` and two hexadecimal digits: the percent sign,
space, LF and CR; in the names of other directories the colon too; in that of a Maildir++ folder a
dot or colon in front, and the I where it is INBOX.
"""

from __future__ import annotations

import re
from typing import Tuple

from .language import FILE_NAME_BYTES, PLACES

# The steps from the top of the tree down to a directory.
Steps = Tuple[bytes, ...]

INBOX = b"INBOX"
_ALWAYS = b"% \n\r"


class NoDirectory(ValueError):
    """A folder's name that is no directory's; its text says why."""


def folder_name(steps: Steps) -> bytes:
    """The name in scripts of the folder in a directory."""
    if not steps:
        return INBOX
    if len(steps) == 1 and steps[0].startswith(b"."):
        return _plus_name(steps[0][1:])
    return b"".join(b":" + _escaped(step, _ALWAYS + b":") for step in steps)


def directory_of(name: bytes) -> Steps:
    """The directory of a folder. Only names that `folder_name` gives have one, in the tree."""
    steps = _decoded(name)
    for step in steps:
        _check_step(step)
    if folder_name(steps) != name:
        raise NoDirectory("it is spelled otherwise than import would write it")
    return steps


def is_reserved(steps: Steps) -> bool:
    """Whether a step is named as one of the three directories that each maildir has itself."""
    return any(step in PLACES for step in steps)


def _plus_name(rest: bytes) -> bytes:
    if rest == INBOX:
        return _percent(rest[0]) + rest[1:]
    if rest[:1] in (b".", b":"):
        return _percent(rest[0]) + _escaped(rest[1:], _ALWAYS)
    return _escaped(rest, _ALWAYS)


def _escaped(step: bytes, special: bytes) -> bytes:
    return b"".join(_percent(byte) if byte in special else bytes((byte,)) for byte in step)


def _percent(byte: int) -> bytes:
    return b"%%%02X" % byte


def _decoded(name: bytes) -> Steps:
    if name == INBOX:
        return ()
    if name.startswith(b":"):
        return tuple(_unescaped(step) for step in name[1:].split(b":"))
    return (b"." + _unescaped(name),)


def _unescaped(text: bytes) -> bytes:
    return re.sub(rb"%([0-9A-F]{2})", lambda found: bytes((int(found.group(1), 16),)), text)


def _check_step(step: bytes) -> None:
    if step in (b"", b".", b".."):
        raise NoDirectory("it has an empty step, . or ..")
    if b"/" in step or b"\0" in step:
        raise NoDirectory("it has a slash or NUL")
    if len(step) > FILE_NAME_BYTES:
        raise NoDirectory("it has a step of over 255 bytes")
    if step in PLACES:
        raise NoDirectory("it has a step named tmp, new or cur")
