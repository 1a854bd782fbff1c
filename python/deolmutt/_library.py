"""The shared library: where it is, and how its functions are called (deolmutt.h)."""

from __future__ import annotations

import ctypes
import ctypes.util
import os
from functools import lru_cache
from pathlib import Path
from typing import Any, Callable, Iterator

from .errors import LibraryMissing

ABI = 1
FILE_NAME = "libdeolmutt.so"
# By this name a system has it that has no header for it.
SONAME = f"{FILE_NAME}.{ABI}"
_VARIABLE = "DEOLMUTT_LIBRARY"

_HOW = (
    "Install the package by the wheel that holds the library, or the library by Debian's way (libdeolmutt1), or build it with"
    f" `tools/ffi-build` in a clone of the repository, and set {_VARIABLE} to the path that it prints, or put that file into"
    f" {Path(__file__).parent}"
)


class AnswerStruct(ctypes.Structure):
    """`deolmutt_answer`."""

    _fields_ = (("kind", ctypes.c_uint64), ("value", ctypes.c_uint64))


class StepStruct(ctypes.Structure):
    """`deolmutt_step_out`."""

    _fields_ = (
        ("call", ctypes.c_uint32),
        ("reply", ctypes.c_uint32),
        ("value", ctypes.c_uint64),
        ("effect", ctypes.c_uint64),
        ("answer", AnswerStruct),
    )


class RequestStruct(ctypes.Structure):
    """`deolmutt_request`."""

    _fields_ = (
        ("call", ctypes.c_uint32),
        ("folder", ctypes.c_uint32),
        ("place", ctypes.c_uint32),
        ("to_folder", ctypes.c_uint32),
        ("to_place", ctypes.c_uint32),
        ("reserved", ctypes.c_uint32),
        ("name", ctypes.c_uint64),
        ("second", ctypes.c_uint64),
    )


_U32 = ctypes.c_uint32
_U64 = ctypes.c_uint64
_SIZE = ctypes.c_size_t
_WORLD = ctypes.c_void_p
# Bytes that are read, which Python lends without a copy, and a buffer that is written.
_BYTES = ctypes.c_char_p
_OUT = ctypes.c_void_p
_TO_U64 = ctypes.POINTER(_U64)
_TO_SIZE = ctypes.POINTER(_SIZE)
_TO_ANSWER = ctypes.POINTER(AnswerStruct)

# What a call asks: kind, folder, unique, to, first, second, number.
_CALL = (_U32, _U32, _BYTES, _SIZE, _U32, _BYTES, _SIZE, _BYTES, _SIZE, _U64)

_FUNCTIONS = {
    "deolmutt_load": (_BYTES, _SIZE, ctypes.POINTER(_WORLD), _TO_U64),
    "deolmutt_free": (_WORLD,),
    "deolmutt_submit": (_WORLD, *_CALL, _TO_U64),
    "deolmutt_step": (_WORLD, _U64, _U64, _TO_U64, ctypes.POINTER(StepStruct)),
    "deolmutt_call": (_WORLD, *_CALL, _U64, _TO_U64, _TO_U64, _TO_ANSWER),
    "deolmutt_calls": (_WORLD, _BYTES, _SIZE, _U64, _OUT, _SIZE, _TO_SIZE),
    "deolmutt_job_answer": (_WORLD, _U64, _TO_ANSWER),
    "deolmutt_list": (_WORLD, _U32, _OUT, _SIZE, _TO_SIZE),
    "deolmutt_read": (_WORLD, _BYTES, _SIZE, _OUT, _SIZE, _TO_SIZE),
    "deolmutt_transcript": (_BYTES, _SIZE, _OUT, _SIZE, _TO_SIZE, _TO_U64),
    "deolmutt_index": (_BYTES, _SIZE, _OUT, _SIZE, _TO_SIZE, _TO_U64),
    "deolmutt_unique": (_U64, _U64, _U64, _U64, _BYTES, _SIZE, _OUT, _SIZE, _TO_SIZE),
    "deolmutt_split": (_BYTES, _SIZE, _TO_SIZE, ctypes.POINTER(_U32), _TO_U64),
    "deolmutt_summary": (_BYTES, _SIZE, _OUT, _SIZE, _TO_SIZE),
}

_ROOM = 3
FIRST_ROOM = 1 << 16

# Buffers of that room that no call uses. To make one takes longer than most calls.
_spare: list[bytearray] = []

_DRIVEN = ctypes.c_void_p

# A library that was built without them has no settle, no driven jobs, or no judge.
_MAYBE = {
    "deolmutt_settle": (_WORLD, _TO_U64),
    "deolmutt_drive": (*_CALL, ctypes.POINTER(_DRIVEN)),
    "deolmutt_driven_free": (_DRIVEN,),
    "deolmutt_driven_ask": (_DRIVEN, _U64),
    "deolmutt_driven_request": (_DRIVEN, ctypes.POINTER(RequestStruct), _OUT, _SIZE, _TO_SIZE),
    "deolmutt_driven_row": (_DRIVEN, _BYTES, _SIZE, _U64, _U64),
    "deolmutt_driven_take": (_DRIVEN, _U32, ctypes.POINTER(StepStruct)),
    "deolmutt_driven_answer": (_DRIVEN, _TO_ANSWER),
    "deolmutt_judge": (_BYTES, _SIZE, _OUT, _SIZE, _TO_SIZE, _TO_U64),
}

# Those of them that give a text, which is the library's.
_TEXTS: dict[str, tuple[Any, ...]] = {
    "deolmutt_clause_name": (_U32,),
    "deolmutt_clause_text": (_U32,),
    "deolmutt_strerror": (ctypes.c_int,),
}


@lru_cache(maxsize=None)
def library() -> ctypes.CDLL:
    """The library, loaded once. Refused as `LibraryMissing`, with what was tried and how to build it."""
    tried = []
    for path in _paths():
        try:
            return _declared(ctypes.CDLL(path), path)
        except OSError as error:
            tried.append(f"{path}: {error}")
    raise LibraryMissing(f"{FILE_NAME} can't be loaded ({'; '.join(tried)}). {_HOW}")


def filled(
    function: Callable[..., int], *asked: Any, room: int = FIRST_ROOM, after: tuple[Any, ...] = ()
) -> tuple[int, bytes]:
    """What a function comes to, and what it gives into a buffer, which grows until it is large enough.

    After what is asked it takes a buffer, the buffer's room, where the whole length goes, and what comes after.
    """
    length = _SIZE()
    while True:
        out = _buffer(room)
        status = function(*asked, start_of(out), len(out), ctypes.byref(length), *after)
        given = b"" if status == _ROOM else bytes(memoryview(out)[: length.value])
        if len(out) == FIRST_ROOM:
            _spare.append(out)
        if status != _ROOM:
            return status, given
        room = length.value


def start_of(buffer: bytearray) -> Any:
    """Where a buffer begins, of 1 byte or more.

    A type of arrays of the buffer's length would do too, but `ctypes` keeps a note of each such type
    that was ever made.
    """
    return ctypes.byref(ctypes.c_char.from_buffer(buffer))


def _buffer(room: int) -> bytearray:
    if room > FIRST_ROOM:
        return bytearray(room)
    try:
        return _spare.pop()
    except IndexError:
        return bytearray(FIRST_ROOM)


def _paths() -> Iterator[str]:
    """Where the library may be. A path that the environment names is the only one."""
    named = os.environ.get(_VARIABLE)
    if named:
        yield named
        return
    yield str(Path(__file__).parent / FILE_NAME)
    yield ctypes.util.find_library("deolmutt") or SONAME


def _declared(found: ctypes.CDLL, path: str) -> ctypes.CDLL:
    """The library with the types of its functions, if it is of this package's version."""
    try:
        found.deolmutt_abi.restype = _U32
        version = found.deolmutt_abi()
        for name, types in {**_FUNCTIONS, **_MAYBE, **_TEXTS}.items():
            if name in _FUNCTIONS or hasattr(found, name):
                function = getattr(found, name)
                function.argtypes = types
                function.restype = ctypes.c_char_p if name in _TEXTS else _U32
    except AttributeError as error:
        raise LibraryMissing(f"{path} is no library of Deolmutt's: {error}. {_HOW}") from error
    if version != ABI:
        raise LibraryMissing(f"{path} has version {version} of the interface, and {ABI} is needed. {_HOW}")
    return found
