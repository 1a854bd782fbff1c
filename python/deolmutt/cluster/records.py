"""Deliveries in the form in which the library takes many calls at once (deolmutt_calls).

Whoever asks brings them into it, so that a shard makes no object of any message.
"""

from __future__ import annotations

import ctypes
import pickle
import struct
import time
from itertools import accumulate
from operator import add
from typing import Any, Dict, List, NamedTuple, Optional, Sequence, Tuple, Union

from .._numbers import OK, _bytes, answer_of, asked, refusal
from ..calls import Deliver
from ..errors import DeolmuttError, Failed
from ..lines import encoded
from ..world import _ANSWER, _RECORD, World

# The number of a record's folder, and where it is.
_FOLDER, _FOLDER_AT = struct.Struct("<I"), 4
# What all deliveries have in common.
_DELIVER = asked(Deliver(0, "", b""))
_DELIVERED = _ANSWER.pack(1, 0)
# No store takes a unique name with it.
_BETWEEN = "\0"
_Bytes = Union[bytearray, memoryview]


class Records:
    """Deliveries to one folder: their unique names, the bytes of their records, where each begins, and where the
    last one ends."""

    def __init__(self, uniques: Union[str, List[str]], starts: List[int], data: _Bytes) -> None:
        self._uniques = uniques
        self._starts = starts
        # The folder is written into it.
        self._data: _Bytes = bytearray(data) if memoryview(data).readonly else data

    @classmethod
    def of(cls, uniques: Sequence[str], bodies: Sequence[bytes]) -> Records:
        """The deliveries of these messages, to a folder that is not named yet."""
        names = list(map(encoded, uniques))
        texts = list(bodies) if set(map(type, bodies)) <= {bytes} else list(map(_bytes, bodies))
        pack, kind, piece = _RECORD.pack, _DELIVER.kind, _DELIVER.number
        parts: List[bytes] = [b""] * (3 * len(names))
        parts[0::3] = [pack(kind, 0, 0, 0, len(name), len(text), 0, piece) for name, text in zip(names, texts)]
        parts[1::3], parts[2::3] = names, texts
        lengths = map(_RECORD.size.__add__, map(add, map(len, names), map(len, texts)))
        return cls(_joined(uniques), list(accumulate(lengths, initial=0)), bytearray().join(parts))

    def __len__(self) -> int:
        return len(self._starts) - 1

    def __reduce_ex__(self, _: Any) -> Tuple[Any, ...]:
        return Records, (self._uniques, self._starts, pickle.PickleBuffer(self._data))

    def uniques(self) -> List[str]:
        """The unique names of the messages."""
        return self._uniques.split(_BETWEEN) if isinstance(self._uniques, str) else self._uniques

    def name_folder(self, number: int) -> None:
        """Says to which folder of the world they go."""
        write, data = _FOLDER.pack_into, self._data
        for start in self._starts[:-1]:
            write(data, start + _FOLDER_AT, number)

    def after(self, count: int) -> Tuple[Any, int]:
        """Where those after so many begin, and how long they are."""
        start = self._starts[count]
        return ctypes.byref(ctypes.c_char.from_buffer(self._data, start)), self._starts[-1] - start


def _joined(uniques: Sequence[str]) -> Union[str, List[str]]:
    """Names as one text, which is sent in a third of the time, unless one has what stands between them."""
    text = _BETWEEN.join(uniques)
    return text if text.count(_BETWEEN) == len(uniques) - 1 else list(uniques)


class Made(NamedTuple):
    """How many deliveries were answered, which of them without success, and what refused the next one."""

    answered: int
    failed: Dict[int, Failed]
    refused: Optional[DeolmuttError]


class RecordWorld(World):
    """A world that takes deliveries as records too."""

    def deliver_records(self, records: Records, first: int) -> Made:
        """Delivers the messages from one on, up to the first that is refused. Failed ones have their positions."""
        with self._hold:
            status, answers = self._made(*records.after(first), len(records) - first, int(time.time()))
        count = len(answers) // _ANSWER.size
        failed = {} if answers == _DELIVERED * count else _failed(answers, first)
        return Made(count, failed, None if status == OK else refusal(status))


def _failed(answers: bytes, first: int) -> Dict[int, Failed]:
    """The answers without success, by the positions of their calls."""
    ended = (answer_of(kind, value) for kind, value in _ANSWER.iter_unpack(answers))
    return {at: end for at, end in enumerate(ended, first) if isinstance(end, Failed)}
