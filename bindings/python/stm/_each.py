"""Many calls of one transaction at once: how their arguments are taken, and what became of each."""

from __future__ import annotations

import ctypes
import struct
from array import array
from itertools import chain
from typing import Any, Callable, Dict, Iterable, Iterator, Optional, Sequence, Tuple, Union

from . import _declared
from ._declared import Answer
from ._faults import Fault, WrongArguments

# How many calls are made at once; between two such portions signals are handled.
PORTION = 4096
# How many rows are packed at once, and how many faults `repr` shows.
_ROWS = 1000
_SHOWN = 5
_NUMBER = ctypes.sizeof(ctypes.c_int64)
_ANSWER = ctypes.sizeof(Answer)
# Where the value and the code stand in an answer, and how far those of the next one are, in places of their own size.
_VALUE, _VALUES = Answer.value.offset // _NUMBER, _ANSWER // _NUMBER
_INT = ctypes.sizeof(ctypes.c_int32)
_CODE, _CODES = Answer.code.offset // _INT, _ANSWER // _INT

Rows = Union[Iterable[Sequence[int]], "array[int]", memoryview]


class Answers:
    """What became of the calls of `Service.each`, in their order.

        answers = bank.each("pay", [(3, 5, 60), (3, 5, 60), (5, 3, 10)])
        answers.values  # array('q', [40, 60, 150]): what each returned, or threw
        answers.codes  # array('i', [0, 5, 0]): 0 where it returned
        answers.faults  # {1: Thrown(60)}

    `answers[1]` is what that call returned, or raises its fault; so does going through them, at the first that did not
    return. `raise_first` only raises.
    """

    def __init__(self, fault_of: Callable[[Answer], Fault]) -> None:
        # What each returned or threw, or the number of the condition that it would have broken; else 0.
        self.values: array[int] = array("q")
        # 0 where it returned; else the code of `enum stm_code` in C.
        self.codes: array[int] = array("i")
        self._fault_of = fault_of
        # The answers of each portion in which one did not return, by its number.
        self._told: Dict[int, bytes] = {}
        # Why there was no room, where a chapter was not kept.
        self._cause: Optional[BaseException] = None

    @property
    def faults(self) -> Dict[int, Fault]:
        """Of each call that did not return why, by its place among them, from 0 on."""
        return dict(self._found())

    def raise_first(self) -> None:
        """Raises the fault of the first call that did not return, if there is one."""
        for _, fault in self._found():
            raise fault

    def __len__(self) -> int:
        return len(self.codes)

    def __getitem__(self, place: int) -> int:
        if self.codes[place] != _declared.DONE:
            raise self._fault(range(len(self))[place])
        return self.values[place]

    def __iter__(self) -> Iterator[int]:
        return (self[place] for place in range(len(self)))

    def __repr__(self) -> str:
        count = sum(1 for code in self.codes if code)
        first = (f"{place}: {fault!r}" for (place, fault), _ in zip(self._found(), range(_SHOWN)))
        more = [f"{count - _SHOWN} more"] if count > _SHOWN else []
        told = "; not " + ", ".join([*first, *more]) if count else ""
        return f"<stm.Answers: {len(self) - count} of {len(self)} returned{told}>"

    def _found(self) -> Iterator[Tuple[int, Fault]]:
        return ((place, self._fault(place)) for place, code in enumerate(self.codes) if code)

    def _fault(self, place: int) -> Fault:
        portion, at = divmod(place, PORTION)
        told = self._told.get(portion, b"")
        is_told = len(told) > at * _ANSWER
        answer = Answer.from_buffer_copy(told, at * _ANSWER) if is_told else Answer(ticket=-1, code=self.codes[place])
        fault = self._fault_of(answer)
        if self.codes[place] == _declared.NO_ROOM:
            fault.__cause__ = self._cause
        return fault

    def _add(self, room: RoomOfEach, count: int) -> None:
        """So many are answered there: a portion, but the last one may be shorter."""
        codes = room.ints[_CODE : count * _CODES : _CODES].tobytes()
        if codes.strip(b"\0"):
            self._told[len(self) // PORTION] = bytes(room.bytes[: count * _ANSWER])
        self.values.frombytes(room.numbers[_VALUE : count * _VALUES : _VALUES].tobytes())
        self.codes.frombytes(codes)

    def _end(self, count: int, cause: Optional[BaseException]) -> None:
        """So many more were not made, for there is no room."""
        self.values.frombytes(bytes(count * _NUMBER))
        self.codes.extend(array("i", [_declared.NO_ROOM]) * count)
        self._cause = cause


class RoomOfEach:
    """Where the library answers the calls of a portion."""

    def __init__(self, count: int) -> None:
        self.bytes = bytearray(max(count, 1) * _ANSWER)
        whole = memoryview(self.bytes)
        self.numbers, self.ints = whole.cast("q"), whole.cast("i")
        self._at = _address(self.bytes)

    def at(self, place: int) -> int:
        """The address of an answer."""
        return ctypes.addressof(self._at) + place * _ANSWER

    def answer(self, place: int) -> Answer:
        return Answer.from_buffer(self.bytes, place * _ANSWER)


class Given:
    """The arguments of all calls, one behind the other: how many calls there are, and where they lie."""

    def __init__(self, name: str, parameters: int, rows: Rows, wrong: Callable[[Sequence[int]], Exception]) -> None:
        """`wrong` says of a row why it can't be packed."""
        try:
            flat: Any = memoryview(rows)  # type: ignore[arg-type]
        except TypeError:
            listed: Any = rows if isinstance(rows, (list, tuple)) else list(rows)
            flat, self.calls = _packed(listed, parameters, wrong), len(listed)
        else:
            self.calls = _calls_in(name, parameters, flat)
            if flat.readonly or not flat.c_contiguous:
                flat = bytearray(flat.tobytes())
        self._length = parameters * _NUMBER
        self._at = _address(flat) if self.calls * parameters > 0 else None

    def at(self, place: int) -> Optional[int]:
        """The address of a call's arguments."""
        return None if self._at is None else ctypes.addressof(self._at) + place * self._length


def _address(room: Any) -> ctypes.c_char:
    """What lies where the room begins, and holds it there."""
    return ctypes.c_char.from_buffer(room)


def _packed(rows: Sequence[Sequence[int]], parameters: int, wrong: Callable[[Sequence[int]], Exception]) -> bytearray:
    packed = bytearray(len(rows) * parameters * _NUMBER)
    for begin in range(0, len(rows), _ROWS):
        some = rows[begin : begin + _ROWS]
        if set(map(len, some)) != {parameters}:
            raise wrong(next(row for row in some if len(row) != parameters))
        numbers = f"{len(some) * parameters}q"
        try:
            struct.pack_into(numbers, packed, begin * parameters * _NUMBER, *chain.from_iterable(some))
        except struct.error:
            raise wrong(next(row for row in some if not _is_right(row))) from None
    return packed


def _is_right(row: Sequence[int]) -> bool:
    try:
        struct.pack(f"{len(row)}q", *row)
    except struct.error:
        return False
    return True


def _calls_in(name: str, parameters: int, flat: memoryview) -> int:
    """How many calls' arguments lie in an array: of one dimension, one behind the other, or of two, in rows."""
    is_numbers = flat.itemsize == _NUMBER and flat.format.lstrip("@=<") in ("q", "l")
    if not is_numbers or flat.ndim not in (1, 2):
        raise TypeError(f"arguments of {name}: an array of numbers of 64 signed bits is wanted, or rows")
    numbers = flat.nbytes // _NUMBER
    calls, left = divmod(numbers, parameters) if parameters > 0 else (0, numbers)
    if flat.ndim == 2:
        calls, left = flat.shape[0], flat.shape[1] - parameters
    if left:
        raise WrongArguments(f"arguments of {name}: {parameters} wanted in each call, {numbers} numbers given")
    return calls
