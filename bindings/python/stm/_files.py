"""Whole files, from text to text."""

from __future__ import annotations

import ctypes
import enum
from typing import Callable, Optional

from . import _declared
from ._faults import MoreStates, NoEnd, OutOfMemory, Refused
from ._library import library


def copied(call: Callable[..., int], *given: object, length: int = 1 << 16) -> tuple[int, str]:
    """The code of a call, and the text that it copies into a room, which grows until it is long enough."""
    while True:
        room, wanted = ctypes.create_string_buffer(length), ctypes.c_size_t(0)
        code = call(*given, room, length, ctypes.byref(wanted))
        if code != _declared.SHORT:
            return code, ctypes.string_at(room, wanted.value).decode("ascii")
        length = wanted.value


_OF_A_FILE = (
    _declared.FILE_TOO_LONG,
    _declared.FILE_BAD_BYTE,
    _declared.FILE_SHAPE,
    _declared.FILE_NAME,
    _declared.FILE_LIMIT,
    _declared.FILE_BROKEN,
)


def refused(code: int, file: Optional[str] = None) -> Exception:
    """What is raised for the code of a call, which has read the file, or none."""
    if code == _declared.MEMORY:
        return OutOfMemory()
    if code == _declared.NO_END:
        return NoEnd()
    found = explain(file) if file is not None and code in _OF_A_FILE else None
    return found or Refused(code)


def _text(call: Callable[..., int], file: str, *given: object) -> str:
    code, text = copied(call, *taken(file), *given)
    if code == _declared.MORE:
        raise MoreStates(text)
    if code != _declared.DONE:
        raise refused(code, file)
    return text


def taken(text: str) -> tuple[bytes, int]:
    """A text as a call takes it: its bytes, and how many there are. What `surrogateescape` has put there for a byte is
    that byte."""
    spelled = text.encode("utf-8", "surrogateescape")
    return spelled, len(spelled)


def bounded(number: int, bits: int) -> int:
    """The number, which has to fit into so many bits."""
    if not 0 <= number < 1 << bits:
        raise ValueError(f"{number} is not from 0 to {(1 << bits) - 1}")
    return number


def signed(number: int) -> int:
    """The number, which has to fit into 64 signed bits."""
    if not -(1 << 63) <= number < 1 << 63:
        raise ValueError(f"{number} is not a number of 64 signed bits")
    return number


class Verdict(enum.Enum):
    """Whether a report is lawful for a file, or the first part that does not hold. It is true where it is lawful."""

    GOOD = _declared.DONE
    BAD_TEXT = _declared.BAD_TEXT
    BAD_BASE = _declared.BAD_BASE
    BAD_ENTRIES = _declared.BAD_ENTRIES
    BAD_PRESENT = _declared.BAD_PRESENT
    BAD_TASKS = _declared.BAD_TASKS
    BAD_PARKED = _declared.BAD_PARKED

    def __bool__(self) -> bool:
        return self is Verdict.GOOD


def run(file: str, checkpoint: int = 0) -> str:
    """The report of all tasks of the file, one after another. A journal of `checkpoint` entries is followed by a
    checkpoint; 0: never. Raises `Refused` where the file is refused; `OutOfMemory`; `ValueError` where `checkpoint` is
    below 0 or too large."""
    return _text(library.stm_run_one, file, bounded(checkpoint, 32))


def explain(file: str) -> Optional[Refused]:
    """Where and why the file is refused, or None where it is read. What each call that reads a file raises. Raises
    `OutOfMemory`."""
    told = _declared.Explained()
    code, text = copied(library.stm_explain, *taken(file), ctypes.byref(told))
    if code != _declared.DONE:
        raise refused(code)
    return None if told.code == _declared.DONE else Refused(told.code, text, told.line, told.column)


def check(file: str, report: str) -> Verdict:
    """Whether the report is lawful for the file. Raises `Refused` where the file is refused; `OutOfMemory`."""
    code: int = library.stm_check(*taken(file), *taken(report))
    if code < 0:
        raise refused(code, file)
    return Verdict(code)


def world(file: str, schedule: str) -> str:
    """What is seen of the schedule on the stepped world of the file. Raises `Refused` where one of the two is refused;
    `OutOfMemory`."""
    return _text(library.stm_world, file, *taken(schedule))


def explore(file: str, states: int = 1_000_000) -> str:
    """What is found when every order of the file's tasks is seen, of at most so many states. Raises `MoreStates` where
    more are reached; `Refused` where the file is refused, or the number of states; `OutOfMemory`; `ValueError` where
    that number is below 0 or too large."""
    return _text(library.stm_explore, file, bounded(states, 32))


def explore_to(file: str, end: int, states: int = 1_000_000) -> str:
    """The report of a run that comes to the end of this number, counted from 1 as `explore` lists them. Raises `NoEnd`
    where there is none, and what `explore` does."""
    return _text(library.stm_explore_to, file, bounded(states, 32), bounded(end, 64))


def version() -> str:
    """The version of the library that was found."""
    told: bytes = library.stm_version()
    return told.decode("ascii")
