"""Transactions over named variables, called from any thread: the library proved in Rattle, by ctypes.

    import stm

    with stm.Service("(var n 0) (tx inc (set n (add n 1)) n)") as counter:
        counter.atomically("inc")  # 1

    with stm.Service("(stm 3) (var n 0) (tx add (k) (set n (add n k)) n)") as counter:
        counter.atomically("add", [5])  # 5

    with stm.Service("(stm 3) (table acct 9 0) (tx add (i k) (put acct i (add (at acct i) k)) 0)") as bank:
        bank.atomically("add", [3, 5])
        bank.value("acct[3]"), bank.table("acct")[3], sum(bank.table("acct"))  # 5, 5, 5

`run`, `check`, `world`, `explore` and `explore_to` take whole files, and `declared` tells the names in one. Where a
file is refused, `Refused` tells its line and column, as `explain` does.
"""

from ._each import Answers
from ._faults import (
    Broken,
    Closed,
    DivideByZero,
    Error,
    Fault,
    MoreStates,
    NoEnd,
    NoRoom,
    OutOfMemory,
    Outside,
    Overflow,
    Refused,
    Retries,
    Thrown,
    TimedOut,
    Unknown,
    WrongArguments,
)
from ._files import Verdict, check, explain, explore, explore_to, run, version, world
from ._names import Declared, declared
from ._service import Counts, Service
from ._table import Table

__all__ = [
    "Answers",
    "Broken",
    "Closed",
    "Counts",
    "Declared",
    "DivideByZero",
    "Error",
    "Fault",
    "MoreStates",
    "NoEnd",
    "NoRoom",
    "OutOfMemory",
    "Outside",
    "Overflow",
    "Refused",
    "Retries",
    "Service",
    "Table",
    "Thrown",
    "TimedOut",
    "Unknown",
    "Verdict",
    "WrongArguments",
    "check",
    "declared",
    "explain",
    "explore",
    "explore_to",
    "run",
    "version",
    "world",
]
