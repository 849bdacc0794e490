"""What a program declares, by its names. The library tells them: no text of a program is read here."""

from __future__ import annotations

import ctypes
from typing import Callable, Dict, List, NamedTuple

from . import _declared
from ._files import copied, refused, taken
from ._library import library


class Declared(NamedTuple):
    """What a program declares, each kind in the order of its text.

    `variables`: their names. `tables`: how many cells each has. `conditions`: the names of the standing conditions.
    `transactions`: the names of each one's parameters."""

    variables: List[str]
    tables: Dict[str, int]
    conditions: List[str]
    transactions: Dict[str, List[str]]


def declared(text: str) -> Declared:
    """What a file declares, and none of its runs is made: `declared("(var x 1)").variables` are `["x"]`. Raises
    `Refused`, which tells where and why. What the file says stays in memory until the process ends."""
    program = _declared.Program()
    at = ctypes.c_void_p(ctypes.addressof(program))
    code = library.stm_read(*taken(text), at)
    if code != _declared.DONE:
        raise refused(code, text)
    try:
        return declared_by(at)
    finally:
        library.stm_program_free(at)


def _name(call: Callable[..., int], program: ctypes.c_void_p, *numbers: int) -> str:
    return copied(call, program, *numbers, length=256)[1]


def _names(count: int, call: Callable[..., int], program: ctypes.c_void_p, *numbers: int) -> List[str]:
    return [_name(call, program, *numbers, number) for number in range(count)]


def condition_name(program: ctypes.c_void_p, number: int) -> str:
    return _name(library.stm_program_condition_name, program, number)


def table_names(program: ctypes.c_void_p) -> List[str]:
    return _names(library.stm_program_tables(program), library.stm_program_table_name, program)


def declared_by(program: ctypes.c_void_p) -> Declared:
    tables = table_names(program)
    transactions = _names(
        library.stm_program_transactions(program), library.stm_program_transaction_name, program
    )
    return Declared(
        _names(library.stm_program_variables(program), library.stm_program_variable_name, program),
        {name: library.stm_program_cells(program, number) for number, name in enumerate(tables)},
        _names(library.stm_program_conditions(program), library.stm_program_condition_name, program),
        {name: _parameters(program, number) for number, name in enumerate(transactions)},
    )


def _parameters(program: ctypes.c_void_p, transaction: int) -> List[str]:
    count = library.stm_program_parameters(program, transaction)
    return _names(count, library.stm_program_parameter_name, program, transaction)
