"""The calls of the library, as ctypes takes them. `bindings/declarations` compares them with the headers for C."""

from __future__ import annotations

import ctypes
from typing import Any, Dict, List, Tuple

# What the calls answer, by the names of the header.
DONE, RETRIES, GIVEN_UP, THROWN, OVERFLOW, DIVIDE_BY_ZERO, BROKEN, MORE, NO_END = 0, 1, 4, 5, 6, 7, 8, 9, 10
FILE_TOO_LONG, FILE_BAD_BYTE, FILE_SHAPE, FILE_NAME, FILE_LIMIT, FILE_BROKEN = -1, -2, -3, -4, -5, -7
OUTSIDE = 16
BAD_TEXT, BAD_BASE, BAD_ENTRIES, BAD_PRESENT, BAD_TASKS, BAD_PARKED = 101, 102, 103, 104, 105, 106
RUNNING = 14
MEMORY, SHORT, UNKNOWN, NOT_ENDED, NO_ROOM, CLOSED, TIMED_OUT = -6, -8, -9, -11, -14, -19, -20
# What a call does where the transaction retries, by the names of the header.
WAITS, TRIES = 0, 1


class Explained(ctypes.Structure):
    _fields_ = [
        ("code", ctypes.c_int32),
        ("line", ctypes.c_size_t),
        ("column", ctypes.c_size_t),
        ("place", ctypes.c_size_t),
    ]


class Answer(ctypes.Structure):
    _fields_ = [
        ("ticket", ctypes.c_int64),
        ("code", ctypes.c_int32),
        ("value", ctypes.c_int64),
        ("chapter", ctypes.c_uint64),
        ("entry", ctypes.c_uint64),
        ("place", ctypes.c_uint64),
    ]


class Options(ctypes.Structure):
    _fields_ = [
        ("room", ctypes.c_size_t),
        ("checkpoint", ctypes.c_uint32),
        ("observers", ctypes.c_uint32),
        # Where a function of the library lies, or nothing: none of Python is called.
        ("ended", ctypes.c_void_p),
        ("own", ctypes.c_void_p),
    ]


class Counts(ctypes.Structure):
    _fields_ = [
        ("entered", ctypes.c_uint64),
        ("chapter", ctypes.c_uint64),
        ("waiting", ctypes.c_uint64),
        ("woken", ctypes.c_uint64),
        ("stale", ctypes.c_uint64),
        ("room", ctypes.c_uint64),
    ]


class EndedChapter(ctypes.Structure):
    _fields_ = [("at", ctypes.c_void_p)]


class Program(ctypes.Structure):
    _fields_ = [("at", ctypes.c_void_p)]


class CallTold(ctypes.Structure):
    _fields_ = [("own", ctypes.c_void_p), ("answer", Answer)]


class Request(ctypes.Structure):
    _fields_ = [
        ("transaction", ctypes.c_uint32),
        ("way", ctypes.c_uint32),
        ("count", ctypes.c_size_t),
        ("arguments", ctypes.c_int64 * 8),
        ("own", ctypes.c_void_p),
        ("answer", Answer),
        ("told", ctypes.POINTER(CallTold)),
        ("told_room", ctypes.c_size_t),
        ("told_count", ctypes.c_size_t),
    ]


# How the begin of a request is packed, before its arguments.
BEGIN = "IIN"


_TEXT = [ctypes.c_char_p, ctypes.c_size_t]
_ROOM = [ctypes.c_char_p, ctypes.c_size_t, ctypes.POINTER(ctypes.c_size_t)]
_SERVICE, _TX, _CODE, _COUNT = ctypes.c_void_p, ctypes.c_uint32, ctypes.c_int32, ctypes.c_uint64
_PROGRAM = ctypes.c_void_p
# A service, a transaction, and where its arguments lie.
_CALL = [_SERVICE, _TX, ctypes.c_void_p, ctypes.c_size_t]

# Each call: what it answers, and what it takes.
CALLS: Dict[str, Tuple[Any, List[Any]]] = {
    "stm_version": (ctypes.c_char_p, []),
    "stm_word": (ctypes.c_char_p, [_CODE]),
    "stm_run_one": (_CODE, [*_TEXT, ctypes.c_uint32, *_ROOM]),
    "stm_check": (_CODE, [*_TEXT, *_TEXT]),
    "stm_explain": (_CODE, [*_TEXT, ctypes.POINTER(Explained), *_ROOM]),
    "stm_world": (_CODE, [*_TEXT, *_TEXT, *_ROOM]),
    "stm_explore": (_CODE, [*_TEXT, ctypes.c_uint32, *_ROOM]),
    "stm_explore_to": (_CODE, [*_TEXT, ctypes.c_uint32, ctypes.c_size_t, *_ROOM]),
    "stm_takes_chapters": (ctypes.c_int, [ctypes.c_void_p, *_TEXT, *_TEXT]),
    "stm_service_open": (_CODE, [*_TEXT, ctypes.POINTER(Options), ctypes.POINTER(_SERVICE)]),
    "stm_service_program": (_PROGRAM, [_SERVICE]),
    "stm_read": (_CODE, [*_TEXT, _PROGRAM]),
    "stm_program_free": (None, [_PROGRAM]),
    "stm_program_variables": (ctypes.c_size_t, [_PROGRAM]),
    "stm_program_tables": (ctypes.c_size_t, [_PROGRAM]),
    "stm_program_conditions": (ctypes.c_size_t, [_PROGRAM]),
    "stm_program_transactions": (ctypes.c_size_t, [_PROGRAM]),
    "stm_program_cells": (ctypes.c_int64, [_PROGRAM, ctypes.c_uint32]),
    "stm_program_parameters": (ctypes.c_int64, [_PROGRAM, _TX]),
    "stm_program_variable_name": (_CODE, [_PROGRAM, ctypes.c_uint32, *_ROOM]),
    "stm_program_table_name": (_CODE, [_PROGRAM, ctypes.c_uint32, *_ROOM]),
    "stm_program_condition_name": (_CODE, [_PROGRAM, ctypes.c_uint32, *_ROOM]),
    "stm_program_transaction_name": (_CODE, [_PROGRAM, _TX, *_ROOM]),
    "stm_program_parameter_name": (_CODE, [_PROGRAM, _TX, ctypes.c_uint32, *_ROOM]),
    "stm_service_transaction": (ctypes.c_int64, [_SERVICE, *_TEXT]),
    "stm_service_parameters": (ctypes.c_int64, [_SERVICE, _TX]),
    "stm_atomically": (Answer, _CALL),
    "stm_try_atomically": (Answer, _CALL),
    "stm_atomically_within": (Answer, [*_CALL, ctypes.c_uint64]),
    # Where the answers lie.
    "stm_ask_each": (ctypes.c_size_t, [*_CALL, ctypes.c_size_t, ctypes.c_void_p]),
    # The last is where a request lies.
    "stm_ask": (_CODE, [_SERVICE, ctypes.c_void_p]),
    "stm_cancel": (_CODE, [_SERVICE, ctypes.c_int64]),
    "stm_told": (ctypes.c_int64, [_SERVICE, ctypes.POINTER(CallTold), ctypes.c_size_t, ctypes.c_uint64]),
    "stm_told_chapter": (_CODE, [_SERVICE, ctypes.POINTER(EndedChapter), ctypes.c_uint64]),
    "stm_chapter_kept": (_CODE, [_SERVICE, ctypes.POINTER(EndedChapter)]),
    "stm_chapter_not_kept": (_CODE, [_SERVICE, ctypes.POINTER(EndedChapter)]),
    "stm_ended_file": (_CODE, [ctypes.POINTER(EndedChapter), *_ROOM]),
    "stm_ended_report": (_CODE, [ctypes.POINTER(EndedChapter), *_ROOM]),
    "stm_service_observe": (Answer, _CALL),
    "stm_service_value": (
        _CODE,
        [_SERVICE, *_TEXT, ctypes.POINTER(ctypes.c_int64), ctypes.POINTER(ctypes.c_uint64)],
    ),
    "stm_service_table": (ctypes.c_int64, [_SERVICE, *_TEXT]),
    "stm_service_table_length": (ctypes.c_int64, [_SERVICE, ctypes.c_uint32]),
    "stm_service_cell": (
        _CODE,
        [_SERVICE, ctypes.c_uint32, ctypes.c_uint32, ctypes.POINTER(ctypes.c_int64), ctypes.POINTER(ctypes.c_uint64)],
    ),
    "stm_service_cells": (
        ctypes.c_int64,
        [_SERVICE, ctypes.c_uint32, ctypes.c_uint32, ctypes.POINTER(ctypes.c_int64), ctypes.c_size_t],
    ),
    "stm_service_entered": (_COUNT, [_SERVICE]),
    "stm_service_chapter": (_COUNT, [_SERVICE]),
    "stm_service_get_counts": (None, [_SERVICE, ctypes.POINTER(Counts)]),
    "stm_service_report": (_CODE, [_SERVICE, *_ROOM]),
    "stm_service_file": (_CODE, [_SERVICE, *_ROOM]),
    "stm_service_close": (None, [_SERVICE]),
    "stm_service_free": (None, [_SERVICE]),
}
