"""A module for C99, which is a header."""

from __future__ import annotations

import re
from typing import Iterator, List, NamedTuple, Sequence

from .layout import aligned, block, pieces
from .names import Scope, is_of_headers
from .program import Program, Transaction

WIDTH = 100
# How many bytes a literal of C99 may have, and how many of them stand in one line.
LITERAL, LINE = 4095, 80
# Of C and of C++, for what a header for C declares may be read as either.
KEYWORDS = """alignas alignof and and_eq asm auto bitand bitor bool break case catch char char16_t char32_t
char8_t class co_await co_return co_yield compl concept const const_cast consteval constexpr constinit
continue decltype default delete do double dynamic_cast else enum explicit export extern false float for
friend goto if inline int long mutable namespace new noexcept not not_eq nullptr operator or or_eq private
protected public register reinterpret_cast requires restrict return short signed sizeof static static_assert
static_cast struct switch template this thread_local throw true try typedef typeid typename typeof
typeof_unqual union unsigned using virtual void volatile wchar_t while xor xor_eq""".split()
# Macros of the headers of C and of Linux that are not of capitals alone, and names that compilers for Linux have.
MACROS = """alloca assert complex errno i386 imaginary linux major makedev minor noreturn offsetof
sched_priority setjmp sigmask sigsetjmp stderr stdin stdout unix""".split()
# What a function calls by its name.
USED = """arguments done index nanoseconds own service stm_answer stm_atomically stm_atomically_within
stm_done stm_service stm_service_observe stm_start stm_try_atomically""".split()
FORMS = ["{}_try_{}", "{}_{}_within", "{}_start_{}", "{}_observe_{}"]
JOINED = """    size_t length = 0;
    char *text = (char *)malloc({});
    *out = NULL;
    if (text == NULL) return STM_MEMORY;
    for (size_t piece = 0; piece < sizeof pieces / sizeof pieces[0]; piece++) {{
        size_t more = strlen(pieces[piece]);
        memcpy(text + length, pieces[piece], more);
        length += more;
    }}
    int32_t code = stm_service_open(text, length, options, out);
    free(text);
    return code;
}}
"""


class Names(NamedTuple):
    module: str
    # Of the file's transactions, tables and variables, in this order.
    own: List[str]
    # Of the forms of each transaction, in the order of FORMS.
    forms: List[List[str]]
    # Of the enumerators.
    lengths: List[str]
    conditions: List[str]


def names_of(program: Program) -> Names:
    module = Scope([*KEYWORDS, *MACROS]).give_one(program.name)
    # The library has what begins with its name.
    module += "_" if module.startswith("stm") else ""
    functions = Scope([f"{module}_{name}" for name in ("open", "condition", "condition_name")], is_of_headers)
    own = functions.give([f"{module}_{name}" for name in program.declared()])
    forms = [functions.give([form.format(module, one.name) for one in program.transactions]) for form in FORMS]
    numbers = Scope([])
    lengths = numbers.give([f"{module}_{name}_LENGTH".upper() for name, _cells in program.tables])
    conditions = numbers.give([f"{module}_condition_{name}".upper() for name in program.conditions])
    return Names(module, own, [list(one) for one in zip(*forms)], lengths, conditions)


def literals(text: str, begin: str) -> List[str]:
    """The text as literals that stand one after another, each in a line."""
    lines = [line[at : at + LINE] for line in text.splitlines(True) for at in range(0, len(line), LINE)]
    return [f'{begin}"{_escaped(line)}"' for line in lines or [""]]


def _escaped(line: str) -> str:
    # No two marks of a question stand together, for with a third byte they may mean another one.
    return re.sub(r"(?<=\?)\?", r"\?", re.sub(r'["\\]', r"\\\g<0>", line)).replace("\n", "\\n")


def _opening(program: Program, names: Names) -> Iterator[str]:
    yield from block("", f"Opens a service of {program.file}, as `stm_service_open` does.", WIDTH)
    head = f"static inline int32_t {names.module}_open("
    yield from aligned(head, ["const stm_service_options *options", "stm_service **out"], ") {", WIDTH)
    parts = pieces(program.text, LITERAL)
    if len(parts) == 1:
        yield "    static const char text[] ="
        *lines, last = literals(program.text, " " * 8)
        yield from [*lines, last + ";"]
        yield from ["    return stm_service_open(text, sizeof text - 1, options, out);", "}", ""]
        return
    yield "    static const char *const pieces[] = {"
    for part in parts:
        first, *rest = literals(part, " " * 9)
        lines = [f"        ({first.lstrip()}", *rest]
        yield from [*lines[:-1], lines[-1] + "),"]
    yield "    };"
    yield from JOINED.format(len(program.text)).split("\n")


def _function(name: str, answer: str, taken: Sequence[str], body: Sequence[str]) -> List[str]:
    head = f"static inline {answer}{name}("
    return [*aligned(head, ["stm_service *service", *taken], ") {", WIDTH), *body, "}", ""]


def _call(call: str, one: Transaction, given: Sequence[str], *more: str) -> List[str]:
    """The call of a transaction by its number."""
    arguments = f"arguments, {len(given)}" if given else "NULL, 0"
    lines = aligned("    const int64_t arguments[] = {", given, "};", WIDTH) if given else []
    return [*lines, f"    return {call}({', '.join(['service', str(one.number), arguments, *more])});"]


def _transaction(one: Transaction, name: str, forms: Sequence[str]) -> List[str]:
    given = Scope([*KEYWORDS, *MACROS, *USED], is_of_headers).give(one.parameters)
    taken = [f"int64_t {parameter}" for parameter in given]
    tries, within, starts, observes = forms
    return [
        *block("", f"Runs the transaction `{one.name}` as `stm_atomically` does.", WIDTH),
        *_function(name, "stm_answer ", taken, _call("stm_atomically", one, given)),
        *block("", f"As `{name}`, but STM_RETRIES, and nothing entered, where it retries.", WIDTH),
        *_function(tries, "stm_answer ", taken, _call("stm_try_atomically", one, given)),
        *block("", f"As `{name}`, but STM_TIMED_OUT where it still waits after the time.", WIDTH),
        *_function(
            within,
            "stm_answer ",
            [*taken, "uint64_t nanoseconds"],
            _call("stm_atomically_within", one, given, "nanoseconds"),
        ),
        *block("", f"Starts `{name}` as `stm_start` does, and no thread waits: its ticket, or why not.", WIDTH),
        *_function(
            starts, "int64_t ", [*taken, "stm_done *done", "void *own"], _call("stm_start", one, given, "done", "own")
        ),
        *block("", f"How `{name}` would end on one state; nothing is entered.", WIDTH),
        *_function(observes, "stm_answer ", taken, _call("stm_service_observe", one, given)),
    ]


def _look(program: Program, names: Names) -> Iterator[str]:
    """Functions that look at cells and variables."""
    own = names.own[len(program.transactions) :]
    for number, (table, _cells) in enumerate(program.tables):
        said = f"The present value of a cell of the table `{table}`: STM_DONE; STM_UNKNOWN where there is no such cell."
        yield from block("", said, WIDTH)
        body = ["    uint64_t version;", f"    return stm_service_cell(service, {number}, index, value, &version);"]
        yield from _function(own[number], "int32_t ", ["uint32_t index", "int64_t *value"], body)
    for variable, name in zip(program.variables, own[len(program.tables) :]):
        yield from block("", f"The present value of the variable `{variable}`.", WIDTH)
        call = f'    stm_service_value(service, "{variable}", {len(variable)}, &value, &version);'
        body = ["    int64_t value = 0;", "    uint64_t version;", call, "    return value;"]
        yield from _function(name, "int64_t ", [], body)


def _numbers(program: Program, names: Names) -> Iterator[str]:
    for (table, cells), name in zip(program.tables, names.lengths):
        yield from block("", f"How many cells the table `{table}` has, numbered from 0.", WIDTH)
        yield from [f"enum {{ {name} = {cells} }};", ""]
    if not program.conditions:
        return
    said = f"The standing conditions of {program.file}, which are the values of answers whose code is STM_BROKEN."
    yield from block("", said, WIDTH)
    yield f"enum {names.module}_condition {{"
    numbered = [f"    {name} = {number}" for number, name in enumerate(names.conditions)]
    yield from [*(line + "," for line in numbered[:-1]), numbered[-1], "};", ""]


def _condition_name(program: Program, names: Names) -> Iterator[str]:
    if not program.conditions:
        return
    yield from block("", "The name of a condition in the file; NULL where there is no such one.", WIDTH)
    yield f"static inline const char *{names.module}_condition_name(int64_t condition) {{"
    yield "    switch (condition) {"
    for condition, name in zip(program.conditions, names.conditions):
        yield f'    case {name}: return "{condition}";'
    yield from ["    default: return NULL;", "    }", "}", ""]


def module(program: Program) -> Iterator[str]:
    """The lines of the module."""
    names = names_of(program)
    guard = f"{names.module.upper()}_BOUND_H"
    yield from block("", f"Made by `{program.command}`: edit {program.file}, not this.", WIDTH)
    yield from [f"#ifndef {guard}", f"#define {guard}", "", '#include "service.h"', "", "#include <stddef.h>"]
    yield "#include <stdint.h>"
    if len(program.text) > LITERAL:
        yield from ["#include <stdlib.h>", "#include <string.h>"]
    yield ""
    yield from _numbers(program, names)
    yield from _opening(program, names)
    for one, name, forms in zip(program.transactions, names.own, names.forms):
        yield from _transaction(one, name, forms)
    yield from _look(program, names)
    yield from _condition_name(program, names)
    yield "#endif"
