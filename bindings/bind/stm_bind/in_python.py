"""A module for Python 3.8 and newer, laid out as Black does."""

from __future__ import annotations

import re
import textwrap
from typing import Iterator, List, NamedTuple, Sequence

from .names import Scope, camel
from .program import Program, Transaction

WIDTH = 88
KEYWORDS = """False None True and as assert async await break class continue def del elif else except finally
for from global if import in is lambda nonlocal not or pass raise return try while with yield""".split()
# What the module calls by its name.
USED = "annotations bool enum float int object property self stm str Callable Optional".split()
FORMS = ["try_{}", "{}_within", "call_{}", "observe_{}"]
HEAD = """
from __future__ import annotations

import enum
from typing import Callable, Optional

import stm
"""
OPENING = '''    def __init__(
        self,
        *,
        room: int = 0,
        checkpoint: int = 0,
        observers: int = 0,
        on_chapter: Optional[Callable[[str, str], object]] = None,
    ) -> None:
        """Opens a service of the text, with the options of `stm.Service`."""
        self.service = stm.Service(
            TEXT,
            room=room,
            checkpoint=checkpoint,
            observers=observers,
            on_chapter=on_chapter,
        )

    def close(self) -> None:
        """Closes the service, as the end of a `with` does."""
        self.service.close()

    def __enter__(self) -> {}:
        return self

    def __exit__(self, *_error: object) -> None:
        self.close()
'''


class Names(NamedTuple):
    type: str
    # Of the file's transactions, tables and variables, in this order.
    own: List[str]
    # Of the forms of each transaction, in the order of FORMS.
    forms: List[List[str]]
    lengths: List[str]
    conditions: List[str]


def names_of(program: Program) -> Names:
    methods = Scope([*KEYWORDS, *USED, "close", "service"])
    own = methods.give(program.declared())
    forms = [methods.give([form.format(one.name) for one in program.transactions]) for form in FORMS]
    lengths = Scope(["TEXT"]).give([f"{name.upper()}_LENGTH" for name, _cells in program.tables])
    conditions = Scope([]).give([name.upper() for name in program.conditions])
    module = Scope([*KEYWORDS, *USED, "Condition", "TEXT", *lengths]).give_one(camel(program.name))
    return Names(module, own, [list(one) for one in zip(*forms)], lengths, conditions)


def literal(text: str) -> str:
    """The text as a string of several lines."""
    escaped = re.sub(r'"(?="")|"$', r"\"", text.replace("\\", "\\\\"))
    return f'"""\\\n{escaped}"""'


def documented(text: str, begin: str) -> List[str]:
    """The text as what stands first in a class or a function."""
    room = WIDTH - len(begin)
    lines = textwrap.wrap(f'"""{text}', room, break_long_words=False, break_on_hyphens=False)
    if len(lines) == 1 and len(lines[0]) + 3 <= room:
        return [f'{begin}{lines[0]}"""']
    return [*(begin + line for line in lines), f'{begin}"""']


def laid_out(begin: str, head: str, items: Sequence[str], tail: str) -> List[str]:
    """`head(items)tail`: in one line, or with the items in one of their own, or with each in one of its own."""
    whole = f"{begin}{head}{', '.join(items)}{tail}"
    inside = f"{begin}    {', '.join(items)}"
    if len(whole) <= WIDTH:
        return [whole]
    if len(inside) <= WIDTH:
        return [begin + head, inside, begin + tail]
    return [begin + head, *(line for item in items for line in _item(begin + "    ", item)), begin + tail]


def _item(begin: str, item: str) -> List[str]:
    if len(begin) + len(item) + 1 <= WIDTH or not item.startswith("["):
        return [f"{begin}{item},"]
    return laid_out(begin, "[", item[1:-1].split(", "), "],")


def _function(
    kind: str, name: str, parameters: Sequence[str], said: str, call: str, given: Sequence[str]
) -> List[str]:
    head = laid_out("    ", f"{kind} {name}(", ["self", *parameters], ") -> int:")
    return [*head, *documented(said, " " * 8), *laid_out(" " * 8, f"return {call}(", given, ")"), ""]


def _transaction(one: Transaction, name: str, forms: Sequence[str]) -> Iterator[str]:
    own = Scope([*KEYWORDS, *USED, "timeout"]).give(one.parameters)
    parameters, timed = [f"{parameter}: int" for parameter in own], "timeout: float"
    given = [f'"{one.name}"', *([f"[{', '.join(own)}]"] if own else [])]
    tries, within, awaits, observes = forms
    said = f"Runs the transaction `{one.name}` as one atomic step: what it returned; else a `stm.Fault`."
    said += " Where it retries the thread waits."
    yield from _function("def", name, parameters, said, "self.service.atomically", given)
    said = f"As `{name}`; `stm.Retries`, and nothing was entered, where it retries."
    yield from _function("def", tries, parameters, said, "self.service.try_atomically", given)
    said = f"As `{name}`; `stm.TimedOut` where it still waits after so many seconds."
    waits = [*given, "timeout=timeout"]
    yield from _function("def", within, [*parameters, timed], said, "self.service.atomically", waits)
    said = f"As `{name}`, awaited under asyncio: no thread waits for it."
    yield from _function("async def", awaits, parameters, said, "await self.service.call", given)
    said = f"What `{name}` would return on one state; nothing is entered."
    yield from _function("def", observes, parameters, said, "self.service.observe", given)


def _look(program: Program, names: Names) -> Iterator[str]:
    """Functions that look at cells and variables."""
    own = names.own[len(program.transactions) :]
    for (table, _cells), name in zip(program.tables, own):
        yield f"    def {name}(self, index: int) -> int:"
        said = f"The present value of a cell of the table `{table}`; `stm.Outside` where there is no such cell."
        yield from documented(said, " " * 8)
        yield from [f'        return self.service.table("{table}")[index]', ""]
    for variable, name in zip(program.variables, own[len(program.tables) :]):
        said = f"The present value of the variable `{variable}`."
        yield from _function("def", name, [], said, "self.service.value", [f'"{variable}"'])


def _conditions(program: Program, names: Names) -> Iterator[str]:
    if not program.conditions:
        return
    yield "class Condition(str, enum.Enum):"
    said = f"The standing conditions of {program.file}. The one that a call would have broken is"
    yield from documented(said + " `Condition(fault.condition)` of its fault, a `stm.Broken`.", "    ")
    yield ""
    yield from [f'    {name} = "{condition}"' for condition, name in zip(program.conditions, names.conditions)]
    yield from ["", ""]


def module(program: Program) -> Iterator[str]:
    """The lines of the module."""
    names = names_of(program)
    yield from documented(f"Made by `{program.command}`: edit {program.file}, not this.", "")
    yield from HEAD.rstrip("\n").replace("import enum\n", "import enum\n" if program.conditions else "").split("\n")
    yield ""
    for (table, cells), name in zip(program.tables, names.lengths):
        yield from [f"# How many cells the table `{table}` has, numbered from 0.", f"{name} = {cells}"]
    yield from [""] if not program.tables else ["", ""]
    yield from _conditions(program, names)
    yield f"class {names.type}:"
    yield from documented(f"A service of {program.file}, which threads share; `service` is it, for all else.", "    ")
    yield ""
    yield from OPENING.format(names.type).split("\n")
    for one, name, forms in zip(program.transactions, names.own, names.forms):
        yield from _transaction(one, name, forms)
    yield from _look(program, names)
    yield from ["", f"# The text of {program.file}.", f"TEXT = {literal(program.text)}"]
