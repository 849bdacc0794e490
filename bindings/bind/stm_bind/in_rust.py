"""A module for Rust, laid out as rustfmt does."""

from __future__ import annotations

import re
import textwrap
from typing import Iterator, List, NamedTuple, Sequence

from .layout import commented, one_a_line
from .names import Scope, camel
from .program import Program, Transaction

WIDTH = 100
# How long a call, or what stands in an array, may be in one line; and an item of an array that stands beside others.
CHAIN, ARRAY, SHORT = 60, 60, 10
# Of all editions, and those that are kept for later ones.
KEYWORDS = """abstract as async await become box break const continue crate do dyn else enum extern false
final fn for gen if impl in let loop macro match mod move mut override priv pub ref return self Self static
struct super trait true try type typeof unsafe unsized use virtual where while yield""".split()
# What stands in a pattern for itself.
PATTERNS = ["None", "Some", "Ok", "Err"]
TYPES = ["Condition", "Option", "Result", *PATTERNS]
FORMS = ["try_{}", "{}_within", "call_{}", "observe_{}"]
WAITS = "Where it retries the thread waits."
# Names of methods of which clippy expects that they do what those of the standard library do.
EXPECTED = {
    "clippy::new_ret_no_self": r"new",
    "clippy::len_without_is_empty": r"len",
    "clippy::should_implement_trait": r"clone|cmp|eq|hash|next|not|neg|borrow|deref|index|add|sub|mul|div|rem|shl|shr",
    "clippy::wrong_self_convention": r"(from|into|to|as|is)_.*",
}


class Names(NamedTuple):
    type: str
    # Of the file's transactions, tables and variables, in this order.
    own: List[str]
    # Of the forms of each transaction, in the order of FORMS.
    forms: List[List[str]]
    # Of the constants, and of the conditions.
    lengths: List[str]
    conditions: List[str]


def names_of(program: Program) -> Names:
    methods = Scope([*KEYWORDS, "open", "open_with", "service"])
    own = methods.give(program.declared())
    forms = [methods.give([form.format(one.name) for one in program.transactions]) for form in FORMS]
    lengths = Scope(["TEXT"]).give([f"{name.upper()}_LENGTH" for name, _cells in program.tables])
    conditions = Scope(KEYWORDS).give([camel(name) for name in program.conditions])
    module = Scope([*KEYWORDS, *TYPES]).give_one(camel(program.name))
    return Names(module, own, [list(one) for one in zip(*forms)], lengths, conditions)


def literal(text: str) -> str:
    """The text as a raw string, with as many marks as it needs."""
    marks = max((len(found) for found in re.findall(r'"(#*)', text)), default=-1) + 1
    return f'r{"#" * marks}"{text}"{"#" * marks}'


def documented(text: str, begin: str = "    ") -> List[str]:
    return commented(f"{begin}///", text, WIDTH)


def _allowed(program: Program, names: Names) -> Iterator[str]:
    """What compilers would say of names that are the file's, and of what a host does not call."""
    yield "dead_code"
    spelled = [*names.own, *(parameter for one in program.transactions for parameter in one.parameters)]
    if any(name != name.lower() or "__" in name.strip("_") for name in spelled):
        yield "non_snake_case"
    for lint, pattern in EXPECTED.items():
        if any(re.fullmatch(pattern, name) for name in names.own):
            yield lint
    if len(names.conditions) > 2:
        yield "clippy::enum_variant_names"
    if any(len(one.parameters) > 5 for one in program.transactions):
        yield "clippy::too_many_arguments"


def _array(name: str, items: Sequence[str]) -> List[str]:
    whole = ", ".join(items)
    if len(whole) <= ARRAY:
        return [f"        let {name} = [{whole}];"]
    lines = [f"{item}," for item in items]
    if all(len(item) <= SHORT for item in items):
        lines = textwrap.wrap(" ".join(lines), WIDTH - 12)
    return [f"        let {name} = [", *(f"            {line}" for line in lines), "        ];"]


def _call(call: str, number: int, given: Sequence[str], *more: str) -> List[str]:
    """The call of a transaction by its number."""
    array = f"&[{', '.join(given)}]"
    line = f"self.service.{call}({', '.join([str(number), array, *more])})"
    if len(line) <= CHAIN:
        return [f"        {line}"]
    return [*_array("given", given), f"        self.service.{call}({', '.join([str(number), '&given', *more])})"]


def _function(name: str, parameters: Sequence[str], answer: str, body: Sequence[str]) -> List[str]:
    head = one_a_line(f"    pub fn {name}(", ["&self", *parameters], f") -> {answer} {{", WIDTH)
    return [*head, *body, "    }", ""]


def _transaction(one: Transaction, name: str, forms: Sequence[str], constants: Sequence[str]) -> List[str]:
    given = Scope([*KEYWORDS, *PATTERNS, *constants, "given", "time"]).give(one.parameters)
    parameters = [f"{parameter}: i64" for parameter in given]
    answer, number = "Result<i64, stm::Fault>", one.number
    tries, within, awaits, observes = forms
    return [
        *documented(f"Runs the transaction `{one.name}` as one atomic step: what it returned. {WAITS}"),
        *_function(name, parameters, answer, _call("atomically", number, given)),
        *documented(f"As `{name}`; `Retries`, and nothing was entered, where it retries."),
        *_function(tries, parameters, answer, _call("try_atomically", number, given)),
        *documented(f"As `{name}`; `TimedOut` where it still waits after the time."),
        *_function(
            within,
            [*parameters, "time: std::time::Duration"],
            answer,
            _call("atomically_within", number, given, "time"),
        ),
        *documented(f"As `{name}`, awaited: no thread waits for it."),
        *_function(awaits, parameters, "stm::Call<'_>", _call("call", number, given)),
        *documented(f"How `{name}` would end on one state; nothing is entered."),
        *_function(observes, parameters, answer, _call("observe", number, given)),
    ]


def _look(program: Program, names: Names) -> Iterator[str]:
    """Functions that look at cells and variables."""
    own = names.own[len(program.transactions) :]
    for number, (table, _cells) in enumerate(program.tables):
        yield from documented(f"The present value of a cell of the table `{table}`; `None` where there is none.")
        body = [f"        self.service.cell({number}, index).map(|(value, _)| value)"]
        yield from _function(own[number], ["index: u32"], "Option<i64>", body)
    for variable, name in zip(program.variables, own[len(program.tables) :]):
        yield from documented(f"The present value of the variable `{variable}`.")
        body = [f'        let present = self.service.value("{variable}");']
        yield from _function(name, [], "i64", [*body, '        present.expect("it is declared").0'])


def _conditions(program: Program, names: Names) -> Iterator[str]:
    if not program.conditions:
        return
    yield from documented(f"The standing conditions of {program.file}.", "")
    yield from ["#[derive(Clone, Copy, Debug, PartialEq, Eq, Hash)]", "pub enum Condition {"]
    for condition, name in zip(program.conditions, names.conditions):
        yield from [*documented(f"`{condition}`"), f"    {name},"]
    yield from ["}", "", "impl Condition {"]
    yield from documented("The condition that a call would have broken, where its fault says so.")
    yield from ["    pub fn broken(fault: stm::Fault) -> Option<Condition> {", "        match fault {"]
    for number, name in enumerate(names.conditions):
        yield f"            stm::Fault::Broken({number}) => Some(Self::{name}),"
    yield from ["            _ => None,", "        }", "    }", ""]
    yield from documented("Its name in the file.")
    yield from ["    pub fn name(self) -> &'static str {", "        match self {"]
    for condition, name in zip(program.conditions, names.conditions):
        yield f'            Self::{name} => "{condition}",'
    yield from ["        }", "    }", "}", ""]


def _opening(program: Program, names: Names) -> Iterator[str]:
    yield from documented(f"A service of {program.file}, which threads share by reference.", "")
    yield from [f"pub struct {names.type} {{", "    service: stm::Service,", "}", "", f"impl {names.type} {{"]
    yield from documented("Opens a service of the text. The tasks of its runs have their turns first.")
    yield f"    pub fn open() -> Result<{names.type}, stm::Error> {{"
    yield from [f"        {names.type}::open_with(stm::ServiceOptions::new())", "    }", ""]
    yield from documented("As `open`, by options of one's own.")
    tail = f") -> Result<{names.type}, stm::Error> {{"
    yield from one_a_line("    pub fn open_with(", ["options: stm::ServiceOptions"], tail, WIDTH)
    yield "        let service = stm::Service::open_with(TEXT, options)?;"
    yield from [f"        Ok({names.type} {{ service }})", "    }", ""]
    yield from documented("The service, for all else.")
    yield from ["    pub fn service(&self) -> &stm::Service {", "        &self.service", "    }", ""]


def module(program: Program) -> Iterator[str]:
    """The lines of the module."""
    names = names_of(program)
    yield from commented("//!", f"Made by `{program.command}`: edit {program.file}, not this.", WIDTH)
    yield from [f"#![allow({lint})]" for lint in _allowed(program, names)]
    yield ""
    for (table, cells), name in zip(program.tables, names.lengths):
        yield from documented(f"How many cells the table `{table}` has, numbered from 0.", "")
        yield from [f"pub const {name}: u32 = {cells};", ""]
    yield from _conditions(program, names)
    members = list(_opening(program, names))
    for one, name, forms in zip(program.transactions, names.own, names.forms):
        members += _transaction(one, name, forms, ["TEXT", *names.lengths])
    members += _look(program, names)
    yield from [*members[:-1], "}", ""]
    yield from documented(f"The text of {program.file}.", "")
    yield f"pub const TEXT: &str = {literal(program.text)};"
