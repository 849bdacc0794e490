"""A module for C++17, which is a header with a class."""

from __future__ import annotations

from typing import Iterator, List, NamedTuple, Sequence

from .in_c import KEYWORDS, MACROS
from .layout import aligned, commented, pieces
from .names import Scope, is_of_headers
from .program import Program, Transaction

WIDTH = 100
# How many bytes a literal may have at most, so that no compiler warns of it.
LITERAL = 60000
# What the class has beside the file's, or calls by its name.
MEMBERS = "broken condition name_of open service service_ std stm text".split()
USED = "Done Period Rep done index std stm time".split()
FORMS = ["try_{}", "{}_within", "start_{}", "future_{}", "observe_{}"]


class Names(NamedTuple):
    type: str
    # Of the file's transactions, tables and variables, in this order.
    own: List[str]
    # Of the forms of each transaction, in the order of FORMS.
    forms: List[List[str]]
    lengths: List[str]
    conditions: List[str]


def names_of(program: Program) -> Names:
    reserved = [*KEYWORDS, *MACROS]
    module = Scope([*reserved, "std", "stm"], is_of_headers).give_one(program.name)
    members = Scope([*reserved, *MEMBERS, module], is_of_headers)
    own = members.give(program.declared())
    forms = [members.give([form.format(one.name) for one in program.transactions]) for form in FORMS]
    lengths = members.give([f"{name}_length" for name, _cells in program.tables])
    conditions = Scope(reserved, is_of_headers).give(program.conditions)
    return Names(module, own, [list(one) for one in zip(*forms)], lengths, conditions)


def literal(text: str) -> str:
    """The text as a raw string, between marks that it does not have."""
    mark, more = "stm", 0
    while f'){mark}"' in text:
        more += 1
        mark = f"stm{more}"
    return f'R"{mark}({text}){mark}"'


def documented(text: str, begin: str = "    ") -> List[str]:
    return commented(f"{begin}///", text, WIDTH)


def _function(head: str, taken: Sequence[str], tail: str, body: Sequence[str], template: str = "") -> List[str]:
    lines = aligned(f"    {head}(", taken, f"){tail} {{", WIDTH)
    begin = [f"    template <{template}>"] if template else []
    return [*begin, *lines, *(f"        {line}" for line in body), "    }"]


def _call(call: str, one: Transaction, given: Sequence[str], before: str = "", after: str = "") -> List[str]:
    """The call of a transaction by its number."""

    def line(arguments: Sequence[str]) -> str:
        items = [before, str(one.number), *arguments, after]
        return f"return service_.{call}({', '.join(item for item in items if item)});"

    whole = line([f"{{{', '.join(given)}}}"] if given or after else [])
    if len(whole) + 8 <= WIDTH:
        return [whole]
    return [*aligned("const stm::arguments given = {", given, "};", WIDTH - 8), line(["given"])]


def _transaction(one: Transaction, name: str, forms: Sequence[str], members: Sequence[str]) -> List[str]:
    given = Scope([*KEYWORDS, *MACROS, *USED, *members, "given"], is_of_headers).give(one.parameters)
    taken = [f"std::int64_t {parameter}" for parameter in given]
    tries, within, starts, awaits, observes = forms
    return [
        *documented(f"Runs the transaction `{one.name}` as one atomic step. Where it retries the thread waits."),
        *_function(f"stm::outcome {name}", taken, " noexcept", _call("atomically", one, given)),
        *documented(f"As `{name}`, but `STM_RETRIES`, and nothing entered, where it retries."),
        *_function(f"stm::outcome {tries}", taken, " noexcept", _call("try_atomically", one, given)),
        *documented(f"As `{name}`, but `STM_TIMED_OUT` where it still waits after the time."),
        *_function(
            f"stm::outcome {within}",
            ["std::chrono::duration<Rep, Period> time", *taken],
            " noexcept",
            _call("atomically_within", one, given, before="time"),
            "class Rep, class Period",
        ),
        *documented(f"Starts `{name}`, and no thread waits: `done` is called with its outcome, once."),
        *_function(
            f"stm::answer<stm::started> {starts}",
            [*taken, "Done done"],
            "",
            _call("start", one, given, after="std::move(done)"),
            "class Done",
        ),
        *documented(f"Starts `{name}`: the future has its outcome."),
        *_function(f"[[nodiscard]] std::future<stm::outcome> {awaits}", taken, "", _call("future", one, given)),
        *documented(f"How `{name}` would end on one state; nothing is entered."),
        *_function(f"stm::outcome {observes}", taken, " const noexcept", _call("observe", one, given)),
        "",
    ]


def _look(program: Program, names: Names) -> Iterator[str]:
    """Functions that look at cells and variables."""
    own = names.own[len(program.transactions) :]
    for number, (table, _cells) in enumerate(program.tables):
        yield from documented(f"The present value of a cell of the table `{table}`; nothing where there is none.")
        head = f"std::optional<std::int64_t> {own[number]}"
        body = [
            f"auto present = service_.cell({number}, index);",
            "return present ? std::optional<std::int64_t>(present->value) : std::nullopt;",
        ]
        yield from [*_function(head, ["std::uint32_t index"], " const noexcept", body), ""]
    for variable, name in zip(program.variables, own[len(program.tables) :]):
        yield from documented(f"The present value of the variable `{variable}`.")
        body = [f'auto present = service_.value("{variable}");', "return present ? present->value : 0;"]
        yield from [*_function(f"std::int64_t {name}", [], " const noexcept", body), ""]


def _numbers(program: Program, names: Names) -> Iterator[str]:
    for (table, cells), name in zip(program.tables, names.lengths):
        yield from documented(f"How many cells the table `{table}` has, numbered from 0.")
        yield from [f"    static constexpr std::uint32_t {name} = {cells};", ""]
    if not program.conditions:
        return
    yield from documented("The standing conditions.")
    yield "    enum class condition : std::uint32_t {"
    yield from [f"        {name}," for name in names.conditions]
    yield from ["    };", ""]
    yield from documented("The condition that a call would have broken, where its outcome says so.")
    yield from _function(
        "static std::optional<condition> broken",
        ["const stm::outcome &how"],
        " noexcept",
        [
            "auto number = how.broken();",
            "if (!number) return std::nullopt;",
            "return static_cast<condition>(*number);",
        ],
    )
    yield from ["", *documented("The name of a condition in the file.")]
    yield from ["    static std::string_view name_of(condition one) noexcept {", "        switch (one) {"]
    for condition, name in zip(program.conditions, names.conditions):
        yield f'        case condition::{name}: return "{condition}";'
    yield from ["        }", "        return {};", "    }", ""]


def _opening(program: Program, names: Names) -> Iterator[str]:
    yield from documented("Opens a service of the text. The tasks of its runs have their turns first.")
    yield f"    static stm::answer<{names.type}> open(stm::options how = {{}}) {{"
    yield from ["        auto opened = stm::service::open(text(), std::move(how));", "        if (!opened) {"]
    yield "            auto why = opened.why() ? std::make_shared<const stm::explained>(*opened.why()) : nullptr;"
    yield f"            return stm::answer<{names.type}>::none(opened.code(), std::move(why));"
    yield "        }"
    yield from [f"        return stm::answer<{names.type}>({names.type}(std::move(*opened)));", "    }", ""]
    yield from documented("The service, for all else.")
    yield from ["    stm::service &service() noexcept { return service_; }", ""]


def _text(program: Program) -> Iterator[str]:
    yield from documented(f"The text of {program.file}.")
    yield "    static std::string text() {"
    parts = pieces(program.text, LITERAL)
    if len(parts) == 1:
        yield f"        return {literal(program.text)};"
    else:
        yield "        static constexpr std::string_view pieces[] = {"
        yield from [f"            {literal(part)}," for part in parts]
        yield from ["        };", "        std::string whole;", f"        whole.reserve({len(program.text)});"]
        yield from ["        for (std::string_view piece : pieces) whole += piece;", "        return whole;"]
    yield from ["    }", ""]


def module(program: Program) -> Iterator[str]:
    """The lines of the module."""
    names = names_of(program)
    guard = f"{names.type.upper()}_BOUND_HPP"
    yield from commented("///", f"Made by `{program.command}`: edit {program.file}, not this.", WIDTH)
    yield from [f"#ifndef {guard}", f"#define {guard}", "", '#include "stm.hpp"', ""]
    for name in ("chrono", "cstdint", "future", "memory", "optional", "string", "string_view", "utility"):
        yield f"#include <{name}>"
    yield ""
    said = f"A service of {program.file}, which threads share. One that was moved from does nothing."
    yield from documented(said, "")
    yield from [f"class {names.type} {{", "public:"]
    yield from _numbers(program, names)
    yield from _opening(program, names)
    for one, name, forms in zip(program.transactions, names.own, names.forms):
        yield from _transaction(one, name, forms, names.lengths)
    yield from _look(program, names)
    yield from _text(program)
    yield from ["private:", f"    explicit {names.type}(stm::service opened) : service_(std::move(opened)) {{}}", ""]
    yield from ["    stm::service service_;", "};", "", "#endif"]
