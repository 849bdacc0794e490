"""Prints a host that makes each call of modules of `stm-bind` beside the same call by number, on a service of its own,
and says where the two differ: `good` where they do not.

    bound_hosts.py LANGUAGE FILE ..

The module of the first file is module_0.h, module_0.hpp, module_0.rs or module_0.py, and so on. The host is given the
files again, for the services by number. An argument is the number of its parameter, from 1 on."""

import os
import sys

sys.dont_write_bytecode = True
HERE = os.path.dirname(os.path.abspath(__file__))
sys.path[:0] = [os.path.join(os.path.dirname(HERE), "bind"), os.path.join(os.path.dirname(HERE), "python")]
from stm_bind import in_c, in_cpp, in_python, in_rust  # noqa: E402
from stm_bind.command import asked, program_of  # noqa: E402

IN_C = """#include <stdio.h>
#include <stdlib.h>
#include <string.h>

static const int64_t given[] = {1, 2, 3, 4, 5, 6, 7, 8};
static int faults;

static void check(const char *what, int good) {
    if (!good) printf("%s\\n", what), faults++;
}

static void same(const char *what, stm_answer one, stm_answer other) {
    check(what, one.code == other.code && one.value == other.value && one.ticket == other.ticket &&
                    one.chapter == other.chapter && one.entry == other.entry && one.place == other.place);
}

static void keep(void *own, stm_answer answer) { *(stm_answer *)own = answer; }

static stm_service *opened(const char *path) {
    FILE *file = fopen(path, "rb");
    char *text = malloc(1 << 24);
    size_t length = file && text ? fread(text, 1, 1 << 24, file) : 0;
    stm_service *plain;
    if (stm_service_open(text, length, NULL, &plain) != STM_DONE) exit(3);
    fclose(file);
    free(text);
    return plain;
}

static char *file_of(stm_service *service) {
    size_t wanted;
    stm_service_file(service, NULL, 0, &wanted);
    char *text = calloc(1, wanted + 1);
    if (!text || stm_service_file(service, text, wanted, &wanted) != STM_DONE) exit(3);
    return text;
}

static void ended(const char *what, stm_service *own, stm_service *plain) {
    stm_service_close(own);
    stm_service_close(plain);
    char *one = file_of(own), *other = file_of(plain);
    check(what, strcmp(one, other) == 0);
    free(one);
    free(other);
    stm_service_free(own);
    stm_service_free(plain);
}
"""
IN_CPP = """#include <fstream>
#include <iostream>
#include <iterator>

static int faults;

static void check(const char *what, bool good) {
    if (!good) std::cout << what << "\\n", faults++;
}

static void same(const char *what, const stm::outcome &one, const stm::outcome &other) {
    check(what, one.code() == other.code() && *one == *other && one.ticket() == other.ticket() &&
                    one.entry() == other.entry() && one.place() == other.place());
}

static std::optional<std::int64_t> value_of(const std::optional<stm::present> &present) {
    return present ? std::optional<std::int64_t>(present->value) : std::nullopt;
}

static std::string read(const char *path) {
    std::ifstream file(path, std::ios::binary);
    return std::string(std::istreambuf_iterator<char>(file), {});
}
"""
IN_RUST = """
use std::future::Future;
use std::pin::pin;
use std::task::{Context, Poll, Waker};
use std::time::Duration;

fn value_of(present: Option<(i64, u64)>) -> Option<i64> {
    present.map(|(value, _)| value)
}

/// What a call that does not wait answers.
fn ended(call: stm::Call<'_>) -> Result<i64, stm::Fault> {
    let mut context = Context::from_waker(Waker::noop());
    match pin!(call).as_mut().poll(&mut context) {
        Poll::Ready(answer) => answer,
        Poll::Pending => panic!("it waits"),
    }
}
"""
IN_PYTHON = """import asyncio
import sys

import stm


def told(call):
    try:
        return call()
    except stm.Fault as fault:
        return type(fault), fault.args, fault.ticket, fault.entry, fault.place


def same(what, one, other):
    found, wanted = told(one), told(other)
    assert found == wanted, f"{what}: {found}, and by number {wanted}"


def raised(call):
    try:
        call()
    except Exception as why:
        return type(why)
    return None


def read(path):
    with open(path, encoding="ascii", newline="") as file:
        return file.read()

"""


def arguments(one):
    return ", ".join(str(number + 1) for number in range(len(one.parameters)))


def look_at(cells):
    """The numbers of cells at which the host looks, and of one that is not there."""
    return [*range(min(cells, 4)), cells]


def named(program, names):
    """Each transaction with its names; each table and variable with its name."""
    count = len(program.transactions)
    calls = zip(program.transactions, names.own, names.forms)
    tables = zip(range(len(program.tables)), program.tables, names.own[count:], names.lengths)
    return calls, tables, zip(program.variables, names.own[count + len(program.tables) :])


def calls_in_c(at, calls):
    for one, name, (tries, within, starts, observes) in calls:
        words = ", ".join(["own", *filter(None, [arguments(one)])])
        by_number = f"plain, {one.number}, given, {len(one.parameters)}"
        yield f'    same("{at}: {observes}", {observes}({words}), stm_service_observe({by_number}));'
        yield f'    same("{at}: {tries}", {tries}({words}), stm_try_atomically({by_number}));'
        yield f'    same("{at}: {within}", {within}({words}, 1), stm_atomically_within({by_number}, 1));'
        yield f"    if (stm_service_observe({by_number}).code != STM_RETRIES)"
        yield f'        same("{at}: {name}", {name}({words}), stm_atomically({by_number}));'
        yield f"    if (stm_service_observe({by_number}).code != STM_RETRIES) {{"
        yield f"        int64_t ticket = {starts}({words}, keep, &one);"
        yield f'        check("{at}: {starts}", ticket == stm_start({by_number}, keep, &other));'
        yield from [f'        same("{at}: {starts}", one, other);', "    }"]


def body_in_c(at, program):
    names = in_c.names_of(program)
    calls, tables, variables = named(program, names)
    yield from [f"static void try_{at}(const char *path) {{", "    stm_service *own, *plain = opened(path);"]
    yield from ["    stm_answer one, other;", "    int64_t value, wanted;", "    uint64_t version;"]
    yield f'    check("{at}: open", {names.module}_open(NULL, &own) == STM_DONE);'
    yield from calls_in_c(at, calls)
    for number, (_table, cells), name, length in tables:
        yield f'    check("{at}: {length}", {length} == stm_service_table_length(plain, {number}));'
        for cell in look_at(cells):
            yield "    value = wanted = 0;"
            by_number = f"stm_service_cell(plain, {number}, {cell}, &wanted, &version)"
            yield f'    check("{at}: {name}", {name}(own, {cell}, &value) == {by_number} && value == wanted);'
    for variable, name in variables:
        yield f'    stm_service_value(plain, "{variable}", {len(variable)}, &wanted, &version);'
        yield f'    check("{at}: {name}", {name}(own) == wanted);'
    for condition, name in zip(program.conditions, names.conditions):
        number = f'stm_program_condition(stm_service_program(plain), "{condition}", {len(condition)})'
        yield f'    check("{at}: {name}", {name} == {number});'
        yield f'    check("{at}: {name}", strcmp({names.module}_condition_name({name}), "{condition}") == 0);'
    if program.conditions:
        yield f'    check("{at}: none", {names.module}_condition_name({len(program.conditions)}) == NULL);'
    yield "    (void)one, (void)other, (void)value, (void)wanted, (void)version, (void)keep, (void)given;"
    yield from [f'    ended("{at}: the file", own, plain);', "}", ""]


def calls_in_cpp(at, calls):
    time = "std::chrono::nanoseconds(1)"
    for one, name, (tries, within, starts, awaits, observes) in calls:
        words = arguments(one)
        by_number = f"{one.number}, {{{words}}}"
        timed = ", ".join([time, *filter(None, [words])])
        started = ", ".join([*filter(None, [words]), "[&](stm::outcome how) { told.emplace(how); }"])
        yield f'    same("{at}: {observes}", own.{observes}({words}), plain.observe({by_number}));'
        yield f'    same("{at}: {tries}", own.{tries}({words}), plain.try_atomically({by_number}));'
        yield f'    same("{at}: {within}", own.{within}({timed}), plain.atomically_within({time}, {by_number}));'
        for form, call in (
            (name, f"own.{name}({words})"),
            (awaits, f"own.{awaits}({words}).get()"),
            (starts, f"(own.{starts}({started}).value(), told.value())"),
        ):
            yield f"    if (plain.observe({by_number}).code() != STM_RETRIES) {{"
            yield f"        auto found = {call};"
            yield from [f'        same("{at}: {form}", found, plain.atomically({by_number}));', "    }"]


def body_in_cpp(at, program):
    names = in_cpp.names_of(program)
    calls, tables, variables = named(program, names)
    kind = names.type
    yield from [f"static void try_{at}(const char *path) {{", f'    check("{at}: text", {kind}::text() == read(path));']
    yield from [f"    auto own = {kind}::open().value();", "    auto plain = stm::service::open(read(path)).value();"]
    yield "    [[maybe_unused]] std::optional<stm::outcome> told;"
    yield from calls_in_cpp(at, calls)
    for number, (_table, cells), name, length in tables:
        yield f'    check("{at}: {length}", {kind}::{length} == plain.table_length({number}));'
        for cell in look_at(cells):
            yield f'    check("{at}: {name}", own.{name}({cell}) == value_of(plain.cell({number}, {cell})));'
    for variable, name in variables:
        yield f'    check("{at}: {name}", own.{name}() == value_of(plain.value("{variable}")));'
    for number, (condition, name) in enumerate(zip(program.conditions, names.conditions)):
        spelled, broken = f"{kind}::condition::{name}", f"{{-1, STM_BROKEN, {number}, 0, 0, 0}}"
        yield f'    check("{at}: {name}", {kind}::name_of({spelled}) == plain.declared().conditions[{number}]);'
        yield f'    check("{at}: {name}", {kind}::name_of({spelled}) == "{condition}");'
        yield f'    check("{at}: {name}", {kind}::broken(stm::outcome({broken})) == {spelled});'
    if program.conditions:
        yield f'    check("{at}: none", !{kind}::broken(stm::outcome({{-1, STM_THROWN, 0, 0, 0, 0}})));'
    yield from [f'    check("{at}: the file", *own.service().file() == *plain.file());', "}", ""]


def calls_in_rust(calls):
    time = "Duration::from_nanos(1)"
    for one, name, (tries, within, awaits, observes) in calls:
        words = arguments(one)
        by_number = f"{one.number}, &[{words}]"
        timed = ", ".join([*filter(None, [words]), time])
        yield f'    assert_eq!(own.{observes}({words}), plain.observe({by_number}), "{observes}");'
        yield f'    assert_eq!(own.{tries}({words}), plain.try_atomically({by_number}), "{tries}");'
        yield f"    let wanted = plain.atomically_within({by_number}, {time});"
        yield f'    assert_eq!(own.{within}({timed}), wanted, "{within}");'
        for form, call in ((name, f"own.{name}({words})"), (awaits, f"ended(own.{awaits}({words}))")):
            yield f"    if plain.observe({by_number}) != Err(stm::Fault::Retries) {{"
            yield from [f'        assert_eq!({call}, plain.atomically({by_number}), "{form}");', "    }"]


def body_in_rust(at, program):
    names = in_rust.names_of(program)
    calls, tables, variables = named(program, names)
    yield f"fn try_{at}(path: &str) {{"
    yield '    let text = std::fs::read_to_string(path).expect("it is read");'
    yield f"    assert_eq!(module_{at}::TEXT, text);"
    yield f'    let own = module_{at}::{names.type}::open().expect("it is opened");'
    yield '    let plain = stm::Service::open(&text).expect("it is opened");'
    yield from calls_in_rust(calls)
    for number, (_table, cells), name, length in tables:
        yield f"    assert_eq!(Some(module_{at}::{length}), plain.table_length({number}));"
        for cell in look_at(cells):
            yield f'    assert_eq!(own.{name}({cell}), value_of(plain.cell({number}, {cell})), "{name}");'
    for variable, name in variables:
        yield f'    assert_eq!(Some(own.{name}()), value_of(plain.value("{variable}")), "{name}");'
    for number, (condition, name) in enumerate(zip(program.conditions, names.conditions)):
        spelled = f"module_{at}::Condition::{name}"
        yield f'    assert_eq!({spelled}.name(), "{condition}");'
        yield f"    assert_eq!({spelled}.name(), plain.declared().conditions[{number}]);"
        yield f"    assert_eq!(module_{at}::Condition::broken(stm::Fault::Broken({number})), Some({spelled}));"
    if program.conditions:
        yield f"    assert_eq!(module_{at}::Condition::broken(stm::Fault::Overflow), None);"
    yield from ["    assert_eq!(own.service().file(), plain.file());", "}", ""]


def calls_in_python(calls):
    for one, name, (tries, within, awaits, observes) in calls:
        words, given = arguments(one), f'"{one.name}", {[place + 1 for place in range(len(one.parameters))]}'
        timed = ", ".join([*filter(None, [words]), "timeout=1e-9"])
        rows = [
            (observes, f"own.{observes}({words})", f"plain.observe({given})"),
            (tries, f"own.{tries}({words})", f"plain.try_atomically({given})"),
            (within, f"own.{within}({timed})", f"plain.atomically({given}, timeout=1e-9)"),
        ]
        yield from [f'        same("{form}", lambda: {call}, lambda: {by_number})' for form, call, by_number in rows]
        for form, call in ((name, f"own.{name}({words})"), (awaits, f"asyncio.run(own.{awaits}({words}))")):
            yield f"        if raised(lambda: plain.observe({given})) is not stm.Retries:"
            yield f'            same("{form}", lambda: {call}, lambda: plain.atomically({given}))'


def body_in_python(at, program):
    names = in_python.names_of(program)
    calls, tables, variables = named(program, names)
    yield from ["", f"def try_{at}(path):", f"    import module_{at} as module", ""]
    yield from ["    text = read(path)", f'    assert module.TEXT == text, "{at}: text"']
    yield f"    with module.{names.type}() as own, stm.Service(text) as plain:"
    every = [*names.own, *(form for forms in names.forms for form in forms)]
    yield f"        found = [name for name in vars(module.{names.type}) if name in {every}]"
    yield f"        assert len(found) == {len(every)}"
    yield from calls_in_python(calls)
    for _number, (table, cells), name, length in tables:
        yield f'        wanted = plain.table("{table}")'
        yield f"        assert module.{length} == len(wanted)"
        yield from [f"        assert own.{name}({cell}) == wanted[{cell}]" for cell in look_at(cells)[:-1]]
        yield f"        assert raised(lambda: own.{name}({cells})) is stm.Outside"
    yield from [f'        assert own.{name}() == plain.value("{variable}"), "{name}"' for variable, name in variables]
    for number, (condition, name) in enumerate(zip(program.conditions, names.conditions)):
        yield f"        assert module.Condition(plain.declared.conditions[{number}]) is module.Condition.{name}"
        yield f'        assert module.Condition.{name} == "{condition}"'
    yield from ["        assert own.service.file() == plain.file()", ""]


def host(language, programs):
    """The lines of the host."""
    places = range(len(programs))
    if language in ("c", "cpp"):
        ending, head, body = ("h", IN_C, body_in_c) if language == "c" else ("hpp", IN_CPP, body_in_cpp)
        yield from [f'#include "module_{at}.{ending}"' for at in places]
        yield from ["", head]
        for at, program in enumerate(programs):
            yield from body(at, program)
        yield "int main(int words, char **word) {"
        yield f"    if (words != {len(programs) + 1}) return 2;"
        yield from [f"    try_{at}(word[{at + 1}]);" for at in places]
        yield from ['    if (!faults) puts("good");' if language == "c" else '    if (!faults) std::cout << "good\\n";']
        yield from ["    return faults != 0;", "}"]
    elif language == "rust":
        yield from [f"mod module_{at};" for at in places]
        yield IN_RUST
        for at, program in enumerate(programs):
            yield from body_in_rust(at, program)
        yield from ["fn main() {", "    let paths: Vec<String> = std::env::args().skip(1).collect();"]
        yield from [f"    try_{at}(&paths[{at}]);" for at in places]
        yield from ['    println!("good");', "}"]
    else:
        yield IN_PYTHON
        for at, program in enumerate(programs):
            yield from body_in_python(at, program)
        yield ""
        yield from [f"try_{at}(sys.argv[{at + 1}])" for at in places]
        yield 'print("good")'


def main(language, *files):
    programs = [program_of(asked([file, "--language", language])) for file in files]
    print("\n".join(host(language, programs)))


if __name__ == "__main__":
    main(*sys.argv[1:])
