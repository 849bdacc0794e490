"""What `bindings/check` tries of `stm-bind`: a module of each file in each language is made, compiled and called beside
the same calls by number (tests/bound_hosts.py); the examples print what they have to; and the command says what is
wrong. `library` is a folder as `./stm --library` makes it; `case` and `run` are functions of bindings/check."""

import glob
import os
import shutil
import sys

HERE = os.path.dirname(os.path.abspath(__file__))
ROOT = os.path.dirname(HERE)
BIND = os.path.join(HERE, "bind", "stm-bind")
HOSTS = os.path.join(HERE, "tests", "bound_hosts.py")
ENDINGS = {"c": "h", "cpp": "hpp", "rust": "rs", "python": "py"}
# The examples, by the endings of their names.
SOURCES = ("c", "cpp", "rs", "py")
WARN = ["-Wall", "-Wextra", "-Wpedantic", "-Wconversion", "-Wshadow", "-Werror"]
# By which compilers, with which words, a host in the language is built.
COMPILERS = {
    "c": [(word, ["-std=c99", "-D_POSIX_C_SOURCE=200809L", "-O0"]) for word in ("gcc", "clang")],
    "cpp": [(word, ["-std=c++17", "-O0"]) for word in ("g++", "clang++")],
}
MANIFEST = """[package]
name = "bound"
version = "0.1.0"
edition = "2021"

[lib]
name = "modules"

[dependencies]
stm = {{ path = "{}" }}
"""
BOUND = "done 90\nthrown 100\naccount 3 has 90\n"
# How things of new.stm are called whose names the language or the module has already, or that come to be alike.
RENAMED = {
    "c": [
        "new__open(const stm_service_options",
        "new__open_(stm_service",
        "new__int(stm_service",
        "new__pay(stm_service",
        "new__pay_(stm_service",
        "new__try_pay(stm_service",
        "new__try_pay__(stm_service *service, int64_t from,",
        "(stm_service *service, int64_t NULL_, int64_t errno_,",
        "NEW__ACCT_LENGTH = 4",
        "NEW__ACCT_LENGTH_ = 3",
    ],
    "cpp": [
        "class new_ {",
        "outcome open_()",
        "outcome int_(",
        "outcome pay(std::int64_t from",
        "outcome pay_(",
        "outcome try_pay(std::int64_t a",
        "outcome try_pay__(std::int64_t from",
        "(std::int64_t NULL_, std::int64_t errno_, std::int64_t EOF_)",
        "acct_length_ = 4",
        "ACCT_length = 3",
    ],
    "rust": [
        "pub struct New {",
        "pub fn open_(",
        "pub fn fn_(",
        "pub fn int(",
        "pub fn from(",
        "pub fn Self_(",
        "None_: i64",
        "pub fn try_pay__(",
        "ACCT_LENGTH: u32 = 4",
        "ACCT_LENGTH_: u32 = 3",
    ],
    "python": [
        "class New:",
        "def open(",
        "def close_(",
        "def fn(",
        "def from_(",
        "def None_(",
        "def try_pay__(",
        "self, from_: int, self_: int, given: int",
        "self___: int",
        "ACCT_LENGTH_ = 3",
    ],
}
# What `bindings/check --quick` makes modules of: enough for each kind of name, text and body.
FEW = ("form2", "marks", "new", "nothing", "stm")


def told_by(done):
    return (done.stdout + done.stderr).decode(errors="replace")


def around(library):
    """What a command of Python has around it."""
    return dict(os.environ, STM_LIB_DIR=library, PYTHONPATH=f"{HERE}/python", PYTHONDONTWRITEBYTECODE="1")


def bound(run, library, file, language, *more):
    return run(sys.executable, "-W", "error", BIND, file, "--language", language, *more, env=around(library))


def long_file(work):
    """A file that is longer than a literal may be, with such a line, and with what a literal must not have anywhere."""
    path = os.path.join(work, "long.stm")
    line = "; " + "".join(f'{number} ?\\"?? ' for number in range(9000))
    lines = [f'; {number} """ \\ )stm" "# ??/' for number in range(3000)]
    with open(path, "w", encoding="ascii") as file:
        file.write("\n".join(["(stm 3)", *lines, line, "(tx one (n) (skip) (add n 1))", *lines]))
    return path


def files(work, few):
    if few:
        return [*(f"{HERE}/tests/bound/{name}.stm" for name in FEW), long_file(work), f"{ROOT}/examples/tellers.stm"]
    own, others = (sorted(glob.glob(f"{folder}/*.stm")) for folder in (f"{HERE}/tests/bound", f"{ROOT}/examples"))
    return [*own, long_file(work), *others]


def modules(case, run, library, folder, language, paths):
    """Writes the module of each file into the folder."""
    os.makedirs(folder, exist_ok=True)
    for at, path in enumerate(paths):
        done = bound(run, library, path, language)
        name = os.path.basename(path)
        made = f"Made by `stm-bind {name.replace(' ', '_')} --language {language}`"
        good = done.returncode == 0 and made in done.stdout.decode().split("\n")[0]
        case(f"{name} in {language}", good, told_by(done)[-1000:])
        with open(os.path.join(folder, f"module_{at}.{ENDINGS[language]}"), "wb") as file:
            file.write(done.stdout)
        if name == "new.stm":
            missing = [part for part in RENAMED[language] if part.encode() not in done.stdout]
            case(f"how names are called in {language}", not missing, str(missing))


def write_host(case, run, library, language, paths, to):
    done = run(sys.executable, HOSTS, language, *paths, env=around(library))
    case(f"a host of all modules in {language}", done.returncode == 0, told_by(done)[-2000:])
    with open(to, "wb") as file:
        file.write(done.stdout)


def compiled(case, run, library, folder, language, paths, compilers):
    """The host of C or C++, by each of the compilers."""
    source = os.path.join(folder, f"host.{language}")
    write_host(case, run, library, language, paths, source)
    for word, flags in compilers:
        if not shutil.which(word):
            print(f"not tried: {word} is not there")
            continue
        out = os.path.join(folder, word)
        words = [*flags, *WARN, "-I", library, "-I", folder, source, f"{library}/libstm.a", "-pthread", "-o", out]
        done = run(word, *words, timeout=900)
        case(f"the modules are built by {word}", done.returncode == 0, told_by(done))
        if done.returncode == 0:
            done = run(out, *paths, timeout=400)
            case(f"calls of modules by {word}", done.stdout == b"good\n", told_by(done))


def in_rust(case, run, work, library, folder, paths):
    if not shutil.which("cargo"):
        print("not tried: cargo is not there")
        return
    source = os.path.join(folder, "src")
    with open(os.path.join(folder, "Cargo.toml"), "w", encoding="utf-8") as file:
        file.write(MANIFEST.format(f"{HERE}/rust"))
    names = "".join(f"mod module_{at};\n" for at in range(len(paths)))
    with open(os.path.join(source, "lib.rs"), "w", encoding="utf-8") as file:
        file.write(f"#![deny(warnings)]\n{names}")
    write_host(case, run, library, "rust", paths, os.path.join(source, "main.rs"))
    there = dict(os.environ, STM_LIB_DIR=library, CARGO_TARGET_DIR=f"{work}/target", CARGO_NET_OFFLINE="true")
    done = run("cargo", "build", "-q", "-j2", cwd=folder, env=there, timeout=400)
    case("the modules are built by cargo", done.returncode == 0, told_by(done))
    if done.returncode == 0:
        done = run(f"{work}/target/debug/bound", *paths, timeout=400)
        case("calls of modules in Rust", done.stdout == b"good\n", told_by(done))
    if run("cargo", "clippy", "--version").returncode:
        print("not tried: clippy is not there")
    else:
        done = run("cargo", "clippy", "-q", "-j2", "--lib", cwd=folder, env=there, timeout=400)
        case("clippy finds nothing in the modules", done.returncode == 0, told_by(done))
    if not shutil.which("rustfmt"):
        print("not tried: rustfmt is not there")
        return
    done = run("rustfmt", "--check", *glob.glob(f"{source}/module_*.rs"))
    case("the modules are laid out as rustfmt does", done.returncode == 0, told_by(done))


def in_python(case, run, library, folder, paths):
    source = os.path.join(folder, "host.py")
    write_host(case, run, library, "python", paths, source)
    done = run(sys.executable, "-W", "error", source, *paths, env=around(library), timeout=400)
    case("calls of modules in Python", done.stdout == b"good\n", told_by(done))


def examples(case, run, work, library):
    """The hosts of examples/tellers.stm, each beside its module."""
    folder = os.path.join(work, "bound", "examples")
    os.makedirs(os.path.join(folder, "src"))
    for language, ending in ENDINGS.items():
        done = bound(run, library, f"{ROOT}/examples/tellers.stm", language)
        with open(os.path.join(folder, "src", f"tellers.{ending}"), "wb") as file:
            file.write(done.stdout)
    for ending in SOURCES:
        shutil.copy(f"{HERE}/examples/bound.{ending}", os.path.join(folder, "src"))
    os.rename(f"{folder}/src/bound.rs", f"{folder}/src/main.rs")
    with open(f"{folder}/Cargo.toml", "w", encoding="utf-8") as file:
        file.write(MANIFEST.format(f"{HERE}/rust").replace('[lib]\nname = "modules"\n\n', ""))
    there = {**around(library), "CARGO_TARGET_DIR": f"{work}/target", "CARGO_NET_OFFLINE": "true"}
    linked = ["-I", library, f"{library}/libstm.a", "-pthread", "-o", "bound"]
    ways = {
        "c": ["cc", "-std=c99", *WARN, "src/bound.c", *linked],
        "cpp": ["c++", "-std=c++17", *WARN, "src/bound.cpp", *linked],
        "rs": ["cargo", "build", "-q", "-j2"],
        "py": [sys.executable, "-W", "error", "src/bound.py"],
    }
    for ending, words in ways.items():
        if not shutil.which(words[0]):
            print(f"not tried: {words[0]} is not there")
            continue
        done = run(*words, cwd=folder, env=there, timeout=400)
        case(f"bound.{ending} is built", done.returncode == 0, told_by(done))
        host = {"c": "./bound", "cpp": "./bound", "rs": f"{work}/target/debug/bound"}.get(ending)
        if host and done.returncode == 0:
            done = run(host, cwd=folder)
        case(f"bound.{ending}", done.stdout.decode() == BOUND, told_by(done))


def refusals(case, run, work, library):
    """What the command says where there is no module, in a line, and its status."""
    tellers = f"{ROOT}/examples/tellers.stm"
    wrong, bytes_ = os.path.join(work, "wrong.stm"), os.path.join(work, "bytes.stm")
    with open(wrong, "w", encoding="ascii") as file:
        file.write("(var x 1)\n(tx t (set y 1) x)\n")
    with open(bytes_, "wb") as file:
        file.write(b"; \xe4\n(var x 1)\n")
    there, nowhere = around(library), dict(around(library), STM_LIB_DIR=work)
    no_variable = "line 2, column 12: F4 Name: no variable of this name is declared; here stands y; did you mean x?"
    rows = [
        ("a wrong file", [wrong, "--language", "c"], there, 2, f"{wrong}: {no_variable}"),
        ("a byte that no file has", [bytes_, "--language", "c"], there, 2, f"{bytes_}: line 1, column 3: F2 BadByte: "),
        ("no such file", ["nowhere.stm", "--language", "c"], there, 4, "cannot read nowhere.stm: No such file"),
        ("a folder", [work, "--language", "c"], there, 4, f"cannot read {work}: Is a directory"),
        ("no library", [tellers, "--language", "c"], nowhere, 69, "the library can't be loaded: set STM_LIB_DIR"),
        ("no file", ["--language", "c"], there, 3, "the following arguments are required: FILE"),
        ("no language", [tellers], there, 3, "the following arguments are required: --language"),
        ("another language", [tellers, "--language", "java"], there, 3, "argument --language: invalid choice: 'java'"),
        ("a word too many", [tellers, "--language", "c", "--fast"], there, 3, "unrecognized arguments: --fast"),
        ("a short word", [tellers, "--lang", "c"], there, 3, ""),
        ("no name", [tellers, "--language", "c", "--name", "9 lives"], there, 3, "'9 lives' is no name"),
    ]
    for what, words, env, status, line in rows:
        done = run(sys.executable, BIND, *words, env=env)
        told = done.stderr.decode()
        good = (done.returncode, done.stdout, told.count("\n")) == (status, b"", 1)
        good = good and told.startswith(f"stm-bind: {line}")
        case(f"stm-bind with {what}", good, f"status {done.returncode}: {told}")
    full = ["sh", "-c", 'exec "$0" "$@" 2>&1 >/dev/full', sys.executable, BIND, tellers, "--language", "c"]
    done = run(*full, env=there)
    good = done.returncode == 4 and done.stdout == b"stm-bind: cannot write: No space left on device\n"
    case("stm-bind to a full disk", good, told_by(done))


def words(case, run, library):
    """Help, and a module of another name."""
    done = run(sys.executable, BIND, "--help", env=around(library))
    good = done.returncode == 0 and b"stm-bind bank.stm --language c > bank.h" in done.stdout
    case("stm-bind --help", good, told_by(done))
    case("its lines are short", all(len(line) <= 100 for line in done.stdout.decode().split("\n")))
    names = {"c": "two_phase_pay(", "cpp": "class two_phase {"}
    names.update({"rust": "pub struct TwoPhase {", "python": "class TwoPhase:"})
    for language, part in names.items():
        done = bound(run, library, f"{ROOT}/examples/tellers.stm", language, "--name", "two_phase")
        printed = done.stdout.decode()
        good = part in printed and f"--language {language} --name two_phase`" in printed
        case(f"a name for the module in {language}", good, told_by(done)[:1000])


def tried(case, run, work, library, few=False):
    paths, folder = files(work, few), os.path.join(work, "bound")
    for language in ENDINGS:
        where = os.path.join(folder, language, "src" if language == "rust" else "")
        modules(case, run, library, where, language, paths)
    for language, compilers in COMPILERS.items():
        there = compilers[:1] if few else compilers
        compiled(case, run, library, os.path.join(folder, language), language, paths, there)
    in_rust(case, run, work, library, os.path.join(folder, "rust"), paths)
    in_python(case, run, library, os.path.join(folder, "python"), paths)
    examples(case, run, work, library)
    refusals(case, run, work, library)
    words(case, run, library)
