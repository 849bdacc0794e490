"""What `bindings/check --quick` tries of hosts over a library that is there, in a minute: those in C, C++, Rust and
Python, where their compilers are, with few calls of each. `case` and `run` are functions of bindings/check."""

import os
import shutil
import sys

import bound
import documented
import explained
import languages

HERE = os.path.dirname(os.path.abspath(__file__))
EXAMPLES = os.path.join(os.path.dirname(HERE), "examples")
WARN = ["-Wall", "-Wextra", "-Wpedantic", "-Werror"]
GOOD = "good\n"
# Each host in C with its words and what it prints: nothing where only its status tells.
IN_C = [
    ("tests/threads.c", [f"{EXAMPLES}/accounts.stm", "4"], None),
    ("tests/submit.c", [f"{EXAMPLES}/pipeline.stm", "make", "3", "4"], GOOD),
    ("tests/parked.c", [], GOOD),
    ("tests/results.c", [], GOOD),
    ("tests/chapters.c", [], GOOD),
    ("tests/answers.c", [], GOOD),
    ("tests/desk.c", [], GOOD),
    ("tests/programs.c", ["4"], GOOD),
    ("tests/lock.c", ["2000"], GOOD),
    ("tests/service.c", [], GOOD),
    ("tests/service_threads.c", ["300", "100"], GOOD),
    ("tests/service_kept.c", [], GOOD),
    ("tests/service_lives.c", ["50"], GOOD),
    ("tests/started.c", [], GOOD),
    ("tests/started_many.c", [], GOOD),
    ("tests/started_threads.c", ["300"], GOOD),
    ("tests/taken.c", [], GOOD),
    ("tests/asked.c", [], GOOD),
    ("tests/arguments.c", [], GOOD),
    ("tests/each.c", [], GOOD),
    ("tests/each_threads.c", ["2000"], GOOD),
    ("tests/tables.c", [], GOOD),
    ("examples/tellers.c", [], languages.TELLERS),
    ("examples/transfers.c", [], languages.TRANSFERS),
    ("examples/orders.c", [], languages.ORDERS_IN_C),
    ("examples/refused.c", [], languages.REFUSED),
    ("examples/jobs.c", ["4"], languages.JOBS),
    ("examples/wages.c", [], languages.WAGES),
]
IN_CPP = [(f"tests/{name}.cpp", GOOD) for name in languages.TESTS]
IN_CPP += [("examples/bounded_queue.cpp", languages.QUEUE), ("examples/orders.cpp", languages.ORDERS_IN_CPP)]
IN_CPP += [("examples/transfers.cpp", languages.TRANSFERS), ("examples/refused.cpp", languages.REFUSED)]
IN_CPP += [("examples/wages.cpp", languages.WAGES)]


def compiled(case, run, work, library, word, source, *flags):
    """The host, built over the library, or nothing where it can't be."""
    out = os.path.join(work, source.replace("/", "."))
    words = [*flags, *WARN, "-I", library, os.path.join(HERE, source), f"{library}/libstm.a", "-pthread", "-o", out]
    done = run(word, *words)
    case(f"{source} is built by {word}", done.returncode == 0, languages.told_by(done))
    return out if done.returncode == 0 else None


def hosts(case, run, work, library):
    for word, flags, listed in (
        ("cc", ["-std=c99", "-D_POSIX_C_SOURCE=200809L", "-O1"], IN_C),
        ("c++", ["-std=c++17", "-O1"], [(source, [], wanted) for source, wanted in IN_CPP]),
    ):
        if not shutil.which(word):
            print(f"not tried: {word} is not there")
            continue
        for source, words, wanted in listed:
            if out := compiled(case, run, work, library, word, source, *flags):
                done = run(out, *words)
                good = done.returncode == 0 and wanted in (None, done.stdout.decode())
                case(source, good, languages.told_by(done) or f"status {done.returncode}")


def refusals(case, run, library):
    """What a compiler of C++ says of calls with a wrong number of arguments."""
    if shutil.which("c++"):
        languages.exact(case, run, "c++", library, 2)


def rust(case, run, work, library):
    if not shutil.which("cargo"):
        print("not tried: cargo is not there")
        return
    there = dict(os.environ, STM_LIB_DIR=library, CARGO_TARGET_DIR=f"{work}/target", CARGO_NET_OFFLINE="true")
    done = run("cargo", "test", "-q", "--locked", "--tests", cwd=f"{HERE}/rust", env=there, timeout=400)
    case("cargo test", done.returncode == 0, languages.told_by(done))
    documented.rust(case, run, there, timeout=400)
    done = run("cargo", "run", "-q", "--locked", "--example", "tellers", cwd=f"{HERE}/rust", env=there, timeout=400)
    case("tellers.rs", done.stdout.decode() == languages.IN_RUST["tellers"], languages.told_by(done))


def python(case, run, library):
    there = dict(os.environ, STM_LIB_DIR=library, PYTHONPATH=f"{HERE}/python", PYTHONDONTWRITEBYTECODE="1")
    words = [sys.executable, "-W", "error"]
    done = run(*words, "-m", "unittest", "discover", "-s", f"{HERE}/python/tests", env=there, timeout=400)
    case("the tests in Python", done.returncode == 0, languages.told_by(done))
    done = run(*words, f"{HERE}/examples/jobs.py", env=there, timeout=400)
    case("jobs.py", done.stdout.decode() == languages.JOBS, languages.told_by(done))


def tried(case, run, work, library):
    hosts(case, run, work, library)
    refusals(case, run, library)
    python(case, run, library)
    rust(case, run, work, library)
    explained.tried(case, run, work, library)
    bound.tried(case, run, work, library, few=True)
