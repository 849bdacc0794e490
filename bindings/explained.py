"""Whether hosts are told of each wrong file what `stm explain` prints of it: `bindings/check` asks it of one in C, in
C++, in Rust and in Python, with the files of cases/explained_files.cases, which says what the program prints. `library`
is a folder as `./stm --library` makes it; `case` and `run` are functions of bindings/check."""

import os
import shutil
import sys

import cases

HERE = os.path.dirname(os.path.abspath(__file__))
CASES = os.path.join(os.path.dirname(HERE), "cases", "explained_files.cases")
WARN = ["-Wall", "-Wextra", "-Wpedantic", "-Werror"]
# How many of the files are refused, at least.
WRONG = 250
MANIFEST = """[package]
name = "explained"
version = "0.1.0"
edition = "2021"

[dependencies]
stm = {{ path = "{}" }}
"""


def told_by(done):
    return (done.stdout + done.stderr).decode(errors="replace")


def rows():
    """Those that explain one file and nothing else."""
    return [row for row in cases.read(CASES) if len(row.files) == 1 and row.words == ["explain", *row.files]]


def written(work, all_rows):
    """The file of each row, in a folder."""
    folder = os.path.join(work, "explained_files")
    os.makedirs(folder)
    paths = [os.path.join(folder, f"{number}.stm") for number in range(len(all_rows))]
    for path, row in zip(paths, all_rows):
        with open(path, "wb") as file:
            file.writelines(row.files.values())
    return paths


def compiled(case, run, work, library, word, *flags):
    """The host in C or C++, or nothing where it can't be built."""
    suffix = {"cc": "c", "c++": "cpp"}[word]
    out = os.path.join(work, f"explained.{suffix}.out")
    words = [word, *flags, *WARN, "-O1", "-I", library, f"{HERE}/tests/explained.{suffix}", f"{library}/libstm.a"]
    done = run(*words, "-pthread", "-o", out, timeout=400)
    case(f"explained.{suffix} is built", done.returncode == 0, told_by(done))
    return out if done.returncode == 0 else None


def in_rust(case, run, work, library):
    """The host in Rust, a package of its own, or nothing where it can't be built."""
    folder, target = os.path.join(work, "explained"), os.path.join(work, "target")
    os.makedirs(os.path.join(folder, "src"))
    shutil.copy(f"{HERE}/tests/explained.rs", os.path.join(folder, "src", "main.rs"))
    with open(os.path.join(folder, "Cargo.toml"), "w", encoding="utf-8") as file:
        file.write(MANIFEST.format(f"{HERE}/rust"))
    there = dict(os.environ, STM_LIB_DIR=library, CARGO_TARGET_DIR=target, CARGO_NET_OFFLINE="true")
    done = run("cargo", "build", "-q", "-j2", cwd=folder, env=there, timeout=400)
    case("explained.rs is built", done.returncode == 0, told_by(done))
    return os.path.join(target, "debug", "explained") if done.returncode == 0 else None


def hosts(case, run, work, library):
    """A host in each language that is there: its name, the words that begin its command, and what it has around it."""
    built = {
        "C": ("cc", lambda: compiled(case, run, work, library, "cc", "-std=c99")),
        "C++": ("c++", lambda: compiled(case, run, work, library, "c++", "-std=c++17")),
        "Rust": ("cargo", lambda: in_rust(case, run, work, library)),
    }
    for name, (word, build) in built.items():
        if not shutil.which(word):
            print(f"not tried: {word} is not there")
        elif host := build():
            yield name, [host], dict(os.environ)
    there = dict(os.environ, STM_LIB_DIR=library, PYTHONPATH=f"{HERE}/python", PYTHONDONTWRITEBYTECODE="1")
    yield "Python", [sys.executable, "-W", "error", f"{HERE}/tests/explained.py"], there


def difference(row, line):
    """What is told otherwise than the program tells it, where something is."""
    printed = line
    if line != b"good":
        number, column, printed = line.split(b" ", 2)
        if not printed.startswith(b"line %s, column %s: " % (number, column)):
            return f"{row.place}: {row.title}: line {number}, column {column}, in {printed}"
    printed, wanted = printed + b"\n", row.wanted
    good = printed == wanted.get("prints", printed) and all(part in printed for part in wanted.get("has", []))
    good = good and printed.startswith(wanted.get("begins", b"")) and printed.endswith(wanted.get("ends", b""))
    return None if good else f"{row.place}: {row.title}: {printed}, and by the program {wanted}"


def tried(case, run, work, library):
    all_rows = rows()
    wrong = [row for row in all_rows if row.wanted.get("status") == 2]
    case("many files are refused", len(wrong) >= WRONG, str(len(wrong)))
    paths, first = written(work, all_rows), None
    for name, words, there in hosts(case, run, work, library):
        done = run(*words, *paths, env=there, timeout=400)
        lines = done.stdout.split(b"\n")[:-1]
        case(f"{name} is told of each file", done.returncode == 0 and len(lines) == len(paths), told_by(done)[-1000:])
        found = [told for told in map(difference, all_rows, lines) if told]
        case(f"{name} is told where and why files are refused", not found, "\n".join(found[:5]))
        first = first or lines
        case(f"{name} is told it in the same words", lines == first)
