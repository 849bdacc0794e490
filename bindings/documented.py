"""What `bindings/check` tries of the reference pages of hosts in Rust: that `cargo doc` warns of nothing, and that each
call which can fail says by which errors. Those in Python are tried by the package's tests. `case` and `run` are
functions of bindings/check; `there` is the environment in which `cargo` runs."""

import glob
import os
import re

HERE = os.path.dirname(os.path.abspath(__file__))
# A doc comment, attributes, and a public function with what it answers.
CALL = re.compile(r"((?:^ *///[^\n]*\n)*)(?:^ *#\[[^\n]*\n)*^ *pub fn (\w+)([^{;]*)[{;]", re.M)
ANSWER = re.compile(r"-> (\w+)")


def fails(rest):
    """Whether what stands behind a function's name, which may take other functions, says that it can fail."""
    return ANSWER.findall(rest)[-1:] in (["Result"], ["Call"])


def silent(text):
    """The calls of a source that can fail, and say nothing of it; and how many can fail."""
    failing = [(name, told) for told, name, rest in CALL.findall(text) if fails(rest)]
    return [name for name, told in failing if "/// # Errors\n" not in told], len(failing)


def rust(case, run, there, **more):
    more.update(cwd=f"{HERE}/rust", env=dict(there, RUSTDOCFLAGS="-D warnings"))
    done = run("cargo", "doc", "-q", "-j2", "--locked", **more)
    case("cargo doc warns of nothing", done.returncode == 0, done.stderr.decode(errors="replace"))
    failing = 0
    for path in sorted(glob.glob(f"{HERE}/rust/src/*.rs")):
        if os.path.basename(path) == "raw.rs":
            continue
        with open(path, encoding="utf-8") as file:
            names, count = silent(file.read())
        failing += count
        case(f"{os.path.basename(path)}: each call that can fail says how", not names, " ".join(names))
    case("there are calls in Rust that can fail", failing > 40, str(failing))
    case("a call that says nothing is told", silent("/// So.\npub fn one() -> Result<(), Fault> {\n") == (["one"], 1))
