"""The command."""

from __future__ import annotations

import argparse
import os
import re
import sys
from typing import Callable, Dict, Iterator, List, NoReturn

from . import in_c, in_cpp, in_python, in_rust
from .names import is_name, name_of_file
from .program import Program, Transaction

LANGUAGES: Dict[str, Callable[[Program], Iterator[str]]] = {
    "c": in_c.module,
    "cpp": in_cpp.module,
    "rust": in_rust.module,
    "python": in_python.module,
}
# More bytes than a file may have are not read.
MOST_BYTES = 67_108_864
# As the program ends, and the launcher where what it runs by is missing.
REFUSED, WRONG_WORDS, NOT_READ, MEMORY, MISSING = 2, 3, 4, 5, 69
ABOUT = """Prints a module for a host in C, C++, Rust or Python, made from a file of transactions:
one function for each transaction, with its parameters by their names, and the
file's text inside, so that the module alone opens the service."""
MORE = """For a file bank.stm that declares (tx pay (from to n) ..):

    stm-bind bank.stm --language c > bank.h
        bank_open(NULL, &service);  bank_pay(service, 3, 5, 60);
    stm-bind bank.stm --language cpp > bank.hpp
        bank own = bank::open().value();  own.pay(3, 5, 60).value();
    stm-bind bank.stm --language rust > bank.rs
        let bank = bank::Bank::open()?;  bank.pay(3, 5, 60)?;
    stm-bind bank.stm --language python > bank.py
        with bank.Bank() as own: own.pay(3, 5, 60)

Beside pay there are try_pay, which does not wait, pay_within, which waits at most
for a time, observe_pay, which enters nothing, and calls that no thread waits for:
start_pay in C and C++, future_pay in C++, call_pay in Rust and Python. A table and
a variable have a function that looks at their present values; a table's length and
the standing conditions stand there by name. A name that the language or the module
has already gets a _ behind it, and one more until no other has it: from is from_ in
Python. In C and C++ so does a name of capitals alone, which may be a macro, and one
that ends with _t, as types do.

The library is found as by the package stm for Python: in the folder STM_LIB_DIR, or
as it is installed.

Status: 0 done, 2 the file is refused, 3 the words are wrong, 4 a file can't be read
or the module can't be written, 5 out of memory, 69 the library is missing."""


class Failed(Exception):
    """There is no module: what to say, and the status."""

    def __init__(self, text: str, status: int) -> None:
        super().__init__(text)
        self.status = status


class Parser(argparse.ArgumentParser):
    def error(self, message: str) -> NoReturn:
        raise Failed(f"{message}: stm-bind --help says more", WRONG_WORDS)


def asked(words: List[str]) -> argparse.Namespace:
    layout = argparse.RawDescriptionHelpFormatter
    parser = Parser("stm-bind", description=ABOUT, epilog=MORE, formatter_class=layout, allow_abbrev=False)
    parser.add_argument("file", metavar="FILE", help="the path of the file")
    parser.add_argument("--language", required=True, choices=list(LANGUAGES), help="the language of the module")
    parser.add_argument("--name", help="what the module is called; default: as the file, without its ending")
    found = parser.parse_args(words)
    if found.name is not None and not is_name(found.name):
        parser.error(f"{found.name!r} is no name, which is a letter, then letters, digits and _")
    return found


def read(path: str) -> str:
    """The file's text. What is no text of UTF-8 stays what it is, for the library to refuse."""
    try:
        with open(path, "rb") as file:
            return file.read(MOST_BYTES + 1).decode("utf-8", "surrogateescape")
    except (OSError, ValueError) as error:
        raise Failed(f"cannot read {path}: {getattr(error, 'strerror', None) or error}", NOT_READ) from None


def program_of(found: argparse.Namespace) -> Program:
    """What the file declares, as the library tells it."""
    try:
        import stm
    except (ImportError, OSError, AttributeError) as error:
        raise Failed(f"the library can't be loaded: {error}", MISSING) from None
    text = read(found.file)
    try:
        told = stm.declared(text)
    except stm.Refused as why:
        raise Failed(f"{found.file}: {why}", REFUSED) from None
    file = os.path.basename(found.file)
    # A comment has it, in any language.
    shown = re.sub(r"[^A-Za-z0-9_.-]", "_", file)
    named = [] if found.name is None else ["--name", found.name]
    return Program(
        shown,
        " ".join(["stm-bind", shown, "--language", found.language, *named]),
        found.name or name_of_file(os.path.splitext(file)[0]),
        text,
        told.variables,
        list(told.tables.items()),
        told.conditions,
        [Transaction(name, at, names) for at, (name, names) in enumerate(told.transactions.items())],
    )


def write(lines: Iterator[str]) -> None:
    try:
        sys.stdout.writelines(f"{line}\n" for line in lines)
        sys.stdout.flush()
    except OSError as error:
        # What is left in the stream is not tried again.
        os.dup2(os.open(os.devnull, os.O_WRONLY), sys.stdout.fileno())
        raise Failed(f"cannot write: {error.strerror}", NOT_READ) from None


def main(words: List[str]) -> int:
    """Prints the module that the words ask for: the status."""
    try:
        found = asked(words)
        write(LANGUAGES[found.language](program_of(found)))
    except Failed as why:
        print(f"stm-bind: {why}", file=sys.stderr)
        return why.status
    except MemoryError:
        print("stm-bind: out of memory", file=sys.stderr)
        return MEMORY
    return 0
