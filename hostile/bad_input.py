"""Tries input that is cut, oversized and tampered with: each ends as it has to, or, tampered with at random, with some
answer.

What is read runs with status 0, and its report is good; what is not ends with status 2, nothing on standard output
and the line with the kind of its first fault. A text that is no report of a file is `bad 1`. What `explain` says of
each is of the same kind, or begins with the same verdict.
"""

import os
import random
import re

from refused_memory import BROKEN_REPORTS, FILES as RUNS, INCREMENTS, REPORTS
from trials import TOP, run, shown

SHAPE, NAME, LIMIT, LONG, BYTE, BROKEN = "F3 Shape", "F4 Name", "F5 Limit", "F1 TooLong", "F2 BadByte", "F7 Broken"
EMPTY = "base 0\nnow 0\nend\n"


def nested(times, opening, inner, closing=")"):
    return opening * times + inner + closing * times


def expressions(times):
    return f"(tx t (skip) {nested(times, '(add 0 ', '0')})(run t 1)"


def conditions(times):
    return f"(tx t (if {nested(times, '(not ', '(eq 0 0)')} (skip) (skip)) 0)(run t 1)"


def variables(count):
    return "".join(f"(var v{i} {i})\n" for i in range(count))


def transactions(count):
    return "".join(f"(tx t{i} (skip) {i})\n" for i in range(count))


def tables(count, length=1):
    return "(stm 3)" + "".join(f"(table t{i} {length} {i})\n" for i in range(count))


# A table of four cells, and a transaction that puts into one and tells another.
CELLS = "(stm 3)(table a 4 7)(table b 1 9)(tx t (i v j) (put a i v) (at a j))"


def standing(count):
    return "(stm 2)" + "".join(f"(always c{i} (le {i} {i}))\n" for i in range(count))


# Each file: its text, and the kind of its first fault (None: it is read), or the report that it has to give.
FILES = {
    "31 sequences inside one another": (f"(tx t {nested(31, '(seq ', '')} 0)(run t 1)", None),
    "32 sequences inside one another": (f"(tx t {nested(32, '(seq ', '')} 0)(run t 1)", SHAPE),
    "a sum of depth 31": (expressions(31), None),
    "a sum of depth 32": (expressions(32), SHAPE),
    "a condition inside 29 others": (conditions(29), None),
    "a condition inside 30 others": (conditions(30), SHAPE),
    "parentheses that never close": ("(" * 1048576, SHAPE),
    "parentheses that never open": (")" * 1048576, SHAPE),
    "as many newlines as a file may have": ("\n" * 1048576, "=" + EMPTY),
    "one newline more": ("\n" * 1048577, LONG),
    "as many newlines as a file of form 3 may have": ("(stm 3)" + "\n" * 67108857, "=" + EMPTY),
    "one newline more in a file of form 3": ("(stm 3)" + "\n" * 67108858, LONG),
    "a file of form 3 that begins otherwise": (" (stm 3)" + "\n" * 1048569, LONG),
    "a byte that is not allowed in a file that is too long": ("\x00" * 1048577, LONG),
    "a comment of one byte": (";", "=" + EMPTY),
    "nothing": ("", "=" + EMPTY),
    "a comment as long as a file": (";" * 1048576, "=" + EMPTY),
    "a byte that is not allowed, at the end of a comment": (";" * 1000 + "\t", BYTE),
    "65,536 tasks": ("(tx t (skip) 0)(run t 65536)", None),
    "65,537 tasks": ("(tx t (skip) 0)(run t 65536)(run t 1)", LIMIT),
    "a run of 65,537": ("(tx t (skip) 0)(run t 65537)", LIMIT),
    "a run of a number of 20 digits": ("(tx t (skip) 0)(run t 99999999999999999999)", LIMIT),
    "a run of less than none": ("(tx t (skip) 0)(run t -1)", LIMIT),
    "256 variables": (variables(256), None),
    "257 variables": (variables(257), LIMIT),
    "256 transactions": (transactions(256), None),
    "257 transactions": (transactions(257), LIMIT),
    "a name of 32 bytes": (f"(var {'a' * 32} 1)", None),
    "a name of 33 bytes": (f"(var {'a' * 33} 1)", LIMIT),
    "an unknown name of 33 bytes": (f"(tx t (set {'a' * 33} 1) 0)", NAME),
    "a name as long as a file": (f"(tx {'a' * 1048000} (skip) 0)", LIMIT),
    "a number of 10,000 digits": (f"(var x {'9' * 10000})", LIMIT),
    "a negative number of 10,000 digits": (f"(var x -{'9' * 10000})", LIMIT),
    "a cost of 1,000,000": ("(tx t (seq (repeat 999 (repeat 999 (skip))) (repeat 996 (skip))) 0)(run t 1)", None),
    "a cost of 1,000,001": ("(tx t (seq (repeat 999 (repeat 999 (skip))) (repeat 997 (skip))) 0)(run t 1)", LIMIT),
    "a cost that no machine can count": (f"(tx t {nested(30, '(repeat 1000 ', '(skip)')} 0)(run t 1)", LIMIT),
    "form 2 alone": ("(stm 2)", "=" + EMPTY),
    "form 2 behind blanks and a comment": (" ; form 2\n( stm\n2 )", "=" + EMPTY),
    "form 1 by its number": ("(stm 1)", SHAPE),
    "form 3 alone": ("(stm 3)", "=" + EMPTY),
    "form 4": ("(stm 4)", SHAPE),
    "a list of parameters in form 2": ("(stm 2)(tx t () (skip) 0)", SHAPE),
    "no list of parameters in form 3": ("(stm 3)(tx t (skip) 0)", SHAPE),
    "8 parameters": (f"(stm 3)(tx t ({' '.join('abcdefgh')}) (skip) h)(run t 1 1 2 3 4 5 6 7 8)", None),
    "9 parameters": (f"(stm 3)(tx t ({' '.join('abcdefghi')}) (skip) i)", LIMIT),
    "1,000 parameters": (f"(stm 3)(tx t ({' '.join(f'p{i}' for i in range(1000))}) (skip) 0)", LIMIT),
    "a parameter twice": ("(stm 3)(tx t (a a) (skip) 0)", NAME),
    "a parameter's name of 33 bytes": (f"(stm 3)(tx t ({'a' * 33}) (skip) 0)", LIMIT),
    "one argument fewer": ("(stm 3)(tx t (a b) (skip) 0)(run t 1 2)", NAME),
    "one argument more": ("(stm 3)(tx t (a b) (skip) 0)(run t 0 1 2 3)", NAME),
    "an argument of 20 digits": ("(stm 3)(tx t (a) (skip) a)(run t 1 99999999999999999999)", LIMIT),
    "64 tables": (tables(64), "=" + EMPTY),
    "65 tables": (tables(65), LIMIT),
    "64 tables of 16,384 cells": (tables(64, 16384), "=" + EMPTY),
    "64 tables of 16,385 cells": (tables(64, 16385), LIMIT),
    "1,048,576 cells": ("(stm 3)(table a 1048576 7)", "=" + EMPTY),
    "1,048,577 cells": ("(stm 3)(table a 1048577 7)", LIMIT),
    "1,048,576 cells and one more": ("(stm 3)(table a 1048576 7)(table b 1 7)", LIMIT),
    "the last of 1,048,576 cells": (
        "(stm 3)(table a 1048576 7)(tx t (i) (put a i 9) (at a 0))(run t 1 1048575)(run t 1 1048576)",
        "=base 0\nentry 1 0 t returned 7\nentry 2 1 t outside\nnow 2\na[1048575] 9 1\nend\n",
    ),
    "100,000 cells of their own numbers": (f"(stm 3)(table a 100000 {' '.join(map(str, range(100000)))})", "=" + EMPTY),
    "a table of no cell": ("(stm 3)(table a 0 7)", LIMIT),
    "a table of less than no cell": ("(stm 3)(table a -1 7)", LIMIT),
    "a length of 20 digits": ("(stm 3)(table a 99999999999999999999 7)", LIMIT),
    "a table without a number": ("(stm 3)(table a 1)", SHAPE),
    "a number fewer than cells": ("(stm 3)(table a 3 7 8)", LIMIT),
    "a number more than cells": ("(stm 3)(table a 3 7 8 9 10)", LIMIT),
    "a table in form 2": ("(stm 2)(table a 1 7)", SHAPE),
    "a table twice": ("(stm 3)(table a 1 7)(table a 1 7)", NAME),
    "a table's name of 32 bytes": (f"(stm 3)(table {'a' * 32} 1 7)", "=" + EMPTY),
    "a table's name of 33 bytes": (f"(stm 3)(table {'a' * 33} 1 7)", LIMIT),
    "an unknown table": ("(stm 3)(table a 1 7)(tx t () (skip) (at b 0))", NAME),
    "a variable for a table": ("(stm 3)(var x 1)(tx t () (skip) (sum x))", NAME),
    "a sum of 999,998 cells": (
        "(stm 3)(table a 999998 1)(tx t () (skip) (sum a))(run t 1)",
        "=base 0\nentry 1 0 t returned 999998\nnow 1\nend\n",
    ),
    "a sum of 999,999 cells": ("(stm 3)(table a 999999 1)(tx t () (skip) (sum a))(run t 1)", LIMIT),
    "the last cell": (CELLS + "(run t 1 3 8 3)", "=base 0\nentry 1 0 t returned 8\nnow 1\na[3] 8 1\nend\n"),
    "a cell behind the last": (CELLS + "(run t 1 4 8 3)(run t 1 3 8 4)", "=base 0\nentry 1 0 t outside\nentry 2 1 t outside\nnow 2\nend\n"),
    "a cell before the first": (CELLS + "(run t 1 -1 8 3)(run t 1 3 8 -1)", "=base 0\nentry 1 0 t outside\nentry 2 1 t outside\nnow 2\nend\n"),
    "a cell of a number that has its low bits": (CELLS + "(run t 1 4294967296 8 3)", "=base 0\nentry 1 0 t outside\nnow 1\nend\n"),
    "a sum that is too great": (
        "(stm 3)(table a 3 9223372036854775807 1 -1)(tx t () (skip) (sum a))(tx m () (skip) (sub (max a) (min a)))(run t 1)(run m 1)",
        "=base 0\nentry 1 0 t overflow\nentry 2 1 m overflow\nnow 2\nend\n",
    ),
    "a condition on all cells that is not true": ("(stm 3)(table a 300 1)(always c (eq (sum a) 299))", BROKEN),
    "a condition on a cell that is none": ("(stm 3)(table a 300 1)(always c (eq (at a 300) 1))", BROKEN),
    "form 2 twice": ("(stm 2)(stm 2)", SHAPE),
    "a condition in form 1": ("(always c (eq 0 0))", SHAPE),
    "a condition behind a transaction": ("(stm 2)(tx t (skip) 0)(always c (eq 0 0))", SHAPE),
    "64 conditions": (standing(64), "=" + EMPTY),
    "65 conditions": (standing(65), LIMIT),
    "a condition's name of 32 bytes": (f"(stm 2)(always {'a' * 32} (eq 0 0))", "=" + EMPTY),
    "a condition's name of 33 bytes": (f"(stm 2)(always {'a' * 33} (eq 0 1))", LIMIT),
    "a condition that is declared twice": ("(stm 2)(always c (eq 0 0))(always c (eq 0 1))", NAME),
    "a condition on an unknown variable": ("(stm 2)(always c (eq x 0))", NAME),
    "a standing condition inside 30 others": (f"(stm 2)(always c {nested(30, '(not ', '(eq 0 0)')})", "=" + EMPTY),
    "a standing condition inside 31 others": (f"(stm 2)(always c {nested(31, '(not ', '(eq 0 1)')})", SHAPE),
    "a cost of 1,000,000 with a condition": ("(stm 2)(always c (eq 0 0))(tx t (seq (repeat 999 (repeat 999 (skip))) (repeat 993 (skip))) 0)(run t 1)", None),
    "a cost of 1,000,001 with a condition": ("(stm 2)(always c (eq 0 0))(tx t (seq (repeat 999 (repeat 999 (skip))) (repeat 994 (skip))) 0)(run t 1)", LIMIT),
    "a condition that is not true": ("(stm 2)(var x 1)(always c (eq x 0))(tx t (set x 0) x)(run t 1)", BROKEN),
    "a condition that has a fault": ("(stm 2)(var x 0)(always c (le 0 (div 1 x)))(tx t (set x 1) x)(run t 1)", BROKEN),
    "a number out of range beside a condition that is not true": ("(stm 2)(var x 9223372036854775808)(always c (eq 0 1))", LIMIT),
    "a statement of 170,000 parts": (f"(tx t (seq {'(skip)' * 170000}) 0)(run t 1)", None),
}

# Texts that are no report of two increments.
NO_REPORTS = {
    "a base of 65,537": "base 65537\nx 5 0\nnow 0\nx 5 0\nend\n",
    "a base below 0": "base -1\nx 5 0\nnow 0\nx 5 0\nend\n",
    "an entry with a leading 0": REPORTS[0].replace("entry 1", "entry 01"),
    "a base of 10,000 digits": f"base {'9' * 10000}\nx 5 0\nnow 0\nx 5 0\nend\n",
    "a value of 10,000 digits": f"base 0\nx {'9' * 10000} 0\nnow 0\nx 5 0\nend\n",
    "8,388,609 newlines": "\n" * 8388609,
    "8,388,608 newlines": "\n" * 8388608,
}


def tells_the_fault(told, ended, what):
    """Whether `explain` said what the command ended with: `good`, or a place and the same kind."""
    if ended.status == 0:
        return told[:3] == (0, b"good\n", b"")
    kind = re.escape(ended.err[len(f"stm: {what}: ") : -1])
    line = rb"line [1-9][0-9]*, column [1-9][0-9]*: " + kind + rb": [ -~]+\n"
    return (told.status, told.err) == (2, ended.err) and re.fullmatch(line, told.out) is not None


def is_explained(program, folder, file, ended):
    """Whether `explain` says of a file what `run` ended with."""
    return tells_the_fault(run([program, "explain", file], folder), ended, "file")


def is_schedule_explained(program, folder, file, schedule, ended):
    """Whether `explain --schedule` says of a schedule what `world` ended with."""
    return tells_the_fault(run([program, "explain", file, "--schedule", schedule], folder), ended, "schedule")


def is_judged(program, folder, file, report, ended):
    """Whether `explain` says of a report what `check` said: its verdict, and of one that is not good more than that."""
    told = run([program, "explain", file, report], folder)
    more = told.out.count(b"\n") > 1 if ended.status == 1 else told.out == ended.out
    return (told.status, told.err) == (ended.status, ended.err) and told.out.startswith(ended.out) and more


def try_file(trials, program, what, text, wanted):
    file = trials.write("input", text)
    ended = run([program, "run", file, "--workers", "1"], trials.folder)
    if wanted and not wanted.startswith("="):
        ok = ended[:3] == (2, b"", f"stm: file: {wanted}\n".encode())
    else:
        trials.write("output", ended.out)
        good = run([program, "check", file, "output"], trials.folder)
        ok = (ended.status, ended.err) == (0, b"") and good[:3] == (0, b"good\n", b"")
        ok = ok and (not wanted or ended.out == wanted[1:].encode())
    ok = ok and is_explained(program, trials.folder, file, ended)
    trials.tell(f"{os.path.basename(program)} run, {what}", [] if ok else [shown(ended)], wanted if wanted and wanted[0] == "F" else "read")
    return ended


def try_each_beginning(trials, program, text, report, wholes):
    """Each beginning of a file, of which those of so many bytes are whole files, and of its report."""
    by = os.path.basename(program)
    names = [trials.write(f"first-{n}", text[:n]) for n in range(len(text) + 1)]
    ends = list(trials.pool.map(lambda name: run([program, "run", name, "--workers", "1"], trials.folder), names))
    read = [n for n, it in enumerate(ends) if (it.status, it.err) == (0, b"")]
    faults = [f"the first {n} bytes: {shown(it)}" for n, it in enumerate(ends) if n not in read and it[:3] != (2, b"", b"stm: file: F3 Shape\n")]
    faults += [] if read == wholes else [f"read are the beginnings of {read}"]
    trials.tell(f"{by} run, each beginning of a file", faults, f"of {len(ends)} the ones of {wholes} bytes are read, each other is F3")
    trials.write("input", text)
    names = [trials.write(f"first-{n}", report[:n]) for n in range(len(report))]
    ends = list(trials.pool.map(lambda name: run([program, "check", "input", name], trials.folder), names))
    faults = [f"the first {n} bytes: {shown(it)}" for n, it in enumerate(ends) if it[:3] != (1, b"bad 1\n", b"")]
    trials.tell(f"{by} check, each beginning of a report", faults, f"all {len(ends)} are bad 1")


def try_beginnings(trials, program):
    moves = RUNS["conditions that are broken"]
    try_each_beginning(trials, program, INCREMENTS, REPORTS[0], [0, 9, 37, 48])
    try_each_beginning(trials, program, moves, BROKEN_REPORTS[0][0], [0, 7, 18, 27, 58, 79, 134, 155, 167, 179])


def tampered(text, chance):
    """The text with a few bytes changed, taken out, put in or repeated, or cut."""
    bytes_ = bytearray(text)
    for _ in range(chance.randint(1, 4)):
        at = chance.randrange(len(bytes_) + 1)
        to = min(len(bytes_), at + chance.randint(0, 12))
        how = chance.randrange(6)
        if how == 0:
            bytes_[at:to] = b""
        elif how == 1:
            bytes_[at:at] = bytes_[at:to]
        elif how == 2:
            bytes_[at:at] = chance.choice([b"(", b")", b" ", b"\n", b";", b"-", b"0", b"9", b"(seq ", b"(retry)", b"99999999999999999999", b"[", b"]", b"[0] 1 1\n", b"end\n"])
        elif how == 3:
            del bytes_[at:]
        else:
            bytes_[at : at + 1] = bytes([chance.choice(b"()09axyz -;\n" if how == 4 else range(256))])
    return bytes(bytes_)


def tampered_cases(trials, count):
    """Texts made of the repository's examples: the kind of each, its name, and the words of the command that reads it."""
    chance, folder = random.Random(18), f"{TOP}/examples"
    read = lambda name: open(f"{folder}/{name}", "rb").read()
    names = sorted(it[:-4] for it in os.listdir(folder) if it.endswith(".stm"))
    for name in names:
        trials.write(f"{name}.stm", read(f"{name}.stm"))
    for i in range(count):
        name = chance.choice(names)
        others = (it for it in ("report", "schedule") if os.path.exists(f"{folder}/{name}.{it}"))
        kind = chance.choice(["stm", *others])
        text = trials.write(f"tampered-{i}", tampered(read(f"{name}.{kind}"), chance))
        file = f"{name}.stm"
        words = {"stm": ["run", text], "report": ["check", file, text], "schedule": ["world", file, text]}
        yield kind, text, words[kind]


def is_answered(trials, program, case, ended):
    """Whether a text that was tampered with has an answer, and one of those that there are."""
    kind, text, words = case
    if kind == "report" and ended.status in (0, 1):
        told = is_judged(program, trials.folder, words[1], text, ended)
        verdict = ended.out == b"good\n" if ended.status == 0 else ended.out[:4] == b"bad "
        return told and ended.err == b"" and verdict
    if kind == "stm" and not is_explained(program, trials.folder, text, ended):
        return False
    if kind == "schedule" and not is_schedule_explained(program, trials.folder, words[1], text, ended):
        return False
    if kind == "stm" and ended.status == 0:
        judged = run([program, "check", text, trials.write(f"{text}-output", ended.out)], trials.folder)
        return judged[:3] == (0, b"good\n", b"") and ended.err == b""
    if kind == "schedule" and ended.status == 0:
        return ended.err == b"" and ended.out.endswith(b"end\n")
    what = b"schedule" if kind == "schedule" else b"file"
    faults = [b"stm: %s: %s" % (what, it.encode()) for it in (LONG, BYTE, SHAPE, NAME, LIMIT, BROKEN)]
    return (ended.status, ended.out) == (2, b"") and ended.err[:-1] in faults


def try_tampered(trials, program, count):
    """The repository's examples, tampered with: always an answer, and always one of those that there are."""
    cases, faults, ends = list(tampered_cases(trials, count)), [], {}

    def one(case):
        ended = run([program, *case[2]], trials.folder)
        return ended, is_answered(trials, program, case, ended)

    for (_, _, words), (ended, ok) in zip(cases, trials.pool.map(one, cases)):
        ends[ended.status] = ends.get(ended.status, 0) + 1
        if not ok:
            faults.append(f"{' '.join(words)}: {shown(ended)}")
    told = ", ".join(f"{n} with status {status}" for status, n in sorted(ends.items()))
    by = os.path.basename(program)
    trials.tell(f"{by}, {count} texts tampered with at random", faults, f"{told}; each report good, each explained as it ended")


def try_inputs(trials, program):
    by = os.path.basename(program)
    try_beginnings(trials, program)
    for what, (text, wanted) in FILES.items():
        ended = try_file(trials, program, what, text, wanted)
        if what == "65,536 tasks":
            trials.tell(f"{by} run, {what}, the last number", [] if ended.out.endswith(b"\nnow 65536\nend\n") else [shown(ended)], "now 65536")
    trials.write("input", INCREMENTS)
    for what, text in NO_REPORTS.items():
        ended = run([program, "check", "input", trials.write("report", text)], trials.folder)
        trials.tell(f"{by} check, {what}", [] if ended[:3] == (1, b"bad 1\n", b"") else [shown(ended)], "bad 1")
    try_tampered(trials, program, 1000)
