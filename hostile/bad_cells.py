"""Tries files, reports and schedules with tables that are cut and tampered with, and the longest that there are: as
bad_input.py does of the others. A cell is listed as `NAME[INDEX] VALUE VERSION`, in order, where it was changed.
"""

import os

from bad_input import LONG, NAME, SHAPE, is_judged, is_schedule_explained, try_each_beginning, try_file
from trials import run, shown

FILE = """(stm 3)(var n 7)(table acct 4 100)(table rate 2 5 6)
(tx pay (from to k) (seq (if (lt (at acct from) k) (throw k) (skip)) (put acct from (sub (at acct from) k))
 (put acct to (add (at acct to) k)) (put rate 1 (add (at rate 1) 1))) (at acct from))
(run pay 2 0 1 60)(run pay 1 1 2 150)"""
ENTRIES = "entry 1 0 pay returned 40\nentry 2 1 pay threw 60\nentry 3 2 pay returned 10\n"
CELLS = "acct[0] 40 1\nacct[1] 10 3\nacct[2] 250 3\nrate[1] 8 3\n"
REPORT = f"base 0\nn 7 0\n{ENTRIES}now 3\nn 7 0\n{CELLS}end\n"
# The same behind a checkpoint.
LATER = f"base 1\nn 7 0\nacct[0] 40 1\nacct[1] 160 1\nrate[1] 7 1\n{ENTRIES.partition(chr(10))[2]}now 3\nn 7 0\n{CELLS}end\n"

# What is wrong with a report: what stands in place of what, and the verdict.
TAMPERED = {
    "a cell of version 0": ("rate[1] 8 3\n", "rate[0] 5 0\nrate[1] 8 3\n", "bad 1"),
    "a cell of version 0 in the base": ("n 7 0\nentry", "n 7 0\nacct[3] 100 0\nentry", "bad 1"),
    "a cell that nothing changed": ("rate[1] 8 3\n", "rate[0] 5 3\nrate[1] 8 3\n", "bad 4"),
    "a cell that the base can't have": ("n 7 0\nentry", "n 7 0\nacct[3] 99 1\nentry", "bad 2"),
    "a cell behind the last": ("rate[1] 8 3\n", "rate[1] 8 3\nrate[2] 1 1\n", "bad 1"),
    "a cell behind the last of a table that is not the last": ("acct[2] 250 3\n", "acct[2] 250 3\nacct[4] 1 1\n", "bad 1"),
    "cells out of order": ("acct[0] 40 1\nacct[1] 10 3\n", "acct[1] 10 3\nacct[0] 40 1\n", "bad 1"),
    "tables out of order": ("acct[2] 250 3\nrate[1] 8 3\n", "rate[1] 8 3\nacct[2] 250 3\n", "bad 1"),
    "a cell twice": ("acct[1] 10 3\n", "acct[1] 10 3\nacct[1] 10 3\n", "bad 1"),
    "a cell before the variables": ("now 3\nn 7 0\nacct[0] 40 1\n", "now 3\nacct[0] 40 1\nn 7 0\n", "bad 1"),
    "the first cell left out": ("acct[0] 40 1\n", "", "bad 4"),
    "a cell left out": ("acct[1] 10 3\n", "", "bad 4"),
    "the last cell left out": ("rate[1] 8 3\n", "", "bad 4"),
    "all cells left out": (CELLS, "", "bad 4"),
    "another value": ("acct[1] 10 3", "acct[1] 11 3", "bad 4"),
    "another version": ("acct[1] 10 3", "acct[1] 10 1", "bad 4"),
    "a version above the last": ("acct[1] 10 3", "acct[1] 10 4", "bad 4"),
    "a version below 0": ("acct[1] 10 3", "acct[1] 10 -3", "bad 1"),
    "a value of 10,000 digits": ("acct[1] 10 3", f"acct[1] {'9' * 10000} 3", "bad 1"),
    "a version of 10,000 digits": ("acct[1] 10 3", f"acct[1] 10 {'9' * 10000}", "bad 1"),
    "a number of 10,000 digits": ("acct[1]", f"acct[{'1' * 10000}]", "bad 1"),
    "a number with the low 32 bits of a cell's": ("acct[1]", "acct[4294967297]", "bad 1"),
    "a number with the low 64 bits of a cell's": ("acct[1]", "acct[18446744073709551617]", "bad 1"),
    "a leading 0": ("acct[1]", "acct[01]", "bad 1"),
    "a sign": ("acct[1]", "acct[+1]", "bad 1"),
    "a number below 0": ("acct[1]", "acct[-1]", "bad 1"),
    "no number": ("acct[1]", "acct[]", "bad 1"),
    "no cell": ("acct[1]", "acct", "bad 1"),
    "no bracket at the end": ("acct[1]", "acct[1", "bad 1"),
    "no bracket at the beginning": ("acct[1]", "acct1]", "bad 1"),
    "two numbers": ("acct[1]", "acct[1][1]", "bad 1"),
    "a space before the bracket": ("acct[1]", "acct [1]", "bad 1"),
    "a space in the brackets": ("acct[1]", "acct[1 ]", "bad 1"),
    "an unknown table": ("acct[1]", "none[1]", "bad 1"),
    "a cell of a variable": ("acct[1]", "n[0]", "bad 1"),
    "an outcome that is none": ("pay threw 60", "pay outside", "bad 3"),
    "an outcome with a value too many": ("pay threw 60", "pay outside 60", "bad 1"),
}

# Reports of files with neither tables nor parameters, which know no cell.
PLAIN = "(var x 5)(tx inc (set x (add x 1)) x)(run inc 1)"
PLAIN_REPORT = "base 0\nx 5 0\nentry 1 0 inc returned 6\nnow 1\nx 6 1\nend\n"

# What a schedule reads, and what that is: None, where it is played.
READS = {
    "acct[0]": None,
    "acct[3]": None,
    "rate[1]": None,
    "acct[4]": NAME,
    "rate[2]": NAME,
    "none[0]": NAME,
    "n[0]": NAME,
    "acct": NAME,
    "acct[4294967296]": NAME,
    f"acct[{'9' * 10000}]": NAME,
    "acct[00]": SHAPE,
    "acct[-1]": SHAPE,
    "acct[]": SHAPE,
    "acct[1": SHAPE,
    "[1]": SHAPE,
    "acct[1]x": SHAPE,
    "acct[1][1]": SHAPE,
}

MOST_CELLS, MOST_FILE, MOST_REPORT, A_CELL = 1048576, 67108864, 8388608, 160
# How many cells each of its tasks fills, with their own numbers.
FILLED = 16384
FILLING = (
    f"(stm 3)(var i 0)(table a {MOST_CELLS} -1)(tx fill (k) (seq (set i (mul k {FILLED}))"
    " (repeat 128 (repeat 128 (seq (put a i i) (set i (add i 1)))))) i)"
)


def try_verdict(trials, program, what, report, wanted, file="cells"):
    name = trials.write("report", report)
    ended = run([program, "check", file, name], trials.folder)
    ok = ended[:3] == (wanted != "good", f"{wanted}\n".encode(), b"") and is_judged(program, trials.folder, file, name, ended)
    trials.tell(f"{os.path.basename(program)} check, {what}", [] if ok else [shown(ended)], wanted)


def try_reports(trials, program):
    trials.write("cells", FILE)
    trials.write("plain", PLAIN)
    for what, report in (("cells", REPORT), ("cells behind a checkpoint", LATER)):
        try_verdict(trials, program, what, report, "good")
    for what, (old, new, wanted) in TAMPERED.items():
        assert REPORT.count(old) > 0, what
        try_verdict(trials, program, what, REPORT.replace(old, new, 1), wanted)
    try_verdict(trials, program, "a cell that a base lost", LATER.replace("acct[0] 40 1\n", "", 1), "bad 3")
    try_verdict(trials, program, "a version above that of the base", LATER.replace("acct[0] 40 1", "acct[0] 40 2"), "bad 2")
    for what, length in (("as many newlines as a report may have", 0), ("one newline more", 1)):
        try_verdict(trials, program, f"{what} with 6 cells", "\n" * (MOST_REPORT + 6 * A_CELL + length), "bad 1")
    try_verdict(trials, program, "no table", PLAIN_REPORT, "good", "plain")
    try_verdict(trials, program, "a cell where there is no table", PLAIN_REPORT.replace("end", "x[0] 5 1\nend"), "bad 1", "plain")
    try_verdict(trials, program, "a cell fault where there is no table", PLAIN_REPORT.replace("returned 6", "outside"), "bad 1", "plain")


def try_schedules(trials, program):
    trials.write("cells", FILE)
    for place, wanted in READS.items():
        schedule = trials.write("schedule", f"begin 0\nread 0 {place}\n")
        ended = run([program, "world", "cells", schedule], trials.folder)
        said = (2, b"", f"stm: schedule: {wanted}\n".encode())
        ok = ended[:3] == said if wanted else (ended.status, ended.err) == (0, b"") and ended.out.endswith(b"\nend\n")
        ok = ok and is_schedule_explained(program, trials.folder, "cells", schedule, ended)
        trials.tell(f"{os.path.basename(program)} world, {place[:30]} is read", [] if ok else [shown(ended)], wanted or "played")


def try_longest_files(trials, program):
    """A cell of each number, with values as long as they can be; and as many bytes as a file may have."""
    values = " ".join(str(-(2**63) + i) for i in range(MOST_CELLS))
    text = f"(stm 3)(table a {MOST_CELLS} {values})(tx t () (skip) (at a {MOST_CELLS - 1}))(run t 1);"
    report = f"=base 0\nentry 1 0 t returned {-(2**63) + MOST_CELLS - 1}\nnow 1\nend\n"
    padded = text + "x" * (MOST_FILE - len(text))
    try_file(trials, program, "a million values", text, report)
    try_file(trials, program, "a million values, and as many bytes as a file may have", padded, report)
    try_file(trials, program, "a million values, and a byte more than a file may have", padded + "x", LONG)
    printed = run([program, "print", trials.write("input", text)], trials.folder)
    again = run([program, "print", trials.write("printed", printed.out)], trials.folder)
    ok = printed.status == 0 and printed[:3] == again[:3] and values.encode() in printed.out
    trials.tell(f"{os.path.basename(program)} print, a million values", [] if ok else [shown(printed)], "as they were")


def try_longest_report(trials, program):
    """Each of a million cells is changed, and stands in the report."""
    text = FILLING + "".join(f"(run fill 1 {k})" for k in range(MOST_CELLS // FILLED))
    ended = run([program, "run", trials.write("cells", text), "--workers", "1"], trials.folder)
    report = ended.out.decode()
    ok = (ended.status, ended.err) == (0, b"") and report.count("\na[") == MOST_CELLS
    trials.tell(f"{os.path.basename(program)} run, a million cells changed", [] if ok else [shown(ended)], "each in the report")
    last = f"a[{MOST_CELLS - 1}] {MOST_CELLS - 1} {MOST_CELLS // FILLED}\n"
    try_verdict(trials, program, "a million cells changed", report, "good")
    try_verdict(trials, program, "the last of a million cells left out", report.replace(last, ""), "bad 4")
    try_verdict(trials, program, "the last of a million cells twice", report.replace(last, last * 2), "bad 1")


def try_cells(trials, program):
    try_each_beginning(trials, program, FILE, REPORT, wholes_of(FILE))
    try_reports(trials, program)
    try_schedules(trials, program)
    try_longest_files(trials, program)
    try_longest_report(trials, program)


def wholes_of(text):
    """The lengths of the beginnings that are whole files: nothing, and those that end behind a form, with the blank
    behind it."""
    found, depth = [0], 0
    for at, one in enumerate(text):
        depth += (one == "(") - (one == ")")
        if depth == 0:
            found.append(at + 1)
    return found
