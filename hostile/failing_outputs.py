"""Tries outputs that can't be written, and inputs that are no plain files, by the built program and the system's own.

Where standard output takes nothing the status is 4 and the line is `stm: cannot write`; where standard error takes
nothing the status is what it is.
"""

import os

from refused_memory import INCREMENTS
from trials import run, shown

UNWRITTEN = (4, b"stm: cannot write\n")
LONG = (2, b"stm: file: F1 TooLong\n")

# How the shell sends the outputs away.
FULL, CLOSED = ">/dev/full", ">&-"
UNHEARD = ["2>/dev/full", "2>&-"]


def try_outputs(trials, program):
    file = trials.write("increments", INCREMENTS)
    report = trials.write("increments-report", run([program, "run", file, "--workers", "1"], trials.folder).out)
    schedule = trials.write("increments-schedule", "begin 0\nread 0 x\ncommit 0\n")
    expect = expecting(trials, program)
    try_unwritten(expect, trials, file, report, schedule)
    try_unread(expect, file)


def expecting(trials, program):
    def expect(what, words, wanted, redirect="", after=""):
        """The shell runs the program with its outputs sent away."""
        line = f'"$@" {redirect} {after}'
        ended = run(["sh", "-c", line, "sh", program, *words], trials.folder, {"PATH": "/usr/bin:/bin"})
        told = wanted[1] is None or ended.err == wanted[1]
        ok = ended.status == wanted[0] and told and ended.out in (b"", b"base 0\n")
        what = f"{os.path.basename(program)} {what} {redirect}".rstrip()
        trials.tell(what, [] if ok else [shown(ended)], f"status {wanted[0]}")

    return expect


def try_unwritten(expect, trials, file, report, schedule):
    """Outputs that take nothing, or no more."""
    many = trials.write("many", "(tx t (skip) 0)(run t 65536)")
    writing = [
        ["run", file], ["check", file, report], ["world", file, schedule], ["explore", file], ["explore", file, "--to", "1"],
        ["explore", file, "--dot"], ["print", file], ["print", file, "--from", report],
        ["explain", file], ["explain", file, report], ["explain", file, "--schedule", schedule],
        ["--help"], ["run", "--help"], ["--version"],
    ]
    for words in writing:
        for redirect in (FULL, CLOSED):
            expect(" ".join(words), words, UNWRITTEN, redirect)
    expect("run many, read to its first line", ["run", many], (4, None), after='2>said | head -n 1; test "$(cat said)" = "stm: cannot write" && exit 4')
    for redirect in UNHEARD:
        expect("bogus", ["bogus"], (3, b""), redirect)
        expect("run no-such-file", ["run", "no-such-file"], (4, b""), redirect)
        expect("run, refused", ["run", report], (2, b""), redirect)


def try_unread(expect, file):
    """Inputs that are no files, or have no end."""
    places = [("no file", "no-such-file"), ("a folder", "."), ("no name", ""), ("a name of 100,000 letters", "a" * 100000)]
    for what, path in places:
        unread = (4, f"stm: cannot read {path}\n".encode())
        expect(f"run, {what}", ["run", path], unread)
        expect(f"check, {what}", ["check", file, path], unread)
        expect(f"world, {what}", ["world", file, path], unread)
        expect(f"explore, {what}", ["explore", path], unread)
        expect(f"explore --to, {what}", ["explore", path, "--to", "1"], unread)
        expect(f"explore --dot, {what}", ["explore", path, "--dot"], unread)
        expect(f"print, {what}", ["print", path], unread)
        expect(f"print --from, {what}", ["print", file, "--from", path], unread)
        expect(f"explain, {what}", ["explain", path], unread)
        expect(f"explain a report, {what}", ["explain", file, path], unread)
        expect(f"explain a schedule, {what}", ["explain", file, "--schedule", path], unread)
    expect("run, a file with no end", ["run", "/dev/zero"], LONG)
    expect("run, a file with no end, of any bytes", ["run", "/dev/urandom"], LONG)
    expect("world, a schedule with no end", ["world", file, "/dev/zero"], (2, b"stm: schedule: F1 TooLong\n"))
    expect("check, a report with no end", ["check", file, "/dev/zero"], (1, b""), after="> verdict; end=$?; test \"$(cat verdict)\" = 'bad 1' && exit $end")
    expect("20,000 words", ["run"] + ["x"] * 20000, (3, None))
