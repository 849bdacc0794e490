"""Tries each request for memory refused in turn: number k, for each k from 1 until a run meets none.

A run ends with status 5, nothing on standard output and the line `stm: out of memory`, or else as it has to: `run`
with a report that `stm check` finds good, `world` with what is seen up to the first `memory`, all else as with
ample memory. With one worker each block is given back, whatever was refused.
"""

import os
import subprocess

from trials import OUT_OF_MEMORY, TESTS, TOP, run, shown, stop

INCREMENTS = "(var x 5)(tx inc (set x (add x 1)) x)(run inc 2)"

FILES = {
    "two increments": INCREMENTS,
    "a retry with no way out": "(tx t (orelse (retry) (retry)) 0)(run t 1)",
    "a buffer of one place": "(var full 0)(var cell 0)(tx get (seq (if (eq full 0) (retry) (skip)) (set full 0)) cell)"
    "(tx put (seq (if (eq full 1) (retry) (skip)) (set cell 42) (set full 1)) 0)(run get 1)(run put 1)",
    "conditions that are broken": "(stm 2)(var a 100)(var b 0)(always sum (eq (add a b) 100))(always pos (le 0 a))"
    "(tx move (seq (set a (sub a 60)) (set b (add b 60))) a)(tx leak (set a 0) a)(run move 2)(run leak 1)",
    "a condition with a fault": "(stm 2)(var x 1)(always ok (le 0 (div 1 x)))(tx z (set x 0) x)(run z 1)",
    "twelve variables": "".join(f"(var v{i} 0)" for i in range(12))
    + "(tx t (seq" + "".join(f" (orelse (seq (set v{i} 1) (retry)) (set v{i} (add v{i} 1)))" for i in range(12)) + ") v0)(run t 2)",
    # More cells than an attempt has room for are read, noted in a branch that retries, and written, and they wait for all.
    "far cells": "(stm 3)(table t 600 0)(tx all () (seq (orelse (seq" + "".join(f" (put t {i} (add (at t {i}) 1))" for i in range(290, 310))
    + " (retry)) (put t 44 1))" + "".join(f" (put t {i} (add (at t {i}) 1))" for i in range(290, 310)) + ") (at t 309))"
    + "(tx wait () (if (lt (sum t) 20) (retry) (skip)) (at t 44))(run wait 2)(run all 1)",
    # They only read, in some 300 instructions each, and keep more variables than a log has room for.
    "light tasks": "".join(f"(var v{i} 0)" for i in range(12))
    + "(tx look (seq (repeat 40 (if (lt v0 0) (throw 1) (skip))) (orelse (if (eq v1 0) (retry) (skip)) (skip))) "
    + "(add " * 11 + "v0" + "".join(f" v{i})" for i in range(1, 12)) + ")(tx inc (set v1 (add v1 1)) v1)(run look 24)(run inc 1)",
}

# Reports of two increments.
REPORTS = [
    "base 0\nx 5 0\nentry 1 0 inc returned 6\nentry 2 1 inc returned 7\nnow 2\nx 7 2\nend\n",
    "base 0\nx 5 0\nentry 1 0 inc returned 6\nentry 2 1 inc returned 8\nnow 2\nx 7 2\nend\n",
    "base 0\nx 4 0\nentry 1 0 inc returned 6\nentry 2 1 inc returned 7\nnow 2\nx 7 2\nend\n",
    "base 0\nx 5 0\nentry 1 0 inc returned 6\nentry 2 1 inc returned 7\nnow 2\nx 7 1\nend\n",
    "base 0\nx 5 0\nentry 1 0 inc returned 6\nentry 2 0 inc returned 7\nnow 2\nx 7 2\nend\n",
    "base 0\nx 5 0\nentry 1 0 inc returned 6\nentry 2 1 inc returned 7\nnow 2\nx 7 2\n",
    "base 0\nx 5 0\nentry 1 0 inc returned 6\nnow 1\nx 6 1\nparked 1 inc\nend\n",
    "base 0\nx 5 0\nentry 1 0 inc returned 6\nnow 1\nx 6 1\nmemory 1 inc\nend\n",
    "base 0\nx 5 0\nentry 1 1 inc returned 6\nnow 1\nx 6 1\nmemory 0 inc\nend\n",
]
VERDICTS = ["good", "bad 3", "bad 2", "bad 4", "bad 5", "bad 1", "bad 6", "good", "good"]

# Reports of conditions that are broken, with their verdicts.
BROKEN_REPORTS = [
    ("base 1\na 40 1\nb 60 1\nentry 2 1 move broke pos\nentry 3 2 leak broke sum\nnow 3\na 40 1\nb 60 1\nend\n", "good"),
    ("base 1\na 40 1\nb 60 1\nentry 2 1 move broke neg\nentry 3 2 leak broke sum\nnow 3\na 40 1\nb 60 1\nend\n", "bad 1"),
    ("base 1\na 40 1\nb 50 1\nentry 2 1 move broke pos\nentry 3 2 leak broke sum\nnow 3\na 40 1\nb 50 1\nend\n", "bad 2"),
    ("base 1\na 40 1\nb 60 1\nentry 2 1 move broke sum\nentry 3 2 leak broke sum\nnow 3\na 40 1\nb 60 1\nend\n", "bad 3"),
]

PAIR = "(var x 1)(var y 1)(tx sum (skip) (add x y))(tx both (seq (set x 2) (set y 2)) 0)(run sum 1)(run both 1)"

SCHEDULES = {
    "own writes first": (
        "(var x 1)(tx own (set x 5) x)(tx two (set x 2) 0)(run own 1)(run two 1)",
        "begin 0\nbegin 1\ncommit 1\ncommit 0\n",
    ),
    "a torn pair": (PAIR, "begin 0\nread 0 x\nbegin 1\ncommit 1\nread 0 y\n"),
    "back to an old value": (
        "(var x 1)(tx get (skip) x)(tx two (set x 2) 0)(tx one (set x 1) 0)(run get 1)(run two 1)(run one 1)",
        "begin 0\nread 0 x\nbegin 1\ncommit 1\nbegin 2\ncommit 2\ncommit 0\n",
    ),
    "the middle of a publish": (
        PAIR,
        "begin 1\nask 1\nword\nbegin 0\nfirst 0 x\nword\nword\nword\nword\nword\nbegin 0\nread 0 x\nfirst 0 y\nword\n",
    ),
    "what is not possible": (
        PAIR,
        "word\ndrop 0\nbegin 0\nfirst 0 x\nbegin 1\ncommit 1\nvalue 0\nsecond 0\nbegin 1\n",
    ),
    "conditions that are broken": (
        FILES["conditions that are broken"],
        "begin 0\nread 0 a\nread 0 b\nask 0\nword\nbegin 2\nread 2 b\nword\nword\nword\nword\nword\nword\ncommit 2\nbegin 1\nread 1 a\nread 1 b\ncommit 1\n",
    ),
    "far cells": (FILES["far cells"], "begin 2\nbegin 0\n" + "".join(f"read 2 t[{i}]\n" for i in range(290, 310)) + "read 0 t[0]\nread 0 t[1]\ncommit 2\ncommit 0\n"),
    "branches that retry": (FILES["twelve variables"], "begin 0\n" + "".join(f"read 0 v{i}\n" for i in range(12)) + "commit 0\n"),
}

COMMAND_LINES = [
    ["--help"],
    ["help"],
    ["help", "run"],
    ["run", "--help"],
    ["check", "--help"],
    ["world", "--help"],
    ["print", "--help"],
    ["print", "two-increments", "--from", "no-such-file"],
    ["explore", "--help"],
    ["explain", "--help"],
    ["explain", "two-increments", "no-such-file"],
    ["explain", "two-increments", "--schedule", "no-such-file"],
    ["--version"],
    [],
    ["bogus"],
    ["rum"],
    ["run"],
    ["run", "two-increments", "--workers", "17"],
    ["run", "two-increments", "--workers", "x"],
    ["run", "two-increments", "--tries=0"],
    ["run", "two-increments", "--worker", "1"],
    ["run", "two-increments", "--workers", "1", "--workers", "1"],
    ["run", "two-increments", "another"],
    ["check", "two-increments"],
    ["world", "two-increments"],
    ["explore", "two-increments", "--states", "0"],
    ["explore", "no-such-file"],
    ["run", "no-such-file"],
    ["check", "two-increments", "no-such-file"],
]


def allocator(folder):
    """The allocator that refuses, made by the kit's compiler."""
    page = subprocess.run(["rt", "doc"], capture_output=True, text=True)
    tools = f"{os.path.dirname(page.stdout.strip())}/toolchain/bin"
    code, made = f"{folder}/refuse.o", f"{folder}/refuse.so"
    compile_it = [f"{tools}/clang", "--target=x86_64-unknown-linux-gnu", "--no-default-config", "-O1", "-fPIC", "-c", f"{TOP}/hostile/refusing_allocator.c", "-o", code]
    for words in (compile_it, [f"{tools}/ld.lld", "-shared", "-o", made, code]):
        ran = subprocess.run(words, capture_output=True, text=True)
        if ran.returncode:
            stop(f"the allocator that refuses can't be made: {' '.join(words)}: {ran.stderr}")
    return made


class Refusals:
    """Runs a command again and again, each time with another request refused."""

    def __init__(self, trials):
        self.trials = trials
        self.preload = allocator(trials.folder)
        self.verdicts = {}

    def run(self, words, request, each_later=False):
        env = {"LD_PRELOAD": self.preload, "REFUSE": str(request), **({"REFUSE_ON": "1"} if each_later else {})}
        return run(words, self.trials.folder, env)

    def each(self, words, each_later):
        """How the command ends with ample memory, and with each request refused until none is met, three times over."""
        ample, ended, at = self.run(words, 0), [], 1
        while True:
            batch = list(self.trials.pool.map(lambda k: self.run(words, k, each_later), range(at, at + 16)))
            ended += [(at + i, it) for i, it in enumerate(batch)]
            at += 16
            if not any(it.refused for it in batch[-3:]):
                return ample, [(k, it) for k, it in ended if it.refused], [it for _, it in ended if not it.refused]

    def try_all(self, what, words, is_right, keeps_nothing=True, ways=(False, True)):
        """A trial with one request refused, and one with each later one too. `is_right(ended, ample)`: whether a run
        that did not end out of memory ended well."""
        for each_later in ways:
            ample, refused, others = self.each(words, each_later)
            faults = [f"with ample memory: {shown(ample)}"] * (not is_right(ample, ample))
            faults += [f"nothing refused, and yet: {shown(it)}" for it in others if not is_right(it, ample)]
            faults += ["no request was refused: is the allocator in the way?"] * (not refused)
            ends = 0
            for k, it in refused:
                ends += it[:3] == OUT_OF_MEMORY
                if it[:3] != OUT_OF_MEMORY and not is_right(it, ample) or keeps_nothing and it.kept != 0:
                    faults.append(f"number {k} refused: {shown(it)}")
            how = "from each on" if each_later else "each in turn"
            self.trials.tell(f"{what}, {how}", faults, f"{len(refused)} requests refused, {ends} times the end was out of memory")

    def is_good(self, program, file, report):
        """Whether the program finds the report good for the file."""
        if (program, file, report) not in self.verdicts:
            name = self.trials.write(f"report-{abs(hash((program, file, report)))}", report)
            self.verdicts[program, file, report] = run([program, "check", file, name], self.trials.folder)[:3] == (0, b"good\n", b"")
        return self.verdicts[program, file, report]


def same(ended, ample):
    """The run ended as with ample memory."""
    return ended[:3] == ample[:3] and ended.status >= 0


def is_beginning(ended, ample):
    """The lines of what is seen are those of the run with ample memory, up to the first `memory`."""
    lines, wanted = ended.out.decode().splitlines(), ample.out.decode().splitlines()
    for at, (line, it) in enumerate(zip(lines, wanted)):
        if line == f"{at + 1} memory":
            return (ended.status, ended.err) == (0, b"") and lines[-1] == "end"
        if line != it:
            return False
    return same(ended, ample)


def try_refusals(trials, program):
    """All refusals of one build of the program."""
    by = os.path.basename(program)
    refusals = Refusals(trials)
    for name, text in FILES.items():
        file = trials.write(name.replace(" ", "-"), text)
        good = lambda ended, _, file=file: (ended.status, ended.err) == (0, b"") and refusals.is_good(program, file, ended.out)
        for workers in (1, 4):
            refusals.try_all(f"{by} run, {name}, workers {workers}", [program, "run", file, "--workers", str(workers)], good, keeps_nothing=workers == 1)
    stored = open(f"{TOP}/crates/stm/args").read().split()
    for name in os.listdir(f"{TOP}/crates/stm/data"):
        trials.write(name, open(f"{TOP}/crates/stm/data/{name}", "rb").read())
    good = lambda ended, _: (ended.status, ended.err) == (0, b"") and refusals.is_good(program, stored[1], ended.out)
    refusals.try_all(f"{by}, the stored run", [program, *stored], good)
    reports = [("two-increments", *it) for it in zip(REPORTS, VERDICTS)] + [("conditions-that-are-broken", *it) for it in BROKEN_REPORTS]
    for i, (file, report, verdict) in enumerate(reports):
        name = trials.write(f"report-{i}", report)
        told = (int(verdict != "good"), f"{verdict}\n".encode(), b"")
        refusals.try_all(f"{by} check of {file}, {verdict}", [program, "check", file, name], lambda it, _, told=told: it[:3] == told)
    for name, (file, schedule) in SCHEDULES.items():
        words = [program, "world", trials.write("world", file), trials.write("schedule", schedule)]
        refusals.try_all(f"{by} world, {name}", words, is_beginning)
    file, wrong = trials.write("two-increments", INCREMENTS), trials.write("wrong", "(var x 5)(var y 1)(tx t (set z 1) x)")
    texts = [["print", file], ["print", "conditions-that-are-broken"], ["print", wrong], ["print", file, "--from", "report-0"], ["print", file, "--from", "report-1"]]
    texts += [["explain", file], ["explain", wrong], ["explain", trials.write("shapeless", "(var x 5)(tx t (seq (skip) 1) x)")]]
    texts += [["explain", file, f"report-{i}"] for i in range(len(REPORTS))] + [["explain", wrong, "report-0"]]
    for schedule in ("begin 0\nread 0 x\n", "begin 0\nread 0 y\n", "begin 0\nread 0\n"):
        texts.append(["explain", file, "--schedule", trials.write(f"schedule-{len(texts)}", schedule)])
    for words in texts:
        refusals.try_all(" ".join([by, *words]), [program, *words], same)
    for name in FILES:
        file = name.replace(" ", "-")
        refusals.try_all(f"{by} explore, {name}", [program, "explore", file, "--states", "2000"], same)
        refusals.try_all(f"{by} explore, {name}, to an end", [program, "explore", file, "--states", "2000", "--to", "1"], same)
        refusals.try_all(f"{by} explore, {name}, as a graph", [program, "explore", file, "--states", "100", "--dot"], same)
        refusals.try_all(f"{by} explore, {name}, of one state", [program, "explore", file, "--states", "1"], same)
    for words in COMMAND_LINES:
        refusals.try_all(" ".join([by, *words]), [program, *words], same)


def try_calls(trials):
    """The tests of single calls: each holds whatever request is refused."""
    if not os.access(TESTS, os.X_OK):
        stop("the tests of single calls are not built: run rt ci, or rt test in crates/hostile_tests, first")
    refusals = Refusals(trials)
    listed = run([TESTS, "--list"], trials.folder).out.decode().splitlines()
    passes = lambda ended, _: ended.status == 0 and b"test result: ok" in ended.out
    names = [it[: -len(": test")] for it in listed if it.startswith("refused_") and it.endswith(": test")]
    if not names:
        stop("the tests of single calls are not among those that are built")
    for name in names:
        refusals.try_all(f"test {name}", [TESTS, name], passes, ways=(False,))
