"""Tries the deepest and the widest input that the limits allow, under a small stack.

A program's main thread grows to the limit of its stack, and each thread of a worker gets as much: so under
`ulimit -s N` all threads have N KB. No thread is given less than that limit, which is 8,192 KB where nobody changed
it, and 2,048 KB for a worker where there is none.
"""

import os

from bad_input import conditions, nested, transactions, variables
from trials import run, shown

# In KB. All of it runs in half as much.
STACK = 256

# How many states of every order are looked at.
STATES = "300"

FILES = {
    "a sum on the right": f"(var x 0)(tx t (skip) {nested(31, '(add 0 ', 'x')})(run t 3)",
    "a sum on the left": f"(var x 0)(tx t (skip) {nested(31, '(add ', 'x', ' 0)')})(run t 3)",
    "a product in a throw": f"(var x 1)(tx t (throw {nested(30, '(mul x ', 'x')}) x)(run t 3)",
    "a condition in a condition": conditions(29),
    "both sides of conditions": f"(tx t (if {nested(29, '(and (eq 0 0) ', '(eq 0 0)')} (skip) (retry)) 0)(run t 3)",
    "the left sides of conditions": f"(tx t (if {nested(29, '(or ', '(eq 1 0)', ' (eq 0 0))')} (skip) (retry)) 0)(run t 3)",
    "sums in conditions": f"(var x 0)(tx t (if (not (eq {nested(28, '(sub ', 'x', ' 1)')} x)) (skip) (retry)) x)(run t 3)",
    "sequences": f"(tx t {nested(31, '(seq ', '')} 0)(run t 3)",
    "choices": f"(var x 0)(tx t {nested(30, '(if (eq x 0) ', '(skip)', ' (retry))')} x)(run t 3)",
    "repeats": f"(var x 0)(tx t {nested(29, '(repeat 1 ', '(set x (add x 1))')} x)(run t 3)",
    "first alternatives": f"(var x 0)(tx t {nested(14, '(orelse (seq (set x (add x 1)) ', '(retry)', ') (set x (add x 7)))')} x)(run t 3)",
    "second alternatives": f"(var x 0)(tx t {nested(29, '(orelse (retry) ', '(set x 7)')} x)(run t 3)",
    "a standing condition in a condition": f"(stm 2)(var x 0)(always c {nested(30, '(not ', '(le 0 x)')})(tx t (set x (add x 1)) x)(run t 3)",
    "64 standing conditions on 256 variables": "(stm 2)" + variables(256) + "".join(f"(always c{i} (lt v{i} v{255 - i}))" for i in range(64)) + "(tx t (set v9 (add v9 7)) v9)(run t 300)",
    "a statement of 170,000 parts": f"(tx t (seq {'(skip)' * 170000}) 0)(run t 1)",
    "256 variables, each read and written": variables(256) + "(tx t (seq" + "".join(f" (set v{i} (add v{i} 1))" for i in range(256)) + ") 0)(run t 300)",
    "256 transactions of 256 tasks": transactions(256) + "".join(f"(run t{i} 256)" for i in range(256)),
    "65,536 tasks that wait": "(var x 0)(tx t (if (eq x 0) (retry) (skip)) x)(run t 65536)",
}

SCHEDULES = {
    "a schedule of 209,715 words": "word\n" * 209715,
    "a schedule of 20,000 attempts": "begin 0\ndrop 0\n" * 20000,
}


def looked_at(trials, small, file):
    """The other commands on the file, with the report of its last run: how each ended, and whether that is right. Of all
    orders few states are looked at, for there may be many: more is the status 1."""
    schedule = trials.write("deep-schedule", "begin 0\ncommit 0\n")
    calls = [
        (["world", file, schedule], (0,)),
        (["explore", file, "--states", STATES], (0, 1)),
        (["explore", file, "--states", STATES, "--to", "1"], (0, 1)),
        (["explore", file, "--states", STATES, "--dot"], (0, 1)),
        (["explain", file], (0,)),
        (["explain", file, "deep-report"], (0,)),
        (["explain", file, "--schedule", schedule], (0,)),
        (["print", file], (0,)),
        (["print", file, "--from", "deep-report"], (0,)),
    ]
    for words, statuses in calls:
        ended = small(words)
        yield words, ended, ended.status in statuses and ended.err == b"" and ended.out != b""


def try_stacks(trials, program):
    by = os.path.basename(program)
    small = lambda words: run(["sh", "-c", f'ulimit -s {STACK}; exec "$@"', "sh", program, *words], trials.folder, {"PATH": "/usr/bin:/bin"})
    for what, text in FILES.items():
        file, faults = trials.write("deep", text), []
        for workers in ("1", "16"):
            ended = small(["run", file, "--workers", workers])
            good = small(["check", file, trials.write("deep-report", ended.out)])
            if (ended.status, ended.err) != (0, b"") or good[:3] != (0, b"good\n", b""):
                faults.append(f"workers {workers}: {shown(ended)}; its check: {shown(good)}")
            # There is memory enough: what waits is parked, and nothing is given up for want of it.
            if any(line.startswith(b"memory ") for line in ended.out.splitlines()):
                faults.append(f"workers {workers}: a task was given up as memory ran out")
        faults += [f"{words[0]}: {shown(ended)}" for words, ended, is_right in looked_at(trials, small, file) if not is_right]
        trials.tell(f"{by} in {STACK} KB, {what}", faults, "run by 1 and by 16 workers, checked, begun in a world, explored, explained, printed")
    file = trials.write("deep", FILES["a sum on the right"])
    for what, schedule in SCHEDULES.items():
        ended = small(["world", file, trials.write("deep-schedule", schedule)])
        ok = (ended.status, ended.err) == (0, b"") and ended.out.endswith(b"end\n")
        trials.tell(f"{by} in {STACK} KB, {what}", [] if ok else [shown(ended)], "played")
