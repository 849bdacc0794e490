"""Tries tasks of every size side by side: short ones, which have their turn under the lock, light ones, which only read and are
tried some at a time, and long ones; some retry until another has written, and some throw. Files are drawn by a fixed seed.
Each run ends with a report that `stm check` finds good, in which no task lacked memory.
"""

import os
import random

from trials import run, shown

FILES = 40
WORKERS = (2, 4, 8)

# A task that only reads, and one that writes, in so many instructions and more.
LOOK = "(tx look (repeat 50 (if (lt v0 0) (throw 1) (skip))) v0)"
WRITE = "(tx write (seq (repeat 300 (skip)) (set v0 (add v0 1))) v0)"

# At the limits: all variables read; more short ones in a row than have their turns in one time under the lock, by their
# number and by their weight.
LIMITS = {
    "256 variables": "".join(f"(var v{i} {i})" for i in range(256))
    + "(tx sum (seq" + "".join(f" (if (eq v{i} 1000) (throw 1) (skip))" for i in range(256)) + ") v255)"
    + "(tx write (set v255 (add v255 1)) v255)(run sum 240)(run write 2)(run sum 240)",
    "3,000 short ones in a row": "(var v0 5)" + LOOK + "(tx inc (set v0 (add v0 1)) v0)(run look 18000)(run inc 3000)(run look 18000)",
    "200 long-winded short ones in a row": "(var v0 5)" + LOOK + WRITE + "(run look 1200)(run write 200)(run look 1200)",
}


def drawn(draw):
    """A file of one to six variables, and a few runs of light tasks with short and long ones between them."""
    names = [f"v{i}" for i in range(draw.randint(1, 6))]
    text = "".join(f"(var {name} {draw.randint(0, 3)})" for name in names)
    one = lambda: draw.choice(names)
    reads = lambda turns: f"(repeat {turns} (if (lt {one()} 0) (throw 1) (skip)))"
    ends = [
        lambda: "(skip)",
        lambda: f"(if (eq {one()} {draw.randint(0, 3)}) (retry) (skip))",
        lambda: f"(orelse (if (lt {one()} {draw.randint(0, 4)}) (retry) (skip)) (skip))",
        lambda: f"(if (lt {one()} {draw.randint(0, 4)}) (throw 7) (skip))",
    ]
    looks = range(draw.randint(1, 3))
    for look in looks:
        text += f"(tx look{look} (seq {reads(draw.randint(12, 200))} {draw.choice(ends)()}) {one()})"
    for name, before in [("short", "(skip)"), ("long", reads(700))]:
        text += f"(tx {name} (seq {before} (set {names[0]} (add {names[-1]} 1))) {names[0]})"
    for _ in range(draw.randint(1, 8)):
        text += f"(run look{draw.choice(looks)} {draw.randint(20, 120)})(run short {draw.randint(1, 9)})"
        text += f"(run long {draw.randint(1, 3)})" * (draw.random() < 0.4)
    return text


def faults_of(trials, program, text, options):
    """What is wrong with a run of the file."""
    file = trials.write("mixed", text)
    ended = run([program, "run", file, *options], trials.folder)
    verdict = run([program, "check", file, trials.write("mixed-report", ended.out)], trials.folder)
    is_so = ended.status == 0 and verdict.out == b"good\n" and b"\nmemory " not in ended.out
    return [] if is_so else [f"{text} with {' '.join(options)}: {shown(ended)}; {shown(verdict)}"]


def try_every_size(trials, program):
    by = os.path.basename(program)
    for workers in WORKERS:
        draw, faults = random.Random(workers), []
        for place in range(FILES):
            options = ["--workers", str(workers), "--tries", "128"[place % 3], "--checkpoint", ("0", "7")[place % 2]]
            faults += faults_of(trials, program, drawn(draw), options)
        trials.tell(f"{by} run, tasks of every size, workers {workers}", faults, f"{FILES} good reports")
        for what, text in LIMITS.items():
            faults = faults_of(trials, program, text, ["--workers", str(workers)])
            trials.tell(f"{by} run, light tasks and {what}, workers {workers}", faults, "a good report")
