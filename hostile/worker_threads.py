"""Tries that workers run side by side: long tasks are run by as many threads as there are workers. Short tasks are left
to one thread, as is all that one worker is to do.
"""

import os
import subprocess

from refused_memory import allocator
from trials import SECONDS, run, shown

# How often a run is watched that had too few threads at a time.
TRIES = 20

# Tasks that only read, of some 500,000 nodes each, so that none makes another one stale.
LONG = "(var x 0)(tx long (repeat 1000 (repeat 100 (if (eq x 1) (throw 1) (skip)))) x)(run long 1024)"
SHORT_TASKS = "(var x 0)(tx inc (set x (add x 1)) x)(run inc 64)"


def most_threads(words, folder):
    """The most threads that the run was seen to have at a time."""
    ran = subprocess.Popen(words, cwd=folder, stdin=subprocess.DEVNULL, stdout=subprocess.PIPE, stderr=subprocess.DEVNULL)
    most = 0
    while ran.poll() is None:
        try:
            most = max(most, len(os.listdir(f"/proc/{ran.pid}/task")))
        except FileNotFoundError:
            break
    ran.communicate(timeout=SECONDS)
    return most


def faults_of(words, folder, preload, threads):
    """What is wrong with a run that is to have so many threads: how it ends, those it begins, and, of long tasks, those
    at a time. (A run of one thread may end before it is seen, and a loaded machine may let one end before another begins.)"""
    ended = run(words, folder, {"LD_PRELOAD": preload, "REFUSE_THREADS": "1"})
    faults = [shown(ended)] * (ended.status != 0 or not ended.out.endswith(b"end\n"))
    faults += [f"it began {ended.kept} threads, where {threads - 1} are wanted"] * (ended.kept != threads - 1)
    if threads > 1 and all(most_threads(words, folder) != threads for _ in range(TRIES)):
        faults.append(f"it was never seen to have {threads} threads at a time")
    return faults


def try_threads(trials, program):
    by, preload = os.path.basename(program), allocator(trials.folder)
    for what, text, workers in [("long tasks", LONG, 1), ("long tasks", LONG, 2), ("long tasks", LONG, 4), ("long tasks", LONG, 16), ("short tasks", SHORT_TASKS, 16)]:
        file = trials.write(what.replace(" ", "-"), text)
        threads = 1 if what == "short tasks" else workers
        faults = faults_of([program, "run", file, "--workers", str(workers)], trials.folder, preload, threads)
        trials.tell(f"{by} run, {what}, workers {workers}", faults, f"{threads} threads")
