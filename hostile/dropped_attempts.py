"""Tries that dropped attempts are let go: a finished attempt of the world keeps its log alone, so a world in which as
many attempts begin and are dropped as the longest schedule has room for takes less than MOST.
"""

import os
import subprocess
import sys

# In KB. Ten thousand whole attempts take as much.
MOST = 98304

SCHEDULE = "begin 0\ndrop 0\n" * 69905


# Runs a command, and says what it took. It is a process of its own, since the system counts what a process has when it
# begins its child as taken by the child.
PEAK = """
import resource, subprocess, sys
status = subprocess.call(sys.argv[1:])
print(resource.getrusage(resource.RUSAGE_CHILDREN).ru_maxrss, file=sys.stderr)
sys.exit(status)
"""


def try_dropped(trials, program):
    by = os.path.basename(program)
    file, schedule = trials.write("one", "(tx t (skip) 0)(run t 1)"), trials.write("long-schedule", SCHEDULE)
    played = subprocess.run([sys.executable, "-c", PEAK, program, "world", file, schedule], cwd=trials.folder, stdin=subprocess.DEVNULL, capture_output=True)
    out, took = played.stdout, int(played.stderr)
    faults = [f"status {played.returncode}, {len(out)} bytes"] * (played.returncode != 0 or out.count(b"\n") != 3 * 69905 + 2 or not out.endswith(b"attempt 0 0 dropped\nend\n"))
    faults += [f"it took {took} KB"] * (took > MOST)
    trials.tell(f"{by} world, a schedule of 69,905 attempts", faults, f"took {took} KB")
