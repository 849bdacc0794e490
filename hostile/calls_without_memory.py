"""Tries the calls that take no memory: the tests of a `counted` module do the same, but that `moves` makes such calls
and `stays` does not. So both make as many requests.
"""

import os

from refused_memory import allocator
from trials import TOP, run, shown, stop

COUNTED = ("attempt_tests", "cells_tests", "world_tests")


def try_counts(trials):
    preload = allocator(trials.folder)
    for crate in COUNTED:
        tests = f"{TOP}/crates/{crate}/out/{crate}_tests"
        if not os.access(tests, os.X_OK):
            stop(f"the tests of {crate} are not built: run rt ci, or rt test in crates/{crate}, first")
        count = lambda name: run([tests, name], trials.folder, {"LD_PRELOAD": preload, "REFUSE_COUNT": "1"})
        stays, moves = count("counted::stays"), count("counted::moves")
        faults = [shown(it) for it in (stays, moves) if it.status or b"test result: ok" not in it.out or not it.kept]
        if stays.kept != moves.kept:
            faults.append(f"{stays.kept} requests without the calls, {moves.kept} with them")
        trials.tell(f"test {crate}, counted", faults, f"{stays.kept} requests with the calls and without")
