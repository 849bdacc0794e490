#!/usr/bin/env python3
"""Tries one store for a whole life: hundreds of chapters of tasks that come in from C, and tasks that sleep through them.

    hostile/store_for_life.py [TASKS]

Builds hostile/store_for_life.c over the archive (STM_ARCHIVE, else crates/stm_c/out/libstm_c.a), runs so many tasks (10,000,000) with 1
and with 4 threads, and has `stm check` judge the file and the report of each chapter, and that each goes on where the one
before ended, where the program knows `--after`. `bindings/check` runs 1,000,000. STM names the program, else the launcher.
"""
import os
import re
import subprocess
import sys
import tempfile

HERE = os.path.dirname(os.path.abspath(__file__))
ROOT = os.path.dirname(HERE)
STM = os.environ.get("STM", os.path.join(ROOT, "stm"))
ARCHIVE = os.environ.get("STM_ARCHIVE", os.path.join(ROOT, "crates", "stm_c", "out", "libstm_c.a"))
THREADS = (1, 4)
# What the process may have more at the end than at the end of the first chapter, where the library has not one byte more: what
# the C library and the stacks of the threads touch later.
MORE_PAGES = 128


def built(work, archive, compiler="cc"):
    out = os.path.join(work, "store_for_life")
    words = [compiler, "-std=gnu11", "-O2", "-Wall", "-Wextra", "-Werror", "-I", f"{ROOT}/bindings/c", "-I", f"{ROOT}/bindings/tests", f"{HERE}/store_for_life.c"]
    subprocess.run([*words, f"{ROOT}/bindings/c/words.c", archive, "-pthread", "-o", out], check=True)
    return out


def check(folder, chapter, *more):
    words = [STM, "check", f"{folder}/{chapter}.stm", f"{folder}/{chapter}.report", *more]
    return subprocess.run(words, capture_output=True, text=True).stdout


def knows_after():
    return "--after" in subprocess.run([STM, "check", "--help"], capture_output=True, text=True).stdout


def bad_chapters(folder, count):
    """The chapters that are not judged good, or do not go on where the one before ended."""
    after, bad = knows_after(), []
    if not after:
        print("not tried: that each chapter goes on where the one before ended: the program does not know --after")
    for chapter in range(count):
        before = [f"{folder}/{chapter - 1}.stm", f"{folder}/{chapter - 1}.report"]
        more = ["--after", *before] if after and chapter else []
        told = check(folder, chapter, *more)
        if told != "good\n":
            bad.append(f"chapter {chapter}: {told.strip()}")
    return bad


def faults_of(work, program, tasks, threads):
    """What is wrong with a life of so many tasks; nothing where all is well."""
    with tempfile.TemporaryDirectory(dir=work) as folder:
        ran = subprocess.run([program, folder, str(tasks), str(threads)], capture_output=True, text=True)
        told = re.match(r"(\d+) chapters, (\d+) woken, bytes (\d+) (\d+), pages (\d+) (\d+)\ngood\n$", ran.stdout)
        if ran.returncode or not told:
            return [f"status {ran.returncode}: {ran.stdout}{ran.stderr}"]
        chapters, woken, *_, first, last = map(int, told.groups())
        print(f"store for life: {tasks:,} tasks, {threads} threads: {ran.stdout.splitlines()[0]}", flush=True)
        wrong = [] if last <= first + MORE_PAGES else [f"{first} pages at first, {last} in the end"]
        wrong += [] if chapters >= tasks // 4096 and woken >= chapters // 100 else [f"{chapters} chapters, {woken} woken"]
        return wrong + bad_chapters(folder, chapters)[:5]


def main():
    if sys.argv[1:2] in (["-h"], ["--help"]):
        print(__doc__.strip())
        return 0
    tasks = int(sys.argv[1]) if len(sys.argv) > 1 else 10_000_000
    failed = 0
    with tempfile.TemporaryDirectory() as work:
        program = built(work, ARCHIVE)
        for threads in THREADS:
            for line in faults_of(work, program, tasks, threads):
                print(f"failed: {line}")
                failed += 1
    print("store for life: " + ("good" if not failed else f"{failed} failed"))
    return 1 if failed else 0


if __name__ == "__main__":
    sys.exit(main())
