"""What all trials share: the program, one run of it, and how what was found is told."""

import os
import subprocess
import sys
import tempfile
from collections import namedtuple
from concurrent.futures import ThreadPoolExecutor

TOP = os.path.dirname(os.path.dirname(os.path.abspath(__file__)))
# As LLVM builds the program, and as Rattle's own compiler does, where rt ci has left that one too.
PROGRAMS = [f"{TOP}/crates/stm/out/{name}" for name in ("stm", "stm.by-rattle")]
TESTS = f"{TOP}/crates/hostile_tests/out/hostile_tests_tests"
SECONDS = 60

# How a run ended: its status (below 0: the number of the signal that stopped it), both outputs, whether a request
# for memory was refused, and how many blocks were never given back (None: not known).
Ended = namedtuple("Ended", "status out err refused kept")

OUT_OF_MEMORY = (5, b"", b"stm: out of memory\n")


def stop(why):
    print(f"hostile: {why}", file=sys.stderr)
    sys.exit(2)


def programs():
    """The builds of the program that are there."""
    made = [it for it in PROGRAMS if os.access(it, os.X_OK)]
    if not made:
        stop("the program is not built: run rt ci, or ./stm --help, first")
    return made


def run(words, folder, env=None):
    """Runs a command in a folder, for at most SECONDS."""
    told, tell = os.pipe()
    try:
        given = {**(env or {}), "REFUSE_FD": str(tell), "LANG": "C"}
        try:
            ran = subprocess.run(words, cwd=folder, env=given, pass_fds=(tell,), stdin=subprocess.DEVNULL, capture_output=True, timeout=SECONDS)
        except subprocess.TimeoutExpired:
            return Ended(-1000, b"", b"it had not ended after %d seconds" % SECONDS, False, None)
        finally:
            os.close(tell)
        said = os.read(told, 65536).decode()
    finally:
        os.close(told)
    kept = said.lstrip("r")
    return Ended(ran.returncode, ran.stdout, ran.stderr, said.startswith("r"), int(kept) if kept else None)


def shown(ended):
    """A run in one line, cut short."""
    cut = lambda text: repr(text if len(text) < 120 else text[:60] + b" .. " + text[-40:])
    return f"status {ended.status}, wrote {cut(ended.out)}, said {cut(ended.err)}, kept {ended.kept} blocks"


class Trials:
    """Counts the trials that passed, and prints a line for each."""

    def __init__(self):
        self.passed = self.failed = 0
        self.room = tempfile.TemporaryDirectory(prefix="stm-hostile-")
        self.folder = self.room.name
        self.pool = ThreadPoolExecutor(os.cpu_count() or 1)

    def write(self, name, text):
        """A file of this text for the program to read; returns its name."""
        with open(f"{self.folder}/{name}", "wb") as file:
            file.write(text.encode() if isinstance(text, str) else text)
        return name

    def tell(self, what, faults, found):
        """One trial: what was tried, what is wrong with it, and else what was found."""
        self.passed += not faults
        self.failed += bool(faults)
        print(f"hostile: {'FAILED' if faults else 'ok'} {what}: {'; '.join(faults[:5]) if faults else found}", flush=True)
