"""The archive over which `bindings/check` builds its hosts: one that is there, one that `rt lib` builds, or one built
over the libraries that `rt ci` left.

`rt ci` proves the exports and builds nothing of them, so they are proved once more as they are built. What was built is
kept in ~/.cache/stm-archive/, by a checksum of the exports' sources, the kit and each library below, and so is what was
begun of it: so that is done once for the same sources, and else for what has changed. That folder may be removed.
"""

import fcntl
import os
import shutil
import subprocess

import proved_libraries
from sources import ROOT, files_of, read_listed
from verdicts import kit_sum, read, sum_of

CRATE = "stm_c"
ARCHIVE = f"{ROOT}/crates/{CRATE}/out/lib{CRATE}.a"
KEPT = os.path.join(os.path.expanduser("~"), ".cache", "stm-archive")
# How many archives stay.
MOST = 4


def run(*words, **more):
    return subprocess.run([str(word) for word in words], capture_output=True, check=False, **more)


def key(crates):
    """A checksum of all that is read of it: a library's `format` has the sums of its files and of those below it."""
    own = [part for path in files_of(CRATE) for part in (os.path.relpath(path, ROOT), read(path))]
    names = proved_libraries.below(crates, CRATE)
    below = [(name, read(os.path.join(proved_libraries.library_of(name), "format"))) for name in names]
    return sum_of(kit_sum(), crates[CRATE], *own, below)


def over_ci():
    """Builds the archive as `rt lib` does, over the libraries that `rt ci` left: those have no stamp by which `rt lib`
    would know them."""
    crates = read_listed()
    os.makedirs(os.path.dirname(ARCHIVE), exist_ok=True)
    os.makedirs(KEPT, 0o700, exist_ok=True)
    with open(os.path.join(KEPT, "lock"), "w", encoding="utf-8") as lock:
        fcntl.flock(lock, fcntl.LOCK_EX)
        kept = os.path.join(KEPT, key(crates) + ".a")
        if os.path.exists(kept):
            os.utime(kept)
            shutil.copy(kept, ARCHIVE)
            return run("true")
        words = proved_libraries.command(crates, CRATE, "build")
        words += ["--incremental", os.path.join(KEPT, "begun"), "--jobs", os.cpu_count(), "--links", f"{CRATE}="]
        os.makedirs(os.path.join(KEPT, "begun"), exist_ok=True)
        tools = ["--toolchain", f"{proved_libraries.kit()}/toolchain", "--backend", "llvm"]
        built = run(*words, *tools, "-o", ARCHIVE, cwd=f"{ROOT}/crates/{CRATE}", timeout=1800)
        if built.returncode == 0:
            shutil.copy(ARCHIVE, kept + ".new")
            os.replace(kept + ".new", kept)
        archives = [entry for entry in os.scandir(KEPT) if entry.name.endswith(".a")]
        for entry in sorted(archives, key=lambda entry: -entry.stat().st_mtime)[MOST:]:
            os.remove(entry.path)
        return built


def is_left_by_ci():
    """Whether the libraries are those of `rt ci`: it puts back what was there before, which has a stamp."""
    return not os.path.exists(f"{ROOT}/crates/stm_store/out/rlib/stamp")


def archive_built(after_ci):
    """The archive, and what was said when it was built; STM_ARCHIVE names one that is there already."""
    if "STM_ARCHIVE" in os.environ:
        return os.path.abspath(os.environ["STM_ARCHIVE"]), run("true")
    if os.path.exists(ARCHIVE):
        os.remove(ARCHIVE)
    if after_ci and is_left_by_ci():
        return ARCHIVE, over_ci()
    return ARCHIVE, run("rt", "lib", cwd=f"{ROOT}/crates/{CRATE}", timeout=7200)
