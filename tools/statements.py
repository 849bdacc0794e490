"""The statements of the crates below one, made of their sources with stubs for bodies (stubbing.py), in out/stubs/: a
crate can be proved over them before what lies below it is. What was made is kept by what it was made of, in
~/.cache/stm-stubs/, so that another clone need not make it again; that folder may be removed at any time.
"""

import fcntl
import glob
import hashlib
import os
import re
import shutil
import subprocess
import sys
from concurrent.futures import ThreadPoolExecutor

import proved_libraries
from sources import OUT, ROOT, SOURCES, files_of, kit_at
from stubbing import stub_room

MADE = os.path.join(OUT, "stubs")
KEPT = os.path.join(os.path.expanduser("~"), ".cache", "stm-stubs")
CITED = re.compile(r"Rattle\.(\w+)\.proofs\.(\w+)")


def library_of(crate):
    return os.path.join(MADE, crate, f"{crate}.rlib")


def lemma_of(path):
    """The name of the file of lemmas, if it is one."""
    folder, name = os.path.split(path)
    return name.removesuffix(".antt") if os.path.basename(folder) == "proofs" and name != "Lib.antt" else None


def needed_lemmas(crates):
    """The files of lemmas that proofs of other crates cite, and those that these cite: the crate and the name of each."""
    cited, left, needed = {}, [], set()
    for crate in crates:
        for path in files_of(crate):
            with open(path, encoding="utf-8") as file:
                found = CITED.findall(file.read())
            left += [one for one in found if one[0] != crate]
            if lemma_of(path):
                cited[crate, lemma_of(path)] = found
    while left:
        one = left.pop()
        if one in cited and one not in needed:
            needed.add(one)
            left += cited[one]
    return needed


def put_sources(room, crate, needed):
    """The crate's sources with stubs and these lemmas, in the room; what they are, in short."""
    shutil.rmtree(room, ignore_errors=True)
    for part in SOURCES:
        source = os.path.join(ROOT, "crates", crate, part)
        if os.path.isdir(source):
            shutil.copytree(source, os.path.join(room, part))
    stub_room(room, set())
    listed = os.path.join(room, "proofs", "Lib.antt")
    for path in glob.glob(os.path.join(room, "proofs", "*.antt")):
        if path != listed and (crate, lemma_of(path)) not in needed:
            os.remove(path)
    if os.path.exists(listed):
        with open(listed, encoding="utf-8") as file:
            lines = file.read().split("\n")
        with open(listed, "w", encoding="utf-8") as file:
            file.write("\n".join(line for line in lines if not (mod := re.match(r"(?:pub )?mod (\w+)", line)) or (crate, mod[1]) in needed))
    return digest_of(room)


def digest_of(room):
    found = hashlib.sha256()
    for folder, folders, names in os.walk(room):
        folders.sort()
        for name in sorted(names):
            with open(os.path.join(folder, name), "rb") as file:
                found.update(f"{os.path.relpath(folder, room)}/{name} ".encode() + file.read())
    return found.hexdigest()


def made(crates, crate, needed, below):
    """Makes the crate's statements once those below are there, unless they are what lies there; what they rest on."""
    place, room = os.path.dirname(library_of(crate)), os.path.join(MADE, crate, "sources")
    rests_on = [str(kit_at()), put_sources(room, crate, needed), *(run.result() for run in below)]
    mark = hashlib.sha256(" ".join(rests_on).encode()).hexdigest()
    stamp = os.path.join(place, "stamp")
    if os.path.exists(stamp):
        with open(stamp, encoding="utf-8") as file:
            if file.read() == mark:
                return mark
        os.remove(stamp)
    shutil.rmtree(library_of(crate), ignore_errors=True)
    kept = os.path.join(KEPT, crate, mark)
    os.makedirs(os.path.dirname(kept), exist_ok=True)
    with open(f"{kept}.lock", "w", encoding="utf-8") as lock:
        # Whoever comes second waits, and finds it there.
        fcntl.flock(lock, fcntl.LOCK_EX)
        if not os.path.exists(kept):
            make(crates, crate, room, kept)
    shutil.copytree(kept, library_of(crate), copy_function=linked)
    with open(stamp, "w", encoding="utf-8") as file:
        file.write(mark)
    return mark


def linked(source, target):
    try:
        os.link(source, target)
    except OSError:
        shutil.copy2(source, target)


def make(crates, crate, room, kept):
    """Makes the crate's statements, and keeps them."""
    made = f"{kept}.new"
    shutil.rmtree(made, ignore_errors=True)
    words = proved_libraries.command(crates, crate, "build", library_of)
    words += ["--links", f"{crate}=stub", "--statements", "-o", made]
    run = subprocess.run(words, cwd=room, stdin=subprocess.DEVNULL, stdout=subprocess.PIPE, stderr=subprocess.STDOUT, text=True, errors="replace", check=False)
    if run.returncode:
        raise SystemExit(f"stubs: {crate} can't be made over stubs:\n{run.stdout[-2000:]}")
    os.rename(made, kept)
    print(f"stubs: made {crate}", file=sys.stderr, flush=True)


def make_below(crates, crate):
    """Makes the statements of all that the crate stands on, where its sources changed."""
    needed, runs = needed_lemmas(crates), {}
    with ThreadPoolExecutor(len(os.sched_getaffinity(0))) as pool:
        for name in proved_libraries.below(crates, crate):
            below = [runs[one] for one in crates[name] if one in runs]
            runs[name] = pool.submit(made, crates, name, needed, below)
    for run in runs.values():
        run.result()
