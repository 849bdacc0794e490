"""Edits that the prover has refused, so that a changed body costs only the edits of its own function: kept on this machine
in ~/.cache/stm-edits/, which may be removed at any time, and listed in must-fail/refused, which is handed on with the
sources, so that a new machine need not try all again. `tools/try-edits --write` writes that list.

Only one verdict is kept: that a goal of the very function that the edit changes is left open. It is found again by a
checksum of all that the check of this edit by itself reads:

- the room, with this edit alone: the contracts, definitions and lemmas of the crate, and the one body, since all
  others are stubs; where the edit was tried over the crate itself, all bodies and their proofs;
- of each library below, as it lies there when the edit is tried and not as its sources stand, what the kit keeps in it
  to be read from above: its declarations with contracts and no bodies, its definitions, its lemmas, and the facts of its
  functions and types that its file `format` lists;
- the crate's line of crates.txt and those below it, the kit, and what judges the prover's words (judging.py).

So none hides an edit that would be proved now. Whatever could prove it has to stand in what the check reads: another
contract, definition or lemma, here or below, another prover, or another text of the function, and each gives another
checksum. What is left out can prove nothing of it: the bodies and proofs of other functions, which a proof never
reads, and the code of a library, which is for the linker (but where it has constant functions). Edits are tried in
rounds, but a round has one edit of a function, and each changes only what stands in its own function's body: the
contracts over which the others are tried stay (an edit that reaches beyond a body has a round to itself). A file that
changes while it is tried is seen, and then nothing is kept.

A list can be written by hand. So the gate draws crates, by what is handed in, whose listed edits it tries all the same.
"""

import functools
import hashlib
import os
import subprocess
import tempfile
import time

import proved_libraries
from sources import ROOT, is_static
from stubbing import PROOF_FILES

KEPT = os.path.join(os.path.expanduser("~"), ".cache", "stm-edits")
LIST = os.path.join(ROOT, "must-fail", "refused")
# What stands first in the list, and what is told of an edit that stands there, in place of its goal.
ABOUT = "# Edits that were refused, each after a checksum of all that its check read: tools/try-edits --write writes this.\n"
LISTED = "a goal, as must-fail/refused has it"
# Those that no run asked for in so many days go, and the oldest beyond so many.
DAYS, MOST = 60, 20_000
# How much of a checksum the list has: 128 bits.
LENGTH = 32
# How a line of a library's `format` begins that is a sum of its files, or of those below it.
SUMS = (b"needs ", b"over ", b"checked ", b"sum ")


def sum_of(*parts):
    """A checksum of these texts and bytes, each with its length."""
    found = hashlib.sha256()
    for part in parts:
        data = part if isinstance(part, bytes) else str(part).encode()
        found.update(f"{len(data)} ".encode() + data)
    return found.hexdigest()


def read(path):
    with open(path, "rb") as file:
        return file.read()


def files_in(place):
    """The files below the folder, by their paths from there, in order."""
    found = [os.path.join(folder, name) for folder, _, names in os.walk(place) for name in names]
    return sorted(os.path.relpath(path, place) for path in found)


def contents(place, names):
    return [part for name in names for part in (name, read(os.path.join(place, name)))]


def statements_of(library):
    """A checksum of what is read of a library from above: all but its code and the proofs of its functions. Where it has
    a constant function, whose body decides what constants are, its code too."""
    names = [f"lang/src/{name}" for name in files_in(os.path.join(library, "lang", "src"))]
    names += ["toolchain/mir.json"] if any(b"const fn " in read(os.path.join(library, name)) for name in names) else []
    names += [f"lang/antt/{name}" for name in files_in(os.path.join(library, "lang", "antt")) if name.endswith(".antt")]
    facts = [line for line in read(os.path.join(library, "format")).split(b"\n") if not line.startswith(SUMS)]
    return sum_of(*contents(library, [name for name in names if os.path.basename(name) not in PROOF_FILES]), *facts)


@functools.cache
def kit_sum():
    """What names the kit, and the prover's bytes."""
    place = proved_libraries.kit()
    paths = [os.path.join(place, name) for name in ("KIT-ID", "WHAT", os.path.join("bin", "rattle"))]
    version = subprocess.run(["rt", "version"], capture_output=True, check=False).stdout
    return sum_of(version, *[read(path) for path in paths if os.path.exists(path)])


@functools.cache
def tools_sum():
    """The text of what gives the prover its words, and judges what it says. What reads an edit and puts its room together
    shows in that room."""
    here = os.path.dirname(os.path.realpath(__file__))
    return sum_of(*contents(here, ["judging.py", "proved_libraries.py"]))


def file_of(path):
    """The file that the edit of this path stands in: a path is must-fail/CRATE.edits#NAME."""
    return path.partition("#")[0]


def edits_of(file):
    """The lines of each edit in the file, by its path; none where there is no such file."""
    found, lines = {}, []
    if os.path.exists(os.path.join(ROOT, file)):
        for line in read(os.path.join(ROOT, file)).decode().splitlines():
            if line.startswith("# "):
                lines = found[f"{file}#{line[2:].strip()}"] = []
            elif line:
                lines.append(line)
    return found


def read_list():
    """The checksums that the list has, by the path of the edit."""
    if not os.path.exists(LIST):
        return {}
    with open(LIST, encoding="utf-8") as file:
        return {path: key for key, path in (line.split() for line in file if not line.startswith("#"))}


def write_list(found, tried):
    """Writes the list anew: what was found of the edits in these files, and of all others what it had, where the edit is
    still there."""
    lines = {path: key for path, key in read_list().items() if file_of(path) not in tried} | found
    there = {path for file in map(file_of, lines) for path in edits_of(file)}
    lines = {path: key for path, key in lines.items() if path in there}
    with tempfile.NamedTemporaryFile("w", dir=os.path.dirname(LIST), delete=False, encoding="utf-8") as file:
        file.write(ABOUT + "".join(f"{key} {path}\n" for path, key in sorted(lines.items())))
    os.chmod(file.name, 0o644)
    os.replace(file.name, LIST)


def drawn(crates, most):
    """So many of these crates, drawn by what the last commit has, so that who writes the list can't know which."""
    tree = subprocess.run(["git", "rev-parse", "HEAD"], cwd=ROOT, capture_output=True, check=False).stdout
    return sorted(crates, key=lambda crate: sum_of(tree, crate))[:most]


def base_of(crates, crate):
    """A checksum of all that the checks of the crate's edits read besides its own sources."""
    below = proved_libraries.below(crates, crate)
    lines = [(name, is_static(name), crates[name]) for name in [*below, crate]]
    statements = [(name, statements_of(proved_libraries.library_of(name))) for name in below]
    return sum_of(kit_sum(), tools_sum(), lines, statements)


class Verdicts:
    """Those of one crate. `plant` puts the crate with an edit into a room, over stubs or not; `listed` are the checksums
    of edits that are believed to be refused. `refused` are those that are, with what the list is to have of each."""

    def __init__(self, crates, crate, plant, anew=False, listed=None):
        self.crates, self.crate, self.plant, self.anew, self.listed = crates, crate, plant, anew, listed or {}
        self.base, self.keys, self.refused = base_of(crates, crate), {}, {}

    def key(self, edit, over_stubs):
        with tempfile.TemporaryDirectory(prefix="stm-edit-") as room:
            # How many lines a stub has only moves the lines behind it.
            self.plant(room, [edit], over_stubs, padded=False)
            asked = (over_stubs, edit.function, edit.folder, sorted(edit.texts))
            return sum_of(self.base, asked, *contents(room, files_in(room)))

    def known(self, edit):
        """The goal that this edit left open when it was tried before."""
        if edit.function is None:
            return None
        for over_stubs in (True, False):
            key = self.keys[edit.path, over_stubs] = self.key(edit, over_stubs)
            path = os.path.join(KEPT, key)
            if self.anew:
                continue
            if os.path.exists(path):
                os.utime(path)
            elif self.listed.get(edit.path) != key[:LENGTH]:
                continue
            self.refused[edit.path] = key[:LENGTH]
            return read(path).decode() if os.path.exists(path) else LISTED
        return None

    def keep(self, refused):
        """Keeps the goals of these edits, with whether each was tried over stubs, by what their checks read: nothing of
        it has changed since the verdicts were asked for."""
        if not refused or base_of(self.crates, self.crate) != self.base:
            return
        os.makedirs(KEPT, 0o700, exist_ok=True)
        for edit, over_stubs, goal in refused:
            key = self.keys[edit.path, over_stubs]
            if self.key(edit, over_stubs) == key:
                with tempfile.NamedTemporaryFile("w", dir=KEPT, delete=False, encoding="utf-8") as file:
                    file.write(goal)
                os.replace(file.name, os.path.join(KEPT, key))
                self.refused[edit.path] = key[:LENGTH]


def shrink():
    """Removes what no run has asked for in a long time."""
    if not os.path.isdir(KEPT):
        return
    dates = []
    for entry in os.scandir(KEPT):
        try:
            dates.append((entry.stat().st_mtime, entry.path))
        except OSError:
            continue
    oldest = time.time() - DAYS * 24 * 60 * 60
    dates.sort(reverse=True)
    for at, (date, path) in enumerate(dates):
        if at >= MOST or date < oldest:
            try:
                os.remove(path)
            except OSError:
                continue
