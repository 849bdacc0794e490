"""What the launcher's scripts share of the sources: which crates there are and what they stand on, the kit that is
there, and what users have of them: the program and the library for hosts, each with what was written down when it was
built.
"""

import hashlib
import json
import os
import re
import shutil
import subprocess
import sys

ROOT = os.path.dirname(os.path.dirname(os.path.realpath(__file__)))
OUT = os.path.join(ROOT, "out")
SOURCES = ("src", "specs", "proofs")
# Where the version of all of it stands.
VERSION_SOURCE, NUMBER = "crates/command_line/src/words.rt", r"\d+\.\d+\.\d+"

# The parts of the library that are in C, and what they include of their own; the headers that a host includes, each with
# its folder of bindings/; and what is made of all of it.
PARTS, SONAME = ("heap.c", "service.c", "words.c"), "libstm.so.0"
INCLUDED = ("asking", "bell", "calls", "chapter_room", "chapters", "each", "ending", "inside", "lines", "lock", "looks")
INCLUDED += ("sleep", "started", "starting", "taking", "waiting", "workers")
INCLUDED = tuple(f"{name}.h" for name in INCLUDED)
HEADERS = {"desk.h": "c", "service.h": "c", "stm.h": "c", "stm.hpp": "cpp"}
# The headers of the exports of the crate.
EXPORTED = ("stm.h", "desk.h")
LIBRARY_FILES = ("libstm.a", SONAME, *HEADERS, "stm_version.h")


class Product:
    """What users have: the crate of which it is built, the files beside those of the crates that it rests on, what is
    made of them, and where is written down of which."""

    def __init__(self, crate, stamp, made, more=()):
        self.crate, self.stamp, self.made, self.more = crate, stamp, made, more

    def is_current(self):
        """Whether what is there was made of the sources as they lie there, by the kit that is there."""
        stamp, marks, kit = read_stamp(self.stamp), marks_of(*self.made), kit_at()
        if marks is None or stamp.get("made") != marks or kit not in (None, stamp.get("kit_at")):
            return False
        return stamp.get("glance") == self.glance()

    def glance(self):
        return glance(names_of(self.crate), self.more)

    def write_down(self, kit, sources, seen):
        """Notes of what it was made: the kit's line, the checksum of the sources, and how they looked before."""
        stamp = {"kit": kit, "sources": sources, "made": marks_of(*self.made), "kit_at": kit_at(), "glance": seen}
        with open(self.stamp + ".new", "w") as file:
            json.dump(stamp, file)
        os.replace(self.stamp + ".new", self.stamp)


def library_in(folder):
    """The library for hosts, in this folder."""
    places = {**dict.fromkeys((*PARTS, *INCLUDED), "c"), **HEADERS}
    more = [os.path.join(ROOT, "bindings", place, name) for name, place in places.items()]
    made = [os.path.join(folder, name) for name in LIBRARY_FILES]
    return Product("stm_c", os.path.join(folder, "stamp"), made, [*more, os.path.join(ROOT, VERSION_SOURCE)])


class Failed(Exception):
    """It can't be built: what to say, and the status."""

    def __init__(self, text, status=70):
        super().__init__(text)
        self.status = status


def say(text):
    print(f"stm: {text}", file=sys.stderr, flush=True)


def version(top=ROOT):
    """The version of program, library and archives, by the program's source."""
    with open(os.path.join(top, VERSION_SOURCE), encoding="utf-8") as file:
        found = re.search(rf'(?m)^const VERSION: &str = "({NUMBER})";$', file.read())
    if not found:
        raise OSError(f"{VERSION_SOURCE} names no version")
    return found[1]


def read_listed(top=ROOT):
    """Each crate of crates.txt with all libraries that its line names, the kit's too."""
    crates = {}
    with open(os.path.join(top, "crates.txt")) as lines:
        for line in lines:
            head, colon, names = line.split("#")[0].partition(":")
            if colon:
                crates[head.split()[0]] = names.split()
    return crates


def read_crates(top=ROOT):
    """Each crate of crates.txt with the repository's libraries that it stands on."""
    crates = read_listed(top)
    return {name: [below for below in names if below in crates] for name, names in crates.items()}


def all_below(crates, name):
    """The crates that this one stands on, lowest first."""
    found = []

    def visit(crate):
        for below in crates[crate]:
            if below not in found:
                visit(below)
                found.append(below)

    visit(name)
    return found


def names_of(crate, top=ROOT):
    """The crate and all that it stands on, lowest first."""
    return [*all_below(read_crates(top), crate), crate]


def is_static(crate, top=ROOT):
    """Whether crates.txt has it as a static library."""
    with open(os.path.join(top, "crates.txt")) as lines:
        return any(line.split(":")[0].split() == [crate, "staticlib"] for line in lines)


def files_of(crate, top=ROOT):
    """The files that the crate's proof reads, in order."""
    found = []
    for kind in SOURCES:
        for folder, folders, names in os.walk(os.path.join(top, "crates", crate, kind)):
            folders.sort()
            found += [os.path.join(folder, name) for name in sorted(names)]
    return found


def kit_at():
    """Where the kit is, and when it was put there: enough to see another one."""
    rt = shutil.which("rt")
    if rt is None:
        return None
    real = os.path.realpath(rt)
    return [real, os.stat(real).st_mtime_ns]


def glance(names, more=()):
    """What changes whenever a source does, without a look into it, and not where all of it is copied with its dates.
    `more` are files beside those of the crates."""
    marks = []
    for path in [os.path.join(ROOT, "crates.txt"), *(file for name in names for file in files_of(name)), *more]:
        stat = os.stat(path)
        marks.append(f"{os.path.relpath(path, ROOT)} {stat.st_size} {stat.st_mtime_ns}")
    return hashlib.sha256("\n".join(marks).encode()).hexdigest()


def digest(names, kit, tree, more=()):
    """What is built of this tree rests on: the sources of the crates, the list of these, and the kit. `more` are files
    beside those of the crates."""
    found = hashlib.sha256(kit.encode())
    for path in [os.path.join(tree, "crates.txt"), *(file for name in names for file in files_of(name, tree)), *more]:
        with open(path, "rb") as file:
            content = file.read()
        found.update(f"{os.path.relpath(path, tree)} {len(content)}\n".encode() + content)
    return found.hexdigest()


def read_stamp(path):
    """What was written down of a build, or nothing."""
    try:
        with open(path) as file:
            return json.load(file)
    except (OSError, ValueError):
        return {}


def marks_of(*paths):
    """Each file by its size and its date; None where one is not there."""
    try:
        stats = [os.stat(path) for path in paths]
    except OSError:
        return None
    return [[stat.st_size, stat.st_mtime_ns] for stat in stats]


def kit_version():
    """The kit's line; says where its logic, by which all is proved, is another one than README names."""
    try:
        told = subprocess.run(["rt", "version"], capture_output=True, text=True)
    except OSError:
        told = None
    with open(os.path.join(ROOT, "README.md")) as file:
        named = re.search(r"`(rattle-kit-\S+) logic (\S+)`", file.read())
    wanted, logic = named.groups() if named else ("rattle-kit", "")
    if told is None or told.returncode != 0:
        raise Failed(f"the kit {wanted} is missing: its command `rt` is not on PATH", 69)
    version = told.stdout.strip()
    if version.split()[2:3] != [logic]:
        say(f"this is the kit {version or 'of no name'}, and README names {wanted} logic {logic}")
    return version


PROGRAM = Product("stm", os.path.join(OUT, "stamp"), [os.path.join(ROOT, "crates", "stm", "out", "stm")])
LIBRARY, TRIED = library_in(os.path.join(OUT, "library")), library_in(os.path.join(OUT, "try-library"))


def plant_tree(tree, crate):
    """A copy of the sources of the crate, of all that it and the library stand on and of their list, which no edit
    reaches; the crate's names, and those that the library wants besides."""
    shutil.copy(os.path.join(ROOT, "crates.txt"), tree)
    names, crates = names_of(crate, tree), read_crates(tree)
    library = names_of(LIBRARY.crate, tree) if LIBRARY.crate in crates else []
    beside = [name for name in library if name not in names]
    for name in [*names, *beside]:
        for kind in SOURCES:
            folder = os.path.join(ROOT, "crates", name, kind)
            if os.path.isdir(folder):
                shutil.copytree(folder, os.path.join(tree, "crates", name, kind))
    return names, beside


def size_of(crate, top, ending=""):
    """The bytes of the crate's sources, or of those with this ending."""
    return sum(os.path.getsize(file) for file in files_of(crate, top) if file.endswith(ending))
