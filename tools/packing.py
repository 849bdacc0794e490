"""What is installed and packed: which file goes where, and what it says of its proofs."""

import gzip
import hashlib
import io
import os
import re
import shutil
import subprocess
import tarfile
import tempfile
import time

from pages import pages
from sources import HEADERS, ROOT, SONAME, Failed, files_of, say, version

MANIFEST = os.path.join("share", "stm", "manifest")
# What makes modules for hosts, beside the program.
BIND = "bindings/bind/stm-bind"
COMPLETIONS = {
    "stm.bash": "share/bash-completion/completions/stm",
    "_stm": "share/zsh/site-functions/_stm",
    "stm.fish": "share/fish/vendor_completions.d/stm.fish",
}
PC = """prefix={prefix}
libdir=${{prefix}}/lib
includedir=${{prefix}}/include

Name: stm
Description: Software transactional memory with retry and orElse, proved
Version: {version}
Cflags: -I${{includedir}}/stm -pthread
Libs: -L${{libdir}}{rpath} -lstm -pthread
"""
PROVED = """stm {version} for x86_64-linux, made {made}

Proved with the kit        {kit}
Checksum of the sources    sha256 {sources}

To check it again, on a machine with that kit and in a fresh clone of sources with that checksum, which

    {command}

tells: `./stm --build` and `./stm --library` prove every crate below from nothing and build the program and the library;
`rt ci` proves them and all others, with their tests.

Proved is what README.md says of it. Not proved are the parts in C (the service, the library's memory, its words and its
version), the crate for Rust, the compilers and the linkers that made these files, and the C library that they run on.

When each crate was proved (UTC):

{dates}

sha256 of what was made of them:

{sums}
"""
# A link of a page: its text, and where it goes. A text may have brackets of its own.
LINK = re.compile(r"\[((?:[^\[\]]|\[[^\[\]]*\])*)\]\(([^()\s]+)\)")
FENCED = re.compile(r"(?ms)(^```.*?^```$)")
# What anybody can run to learn the checksum of sources: of all crates, and of the library's parts in C.
CHECKED = "crates.txt crates/*/src crates/*/specs crates/*/proofs bindings/c"
CHECKSUM = f"find {CHECKED} -type f | LC_ALL=C sort | xargs sha256sum | sha256sum"
CONTROL = """Package: stm
Version: {version}
Architecture: amd64
Maintainer: the maintainers of stm <stm@localhost>
Installed-Size: {size}
Depends: libc6 (>= {libc})
Section: libs
Priority: optional
Description: software transactional memory with retry and orElse, proved
 The program stm, which runs files of transactions and checks reports of such
 runs, and the library for hosts in C, C++, Rust and Python.
"""


class Parts:
    """What is packed: the built program, the library's folder, the kit's line, and when each crate was proved."""

    def __init__(self, program, library, kit, proved):
        self.program, self.library, self.kit, self.proved = program, library, kit, proved
        self.made = int(max(os.stat(program).st_mtime, os.stat(os.path.join(library, "libstm.a")).st_mtime))


def read(*path):
    with open(os.path.join(*path), "rb") as file:
        return file.read()


def time_of(seconds):
    return time.strftime("%Y-%m-%d %H:%M", time.gmtime(seconds))


def checksum(top=ROOT):
    """The checksum of the sources, as the command CHECKSUM tells it."""
    paths = ["crates.txt", *(f"bindings/c/{name}" for name in os.listdir(os.path.join(top, "bindings", "c")))]
    paths += [
        os.path.relpath(file, top) for name in os.listdir(os.path.join(top, "crates")) for file in files_of(name, top)
    ]
    lines = [f"{hashlib.sha256(read(top, path)).hexdigest()}  {path}\n" for path in sorted(paths)]
    return hashlib.sha256("".join(lines).encode()).hexdigest()


def proved_text(parts):
    dates = "\n".join(f"{time_of(when)}  {name}" for name, when in sorted(parts.proved.items(), key=lambda one: one[1]))
    made = {
        "bin/stm": parts.program,
        **{f"lib/{name}": os.path.join(parts.library, name) for name in ("libstm.a", SONAME)},
    }
    sums = "\n".join(f"{hashlib.sha256(read(path)).hexdigest()}  {name}" for name, path in made.items())
    facts = {"version": version(), "made": time_of(parts.made) + " UTC", "kit": parts.kit, "sources": checksum()}
    return PROVED.format(command=CHECKSUM, dates=dates, sums=sums, **facts)


def pc_text(prefix, rpath):
    """The file for pkg-config. A host that is linked by it finds the library where it lies, if it lies in no folder
    that the system looks through."""
    return PC.format(prefix=prefix, version=version(), rpath=" -Wl,-rpath,${libdir}" if rpath else "")


def below(folder, ending=""):
    """The files below a folder of the repository, by their paths in it."""
    top = os.path.join(ROOT, folder)
    for where, folders, names in os.walk(top):
        folders[:] = sorted(name for name in folders if name not in ("out", "target"))
        for name in sorted(names):
            if name.endswith(ending) and not name.startswith("."):
                yield os.path.relpath(os.path.join(where, name), top)


def place_of(target, places):
    """Where a file or a folder of the repository is put; None: nowhere. `places` has each file's place."""
    if target in places:
        return places[target]
    for path, place in places.items():
        if path.startswith(target + "/") and place.endswith(path[len(target) :]):
            return place[: len(target) - len(path)]
    return None


def as_installed(page, text, places):
    """The text of a page as it is installed: its links go to where things lie there, and where a thing lies nowhere the
    text of its link is left."""

    def linked(link):
        said, (target, mark, part) = link[1], link[2].partition("#")
        if not target or re.match(r"[a-z]+:", target):
            return link[0]
        place = place_of(os.path.normpath(os.path.join(os.path.dirname(page), target)), places)
        if place is None:
            return said
        return f"[{said}]({os.path.relpath(place, os.path.dirname(places[page]))}{mark}{part})"

    pieces = FENCED.split(text)
    return "".join(piece if at % 2 else LINK.sub(linked, piece) for at, piece in enumerate(pieces))


def places():
    """Each file of the repository that is installed as it lies there, by its path, with its place below a prefix."""
    documents = ["README.md", "CHANGELOG.md", *(f"docs/{path}" for path in below("docs") if not path.endswith(".1"))]
    documents += [f"examples/{path}" for path in below("examples") if "." in path]
    found = {path: f"share/doc/stm/{path}" for path in documents}
    crate = ["Cargo.toml", "Cargo.lock", "build.rs", *(f"src/{path}" for path in below("bindings/rust/src", ".rs"))]
    python = ["pyproject.toml", "stm/py.typed", *(f"stm/{path}" for path in below("bindings/python/stm", ".py"))]
    bind = [f"stm_bind/{path}" for path in below("bindings/bind/stm_bind", ".py")]
    for kind, paths in (("rust", crate), ("python", python), ("bind", bind), ("examples", below("bindings/examples"))):
        found.update({f"bindings/{kind}/{path}": f"share/stm/{kind}/{path}" for path in paths})
    return {**found, BIND: "bin/stm-bind"}


def tree(parts, proved_at, prefix="${pcfiledir}/../..", rpath=True):
    """All that is put below a prefix: by path its bytes and its mode, or what it is a link to."""
    found = {"bin/stm": (read(parts.program), 0o755)}
    for name in ("libstm.a", SONAME):
        found[f"lib/{name}"] = (read(parts.library, name), 0o644)
    found["lib/libstm.so"] = SONAME
    found["lib/pkgconfig/stm.pc"] = (pc_text(prefix, rpath).encode(), 0o644)
    for name in (*HEADERS, "stm_version.h"):
        found[f"include/stm/{name}"] = (read(parts.library, name), 0o644)
    for name, text in pages(parts.program).items():
        found[f"share/man/man1/{name}"] = (text.encode(), 0o644)
    for name, path in COMPLETIONS.items():
        found[path] = (read(ROOT, "tools", "completions", name), 0o644)
    as_they_lie = places()
    linked = {**as_they_lie, **{f"bindings/{folder}/{name}": f"include/stm/{name}" for name, folder in HEADERS.items()}}
    for path, place in as_they_lie.items():
        content = read(ROOT, path)
        content = as_installed(path, content.decode(), linked).encode() if path.endswith(".md") else content
        found[place] = (content, 0o755 if path == BIND else 0o644)
    found[proved_at] = (proved_text(parts).encode(), 0o644)
    return dict(sorted(found.items()))


def folders_of(path):
    """The folders that a path below a prefix lies in, the highest first, which is the prefix itself."""
    parts = path.split("/")[:-1]
    return [".", *("/".join(parts[:count]) for count in range(1, len(parts) + 1))]


def reason(error):
    return error.strerror or str(error)


def folder_of(prefix):
    """The folder that a user names."""
    prefix = os.path.abspath(prefix)
    if os.path.lexists(prefix) and not os.path.isdir(prefix):
        raise Failed(f"{prefix} is no folder", 73)
    return prefix


def read_manifest(prefix):
    """What was installed: by path a checksum or what it is a link to; and the folders that were made for it."""
    files, folders = {}, []
    with open(os.path.join(prefix, MANIFEST), encoding="utf-8") as file:
        for line in file.read().splitlines():
            kind, _, rest = line.partition(" ")
            if kind == "folder":
                folders.append(rest)
            else:
                mark, _, path = rest.partition(" ")
                files[path] = (kind, mark)
    for path in (*files, *folders):
        if path.startswith("/") or ".." in path.split("/"):
            raise Failed(f"{os.path.join(prefix, MANIFEST)} names what lies elsewhere: {path}")
    return files, folders


def is_as_installed(path, kind, mark):
    if kind == "link":
        return os.path.islink(path) and os.readlink(path) == mark
    return os.path.isfile(path) and not os.path.islink(path) and hashlib.sha256(read(path)).hexdigest() == mark


def take_away(prefix):
    """Removes what the manifest names, but what has changed since. What is left, and the manifest's folders."""
    files, folders = read_manifest(prefix)
    left = []
    for path, (kind, mark) in files.items():
        whole = os.path.join(prefix, path)
        if not os.path.lexists(whole):
            continue
        if is_as_installed(whole, kind, mark):
            os.remove(whole)
        else:
            left.append(path)
    os.remove(os.path.join(prefix, MANIFEST))
    for folder in sorted(folders, key=len, reverse=True):
        try:
            os.rmdir(os.path.normpath(os.path.join(prefix, folder)))
        except OSError:
            pass
    return left


def uninstall(prefix):
    """Takes away what was installed below the prefix, and says what it leaves."""
    prefix = folder_of(prefix)
    if not os.path.isfile(os.path.join(prefix, MANIFEST)):
        raise Failed(f"nothing is installed below {prefix}")
    try:
        left = take_away(prefix)
    except OSError as error:
        raise Failed(f"cannot take away what is below {prefix}: {reason(error)}", 73) from None
    for path in left:
        say(f"{path} has changed since it was installed, and stays")
    return f"taken away from {prefix}"


def put(prefix, path, entry):
    """Puts one file or link into its place, which is never half written."""
    whole = os.path.join(prefix, path)
    if isinstance(entry, str):
        os.symlink(entry, whole + ".new")
    else:
        with open(whole + ".new", "wb") as file:
            file.write(entry[0])
        os.chmod(whole + ".new", entry[1])
    os.replace(whole + ".new", whole)


def manifest_of(entries, made):
    lines = [f"folder {folder}" for folder in made]
    for path, entry in entries.items():
        lines.append(
            f"link {entry} {path}" if isinstance(entry, str) else f"file {hashlib.sha256(entry[0]).hexdigest()} {path}"
        )
    return "\n".join([*lines, ""])


def install(parts, prefix):
    """Puts all of it below the prefix, in place of what was installed there before."""
    prefix = folder_of(prefix)
    entries = tree(parts, "share/doc/stm/PROVED")
    try:
        before, earlier = read_manifest(prefix) if os.path.isfile(os.path.join(prefix, MANIFEST)) else ({}, [])
        for path in entries:
            if path not in before and os.path.lexists(os.path.join(prefix, path)):
                raise Failed(
                    f"{os.path.join(prefix, path)} is there, and was not installed from here: nothing is installed", 73
                )
        if before:
            for path in take_away(prefix):
                say(f"{path} had changed since it was installed, and is replaced")
        folders = dict.fromkeys(folder for path in [*entries, MANIFEST] for folder in folders_of(path))
        made = [folder for folder in folders if folder in earlier or not os.path.isdir(os.path.join(prefix, folder))]
        for folder in folders:
            os.makedirs(os.path.join(prefix, folder), exist_ok=True)
        # The manifest comes first, so that what is broken off can be taken away.
        put(prefix, MANIFEST, (manifest_of(entries, made).encode(), 0o644))
        for path, entry in entries.items():
            put(prefix, path, entry)
    except OSError as error:
        raise Failed(f"cannot write below {prefix}: {reason(error)}", 73) from None
    return f"installed below {prefix}"


def tar_of(parts, folder):
    """The archive, the same for the same files."""
    name = f"stm-{version()}-x86_64-linux"
    path = os.path.join(folder, name + ".tar.gz")
    with open(path + ".new", "wb") as out, gzip.GzipFile("", "wb", 9, out, parts.made) as packed, tarfile.open(
        fileobj=packed, mode="w"
    ) as tar:
        for inner, entry in tree(parts, "PROVED").items():
            info = tarfile.TarInfo(f"{name}/{inner}")
            info.mtime, info.uname, info.gname = parts.made, "root", "root"
            if isinstance(entry, str):
                info.type, info.linkname, info.mode = tarfile.SYMTYPE, entry, 0o777
                tar.addfile(info)
            else:
                info.size, info.mode = len(entry[0]), entry[1]
                tar.addfile(info, io.BytesIO(entry[0]))
    os.replace(path + ".new", path)
    return path


def least_libc(*contents):
    """The oldest C library that has what these files want of it."""
    found = {
        (int(major), int(minor)) for content in contents for major, minor in re.findall(rb"GLIBC_(\d+)\.(\d+)", content)
    }
    return ".".join(str(number) for number in max(found, default=(2, 34)))


def deb_of(parts, folder):
    """The Debian package: below /usr, where the system looks for libraries."""
    entries = tree(parts, "share/doc/stm/PROVED", prefix="/usr", rpath=False)
    path = os.path.join(folder, f"stm_{version()}_amd64.deb")
    with tempfile.TemporaryDirectory(prefix="stm-") as work:
        os.chmod(work, 0o755)
        for inner, entry in entries.items():
            if "/man1/" in inner:
                inner, entry = inner + ".gz", (gzip.compress(entry[0], 9, mtime=0), entry[1])
            os.makedirs(os.path.join(work, "usr", os.path.dirname(inner)), exist_ok=True)
            put(os.path.join(work, "usr"), inner, entry)
        control = os.path.join(work, "DEBIAN")
        os.makedirs(control)
        whole = [entry[0] for entry in entries.values() if not isinstance(entry, str)]
        facts = {
            "version": version(),
            "size": sum(map(len, whole)) // 1024,
            "libc": least_libc(*(read(parts.library, SONAME), read(parts.program))),
        }
        for name, text in (("control", CONTROL.format(**facts)), ("triggers", "activate-noawait ldconfig\n")):
            with open(os.path.join(control, name), "w") as file:
                file.write(text)
        words = ["dpkg-deb", "--root-owner-group", "--build", work, path]
        ran = subprocess.run(
            words, capture_output=True, text=True, env={**os.environ, "SOURCE_DATE_EPOCH": str(parts.made)}
        )
        if ran.returncode != 0:
            raise Failed("\n".join(["dpkg-deb makes no package", *ran.stderr.splitlines()[-10:]]))
    return path


def package(parts, folder):
    """Makes the archives in the folder; their paths."""
    folder = folder_of(folder)
    try:
        os.makedirs(folder, exist_ok=True)
        made = [tar_of(parts, folder)]
        if shutil.which("dpkg-deb"):
            made.append(deb_of(parts, folder))
        else:
            say("there is no dpkg-deb here: no Debian package is made")
    except OSError as error:
        raise Failed(f"cannot write in {folder}: {reason(error)}", 73) from None
    return made
