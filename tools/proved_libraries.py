"""The kit's compiler over the repository's libraries as they lie in their folders, also as `rt ci` left them: those have
no stamp by which `rt` would take them."""

import os
import subprocess

from sources import ROOT, is_static


def below(crates, crate):
    """The repository's crates that this one stands on, lowest first; `crates` as crates.txt lists them."""
    found = []

    def visit(name):
        for one in crates[name]:
            if one in crates and one not in found:
                visit(one)
                found.append(one)

    visit(crate)
    return found


def library_of(crate):
    return os.path.join(ROOT, "crates", crate, "out", "rlib", f"{crate}.rlib")


def kit():
    told = subprocess.run(["rt", "doc"], capture_output=True, text=True, check=True)
    return os.path.dirname(told.stdout.strip())


def command(crates, crate, verb, place_of=library_of):
    """`rattle VERB` of the crate's sources in the folder where it is called, over the libraries below it, which lie there."""
    place, main = kit(), os.path.join(ROOT, "crates", crate, "src", "main.rt")
    words = [f"{place}/bin/rattle", verb, "--crate-name", crate, "src/main.rt" if os.path.exists(main) else "src/lib.rt"]
    words += ["-L", f"dependency={place}/rlibs"]
    for name in dict.fromkeys(["std", *crates[crate]]):
        library = place_of(name) if name in crates else f"{place}/rlibs/{name}.rlib"
        words += ["--extern", f"{name}={library}"]
    for name in below(crates, crate):
        words += ["-L", f"dependency={os.path.dirname(place_of(name))}"]
    words += ["--crate-type", "staticlib"] if is_static(crate) else []
    return [*words, "--antt-project", f"{place}/rattle/logic/antt-project.json", "--logic-built", f"{place}/logic_built"]
