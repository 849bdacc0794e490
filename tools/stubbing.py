"""Where the functions of a file stand, and a crate's sources with stubs for bodies. A function's proof rests on the
contracts of those that it calls, and never on their bodies: over stubs it is proved or refused as over the crate itself,
and what a stub leaves out need not be proved again.

A stub calls a function of C that is declared at the end of the crate's root and promises what can't be, so that it meets
any contract. It takes as many lines as the body, so that all else stays where it is. No crate is built with one.
"""

import glob
import os
import shutil
import re
from dataclasses import dataclass

STUB = "crate::stands_for_a_body(); unreachable!()"
DECLARED = '\nunsafe extern "C" {\n    pub safe fn stands_for_a_body()\n        ensures { ⊥ };\n}\n'
HEADER = re.compile(r"( {0,4})(?:pub(?:\([^)]*\))? )?(?:const |unsafe )*(?:extern \"C\" )?fn (\w+)")
PROOF_FILES = ("Invariants.antt", "Answers.antt", "Proof.antt")


@dataclass(frozen=True)
class Function:
    """A function of a file, by lines counted from 0: those from its first attribute to its end, the one that names it,
    and the one that opens its body, if it has one; its name below the crate as the prover has it, and the folder of its
    proof, which it shares with those of its cycle of calls."""

    lines: range
    at: int
    opens: int | None
    name: str
    folder: str


def module_of(path):
    """What the names of the file's functions begin with."""
    module = path.removeprefix("src/").removesuffix(".rt").replace("/", "::")
    return "" if module in ("lib", "main") else f"{module}::"


def homes_of(crate):
    """Of each type that the crate in this folder declares, what the names in its module begin with."""
    homes = {}
    for path in glob.glob(os.path.join(crate, "src", "**", "*.rt"), recursive=True):
        with open(path, encoding="utf-8") as file:
            declared = re.findall(r"(?m)^(?:pub(?:\([^)]*\))? )?(?:struct|enum) (\w+)", file.read())
        homes.update(dict.fromkeys(declared, module_of(os.path.relpath(path, crate))))
    return homes


def functions_of(path, text, homes):
    """The functions of a file of src/ that stand at its margin or in an `impl` there. What a method's name begins with is
    the type, with the module that it is declared in, and the trait if there is one."""
    lines, module = text.split("\n"), module_of(path)
    owner, cycle = "", None
    for at, line in enumerate(lines):
        header = re.match(r"impl(?:<[^{]*?>)? (?:(\w+)(?:<.*>)? for )?(?:(\w+)|&(?:'\w+ )?\[(\w+)\])", line)
        if header:
            home = homes.get(header[2], module)
            owner = f"{home}{header[2] or 'RefSlice' + header[3].capitalize()}{header[1] or ''}::"
        elif line.startswith("}"):
            owner = ""
        named = re.search(r"#\[cycle\((\w+)\)\]", line)
        cycle = named[1] if named else cycle
        found = HEADER.match(line)
        if found:
            opens, last = body_of(lines, at, found[1])
            # The prover points at the first of its attributes.
            first = next((n for n in range(at, 0, -1) if not lines[n - 1].startswith(found[1] + "#[")), 0)
            place = (owner if found[1] else "") or module
            folder = place + (f"+{cycle}" if cycle else found[2])
            yield Function(range(first, last + 1), at, opens, place + found[2], "proofs/" + folder.replace("::", "/"))
            cycle = None


def body_of(lines, at, indent):
    """The line that opens the body of the function of this line, if it has one, and the last line of the function."""
    for n in range(at, len(lines)):
        line = lines[n]
        if re.match(rf"{indent}(    )?\S.*;$", line):
            return None, n
        if line.startswith(indent) and not line.startswith(indent + " ") and line.endswith(("{", "}")):
            ends = line.endswith("}")
            return n, n if ends else next((m for m in range(n, len(lines)) if lines[m].startswith(indent + "}")), len(lines) - 1)
    return None, at


def stubbed(lines, functions, padded=True):
    """The lines of a file with stubs for these of its functions; if they are not padded, with no line for what is left out."""
    lines, gone = [*lines], set()
    for function in functions:
        for n in range(function.lines.start, function.at):
            lines[n], count = re.subn(r" *#\[(tactic|cycle)\(.*\)\]$", "", lines[n])
            gone |= {n} if count else set()
        if lines[function.opens].endswith("}"):
            lines[function.opens] = re.sub(r"\{[^{]*\}$", f"{{ {STUB} }}", lines[function.opens])
        else:
            lines[function.opens] += f" {STUB}"
        for n in range(function.opens + 1, function.lines.stop - 1):
            lines[n] = ""
            gone.add(n)
    return lines if padded else [line for n, line in enumerate(lines) if n not in gone]


def stub_room(room, kept, padded=True):
    """Puts stubs into the crate's sources that lie in the room, for all functions but those whose proofs are in these
    folders, and takes the proofs of the others away; the names of those that are left as they are. The lemmas stay, of
    which the prover reads those that it needs. Stubs that are not padded are the same for bodies of every length."""
    names, homes = set(), homes_of(room)
    for path in glob.glob(os.path.join(room, "src", "**", "*.rt"), recursive=True):
        name = os.path.relpath(path, room)
        with open(path, encoding="utf-8") as file:
            text = file.read()
        lines, functions = text.split("\n"), list(functions_of(name, text, homes))
        others = [one for one in functions if one.folder not in kept and one.opens is not None and "const fn " not in lines[one.at]]
        names.update(one.name for one in functions if one not in others)
        with open(path, "w", encoding="utf-8") as file:
            file.write("\n".join(stubbed(lines, others, padded)) + (DECLARED if name in ("src/lib.rt", "src/main.rt") else ""))
        for proof in (os.path.join(room, one.folder, file) for one in others for file in PROOF_FILES):
            if os.path.exists(proof):
                os.remove(proof)
        for folder, name in (os.path.split(os.path.join(room, one.folder)) for one in others):
            # Those of what is called within its body.
            shutil.rmtree(os.path.join(folder, "fn", name), ignore_errors=True)
    return names
