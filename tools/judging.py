"""What the prover's words say of edits: which goal of the function that an edit changes is left open, and where nothing is
decided. A verdict that is kept holds as long as this stands as it is (verdicts.py).

An edit has its crate, the texts of its files by their paths, and the one function that it changes: its name, its lines and
its folder in proofs/.
"""

import re

# What the prover says of a library that was built over others than those that lie there.
STALE = "which a lower step of the build wrote, cannot be used"
# An error: the file, the line, and what is wrong.
ERROR = re.compile(r"(?:\./)?(\S+?):(\d+):\d+: error(?:\[[\w-]+\])?: (.*)")
# An error that says only that a proof written by hand names what the edit took away.
NAMES_ONLY = re.compile(r"(\./)?proofs/.*(has no field|is not in scope|has no `|was not admitted)")


def strayed(edits, names, lines):
    """The line that shows that there is no verdict; over stubs, where these names have none, also one that finds fault with
    something else than what was edited: an error that stands elsewhere, or a function not proved that has a stub."""
    if not re.match(r"only=\d+ proved=\d+$|logic=", lines[-1]):
        return next((line for line in lines if ERROR.match(line)), lines[-1] or "nothing")
    if names is None:
        return None
    folders = tuple(edit.folder + "/" for edit in edits)
    # One that only waits for what it calls is not at fault.
    of_function = re.compile(rf"fn {edits[0].crate}::(\S+): (?!proved|assumed|no proof: it calls |no proof: .*: a call of .*, which has no proof)")
    for line in lines:
        placed, function = ERROR.match(line), of_function.match(line)
        if placed and not placed[1].startswith(folders) and not any(stands_in(edit, placed) for edit in edits):
            return line
        # A closure of m::f is m::fn::f::NAME.
        if function and not any(f"::{function[1]}::".replace("::fn::", "::", 1).startswith(f"::{name}::") for name in names):
            return line
    return None


def open_goal(edit, lines):
    """The goal of the edited function that is left open, if one is. An edit leaves the number of lines as it was."""
    place, source = re.escape(edit.folder + "/"), re.escape(next(iter(edit.texts)))
    goals = (
        re.compile(rf"note: `([^`]*)` of (?:\./)?{place}\S* (?:must prove|may be false)"),
        re.compile(rf"(?:\./)?{place}\S*:\d+:\d+: error: (.*)"),
        re.compile(rf"fn {edit.crate}::{re.escape(edit.function)}: .*`search` did not prove `([^`]*)`"),
    )
    at = re.compile(rf"note: (?:\./)?{source}:(\d+):\d+: it is not proved that (.*)")
    if any(STALE in line for line in lines):
        return None
    for line in lines:
        found = next((match[1] for match in (goal.match(line) for goal in goals) if match), None)
        placed = at.match(line)
        if placed and int(placed[1]) in edit.lines:
            found = placed[2]
        if found and not NAMES_ONLY.match(line):
            return found
    return None


def unread(line, edit):
    """Whether the prover could not read the edited text, so that no contract was tried."""
    at = ERROR.match(line)
    if not at or at[1] not in edit.texts and not at[1].startswith(("src/", "specs/")):
        return False
    clause = re.match(r"`[^`]*`: ", at[3])
    said = re.sub(r"`[^`]*`", "", at[3])
    return not clause or bool(re.search(r"is not in scope|has no field|is no name|operand is missing|expected the end|cannot continue", said))


def judged_alone(status, lines, edit):
    if any(STALE in line for line in lines):
        return False, "NOT TRIED: a library that it stands on is not that of the sources"
    bad = next((line for line in lines if unread(line, edit)), None)
    if bad:
        return False, f"BAD EDIT: the prover can't read the edited text: {bad[:160]}"
    if status == 1 and re.match(r"only=\d+ proved=\d+$|logic=not-proved", lines[-1]):
        told = [line for line in lines if re.match(r"(note: )?(\./)?\S+:\d+:\d+:", line)]
        goals = [line for line in told if not NAMES_ONLY.match(line)]
        if told and not goals:
            return False, f"ONLY NAMES BROKE: no clause is tried where a proof names what is gone: {told[0][:160]}"
        return True, f"refused: {goals[0][:160] if goals else 'not proved'}"
    if status == 0:
        return False, "NOT REFUSED: it is still proved with this edit"
    return False, "BAD EDIT: it did not reach the prover: " + " / ".join(lines[:4])[:400]


def stands_in(edit, placed):
    """Whether the error stands in the edited function."""
    return placed[1] in edit.texts and int(placed[2]) in edit.lines


def apart(edits, lines):
    """The edits that spoil a check for the others: the prover knows no such function, or can't read their lines."""
    found = []
    for edit in edits:
        errors = (ERROR.match(line) for line in lines if unread(line, edit))
        if any(f"has no function `{edit.function}`" in line for line in lines) or any(stands_in(edit, error) for error in errors):
            found.append(edit)
    return found
