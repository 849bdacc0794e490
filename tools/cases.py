"""The cases of the folder cases/, as tools/play-cases plays them: how a file of them is read (cases/README.md tells its
form), and what comes of each row.
"""

import itertools
import os
import re
import shlex
from collections import namedtuple

# One row of a case. `files`: what lies in the folder that it is run in; `made`: the files that commands print, which run
# before; `words`: the program's; `wanted`: what each key that stands there asks for; `place`: where the case stands.
Row = namedtuple("Row", "place title files made words wanted")
# A run of lines that belong together: a key, what it names, the text on its line (None: the text stands below), the
# lines below it, and the number of its line.
Part = namedtuple("Part", "key name inline block line")

# How each key of an answer takes a text: as lines, whose last one ends with a newline, or as it stands.
LINES = ("prints", "ends", "says")
TEXTS = (*LINES, "begins", "has", "says first")
WORDS = ("status", "length", "output", "prints as", "cut")
ESCAPES = {"n": "\n", "t": "\t", "\\": "\\"}
PLACEHOLDER = re.compile(r'\{([A-Z][A-Z0-9_]*)\}|\{(\d+|\{[A-Z][A-Z0-9_]*\}) times (?:from (\d+) )?"([^"]*)"\}')


class Misspelt(Exception):
    """A line that is of no form."""


def unescaped(text):
    """The text with `\\n`, `\\t`, `\\\\` and `\\xHH` as the bytes that they stand for."""

    def one(found):
        if found[1]:
            return chr(int(found[1], 16))
        if found[0][1:] not in ESCAPES:
            raise Misspelt(f"`{found[0]}` stands for no byte")
        return ESCAPES[found[0][1:]]

    return re.sub(r"\\x([0-9a-f]{2})|\\.|\\$", one, text)


def filled(text, known):
    """The text with each placeholder in it as what it stands for."""

    def one(found):
        if found[1]:
            if found[1] not in known:
                raise Misspelt(f"nothing is named {found[1]}")
            return known[found[1]]
        count, first = int(filled(found[2], known)), int(found[3] or 0)
        piece = filled(found[4], known)
        if "{i}" not in piece and "{n}" not in piece:
            return piece * count
        numbers = range(first, first + count)
        return "".join(piece.replace("{i}", str(number)).replace("{n}", str(number + 1)) for number in numbers)

    return PLACEHOLDER.sub(one, text)


def parts_of(lines):
    """The parts of the file, in their order."""
    parts = []
    for number, line in enumerate(lines, 1):
        if line != line.rstrip():
            raise Misspelt(f"{number}: it ends with a space, which is written `\\x20`")
        if line.startswith("    "):
            if not parts or parts[-1].inline is not None:
                raise Misspelt(f"{number}: it is below no key that wants a text")
            parts[-1].block.append(line[4:])
        elif not line.strip():
            if parts and parts[-1].inline is None and parts[-1].block:
                parts[-1].block.append("")
        elif not line.startswith(";"):
            parts.append(part_of(line, number))
    for part in parts:
        while part.block and not part.block[-1]:
            part.block.pop()
        if part.inline is None and not part.block:
            raise Misspelt(f"{part.line}: no text stands below it")
    return parts


def part_of(line, number):
    """The part that begins with this line."""
    if line.startswith("case "):
        return Part("case", line[len("case ") :].strip(), "", [], number)
    if line.startswith("stm ") or line == "stm":
        return Part("stm", None, line[len("stm") :], [], number)
    head, colon, rest = line.partition(":")
    key, _, name = head.partition(" ")
    if key not in ("file", "made", "text", "each"):
        key, name = head, None
    known = name.strip() if name else key in TEXTS or key in WORDS
    if not colon or not known:
        raise Misspelt(f"{number}: `{line[:60]}` is of no form")
    return Part(key, name, rest[1:] if rest.startswith(" ") else rest or None, [], number)


def text_of(part, known):
    """The text of a part: what stands on its line, or the lines below it."""
    if part.inline is not None:
        return filled(unescaped(part.inline), known)
    return "".join(f"{filled(unescaped(line), known)}\n" for line in part.block)


def numbers_of(text):
    """`1 to 9 but 3 5`, or words that stand for themselves."""
    words, but, without = text.partition(" but ")
    found = []
    words = words.split()
    while words:
        if words[1:2] == ["to"]:
            found += [str(number) for number in range(int(words[0]), int(words[2]) + 1)]
            words = words[3:]
        else:
            found.append(words.pop(0))
    left = [word for word in found if word not in without.split()]
    if but and len(left) + len(without.split()) != len(found):
        raise Misspelt(f"`{text}` leaves out what is not there")
    return left


def rows_of(part, known):
    """What the names of an `each` stand for, row by row."""
    names = [name.strip() for name in part.name.split("|")]
    for name in names:
        if not re.fullmatch("[A-Z][A-Z0-9_]*", name):
            raise Misspelt(f"{part.line}: `{name}` is no name: names are in capitals")
    if part.inline is not None:
        if len(names) != 1:
            raise Misspelt(f"{part.line}: the rows of several names stand below them")
        return [{names[0]: number} for number in numbers_of(filled(part.inline, known))]
    found = []
    for line in part.block:
        values = [filled(unescaped(value), known) for value in line.split(" | ")]
        if len(values) != len(names):
            raise Misspelt(f"{part.line}: `{line}` has {len(values)} of {len(names)} values")
        found.append(dict(zip(names, values)))
    return found


def bytes_of(text):
    return text.encode("latin-1")


def words_of(text, known):
    """The words of a command, as a shell would part them. What a placeholder stands for stays within its word, but for
    `{NAME..}`, which stands for all words of what it names."""
    lexer, words = shlex.shlex(text, posix=True), []
    lexer.whitespace_split, lexer.commenters, lexer.escape = True, "", ""
    for word in lexer:
        if several := re.fullmatch(r"\{([A-Z][A-Z0-9_]*)\.\.\}", word):
            words += words_of(filled(f"{{{several[1]}}}", known), {})
        else:
            words.append(filled(unescaped(word), known))
    return words


def wanted_of(parts, known):
    """What each key of an answer asks for."""
    wanted = {}
    for part in parts:
        if part.key not in TEXTS and part.key not in WORDS:
            continue
        if part.key in wanted and part.key != "has":
            raise Misspelt(f"{part.line}: `{part.key}` stands twice")
        text = text_of(part, known)
        if part.key in LINES and text and not text.endswith("\n"):
            text += "\n"
        if part.key == "has":
            wanted.setdefault("has", []).append(bytes_of(text))
        elif part.key in TEXTS:
            wanted[part.key] = bytes_of(text)
        elif part.key in ("status", "length"):
            wanted[part.key] = int(text)
        elif part.key == "prints as":
            wanted[part.key] = words_of(text, known)[1:]
        elif part.key == "output" and text not in ("full", "closed"):
            raise Misspelt(f"{part.line}: an output is `full` or `closed`")
        else:
            wanted[part.key] = text
    return wanted


def made_of(part, known):
    """The words of the command that prints a file."""
    text = text_of(part, known)
    if not text.startswith("stm "):
        raise Misspelt(f"{part.line}: a file is made by a command of stm")
    return words_of(text, known)[1:]


def cut(files, told, line):
    """Cuts one of the files behind so many bytes."""
    name, _, count = told.partition(" ")
    if name not in files or int(count) > len(files[name]):
        raise Misspelt(f"{line}: `{name}` has no {count} bytes")
    files[name] = files[name][: int(count)]


def cut_short(text):
    return text if len(text) < 60 else f"{text[:56]} .."


def rows_of_case(place, head, parts, texts):
    """The rows of one case."""
    commands = [part for part in parts if part.key == "stm"]
    if len(commands) != 1:
        raise Misspelt(f"{head.line}: a case has one command")
    for values in itertools.product(*(rows_of(part, texts) for part in parts if part.key == "each")):
        known = dict(texts)
        for one in values:
            known.update(one)
        files = {part.name.strip(): bytes_of(text_of(part, known)) for part in parts if part.key == "file"}
        made = {part.name.strip(): made_of(part, known) for part in parts if part.key == "made"}
        words = words_of(commands[0].inline, known)
        wanted = wanted_of(parts, known)
        if "cut" in wanted:
            cut(files, wanted.pop("cut"), head.line)
        told = ", ".join(f"{name}={cut_short(value)}" for one in values for name, value in one.items())
        yield Row(f"{place}:{head.line}", head.name + (f" ({told})" if told else ""), files, made, words, wanted)


def read(path):
    """The rows of a file of cases, in their order."""
    with open(path, encoding="ascii") as file:
        lines = file.read().split("\n")
    place, texts, titles = os.path.relpath(path), {"NOTHING": ""}, set()
    try:
        parts, rows = parts_of(lines), []
        starts = [at for at, part in enumerate(parts) if part.key == "case"]
        for part in parts[: starts[0] if starts else None]:
            if part.key != "text":
                raise Misspelt(f"{part.line}: no case stands before it")
            texts[part.name.strip()] = text_of(part, texts)
        for start, end in zip(starts, [*starts[1:], None]):
            head = parts[start]
            if head.name in titles:
                raise Misspelt(f"{head.line}: another case says the same")
            titles.add(head.name)
            own = dict(texts)
            for part in parts[start + 1 : end]:
                if part.key == "text":
                    own[part.name.strip()] = text_of(part, own)
            rows += rows_of_case(place, head, parts[start + 1 : end], own)
    except (Misspelt, ValueError, IndexError) as fault:
        raise Misspelt(f"{place}:{fault}") from fault
    return rows
