"""Man pages of single commands, made of what the program tells of itself."""

import os
import re
import subprocess
import tempfile

from sources import ROOT, Failed, version


def told(program, *words):
    """What the program says of a command; by the name `stm`, since its usage names it as it was called."""
    with tempfile.TemporaryDirectory(prefix="stm-") as work:
        named = os.path.join(work, "stm")
        os.symlink(os.path.abspath(program), named)
        ran = subprocess.run([named, *words, "--help"], capture_output=True, text=True, errors="replace")
    if ran.returncode != 0 or "Options:" not in ran.stdout:
        raise Failed(f"{program} tells nothing of {' '.join(words) or 'itself'}")
    return ran.stdout


def commands_of(text):
    """Each command that the program lists, but help."""
    return [
        name
        for name in re.findall(r"(?m)^  ([a-z]+) ", text.split("Commands:")[1].split("Options:")[0])
        if name != "help"
    ]


def plain(text):
    """Text as it stands in a page."""
    escaped = text.replace("\\", "\\e").replace("-", "\\-")
    return "\n".join("\\&" + line if line[:1] in (".", "'") else line for line in escaped.splitlines())


def entries_of(block):
    """Each argument or option of a block of the help, with what is said of it, whether beside it or below."""
    found = []
    for line in block.splitlines():
        begins = re.match(r" {2,6}([<\[-]\S.*?)(?:  +(\S.*))?$", line)
        if begins and not line.startswith(" " * 8):
            found.append((begins[1], [begins[2]] if begins[2] else []))
        elif found:
            found[-1][1].append(line[10:])
    return [(name, "\n".join(lines).strip("\n")) for name, lines in found]


def named(name):
    """An argument or option, with the words that stand for something in italics."""
    parts = re.split(r"<(\w+)>", name)
    return "".join(
        f"\\fI{part}\\fR" if at % 2 else f"\\fB{plain(part)}\\fR" if part else "" for at, part in enumerate(parts)
    )


def paragraphs(text):
    """Text in paragraphs: one with indented lines stays as it is laid out."""
    for paragraph in re.split(r"\n\s*\n", text.strip("\n")):
        if re.search(r"(?m)^ {2,}", paragraph):
            yield from (".PP", ".nf", plain(paragraph), ".fi")
        else:
            yield from (".PP", plain(" ".join(paragraph.split())))


def section(title, block):
    """A section of the page, with an entry for each argument or option."""
    lines = [f".SH {title}"]
    for name, said in entries_of(block):
        first, *more = re.split(r"\n\s*\n", said, maxsplit=1)
        lines += [".TP", named(name), plain(" ".join(first.split()))]
        lines += [line for paragraph in more for line in (".RS", *paragraphs(paragraph), ".RE")]
    return lines


def page_of(program, command):
    """The man page of the command."""
    text = told(program, command)
    about, usage, after = re.match(r"(?s)(.*?)\n\nUsage: ([^\n]*)\n\n(.*)", text).groups()
    blocks = dict(re.findall(r"(?ms)^(Arguments|Options):\n(.*?)(?=\n\n\S|\Z)", after))
    rest = after.split("Options:\n" + blocks["Options"], 1)[1]
    status = re.search(r"(?ms)^Status: (.*?)(?=\n\n|\Z)", rest)
    example = re.search(r"(?ms)^Example: (.*)\Z", rest)
    for part in (status, example):
        rest = rest.replace(part[0], "") if part else rest
    short = re.split(r"[:.]", about)[0]
    lines = [f'.TH STM\\-{command.upper()} 1 "" "stm {version()}" "User Commands"', ".SH NAME"]
    lines += [f"stm\\-{command} \\- {plain(short[0].lower() + short[1:])}", ".SH SYNOPSIS", named(usage)]
    lines += [".SH DESCRIPTION", plain(about), *paragraphs(rest)]
    for title in ("Arguments", "Options"):
        lines += section(title.upper(), blocks[title]) if title in blocks else []
    if status:
        lines += [".SH EXIT STATUS", *paragraphs(status[1])]
    if example:
        commands = [one.strip() for one in re.split(r"\n", example[1]) if one.strip()]
        lines += [".SH EXAMPLE", ".nf", *(plain(one.rstrip(";")) for one in commands), ".fi"]
    return "\n".join([*lines, ".SH SEE ALSO", ".BR stm (1)", ""])


def pages(program):
    """Each man page by the name of its file: that of the program, with the version, and one for each command."""
    with open(os.path.join(ROOT, "docs", "stm.1"), encoding="utf-8") as file:
        whole = re.sub(r'^(\.TH STM 1 "" )"stm"', rf'\g<1>"stm {version()}"', file.read())
    return {"stm.1": whole, **{f"stm-{name}.1": page_of(program, name) for name in commands_of(told(program))}}
