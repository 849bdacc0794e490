"""The reference page of the C API (docs/C_API.md), made from headers: a part of tools/write-pages.

A header is cut into sections by comments that begin with `---- TITLE ----`; what such a comment says more is the
section's own. A declaration has the comment that stands before it. One with no comment of its own has that of the
declaration before it, for a comment may speak of several calls.
"""

import re

TITLE = re.compile(r"---- (.+?) ----\s*")
COMMENT = re.compile(r"/\*.*?\*/", re.S)
CODE = re.compile(r"(?<![`\w])STM_[A-Z]\w*")
CODES = re.compile(r"STM_[A-Z]\w*(?: \.\. STM_[A-Z]\w*)?")
NAMED = re.compile(r"`(stm_\w+)`")
# A call that does what another one does, but for what is said then.
AS = re.compile(r"(?:^|\. )As `(stm_\w+)`")


class Section:
    def __init__(self, title):
        self.title = title
        self.notes = []
        # Each declaration's name, text and comment.
        self.entries = []


def is_whole(text):
    """Whether a comment or a declaration, which begins here, ends here too."""
    if text.startswith("/*"):
        return text.endswith("*/")
    bare = COMMENT.sub("", text)
    return "/*" not in bare and bare.count("{") == bare.count("}") and bare.endswith(";")


def parts(header):
    """The comments and declarations of a header, each with whether a blank line stands before it."""
    inside = header.partition('extern "C" {\n#endif\n')[2].partition("#ifdef __cplusplus")[0]
    taken, is_apart = "", True
    for line in inside.splitlines():
        taken = f"{taken}\n{line}" if taken else line
        if taken and is_whole(taken):
            yield taken, is_apart
            taken, is_apart = "", False
        elif not taken:
            is_apart = True


def said(comment):
    """The paragraphs of a comment, without its marks. An item of a list begins with its number."""
    lines = [re.sub(r"^ ?\*? ?", "", line) for line in comment[2:-2].strip().splitlines()]
    told = "\n".join(line.strip() for line in lines)
    told = re.sub(r"\n(?=\d+\. )", "\n\n", told)
    return [re.sub(r"\s+", " ", part).strip() for part in re.split(r"\n\n+", told) if part.strip()]


def name_of(declaration):
    """The name that a declaration declares; nothing of a struct whose fields nobody sees."""
    bare = COMMENT.sub("", declaration)
    if re.fullmatch(r"typedef struct (\w+) \1;", bare):
        return None
    return re.search(r"^enum (\w+)|^typedef struct (\w+)|(\w+)\(", bare)[0].split()[-1].rstrip("(")


def sections(header):
    found, comment, is_new = [], [], False
    for text, is_apart in parts(header):
        if text.startswith("/*"):
            if is_new and comment:
                found[-1].notes += comment
            comment, is_new = said(text), True
            if comment and (title := TITLE.match(comment[0])):
                found.append(Section(title[1]))
                found[-1].notes = [rest for rest in (comment[0][title.end() :], *comment[1:]) if rest]
                comment, is_new = [], False
        elif name := name_of(text):
            if is_new and is_apart:
                found[-1].notes += comment
                comment = []
            found[-1].entries.append((name, text, comment))
            is_new = False
    return found


def linked(text, names, own=None):
    """The text, in which codes are set as code, and each name of another entry leads to it."""
    text = CODE.sub(lambda code: f"`{code[0]}`", text)
    return NAMED.sub(lambda name: f"[{name[0]}](#{name[1]})" if name[1] in names and name[1] != own else name[0], text)


def codes(declaration, names, words):
    """A table of the codes of an enum, each with its number, its word and the comment before it."""
    lines, comment = ["| Code | Number | Word | What it says |", "|---|---|---|---|"], ""
    for part in re.findall(r"/\*.*?\*/|STM_\w+ = -?\d+", declaration, re.S):
        if part.startswith("/*"):
            comment = " ".join(said(part))
        else:
            code, number = part.split(" = ")
            lines.append(f"| `{code}` | {number} | {words.get(code, '')} | {linked(comment, names)} |")
    return lines


def codes_of(comment, names):
    """Which codes a comment names, and of which other calls it has those."""
    said_here = ", ".join(linked(code, names) for code in dict.fromkeys(CODES.findall(comment)))
    others = [f"those of [`{name}`](#{name})" for name in AS.findall(comment) if name in names]
    return "; ".join(part for part in (said_here, *others) if part)


def entry(name, declaration, comment, names, words):
    paragraphs = [f"{linked(part, names, name)}\n" for part in comment]
    if name == "stm_code":
        return [f"### {name}", "", *paragraphs, *codes(declaration, names, words), ""]
    told = codes_of(" ".join(comment), names)
    if told and "{" not in declaration:
        paragraphs += [f"Codes: {told}.", ""]
    return [f"### {name}", "", "```c", *declaration.splitlines(), "```", "", *paragraphs]


def page(headers, words):
    """What the page says of the headers, a name and a text each; the words of the codes are a text in C."""
    words = dict(re.findall(r'case (STM_\w+): return "([^"]*)"', words))
    found = [(name, sections(text), said(COMMENT.search(text)[0])) for name, text in headers]
    names = {one for _, its, _ in found for section in its for one, _, _ in section.entries}
    lines = []
    for name, its, _ in found:
        lines += [f"**`{name}`**", ""]
        for section in its:
            listed = ", ".join(f"[`{one}`](#{one})" for one, _, _ in section.entries)
            lines.append(f"- {section.title}: {listed}")
        lines.append("")
    for name, its, head in found:
        lines += [f"## {name}", "", *(f"{linked(part, names)}\n" for part in head)]
        for section in its:
            lines += [f"## {section.title}", "", *(f"{linked(part, names)}\n" for part in section.notes)]
            for one, declaration, comment in section.entries:
                lines += entry(one, declaration, comment, names, words)
    return "\n".join(lines)
