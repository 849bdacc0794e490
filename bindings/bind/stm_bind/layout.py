"""Lines of a module: comments and lists that are broken where they are too long."""

from __future__ import annotations

import textwrap
from typing import List, Sequence


def commented(mark: str, text: str, width: int) -> List[str]:
    """The text as a comment, each line of which begins with the mark."""
    room = width - len(mark) - 1
    return [f"{mark} {line}" for line in textwrap.wrap(text, room, break_long_words=False, break_on_hyphens=False)]


def block(begin: str, text: str, width: int) -> List[str]:
    """The text as a comment of C."""
    lines = textwrap.wrap(text, width - len(begin) - 3, break_long_words=False, break_on_hyphens=False)
    first, rest = f"{begin}/* {lines[0]}", [f"{begin} * {line}" for line in lines[1:]]
    whole = [first, *rest]
    return [*whole[:-1], whole[-1] + " */"]


def aligned(head: str, items: Sequence[str], tail: str, width: int) -> List[str]:
    """`head(items)tail`, as C is written: what is too long goes on below the first item."""
    lines, line = [], head
    begin = " " * len(head)
    for place, item in enumerate(items):
        piece = item + (tail if place == len(items) - 1 else ",")
        if line not in (head, begin) and len(line) + 1 + len(piece) > width:
            lines.append(line)
            line = begin
        line += piece if line in (head, begin) else " " + piece
    return [*lines, line if items else line + tail]


def one_a_line(head: str, items: Sequence[str], tail: str, width: int) -> List[str]:
    """As Rust is written: what is too long has each item in a line of its own."""
    whole = f"{head}{', '.join(items)}{tail}"
    if len(whole) <= width:
        return [whole]
    begin = head[: len(head) - len(head.lstrip())]
    return [head, *(f"{begin}    {item}," for item in items), f"{begin}{tail}"]


def pieces(text: str, length: int) -> List[str]:
    """The text in pieces of at most so many bytes, which end with a line where they can."""
    found, at = [], 0
    while at < len(text):
        end = min(at + length, len(text))
        if end < len(text):
            end = text.rfind("\n", at, end) + 1 or end
        found.append(text[at:end])
        at = end
    return found or [""]
