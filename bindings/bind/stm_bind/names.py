"""Names: how what a file declares is called in a language.

A name of the file stays as it is where it is free. One that the language or the module has already gets a `_` behind
it, and one more until it is free, so no two things have one name."""

from __future__ import annotations

import re
from typing import Callable, Iterable, List, Sequence


def _never(_name: str) -> bool:
    return False


class Scope:
    """The names of one scope. `reserved` are those that nothing of the file may have; `avoids` says so of others."""

    def __init__(self, reserved: Iterable[str], avoids: Callable[[str], bool] = _never) -> None:
        self._taken = set(reserved)
        self._avoids = avoids

    def give(self, wanted: Sequence[str]) -> List[str]:
        """A name for each of those that are wanted, in their order. What can have its own has it, so what is renamed
        takes no name of another."""
        given = {place: name for place, name in enumerate(wanted) if self._take(name)}
        for place, name in enumerate(wanted):
            if place not in given:
                while not self._take(name):
                    name += "_"
                given[place] = name
        return [given[place] for place in range(len(wanted))]

    def give_one(self, wanted: str) -> str:
        return self.give([wanted])[0]

    def _take(self, name: str) -> bool:
        if name in self._taken or self._avoids(name):
            return False
        self._taken.add(name)
        return True


def is_name(text: str) -> bool:
    """Whether a file may declare it: a letter, then letters, digits and `_`."""
    return re.fullmatch(r"[A-Za-z][A-Za-z0-9_]*", text) is not None


def name_of_file(stem: str) -> str:
    """A name for the module of a file: what no name has is `_`; `file_` stands before what does not begin as one."""
    name = re.sub(r"[^A-Za-z0-9_]", "_", stem)
    return name if is_name(name) else f"file_{name}"


def camel(name: str) -> str:
    """As types are called: `two_phase` is `TwoPhase`."""
    parts = [part for part in name.split("_") if part]
    return "".join(part.capitalize() if part.isupper() else part[0].upper() + part[1:] for part in parts)


def is_of_headers(name: str) -> bool:
    """Whether it is as those that headers of C have: of capitals alone, as macros are, or with `_t` behind, as types
    are. One that ends with `_` is none."""
    return name.isupper() and not name.endswith("_") or name.endswith("_t")
