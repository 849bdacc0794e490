"""What a module is made from."""

from __future__ import annotations

from typing import List, NamedTuple, Tuple


class Transaction(NamedTuple):
    name: str
    number: int
    parameters: List[str]


class Program(NamedTuple):
    """A file, and what it declares; the place of each is its number."""

    # The file's name, and the command that makes the module, as comments of every language can have them.
    file: str
    command: str
    # What the module is called.
    name: str
    text: str
    variables: List[str]
    # Each with how many cells it has.
    tables: List[Tuple[str, int]]
    conditions: List[str]
    transactions: List[Transaction]

    def declared(self) -> List[str]:
        """The names of all that has a function of its own: transactions, tables and variables."""
        return [one.name for one in self.transactions] + [name for name, _cells in self.tables] + self.variables
