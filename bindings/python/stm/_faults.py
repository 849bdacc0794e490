"""Why a call answered nothing, as exceptions."""

from __future__ import annotations

from typing import Any, Optional, Tuple

from ._library import word


class Error(Exception):
    """Anything that this package raises."""


class Refused(Error, ValueError):
    """The file, the schedule, or a number is refused: the library's code, and its word. Of a file, `line` and `column`
    tell where its first fault stands; they count from 1, columns in bytes. The text is the line that `stm explain`
    prints. Of anything else both are None, and the text is the word."""

    def __init__(
        self, code: int, text: Optional[str] = None, line: Optional[int] = None, column: Optional[int] = None
    ) -> None:
        super().__init__(word(code) if text is None else text)
        self.code = code
        self.word = word(code)
        self.line = line
        self.column = column

    def __reduce__(self) -> Tuple[Any, ...]:
        # As what it was made of it goes from process to process.
        return Refused, (self.code, str(self), self.line, self.column)


class MoreStates(Error):
    """More states are reached than were asked for; `found` says so, as `stm explore` prints it."""

    def __init__(self, found: str) -> None:
        super().__init__("more states are reached")
        self.found = found


class NoEnd(Error, LookupError):
    """There is no end of that number."""


class Fault(Error):
    """A call on a service that returned nothing. `entry` is the number of its entry in its chapter, `chapter` the
    number of that, from 0 on, `ticket` the number of its task, which no other call has, and `place` the place of the
    entry in the history of all that became of calls, from 0 on. Where `entry` is 0 the call was not entered: it had no
    effect, and never will; then `chapter` and `place` are 0 and `ticket` is -1."""

    def __init__(self, *told: object, ticket: int = -1, chapter: int = 0, entry: int = 0, place: int = 0) -> None:
        super().__init__(*told)
        self.ticket = ticket
        self.chapter = chapter
        self.entry = entry
        self.place = place


class Thrown(Fault):
    """The transaction threw `value`."""

    def __init__(self, value: int, *, ticket: int = -1, chapter: int = 0, entry: int = 0, place: int = 0) -> None:
        super().__init__(value, ticket=ticket, chapter=chapter, entry=entry, place=place)
        self.value = value


class Overflow(Fault, OverflowError):
    """A result is outside 64 bits."""


class DivideByZero(Fault, ZeroDivisionError):
    """A division by 0."""


class Outside(Fault, IndexError):
    """A cell outside its table."""


class Broken(Fault):
    """It would have broken the standing condition whose name is `condition`."""

    def __init__(self, condition: str, *, ticket: int = -1, chapter: int = 0, entry: int = 0, place: int = 0) -> None:
        super().__init__(condition, ticket=ticket, chapter=chapter, entry=entry, place=place)
        self.condition = condition


class Retries(Fault):
    """The transaction retries on the present values."""


class TimedOut(Fault, TimeoutError):
    """The transaction still waited when its time was up."""


class Closed(Fault):
    """The service was closed."""


class NoRoom(Fault):
    """All room is taken by calls that wait; or `on_chapter` failed and the next chapter is full too, and this is raised
    from its error."""


class OutOfMemory(Fault, MemoryError):
    """A growth was refused."""


class Unknown(Fault, KeyError):
    """There is no transaction, table, variable or cell of this name."""


class WrongArguments(Fault, TypeError):
    """The transaction has another number of parameters than it was given arguments."""
