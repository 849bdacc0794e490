"""Calls from any thread."""

from __future__ import annotations

import ctypes
import struct
import sys
import time
import weakref
from threading import get_ident
from types import TracebackType
from typing import Any, Callable, Dict, List, NamedTuple, Optional, Sequence, Type, Union

from . import _declared
from ._faults import (
    Broken,
    Closed,
    DivideByZero,
    Fault,
    NoRoom,
    OutOfMemory,
    Outside,
    Overflow,
    Retries,
    Thrown,
    TimedOut,
    Unknown,
    WrongArguments,
)
from ._files import bounded, copied, refused, signed, taken
from ._declared import Answer
from ._each import PORTION, Answers, Given, RoomOfEach, Rows
from ._held import Held
from ._keeper import Keeper, OnChapter
from ._library import library, word
from ._names import Declared, condition_name, declared_by, table_names
from ._table import Table
from ._told import RoomOfLoop, RoomOfThread, Teller, main

_SAME = {
    _declared.OVERFLOW: Overflow,
    _declared.DIVIDE_BY_ZERO: DivideByZero,
    _declared.OUTSIDE: Outside,
    _declared.RETRIES: Retries,
    _declared.TIMED_OUT: TimedOut,
    _declared.CLOSED: Closed,
    _declared.NO_ROOM: NoRoom,
    _declared.MEMORY: OutOfMemory,
    _declared.GIVEN_UP: OutOfMemory,
}

# Longer than any process lives, in seconds: what is more is this.
_LONGEST = 1e9
_ask = library.stm_ask
# Packs the begin of a request; and where its arguments are packed.
_begin = struct.Struct(_declared.BEGIN).pack_into
_ARGUMENTS = _declared.Request.arguments.offset


class Counts(NamedTuple):
    """Counts of a service, all of one moment.

    `entered`: the entries in all chapters. `chapter`: its number, from 0 on. `waiting`: the calls that wait for what
    others commit, or whose long transaction is evaluated. `woken`: how often one that waited was entered. `stale`: how
    often what a long transaction had read was changed meanwhile, so that it was evaluated once more. `room`: how many
    tasks more the chapter has room for."""

    entered: int
    chapter: int
    waiting: int
    woken: int
    stale: int
    room: int


class _Transaction(NamedTuple):
    name: str
    number: int
    parameters: int
    # Packs the arguments of a request for it.
    pack: Callable[..., None]
    # Where calls of it lie that are awaited.
    rooms: List[RoomOfLoop]

    def wrong(self, arguments: Sequence[int]) -> Exception:
        """Why they could not be packed."""
        if len(arguments) != self.parameters:
            return WrongArguments(f"arguments of {self.name}: {self.parameters} wanted, {len(arguments)} given")
        try:
            # One of them is no such number, and `signed` says which.
            (ctypes.c_int64 * self.parameters)(*map(signed, arguments))
        except Exception as why:
            return why
        return TypeError(f"arguments of {self.name}: numbers wanted")


class Service:
    """A store with its lock and its waiting threads: any thread may make any call at any time.

        with stm.Service("(var n 0) (tx inc (set n (add n 1)) n)") as counter:
            counter.atomically("inc")  # 1

    A call gives its transaction a number of 64 signed bits for each of its parameters: `atomically("pay", [3, 5, 20])`;
    with more or fewer, `WrongArguments`. A call that waits lets other threads go on. Where the main thread waits for
    others' commits, or for `on_chapter`, what a signal's handler raises, as Ctrl-C does, comes at once, and the call is
    given up, if it has not been entered just then. A handler that raises nothing ends no wait. What a file says stays
    in memory until the process ends.

    `room`: how many tasks a chapter has room for beside those of the file; 0: as many as there can be. `checkpoint`: a
    journal of so many entries is followed by a checkpoint; 0: never. `observers`: how many workers there are, at most
    32; 0: 4 where a transaction is long, else none; a thread takes one while it observes or evaluates a long
    transaction beside what others commit, and where none is left does so under the lock. `on_chapter` is called with
    file and report of each chapter that ends, one after another, by a thread of this package, and with no lock held:
    others go on in the next chapter, and wait for it only where that is full too. It may make calls; one that would have
    to wait for it raises `NoRoom`. Where it raises, it is told the chapter again: when the next chapter is full, by each
    call that finds it so, which raises `NoRoom` from its error; and by `close`, once each time. What is no `Exception`, as a
    `SystemExit`, and a `MemoryError` is raised itself too, by the next call of any thread before that does anything, or
    by `close`. The last chapter does not end: ask for its file and report once the service is closed. A program that
    ends waits until each chapter that ended was told once.

    Raises `Refused` where the file is refused, or there can't be so much room or so many observers; `OutOfMemory`;
    `ValueError` where a number is below 0 or too large.

    In a child that `os.fork` has made, a service of the parent is not called; to close it or to leave its `with` does
    nothing there.
    """

    # Of one that could not be opened, and without `on_chapter`.
    _held: Optional[Held] = None
    _keeper: Optional[Keeper] = None
    _stops: List[BaseException] = []

    def __init__(
        self,
        text: str,
        *,
        room: int = 0,
        checkpoint: int = 0,
        observers: int = 0,
        on_chapter: Optional[Callable[[str, str], object]] = None,
    ) -> None:
        self._found: Dict[str, _Transaction] = {}
        self._on_chapter = None if on_chapter is None else OnChapter(on_chapter)
        keeps = None if on_chapter is None else ctypes.cast(library.stm_takes_chapters, ctypes.c_void_p)
        options = _declared.Options(bounded(room, 64), bounded(checkpoint, 32), bounded(observers, 32), keeps, None)
        self._at = ctypes.c_void_p()
        code = library.stm_service_open(*taken(text), ctypes.byref(options), ctypes.byref(self._at))
        if code != _declared.DONE:
            raise refused(code, text)
        self._held = Held(self._at)
        self._teller = Teller(self._held)
        if self._on_chapter is not None:
            self._keeper = Keeper(self._held, self._on_chapter)
            self._stops = self._on_chapter.stops

    def __del__(self) -> None:
        held, keeper = self._held, self._keeper
        if held is None or sys.is_finalizing() or held.is_of_another_process():
            return
        if keeper is not None and self._on_chapter is not None:
            keeper.drop(self._on_chapter)
        held.drop(weakref.ref(self))
        if keeper is not None:
            keeper.has_dropped()

    def atomically(
        self, transaction: str, arguments: Sequence[int] = (), *, timeout: Optional[float] = None
    ) -> int:
        """Runs the transaction as one atomic step: what it returned; else a `Fault`. Where it retries the thread waits
        until a commit changed what it read, and it was entered; with a timeout, in seconds, at most so long, and then
        `TimedOut`, also where it waits for `on_chapter`. A timeout of 0 is a try.

        Raises, where it was entered and did not return, `Thrown`, `Overflow`, `DivideByZero`, `Broken` or `Outside`;
        where it was not entered, `Closed`, `NoRoom`, `OutOfMemory` or `TimedOut`; where there is no such call,
        `Unknown`, `WrongArguments`, or, of an argument that is no number of 64 signed bits, `ValueError` or
        `TypeError`. Also what stopped `on_chapter`."""
        found, room = self._call(transaction, arguments)
        if timeout is not None:
            # What is no number is no time.
            nanoseconds = int(min(max(timeout, 0.0), _LONGEST) * 1e9)
            if nanoseconds == 0 or not self._waits_here():
                return self._returned(library.stm_atomically_within(*self._given(found, room), nanoseconds), room)
        elif not self._waits_here():
            return self._returned(library.stm_atomically(*self._given(found, room)), room)
        return self._returned(self._asked(room, timeout), room)

    def try_atomically(self, transaction: str, arguments: Sequence[int] = ()) -> int:
        """As `atomically`, but `Retries`, and nothing entered, where the transaction retries on the present values.

        Raises `Retries`, and what `atomically` does but `TimedOut`."""
        found, room = self._call(transaction, arguments, _declared.TRIES)
        if self._keeper is not None and self._waits_here():
            return self._returned(self._asked(room, None), room)
        return self._returned(library.stm_try_atomically(*self._given(found, room)), room)

    def each(self, transaction: str, rows: Rows) -> Answers:
        """Makes a call for each row, in their order, each a step of its own, as `try_atomically` does: for who makes
        many. The rows are sequences; or lie one behind the other in an `array("q")`, or in another such buffer, also
        of two dimensions: where it is in one piece it is not copied. Where a row is wrong no call is made. Where a call
        does not return, those behind it are made all the same; but from the first one on for which there is no room, or
        that finds the service closed, they are answered so too. An interrupt comes between two calls: what was entered
        stays so, and the answers are lost. Raises `Unknown`, and `WrongArguments` where a row is wrong."""
        if self._stops:
            self._stop()
        found = self._found.get(transaction) or self._transaction(transaction)
        given = Given(found.name, found.parameters, rows, found.wrong)
        room, answers = RoomOfEach(min(given.calls, PORTION)), Answers(self._fault)
        for begin in range(0, given.calls, PORTION):
            count = min(PORTION, given.calls - begin)
            made = self._made(found, given, begin, room, count)
            answers._add(room, made)
            if made < count or answers.codes[-1] == _declared.NO_ROOM:
                answers._end(given.calls - len(answers), self._failed())
                break
        return answers

    def _made(self, found: _Transaction, given: Given, begin: int, room: RoomOfEach, count: int) -> int:
        """Makes a portion of calls: how many are answered. For the others there is no room."""
        made, keeper, call = 0, self._keeper, library.stm_ask_each
        while True:
            made += call(
                self._at, found.number, given.at(begin + made), found.parameters, count - made, room.at(made)
            )
            if made == count or keeper is None:
                return made
            answer = room.answer(made)
            if keeper.ident != get_ident():
                keeper.wait(answer.value, None)
            if not self._goes_on(keeper, answer):
                return made

    async def call(self, transaction: str, arguments: Sequence[int] = ()) -> int:
        """As `atomically`, awaited under asyncio: no thread waits for it, and any number of them may wait in one. To
        cancel it is to give it up, so `asyncio.wait_for` limits its time; what was entered before stays entered.

        Raises what `atomically` does but `TimedOut`."""
        if self._stops:
            self._stop()
        found = self._found.get(transaction) or self._transaction(transaction)
        rooms = found.rooms
        try:
            room = rooms.pop()
        except IndexError:
            room = self._teller.room_of_loop(found.number, found.parameters, rooms)
        try:
            found.pack(room.request, _ARGUMENTS, *arguments)
            code = _ask(self._at, room.at)
            if room.request.told_count:
                # What it has woken: this thread tells that, and so no other one is woken for it.
                self._teller.tell_others(room)
            answer = await self._answer(room, code) if code else room.answer
        except BaseException as why:
            self._teller.leave(room)
            if isinstance(why, struct.error):
                raise found.wrong(arguments) from None
            raise
        if code:
            return self._returned(answer, room)
        value: int = answer.value
        rooms.append(room)
        return value

    async def _answer(self, room: RoomOfLoop, code: int) -> Answer:
        """What became of a call that has not returned at once."""
        keeper = self._keeper
        while code == _declared.NOT_ENDED and keeper is not None:
            if keeper.ident != get_ident():
                await keeper.has_said(room.answer.value)
            if not self._goes_on(keeper, room.answer):
                break
            code = _ask(self._at, room.at)
            self._teller.tell_others(room)
        return await self._teller.told(room) if code == _declared.RUNNING else room.answer

    def observe(self, transaction: str, arguments: Sequence[int] = ()) -> int:
        """What the transaction would return on one state; nothing is entered.

        Raises, where it would not return, `Thrown`, `Overflow`, `DivideByZero`, `Broken`, `Outside` or `Retries`; else
        `Closed` or `OutOfMemory`; and where there is no such call, as `atomically` does."""
        found, room = self._call(transaction, arguments)
        return self._returned(library.stm_service_observe(*self._given(found, room)), room)

    def parameters(self, transaction: str) -> int:
        """How many parameters a transaction has, at most 8. Raises `Unknown`."""
        return self._transaction(transaction).parameters

    def value(self, name: str) -> int:
        """The present value of a variable, or of a cell, as "acct[5]". Raises `Unknown`."""
        return self._present(name)[0]

    def version(self, name: str) -> int:
        """The number of the last entry of the chapter that changed a variable or cell, 0 where none did. Raises
        `Unknown`."""
        return self._present(name)[1]

    @property
    def tables(self) -> List[str]:
        """The names of the tables, as declared."""
        return table_names(self._program())

    @property
    def declared(self) -> Declared:
        """What the program declares: `bank.declared.transactions["pay"]` are the names of its parameters."""
        return declared_by(self._program())

    def table(self, name: str) -> Table:
        """The cells of a table, as a list that is only read: `bank.table("acct")[5]`. Raises `Unknown`."""
        number = int(library.stm_service_table(self._at, *taken(name)))
        if number < 0:
            raise Unknown(name)
        return Table(self._asks, name, number)

    @property
    def chapter(self) -> int:
        """The number of the chapter, from 0 on."""
        return self._asks(library.stm_service_chapter)

    @property
    def entered(self) -> int:
        """How many entries there were in all chapters."""
        return self._asks(library.stm_service_entered)

    @property
    def counts(self) -> Counts:
        """How many entries, calls that wait and tasks with room there are, all of one moment."""
        told = _declared.Counts()
        self._asks(library.stm_service_get_counts, ctypes.byref(told))
        return Counts(told.entered, told.chapter, told.waiting, told.woken, told.stale, told.room)

    def report(self) -> str:
        """The report of the present chapter. Raises `OutOfMemory`."""
        return self._copied(library.stm_service_report)

    def file(self) -> str:
        """The file of the present chapter as it has become. Once the service is closed, file and report are a pair that
        `check` finds good. Raises `Refused` where it has become too long; `OutOfMemory`."""
        return self._copied(library.stm_service_file)

    def close(self) -> None:
        """Every call that waits and every later one raises `Closed`. What was entered stays. It waits until
        `on_chapter` was called with each chapter that ended, and once more with one that it did not keep. Raises what
        stopped `on_chapter`."""
        library.stm_service_close(self._at)
        if self._keeper is not None:
            self._keeper.close()
        self._stop()

    def __enter__(self) -> Service:
        return self

    def __exit__(
        self,
        _kind: Optional[Type[BaseException]],
        _error: Optional[BaseException],
        _trace: Optional[TracebackType],
    ) -> None:
        self.close()

    def _transaction(self, name: str) -> _Transaction:
        found = self._found.get(name)
        if found is None:
            number = int(library.stm_service_transaction(self._at, *taken(name)))
            if number < 0:
                raise Unknown(name)
            parameters = int(library.stm_service_parameters(self._at, number))
            found = _Transaction(name, number, parameters, struct.Struct(f"{parameters}q").pack_into, [])
            self._found[name] = found
        return found

    def _call(
        self, name: str, arguments: Sequence[int], way: int = _declared.WAITS
    ) -> tuple[_Transaction, RoomOfThread]:
        """The transaction, and a room in which a request for it lies."""
        if self._stops:
            self._stop()
        found = self._found.get(name) or self._transaction(name)
        room = self._teller.room_of_thread()
        try:
            _begin(room.request, 0, found.number, way, found.parameters)
            found.pack(room.request, _ARGUMENTS, *arguments)
        except struct.error:
            self._teller.give_back(room)
            raise found.wrong(arguments) from None
        return found, room

    def _stop(self) -> None:
        """Raises what has stopped `on_chapter`, once."""
        try:
            error = self._stops.pop()
        except IndexError:
            return
        raise error

    def _given(self, found: _Transaction, room: RoomOfThread) -> tuple[ctypes.c_void_p, int, ctypes.c_void_p, int]:
        """A call as the library takes it."""
        return self._at, found.number, room.given, found.parameters

    def _waits_here(self) -> bool:
        """Whether the thread must not wait in the library: signals are handled in it, or `on_chapter` is called."""
        thread, keeper = get_ident(), self._keeper
        return thread == main.ident or keeper is not None and thread == keeper.ident

    def _asked(self, room: RoomOfThread, timeout: Optional[float]) -> Answer:
        """What became of the call that lies there, which is not waited for in the library."""
        until, keeper, answer = None if timeout is None else time.monotonic() + timeout, self._keeper, None
        try:
            while answer is None:
                code = _ask(self._at, room.at)
                if code == _declared.RUNNING:
                    answer = self._teller.wait(room, until) or Answer(ticket=-1, code=_declared.TIMED_OUT)
                elif code != _declared.NOT_ENDED or keeper is None:
                    answer = room.answer
                elif keeper.ident != get_ident() and not keeper.wait(room.answer.value, until):
                    answer = Answer(ticket=-1, code=_declared.TIMED_OUT)
                elif not self._goes_on(keeper, room.answer):
                    answer = room.answer
        finally:
            if answer is None:
                self._teller.leave(room)
        return answer

    def _goes_on(self, keeper: Keeper, answer: Answer) -> bool:
        """Whether a call that found the chapter full is asked for again, when the keeper has said how it went with the
        one before; else there is no room for it, as for one that would wait for itself."""
        if keeper.ident != get_ident() and (keeper.said <= answer.value or self._failed() is None):
            return True
        answer.code = _declared.NO_ROOM
        return False

    def _failed(self) -> Optional[BaseException]:
        """Why the chapter that was told last was not kept."""
        return None if self._on_chapter is None else self._on_chapter.failed

    def _returned(self, answer: Answer, room: Union[RoomOfThread, RoomOfLoop]) -> int:
        if answer.code == _declared.DONE:
            value: int = answer.value
            self._teller.give_back(room)
            return value
        fault = self._fault(answer)
        self._teller.give_back(room)
        raise fault from (self._failed() if isinstance(fault, NoRoom) else None)

    def _program(self) -> ctypes.c_void_p:
        """The program, which is there for as long as the service."""
        return ctypes.c_void_p(library.stm_service_program(self._at))

    def _asks(self, call: Callable[..., int], *given: object) -> int:
        """What the library answers to a question."""
        return call(self._at, *given)

    def _fault(self, answer: Answer) -> Fault:
        ticket = answer.ticket if answer.entry else -1
        entered = {"ticket": ticket, "chapter": answer.chapter, "entry": answer.entry, "place": answer.place}
        if answer.code == _declared.THROWN:
            return Thrown(answer.value, **entered)
        if answer.code == _declared.BROKEN:
            return Broken(condition_name(self._program(), answer.value), **entered)
        return _SAME[answer.code](word(answer.code), **entered)

    def _present(self, name: str) -> tuple[int, int]:
        value, version = ctypes.c_int64(), ctypes.c_uint64()
        code = self._asks(library.stm_service_value, *taken(name), ctypes.byref(value), ctypes.byref(version))
        if code != _declared.DONE:
            raise Unknown(name)
        return value.value, version.value

    def _copied(self, call: Callable[..., int]) -> str:
        code, text = copied(self._asks, call)
        if code != _declared.DONE:
            raise refused(code)
        return text
