"""Calls that no thread waits for in the library but one of this package, until some of them have ended: it tells those
who wait for them here, which are event loops, and threads that an interrupt must reach."""

from __future__ import annotations

import ctypes
import itertools
import os
import threading
import time
from typing import TYPE_CHECKING, Any, Dict, List, Optional, Union

from . import _declared
from ._declared import Answer
from ._held import Held
from ._library import library

if TYPE_CHECKING:
    import asyncio

# How many calls are taken at once, and for how many nanoseconds they are waited for.
_ROOM = 1000
LONG = 2**62
# How many rooms are kept for calls to come; and how many other calls are told in one.
_KEPT = 1000
_OTHERS = 4
# A signal that comes just before a thread sleeps does not wake it: so the thread looks again after so many seconds.
_SLICE = 0.05


class _Main:
    """The thread in which signals are handled: it must not wait in the library, where none reaches it."""

    def __init__(self) -> None:
        self.ident = threading.main_thread().ident

    def begin_child(self) -> None:
        self.ident = threading.get_ident()


main = _Main()
if hasattr(os, "register_at_fork"):
    os.register_at_fork(after_in_child=main.begin_child)


def is_rung(bell: threading.Lock, until: Optional[float]) -> bool:
    """Waits until the bell is released, at most until then, by the monotonic clock: whether it was. What a signal's
    handler raises meanwhile comes out."""
    while True:
        left = _SLICE if until is None else min(_SLICE, max(0.0, until - time.monotonic()))
        if bell.acquire(True, left):
            return True
        if until is not None and time.monotonic() >= until:
            return False


class Room:
    """Where a call lies: what is asked for, what is answered at once, and what it is told. The library knows it by its
    number, which is no other room's."""

    __slots__ = ("number", "request", "at", "given", "answer", "told", "rooms")

    def __init__(self, number: int, rooms: List[Any]) -> None:
        self.number = number
        # Where it is kept for another call.
        self.rooms = rooms
        self.request = request = _declared.Request(own=number)
        address = ctypes.addressof(request)
        self.at = ctypes.c_void_p(address)
        self.given = ctypes.c_void_p(address + _declared.Request.arguments.offset)
        self.answer: Answer = request.answer
        self.told: Optional[Answer] = None


class RoomOfThread(Room):
    """Of a call that a thread waits for."""

    __slots__ = ("bell",)

    def __init__(self, number: int, rooms: List[Any]) -> None:
        super().__init__(number, rooms)
        # It is released when the call is told.
        self.bell = threading.Lock()
        self.bell.acquire()


class RoomOfLoop(Room):
    """Of a call that is awaited in an event loop. Others are told in it."""

    __slots__ = ("others", "future")

    def __init__(self, number: int, rooms: List[Any]) -> None:
        super().__init__(number, rooms)
        self.others = (_declared.CallTold * _OTHERS)()
        self.request.told, self.request.told_room = self.others, _OTHERS
        self.future: Optional[asyncio.Future[None]] = None


def _set(futures: List[asyncio.Future[None]]) -> None:
    """In their event loop: those that were cancelled meanwhile are told nothing."""
    for future in futures:
        if not future.done():
            future.set_result(None)


class Teller:
    """What a service has for its calls that are told."""

    def __init__(self, held: Held) -> None:
        self._held = held
        self._numbers = itertools.count(1)
        # Each room in which a call may lie: who leaves a call for good takes its room out.
        self._rooms: Dict[int, Union[RoomOfThread, RoomOfLoop]] = {}
        self._of_threads: List[RoomOfThread] = []
        self._is_begun = False

    def room_of_thread(self) -> RoomOfThread:
        """A room, which is this call's alone until it is given back."""
        try:
            return self._of_threads.pop()
        except IndexError:
            room = RoomOfThread(next(self._numbers), self._of_threads)
            self._rooms[room.number] = room
            return room

    def room_of_loop(self, transaction: int, parameters: int, rooms: List[RoomOfLoop]) -> RoomOfLoop:
        """A new room for calls of the transaction, of which some are kept there."""
        room = RoomOfLoop(next(self._numbers), rooms)
        room.request.transaction, room.request.count = transaction, parameters
        self._rooms[room.number] = room
        return room

    def give_back(self, room: Union[RoomOfThread, RoomOfLoop]) -> None:
        """The call is over, and nothing more will be told of it."""
        room.told = None
        if len(room.rooms) < _KEPT:
            room.rooms.append(room)
        else:
            self._rooms.pop(room.number, None)

    def leave(self, room: Union[RoomOfThread, RoomOfLoop]) -> None:
        """What waited for the call was stopped: it is given up, if it has not ended, and nobody is told of it."""
        self._is_given_up(room)
        self._rooms.pop(room.number, None)
        if isinstance(room, RoomOfLoop):
            self.tell_others(room)

    def _is_given_up(self, room: Room) -> bool:
        ticket = room.answer.ticket
        return ticket >= 0 and library.stm_cancel(self._held.at, ticket) == _declared.DONE

    def wait(self, room: RoomOfThread, until: Optional[float]) -> Optional[Answer]:
        """What became of the call that lies there; None where the time was up, and it was given up. A signal's handler
        is called meanwhile, and what it raises comes out."""
        self.be_begun()
        if not is_rung(room.bell, until):
            if self._is_given_up(room):
                self._rooms.pop(room.number, None)
                return None
            is_rung(room.bell, None)
        return room.told

    async def told(self, room: RoomOfLoop) -> Optional[Answer]:
        """As `wait`, in an event loop."""
        import asyncio

        self.be_begun()
        future: asyncio.Future[None] = asyncio.get_running_loop().create_future()
        room.future = future
        # The teller first writes what it tells, and then looks whom to wake.
        if room.told is None:
            await future
        room.future = None
        return room.told

    def be_begun(self) -> None:
        """The thread is begun. Where an interrupt comes just then there may be two."""
        if not self._is_begun:
            self._held.begin(self._tell)
            self._is_begun = True

    def _tell(self) -> None:
        room = (_declared.CallTold * _ROOM)()
        while True:
            count = library.stm_told(self._held.at, room, _ROOM, LONG)
            if count < 0:
                return
            self._hand_on(room[:count])

    def tell_others(self, room: RoomOfLoop) -> None:
        """Tells those that were told in a room, by the thread that has asked there."""
        count = room.request.told_count
        if count > 0:
            import asyncio

            self._hand_on(room.others[:count], asyncio._get_running_loop())
            room.request.told_count = 0

    def _hand_on(self, all_told: List[_declared.CallTold], here: Optional[asyncio.AbstractEventLoop] = None) -> None:
        by_loop: Dict[asyncio.AbstractEventLoop, List[asyncio.Future[None]]] = {}
        for told in all_told:
            room = self._rooms.get(told.own)
            if room is None:
                continue
            room.told = Answer.from_buffer_copy(told.answer)
            if isinstance(room, RoomOfThread):
                room.bell.release()
            elif room.future is not None:
                by_loop.setdefault(room.future.get_loop(), []).append(room.future)
        for loop, futures in by_loop.items():
            if loop is here:
                _set(futures)
                continue
            try:
                loop.call_soon_threadsafe(_set, futures)
            except RuntimeError:
                # It was closed, and nobody awaits them.
                pass
