"""The chapters of a service that ended: a thread of this package takes them from the library, and calls `on_chapter`.
No code of Python runs inside a call of the library for it, so no interrupt is lost, and no chapter by one."""

from __future__ import annotations

import atexit
import contextlib
import ctypes
import threading
import time
import weakref
from collections import deque
from typing import TYPE_CHECKING, Any, Callable, Deque, List, Optional

from . import _declared
from ._files import copied
from ._held import Held
from ._library import library
from ._told import LONG, is_rung

if TYPE_CHECKING:
    import asyncio

# For how long the thread rests where there was no memory, in seconds.
_RESTS = 0.01


class OnChapter:
    """What is called with file and report of each chapter that ends, and how it went. Only the service has it, and the
    thread while it has a chapter: so the service goes where it is what is called that has it."""

    def __init__(self, call: Callable[[str, str], object]) -> None:
        self.call = call
        # Why it did not keep the chapter that it was told last.
        self.failed: Optional[BaseException] = None
        # What stopped it, as a SystemExit: to be raised by a call of the service.
        self.stops: List[BaseException] = []


def _set(future: asyncio.Future[None]) -> None:
    if not future.done():
        future.set_result(None)


def _wake_in_its_loop(future: asyncio.Future[None]) -> None:
    try:
        future.get_loop().call_soon_threadsafe(_set, future)
    except RuntimeError:
        # It was closed, and nobody awaits it.
        pass


def _popped(line: Deque[Any], work: Callable[[Any], None]) -> None:
    """Works on the first in the line, if another thread has not."""
    try:
        first = line.popleft()
    except IndexError:
        return
    work(first)


class Keeper:
    """The thread that takes the chapters, and who waits for it."""

    def __init__(self, held: Held, on_chapter: OnChapter) -> None:
        self._held = held
        self._on_chapter: Callable[[], Optional[OnChapter]] = weakref.ref(on_chapter)
        self._chapter = _declared.EndedChapter()
        # Who waits for a change, in a thread and in an event loop.
        self._bells: Deque[threading.Lock] = deque()
        self._awaited: Deque[asyncio.Future[None]] = deque()
        # How often it has said how it went with a chapter, as the library counts it too, and how often one was kept.
        self.said = 0
        self._kept = 0
        # As many as the service was closed; and how many closings are over.
        self._closings: List[None] = []
        self._over = 0
        # Its thread.
        self.ident: Optional[int] = None
        _all.add(self)
        held.begin(self._work)

    # ---- In its thread ----

    def _work(self) -> None:
        self.ident = threading.get_ident()
        while True:
            closings = len(self._closings)
            code = library.stm_told_chapter(self._held.at, ctypes.byref(self._chapter), LONG)
            if code == _declared.DONE:
                self._tell()
            elif code == _declared.CLOSED:
                if not self._is_closed_again(closings):
                    return
            else:
                time.sleep(_RESTS)

    def _is_closed_again(self, closings: int) -> bool:
        """Waits, once no chapter is left, until the service is closed once more: whether it was, or it is gone."""
        self._over = closings
        self._wake()
        self._wait_for(lambda: len(self._closings) > closings or self._held.is_dropped, None)
        return not self._held.is_dropped

    def _tell(self) -> None:
        on_chapter = self._on_chapter()
        if on_chapter is None:
            # The service goes just then, and who lets it go says what is to be called.
            self._wait_for(lambda: self._held.is_dropped, None)
            on_chapter = self._on_chapter()
        error = _failure(on_chapter, self._chapter)
        if on_chapter is not None:
            on_chapter.failed = error
            if error is not None and (not isinstance(error, Exception) or isinstance(error, MemoryError)):
                on_chapter.stops.append(error)
        if error is None:
            library.stm_chapter_kept(self._held.at, ctypes.byref(self._chapter))
        else:
            library.stm_chapter_not_kept(self._held.at, ctypes.byref(self._chapter))
        self._kept += error is None
        self.said += 1
        self._wake()

    # ---- Who waits: first that is written down, and then looked whether there is something to wait for ----

    def _wake(self) -> None:
        """Something has changed."""
        while self._bells:
            _popped(self._bells, lambda bell: bell.release())
        while self._awaited:
            _popped(self._awaited, _wake_in_its_loop)

    def _wait_for(self, holds: Callable[[], bool], until: Optional[float]) -> bool:
        """Waits until it holds, at most until then: whether it does. An interrupt ends it wherever it comes, which the
        wait of a condition of `threading` does not bear."""
        bell = threading.Lock()
        bell.acquire()
        while True:
            self._bells.append(bell)
            if holds():
                return True
            if not is_rung(bell, until):
                with contextlib.suppress(ValueError):
                    self._bells.remove(bell)
                return False

    # ---- In the threads of those who call ----

    def wait(self, said: int, until: Optional[float]) -> bool:
        """Waits until it has said more than so often how it went, or the service is closed: False, the time was up."""
        return self._wait_for(lambda: self.said > said or bool(self._closings), until)

    async def has_said(self, said: int) -> None:
        """As `wait`, in an event loop."""
        import asyncio

        future: asyncio.Future[None] = asyncio.get_running_loop().create_future()
        self._awaited.append(future)
        if self.said <= said and not self._closings:
            await future

    def close(self) -> None:
        """The service was closed: waits until each chapter was told, and what was not kept once more."""
        if self._held.is_of_another_process():
            return
        self._closings.append(None)
        closing = len(self._closings)
        self._wake()
        if threading.get_ident() != self.ident:
            self._wait_for(lambda: self._over >= closing, None)

    def drop(self, on_chapter: OnChapter) -> None:
        """The service is gone: what ended and was not kept is told still."""
        if self.is_behind():
            self._on_chapter = lambda: on_chapter

    def has_dropped(self) -> None:
        self._wake()

    def is_behind(self) -> bool:
        """Whether a chapter ended that was not kept."""
        ended = self._held.ask(library.stm_service_chapter)
        return ended is not None and ended > self._kept

    def finish(self) -> None:
        """Waits until no chapter is left that it was not told."""
        while not self._held.is_free() and self.is_behind():
            on_chapter = self._on_chapter()
            if on_chapter is not None and on_chapter.failed is not None:
                return
            del on_chapter
            said = self.said
            self._wait_for(lambda: self.said != said, time.monotonic() + 0.1)


def _failure(on_chapter: Optional[OnChapter], chapter: _declared.EndedChapter) -> Optional[BaseException]:
    """Why the chapter was not kept."""
    try:
        pair = []
        for call in (library.stm_ended_file, library.stm_ended_report):
            code, text = copied(call, ctypes.byref(chapter))
            if code != _declared.DONE:
                raise MemoryError
            pair.append(text)
        if on_chapter is not None:
            on_chapter.call(*pair)
    except BaseException as error:
        # Who has the error does not have this frame of it.
        trace = error.__traceback__
        return error.with_traceback(None if trace is None else trace.tb_next)
    return None


# Of each service that has one. A program that ends waits for them.
_all: weakref.WeakSet[Keeper] = weakref.WeakSet()


@atexit.register
def _finish() -> None:
    for keeper in list(_all):
        if not keeper._held.is_of_another_process():
            keeper.finish()
