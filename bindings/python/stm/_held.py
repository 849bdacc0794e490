"""A service's handle, which the service has, and threads of this package that wait in the library."""

from __future__ import annotations

import _thread
import ctypes
import os
import threading
from typing import Any, Callable, List, Optional

from ._library import library


class _Gone:
    """In place of the handle of a service that was let go: no call takes it."""


class Held:
    """The handle of a service. It is let go when the service is gone and each thread has left: none of them has the
    service, for else it would never go."""

    def __init__(self, at: ctypes.c_void_p) -> None:
        self.at = at
        self.is_dropped = False
        self._process = os.getpid()
        # It may be taken where this thread has it: a service can be collected anywhere.
        self._lock = threading.RLock()
        self._threads = 0
        # Who takes it lets the handle go.
        self._key: List[ctypes.c_void_p] = [at]
        self._service: Callable[[], Any] = lambda: None

    def is_of_another_process(self) -> bool:
        """Whether this is a child of the process that has opened it: its threads are not here."""
        return self._process != os.getpid()

    def begin(self, work: Callable[[], None]) -> None:
        """Begins a thread, which works until there is nothing to wait for any more. One of `threading` is not begun in
        one step: an interrupt may come in between, and then it is not known whether it was."""
        with self._lock:
            self._threads += 1
        try:
            _thread.start_new_thread(self._works, (work,))
        except RuntimeError:
            # There can't be one more.
            self._leaves()
            raise

    def _works(self, work: Callable[[], None]) -> None:
        try:
            work()
        finally:
            self._leaves()

    def _leaves(self) -> None:
        with self._lock:
            self._threads -= 1
            is_last = self.is_dropped and self._threads == 0
        if is_last:
            self._free()

    def drop(self, service: Callable[[], Any]) -> None:
        """The service is gone, but where what it called has it again: that is the answer of `service` then. At the end
        of the process nothing is let go, for threads may be in calls still, and in a child of it neither."""
        with self._lock:
            self._service = service
            self.is_dropped = True
            is_used = self._threads > 0
        if is_used:
            library.stm_service_close(self.at)
        else:
            self._free()

    def _free(self) -> None:
        try:
            at = self._key.pop()
        except IndexError:
            return
        service: Optional[Any] = self._service()
        if service is not None:
            service._at = _Gone()
        library.stm_service_free(at)

    def ask(self, question: Callable[[ctypes.c_void_p], int]) -> Optional[int]:
        """What the library answers to a question, while the handle is there."""
        with self._lock:
            return question(self.at) if self._key else None

    def is_free(self) -> bool:
        """Whether it was let go."""
        return not self._key
