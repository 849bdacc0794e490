"""Interrupts and signals: each comes out where Python raises it, ends a wait of the main thread, and loses nothing."""

import glob
import os
import signal
import sys
import threading
import time
import unittest

import stm
from helping import LONG, TEXT, are_whole, in_thread, interrupt, program, until_parked


class Stop(Exception):
    """What a handler of the host's may raise."""


class Interrupts(unittest.TestCase):
    def setUp(self):
        handler = signal.signal(signal.SIGINT, signal.default_int_handler)
        self.addCleanup(signal.signal, signal.SIGINT, handler)

    def test_no_code_of_python_is_called_by_the_library(self):
        for path in glob.glob(os.path.join(os.path.dirname(stm.__file__), "*.py")):
            with open(path) as file:
                text = file.read()
            for word in ("FUNCTYPE", "py_object", "PyDLL"):
                self.assertNotIn(word, text, path)

    def test_one_ends_a_wait_at_once(self):
        for name in ("get", "long_get"):
            for more in ({"timeout": 5}, {}):
                with stm.Service(TEXT) as service:
                    # Where nothing comes of the interrupt the wait has an end all the same.
                    ends, begun = threading.Timer(5, service.close), []
                    ends.start()
                    interrupts = in_thread(lambda: (until_parked(service), begun.append(time.monotonic()), interrupt()))
                    self.assertRaises(KeyboardInterrupt, service.atomically, name, **more)
                    self.assertLess(time.monotonic() - begun[0], 1)
                    interrupts.join(LONG)
                    ends.cancel()
                    # The call was given up: what it waited for comes, and nothing is entered of it.
                    self.assertEqual((service.atomically("put"), service.value("out"), service.entered), (1, 1, 1))
                    self.assertIn("\nmemory ", service.report())

    def test_one_ends_a_wait_for_the_keeper(self):
        """Which is at the chapter before, and the next chapter is full too."""
        pairs, goes_on = [], threading.Event()

        def keep(*pair):
            goes_on.wait(LONG)
            pairs.append(pair)

        service = stm.Service(TEXT, room=1, on_chapter=keep)
        self.assertEqual([service.atomically("inc") for _ in range(2)], [1, 2])
        calls = (
            lambda: service.atomically("inc"),
            lambda: service.atomically("inc", timeout=LONG),
            lambda: service.try_atomically("inc"),
            service.close,
        )
        for call in calls:
            begins = threading.Event()
            interrupts = in_thread(lambda: begins.wait(LONG) and interrupt(0.05))
            with self.assertRaises(KeyboardInterrupt):
                begins.set()
                call()
            interrupts.join(LONG)
        self.assertEqual((len(pairs), service.entered), (0, 2))
        goes_on.set()
        are_whole(self, service, pairs)

    def test_a_handler_that_raises_nothing_ends_no_wait(self):
        seen = []
        with stm.Service(TEXT) as service:

            def handler(_number, _frame):
                # It may wait too.
                self.assertRaises(stm.TimedOut, service.atomically, "get", timeout=0.12)
                seen.append(time.monotonic())

            signal.signal(signal.SIGINT, handler)

            def other():
                until_parked(service)
                interrupt()
                time.sleep(0.5)
                seen.append(time.monotonic())
                service.atomically("put")

            thread = in_thread(other)
            self.assertEqual(service.atomically("get", timeout=LONG), 0)
            thread.join(LONG)
            self.assertEqual((len(seen), seen), (2, sorted(seen)))
            self.assertEqual(service.entered, 2)


@unittest.skipUnless(hasattr(signal, "setitimer"), "there are no timers")
class EachMillisecond(unittest.TestCase):
    """Interrupts, each millisecond, of a thread that calls and whose chapters are kept."""

    def setUp(self):
        self.is_armed, self.handled, self.caught, self.lost = False, 0, 0, []
        handler = signal.signal(signal.SIGALRM, self.handles)
        self.addCleanup(signal.signal, signal.SIGALRM, handler)
        hook, sys.unraisablehook = sys.unraisablehook, self.lost.append
        self.addCleanup(setattr, sys, "unraisablehook", hook)

    def handles(self, _number, _frame):
        if self.is_armed:
            self.is_armed = False
            self.handled += 1
            raise Stop

    def works(self, work):
        """Each interrupt comes out of the work."""
        try:
            self.is_armed = True
            for _ in range(50):
                work()
            self.is_armed = False
        except Stop:
            self.caught += 1

    def interrupted(self, work, seconds):
        late = time.monotonic() + seconds
        signal.setitimer(signal.ITIMER_REAL, 0.001, 0.001)
        try:
            while time.monotonic() < late:
                try:
                    self.works(work)
                except Stop:
                    # Between two lines of `works`.
                    self.caught += 1
        finally:
            self.is_armed = False
            signal.setitimer(signal.ITIMER_REAL, 0, 0)
        self.assertGreater(self.handled, seconds * 100)
        self.assertEqual((self.caught, self.lost), (self.handled, []))

    def test_no_chapter_is_lost_and_no_interrupt(self):
        for others in (0, 2):
            pairs, is_over = [], threading.Event()
            service = stm.Service(TEXT, room=20, on_chapter=lambda *pair: pairs.append(pair))

            def calls():
                while not is_over.is_set():
                    service.atomically("inc")

            threads = [in_thread(calls) for _ in range(others)]
            # A fault, as NoRoom, comes out of this too.
            self.interrupted(lambda: service.atomically("inc"), 2)
            is_over.set()
            for thread in threads:
                thread.join(LONG)
            self.assertGreater(len(pairs), 20)
            are_whole(self, service, pairs)
            self.handled = self.caught = 0

    def test_no_call_that_waits_is_left_behind(self):
        """What waits and is interrupted is given up: so what is put later stays there."""
        with stm.Service(TEXT) as service:
            is_over = threading.Event()

            def puts():
                while not is_over.is_set():
                    service.atomically("put")
                    time.sleep(0.0005)

            thread = in_thread(puts)
            self.interrupted(lambda: service.atomically("get"), 1)
            is_over.set()
            thread.join(LONG)
            self.assertNotIn("\nparked ", service.report())
            self.assertEqual(service.value("out"), service.atomically("put") - 1)


class Signals(unittest.TestCase):
    def test_one_that_ends_the_program_ends_it(self):
        """SIGTERM, whose handler ends the program as `sys.exit` does, while the main thread waits: for a commit, with a
        time or without, or for the keeper."""
        waits = 'service.atomically("get")', 'service.atomically("get", timeout=60)'
        for call in (*waits, "fills()", "service.close()"):
            ran = program(f"""if True:
                import signal, sys, threading, stm
                from helping import TEXT
                signal.signal(signal.SIGTERM, lambda _number, _frame: sys.exit(3))
                goes_on = threading.Event()
                service = stm.Service(TEXT, room=2, on_chapter=lambda *_pair: goes_on.wait(60))
                for _ in range(3): service.atomically("inc")
                def fills():
                    while True: service.atomically("inc")
                try:
                    print("begun", flush=True)
                    {call}
                finally: goes_on.set()""")
            self.assertEqual(ran.stdout.readline(), "begun\n")
            time.sleep(0.1)
            begun = time.monotonic()
            ran.terminate()
            self.assertEqual((*ran.communicate(timeout=LONG), ran.returncode), ("", "", 3), call)
            self.assertLess(time.monotonic() - begun, 5)


if __name__ == "__main__":
    unittest.main()
