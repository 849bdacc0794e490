"""Chapters: `on_chapter` is called by a thread of the package, with each chapter until it has kept that."""

import asyncio
import gc
import os
import re
import sys
import threading
import time
import unittest
import warnings
import weakref

import stm
from helping import LONG, TEXT, are_whole, in_thread, program, until


class Slow:
    """What keeps chapters once it may."""

    def __init__(self):
        self.pairs, self.is_asked, self.goes_on = [], threading.Event(), threading.Event()

    def keep(self, *pair):
        self.is_asked.set()
        assert self.goes_on.wait(LONG)
        self.pairs.append(pair)


def is_behind(keeper):
    """A service of room for 1 whose keeper is at the first chapter, while the next one is full too."""
    service = stm.Service(TEXT, room=1, on_chapter=keeper.keep)
    assert [service.atomically("inc"), service.atomically("inc")] == [1, 2]
    assert keeper.is_asked.wait(LONG) and service.chapter == 1
    return service


class Kept(unittest.TestCase):
    def test_each_is_told_once_and_in_order(self):
        pairs = []
        service = stm.Service(TEXT, room=20, on_chapter=lambda *pair: pairs.append(pair))
        threads = [in_thread(lambda: [service.atomically("inc") for _ in range(500)]) for _ in range(4)]
        for _ in range(500):
            service.atomically("inc")
        for thread in threads:
            thread.join(LONG)
        service.close()
        self.assertEqual((len(pairs), service.entered), (service.chapter, 2500))
        begins = [int(re.search(r"\(var n (\d+)\)", file)[1]) for file, _ in pairs]
        self.assertEqual(begins, sorted(set(begins)))
        are_whole(self, service, pairs)

    def test_it_is_called_by_a_thread_of_its_own(self):
        threads = set()
        with stm.Service(TEXT, room=1, on_chapter=lambda *_pair: threads.add(threading.get_ident())) as service:
            for _ in range(5):
                service.atomically("inc")
        self.assertEqual(len(threads), 1)
        self.assertNotIn(threading.get_ident(), threads)

    def test_others_go_on_while_it_takes_long(self):
        """And are answered, also those that wait for one another."""
        slow, answers = Slow(), []
        service = stm.Service(TEXT, room=5, on_chapter=slow.keep)
        waits = in_thread(lambda: answers.append(service.atomically("get")))
        until(lambda: "\nparked " in service.report())
        for _ in range(4):
            service.atomically("inc")
        self.assertEqual(service.atomically("inc"), 5)
        self.assertTrue(slow.is_asked.wait(LONG))
        self.assertEqual((service.atomically("put"), service.chapter), (1, 1))
        waits.join(LONG)
        self.assertEqual((answers, len(slow.pairs)), ([0], 0))
        slow.goes_on.set()
        are_whole(self, service, slow.pairs)

    def test_calls_wait_where_the_next_one_is_full_too(self):
        slow, answers = Slow(), []
        service = is_behind(slow)
        threads = [in_thread(lambda: answers.append(service.atomically("inc"))) for _ in range(2)]
        for name in ("inc", "long"):
            self.assertRaises(stm.TimedOut, service.atomically, name, timeout=0.01)
            self.assertRaises(stm.TimedOut, service.atomically, name, timeout=0)
        self.assertEqual((service.entered, answers), (2, []))
        slow.goes_on.set()
        self.assertGreater(service.try_atomically("inc"), 2)
        for thread in threads:
            thread.join(LONG)
        self.assertEqual((len(answers), service.value("n")), (2, 5))
        are_whole(self, service, slow.pairs)

    def test_an_event_loop_goes_on_meanwhile(self):
        slow = Slow()
        service = is_behind(slow)

        async def calls():
            waits = asyncio.ensure_future(service.call("inc"))
            with self.assertRaises(asyncio.TimeoutError):
                await asyncio.wait_for(service.call("inc"), 0.01)
            self.assertFalse(waits.done())
            slow.goes_on.set()
            self.assertEqual(await asyncio.wait_for(waits, LONG), 3)

        asyncio.run(calls())
        service.close()
        are_whole(self, service, slow.pairs)

    def test_it_may_call(self):
        pairs, faults = [], []

        def keep(*pair):
            pairs.append(pair)
            if len(pairs) == 1:
                self.assertEqual(service.atomically("inc"), 3)
                for call in (service.atomically, service.try_atomically, lambda name: asyncio.run(service.call(name))):
                    try:
                        call("inc")
                    except stm.NoRoom as fault:
                        faults.append(fault.__cause__)
                faults.append((service.value("n"), service.chapter, service.observe("inc")))

        service = stm.Service(TEXT, room=2, on_chapter=keep)
        self.assertEqual([service.atomically("inc") for _ in range(2)], [1, 2])
        self.assertEqual(service.try_atomically("put"), 1)
        until(lambda: len(faults) == 4)
        self.assertEqual(faults, [None, None, None, (3, 1, 4)])
        self.assertEqual(service.atomically("inc"), 4)
        service.close()
        are_whole(self, service, pairs)

    def test_it_may_close(self):
        pairs = []

        def keep(*pair):
            service.close()
            pairs.append(pair)

        service = stm.Service(TEXT, room=1, on_chapter=keep)
        service.atomically("inc")
        service.atomically("inc")
        until(lambda: pairs)
        self.assertRaises(stm.Closed, service.atomically, "inc")
        service.close()
        are_whole(self, service, pairs)


class NotKept(unittest.TestCase):
    def failing(self, times, error=OSError, calls=6):
        """A service of room for 3, whose keeper fails so often; and how many entries it was told."""
        told = []

        def keep(_file, report):
            told.append(report.count("\nentry "))
            if len(told) <= times:
                raise error("no disk")

        service = stm.Service(TEXT, room=3, on_chapter=keep)
        # The next chapter has room for three of them.
        self.assertEqual([service.atomically("inc") for _ in range(calls)], list(range(1, calls + 1)))
        until(lambda: service._keeper.said == 1)
        self.assertEqual((told, service.chapter), ([3], 1))
        return service, told

    def test_it_is_told_again_where_the_room_is_needed(self):
        def in_another_thread(service):
            faults = []

            def calls():
                try:
                    service.atomically("inc")
                except stm.NoRoom as fault:
                    faults.append(fault)

            in_thread(calls).join(LONG)
            raise faults[0]

        calls = [
            lambda service: service.atomically("inc"),
            lambda service: service.atomically("inc", timeout=LONG),
            lambda service: service.try_atomically("inc"),
            lambda service: asyncio.run(service.call("inc")),
            in_another_thread,
        ]
        service, told = self.failing(len(calls) + 1)
        for times, call in enumerate(calls, 2):
            with self.assertRaises(stm.NoRoom) as raised:
                call(service)
            cause, fault = raised.exception.__cause__, raised.exception
            self.assertEqual((str(cause), fault.ticket, fault.entry), ("no disk", -1, 0))
            self.assertEqual((len(told), service.chapter), (times, 1))
        self.assertEqual((service.atomically("inc"), service.chapter), (7, 2))
        service.close()
        self.assertEqual(told, [3] * (len(calls) + 2) + [3])

    def test_nobody_is_told_it_all_the_time(self):
        service, told = self.failing(1)
        time.sleep(0.1)
        self.assertEqual(told, [3])
        self.assertEqual((service.atomically("inc"), service.chapter), (7, 2))
        service.close()

    def test_close_tells_it_once_more(self):
        service, told = self.failing(3)
        for times in (2, 3, 4, 4):
            service.close()
            self.assertEqual(told, [3] * times)
        self.assertEqual(service.chapter, 1)

    def test_what_stops_it_is_raised_once(self):
        for kind in (KeyboardInterrupt, SystemExit, MemoryError):
            for call in (
                lambda service: service.atomically("inc"),
                lambda service: service.try_atomically("inc"),
                lambda service: service.observe("inc"),
                lambda service: asyncio.run(service.call("inc")),
            ):
                service, told = self.failing(1, kind, 4)
                with self.assertRaises(kind) as raised:
                    call(service)
                self.assertEqual((raised.exception.args, service.entered), (("no disk",), 4))
                self.assertEqual([service.atomically("inc") for _ in range(3)], [5, 6, 7])
                service.close()
                self.assertEqual(told, [3, 3, 3])
            service, told = self.failing(3, kind, 4)
            # One is of before it was closed.
            for _ in range(3):
                self.assertRaises(kind, service.close)
            service.close()
            self.assertEqual(told, [3] * 4)

    def test_its_answer_does_not_matter(self):
        with stm.Service(TEXT, room=1, on_chapter=lambda *_pair: False) as service:
            self.assertEqual([service.atomically("inc") for _ in range(4)], [1, 2, 3, 4])


class Ends(unittest.TestCase):
    def test_a_keeper_may_have_its_service(self):
        told = []

        class Owner:
            def __init__(self):
                self.service = stm.Service(TEXT, room=1, on_chapter=self.keep)

            def keep(self, _file, _report):
                told.append(1)

        left, held = [], []
        for closes in (False, True) * 5:
            owner = Owner()
            for _ in range(3):
                owner.service.atomically("inc")
            if closes:
                owner.service.close()
            left += [weakref.ref(owner), weakref.ref(owner.service)]
            held.append(owner.service._held)
        del owner
        # Two chapters each, also where it went before they were told.
        until(lambda: gc.collect() >= 0 and all(one.is_free() for one in held) and len(told) == 20)
        gc.collect()
        self.assertEqual([one() for one in left], [None] * 20)

    def test_a_keeper_that_is_slow_and_has_its_service(self):
        """It has the service again when all else has let it go, and may ask it."""
        slow, seen = Slow(), []

        class Owner:
            def __init__(self):
                self.service = stm.Service(TEXT, room=1, on_chapter=self.keep)

            def keep(self, *pair):
                slow.keep(*pair)
                seen.append((self.service.value("n"), self.service.chapter))

        owner = Owner()
        held = owner.service._held
        self.assertEqual([owner.service.atomically("inc") for _ in range(2)], [1, 2])
        del owner
        gc.collect()
        slow.goes_on.set()
        until(lambda: gc.collect() >= 0 and held.is_free())
        self.assertEqual((seen, len(slow.pairs)), ([(2, 1)], 1))

    def test_what_it_has_goes_also_where_it_fails(self):
        class Owner:
            def __init__(self):
                self.service = stm.Service(TEXT, room=1, on_chapter=self.keep)

            def keep(self, _file, _report):
                raise OSError

        owner = Owner()
        self.assertEqual([owner.service.atomically("inc") for _ in range(2)], [1, 2])
        gone, held = weakref.ref(owner), owner.service._held
        del owner
        until(lambda: gc.collect() >= 0 and held.is_free())
        gc.collect()
        self.assertIsNone(gone())

    def test_a_program_that_ends_keeps_its_chapters(self):
        """Whether it closes its service or not, and also where it ends by an error."""
        for end in ("", "sys.exit(0)", "del service", "service.close()"):
            ran = program(f"""if True:
                import sys, time, stm
                from helping import TEXT
                def keep(_file, report):
                    time.sleep(0.05)
                    print(report.count("\\nentry "), flush=True)
                service = stm.Service(TEXT, room=2, on_chapter=keep)
                for _ in range(9): service.atomically("inc")
                {end}""")
            self.assertEqual((*ran.communicate(timeout=LONG), ran.returncode), ("2\n" * 4, "", 0), end)

    def test_a_program_that_ends_by_a_signal(self):
        """SIGTERM, by a handler that ends the program as `sys.exit` does: each chapter that ended is kept."""
        for _ in range(8):
            ran = program("""if True:
                import signal, sys, stm
                from helping import TEXT
                signal.signal(signal.SIGTERM, lambda _number, _frame: sys.exit(3))
                kept, entries = [], lambda report: report.count("\\nentry ")
                service = stm.Service(TEXT, room=20, on_chapter=lambda _file, report: kept.append(entries(report)))
                try:
                    print("begun", flush=True)
                    while True: service.atomically("inc")
                finally:
                    chapter, entered = service.chapter, service.entered
                    service.close()
                    print(len(kept) == chapter and sum(kept) + entries(service.report()) == entered, flush=True)""")
            self.assertEqual(ran.stdout.readline(), "begun\n")
            time.sleep(0.05)
            ran.terminate()
            self.assertEqual((*ran.communicate(timeout=LONG), ran.returncode), ("True\n", "", 3))


class Children(unittest.TestCase):
    """Of `os.fork`, while threads of the parent are in calls, and in the keeper."""

    def children(self, work, status):
        for _ in range(10):
            child = os.fork()
            if child == 0:
                try:
                    work()
                except SystemExit as end:
                    os._exit(end.code)
                os._exit(9)
            late, ended = time.monotonic() + LONG, (0, 0)
            while ended[0] == 0 and time.monotonic() < late:
                time.sleep(0.001)
                ended = os.waitpid(child, os.WNOHANG)
            self.assertEqual(ended, (child, status << 8))

    @unittest.skipUnless(hasattr(os, "fork"), "there is no fork")
    def test_a_child_closes_nothing_and_lets_nothing_go(self):
        slow, is_over = Slow(), threading.Event()
        box = [is_behind(slow)]

        def calls():
            while not is_over.is_set():
                try:
                    box[0].atomically("inc", timeout=0.001)
                except stm.TimedOut:
                    pass

        def work():
            with box[0]:
                pass
            box.clear()
            gc.collect()
            kept = []
            with stm.Service(TEXT, room=1, on_chapter=lambda *pair: kept.append(pair)) as own:
                own.atomically("inc")
                self.assertRaises(stm.TimedOut, own.atomically, "get", timeout=0.001)
                asyncio.run(own.call("inc"))
            del own
            gc.collect()
            sys.exit(7 if len(kept) >= 1 else 8)

        threads = [in_thread(calls) for _ in range(2)]
        with warnings.catch_warnings():
            # Later Pythons warn of forks where there are threads.
            warnings.simplefilter("ignore", DeprecationWarning)
            self.children(work, 7)
        is_over.set()
        slow.goes_on.set()
        for thread in threads:
            thread.join(LONG)
        box[0].close()
        are_whole(self, box[0], slow.pairs)

    @unittest.skipUnless(hasattr(os, "fork"), "there is no fork")
    def test_a_child_that_ends_as_programs_do(self):
        ran = program("""if True:
            import os, sys, threading, stm
            from helping import TEXT
            kept = []
            with stm.Service(TEXT, room=5, on_chapter=lambda *pair: kept.append(pair)) as service:
                is_over = threading.Event()
                def busy():
                    while not is_over.is_set(): service.atomically("inc")
                threads = [threading.Thread(target=busy) for _ in range(3)]
                for thread in threads: thread.start()
                for _ in range(20):
                    child = os.fork()
                    if child == 0: sys.exit(5)
                    assert os.waitpid(child, 0)[1] == 5 << 8
                is_over.set()
                for thread in threads: thread.join()
            print(len(kept) == service.chapter)""")
        self.assertEqual((*ran.communicate(timeout=LONG), ran.returncode), ("True\n", "", 0))


if __name__ == "__main__":
    unittest.main()
