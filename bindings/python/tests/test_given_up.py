"""Calls that are given up: nothing is entered of them when what they waited for comes. And tries take no room."""

import asyncio
import gc
import threading
import unittest

import stm

# `long_get` is evaluated outside the lock, and retries at once.
TEXT = """(stm 3) (var box 0) (var d 0)
(tx put (k) (set box (add box k)) box)
(tx get (k) (if (lt box k) (retry) (set box (sub box k))) k)
(tx long_get (k) (seq (if (lt box k) (retry) (set box (sub box k))) (repeat 10 (repeat 100 (set d (add d 1))))) k)"""
NAMES = ("get", "long_get")


class GivenUp(unittest.TestCase):
    def nothing_is_entered_of_it(self, service, name):
        """What it waited for comes."""
        self.assertEqual((service.atomically("put", [5]), service.value("box"), service.entered), (5, 5, 1))
        report = service.report()
        self.assertIn(f"\nmemory 0 {name}\n", report)
        self.assertNotIn("\nparked ", report)
        self.assertTrue(stm.check(service.file(), report))

    def each(self, gives_up):
        for name in NAMES:
            with self.subTest(name), stm.Service(TEXT) as service:
                gives_up(service, name)
                self.nothing_is_entered_of_it(service, name)

    def test_one_whose_time_is_up(self):
        def here(service, name):
            with self.assertRaises(stm.TimedOut) as raised:
                service.atomically(name, [5], timeout=0.001)
            self.assertEqual((raised.exception.ticket, raised.exception.entry), (-1, 0))

        def in_another_thread(service, name):
            thread = threading.Thread(target=here, args=(service, name))
            thread.start()
            thread.join()

        self.each(here)
        self.each(in_another_thread)

    def test_one_that_is_cancelled(self):
        async def cancels(service, name):
            waits = asyncio.ensure_future(service.call(name, [5]))
            await asyncio.sleep(0)
            waits.cancel()
            with self.assertRaises(asyncio.CancelledError):
                await waits

        async def by_its_time(service, name):
            with self.assertRaises(asyncio.TimeoutError):
                await asyncio.wait_for(service.call(name, [5]), 0.001)

        self.each(lambda service, name: asyncio.run(cancels(service, name)))
        self.each(lambda service, name: asyncio.run(by_its_time(service, name)))

    def test_one_that_is_dropped(self):
        """With its loop, and by the end of the coroutine that awaits it."""

        async def begins(service, name, kept):
            kept.append(service.call(name, [5]))
            asyncio.get_running_loop().call_soon(kept[0].send, None)
            await asyncio.sleep(0.01)

        def drops(service, name):
            kept = []
            asyncio.run(begins(service, name, kept))
            kept.clear()
            gc.collect()

        self.each(drops)

    def test_tries_take_no_room(self):
        with stm.Service(TEXT, room=10) as service:
            for i in range(70_000):
                try:
                    service.try_atomically("long_get", [1]) if i % 10 else service.atomically("get", [1], timeout=0)
                except (stm.Retries, stm.TimedOut):
                    continue
                self.fail("it was entered")
            self.assertEqual((service.chapter, service.entered), (0, 0))
            self.assertEqual([service.atomically("put", [1]) for _ in range(10)], list(range(1, 11)))
            self.assertEqual(service.chapter, 0)
            self.assertEqual((service.try_atomically("long_get", [10]), service.chapter), (10, 1))


if __name__ == "__main__":
    unittest.main()
