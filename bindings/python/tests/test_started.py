"""Calls that are awaited."""

import asyncio
import gc
import threading
import unittest
import weakref

import stm
from helping import until

TEXT = """(stm 3) (var box 0) (var d 0) (always low (le box 1000000))
    (tx put (k) (set box (add box k)) box)
    (tx get (k) (if (lt box k) (retry) (set box (sub box k))) k)
    (tx fail (k) (throw k) 0)
    (tx long (k) (seq (repeat 10 (repeat 100 (set d (add d 1)))) (if (lt box k) (retry) (set box (sub box k)))) k)
    (tx wait (k) (if (eq box 0) (retry) (skip)) k)"""


class Awaited(unittest.IsolatedAsyncioTestCase):
    def setUp(self):
        self.service = stm.Service(TEXT)

    def tearDown(self):
        self.service.close()

    async def test_each_way_to_end(self):
        service = self.service
        self.assertEqual(await service.call("put", [5]), 5)
        self.assertEqual(await service.call("get", [2]), 2)
        self.assertEqual(await service.call("long", [3]), 3)
        with self.assertRaises(stm.Thrown) as raised:
            await service.call("fail", [7])
        thrown = raised.exception
        self.assertEqual((thrown.value, thrown.ticket, thrown.chapter, thrown.entry, thrown.place), (7, 3, 0, 4, 3))
        with self.assertRaises(stm.Broken):
            await service.call("put", [1000001])
        for arguments, fault in (([], stm.WrongArguments), ([1, 2], stm.WrongArguments), ([2**63], ValueError)):
            with self.assertRaises(fault):
                await service.call("put", arguments)
        with self.assertRaises(stm.Unknown):
            await service.call("none")
        self.assertEqual(service.entered, 5)

    async def test_one_waits_and_others_go_on(self):
        waits = asyncio.ensure_future(self.service.call("get", [5]))
        await asyncio.sleep(0.01)
        self.assertFalse(waits.done())
        self.assertEqual(await self.service.call("put", [3]), 3)
        self.assertEqual(await self.service.call("put", [3]), 6)
        self.assertEqual(await waits, 5)
        self.assertEqual((self.service.value("box"), self.service.entered), (1, 3))

    async def test_another_thread_wakes_it(self):
        waits = asyncio.ensure_future(self.service.call("long", [5]))
        await asyncio.sleep(0.01)
        thread = threading.Thread(target=self.service.atomically, args=("put", [5]))
        thread.start()
        self.assertEqual(await asyncio.wait_for(waits, 60), 5)
        thread.join()

    async def test_to_cancel_is_to_give_up(self):
        for name in ("get", "long"):
            waits = asyncio.ensure_future(self.service.call(name, [5]))
            await asyncio.sleep(0.01)
            waits.cancel()
            with self.assertRaises(asyncio.CancelledError):
                await waits
            with self.assertRaises(asyncio.TimeoutError):
                await asyncio.wait_for(self.service.call(name, [5]), 0.01)
        self.assertEqual(await self.service.call("put", [5]), 5)
        await asyncio.sleep(0.01)
        self.assertEqual((self.service.value("box"), self.service.entered), (5, 1))
        teller = self.service._teller
        kept = [room for found in self.service._found.values() for room in found.rooms]
        self.assertEqual(len(teller._rooms), len(kept))

    async def test_closed_while_some_wait(self):
        calls = [asyncio.ensure_future(self.service.call("get", [1])) for _ in range(10)]
        await asyncio.sleep(0.01)
        self.service.close()
        for call in calls:
            with self.assertRaises(stm.Closed) as raised:
                await call
            self.assertEqual((raised.exception.ticket, raised.exception.entry), (-1, 0))
        with self.assertRaises(stm.Closed):
            await self.service.call("put", [1])


class Ends(unittest.TestCase):
    def test_many_wait_in_one_thread(self):
        count = 60000

        async def waits(service):
            calls = [asyncio.ensure_future(service.call("wait", [i])) for i in range(count)]
            await asyncio.sleep(0)
            self.assertEqual(await service.call("put", [1]), 1)
            self.assertEqual(await asyncio.gather(*calls), list(range(count)))
            return service._held._threads

        with stm.Service(TEXT) as service:
            self.assertEqual(asyncio.run(waits(service)), 1)
            self.assertEqual(service.entered, count + 1)

    def test_several_loops(self):
        total = []

        async def hands_on(service):
            await asyncio.gather(*(service.call("put" if i % 2 else "get", [1]) for i in range(200)))
            total.append(1)

        with stm.Service(TEXT) as service:
            threads = [threading.Thread(target=asyncio.run, args=(hands_on(service),)) for _ in range(4)]
            for thread in threads:
                thread.start()
            for thread in threads:
                thread.join()
            self.assertEqual((len(total), service.value("box"), service.entered), (4, 0, 800))

    def test_a_loop_that_is_closed(self):
        async def leaves(service):
            asyncio.ensure_future(service.call("get", [1]))
            await asyncio.sleep(0.01)

        with stm.Service(TEXT) as service:
            asyncio.run(leaves(service))
            self.assertEqual(service.atomically("put", [1]), 1)
            self.assertEqual((service.value("box"), asyncio.run(service.call("get", [1]))), (1, 1))

    def test_chapters_end_meanwhile(self):
        pairs = []

        async def calls(service):
            waits = asyncio.ensure_future(service.call("get", [100]))
            for _ in range(100):
                await service.call("put", [1])
            return await waits

        with stm.Service(TEXT, room=20, on_chapter=lambda *pair: pairs.append(pair)) as service:
            self.assertEqual(asyncio.run(calls(service)), 100)
        pairs.append((service.file(), service.report()))
        self.assertTrue(all(stm.check(*pair) == stm.Verdict.GOOD for pair in pairs))
        self.assertEqual(sum(report.count("\nentry ") for _, report in pairs), 101)

    def test_it_goes_with_its_owner(self):
        async def waits(service):
            call = asyncio.ensure_future(service.call("get", [1]))
            await asyncio.sleep(0.01)
            await service.call("put", [1])
            return await call

        for closes in (False, True):
            service = stm.Service(TEXT)
            self.assertEqual(asyncio.run(waits(service)), 1)
            if closes:
                service.close()
            gone, held = weakref.ref(service), service._held
            del service
            gc.collect()
            self.assertIsNone(gone())
            until(held.is_free)


if __name__ == "__main__":
    unittest.main()
