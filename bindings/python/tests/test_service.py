"""Calls from any thread, their answers, and the chapters that they leave."""

import gc
import os
import threading
import unittest
import weakref

import stm
from helping import LONG, until, until_parked

TEXT = """(stm 2) (var n 0) (var out 0) (var most 9223372036854775807)
(always even_or_odd (le 0 n)) ; (always no (eq 0 1))
(always low (le out 2))
(tx inc (set n (add n 1)) n)
(tx put (if (le 2 out) (retry) (set out (add out 1))) out)
(tx get (if (eq out 0) (retry) (set out (sub out 1))) out)
(tx bad (throw -7) 0)
(tx big (set most (add most 1)) 0)
(tx cut (set n (div n 0)) 0)
(tx over (set out 3) 0)
(tx wait (if (lt n 10) (retry) (skip)) n)"""


def in_threads(count, work):
    """What each thread's work answered; what one of them raised is raised."""
    answers, faults = [], []

    def kept():
        try:
            answers.append(work())
        except BaseException as fault:
            faults.append(fault)

    threads = [threading.Thread(target=kept) for _ in range(count)]
    for thread in threads:
        thread.start()
    for thread in threads:
        thread.join(LONG)
        assert not thread.is_alive()
    if faults:
        raise faults[0]
    return answers


def resident():
    """How many pages of memory the process has."""
    with open("/proc/self/statm") as told:
        return int(told.read().split()[1])


def entered_at(fault):
    """What a fault tells of its call: its ticket, the chapter in which it was entered, the number of its entry, and its
    place in the history."""
    return fault.ticket, fault.chapter, fault.entry, fault.place


NOT_ENTERED = (-1, 0, 0, 0)


class Calls(unittest.TestCase):
    def entries(self, service, pairs):
        """How many entries the chapters and the present one have, each with a good report."""
        pairs = [*pairs, (service.file(), service.report())]
        self.assertEqual([stm.check(*pair) for pair in pairs], [stm.Verdict.GOOD] * len(pairs))
        return sum(report.count("\nentry ") for _, report in pairs)

    def test_each_way_to_end(self):
        with stm.Service(TEXT) as service:
            self.assertEqual(service.atomically("inc"), 1)
            for name, fault, told, also in [
                ("bad", stm.Thrown, -7, stm.Fault),
                ("big", stm.Overflow, "overflow", OverflowError),
                ("cut", stm.DivideByZero, "divide by zero", ZeroDivisionError),
                ("over", stm.Broken, "low", stm.Error),
            ]:
                with self.assertRaises(fault) as raised:
                    service.atomically(name)
                self.assertIsInstance(raised.exception, also)
                at = (service.entered - 1, 0, service.entered, service.entered - 1)
                self.assertEqual((raised.exception.args, entered_at(raised.exception)), ((told,), at))
                with self.assertRaises(fault) as raised:
                    service.observe(name)
                self.assertEqual((raised.exception.args, entered_at(raised.exception)), ((told,), NOT_ENTERED))
            self.assertEqual(service.entered, 5)
            for call, fault in [
                (lambda: service.try_atomically("get"), stm.Retries),
                (lambda: service.observe("get"), stm.Retries),
                (lambda: service.atomically("get", timeout=0.001), stm.TimedOut),
                (lambda: service.atomically("get", timeout=-1), TimeoutError),
                (lambda: service.atomically("none"), stm.Unknown),
                (lambda: service.try_atomically("none"), KeyError),
                (lambda: service.observe("none"), stm.Unknown),
                (lambda: service.value("none"), stm.Unknown),
                (lambda: service.atomically("get", timeout=float("nan")), ValueError),
            ]:
                with self.assertRaises(fault) as raised:
                    call()
                if isinstance(raised.exception, stm.Fault):
                    self.assertEqual(entered_at(raised.exception), NOT_ENTERED)
            self.assertEqual((service.entered, service.observe("inc"), service.entered), (5, 2, 5))
            self.assertEqual((service.value("n"), service.version("n"), service.version("out")), (1, 1, 0))
            self.assertEqual(service.atomically("put"), 1)
            self.assertEqual(service.atomically("get", timeout=float("inf")), 0)
        self.assertEqual(self.entries(service, []), 7)

    def test_what_a_fault_tells(self):
        with stm.Service(TEXT) as service:
            with self.assertRaises(stm.Thrown) as raised:
                service.atomically("bad")
            self.assertEqual(raised.exception.value, -7)
            with self.assertRaises(stm.Broken) as raised:
                service.atomically("over")
            self.assertEqual(raised.exception.condition, "low")

    def test_a_fault_tells_where_it_was_entered(self):
        text = """(var n 0) (tx inc (set n (add n 1)) n) (tx bad (throw n) 0)
            (tx late (if (lt n 4) (retry) (throw n)) n)"""
        with stm.Service(text, room=3) as service:
            told = []

            def waits():
                with self.assertRaises(stm.Thrown) as raised:
                    service.atomically("late", timeout=LONG)
                told.append((raised.exception.value, *entered_at(raised.exception)))

            waiting = threading.Thread(target=waits)
            waiting.start()
            until_parked(service)
            self.assertEqual(service.counts, (0, 0, 1, 0, 0, 2))
            # Two increments a chapter beside the one that waits.
            for _ in range(4):
                service.atomically("inc")
            waiting.join(LONG)
            self.assertEqual((told, service.chapter), ([(4, 0, 1, 3, 4)], 1))
            self.assertEqual(service.counts, (5, 1, 0, 1, 0, 0))
            with self.assertRaises(stm.Thrown) as raised:
                service.atomically("bad")
            self.assertEqual(entered_at(raised.exception), (5, 2, 1, 5))

    def test_threads_share_it(self):
        pairs = []
        with stm.Service(TEXT, room=500, on_chapter=lambda *pair: pairs.append(pair)) as service:
            in_threads(4, lambda: [service.atomically("inc") for _ in range(500)])
        self.assertEqual((service.entered, service.chapter), (2000, len(pairs)))
        self.assertGreaterEqual(len(pairs), 3)
        self.assertEqual(self.entries(service, pairs), 2000)

    def test_threads_wait_for_one_another(self):
        pairs, names = [], iter(["put", "get"] * 2)
        with stm.Service(TEXT, room=100, on_chapter=lambda *pair: pairs.append(pair)) as service:

            def work():
                name = next(names)
                for _ in range(300):
                    service.atomically(name)

            in_threads(4, work)
            self.assertEqual(service.value("out"), 0)
        self.assertEqual(self.entries(service, pairs), 1200)

    def test_audits_beside_the_commits(self):
        text = """(var a 50) (var b 50) (tx pay (seq (set a (sub a 1)) (set b (add b 1))) a)
            (tx audit (skip) (add a b))"""
        with stm.Service(text, observers=1) as service:
            names = iter(["pay", "audit", "audit"])

            def work():
                name = next(names)
                call = service.atomically if name == "pay" else service.observe
                return {call(name) for _ in range(500)}

            answers = in_threads(3, work)
            self.assertEqual(sorted(map(len, answers)), [1, 1, 500])
            self.assertEqual(answers.count({100}), 2)

    def test_a_call_waits_across_chapters(self):
        with stm.Service(TEXT, room=4) as service:
            answers = []
            waits = threading.Thread(target=lambda: answers.append(service.atomically("wait", timeout=LONG)))
            waits.start()
            until_parked(service)
            for _ in range(10):
                service.atomically("inc")
            waits.join(LONG)
            self.assertEqual(answers, [10])
            self.assertGreaterEqual(service.chapter, 2)

    def test_close_ends_all_that_waits(self):
        service = stm.Service(TEXT)
        service.atomically("inc")

        def work():
            with self.assertRaises(stm.Closed):
                service.atomically("get")

        closing = threading.Thread(target=lambda: (until_parked(service), service.close()))
        closing.start()
        in_threads(3, work)
        closing.join(LONG)
        for call in (service.atomically, service.try_atomically, service.observe):
            self.assertRaises(stm.Closed, call, "inc")
        service.close()
        self.assertEqual((service.value("n"), service.entered), (1, 1))

    def test_all_room_is_taken_by_calls_that_wait(self):
        with stm.Service(TEXT, room=1) as service:

            def waits():
                with self.assertRaises(stm.Closed):
                    service.atomically("get")

            waiting = threading.Thread(target=waits)
            waiting.start()
            until_parked(service)
            with self.assertRaises(stm.NoRoom) as raised:
                service.atomically("inc")
            self.assertIsNone(raised.exception.__cause__)
            service.close()
            waiting.join(LONG)

    def test_files_that_are_refused(self):
        for text, word in [
            ("(var x", "file: shape"),
            ("(var x 1) (var x 2)", "file: name"),
            ("(var x\t1)", "file: bad byte"),
            ("(var é 1)", "file: bad byte"),
            ("(stm 2) (var x 1) (always no (eq x 2))", "file: broken condition"),
        ]:
            with self.assertRaises(stm.Refused) as raised:
                stm.Service(text)
            told = raised.exception
            self.assertEqual((told.word, told.line, str(told)), (word, 1, str(stm.explain(text))))
        for more in ({"room": 70_000}, {"observers": 33}, {"room": -1}, {"checkpoint": -1}, {"observers": 1 << 32}):
            self.assertRaises(ValueError, stm.Service, TEXT, **more)
        stm.Service("").close()

    def test_the_names_of_conditions(self):
        text = "(stm 3) (var x 0) (always a (le 0 x)) ; (always b\n( always\n c (le 0 x)) (tx t (always d) (skip) always)"
        with stm.Service(text) as service:
            self.assertEqual(service.declared.conditions, ["a", "c"])
            self.assertEqual(service.declared.transactions, {"t": ["always", "d"]})

    def test_the_tasks_of_the_file_have_their_turns_first(self):
        with stm.Service(TEXT + " (run inc 3) (run wait 1)") as service:
            self.assertEqual((service.value("n"), service.atomically("inc")), (3, 4))

    @unittest.skipUnless(os.path.exists("/proc/self/statm"), "the system does not say how much memory there is")
    def test_its_memory_goes_with_it(self):
        def grown(times):
            before = resident()
            for _ in range(times):
                stm.Service("(var n 0) (tx inc (set n (add n 1)) n)").atomically("inc")
            return resident() - before

        grown(5)
        # A service takes more than 20 pages, and what its file says less than one.
        self.assertLess(grown(200), 1000)

    def test_what_the_keeper_has_goes_with_the_service(self):
        class Kept(list):
            pass

        kept = Kept()
        seen = weakref.ref(kept)
        service = stm.Service(TEXT, room=1, on_chapter=lambda *pair, own=kept: own.append(pair))
        del kept
        for _ in range(3):
            service.atomically("inc")
        until(lambda: len(seen()) == 2)
        service.close()
        del service
        gc.collect()
        self.assertIsNone(seen())


if __name__ == "__main__":
    unittest.main()
