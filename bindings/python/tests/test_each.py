"""Many calls at once: each is answered as by a try of its own, also where chapters end in between; rows of each kind
are taken, and one that is wrong makes no call."""

import ctypes
import signal
import threading
import unittest
from array import array

import stm
from helping import LONG, are_whole, in_thread, interrupt, until, until_parked

TEXT = """(stm 3) (var n 0) (var far 0) (table acct 10 100)
(always some (le 0 (at acct 0)))
(tx pay (from to n_) (seq (if (lt (at acct from) n_) (throw n_) (skip))
    (put acct from (sub (at acct from) n_)) (put acct to (add (at acct to) n_))) (at acct from))
(tx take (to n_) (seq (if (lt (at acct 3) n_) (retry) (skip))
    (put acct 3 (sub (at acct 3) n_)) (put acct to (add (at acct to) n_))) (at acct 3))
(tx audit () (skip) (sum acct))
(tx put (i k) (put acct i k) 0)
(tx inc () (set n (add n 1)) n)
(tx wait (k) (if (lt n k) (retry) (skip)) n)
(tx long (k) (seq (repeat 10 (repeat 100 (set far (add far 1)))) (if (lt n k) (retry) (skip))) n)"""
NOTHING, DONE, RETRIES, THROWN, OUTSIDE, NO_ROOM, CLOSED = (), 0, 1, 5, 16, -14, -19
# More than are made at once.
MANY = 10_000


def fault_at(answers, place):
    """What is raised for one call."""
    try:
        answers[place]
    except stm.Fault as fault:
        return fault
    return None


class Ends(unittest.TestCase):
    def test_each_way(self):
        with stm.Service(TEXT) as bank:
            paid = bank.each("pay", [(3, 5, 60), (3, 5, 60), (3, 10, 1), (5, 3, 10)])
            self.assertEqual(paid.values, array("q", [40, 60, 0, 150]))
            self.assertEqual(paid.codes, array("i", [DONE, THROWN, OUTSIDE, DONE]))
            self.assertEqual((paid[0], paid[-1], len(paid)), (40, 150, 4))
            thrown, outside = fault_at(paid, 1), fault_at(paid, -2)
            self.assertEqual((type(thrown), thrown.value, thrown.entry, thrown.place), (stm.Thrown, 60, 2, 1))
            self.assertEqual((type(outside), outside.entry), (stm.Outside, 3))
            kinds = {place: type(fault) for place, fault in paid.faults.items()}
            self.assertEqual(kinds, {1: stm.Thrown, 2: stm.Outside})
            self.assertRaises(stm.Thrown, paid.raise_first)
            self.assertRaises(stm.Thrown, list, paid)
            self.assertRaises(IndexError, paid.__getitem__, 4)
            told = "<stm.Answers: 2 of 4 returned; not 1: Thrown(60), 2: Outside('outside its table')>"
            self.assertEqual(repr(paid), told)
            broken = bank.each("put", [[0, -1], [1, 7]])
            self.assertEqual((fault_at(broken, 0).condition, broken[1]), ("some", 0))
            self.assertEqual(bank.entered, 6)
        self.assertTrue(stm.check(bank.file(), bank.report()))

    def test_one_that_retries_is_not_entered(self):
        with stm.Service(TEXT) as bank:
            taken = bank.each("take", [[5, 60], [5, 60], [5, 40]])
            self.assertEqual((taken.values.tolist(), taken.codes.tolist()), ([40, 0, 0], [DONE, RETRIES, DONE]))
            self.assertEqual((fault_at(taken, 1).ticket, fault_at(taken, 1).entry, bank.entered), (-1, 0, 2))
            self.assertEqual(bank.each("long", [[0], [1]]).codes.tolist(), [DONE, RETRIES])
            self.assertEqual((bank.each("inc", [()] * 3).values.tolist(), bank.counts.waiting), ([1, 2, 3], 0))

    def test_all_return(self):
        with stm.Service(TEXT, room=1000) as bank:
            made = bank.each("inc", [NOTHING] * MANY)
            made.raise_first()
            self.assertEqual((list(made), made.faults), (list(range(1, MANY + 1)), {}))
            self.assertEqual((list(made.values), set(made.codes)), (list(made), {DONE}))
            self.assertEqual((repr(made), bank.chapter), (f"<stm.Answers: {MANY} of {MANY} returned>", 9))

    def test_some_do_not_in_each_portion(self):
        with stm.Service(TEXT) as bank:
            rows = [(3, 12 if place % 1000 == 7 else 5, 0) for place in range(MANY)]
            made = bank.each("pay", rows)
            self.assertEqual(sorted(made.faults), list(range(7, MANY, 1000)))
            self.assertEqual([fault_at(made, place).entry for place in (7, 9007)], [8, 9008])
            self.assertTrue(repr(made).startswith(f"<stm.Answers: {MANY - 10} of {MANY} returned; not 7: Outside("))
            self.assertTrue(repr(made).endswith(", 5 more>"))

    def test_no_calls(self):
        with stm.Service(TEXT) as bank:
            for rows in ([], (), iter([]), array("q"), memoryview(array("q"))):
                for name in ("pay", "inc"):
                    made = bank.each(name, rows)
                    self.assertEqual((len(made), list(made), made.faults), (0, [], {}))
            self.assertEqual(bank.entered, 0)

    def test_it_is_closed(self):
        bank = stm.Service(TEXT)
        bank.close()
        made = bank.each("inc", [NOTHING] * MANY)
        self.assertEqual((set(made.codes), type(fault_at(made, MANY - 1))), ({CLOSED}, stm.Closed))


class Rows(unittest.TestCase):
    def test_each_kind(self):
        numbers = [3, 5, 1, 4, 6, 2]
        flat = array("q", numbers)
        kinds = [
            [[3, 5, 1], [4, 6, 2]],
            ((3, 5, 1), (4, 6, True + 1)),
            (row for row in ([3, 5, 1], (4, 6, 2))),
            [flat[:3], flat[3:]],
            flat,
            memoryview(flat),
            memoryview(flat).cast("B").cast("q", shape=[2, 3]),
            memoryview(flat).toreadonly(),
            memoryview(array("q", [number for number in numbers for _ in range(2)]))[::2],
            (ctypes.c_int64 * 6)(*numbers),
        ]
        for rows in kinds:
            with stm.Service(TEXT) as bank:
                self.assertEqual(bank.each("pay", rows).values.tolist(), [99, 98])
                self.assertEqual(list(bank.table("acct")[3:7]), [99, 98, 101, 102])
        self.assertEqual(flat, array("q", numbers))

    def test_a_wrong_one_makes_no_call(self):
        right, shorter, longer = [3, 5, 1], [3, 5], [3, 5, 1, 2]
        with stm.Service(TEXT) as bank:
            for wrong, given in ((shorter, 2), (longer, 4), ([], 0)):
                for rows in ([wrong], [right] * MANY + [wrong], [wrong, longer, shorter]):
                    with self.assertRaises(stm.WrongArguments) as raised:
                        bank.each("pay", rows)
                    self.assertEqual(str(raised.exception), f"arguments of pay: 3 wanted, {given} given")
            strange = {1 << 63: ValueError, -(1 << 63) - 1: ValueError, "1": TypeError, 1.5: TypeError}
            for wrong, error in strange.items():
                self.assertRaises(error, bank.each, "pay", [right] * 3 + [[3, 5, wrong], [3, 5, 1.0]])
            for rows in ([3, 5, 1], None, 5):
                self.assertRaises(TypeError, bank.each, "pay", rows)
            self.assertRaises(stm.Unknown, bank.each, "none", [right])
            self.assertEqual(bank.entered, 0)

    def test_a_wrong_array_makes_no_call(self):
        square = memoryview(array("q", range(6))).cast("B").cast("q", shape=[3, 2])
        with stm.Service(TEXT) as bank:
            for name, rows, given in (("pay", array("q", [3, 5]), 2), ("pay", square, 6), ("inc", array("q", [1]), 1)):
                with self.assertRaises(stm.WrongArguments) as raised:
                    bank.each(name, rows)
                wanted = bank.parameters(name)
                told = f"arguments of {name}: {wanted} wanted in each call, {given} numbers given"
                self.assertEqual(str(raised.exception), told)
            cube = memoryview(array("q", range(6))).cast("B").cast("q", shape=[1, 2, 3])
            for rows in (array("i", [3, 5, 1]), array("d", [3, 5, 1]), array("Q", [3, 5, 1]), b"355", cube):
                self.assertRaises(TypeError, bank.each, "pay", rows)
            self.assertEqual(bank.entered, 0)


class Beside(unittest.TestCase):
    def test_one_wakes_a_sleeper(self):
        with stm.Service(TEXT) as bank:
            answers = []
            waits = in_thread(lambda: answers.append(bank.atomically("wait", [50])))
            until_parked(bank)
            made = bank.each("inc", [NOTHING] * 100)
            waits.join(LONG)
            self.assertEqual((answers, made[99], bank.entered), ([50], 100, 101))

    def test_threads(self):
        pairs = []
        with stm.Service(TEXT, room=3000, on_chapter=lambda *pair: pairs.append(pair)) as bank:
            def pays(seed):
                rows = [(i * 7 % 10, (i + seed) % 10, i % 130) for i in range(3000)]
                made = bank.each("pay", rows)
                assert set(made.codes) == {DONE, THROWN} and all(made.values[i] == i % 130 for i in made.faults)

            threads = [in_thread(lambda seed=seed: pays(seed)) for seed in range(4)]
            while any(thread.is_alive() for thread in threads):
                self.assertEqual(bank.atomically("audit"), 1000)
            self.assertGreater(bank.entered, 12_000)
        are_whole(self, bank, pairs)


class Chapters(unittest.TestCase):
    def in_each_thread(self, work):
        """As the main thread, which must not wait in the library, and as another one."""
        work()
        done = []
        in_thread(lambda: done.append(work())).join(LONG)
        self.assertEqual(done, [None])

    def test_a_keeper_that_keeps(self):
        def work():
            pairs = []
            with stm.Service(TEXT, room=10, on_chapter=lambda *pair: pairs.append(pair)) as bank:
                self.assertEqual(list(bank.each("inc", [NOTHING] * 95)), list(range(1, 96)))
            self.assertEqual(len(pairs), 9)
            are_whole(self, bank, pairs)

        self.in_each_thread(work)

    def test_a_keeper_that_does_not_keep(self):
        def work():
            told = []

            def keep(*_pair):
                told.append(None)
                raise OSError("no disk")

            with stm.Service(TEXT, room=10, on_chapter=keep) as bank:
                made = bank.each("inc", [NOTHING] * MANY)
                self.assertEqual((list(made.values[:20]), bank.entered), (list(range(1, 21)), 20))
                self.assertEqual((set(made.codes[:20]), set(made.codes[20:])), ({DONE}, {NO_ROOM}))
                # Once more if it had said so before the next one was full.
                self.assertIn(len(told), (1, 2))
                last = fault_at(made, MANY - 1)
                self.assertEqual((type(last), str(last.__cause__), len(made)), (stm.NoRoom, "no disk", MANY))

        self.in_each_thread(work)

    def test_the_keeper_itself(self):
        """What it calls has the room of the next chapter, and does not wait for itself."""
        own = []

        def keep(*_pair):
            if not own:
                own.append(bank.each("inc", [NOTHING] * 30))

        with stm.Service(TEXT, room=10, on_chapter=keep) as bank:
            bank.each("inc", [NOTHING] * 10)
            self.assertEqual(len(bank.each("inc", [NOTHING])), 1)
            until(lambda: own)
            self.assertEqual((list(own[0].codes)), [DONE] * 9 + [NO_ROOM] * 21)

    def test_it_is_closed_while_it_waits(self):
        goes_on, made = threading.Event(), []
        bank = stm.Service(TEXT, room=10, on_chapter=lambda *_pair: goes_on.wait(LONG))
        thread = in_thread(lambda: made.append(bank.each("inc", [NOTHING] * MANY)))
        until(lambda: bank.entered == 20)
        closes = in_thread(bank.close)
        thread.join(LONG)
        self.assertEqual((set(made[0].codes[:20]), set(made[0].codes[20:])), ({DONE}, {CLOSED}))
        goes_on.set()
        closes.join(LONG)

    def test_an_interrupt_ends_a_wait_for_the_keeper(self):
        handler = signal.signal(signal.SIGINT, signal.default_int_handler)
        self.addCleanup(signal.signal, signal.SIGINT, handler)
        goes_on, pairs = threading.Event(), []

        def keep(*pair):
            goes_on.wait(LONG)
            pairs.append(pair)

        bank = stm.Service(TEXT, room=10, on_chapter=keep)
        in_thread(lambda: (until(lambda: bank.entered == 20), interrupt(0.05)))
        self.assertRaises(KeyboardInterrupt, bank.each, "inc", [NOTHING] * MANY)
        self.assertEqual(bank.entered, 20)
        goes_on.set()
        self.assertEqual(bank.each("inc", [NOTHING])[0], 21)
        are_whole(self, bank, pairs)


if __name__ == "__main__":
    unittest.main()
