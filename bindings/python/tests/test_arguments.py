"""Calls that give arguments: each gets its own, as many as its transaction has parameters, or is refused."""

import threading
import unittest

import stm

TEXT = """(stm 3) (var alice 100) (var bob 20)
(always solvent (le 0 alice))
(tx pay (n) (seq (if (lt alice n) (throw n) (skip)) (set alice (sub alice n)) (set bob (add bob n))) alice)
(tx take (n) (seq (if (lt bob n) (retry) (skip)) (set bob (sub bob n))) n)
(tx sum () (skip) (add alice bob))
(tx same (n) (skip) n)
(tx digits (a b c d e f g h) (skip) (add (mul
    (add (mul (add (mul (add (mul (add (mul (add (mul (add (mul a 10) b) 10) c) 10) d) 10) e) 10) f) 10) g) 10) h))
(tx overdraw (n) (set alice (sub 0 n)) 0)"""
WANTED = {"pay": 1, "take": 1, "sum": 0, "same": 1, "digits": 8, "overdraw": 1}


class Arguments(unittest.TestCase):
    def test_each_way_to_give_them(self):
        with stm.Service(TEXT) as bank:
            self.assertEqual((bank.atomically("pay", [60]), bank.observe("pay", (10,))), (40, 30))
            self.assertEqual(bank.atomically("sum"), 120)
            self.assertEqual(bank.atomically("digits", range(1, 9)), 12345678)
            self.assertEqual(bank.try_atomically("digits", list(range(8, 0, -1))), 87654321)
            self.assertEqual(bank.atomically("digits", [2] * 8, timeout=1), 22222222)
            for number in (-(1 << 63), (1 << 63) - 1, 0, True):
                self.assertEqual(bank.atomically("same", [number]), number)
            with self.assertRaises(stm.Thrown) as thrown:
                bank.atomically("pay", [41])
            self.assertEqual(thrown.exception.value, 41)
            with self.assertRaises(stm.Broken) as broken:
                bank.atomically("overdraw", [5])
            self.assertEqual(broken.exception.condition, "solvent")
            with self.assertRaises(stm.Retries):
                bank.try_atomically("take", [81])
            with self.assertRaises(stm.TimedOut):
                bank.atomically("take", [81], timeout=0.001)
        self.assertTrue(stm.check(bank.file(), bank.report()))

    def test_more_or_fewer(self):
        with stm.Service(TEXT) as bank:
            for name, wanted in WANTED.items():
                self.assertEqual(bank.parameters(name), wanted)
                for call in (bank.atomically, bank.try_atomically, bank.observe):
                    for count in {*range(10), 100} - {wanted}:
                        with self.assertRaises(stm.WrongArguments) as wrong:
                            call(name, [1] * count)
                        self.assertIsInstance(wrong.exception, TypeError)
                        self.assertEqual(str(wrong.exception), f"arguments of {name}: {wanted} wanted, {count} given")
            with self.assertRaises(stm.Unknown):
                bank.parameters("none")
            for number in (1 << 63, -(1 << 63) - 1):
                with self.assertRaises(ValueError):
                    bank.atomically("same", [number])
            for strange in ("1", 1.5, None):
                with self.assertRaises(TypeError):
                    bank.atomically("same", [strange])
            self.assertEqual(bank.entered, 0)

    def test_each_waits_with_its_own(self):
        answers, pairs = [], []
        with stm.Service(TEXT, room=20, on_chapter=lambda *pair: pairs.append(pair)) as bank:
            def takes(n):
                answers.append((n, bank.atomically("take", [n])))

            threads = [threading.Thread(target=takes, args=[n]) for n in range(21, 25)]
            for thread in threads:
                thread.start()
            for _ in range(70):
                bank.atomically("pay", [1])
            for thread in threads:
                thread.join(60)
        self.assertEqual(sorted(answers), [(n, n) for n in range(21, 25)])
        pairs.append((bank.file(), bank.report()))
        self.assertTrue(len(pairs) > 2 and all(stm.check(*pair) for pair in pairs))


if __name__ == "__main__":
    unittest.main()
