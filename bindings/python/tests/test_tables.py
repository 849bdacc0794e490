"""Tables: calls that choose a cell by a number; cells that are told by name, by number, and many at once."""

import threading
import unittest

import stm
from stm._library import library

TEXT = """(stm 3) (var spare 9) (table acct 4 100) (table rate 2 5 6) ; (table none 1 0)
(always solvent (le 0 (min acct)))
(tx pay (from to n) (seq (put acct from (sub (at acct from) n)) (put acct to (add (at acct to) n))) (at acct from))
(tx audit () (skip) (sum acct))"""


class Tables(unittest.TestCase):
    def test_cells(self):
        with stm.Service(TEXT) as bank:
            self.assertEqual((bank.atomically("pay", [0, 3, 60]), bank.atomically("audit")), (40, 400))
            self.assertEqual([bank.value(f"acct[{i}]") for i in range(4)], [40, 100, 100, 160])
            self.assertEqual((bank.version("acct[3]"), bank.version("rate[1]"), bank.value("rate[1]")), (1, 0, 6))
            for name in ("acct", "acct[4]", "acct[03]", "acct[-0]", "acct[3", "acct[]", "spare[0]"):
                with self.assertRaises(stm.Unknown):
                    bank.value(name)
            for given in ([0, 4, 1], [-1, 0, 1]):
                with self.assertRaises(stm.Outside):
                    bank.atomically("pay", given)
            with self.assertRaises(stm.Broken):
                bank.atomically("pay", [0, 1, 41])
        report = bank.report()
        self.assertIn("\nacct[0] 40 1\nacct[3] 160 1\nend\n", report)
        self.assertTrue(stm.check(bank.file(), report))

    def test_what_a_file_declares(self):
        # None of its runs is made: one of these would wait for ever, and another throws.
        told = stm.declared("(stm 3) (var x 5) (table t 2 0) (always a (le 0 x)) (tx w (n) (retry) n) (run w 3 1)")
        self.assertEqual(told, (["x"], {"t": 2}, ["a"], {"w": ["n"]}))
        self.assertEqual(stm.declared(""), ([], {}, [], {}))
        for wrong, column in (("(var x)", 7), ("; \udce4", 3)):
            with self.assertRaises(stm.Refused) as raised:
                stm.declared(wrong)
            self.assertEqual((raised.exception.line, raised.exception.column), (1, column))

    def test_what_is_declared(self):
        with stm.Service(TEXT) as bank:
            declared = bank.declared
            self.assertEqual((declared.variables, declared.tables), (["spare"], {"acct": 4, "rate": 2}))
            self.assertEqual(declared.conditions, ["solvent"])
            self.assertEqual(declared.transactions, {"pay": ["from", "to", "n"], "audit": []})
            with self.assertRaises(stm.Broken) as broken:
                bank.atomically("pay", [0, 1, 101])
            self.assertEqual(broken.exception.condition, "solvent")
        # A name as long as one may be, and as many variables as there may be, told one by one.
        longest, last = "v" * 32, "c" * 32
        with stm.Service(f"(stm 2) (var {longest} 0) (always {last} (le {longest} 0))") as one:
            self.assertEqual((one.declared.variables, one.declared.conditions), ([longest], [last]))
        with stm.Service("".join(f"(var x{i} 0)" for i in range(256))) as many:
            self.assertEqual(many.declared.variables, [f"x{i}" for i in range(256)])

    def test_tables(self):
        with stm.Service(TEXT) as bank:
            self.assertEqual(bank.tables, ["acct", "rate"])
            acct, rate = bank.table("acct"), bank.table("rate")
            self.assertEqual([(table.name, len(table)) for table in (acct, rate)], [("acct", 4), ("rate", 2)])
            for name in ("none", "spare", "acct[0]", ""):
                with self.assertRaises(stm.Unknown):
                    bank.table(name)
            bank.atomically("pay", [0, 3, 60])
        # A table goes on once its service is closed, and its service stays for as long as it.
        del bank
        self.assertEqual((acct[0], acct[3], acct[-1], rate[0], rate[-2]), (40, 160, 160, 5, 5))
        self.assertEqual((acct.version(3), acct.version(1), acct.version(-4)), (1, 0, 1))
        for index in (4, -5, 1 << 32, 1 << 64):
            for call in (acct.__getitem__, acct.version):
                with self.assertRaises(stm.Outside) as outside:
                    call(index)
                self.assertIsInstance(outside.exception, IndexError)
                self.assertEqual(str(outside.exception), f"acct[{index}]")
        with self.assertRaises(TypeError):
            acct["0"]

    def test_many_at_once(self):
        with stm.Service(TEXT) as bank:
            bank.atomically("pay", [0, 3, 60])
            acct, plain = bank.table("acct"), [40, 100, 100, 160]
            self.assertEqual((list(acct), sum(acct), min(acct), 160 in acct), (plain, 400, 40, True))
            ends = [None, *range(-6, 7), 1 << 70]
            for first in ends:
                for last in ends:
                    for step in (None, 1, 2, 3, -1, -2):
                        self.assertEqual(acct[first:last:step], plain[first:last:step])

    def test_one_state(self):
        with stm.Service(TEXT) as bank:
            pays = threading.Thread(
                target=lambda: [bank.atomically("pay", [i % 4, (i + 1) % 4, 50]) for i in range(3000)]
            )
            pays.start()
            acct, copies = bank.table("acct"), 0
            while pays.is_alive() or copies < 100:
                self.assertEqual(sum(acct), 400)
                copies += 1
            pays.join()
        self.assertTrue(stm.check(bank.file(), bank.report()))

    def test_all_ways_through_a_table_are_of_one_state(self):
        """A one goes from the one cell to the other and back, whenever a cell is asked for."""
        text = "(stm 3) (var at 0) (table a 4 0) (tx move () (seq (put a at 0) (set at (sub 1 at)) (put a at 1)) at)"
        calls = {word: getattr(library, word) for word in ("stm_service_cell", "stm_service_cells")}

        def moved(call):
            return lambda *given: (service.atomically("move"), call(*given))[1]

        with stm.Service(text) as service:
            table = service.table("a")
            service.atomically("move")
            for word, call in calls.items():
                setattr(library, word, moved(call))
            try:
                ways = (iter(table), reversed(table), table[::-1], table[:2])
                self.assertEqual([sum(way) for way in ways], [1, 1, 1, 1])
                self.assertTrue(1 in table and table.count(1) == 1)
                self.assertEqual({table.index(1) for _ in range(4)}, {0, 1})
                self.assertEqual((table.index(0, 2), list(reversed(table))[:2]), (2, [0, 0]))
                for arguments in ((5,), (1, 2), (1, -2), (0, 4)):
                    self.assertRaises(ValueError, table.index, *arguments)
            finally:
                for word, call in calls.items():
                    setattr(library, word, call)


if __name__ == "__main__":
    unittest.main()
