"""A bank of 1,000 accounts in a table: four threads transfer money through one service, and an auditor looks on beside
them. In the end the journals of all chapters are judged, and say what the threads were answered."""

import threading
from concurrent.futures import ThreadPoolExecutor

import stm

ACCOUNTS, EACH, THREADS, TRANSFERS = 1000, 100, 4, 1000
BANK = f"""(stm 3)
(table acct {ACCOUNTS} {EACH})
(tx pay (from to n)
    (if (lt (at acct from) n)
        (throw (sub n (at acct from)))
        (seq (put acct from (sub (at acct from) n)) (put acct to (add (at acct to) n))))
    (at acct from))
(tx audit () (skip) (sum acct))"""


def teller(bank, first):
    """Transfers between all accounts: how many were paid, while others threw what was missing."""
    paid = 0
    for turn in range(first, first + TRANSFERS):
        try:
            bank.atomically("pay", [turn * 7 % ACCOUNTS, turn * 13 % ACCOUNTS, turn % 150])
            paid += 1
        except stm.Thrown as missing:
            assert missing.value > 0
    return paid


def watch(bank, closing):
    while not closing.is_set():
        assert bank.observe("audit") == ACCOUNTS * EACH


chapters, closing = [], threading.Event()
with stm.Service(BANK, room=1500, on_chapter=lambda *pair: chapters.append(pair)) as bank:
    with ThreadPoolExecutor(THREADS + 1) as pool:
        audits = pool.submit(watch, bank, closing)
        try:
            paid = sum(pool.map(teller, [bank] * THREADS, range(0, ACCOUNTS, ACCOUNTS // THREADS)))
        finally:
            closing.set()
        audits.result()
chapters.append((bank.file(), bank.report()))
assert all(stm.check(file, report) for file, report in chapters)
returned = sum(report.count(" returned ") for _, report in chapters)
threw = sum(report.count(" threw ") for _, report in chapters)
assert returned == paid and min(bank.table("acct")) >= 0
print(f"{returned + threw} transfers, each paid or refused")
print(f"the journals of {len(chapters)} chapters are good")
