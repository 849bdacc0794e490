"""A bank of 1,000 accounts in a table: four tellers pay amounts from account to account, and meanwhile audits look at all
accounts of one moment. In the end the journal is judged."""

from concurrent.futures import ThreadPoolExecutor

import stm

BANK = """(stm 3)
(table acct 1000 100)
(tx pay (from to n)
    (if (lt (at acct from) n)
        (throw (sub n (at acct from)))
        (seq (put acct from (sub (at acct from) n)) (put acct to (add (at acct to) n))))
    (at acct from))
(tx audit () (skip) (sum acct))"""
ACCOUNTS, EACH, TELLERS, TRANSFERS = 1000, 100, 4, 1000


def teller(bank, first):
    """Each transfer is paid, or throws what is missing."""
    for turn in range(first, first + TRANSFERS):
        try:
            bank.atomically("pay", [turn * 7 % ACCOUNTS, turn * 13 % ACCOUNTS, turn % 150])
        except stm.Thrown as missing:
            assert missing.value > 0


with stm.Service(BANK) as bank:
    with ThreadPoolExecutor(TELLERS) as pool:
        tellers = [pool.submit(teller, bank, i * ACCOUNTS // TELLERS) for i in range(TELLERS)]
        while not all(one.done() for one in tellers):
            assert bank.observe("audit") == ACCOUNTS * EACH
        for one in tellers:
            one.result()
    print(f"{bank.entered} transfers, each paid or refused")
    print(f"all accounts have {bank.observe('audit')}")
    assert min(bank.table("acct")) >= 0
assert stm.check(bank.file(), bank.report())
print("the journal is good")
