"""A thousand wages are paid in one call, each as a step of its own: the last one finds too little."""

import stm

BANK = """(stm 3)
(var cash 99950)
(table acct 1000 0)
(tx wage (to n)
    (seq
        (if (lt cash n) (throw (sub n cash)) (skip))
        (set cash (sub cash n))
        (put acct to (add (at acct to) n)))
    cash)"""

with stm.Service(BANK) as bank:
    paid = bank.each("wage", [(to, 100) for to in range(1000)])
    print(paid)
    assert sum(bank.table("acct")) == 100 * (len(paid) - len(paid.faults))
