"""A bank of 1,000 accounts, by the module that `stm-bind` makes of examples/tellers.stm: one pays 100 to another, and
then has too little to pay that again."""

import stm
import tellers

with tellers.Tellers() as bank:
    for _ in range(2):
        try:
            print("done", bank.pay(3, 5, 100))
        except stm.Thrown as amount:
            print("thrown", amount.value)
    print("account 3 has", bank.acct(3))
