"""A bank with 50,000 customers in one process, each a coroutine: they come at their time, wait for a counter until they
are served or have lost patience, and are served for some minutes. Time is a variable, which a transaction advances: it
waits until each customer waits for something."""

import asyncio
import random

import stm

CUSTOMERS, COUNTERS, DAY = 50_000, 10, 25_000
# When a customer comes, how long its patience is, and how long it is served: the least, and how many more there may be.
PLAN = (0, DAY), (1, 7), (1, 8)
BANK = f"""(stm 3)
; The time; how many customers do something just then; and which minutes have begun.
(var now -1) (var awake {CUSTOMERS})
; Counters that are free; and the queue: who comes next, who was last, who was called, and who has left.
(var free {COUNTERS}) (var next 0) (var last 0) (var again 0)
(table begun {2 * DAY} 0) (table called {CUSTOMERS} 0) (table left {CUSTOMERS} 0)
(tx rest () (set awake (sub awake 1)) awake)
(tx tick () (if (lt 0 awake) (retry) (seq (set now (add now 1)) (put begun now 1))) now)
(tx until (t) (if (eq (at begun t) 0) (retry) (set awake (add awake 1))) now)
(tx queue () (seq
    (if (lt 0 free) (seq (set free (sub free 1)) (put called last 1) (set next (add next 1))) (skip))
    (set last (add last 1))) (sub last 1))
(tx served (place t) (seq
    (if (eq (at called place) 1) (skip) (if (eq (at begun t) 1) (put left place 1) (retry)))
    (set awake (add awake 1))) (sub (mul (at called place) (add now 1)) 1))
(tx release () (if (eq next last) (seq (set free (add free 1)) (set again 0))
    (seq (if (eq (at left next) 1) (set again 1) (seq (put called next 1) (set again 0)))
        (set next (add next 1)))) again)"""


async def waits(bank, name, *given):
    """Meanwhile the time may go on."""
    await bank.call("rest")
    return await bank.call(name, given)


async def customer(bank, comes, patience, minutes):
    """How long one waits, and nothing where it has left before it was served."""
    await waits(bank, "until", comes)
    place = await bank.call("queue")
    begins = await waits(bank, "served", place, comes + patience)
    if begins >= 0:
        await waits(bank, "until", begins + minutes)
        # The counter is the next one's, if that has not left.
        while await bank.call("release"):
            pass
    await bank.call("rest")
    return begins - comes if begins >= 0 else None


async def clock(bank):
    while True:
        await bank.call("tick")


async def main():
    draw = random.Random(7)
    with stm.Service(BANK) as bank:
        plans = [[draw.randrange(most) + least for least, most in PLAN] for _ in range(CUSTOMERS)]
        customers = [asyncio.ensure_future(customer(bank, *plan)) for plan in plans]
        ticks = asyncio.ensure_future(clock(bank))
        waited = [minutes for minutes in await asyncio.gather(*customers) if minutes is not None]
        ticks.cancel()
        assert (bank.value("free"), bank.value("awake")) == (COUNTERS, 0)
        # Who of two comes first within a minute hangs on the event loop, so no number is told to the last digit.
        left = 1 - len(waited) / CUSTOMERS
        print(f"{CUSTOMERS} customers, of whom {left:.0%} left before they were served")
        print(f"the others waited {sum(waited) / len(waited):.1f} minutes, at most {max(waited)}")


asyncio.run(main())
