"""What a call costs that is awaited, beside what asyncio has: prints one line of names and numbers, nanoseconds of the
processor, of all threads.

    awaits.py [CALLS]     50,000 of each

`lock_ns`: a dict is updated under an `asyncio.Lock`; `await_ns`: `await bank.call(..)` that need not wait; `call_ns`:
`bank.atomically(..)` of the same; `queue_ns`: two coroutines hand a value to and fro by two `asyncio.Queue`s, a value;
`ping_ns`: by calls that wait; `wake_ns`: calls wait, one commit makes all ready, until each coroutine has gone on, a
call; `bytes`: what one takes meanwhile, with its task. STM_LIB_DIR names the folder of libstm.so, PYTHONPATH has
bindings/python.
"""

import asyncio
import sys
import time
import tracemalloc

import stm

TEXT = """(stm 3) (var n 0) (var open 0) (table turn 2 0)
(tx add (k) (set n (add n k)) n)
(tx ping (i) (put turn i 1) 0)
(tx pong (i) (if (eq (at turn i) 0) (retry) (put turn i 0)) 0)
(tx wait (k) (if (eq open 0) (retry) (skip)) k)
(tx open () (set open 1) 0)"""
CALLS = int(sys.argv[1]) if sys.argv[1:] else 50_000


async def updates():
    """The least that asyncio has for it."""
    lock, all_of_it = asyncio.Lock(), {"n": 0}
    begin = time.process_time_ns()
    for _ in range(CALLS):
        async with lock:
            all_of_it["n"] += 1
    return (time.process_time_ns() - begin) / CALLS


async def awaits(bank):
    begin = time.process_time_ns()
    for _ in range(CALLS):
        await bank.call("add", [1])
    return (time.process_time_ns() - begin) / CALLS


async def calls(bank):
    begin = time.process_time_ns()
    for _ in range(CALLS):
        bank.atomically("add", [1])
    return (time.process_time_ns() - begin) / CALLS


async def hand_by_queues():
    there, back = asyncio.Queue(1), asyncio.Queue(1)

    async def answers():
        for _ in range(CALLS):
            await there.get()
            await back.put(1)

    other = asyncio.ensure_future(answers())
    begin = time.process_time_ns()
    for _ in range(CALLS):
        await there.put(1)
        await back.get()
    await other
    return (time.process_time_ns() - begin) / (2 * CALLS)


async def hand_by_calls(bank):
    async def answers():
        for _ in range(CALLS):
            await bank.call("pong", [0])
            await bank.call("ping", [1])

    other = asyncio.ensure_future(answers())
    begin = time.process_time_ns()
    for _ in range(CALLS):
        await bank.call("ping", [0])
        await bank.call("pong", [1])
    await other
    return (time.process_time_ns() - begin) / (2 * CALLS)


async def begin_waits(bank):
    waiting = [asyncio.ensure_future(bank.call("wait", [i])) for i in range(CALLS)]
    await asyncio.sleep(0)
    return waiting


async def wake_all(bank):
    waiting = await begin_waits(bank)
    begin = time.process_time_ns()
    await bank.call("open")
    await asyncio.gather(*waiting)
    return (time.process_time_ns() - begin) / CALLS


async def taken(bank):
    tracemalloc.start()
    waiting = await begin_waits(bank)
    bytes_taken = tracemalloc.get_traced_memory()[0] / CALLS
    tracemalloc.stop()
    for call in waiting:
        call.cancel()
    await asyncio.gather(*waiting, return_exceptions=True)
    return bytes_taken


def main():
    found = {"lock_ns": asyncio.run(updates()), "queue_ns": asyncio.run(hand_by_queues())}
    by_calls = {"await_ns": awaits, "call_ns": calls, "ping_ns": hand_by_calls, "wake_ns": wake_all, "bytes": taken}
    for name, work in by_calls.items():
        with stm.Service(TEXT) as bank:
            found[name] = asyncio.run(work(bank))
    print(*(f"{name} {number:.0f}" for name, number in found.items()))


main()
