"""A bounded queue in a table: producers wait while it is full, consumers while it is empty. Each order is taken once, and
those of a producer as it put them. In the end the journals of all chapters are judged."""

from concurrent.futures import ThreadPoolExecutor

import stm

QUEUE = """(stm 3)
(var taken 0) (var made 0) (table place 64 0)
(always bounded (and (le taken made) (le (sub made taken) 64)))
(tx put (order)
    (seq (if (eq (sub made taken) 64) (retry) (skip))
         (put place (rem made 64) order) (set made (add made 1)))
    made)
(tx get ()
    (seq (if (eq made taken) (retry) (skip)) (set taken (add taken 1)))
    (at place (rem (sub taken 1) 64)))"""
PRODUCERS, CONSUMERS, EACH = 2, 2, 1000


def produce(queue, first):
    for order in range(first, first + EACH):
        queue.atomically("put", [order])


def consume(queue):
    """What it takes, in order."""
    return [queue.atomically("get") for _ in range(EACH)]


chapters = []
with stm.Service(QUEUE, room=1500, on_chapter=lambda *pair: chapters.append(pair)) as queue:
    with ThreadPoolExecutor(PRODUCERS + CONSUMERS) as pool:
        consumers = [pool.submit(consume, queue) for _ in range(CONSUMERS)]
        producers = [pool.submit(produce, queue, i * EACH) for i in range(PRODUCERS)]
        taken = [thread.result() for thread in consumers]
        for thread in producers:
            thread.result()
chapters.append((queue.file(), queue.report()))
for orders in taken:
    for first in range(0, PRODUCERS * EACH, EACH):
        own = [order for order in orders if first <= order < first + EACH]
        assert own == sorted(own)
assert sorted(sum(taken, [])) == list(range(PRODUCERS * EACH))
assert all(stm.check(file, report) for file, report in chapters)
print(f"{PRODUCERS * EACH} orders, each taken once")
print(f"the journals of all chapters are good: {queue.entered} entries")
