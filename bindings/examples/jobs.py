"""A job scheduler: workers that sleep until a job is ready, and take an urgent one before any other. In the end the journal
is judged.

Jobs are numbers, which stand in two queues. `next` prefers by `orelse` an urgent job, else takes any other, else sees
whether work is over; where it is not it retries, and the worker sleeps until a job is added."""

from concurrent.futures import ThreadPoolExecutor

import stm

PROGRAM = """(stm 3)
(var urgent_begun 0) (var urgent_added 0) (var other_begun 0) (var other_added 0)
(var done 0) (var over 0) (var job 0)
(table urgent 64 0) (table other 64 0)
(always once (le done (add urgent_begun other_begun)))
(tx add_urgent (n) (seq (if (eq (sub urgent_added urgent_begun) 64) (retry) (skip))
    (put urgent (rem urgent_added 64) n) (set urgent_added (add urgent_added 1))) n)
(tx add_other (n) (seq (if (eq (sub other_added other_begun) 64) (retry) (skip))
    (put other (rem other_added 64) n) (set other_added (add other_added 1))) n)
(tx next () (orelse (seq (if (eq urgent_begun urgent_added) (retry) (skip))
        (set job (at urgent (rem urgent_begun 64))) (set urgent_begun (add urgent_begun 1)))
    (orelse (seq (if (eq other_begun other_added) (retry) (skip))
        (set job (at other (rem other_begun 64))) (set other_begun (add other_begun 1)))
    (if (eq over 0) (retry) (set job -1)))) job)
(tx finish () (set done (add done 1)) done)
(tx all_done () (if (lt done (add urgent_added other_added)) (retry) (skip)) done)
(tx close () (set over 1) over)"""
END, JOBS, WORKERS = -1, 100, 4


def add(jobs, number):
    jobs.atomically("add_other" if number % 10 else "add_urgent", [number])


def work(jobs):
    """The jobs that a worker does, until work is over."""
    did = []
    while (job := jobs.atomically("next")) != END:
        did.append(job)
        jobs.atomically("finish")
    return did


with stm.Service(PROGRAM) as jobs:
    for number in range(1, 11):
        add(jobs, number)
    did = [jobs.atomically("next")]
    print(f"the first is job {did[0]}")
    jobs.atomically("finish")
    with ThreadPoolExecutor(WORKERS) as pool:
        workers = [pool.submit(work, jobs) for _ in range(WORKERS)]
        for number in range(11, JOBS):
            add(jobs, number)
        print(f"{jobs.atomically('all_done')} jobs are done")
        jobs.atomically("close")
        for worker in workers:
            did += worker.result()
assert sorted(did) == list(range(1, JOBS))
assert stm.check(jobs.file(), jobs.report())
print("the journal is good")
