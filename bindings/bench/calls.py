"""What a call costs from Python: prints one line of names and numbers, nanoseconds.

    calls.py [CALLS]     transfers between 1,000 accounts by one thread (100,000), each of which returns

`empty_ns`: a call by ctypes that does nothing; `bare_ns`: `stm_atomically` by ctypes, with its array of arguments;
`call_ns`: `Service.atomically`. STM_LIB_DIR names the folder of libstm.so, PYTHONPATH has bindings/python.
"""

import ctypes
import sys
import time

import stm
from stm._library import library

TEXT = """(stm 3)(table acct 1000 1000000000)
(tx pay (from to n) (seq (if (lt (at acct from) n) (throw n) (skip))
  (put acct from (sub (at acct from) n)) (put acct to (add (at acct to) n))) (at acct from))"""
CALLS = int(sys.argv[1]) if sys.argv[1:] else 100_000
MASK = (1 << 64) - 1


def drawn(count):
    """Payers, receivers and amounts, as harness.h draws them."""
    x, found = 0x9E3779B97F4A7C15, []
    for _ in range(count):
        x = (x ^ x << 13) & MASK
        x ^= x >> 7
        x = (x ^ x << 17) & MASK
        amount = 1 + ((x >> 40 & 0xFFFF) * 100 >> 16)
        found.append([(x & 0xFFFFF) * 1000 >> 20, (x >> 20 & 0xFFFFF) * 1000 >> 20, amount])
    return found


def each(work):
    """How many nanoseconds one takes."""
    begin = time.perf_counter_ns()
    work()
    return (time.perf_counter_ns() - begin) / CALLS


def empty():
    nothing = ctypes.CDLL(library._name).stm_program_tasks
    nothing.restype, nothing.argtypes = ctypes.c_size_t, [ctypes.c_void_p]
    program = ctypes.byref(ctypes.c_void_p())
    for _ in range(CALLS):
        nothing(program)


def bare(bank, transfers):
    given, call, at = ctypes.c_int64 * 3, library.stm_atomically, bank._at
    for one in transfers:
        call(at, 0, given(*one), 3)


def called(bank, transfers):
    call = bank.atomically
    for one in transfers:
        call("pay", one)


def main():
    transfers = drawn(CALLS)
    found = {"empty": each(empty)}
    for name, work in (("bare", bare), ("call", called)):
        with stm.Service(TEXT) as bank:
            found[name] = each(lambda: work(bank, transfers))
    print(*(f"{name}_ns {number:.0f}" for name, number in found.items()))


main()
