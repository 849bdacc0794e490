"""What tests of services share."""

import os
import signal
import subprocess
import sys
import threading
import time

import stm

TEXT = """(var n 0) (var out 0) (var far 0)
(tx inc (set n (add n 1)) n)
(tx get (if (eq out 0) (retry) (set out (sub out 1))) out)
(tx put (set out (add out 1)) out)
(tx long (seq (repeat 10 (repeat 100 (set far (add far 1)))) (set n (add n 1))) n)
(tx long_get (seq (repeat 10 (repeat 100 (set far (add far 1)))) (if (eq out 0) (retry) (set out (sub out 1)))) out)"""
LONG = 60


def in_thread(work):
    thread = threading.Thread(target=work, daemon=True)
    thread.start()
    return thread


def interrupt(after=0.0):
    """The main thread gets an interrupt."""
    time.sleep(after)
    signal.pthread_kill(threading.main_thread().ident, signal.SIGINT)


def until(holds):
    """Comes back when it holds."""
    late = time.monotonic() + LONG
    while not holds():
        assert time.monotonic() < late
        time.sleep(0.001)


def until_parked(service):
    until(lambda: "\nparked " in service.report())


def are_whole(test, service, pairs):
    """No chapter is lost or told twice, and each is good."""
    service.close()
    pairs = [*pairs, (service.file(), service.report())]
    test.assertEqual([stm.check(*pair) for pair in pairs], [stm.Verdict.GOOD] * len(pairs))
    test.assertEqual(sum(report.count("\nentry ") for _, report in pairs), service.entered)


def program(text):
    """A process of its own that runs this."""
    path = os.pathsep.join([os.path.dirname(os.path.dirname(stm.__file__)), os.path.dirname(os.path.abspath(__file__))])
    there = dict(os.environ, PYTHONPATH=path, PYTHONDONTWRITEBYTECODE="1")
    words = [sys.executable, "-W", "ignore::DeprecationWarning", "-c", text]
    return subprocess.Popen(words, env=there, stdout=subprocess.PIPE, stderr=subprocess.PIPE, text=True)
