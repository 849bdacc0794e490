"""Tries that a file without a fault is read once: whatever form stands in it, it takes hardly more requests for memory
than without that form. A reader that gave up on the form would begin again, make a tree of the whole file first, and answer the same;
so it is told by its requests.
"""

import os

from refused_memory import allocator
from trials import run, shown

# What else stands in the file: 256 boxes, which a second reading asks for twice more.
BODY = "(set x (add x 1))" * 128

# What the file takes without a form: its boxes, and all that a run takes.
WITHOUT = range(256, 512)

# No form below takes more requests than this.
MOST = 32

FORMS = [
    f"(var x 0)(tx t (seq {BODY}{form}) x)"
    for form in (
        "(skip)",
        "(set x -1)",
        "(set x (add (sub x 1) (mul 2 3)))",
        "(set x (div 4 (rem x 3)))",
        "(seq)",
        "(seq (skip) (seq (skip)))",
        "(if (eq x 1) (skip) (retry))",
        "(if (and (lt x 1) (not (le 2 x))) (skip) (skip))",
        "(if (or (eq x 1) (eq 1 x)) (skip) (skip))",
        "(repeat 3 (skip))",
        "(repeat 0 (throw 1))",
        "(orelse (retry) (skip))",
        "(throw (add x 1))",
        "; a comment\n",
    )
] + [
    f"(var x 0)(var y -3)(tx t (seq {BODY}) x)",
    f"(var x 0)(tx t (seq {BODY}) (add (sub x 1) (mul 2 3)))",
    f"(var x 0)(tx t (seq {BODY}) x)(tx u (skip) 7)",
    f"(var x 0)(tx t (seq {BODY}) x)(run t 0)",
    f"(stm 2)(var x 0)(tx t (seq {BODY}) x)",
    f"(stm 2)(var x 0)(always a (or (not (lt x 0)) (eq x (sub 1 x))))(always b (and (le 0 x) (le 0 x)))(tx t (seq {BODY}) x)",
]


def try_once(trials, program):
    by, preload = os.path.basename(program), allocator(trials.folder)

    def requests(name, text):
        return run([program, "run", trials.write(name, text), "--workers", "1"], trials.folder, {"LD_PRELOAD": preload, "REFUSE_COUNT": "1"})

    plain = requests("plain", f"(var x 0)(tx t (seq {BODY}) x)")
    told = f"{plain.kept} requests"
    trials.tell(f"{by} run, a file is read once", [] if plain.kept in WITHOUT else [shown(plain)], told)
    for number, text in enumerate(FORMS):
        ended = requests("form", text)
        faults = [shown(it) for it in (plain, ended) if it.status or not it.kept]
        more = (ended.kept or 0) - (plain.kept or 0)
        faults += [f"it took {more} requests more"] * (not 0 <= more <= MOST)
        trials.tell(f"{by} run, a file is read once, form {number}", faults, f"{more} requests more")
