"""Where and why each file is refused, in a line of its own: line, column and words; or `good`.

    explained FILE ..
"""

import sys

import stm

for path in sys.argv[1:]:
    with open(path, encoding="utf-8", newline="") as opened:
        file = opened.read()
    alone = stm.explain(file)
    try:
        stm.check(file, "")
        assert alone is None
        print("good")
    except stm.Refused as why:
        assert (why.code, why.line, why.column, str(why)) == (alone.code, alone.line, alone.column, str(alone))
        print(why.line, why.column, why)
