"""What a host tells whoever wrote a file that is refused: where and why, and the line with its fault."""

import stm

BANK = """(var here 100) (var there 0)
(tx pay (seq (set heer (sub here 60)) (set there (add there 60))) here)
"""

try:
    stm.Service(BANK).close()
    print("good")
except stm.Refused as why:
    print(why)
    print(BANK.splitlines()[why.line - 1], "^".rjust(why.column), sep="\n")
