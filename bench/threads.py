#!/usr/bin/env python3
"""Times steps on a namespace by callers on threads of their own that share it.

    bench/threads.py PROGRAM

PROGRAM is the built `callers`. Each rate is that of many rounds less few, the least time of five runs each, so what a start takes is left
out. On one name most makes and opens of several callers are refused, and refusals are steps too, and cheaper ones. Nothing here fails; a run that is
refused ends it.
"""

import re
import subprocess
import sys
import time

RUNS = 5
FEW, MANY = 1_000, 41_000
STEPS = 4  # of a round


def seconds(program, words):
    """The least time of some runs."""
    took = []
    for _ in range(RUNS):
        before = time.perf_counter()
        printed = subprocess.run([program, *words], check=True, capture_output=True, text=True).stdout
        took.append(time.perf_counter() - before)
        if not re.search(r", entries [0-9]+\n$", printed):
            sys.exit(f"{' '.join(words)}: {printed}")
    return min(took)


def rate(program, title, words, callers):
    """Prints how many steps a second all callers make together."""
    took = seconds(program, [*words, str(MANY)]) - seconds(program, [*words, str(FEW)])
    print(f"{title}: {callers * STEPS * (MANY - FEW) / took:,.0f} steps a second")


def main():
    if len(sys.argv) != 2:
        sys.exit("usage: bench/threads.py PROGRAM")
    program = sys.argv[1]
    rate(program, "one caller", ["own", "1"], 1)
    for callers in (2, 4):
        rate(program, f"{callers} callers on names of their own", ["own", str(callers)], callers)
        rate(program, f"{callers} callers on one name", ["one", str(callers)], callers)


if __name__ == "__main__":
    main()
