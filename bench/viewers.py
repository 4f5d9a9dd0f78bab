#!/usr/bin/env python3
"""Times lookups by viewers beside a writer that publishes, and the same lookups by opens under the lock; and counts what a lookup takes among few rows and many.

    bench/viewers.py PROGRAM

PROGRAM is the built `viewers`. Each rate is that of many lookups less few, the least time of five runs each, so what a start takes is left out. Instructions are
counted by valgrind's callgrind: of a run with twice the lookups, less one with them once. With 100,000 rows they may grow to 1.5 times those with 10, and the last
lines say whether they do. Nothing here fails; a run that is refused ends it.
"""

import re
import shutil
import subprocess
import sys
import time

RUNS = 5
FEW, MANY = 100_000, 2_100_000
FEW_OPENS, MANY_OPENS = 10_000, 210_000
ROWS = (10, 1_000, 100_000)
LOOKUPS = 10_000
MOST_GROWTH = 1.5
OPERATIONS = {"find": "a lookup in a directory", "resolve": "a path of four components"}


def seconds(program, words):
    """The least time of some runs."""
    took = []
    for _ in range(RUNS):
        before = time.perf_counter()
        subprocess.run([program, *words], check=True, capture_output=True)
        took.append(time.perf_counter() - before)
    return min(took)


def instructions(program, operation, rows, lookups):
    """The instructions of a run, which finds what it looks for."""
    words = [program, operation, str(rows), str(lookups)]
    ran = subprocess.run(["valgrind", "--tool=callgrind", "--callgrind-out-file=/dev/null", *words], capture_output=True, check=False)
    found = re.search(rb"Collected : (\d+)", ran.stderr)
    if ran.returncode or not found or ran.stdout != f"found {lookups}\n".encode():
        sys.exit(f"viewers: the run of {words[1:]} ended in {ran.returncode}")
    return int(found[1])


def count(program):
    """Prints what an operation takes among so many rows, and how much it grows."""
    if not shutil.which("valgrind"):
        print("viewers: there is no valgrind here")
        return
    for operation, shows in OPERATIONS.items():
        taken = []
        for rows in ROWS:
            taken.append((instructions(program, operation, rows, 2 * LOOKUPS) - instructions(program, operation, rows, LOOKUPS)) / LOOKUPS)
            print(f"{shows} among {rows:,} rows: {taken[-1]:,.0f} instructions", flush=True)
        growth = taken[-1] / taken[0]
        print(f"{shows}: {growth:.2f} times as many among {ROWS[-1]:,} as among {ROWS[0]:,}, {'at most' if growth <= MOST_GROWTH else 'MORE THAN'} {MOST_GROWTH}", flush=True)


def main():
    if len(sys.argv) != 2:
        sys.exit("usage: bench/viewers.py PROGRAM")
    program = sys.argv[1]
    for viewers in (1, 2, 4):
        took = seconds(program, ["look", str(viewers), str(MANY)]) - seconds(program, ["look", str(viewers), str(FEW)])
        print(f"{viewers} viewers beside a writer: {viewers * (MANY - FEW) / took:,.0f} lookups a second")
    took = seconds(program, ["open", str(MANY_OPENS)]) - seconds(program, ["open", str(FEW_OPENS)])
    print(f"opens under the lock: {(MANY_OPENS - FEW_OPENS) / took:,.0f} lookups a second")
    count(program)


if __name__ == "__main__":
    main()
