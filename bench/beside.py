#!/usr/bin/env python3
"""Counts the instructions of calls of the library that `make lib` leaves, beside those of a namespace written by hand (`bench/beside.c`).

    bench/beside.py

Each count is that of a run with twice the rounds, less one with them once, by valgrind's callgrind. It fails where a call isn't answered as it should be.
"""

import os
import re
import shutil
import subprocess
import sys
import tempfile
from pathlib import Path

ROOT = Path(__file__).resolve().parent.parent
ROUNDS = 2_000
OPERATIONS = {"open": "an open three components deep, and its close", "miss": "a miss", "create": "a temporary event created and closed"}


def count(*words):
    """The instructions of a run."""
    ran = subprocess.run(["valgrind", "--tool=callgrind", "--callgrind-out-file=/dev/null", *words], capture_output=True, check=False)
    found = re.search(rb"Collected : (\d+)", ran.stderr)
    if ran.returncode or not found:
        sys.exit(f"beside: the run of {words[1:]} ended in {ran.returncode}")
    return int(found[1])


def main():
    if not shutil.which("valgrind"):
        print("beside: there is no valgrind here")
        return
    with tempfile.TemporaryDirectory(prefix="ntns-beside-") as folder:
        program = str(Path(folder) / "beside")
        words = [os.environ.get("CC", "cc"), "-std=c11", "-O2", "-I", str(ROOT / "out"), str(ROOT / "bench" / "beside.c"), str(ROOT / "out" / "libntns.a")]
        subprocess.run([*words, "-o", program], check=True)
        for operation, shows in OPERATIONS.items():
            taken = [(count(program, whose, operation, str(2 * ROUNDS)) - count(program, whose, operation, str(ROUNDS))) / ROUNDS for whose in ("ntns", "hand")]
            print(f"{shows}: {taken[0]:,.0f} instructions, by hand {taken[1]:,.0f}", flush=True)


if __name__ == "__main__":
    main()
