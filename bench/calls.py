#!/usr/bin/env python3
"""Times operations by calls from C of the library that `make lib` leaves, those of `clients/bench.c`.

    bench/calls.py ROUNDS

Each rate is the best of three runs. It fails where a call isn't answered as it should be, and nowhere else.
"""

import os
import re
import subprocess
import sys
import tempfile
from pathlib import Path

ROOT = Path(__file__).resolve().parent.parent
RUNS = 3


def rates(*words):
    """How many rounds of each operation are made a second, in the order in which they are told."""
    printed = subprocess.run(words, stdout=subprocess.PIPE, text=True, check=True).stdout
    return {name: int(rate) for name, rate in re.findall(r"^(.*): ([0-9]+) a second$", printed, re.MULTILINE)}


def main():
    if len(sys.argv) != 2:
        sys.exit("usage: bench/calls.py ROUNDS")
    with tempfile.TemporaryDirectory(prefix="ntns-bench-") as folder:
        program = str(Path(folder) / "bench")
        words = [os.environ.get("CC", "cc"), "-std=c11", "-O2", "-I", str(ROOT / "out"), str(ROOT / "clients" / "bench.c"), str(ROOT / "out" / "libntns.a")]
        subprocess.run([*words, "-o", program], check=True)
        runs = [rates(program, sys.argv[1]) for _ in range(RUNS)]
    for name in runs[0]:
        print(f"{name}: {max(run[name] for run in runs)} a second")


if __name__ == "__main__":
    sys.exit(main())
