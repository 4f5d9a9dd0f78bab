#!/usr/bin/env python3
"""Times the check of journals beside the scripts that they are of, and shows what memory it takes.

    bench/journal.py PROGRAM

PROGRAM is the built `ntns`. It writes each journal itself, of a script of one seat. A rate is that of many rounds less few, the least time of
five runs each, so what a start takes is left out. Memory is the most that a run held less that of a run over an empty journal, beside the
journal's own bytes, which it reads whole. Nothing here fails; a journal that is refused ends it.
"""

import subprocess
import sys
import tempfile
import time
from pathlib import Path

RUNS = 5
FEW, MANY = 10_000, 110_000

# what a round of a script is, behind what stands there before, with the entries that it takes
SCRIPTS = {
    "closes of no handle": ("", "p1 close z\n", 1),
    "directories made, opened and closed": ("", 'p1 dir "\\A" - =a\np1 opendir "\\A" - =b\np1 close a\np1 close b\n', 4),
    "files behind a device opened and closed": ('p1 make Device "\\D" P "x" =d\n', 'p1 open File "\\D\\x" - =f\np1 close f\n', 3),
    "opens through eight links": (
        "".join(f'p1 link "\\L{n}" P "\\L{n + 1}" =l\n' for n in range(8)) + 'p1 dir "\\L8" P =d\n',
        'p1 opendir "\\L0" - =o\np1 close o\n',
        2,
    ),
    "events made and held": ("", 'p1 make Event none - "" =e\n', 1),
}


def held_by(process):
    """The most memory that a process held until now, in bytes; 0 once it has ended."""
    try:
        lines = Path(f"/proc/{process}/status").read_text().splitlines()
    except OSError:
        return 0
    return next((int(line.split()[1]) * 1024 for line in lines if line.startswith("VmHWM:")), 0)


def run(words):
    """How long a run took, the most memory that it was seen to hold, in bytes, and what it printed."""
    with tempfile.TemporaryFile() as printed:
        before = time.perf_counter()
        with subprocess.Popen(words, stdout=printed) as child:
            held = 0
            while now := held_by(child.pid):
                held = max(held, now)
        took = time.perf_counter() - before
        printed.seek(0)
        text = printed.read()
    if child.returncode:
        sys.exit(f"{' '.join(words)} ended with {child.returncode}: {text[-200:]}")
    return took, held, text


def least(words):
    """The least time of some runs."""
    took = []
    for _ in range(RUNS):
        before = time.perf_counter()
        subprocess.run(words, stdout=subprocess.DEVNULL, check=True)
        took.append(time.perf_counter() - before)
    return min(took)


def main():
    if len(sys.argv) != 2:
        sys.exit("usage: bench/journal.py PROGRAM")
    program = sys.argv[1]
    with tempfile.TemporaryDirectory(prefix="ntns-bench-") as folder:
        empty = Path(folder) / "empty"
        empty.write_bytes(b'{"first":1,"journal":2,"seats":1,"segment":1}\n')
        _, least_memory, _ = run([program, "replay", str(empty)])
        for shows, (there, line, entries) in SCRIPTS.items():
            took = {}
            for count in (FEW, MANY):
                rounds = min(count // entries, 60_000) if "held" in shows else count // entries
                script, journal = Path(folder) / "script", Path(folder) / "journal"
                script.write_text(there + line * rounds)
                journal.write_bytes(run([program, "threads", str(script)])[2])
                took[count] = rounds, least([program, "run", str(script)]), least([program, "replay", str(journal)])
                memory = run([program, "replay", str(journal)])[1] - least_memory
                size = journal.stat().st_size
                print(f"{shows}, {rounds * entries:,} entries: {memory / 1e6:.1f} MB of memory, the journal's {size / 1e6:.1f} MB among them")
            (few, script_few, check_few), (many, script_many, check_many) = took[FEW], took[MANY]
            made = (many - few) * entries
            print(f"{shows}: {made / (check_many - check_few):,.0f} entries checked a second, {made / (script_many - script_few):,.0f} steps run a second")


if __name__ == "__main__":
    main()
