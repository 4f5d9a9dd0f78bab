#!/usr/bin/env python3
"""Runs the built program `ntns` with each of its requests for memory refused in turn, and with each read and each write failing in turn.

`hostile/refuse.c` is compiled and preloaded, and counts the requests, reads and writes of a run. Of each case there is a run of each kind:

- its Nth request for memory is refused, and then again its Nth and all after it, for every N up to the number of its requests;
- its Nth read fails, and its Nth write, with EIO and with EINTR, for every N up to their number;
- each read gives and each write takes one byte.

A run out of memory ends as the whole run, or with `N: want of memory` after the replies to the lines before N, or with `ntns: want of memory` and no output.
A parse out of memory ends nothing: its line replies NO_MEMORY, and the run goes on as that of the script in which the open there is refused, or given up. Of
`tree` such a line is all that a run out of memory writes. A run whose read fails writes nothing; one whose write fails leaves a prefix of the output.

The program that `--steps` names, `callers`, makes steps under the lock of a namespace that four callers share, a line each, with the argument `refused`, and
the Nth alone if N follows; it says whether anything changed where a step was out of memory. It is run with each request of each step refused in turn: each
line then says that nothing had changed, and what it says without, with the same journal, which `PROGRAM` has to accept. `hostile/callers.txt` says how many
requests each step makes, so that one that creeps into an open, or into a close, is seen.

The program that `--viewers` names, `viewers`, publishes with the argument `refused`, a step at a time. It is run with each of its requests refused in turn: unless the
open itself is out of memory, it says that viewers saw what they had seen, and that the next publish showed all.

    gate/refusals.py PROGRAM [--steps STEPS] [--viewers VIEWERS] [--long] [SCRIPT..]      --long: longer scripts, and the scripts that are named, in place of the gate's cases
    gate/refusals.py PROGRAM --steps STEPS --renew                    writes that text anew
"""

import argparse
import itertools
import json
import os
import re
import shutil
import subprocess
import sys
import tempfile
from concurrent.futures import ThreadPoolExecutor
from dataclasses import dataclass
from pathlib import Path
from typing import NamedTuple

from crates import ROOT
from runs import Count, Left, fault_of_journal, parted, run, tried

HOSTILE, EXAMPLES = ROOT / "hostile", ROOT / "examples"
COMPILE = ("-std=c11", "-shared", "-fPIC", "-O2", "-Wall", "-Wextra", "-Werror")

# input of eleven reads, and output of three writes
LONG = b'p1 opendir "\\" - =r\n#' + b"x" * 9_000 + b'\np1 make Event r:"' + b"n" * 30_000 + b'" - "" =e\n' + b"p1 name e\n" * 5

# a script that leaves an object of each sort, and parses nothing
TREE = b'p1 dir "\\A" P =a\np1 shadow a none I =s\np1 link a:"L" E "\\A" =l\np1 make Event s:"E" - "" =e\np1 new inherit =q\nq map s\n'
BAD = b'p1 dir "\\A" - =a\nno line\np1 close a\n'

OUT_OF_MEMORY = Left(1, b"", b"ntns: want of memory\n")
NO_READ = Left(1, b"", b"ntns: cannot read\n")
NO_WRITE = b"ntns: cannot write\n"

# lines of a session, of which none depends on another
SESSION = b"tree\nstat\ntree\np1 close a\n"

CAUGHT_UP = Left(0, b"after a refused publish the next shows all: yes\n", b"")
NOT_OPENED = b"after a refused publish the next shows all: NO\n"
FEWEST_LATE = 40


@dataclass(frozen=True)
class Case:
    """A run of the program. Its kind says what it prints: the replies of a script's lines, the journal of workers, that of a crowd, or something else."""

    shows: str
    words: tuple = ()
    script: bytes = b""
    kind: str = "lines"


class Counted(NamedTuple):
    """What a run left; how many requests, refused ones, reads and writes it made; the requests before its first write to standard output, and after each."""

    left: Left
    requests: int
    refused: int
    reads: int
    writes: int
    by_write: tuple


def cases(journal):
    """The gate's cases; the journal is that of a run with workers."""
    forms, workers, crowd = ((HOSTILE / name).read_bytes() for name in ("forms.ntns", "workers.ntns", "crowd.ntns"))
    yield from (Case(f"examples/{path.name}", (), path.read_bytes()) for path in sorted(EXAMPLES.glob("*.ntns")))
    yield Case("each form of line", (), forms)
    yield Case("much to read and to write", (), LONG)
    yield Case("a script with a bad line, in a file", ("run", "FILE"), BAD)
    yield Case("a script with workers", ("threads", "FILE"), workers, "journal")
    yield Case("three workers at a time", ("threads", "FILE"), crowd, "crowd")
    yield Case("a script with workers that has a bad line", ("threads", "FILE"), BAD, "other")
    yield Case("a journal", ("replay", "FILE"), journal, "other")
    yield Case("a script that is no journal", ("replay", "FILE"), BAD, "other")
    yield Case("the check of a script", ("check", "FILE"), BAD, "other")
    yield Case("the check of a script of which much is wrong", ("check", "FILE"), b"no line\n" * 3_000, "other")
    yield Case("a session with trees", ("session",), SESSION, "session")
    yield Case("a file that isn't there", ("run", "missing"), kind="other")
    yield Case("a tree", ("tree", "FILE"), TREE, "tree")
    yield Case("a tree in JSON", ("tree", "--json", "FILE"), TREE, "tree")
    yield Case("the tree of a script with a bad line", ("tree", "FILE"), BAD, "tree")
    yield Case("help", ("--help",), kind="other")
    yield Case("the version", ("--version",), kind="other")
    yield Case("a mistake in the arguments", ("other",), kind="other")


def longer():
    """The longer scripts: names, handles, processes and pending opens, each many."""
    nested = [b'p1 dir "\\d" - =d0\n', *(b'p1 dir d%d:"d" - =d%d\np1 name d%d\n' % (n - 1, n, n) for n in range(1, 60))]
    yield Case("sixty nested directories", (), b"".join(nested) + b"p1 exit\nstat\n")
    names = [b'p1 dir "\\M" - =m\n', *(b'p1 make Event m:"E%d" P "" =e\np1 close e\n' % n for n in range(120))]
    yield Case("a directory of 120 names", (), b"".join(names) + b"p1 list m 300 first\n" + b"p1 list m 300 next\n" * 9)
    handles = [b'p1 make Event "\\E" I "" =e0\n', *(b'p1 open Event "\\E" I =e%d\n' % n for n in range(1, 120))]
    yield Case("120 handles that a child inherits", (), b"".join(handles) + b"p1 new inherit =q\nq new inherit =r\nq exit\nr name e7\nstat\n")
    opens = [b'p1 make Device "\\D" - "x" =d\n', *(b'p1 begin File "\\D\\x" - =w%d\n' % n for n in range(50))]
    yield Case("fifty pending opens", (), b"".join(opens) + b"".join(b"p1 end w%d\n" % n for n in range(0, 50, 2)) + b"stat\n")


class Bench:
    """A program, and the folder with the library that is preloaded to it."""

    def __init__(self, program, folder):
        self.program, self.folder, self.wholes = str(program.resolve()), folder, {}

    def compile(self):
        """Compiles the library."""
        compiler = next(filter(shutil.which, (os.environ.get("CC", "cc"), "gcc", "clang")), "cc")
        subprocess.run([compiler, *COMPILE, "-o", f"{self.folder}/refuse.so", HOSTILE / "refuse.c", "-ldl"], check=True)

    def run(self, words, script, **variables):
        """What the program leaves under these variables, counted."""
        with os.fdopen(os.memfd_create("counts"), "r+b") as file:
            settings = {name: str(value) for name, value in variables.items()} | {"LD_PRELOAD": f"{self.folder}/refuse.so", "TELL": str(file.fileno())}
            left = run([self.program, *words], script, self.folder, env=settings, pass_fds=(file.fileno(),))
            file.seek(0)
            found = re.fullmatch(r"requests (\d+) refused (\d+) reads (\d+) writes (\d+)((?: \d+)*)\n", file.read().decode())
        if not found:
            raise OSError("the library counted nothing")
        return Counted(left, *map(int, found.groups()[:4]), tuple(map(int, found[5].split())))

    def whole(self, words, script=b""):
        """What a run leaves that nothing befalls."""
        if (words, script) not in self.wholes:
            self.wholes[words, script] = self.run(words, script)
        return self.wholes[words, script]


# --------------------------------------------------------------------------------------------------------------------
# What a run may leave that was refused memory


def number_of(line):
    """The number of the script's line that a line of output is the reply to."""
    found = re.match(rb"(\d+): ", line)
    return int(found[1]) if found else 0


def without_parse(script, number):
    """A script in which the line of this number opens nothing, in place of an open whose parse is out of memory; nothing if it is no such line."""
    lines = script.split(b"\n")
    if ended := re.fullmatch(rb"(\w+) end (\w+)", lines[number - 1]):
        lines[number - 1] = b"%s drop %s" % ended.groups()
    elif opened := re.fullmatch(rb"(\w+) (?:open|opendir|openlink|begin|dir|shadow|link|make) .* =(\w+)", lines[number - 1]):
        lines[number - 1] = b'%s opendir "\\%%07" - =%s' % opened.groups()
    else:
        return None
    return b"\n".join(lines)


def fault_of_lines(bench, case, whole, left):
    """What is wrong with the run of a script that was refused memory, of which this is the whole run."""
    script, parses = case.script, set()
    while left != whole:
        lines, others = left.output.splitlines(keepends=True), whole.output.splitlines(keepends=True)
        alike = sum(1 for _ in itertools.takewhile(lambda pair: pair[0] == pair[1], zip(lines, others)))
        if alike == len(lines):
            return "it stops without a word"
        line, number = lines[alike], number_of(lines[alike])
        other = number_of(others[alike]) if alike < len(others) else None
        if line == b"%d: want of memory\n" % number:
            is_last = alike + 1 == len(lines) and (left.status, left.errors) == (1, b"")
            is_next = (other is None or number <= other) and (not alike or number_of(others[alike - 1]) < number)
            return "" if is_last and is_next else "it ends wrongly with `want of memory`"
        if line != b"%d: NO_MEMORY\n" % number or number != other or number in parses:
            return f"it has another line: {line[:200]}"
        script = without_parse(script, number)
        if script is None:
            return f"line {number} has no parse"
        parses.add(number)
        status, output, errors = bench.whole(case.words, script).left
        whole = Left(status, b"".join(b"%d: NO_MEMORY\n" % number_of(it) if number_of(it) in parses else it for it in output.splitlines(keepends=True)), errors)
    return ""


def steps_of(journal, seat):
    """The steps of a seat in turn: what each asked for."""
    lines = map(json.loads, journal.splitlines())
    return [(it["step"]["op"], it["step"].get("name")) for it in lines if it.get("seat") == seat]


def fault_of_workers(bench, whole, left):
    """What is wrong with a run with workers: its journal is accepted, and each seat asked for a prefix of what it asks for, and gave up its pending opens."""
    if (left.status, left.errors) not in ((whole.status, whole.errors), (1, OUT_OF_MEMORY.errors)):
        return "it ends in another way"
    if bench.run(("replay", "FILE"), left.output).left.status != 0:
        return "its journal is refused"
    for seat in range(64):
        asked, wanted = steps_of(left.output, seat), steps_of(whole.output, seat)
        while asked and asked[-1][0] == "abandon":
            asked.pop()
        if asked != wanted[: len(asked)]:
            return f"seat {seat} asked for {asked}"
        if left.status == 0 and len(asked) != len([it for it in wanted if it[0] != "abandon"]):
            return f"seat {seat} stopped without a word"
    return ""


def fault_of_session(whole, left):
    """What is wrong with the session of these lines that was refused memory: each line has its reply, or says that memory ran out, until a read runs out of it."""
    drawn, first, last = whole.output[: whole.output.index(b"2: ")], *re.findall(rb"^[24]: .*\n", whole.output, re.MULTILINE)
    rest, count = left.output, 0
    for number, reply in enumerate((drawn, first, drawn, last), 1):
        said = next((it for it in (reply, b"%d: want of memory\n" % number) if rest.startswith(it)), None)
        if said is None:
            break
        rest, count = rest[len(said) :], number
    is_whole = count == 4 and (left.status, left.errors) == (0, b"")
    return "" if not rest and (is_whole or (left.status, left.errors) == (1, OUT_OF_MEMORY.errors)) else "a line has another reply"


def fault_of_refused(bench, case, whole, left):
    """What is wrong with a run that was refused memory, of which this is the whole run."""
    if left == OUT_OF_MEMORY:
        return ""
    if case.kind in ("journal", "crowd"):
        return fault_of_workers(bench, whole, left)
    if case.kind == "lines":
        return fault_of_lines(bench, case, whole, left)
    if case.kind == "session":
        return fault_of_session(whole, left)
    if case.kind == "tree" and left.status == 1 and not left.errors and re.fullmatch(rb"\d+: want of memory\n", left.output):
        return ""
    return "" if left == whole else "it ends in another way"


def refused_runs(bench, case, whole, variable):
    """The runs whose Nth request is refused, up to the first in which none is."""
    for number in itertools.count(1):
        ran = bench.run(case.words, case.script, **{variable: number})
        if not ran.refused:
            break
        yield f"{variable}={number}", ran.left, fault_of_refused(bench, case, whole.left, ran.left)
    is_whole = case.kind == "crowd" or (number > whole.requests and ran.left == whole.left)
    yield f"{variable}={number}", ran.left, "" if is_whole else "none was refused"


# --------------------------------------------------------------------------------------------------------------------
# What a run may leave whose read or write fails


def failed_reads(bench, case, whole, settings):
    """The runs whose Nth read fails: they write nothing, or a session the replies to the lines that it read, and say so. A session makes an interrupted read again."""
    for number in range(1, whole.reads + 1):
        left = bench.run(case.words, case.script, FAIL_READ=number, **settings).left
        is_cut = (left.status, left.errors) == (1, NO_READ.errors) and whole.left.output.startswith(left.output)
        is_session = case.kind == "session" and (left == whole.left if settings else is_cut)
        yield f"FAIL_READ={number}", left, "" if left == NO_READ or is_session else "it goes on"


def failed_writes(bench, case, whole, settings):
    """The runs whose Nth write fails: each leaves a longer prefix of the output, or all of it and a prefix of the errors."""
    longest = -1
    for number in range(1, whole.writes + 1):
        left = bench.run(case.words, case.script, FAIL_WRITE=number, **settings).left
        if number < len(whole.by_write):
            is_prefix = whole.left.output.startswith(left.output) and longest < len(left.output) < len(whole.left.output)
            is_right = is_prefix and (left.status, left.errors) == (1, NO_WRITE)
            longest = len(left.output)
        else:
            is_right = left[:2] == whole.left[:2] and whole.left.errors.startswith(left.errors) and left.errors != whole.left.errors
        yield f"FAIL_WRITE={number}", left, "" if is_right else "it ends in another way"


def run_by_bytes(bench, case, whole):
    """The run that reads and writes a byte at a time: it leaves the same, by as many reads and writes as there are bytes."""
    ran = bench.run(case.words, case.script, ONE_BYTE=1)
    writes, reads = len(ran.left.output) + len(ran.left.errors), len(case.script) + 1 if whole.reads else ran.reads
    is_right = (ran.left, ran.writes, ran.reads) == (whole.left, writes, reads)
    return "a byte at a time", ran.left, "" if is_right else f"it ends in another way, with {ran.reads} reads and {ran.writes} writes"


def runs_of(bench, case):
    """The runs of a case: how each differs from the whole run, what it left, and what is wrong with it."""
    whole = bench.whole(case.words, case.script)
    for variable in ("REFUSE_REQUEST", "REFUSE_FROM"):
        yield from refused_runs(bench, case, whole, variable)
    if case.kind != "crowd":
        for settings in ({}, {"FAIL_INTERRUPTED": 1}):
            yield from failed_reads(bench, case, whole, settings)
            yield from failed_writes(bench, case, whole, settings)
        yield run_by_bytes(bench, case, whole)


def faults_of_case(bench, case):
    """What is wrong with the runs of a case."""
    for differs, left, fault in runs_of(bench, case):
        yield fault and f"{differs}: {fault}; it left {str(left)[:1000]}"


# --------------------------------------------------------------------------------------------------------------------
# Steps of a namespace

# what a step's line says after its name if the step was out of memory and the namespace was as before
UNCHANGED = b" .. refused, nothing changed, then "

# the writes of a line: its name, the end of the step, what came of it, and the line's end
WRITES = 4


def requests_of(whole):
    """A line for each step: how many requests it makes, its name, and how it came, without the numbers after that."""
    lines = [line.partition(", entries ")[0] for line in parted(whole.left.output)[0].decode().splitlines()[:-1]]
    counts = whole.by_write[1::WRITES][: len(lines)]
    return [f"{count:2} {line}" for count, line in zip(counts, lines, strict=True)]


def kept_of(bench):
    """The file that says how many requests the steps of a program make."""
    return HOSTILE / f"{Path(bench.program).name}.txt"


def fault_of_step(line, end, left, program):
    """What is wrong with a run of a step alone that was refused memory, where this is its line without, and the last one; and whether the step says that it was
    refused. The program is the one that judges journals."""
    output, written = parted(left.output)
    is_refused = UNCHANGED in output
    if (left.status, output.replace(UNCHANGED, b" .. ", 1), left.errors) != (0, line + b"\n" + end + b"\n", b""):
        return f"it left {left}", is_refused
    return next(filter(None, (fault_of_journal(program, it) for it in written)), ""), is_refused


def faults_of_steps(bench, program):
    """What is wrong with the run of each step whose Nth request is refused, for every N."""
    whole = bench.whole(("refused",))
    output, errors = whole.left.output, whole.left.errors
    yield "" if whole.left.status == 0 and not errors else f"it ends in {whole.left.status}: {errors}"
    requests, kept = requests_of(whole), kept_of(bench).read_text().splitlines()
    yield "" if requests == kept else f"{kept_of(bench).name} differs: " + "; ".join(sorted(set(requests) ^ set(kept), key=lambda line: line[3:]))
    *lines, end = parted(output)[0].splitlines()
    for place, line in enumerate(lines):
        words, requests, refused = ("refused", str(place + 1)), whole.by_write[1 + WRITES * place], 0
        journal = parted(bench.whole(words).left.output)[1]
        for number in range(1, requests + 1):
            left = bench.run(words, b"", REFUSE_BEHIND=1, REFUSE_REQUEST=number).left
            fault, is_refused = fault_of_step(line, end, left, program)
            refused += is_refused
            fault = fault or ("" if parted(left.output)[1] == journal else "its journal is another one")
            yield fault and f"refused request {number}: {fault}"
        yield "" if refused or not requests else f"{line.decode()}: it was never refused"


def faults_of_viewers(bench):
    """What is wrong with the run of viewers whose Nth request is refused, for every N."""
    whole, refused_late = bench.whole(("refused",)), 0
    yield "" if whole.left == CAUGHT_UP else f"it left {whole.left}"
    for number in range(1, whole.requests + 1):
        left = bench.run(("refused",), b"", REFUSE_REQUEST=number).left
        refused_late += left == CAUGHT_UP
        is_early = left.status == 1 and left.output in (b"", NOT_OPENED)
        yield "" if left == CAUGHT_UP or is_early else f"refused request {number}: it left {left}"
    yield "" if refused_late >= FEWEST_LATE else f"only {refused_late} requests were refused after the open"


def main():
    parser = argparse.ArgumentParser(usage="gate/refusals.py PROGRAM [--steps STEPS] [--viewers VIEWERS] [--renew] [--long] [SCRIPT..]")
    parser.add_argument("program", type=Path)
    parser.add_argument("scripts", type=Path, nargs="*")
    parser.add_argument("--long", action="store_true")
    parser.add_argument("--steps", type=Path)
    parser.add_argument("--viewers", type=Path)
    parser.add_argument("--renew", action="store_true")
    asked = parser.parse_intermixed_args()
    count = Count("refusals")
    with tempfile.TemporaryDirectory(prefix="ntns-refused-") as folder, ThreadPoolExecutor(len(os.sched_getaffinity(0))) as pool:
        bench, steps = Bench(asked.program, folder), asked.steps and Bench(asked.steps, folder)
        bench.compile()
        if asked.renew:
            kept_of(steps).write_text("\n".join(requests_of(steps.whole(("refused",)))) + "\n")
            return 0
        if asked.long or asked.scripts:
            found = [*(longer() if asked.long else ()), *(Case(str(path), (), path.read_bytes()) for path in asked.scripts)]
        else:
            found = cases(bench.run(("threads", "FILE"), (HOSTILE / "workers.ntns").read_bytes()).left.output)
        played = [(asked.steps.name, faults_of_steps(steps, bench.program))] if steps else []
        played += [(asked.viewers.name, faults_of_viewers(Bench(asked.viewers, folder)))] if asked.viewers else []
        played += [(case.shows, faults_of_case(bench, case)) for case in found]
        for shows, faults in [(shows, pool.submit(list, tried(faults))) for shows, faults in played]:
            count.add(shows, faults.result())
    return count.end()


if __name__ == "__main__":
    sys.exit(main())
