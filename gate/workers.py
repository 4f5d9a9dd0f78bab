"""Random scripts with workers, whose journals `ntns` has to accept, and scripts whose memory has to stay."""

import random
import re

import journal  # of bench/

from runs import fault_of_journal, run

SCRIPTS = 1_000

# forms of lines: process, name, flags and variable are drawn
LINES = (
    'p{p} dir "{n}" {f} ={v}',
    'p{p} shadow {v} "{n}" {f} ={v}',
    'p{p} link "{n}" {f} "{n}" ={v}',
    'p{p} make Event "{n}" {f} "" ={v}',
    'p{p} make Device "\\Device{n}" {f} "x" ={v}',
    'p{p} make Key "{n}" {f} "S;L>{n}" ={v}',
    'p{p} opendir "{n}" {f} ={v}',
    'p{p} open any "{n}" {f} ={v}',
    'p{p} open File "\\Device{n}\\x" - ={v}',
    'p{p} begin any "\\Device{n}\\x" - ={v}',
    'p{p} begin any "{n}\\L" - ={v}',
    *(f"p{{p}} {verb} {{v}}" for verb in ("end", "drop", "close", "close", "temp", "perm", "name", "map")),
    "p{p} dup {v} p2 inherit ={v}",
    "p{p} list {v} 1000 first",
    "p{p} new inherit =p2",
    "p2 exit",
    "stat",
    *["seal"] * 2,
)

# how many times names come and go, and how many kB more that takes at most than one name that does
TIMES, MOST_MORE = 100_000, 1_000


def script_of(seed):
    """A script with one to four workers."""
    draw = random.Random(seed)

    def lines(most):
        drawn = ({"p": draw.choice("1112"), "n": draw.choice(("\\A", "\\B", "\\A\\C", "\\a")), "f": draw.choice("-CPOI"), "v": draw.choice("abc")} for _ in range(draw.randint(0, most)))
        return [draw.choice(LINES).format(**it) for it in drawn]

    parts = [lines(20)]
    for _ in range(draw.randint(1, 4)):
        parts.append(["thread", *lines(40)])
    return "".join(f"{line}\n" for part in (*parts, ["join"], lines(20)) for line in part)


def fault_of_script(program, seed):
    """What is wrong with the journal of a random script: it has to be accepted, with the workers' entries between those of seat 0."""
    left = run([program, "threads", "FILE"], script_of(seed).encode())
    seats = re.sub("[1-9]+", "w", "".join(re.findall(r'"seat":(\d)', left.output.decode())))
    if left.status or not re.fullmatch("0*w?0*", seats):
        return f"script {seed}: it ends in {left.status}, by seats {seats}"
    return fault_of_journal(program, left.output)


def faults_of_names(program, folder):
    """What is wrong with the memory of names that come and go, each beside one that differs by case alone."""
    most = []
    for number in (lambda it: it, lambda it: 0):
        script = folder / "names"
        rounds = (f'p1 make Event "\\Foo{number(it):06}" - "" =a\np1 make Event "\\foo{number(it):06}" - "" =b\np1 close a\np1 close b\n' for it in range(TIMES))
        script.write_text("".join(rounds))
        _, memory, output = journal.run([program, "run", script])
        yield "" if output.count(b": SUCCESS\n") == 4 * TIMES else "names that come and go: a line was refused"
        most.append(memory // 1024)
    yield "" if most[0] <= most[1] + MOST_MORE else f"names that come and go take {most[0]} kB, one name {most[1]} kB"
