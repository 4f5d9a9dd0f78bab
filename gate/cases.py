#!/usr/bin/env python3
"""Runs the built program `ntns` on the tables of `cases/`, a run a row or more, and compares what it leaves byte for byte.

- `lines.txt`: lines that are no script line, each closed by a bar. Each is run alone, without workers and, except `thread` and
  `seal`, with them.
- `misfits.txt`: lines that are none, each closed by a bar, and where it stops: the column, and what is expected there; `^0D` is the byte 0x0D.
  `gate/misfits.py` makes more, by the forms of docs/script.md.
- `scripts.txt`: scripts, each after a line `== NAME`. A row is a line and, after ` | `, its reply. If `| N letters` or `| N to M letters` follows the name,
  `@` is so many letters, and the script is run once for each number.
- `lookups.txt`: such scripts of names that are looked up. `gate/lookups.py` makes more, by a plain search.
- `objects.txt`: such scripts of what makes an object, and of names behind devices and keys.
- `requests.txt`: a script whose journal shows each form of a line as a step: the line, then the steps that it makes, each with its reply.
- `workers.txt`: scripts with workers, with `/` for the end of a line: how many seats the journal has, or which line is none.
- `journals.txt`: what the check of a journal says. After a line `# NAME`, a row is a verdict and, after ` | `, the text; lines with `>` precede it, a text
  after `(` or `)` precedes or follows the text of each row. `^41` is the byte 0x41, `^41*20;` twenty of them.
- `worked/`: worked cases, a file a subject, which its first line names. A case is a line `== WHAT IT SHOWS`, perhaps a line `$ ntns|ARGUMENT|ARGUMENT`, its
  script, which is in a file if one of the arguments is `FILE`, and else on standard input, then `-- ends with STATUS` and what is left: on standard error if
  it begins with `ntns: ` or `error: `, else on standard output, with nothing on the other. `<<a*3>>` is `aaa`, `<<{}*3>>` is `123`, `<<successes*3>>` says
  that the lines 1 to 3 succeed; `<<` at the end of a line, with `*0>>` at the beginning of the next, removes that end. Arguments name the files of `FILES`,
  and `two`, which isn't there.

The blocks of `docs/windows.md` are scripts of such rows too.

Then it measures how much memory many directories take, and, where valgrind is there, checks that an open asks the cache of prefixes. If the program `callers`
is named, `PROGRAM` has to accept each journal that it writes, of what its callers do together, at once and without memory.

    gate/cases.py PROGRAM [CALLERS]
"""

import itertools
import os
import re
import shutil
import string
import sys
import tempfile
from concurrent.futures import ThreadPoolExecutor
from pathlib import Path

import lookups as searched
import misfits
import runs
from crates import ROOT
from runs import Case, Count, dialogue, fault_of_journal, in_full, parted, run, sections

sys.path.append(str(ROOT / "bench"))

import instructions  # noqa: E402  (of bench/)
import journal  # noqa: E402
import workers as random_workers  # noqa: E402

CASES = ROOT / "cases"

# so many permanent directories in one, without handles, take at most so many bytes each, the program itself included and its script not; and more than an
# entry, or the run wasn't seen
MANY, LEAST_EACH, MOST_EACH = 500_000, 48, 280

# an open and a close of a name of sixteen components takes at most so many times the instructions of one as long of two; without the cache, 1.5 and 1.6 times
MOST_TIMES = 1.3

THREADS, REPLAY = ("threads", "FILE"), ("replay", "FILE")

# the status of the program after a verdict
REFUSED, ACCEPTED = 3, 0

# the header of a journal that is one segment
HEADER = '{"first":1,"journal":2,"seats":%d,"segment":1}\n'

# the entries of `workers.txt`, by the lines that make them
ENTRIES = {
    "p1 close a": '{"n":1,"reply":{"status":3221225480},"seat":0,"step":{"handle":0,"op":"close","proc":1}}\n',
    "p1 exit": '{"n":2,"reply":{"status":0},"seat":0,"step":{"op":"exit","proc":1}}\n',
}

# the files that worked cases name: a script, one with a line that is none, and a journal of one entry
FILES = {
    "one": "p1 close z\nq close z\n",
    "bad": "no line\n",
    "journal": HEADER % 1 + '{"n":1,"reply":{"handle":4,"status":0},"seat":0,"step":{"flags":0,"name":"\\\\A","op":"dir","proc":1,"root":null}}\n',
}


def rows_of(table):
    """The lines of a table."""
    return (CASES / table).read_text(encoding="ascii").splitlines()


def lines():
    """Runs of lines that are none."""
    for row in rows_of("lines.txt"):
        line = row.removesuffix("|")
        for words in [()] if line in ("thread", "seal") else [(), THREADS]:
            yield Case(f"no line: {row}", words, 1, b"1: not a script line\n", script=line.encode())


def scripts(table="scripts.txt"):
    """Runs of scripts with their replies."""
    for head, text in sections(CASES / table):
        name, _, counts = head.partition(" | ")
        numbers = [int(number) for number in re.findall(r"\d+", counts)] or [0]
        for letters in range(numbers[0], numbers[-1] + 1):
            yield dialogue(f"{name}, {letters} letters" if letters else name, text.replace("@", "a" * letters).splitlines())


def lookups():
    """Runs of scripts that look names up."""
    yield from scripts("lookups.txt")
    yield from itertools.starmap(dialogue, searched.scripts())


def objects():
    """Runs of scripts that make objects and open names behind them."""
    return scripts("objects.txt")


def windows():
    """Runs of the differences from Windows that the page shows."""
    for section in re.split("^### ", (ROOT / "docs" / "windows.md").read_text(encoding="ascii"), flags=re.MULTILINE)[1:]:
        (shown,) = re.findall("\n```\n(.*?)```\n", section, re.DOTALL)
        yield dialogue(f"windows: {section.partition(chr(10))[0]}", in_full(shown).splitlines())


def requests():
    """The run whose journal shows what each line asks for; then the check of that journal, of its beginnings, and of these with a part of an entry."""
    script, entries = "", []
    for row in rows_of("requests.txt"):
        line, *steps = row.split(" | ")
        script += f"{line}\n"
        for step, reply in zip(steps[::2], steps[1::2], strict=True):
            entries.append(f'{{"n":{len(entries) + 1},"reply":{reply},"seat":0,"step":{step}}}\n')
    text = (HEADER % 1 + "".join(entries)).encode()
    yield Case("what each line asks for", THREADS, 0, text, script=script.encode())
    for number in range(len(entries) + 1):
        prefix = (HEADER % 1 + "".join(entries[:number])).encode()
        yield Case(f"the first {number} entries of that", REPLAY, ACCEPTED, b"accepted %d entries\n" % number, script=prefix)
        if number < len(entries):
            yield Case(f"the first {number} entries and a part of the next", REPLAY, REFUSED, b"line %d: syntax\n" % (number + 2), script=prefix + b'{"n"')


def workers():
    """Runs of scripts with workers."""
    for row in rows_of("workers.txt"):
        script, _, wanted = row.rpartition(" | ")
        script, number = script.replace("/", "\n"), int(re.search(r"\d+", wanted)[0])
        if wanted.startswith("line"):
            status, output = 1, f"{number}: not a script line\n"
        else:
            status, output = 0, HEADER % number + "".join(ENTRIES[line] for line in script.splitlines() if line.startswith("p1"))
        yield Case(f"workers: {row}", THREADS, status, output.encode(), script=script.encode())


def spelled(text):
    """The bytes that a text of a journal spells."""
    return re.sub(rb"\^([0-9A-F]{2})(?:\*(\d+);)?", lambda found: bytes([int(found[1], 16)]) * int(found[2] or 1), text.encode())


def journals():
    """Runs of journals with their verdicts."""
    name = first = before = after = ""
    for row in rows_of("journals.txt"):
        kind, rest = row[:2], row[2:]
        if kind == "# ":
            name, first, before, after = rest, "", "", ""
        elif kind == "> ":
            first += f"{rest}\n"
        elif kind == "( ":
            before = rest
        elif kind == ") ":
            after = rest
        else:
            verdict, _, text = row.partition(" | ") if " | " in row else (row.removesuffix(" |"), "", "")
            cause, number = verdict.split()
            status, output = (ACCEPTED, f"accepted {number} entries\n") if cause == "accepted" else (REFUSED, f"line {number}: {cause}\n")
            yield Case(f"{name}: {row[:200]}", REPLAY, status, output.encode(), script=spelled(first + before + text + after))


def worked():
    """Runs of the worked cases."""
    return itertools.chain.from_iterable(map(runs.worked, sorted((CASES / "worked").iterdir())))


def faults_of_memory(program, folder):
    """What is wrong with the memory of many permanent directories in one, without handles."""
    names = itertools.islice(itertools.product(string.ascii_lowercase + string.digits, repeat=4), MANY)
    script = Path(folder) / "directories"
    script.write_text('p1 dir "\\M" - =m\n' + "".join(f'p1 dir m:"{"".join(name)}" P =d\np1 close d\n' for name in names))
    _, most, output = journal.run([program, "run", script])
    each, succeeded = (most - script.stat().st_size) / MANY, output.count(b": SUCCESS\n")
    print(f"cases: {MANY} directories take {each:.0f} bytes each")
    is_right = succeeded == 2 * MANY + 1 and LEAST_EACH <= each <= MOST_EACH
    yield "" if is_right else f"memory: {succeeded} lines succeeded, and a directory takes {each:.0f} bytes"


def faults_of_cache(program):
    """What is wrong with the instructions of an open of a deep name."""
    if not shutil.which("valgrind"):
        print("cases: cache: there is no valgrind here")
        return
    for names in (instructions.LETTERS, instructions.WORDS):
        deep = instructions.both(names)[0]
        folder = "\\" + "x" * (len(deep) - 3)
        before = instructions.deep(names) + f'p1 dir "{folder}" P =d\np1 close d\np1 make Event "{folder}\\E" P "" =e\np1 close e\n'
        of_deep, of_flat = (instructions.of_lines(program, before, instructions.opened(path)) for path in (deep, f"{folder}\\E"))
        says = f"an open and a close of a name of {len(deep)} bytes and 16 components: {of_deep:,.0f} instructions, {of_deep / of_flat:.2f} times those of 2"
        print(f"cases: {says}")
        yield "" if of_deep <= MOST_TIMES * of_flat else says


def faults_of_callers(callers, program):
    """What is wrong with the journals that `callers` writes."""
    for words, number in (((), 30), (("mix",), 1), (("write",), 1)):
        left = run([callers, *words])
        written = parted(left.output)[1]
        yield "" if (left.status, len(written)) == (0, number) else f"callers ends in {left.status} with {len(written)} journals"
        yield from (fault_of_journal(program, it) for it in written)


def main():
    if len(sys.argv) not in (2, 3):
        sys.exit("usage: gate/cases.py PROGRAM [CALLERS]")
    program, *callers = (str(Path(word).resolve()) for word in sys.argv[1:])
    count = Count("cases")
    with tempfile.TemporaryDirectory(prefix="ntns-cases-") as folder, ThreadPoolExecutor(len(os.sched_getaffinity(0))) as pool:
        for name, text in FILES.items():
            (Path(folder) / name).write_text(text)
        for table in (lines, scripts, lookups, objects, windows, requests, workers, journals, worked):
            count.add(table.__name__, pool.map(lambda case: case.fault(program, folder), table()))
        rows = [row.removesuffix("|") for row in rows_of("lines.txt")]
        asked = [row.partition(" | ")[0] for row in rows_of("requests.txt")]
        count.add("where lines stop", misfits.faults(program, asked, rows))
        count.add("memory", faults_of_memory(program, folder))
        count.add("names that come and go", random_workers.faults_of_names(program, Path(folder)))
        count.add("random scripts with workers", pool.map(lambda seed: random_workers.fault_of_script(program, seed), range(random_workers.SCRIPTS)))
    count.add("cache", faults_of_cache(program))
    if callers:
        count.add("callers", faults_of_callers(callers[0], program))
    return count.end()


if __name__ == "__main__":
    sys.exit(main())
