#!/usr/bin/env python3
"""Runs the built program `ntns` on arguments, files and standard input, and compares what it leaves byte for byte.

No contract says what `main` alone does: that the arguments are the process's, that FILE is opened as it is named, and that the status is the process's.

    gate/program.py PROGRAM
"""

import re
import subprocess
import sys
import tempfile
import time
from pathlib import Path

import sessions
from crates import ROOT
from runs import Case, Count, dialogue, run, worked

# the scripts of examples/, and what each prints and the tree that it leaves beside it; the first is that of README.md
EXAMPLES = ROOT / "examples"
SCRIPT = (EXAMPLES / "first.ntns").read_bytes()
SHOWN = (EXAMPLES / "first.out").read_bytes()

# the manual page
MANUAL = ROOT / "lib" / "ntns.1"
BAD = b'p1 dir "\\A" - =a\nno line\np1 close a\n'

# the files that arguments name, beside `long`, which is longer than a journal may be, and `missing`
FILES = {"a.ntns": SCRIPT, "bad.ntns": BAD, " spaced.ntns ": SCRIPT, "-x": SCRIPT, "empty": b""}

# the example of docs/journal.md: a journal of two directories, and what may be in place of its second entry
HEADER = b'{"first":1,"journal":2,"seats":1,"segment":1}\n'
FIRST = b'{"n":1,"reply":{"handle":4,"status":0},"seat":0,"step":{"flags":0,"name":"\\\\A","op":"dir","proc":1,"root":null}}\n'
SECOND = b'{"n":2,"reply":{"handle":8,"status":0},"seat":0,"step":{"flags":0,"name":"\\\\B","op":"dir","proc":1,"root":null}}\n'
AGAIN = SECOND.replace(b"B", b"A")
STRAY = b'{"n":2,"reply":{"status":0},"seat":0,"step":{"op":"abandon","parse":"none","ticket":9}}\n'

# how many bytes a line may have, and a journal; how many entries a journal, of which 33 are kept for the steps of a last open
LINE_LIMIT, JOURNAL_LIMIT = 262_144, 268_435_456
ENTRY_LIMIT, CLOSES = 1_048_576, 1_048_576 - 33

# so many entries are drawn in at most so many seconds more than the replies to their script take
DRAWN, DRAWN_SECONDS = 20_000, 1

# arguments of which one is an unknown command, or an unexpected argument, or a mistake that is reported in another way
UNKNOWN = ("ntns", "RUN", "runs", "thread", "replays", "checks", "sessions", "trees")
UNEXPECTED = (("-x",), ("--other",), ("--run",), *((command, *others) for command in ("run", "threads", "replay", "check", "tree") for others in (("-x",), ("--version",), ("a", "b"))), ("session", "a"), ("session", "-x"))
MISTAKEN = (("-",), ("",), ("--", "run", "a"))


def arguments():
    """Runs on arguments and files, beside those of the table."""
    yield Case("the script on standard input is run", (), 0, SHOWN, script=SCRIPT)
    yield Case("the script in a file is run", ("run", "a.ntns"), 0, SHOWN)
    yield Case("standard input is not read for a file", ("run", "a.ntns"), 0, SHOWN, script=BAD)
    yield Case("a path keeps the spaces at its ends", ("run", " spaced.ntns "), 0, SHOWN)
    yield Case("a path may begin with a hyphen after --", ("run", "--", "-x"), 0, SHOWN)
    no_text = b"error: invalid UTF-8 was detected in one or more arguments\n\nUsage: ntns [COMMAND]\n\nFor more information, try '--help'.\n"
    yield Case("arguments that are no text end with 2", (b"\xff",), 2, errors=no_text)
    for script in sorted(EXAMPLES.glob("*.ntns")):
        yield Case(f"examples/{script.name} prints its .out", ("run", str(script)), 0, script.with_suffix(".out").read_bytes())
        yield Case(f"examples/{script.name} leaves its .tree", ("tree", str(script)), 0, script.with_suffix(".tree").read_bytes())


def mistakes():
    """Arguments that are a mistake, each with what standard error says of it first."""
    yield from (((command,), f"unrecognized subcommand '{command}'") for command in UNKNOWN)
    yield from ((words, f"unexpected argument '{words[-1]}' found") for words in UNEXPECTED)
    yield from ((words, "") for words in MISTAKEN)


def closes(count, sealed=0):
    """The journal of so many closes of no handle, of which so many are in a sealed segment."""
    entry = b'{"n":%d,"reply":{"status":3221225480},"seat":0,"step":{"handle":0,"op":"close","proc":1}}\n'
    lines = [entry % number for number in range(1, count + 1)]
    if sealed:
        lines.insert(sealed, b'{"first":%d,"journal":2,"seats":1,"segment":2}\n' % (sealed + 1))
    return HEADER + b"".join(lines)


def table():
    """The worked cases of the table. The journals that they print are accepted."""
    for case in worked(ROOT / "gate" / "program.txt"):
        yield case
        if case.output.startswith(b'{"first":'):
            accepted = b"accepted %d entries\n" % case.output.count(b'\n{"n":')
            yield Case(f"the journal of that: {case.shows}", ("replay", "FILE"), 0, accepted, script=case.output)


def journals():
    """Runs of journals: accepted ones with the number of their entries, and refused ones with what is reported."""
    full = closes(CLOSES)
    yield Case("a full journal refuses a step, and is written", ("threads", "FILE"), 1, full, b"ntns: step refused\n", b"p1 close z\n" * (CLOSES + 1))
    script = b"p1 close z\n" * CLOSES + b"seal\n" + b"p1 close z\n"
    yield Case("a seal makes room in a full journal", ("threads", "FILE"), 0, closes(CLOSES + 1, CLOSES), script=script)
    two = HEADER + FIRST
    for shows, count, text in (
        ("one of two entries", 2, two + SECOND),
        ("the value of a handle is any that is free", 2, two + SECOND.replace(b'"handle":8', b'"handle":400')),
        ("the last one too", 2, two + SECOND.replace(b'"handle":8', b'"handle":262140')),
        ("a status that refuses is a reply like another", 2, two + AGAIN.replace(b'"handle":8,"status":0', b'"status":3221225525')),
        ("one that is full", CLOSES, full),
        ("one of as many entries as a segment may have", ENTRY_LIMIT, closes(ENTRY_LIMIT)),
        ("one of more entries, in two segments", ENTRY_LIMIT + 1, closes(ENTRY_LIMIT + 1, ENTRY_LIMIT)),
    ):
        yield Case(f"an accepted journal: {shows}", ("replay", "FILE"), 0, b"accepted %d entries\n" % count, script=text)
    for shows, verdict, text in (
        ("one without a header", b"line 1: header", FIRST + SECOND),
        ("a wrong number", b"line 3: number", two + SECOND.replace(b'"n":2', b'"n":3')),
        ("a seat that isn't there", b"line 3: seat", two + SECOND.replace(b'"seat":0', b'"seat":1')),
        ("a ticket that isn't pending", b"line 3: ticket", two + STRAY),
        ("a handle that is in use", b"line 3: reply", two + SECOND.replace(b'"handle":8', b'"handle":4')),
        ("a handle that is no multiple of four", b"line 3: reply", two + SECOND.replace(b'"handle":8', b'"handle":6')),
        ("a handle that is too great", b"line 3: reply", two + SECOND.replace(b'"handle":8', b'"handle":262144')),
        ("a reply that the step doesn't give", b"line 3: reply", two + AGAIN.replace(b'"handle":8,', b"")),
        ("an entry too many in a segment", b"line 1048578: number", closes(ENTRY_LIMIT + 1)),
    ):
        yield Case(f"a refused journal: {shows}", ("replay", "FILE"), 3, verdict + b"\n", script=text)


def sizes():
    """Long runs, and runs to the limits."""
    event, opened = 'p1 make Event "\\E" {} "" =e | SUCCESS', 'p1 open Event "\\E" {} =o | {}'
    success, full = opened.format("-", "SUCCESS"), opened.format("-", "INSUFFICIENT_RESOURCES")

    line = b"#" * LINE_LIMIT
    script = b"p1 close a\n" + line + b"\n" + line + b"#"
    yield Case("a line has at most 262,144 bytes", (), 1, b"1: INVALID_HANDLE\n3: not a script line\n", script=script)

    ends = [full, "p1 close e+1 | SUCCESS", "p1 close e | INVALID_HANDLE", success]
    yield dialogue("a process has 65,535 handles and no more", [event.format("-"), 'p1 name e+3 | SUCCESS "\\E"', *[success] * 65_534, *ends])

    child = ["p1 new inherit =q | SUCCESS", 'q name e | SUCCESS "\\E"', 'q name o | SUCCESS "\\E"']
    counts = "stat | objects 7 handles 131070 opens 131070 closes 0 deletes 0"
    yield dialogue("a child inherits 65,535 handles under their values", [event.format("I"), *[opened.format("I", "SUCCESS")] * 65_534, *child, counts])

    paths = [f"\\0\\{n}" if n % 2 else f"\\{n}" for n in range(100_000)]
    made = [row for path in paths for row in (f'p1 dir "{path}" P =d | SUCCESS', "p1 close d | SUCCESS")]
    found = [row for path in paths for row in (f'p1 opendir "{path}" - =d | SUCCESS', f'p1 name d | SUCCESS "{path}"', "p1 close d | SUCCESS")]
    yield dialogue("each of 100,000 names in two directories is found", made + found)

    nested = ['p1 dir "\\d" - =d0 | SUCCESS', *(f'p1 dir d{n - 1}:"d" - =d{n} | SUCCESS' for n in range(1, 1_000))]
    closed = ['p1 name d999 | SUCCESS "' + "\\d" * 1_000 + '"', *(f"p1 close d{n} | SUCCESS" for n in range(999))]
    counts = ["stat | objects 8 handles 1 opens 0 closes 0 deletes 0", "p1 close d999 | SUCCESS", "stat | objects 6 handles 0 opens 0 closes 0 deletes 0"]
    yield dialogue("a thousand nested directories, closed from the outermost one, are each deleted with the name in it", nested + closed + counts)

    events = ["p1 new plain =q | SUCCESS", *(f'q make Event "\\Sessions\\e{n}" - "" =e{n} | SUCCESS' for n in range(1_000))]
    held, gone = "stat | objects 1006 handles 1000 opens 1000 closes 0 deletes 0", "stat | objects 6 handles 0 opens 1000 closes 1000 deletes 1000"
    yield dialogue("a thousand temporary objects are deleted with their process", [*events, held, "q exit | SUCCESS", gone])

    links = [f'p1 link "\\L{n}" P "\\L{n + 1}" =l | SUCCESS' for n in range(32)]
    view = ['p1 link "\\L32" P "\\??\\X" =l | SUCCESS', 'p1 dir "\\M" P =m | SUCCESS', 'p1 dir "\\M\\X" P =x | SUCCESS', "p1 map m | SUCCESS"]
    ends = ['p1 opendir "\\L1" - =a | SUCCESS', 'p1 name a | SUCCESS "\\M\\X"', 'p1 opendir "\\L0" - =b | REPARSE_LIMIT']
    yield dialogue("a view is found behind 32 links, and not behind 33", links + view + ends)

    device, begun, again = 'p1 make Device "\\D" - "" =d | SUCCESS', 'p1 begin File "\\D" - =f | PENDING', "p1 end f | SUCCESS"
    counts = "stat | objects 9 handles 65535 opens 65536 closes 1 deletes 1"
    ends = ["p1 end f | INSUFFICIENT_RESOURCES", "p1 close e | SUCCESS", begun, again, counts]
    yield dialogue("a full table refuses a pending open, and takes it once there is room", [device, begun, event.format("-"), *[success] * 65_533, *ends])

    pending = [f'{"q" if n % 2 else "p1"} begin File "\\D" - =f{n} | PENDING' for n in range(1_000)]
    ends = ["p1 exit | SUCCESS", "q exit | SUCCESS", "stat | objects 7 handles 0 opens 1 closes 1 deletes 0"]
    yield dialogue("a thousand pending opens outlive their processes", ['p1 make Device "\\D" P "" =d | SUCCESS', "p1 new plain =q | SUCCESS", *pending, *ends])

    yield dialogue("20,000 names are shown whole in pages of six sizes", pages())
    yield dialogue("of 20,000 names every second one is deleted, and the others are found and listed in their order", thinned())


def pages():
    """The rows of scans of a directory in pages of so many entries; an entry takes 4 bytes, 6 of its name and 5 of its type's."""
    names = [f"E{n:05}" for n in range(20_000)]
    yield 'p1 dir "\\B" - =b | SUCCESS'
    for name in names:
        yield from (f'p1 make Event b:"{name}" P "" =e | SUCCESS', "p1 close e | SUCCESS")
    for size in (1, 2, 7, 199, 5_000, 20_000):
        for first in range(0, len(names), size):
            mode, status = "next" if first else "first", "SUCCESS" if first + size >= len(names) else "MORE_ENTRIES"
            yield f"p1 list b {15 * size} {mode} | {status}" + "".join(f' "{name}" Event' for name in names[first : first + size])
        yield "p1 list b 1048576 next | NO_MORE_ENTRIES"


def thinned():
    """The rows of a directory of names of four letters: every second one is deleted; each is looked up as it is, in capitals without case, and with it."""
    names = ["".join(chr(97 + n // 26**place % 26) for place in range(4)) for n in range(20_000)]
    yield 'p1 dir "\\T" - =t | SUCCESS'
    for name in names:
        yield from (f'p1 make Event t:"{name}" P "" =e | SUCCESS', "p1 close e | SUCCESS")
    for name in names[::2]:
        yield from (f'p1 open Event t:"{name}" - =e | SUCCESS', "p1 temp e | SUCCESS", "p1 close e | SUCCESS")
    for number, name in enumerate(names):
        status = "SUCCESS" if number % 2 else "OBJECT_NAME_NOT_FOUND"
        yield from (f'p1 open Event t:"{name}" - =e | {status}', f'p1 open Event t:"{name.upper()}" C =e | {status}')
        yield f'p1 open Event t:"{name.upper()}" - =e | OBJECT_NAME_NOT_FOUND'
    yield "p1 list t 1048576 first | SUCCESS" + "".join(f' "{name}" Event' for name in names[1::2])


def fault_of_large_tree(program):
    """What is wrong with the tree of many directories: of a hundred nested ones, each with as many names as the others."""
    rows = ['p1 dir "\\T0" P =t']
    for n in range(DRAWN // 200):
        for name in range(199):
            rows += [f'p1 make Event t:"E{name:03}" P "" =e', "p1 close e"]
        rows += ["p1 close t", f'p1 dir "{"".join(f"{chr(92)}T{it}" for it in range(n + 2))}" P =t'] if n + 1 < DRAWN // 200 else []
    script = "".join(f"{row}\n" for row in rows).encode()
    began = time.monotonic()
    replies = run([program, "run", "FILE"], script)
    ran = time.monotonic()
    left = run([program, "tree", "FILE"], script)
    seconds = (time.monotonic() - ran) - (ran - began)
    lines = left.output.count(b"\n")
    if (left.status, left.errors, lines, replies.status) != (0, b"", DRAWN + 8, 0):
        return f"a large tree has {lines} lines, and ends with {left.status} and {left.errors}"
    return "" if seconds <= DRAWN_SECONDS else f"a tree of {DRAWN} entries takes {seconds:.2f} s more than its replies"


def fault_of_mistake(program, folder, words, says):
    """What is wrong with a run whose arguments are a mistake."""
    left = run([program, *words], SCRIPT, folder)
    return "" if left[:2] == (2, b"") and left.errors.startswith(f"error: {says}".encode()) else f"it left {str(left)[:2000]}"


def faults_of_texts(program):
    """What is wrong with the version, and what the manual page lacks of the tasks, options and examples that help names."""
    kit = subprocess.run(["rt", "version"], capture_output=True, text=True, check=True).stdout.strip()
    says = run([program, "--version"]).output.decode()
    yield "" if says.endswith(f" ({kit})\n") else f"the version is {says!r}, and the kit {kit}"
    shown, manual = run([program, "--help"]).output.decode(), MANUAL.read_text()
    tasks, options, examples = (re.findall(row, shown, re.MULTILINE) for row in (r"^  (?!ntns)([a-z]+) ", r"^  -(.), --([a-z]+)", r"^  (ntns .*?)  "))
    lines = [f".It Cm {task}" for task in tasks] + [f".It Fl {short} , Fl -{long}" for short, long in options] + [f".Dl {example}" for example in examples]
    yield "" if (len(tasks), len(options), len(examples)) == (7, 2, 7) else f"help names {len(tasks)} tasks, {len(options)} options and {len(examples)} examples"
    yield from ("" if f"\n{line}" in manual else f"the manual page has no line {line!r}" for line in lines)


def main():
    if len(sys.argv) != 2:
        sys.exit("usage: gate/program.py PROGRAM")
    program = str(Path(sys.argv[1]).resolve())
    count = Count("program")
    with tempfile.TemporaryDirectory(prefix="ntns-runs-") as folder:
        for name, text in FILES.items():
            (Path(folder) / name).write_bytes(text)
        with (Path(folder) / "long").open("wb") as file:
            file.truncate(JOURNAL_LIMIT + 1)
        for cases in (arguments, table, journals, sizes):
            for case in cases():
                count.add(case.shows, [case.fault(program, folder)])
        count.add("sessions over two pipes, and over input that is there at once", sessions.faults(program))
        count.add("the version and the manual page", faults_of_texts(program))
        count.add("a large tree is drawn in time", [fault_of_large_tree(program)])
        for words, says in mistakes():
            count.add(f"{' '.join(words)!r} is a mistake", [fault_of_mistake(program, folder, words, says)])
    return count.end()


if __name__ == "__main__":
    sys.exit(main())
