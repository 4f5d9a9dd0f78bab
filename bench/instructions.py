#!/usr/bin/env python3
"""Counts the instructions that lines of scripts take, by valgrind's callgrind, which no neighbour disturbs: of a run with twice the lines, less one with them once.

    bench/instructions.py PROGRAM [MANY]      MANY: as many objects stand beside the rows of the second table; 20,000 if nothing is said

It fails nothing. The same binary and script take the same number each time, but for what the heap does.
"""

import re
import shutil
import subprocess
import sys

# how often the lines of a row stand in a script
TIMES = 500

# three directories, one in another, with the handles a, b and c
DEEP = 'p1 dir "\\A" - =a\np1 dir "\\A\\B" - =b\np1 dir "\\A\\B\\C" - =c\n'

# a directory with a shadow that has an event, and 32 links, each to the next one and the last to an event
SHADOWED = 'p1 dir "\\S" - =s\np1 make Event "\\S\\X" - "" =x\np1 dir "\\A" - =a\np1 shadow s "\\A\\B" - =b\n'
LINKS = 'p1 make Event "\\L32" - "" =e\n' + "".join(f'p1 link "\\L{it:02}" - "\\L{it + 1:02}" =l{it}\n' for it in range(32))


def entries(number):
    """A directory with so many permanent events, without handles."""
    return 'p1 dir "\\M" - =m\n' + "".join(f'p1 make Event "\\M\\E{it:06}" P "" =e\np1 close e\n' for it in range(number))


def inherited(number):
    """So many handles that a child inherits."""
    return "".join(f'p1 dir "\\I{it}" I =i{it}\n' for it in range(number))


# sixteen directories, one in another but for the last two, which are in the same, and an event in each of these: one pair by names of a letter, one by names of
# eight, of which fifteen are more than a prefix has room for in itself
LETTERS = (*"abcdefghijklmno", "p")
WORDS = tuple(f"Name{it:04}" for it in range(16))


def deep(names):
    """Such directories and events, whose handles but for the last are closed."""
    paths = ["\\" + "\\".join(names[: it + 1]) for it in range(15)] + ["\\" + "\\".join((*names[:14], names[15]))]
    made = "".join(f'p1 dir "{path}" P =d\np1 close d\n' for path in paths)
    return made + "".join(f'p1 make Event "{path}\\E" P "" =e\np1 close e\n' for path in paths[14:])


def opened(*paths):
    """Opens of these names, each closed behind it."""
    return "".join(f'p1 open any "{path}" - =e\np1 close e\n' for path in paths)


def both(names):
    """The names of both events."""
    return ("\\" + "\\".join((*names[:15], "E")), "\\" + "\\".join((*names[:14], names[15], "E")))


# what a row shows, what stands before its lines, and these; a name is three deep where nothing else is said
LINES = (
    ("open and close", DEEP, 'p1 open any "\\A\\B\\C" - =d\np1 close d\n'),
    ("a miss", DEEP, 'p1 open any "\\A\\B\\X" - =d\n'),
    ("a temporary event made and closed", DEEP, 'p1 make Event "\\A\\B\\E" - "" =e\np1 close e\n'),
    ("a permanent event made, made temporary and closed", DEEP, 'p1 make Event "\\A\\B\\E" P "" =e\np1 temp e\np1 close e\n'),
    ("a child of ten handles, and its exit", inherited(10), "p1 new inherit =q\nq exit\n"),
    ("a page of 100 entries", entries(100), "p1 list m 65535 first\n"),
    ("a comment", DEEP, "# a comment\n"),
    ("open and close what a shadow has", SHADOWED, 'p1 open any "\\A\\B\\X" - =d\np1 close d\n'),
    ("a miss in a directory with a shadow", SHADOWED, 'p1 open any "\\A\\B\\Y" - =d\n'),
    ("a directory with a shadow made and closed", SHADOWED, 'p1 shadow s "\\A\\D" - =d\np1 close d\n'),
    ("open and close through 32 links", LINKS, 'p1 open any "\\L00" - =d\np1 close d\n'),
    ("open and close two events sixteen names deep", deep(LETTERS), opened(*both(LETTERS))),
    ("the same of names of eight letters", deep(WORDS), opened(*both(WORDS))),
)


def beside(number):
    """The rows beside so many objects."""
    last = number - 1
    return (
        (f"open and close the last of {number:,} entries", entries(number), f'p1 open any "\\M\\E{last:06}" - =d\np1 close d\n'),
        ("the same in another case", entries(number), f'p1 open any "\\m\\e{last:06}" C =d\np1 close d\n'),
        (f"a temporary event beside {number:,} in its directory", entries(number), 'p1 make Event "\\M\\T" - "" =e\np1 close e\n'),
        (f"a permanent one elsewhere beside {number:,}", entries(number), 'p1 make Event "\\T" P "" =e\np1 temp e\np1 close e\n'),
    )


def count(program, script):
    """The instructions of a run."""
    words = ["valgrind", "--tool=callgrind", "--callgrind-out-file=/dev/null", program]
    ran = subprocess.run(words, input=script.encode(), capture_output=True, check=False)
    found = re.search(rb"Collected : (\d+)", ran.stderr)
    if ran.returncode or not found:
        sys.exit(f"instructions: the run ended in {ran.returncode}: {(ran.stdout[-200:] + ran.stderr[-500:]).decode(errors='replace')}")
    return int(found[1])


def of_lines(program, before, lines):
    """The instructions that lines take behind these."""
    once, twice = (count(program, before + lines * times) for times in (TIMES, 2 * TIMES))
    return (twice - once) / TIMES


def main():
    if len(sys.argv) not in (2, 3):
        sys.exit("usage: bench/instructions.py PROGRAM [MANY]")
    if not shutil.which("valgrind"):
        print("instructions: there is no valgrind here")
        return
    many = int(sys.argv[2]) if sys.argv[2:] else 20_000
    for shows, before, lines in (*LINES, *beside(10), *beside(many)):
        print(f"{shows}: {of_lines(sys.argv[1], before, lines):,.0f} instructions", flush=True)


if __name__ == "__main__":
    main()
