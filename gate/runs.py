"""Runs of a program over bytes, what it has to leave, the journals among that, and counts of checks.

A fault is a text that says what is wrong, and an empty one where nothing is.
"""

import re
import subprocess
import tempfile
from dataclasses import dataclass
from pathlib import Path
from typing import NamedTuple

# the most that a run takes
SECONDS = 300

# what ends checks early; those of bench/ end with SystemExit
UNTRIED = (OSError, ValueError, subprocess.TimeoutExpired, SystemExit)


class Left(NamedTuple):
    """What a run of a program leaves."""

    status: int
    output: bytes = b""
    errors: bytes = b""


@dataclass(frozen=True)
class Case:
    """A run of a program, and what it has to leave. The script is on standard input, or in the file `FILE` if an argument says so."""

    shows: str
    words: tuple
    status: int
    output: bytes = b""
    errors: bytes = b""
    script: bytes = b""

    def fault(self, program, folder):
        """What is wrong with a run of this program in a folder."""
        try:
            left = run([program, *self.words], self.script, folder)
        except UNTRIED as error:
            return f"{self.shows}: {error}"
        wanted = Left(self.status, self.output, self.errors)
        return "" if left == wanted else f"{self.shows}: it left {str(left)[:1000]}, and not {str(wanted)[:1000]}"


def run(words, script=b"", folder=None, **how):
    """What a program leaves in a folder. Its input is a file, so that a read takes as much in each run."""
    with tempfile.NamedTemporaryFile() as file, tempfile.TemporaryFile() as given:
        if "FILE" in words:
            Path(file.name).write_bytes(script)
            words, script = [file.name if word == "FILE" else word for word in words], b""
        given.write(script)
        given.seek(0)
        ran = subprocess.run(words, stdin=given, capture_output=True, cwd=folder, timeout=SECONDS, check=False, **how)
    return Left(ran.returncode, ran.stdout, ran.stderr)


def dialogue(shows, rows):
    """The run of a script that succeeds: a row is `LINE | REPLY`, or a line alone if it has no reply."""
    rows = [row.partition(" | ") for row in rows]
    replies = "".join(f"{number}: {reply}\n" for number, (_, _, reply) in enumerate(rows, 1) if reply)
    return Case(shows, (), 0, replies.encode(), script="".join(f"{line}\n" for line, _, _ in rows).encode())


def sections(path):
    """The names and texts of a table's parts, each after a line `== NAME`."""
    for section in re.split("^== ", path.read_bytes().decode("utf-8"), flags=re.MULTILINE)[1:]:
        name, _, text = section.partition("\n")
        yield name, text


def in_full(text):
    """A text with what `<<a*3>>` repeats; `{}` in it is the number of each."""

    def repeated(found):
        part, times = "{}: SUCCESS\n" if found[1] == "successes" else found[1], int(found[2])
        return "".join(part.replace("{}", str(number)) for number in range(1, times + 1)) if "{}" in part else part * times

    return re.sub(r"<<([^*]*)\*(\d+)>>", repeated, text)


def worked(path):
    """The worked cases of a file."""
    for shows, text in sections(path):
        texts = re.fullmatch(r"(?:\$ ntns(\S*)\n)?(.*)-- ends with (\d+)\n(.*)", text, re.DOTALL)
        script, left = (in_full(texts[it]).encode() for it in (2, 4))
        output, errors = (b"", left) if left.startswith((b"ntns: ", b"error: ")) else (left, b"")
        yield Case(f"{path.stem}: {shows}", tuple((texts[1] or "").split("|")[1:]), int(texts[3]), output, errors, script)


def parted(output):
    """What a program printed, without journals, and these: each begins with the header of a segment 1, and goes on while lines begin with `{`."""
    others, journals = [], []
    for line in output.splitlines(keepends=True):
        if line.startswith(b'{"first":1,'):
            journals.append(line)
        elif line.startswith(b"{") and journals:
            journals[-1] += line
        else:
            others.append(line)
    return b"".join(others), journals


def fault_of_journal(program, journal):
    """What is wrong with a journal: `ntns` has to accept all its entries."""
    count = journal.count(b'\n{"n":')
    return Case("its journal", ("replay", "FILE"), 0, b"accepted %d entries\n" % count, script=journal).fault(program, None)


def tried(faults):
    """These faults, and what ended their checks early."""
    try:
        yield from faults
    except UNTRIED as error:
        yield str(error)


class Count:
    """The checks of a part of the gate, by whether they passed."""

    def __init__(self, part):
        self.part, self.passed, self.failed = part, 0, 0

    def add(self, shows, faults):
        """Counts checks by their faults, and prints a line on them, and the first faults."""
        faults = list(tried(faults))
        bad = [fault for fault in faults if fault]
        self.passed, self.failed = self.passed + len(faults) - len(bad), self.failed + len(bad)
        checks = "" if len(faults) == 1 else f": {len(faults)} checks"
        print(f"{self.part}: {shows}{checks} ... {'failed' if bad else 'ok'}", *(f"{self.part}: failed: {fault}" for fault in bad[:50]), sep="\n", flush=True)

    def end(self):
        """Prints the last line of a part, and returns its exit status."""
        print(f"{self.passed} passed, {self.failed} failed")
        return 1 if self.failed else 0
