#!/usr/bin/env python3
"""Proves a program or a static library with all crates below it, and builds it, with a line a crate.

It runs `rt ci` in a copy of these crates alone, and then `rt lib` for a static library, for which `rt ci` makes no archive. The result is in
crates/NAME/out/, and is not built again while its files and the kit stay the same. The lines of the prover are in out/build.log.

    gate/build.py NAME..             NAME: a program or a static library of crates.txt
    gate/build.py --before           prints the sum of all files, before a `rt ci` in the work tree
    gate/build.py --after SUM        notes what that `rt ci` has built, if no file has changed since

After the last, an archive is built over the libraries which that `rt ci` left in the work tree, so they are not proved twice. `rt` uses a library only with a
stamp, the sum of its files, which `rt ci` doesn't write because libraries of other runs may be beside its own. They are used only if no library was there
before that run, and only in a copy of the crates. The exit status is 0 if all was proved, else 1.
"""

import argparse
import hashlib
import importlib.machinery
import importlib.util
import os
import re
import shutil
import subprocess
import sys
import tempfile
import time
from pathlib import Path

from crates import EDITS, MADE, ROOT, RT, copied, folder_of, is_program, listed, with_dependencies

LOG = ROOT / MADE / "build.log"

# the sum of the files of the last `rt ci` in the work tree whose libraries all stand there
PROVED = ROOT / MADE / "proved.sum"

DONE = re.compile(r"rt: (\w+) (?:proved$|is kept\b)")
FAULT = re.compile(r"error|^(fn|impl|struct|enum) \S+: (no proof|not proved|could not tell)|NOT PROVED|^rt: ")


def say(*lines):
    """Prints on standard error, because standard output is the program's."""
    print(*lines, sep="\n", file=sys.stderr, flush=True)


def sum_of(names):
    """The sum of the files of these crates and of the kit's name."""
    found = hashlib.sha256(subprocess.run(["rt", "version"], stdout=subprocess.PIPE, check=True).stdout)
    for crate in sorted(names):
        for path in sorted(folder_of(crate).rglob("*")):
            if path.is_file() and path.relative_to(folder_of(crate)).parts[0] not in (*EDITS, MADE):
                found.update(f"{path.relative_to(ROOT)}\0".encode() + hashlib.sha256(path.read_bytes()).digest())
    return found.hexdigest()


def built(name):
    """The file that is built of a crate, and the file that holds the sum of what it was built of."""
    made = folder_of(name) / MADE / (name if is_program(name) else f"lib{name}.a")
    return made, made.with_suffix(".sum")


def is_built(name):
    """Whether a program or an archive was built of today's files."""
    made, stamp = built(name)
    return made.is_file() and stamp.is_file() and stamp.read_text() == sum_of(with_dependencies(name))


def libraries():
    """The folders of the libraries in the work tree."""
    return list(ROOT.glob(f"crates/*/{MADE}/rlib"))


def has_fresh_libraries():
    """Whether the libraries in the work tree are those of one `rt ci` over today's files."""
    return PROVED.is_file() and PROVED.read_text() == sum_of(listed()) and not any((it / "stamp").exists() for it in libraries())


def stamp(folder):
    """Writes the stamps of the libraries in a copy, all of them of one run, by `rt` as a module; without them `rt lib` proves what it needs itself."""
    try:
        loader = importlib.machinery.SourceFileLoader("rt", os.path.realpath(shutil.which("rt")))
        kit = importlib.util.module_from_spec(importlib.util.spec_from_loader("rt", loader))
        loader.exec_module(kit)
        for crate in kit.rtlib.crates_below(str(folder)):
            place = Path(crate.folder) / MADE / "rlib"
            if place.is_dir():
                (place / "stamp").write_text(crate.stamp())
    except (AttributeError, OSError, TypeError, SystemExit):
        say("the kit's libraries can't be stamped: they are proved once more")


def run(words, folder, log, count=0):
    """Runs `rt`, prints a line for each crate that is proved, with the minutes so far, and returns the lines of a run that failed."""
    begun, done, lines = time.monotonic(), 0, []
    how = {"stdin": subprocess.DEVNULL, "stdout": subprocess.PIPE, "stderr": subprocess.STDOUT, "text": True, "errors": "replace"}
    with subprocess.Popen([RT, *words], cwd=folder, **how) as ran:
        for line in ran.stdout:
            log.write(line)
            lines.append(line.rstrip("\n"))
            if found := DONE.match(lines[-1]):
                done += 1
                say(f"{done} of {count} proved: {found[1]}, {(time.monotonic() - begun) / 60:.1f} min")
    return lines if ran.returncode else []


def build(name):
    """Proves and builds one program or archive, and returns whether that succeeded."""
    LOG.parent.mkdir(exist_ok=True)
    names, made = with_dependencies(name), built(name)[0]
    with tempfile.TemporaryDirectory(prefix="build-") as room, LOG.open("w") as log:
        folder, lines = Path(room) / "repository", []
        is_fresh = not is_program(name) and has_fresh_libraries()
        copied(names, folder, names if is_fresh else ())
        if not is_fresh:
            say(f"proving {name} and what it stands on, {len(names)} crates; the prover's lines go to {LOG}")
            lines = run(["ci"], folder, log, len(names))
        if not is_program(name) and not lines:
            stamp(folder)
            lines = run(["lib"], folder / "crates" / name, log)
        if lines:
            say(*[line[:400] for line in lines if FAULT.search(line)][-40:], f"{name} is not proved; the prover's lines are in {LOG}")
            return False
        made.parent.mkdir(exist_ok=True)
        shutil.copy2(folder / made.relative_to(ROOT), made)
        built(name)[1].write_text(sum_of(names))
        return True


def note(before):
    """Notes the programs that `rt ci` has built in the work tree, and its libraries if they were printed as the only ones before it."""
    total, _, were_none = before.partition(" ")
    if total != sum_of(listed()):
        return
    for name in filter(is_program, listed()):
        made, stamp_file = built(name)
        if made.is_file():
            stamp_file.write_text(sum_of(with_dependencies(name)))
    if were_none:
        PROVED.parent.mkdir(exist_ok=True)
        PROVED.write_text(total)


def main():
    parser = argparse.ArgumentParser(description="Proves and builds programs and static libraries.")
    parser.add_argument("names", nargs="*", metavar="NAME", choices=[*listed(), []])
    parser.add_argument("--before", action="store_true")
    parser.add_argument("--after", metavar="SUM")
    words = parser.parse_args()
    if words.before:
        print(sum_of(listed()), "" if libraries() else "alone")
    if words.after:
        note(words.after)
    return 0 if all(is_built(name) or build(name) for name in words.names) else 1


if __name__ == "__main__":
    sys.exit(main())
