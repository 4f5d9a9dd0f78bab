"""The crates of the repository, and copies of them in which `rt` works beside the work tree."""

import os
import re
import shutil
from functools import cache
from pathlib import Path

ROOT = Path(__file__).resolve().parent.parent
RT = "rt"

# the folders of a crate that no check reads, and the one in which `rt` keeps its work
EDITS = ("must-fail", "wrong", "definitions")
MADE = "out"


@cache
def listed():
    """The crates of crates.txt, lowest first as there, each with the libraries that it names."""
    found = {}
    for line in (ROOT / "crates.txt").read_text().splitlines():
        if line.strip() and not line.startswith("#"):
            name, _, needs = line.partition(":")
            found[name.split()[0]] = needs.split()
    return found


@cache
def with_dependencies(crate):
    """The crate and all crates of the repository below it."""
    below = (with_dependencies(name) for name in listed()[crate] if name in listed())
    return frozenset({crate}).union(*below)


def folder_of(crate):
    """A crate's folder."""
    return ROOT / "crates" / crate


def is_program(crate):
    """Whether a crate is a program."""
    return (folder_of(crate) / "src" / "main.rt").is_file()


def link(source, target):
    """Gives a file a second name, or copies it where the two folders lie on different disks."""
    try:
        os.link(source, target)
    except OSError:
        shutil.copy2(source, target)


def copied(names, folder, with_work=()):
    """Makes a repository of these crates alone, without their edits. Only the crates of `with_work` come with what earlier checks kept. The files are links."""
    (folder / "crates").mkdir(parents=True)
    shutil.copy(ROOT / "HANDLES", folder / "HANDLES")
    lines = (ROOT / "crates.txt").read_text().splitlines()
    (folder / "crates.txt").write_text("".join(f"{line}\n" for line in lines if re.split(r"[\s:]", line)[0] in names))
    for name in names:
        left_out = shutil.ignore_patterns(*EDITS, *([] if name in with_work else [MADE]))
        shutil.copytree(folder_of(name), folder / "crates" / name, ignore=left_out, copy_function=link)


def rewrite(path, text):
    """Puts a file of its own in the place of a link."""
    path.unlink()
    path.write_text(text)
