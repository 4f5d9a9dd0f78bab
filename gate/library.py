#!/usr/bin/env python3
"""Makes what a program in C or C++ links: out/libntns.a, perhaps out/libntns.so.1, and the headers beside them.

The archive is that of the crate `ob_c`, proved and built if it isn't yet, with `lib/ntns.c` and the part of the kit in C that asks for memory: one archive,
so that a caller names no other. The shared library is made of the archive, and exports the calls of ntns.h alone (`lib/ntns.map`). Both want a C compiler
($CC, or cc), and the archive ar ($AR).

    gate/library.py [--shared]      --shared: the shared library too

The exit status is 0 if all is made, else 1.
"""

import os
import shutil
import subprocess
import sys
import tempfile
from pathlib import Path

import build
from crates import ROOT

CRATE = "ob_c"
OUT, INCLUDE, LIB = ROOT / "out", ROOT / "include", ROOT / "lib"
ARCHIVE, SHARED = OUT / "libntns.a", OUT / "libntns.so.1"
COMPILE = (os.environ.get("CC", "cc"), "-std=c11", "-O2", "-Wall", "-Wextra", "-Werror", "-fPIC", "-I", str(INCLUDE))


def archive_of_kit():
    """The kit's archive in C, in the folder with the page that `rt doc` names."""
    page = subprocess.run(["rt", "doc"], stdout=subprocess.PIPE, text=True, check=True).stdout.split()[0]
    return Path(page).parent / "c" / "liblibc_c.a"


def merge(archives, source, made):
    """Makes one archive of several and of a source in C."""
    with tempfile.TemporaryDirectory(prefix="archive-") as room:
        parts = [f"part{number}.a" for number in range(len(archives))]
        for archive, part in zip(archives, parts):
            shutil.copy2(archive, Path(room) / part)
        subprocess.run([*COMPILE, "-c", str(source), "-o", "ntns.o"], cwd=room, check=True)
        script = ["create whole.a", *(f"addlib {part}" for part in parts), "addmod ntns.o", "save", "end"]
        subprocess.run([os.environ.get("AR", "ar"), "-M"], cwd=room, input="\n".join(script) + "\n", text=True, check=True)
        shutil.move(Path(room) / "whole.a", made)


def share(archive, made):
    """Makes the shared library of an archive."""
    linked = ("-Wl,--whole-archive", str(archive), "-Wl,--no-whole-archive", "-Wl,-z,defs", f"-Wl,-soname,{SHARED.name}", f"-Wl,--version-script={LIB / 'ntns.map'}")
    subprocess.run([COMPILE[0], "-shared", *linked, "-o", str(made)], check=True)


def make(is_shared):
    """Makes the archive, and perhaps the shared library; whether that was possible."""
    if not build.is_built(CRATE) and not build.build(CRATE):
        return False
    OUT.mkdir(exist_ok=True)
    try:
        merge([build.built(CRATE)[0], archive_of_kit()], LIB / "ntns.c", ARCHIVE)
        if is_shared:
            share(ARCHIVE, SHARED)
    except subprocess.CalledProcessError:
        return False
    for header in INCLUDE.glob("*.h"):
        shutil.copyfile(header, OUT / header.name)
    return True


def main():
    if sys.argv[1:] not in ([], ["--shared"]):
        sys.exit("usage: gate/library.py [--shared]")
    return 0 if make(is_shared=bool(sys.argv[1:])) else 1


if __name__ == "__main__":
    sys.exit(main())
