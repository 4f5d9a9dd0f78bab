#!/usr/bin/env python3
"""Builds a program of today's sources without a proof, for counts of instructions alone: what a change costs is told in minutes, before anything of it is proved.

    bench/trial.py PROGRAM OUT      PROGRAM: a crate with a main; OUT: the file that is built

`rt try` reads all crates as sources and hands clang a module with tests for what no proved program does. That module is taken, the tests are
left out, the hints on inlining, which it lacks, are put in from the sources, and it is built as `rt run` builds a program. Nothing of it is
proved, and the module of a proved program is another: an open and a close of a script take a tenth more here. So its counts tell which
of two trees is the better, and not what the program takes. It asks for the inner parts of the kit: another kit may have others.

The exit status is 0 where OUT is built.
"""

import re
import shutil
import subprocess
import sys
import tempfile
from pathlib import Path

ROOT = Path(__file__).resolve().parent.parent

# the clang that `rt try` is given: it keeps the module and its own words, and builds only what is small, which tells whether it works
CLANG = """#!/bin/bash
for word in "$@"; do
  if [ -f "$word" ] && [ "$(stat -c %s "$word")" -gt 1000000 ]; then
    printf '%s\\n' "$@" > "{kept}/words"; cp "$word" "{kept}/module.bc"; exit 1
  fi
done
exec "{clang}" "$@"
"""

# what a module of `rt try` has more than one that is to run: locals that begin with a value of their own, and tests
POISON = re.compile(r"  call void @llvm\.memset\.p0\.i64\(ptr %\w+, i8 -86,")
TEST = re.compile(r'  call void @"rattle-llvm-checks::')

# a hint on inlining, and the function below it
HINT = re.compile(r"#\[(inline\((?:always|never)\)|cold)\]\s+(?:pub(?:\(crate\))? )?fn (\w+)")
ATTRIBUTES = {"inline(always)": "alwaysinline", "inline(never)": "noinline", "cold": "cold"}


def kit_with(clang, at):
    """A kit like the one of `rt`, but for its clang; where its files are."""
    kit = Path(shutil.which("rt")).resolve().parent.parent
    for folder in (at, at / "bin", at / "toolchain", at / "toolchain" / "bin"):
        folder.mkdir()
        for there in (kit / folder.relative_to(at)).iterdir():
            if not (folder / there.name).exists() and there.name not in ("bin", "toolchain", "rt", "rtlib.py", "clang"):
                (folder / there.name).symlink_to(there)
    for name in ("rt", "rtlib.py"):
        shutil.copy(kit / "bin" / name, at / "bin" / name)
    real = kit / "toolchain" / "bin" / "clang"
    wrapped = at / "toolchain" / "bin" / "clang"
    wrapped.write_text(clang.format(kept=at, clang=real))
    wrapped.chmod(0o755)
    return kit, real


def hints():
    """The attribute that each function with a hint is to have, by a pattern of its name in the module."""
    found = []
    for path in sorted((ROOT / "crates").glob("*/src/*.rt")):
        crate, module = path.parent.parent.name, path.stem
        for hint, name in HINT.findall(path.read_text()):
            found.append((re.compile(rf"{crate}::{module}::(\w+::)?{name}(::<.*)?$"), ATTRIBUTES[hint]))
    return found


def rewritten(lines):
    """The lines of a module without tests, and with the hints."""
    told = hints()
    for line in lines:
        if POISON.match(line) or TEST.match(line):
            continue
        if line.startswith("attributes "):
            line = line.replace(" sanitize_address", "").replace(' "frame-pointer"="all"', "").replace("{ }", "{ nounwind }")
        if line.startswith("define internal "):
            name = re.search(r'@("[^"]+"|[\w.$]+)\(', line)[1].strip('"')
            for pattern, attribute in told:
                if pattern.match(name):
                    line = re.sub(r" (#\d+ )?\{$", rf" {attribute} \1{{", line.rstrip()) + "\n"
                    break
        yield line


def main():
    if len(sys.argv) != 3:
        sys.exit("usage: bench/trial.py PROGRAM OUT")
    program, out = sys.argv[1:]
    with tempfile.TemporaryDirectory(prefix="trial-") as folder:
        at = Path(folder) / "kit"
        kit, clang = kit_with(CLANG, at)
        words = [sys.executable, str(at / "bin" / "rt"), "try"]
        tried = subprocess.run(words, cwd=ROOT / "crates" / program, stdin=subprocess.DEVNULL, capture_output=True, text=True, check=False)
        if not (at / "module.bc").exists():
            sys.exit(f"trial: {tried.stdout}{tried.stderr}")
        flags = [it for it in (at / "words").read_text().split("\n")[:-1] if it not in ("-O0", "-fsanitize=address", "-Werror", "-c", "-x", "ir", "-o")]
        flags = [it for it in flags if not it.endswith((".bc", ".o"))]
        module = at / "module.ll"
        subprocess.run([clang, *flags, "-x", "ir", at / "module.bc", "-S", "-emit-llvm", "-O0", "-Xclang", "-disable-llvm-passes", "-o", module], check=True)
        with module.open() as lines, (at / "plain.ll").open("w") as plain:
            plain.writelines(rewritten(lines))
        subprocess.run([clang, *flags, "-c", "-x", "ir", at / "plain.ll", "-O3", "-o", at / "plain.o"], check=True)
        link = [kit / "bin" / "rattle-link", "--target", "x86_64-unknown-linux-gnu", "--toolchain", kit / "toolchain", "-o", out, at / "plain.o"]
        subprocess.run([*link, kit / "c" / "libos_c.a", kit / "c" / "liblibc_c.a"], check=True, stderr=subprocess.DEVNULL)


if __name__ == "__main__":
    main()
