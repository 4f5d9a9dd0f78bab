#!/usr/bin/env python3
"""Builds the libraries for C, and programs in C and C++ that link them, and runs these.

- Each header alone compiles, `ntns.h` in C11 and in C++17, `ntns_windows.h` in C99 and in C++11, and the archive has what `ntns.h` declares; of a caller's
  program it needs nothing but memory.
- The program of README.md's section 'From C', in both languages, prints what is shown there.
- The clients of `clients/`: worked cases, odd arguments, and each request for memory refused in turn; where valgrind is there, also under it: no error, no
  leak. `clients/bench.c`, with each operation once. The system calls of `examples/nt/`. What `ntns_windows.h` does, in C and in C++, and under the sanitizers of addresses and of undefined
  behaviour.
- Each wrong library of `clients/wrong.c` fails a client.
- The shared library exports what the header declares, and nothing else; README.md's program and the worked cases run over it.
- What `make install` puts into a folder, which is moved then, serves a program by pkg-config, and one by CMake.
- The bindings of `bindings/` are of today's header, and pass their own tests.

What this machine has no program for is named as not tried.

    gate/c.py [ARCHIVE]      ARCHIVE: a library to be tried in place of the one that is built
"""

import os
import re
import shutil
import subprocess
import sys
import tempfile
from concurrent.futures import ThreadPoolExecutor
from pathlib import Path

import library
from crates import ROOT
from runs import Count

CLIENTS, EXAMPLE, INCLUDE = ROOT / "clients", ROOT / "examples" / "nt", ("-I", str(library.INCLUDE))
C = (os.environ.get("CC", "cc"), "-std=c11")
CXX = (os.environ.get("CXX", "c++"), "-x", "c++", "-std=c++17")
C99, CXX11 = (C[0], "-std=c99"), (*CXX[:-1], "-std=c++11")
SANITIZED = ("-fsanitize=address,undefined", "-fno-sanitize-recover=all")
FLAGS = ("-O1", "-g", "-Wall", "-Wextra", "-Werror")
VALGRIND = ("valgrind", "--quiet", "--leak-check=full", "--show-leak-kinds=all", "--errors-for-leak-kinds=all", "--error-exitcode=9")

# what of the C library the archive may refer to
NEEDED = {"malloc", "realloc", "free", "memcpy", "memmove", "memset", "memcmp", "bcmp"}

# the clients: their sources, and the calls that they hand to functions of their own
MADE_OF = {
    "cases": (("cases.c", "play.c"), ()),
    "hostile": (("hostile.c",), ()),
    "refusals": (("refusals.c", "play.c"), ("malloc", "calloc", "realloc", "free")),
    "windows": (("windows.c",), ()),
}

# the client that a wrong library of clients/wrong.c fails, if it is another than `cases`, by the library's macro
FAILS = {
    "OPENS_AGAIN": "hostile",
    "COPY_SHARES": "hostile",
    "COPY_INTO_AN_OPEN_ONE": "hostile",
    "ROWS_HAVE_ONE_CONTEXT": "hostile",
    "ROW_PAST_THE_PLACES": "hostile",
    "LISTING_SKIPS_AFTER_A_CLOSE": "hostile",
    "COUNTS_HANDLES_OF_ONE_PROCESS": "hostile",
    "ENDED_PROCESS_IS_LISTED": "hostile",
    "CLOSE_FREES_NOTHING": "refusals",
    "COPY_IS_NEW": "refusals",
    "COPY_LOSES_DELETIONS": "refusals",
    "COPY_TAKES_DELETIONS": "refusals",
    "COPY_LOSES_PENDING_OPENS": "refusals",
    "REFUSED_MEMORY_AND_DONE": "refusals",
    "FLAG_IS_SET_WITHOUT_MEMORY": "refusals",
    "LOSES_MEMORY": "refusals",
}


BINDINGS = ROOT / "bindings"

# a project in CMake over both libraries
PROJECT = """cmake_minimum_required(VERSION 3.13)
project(shown C)
find_package(ntns 1 REQUIRED)
add_executable(shared shown.c)
target_link_libraries(shared ntns::ntns)
add_executable(static shown.c)
target_link_libraries(static ntns::static)
"""


class Fault(Exception):
    """What is wrong."""


def ended(words, **how):
    """How a command ended."""
    try:
        return subprocess.run(words, capture_output=True, text=True, errors="replace", timeout=1800, check=False, stdin=subprocess.DEVNULL, **how)
    except (OSError, subprocess.TimeoutExpired) as error:
        raise Fault(str(error)) from error


def run(words, **how):
    """What a command printed, which has to end with status 0."""
    ran = ended(words, **how)
    if ran.returncode:
        raise Fault(f"{Path(words[0]).name} ended with {ran.returncode}: {(ran.stderr + ran.stdout)[-1500:]}")
    return ran.stdout


def checked(words):
    """The status of a client, how many of its checks passed and failed by its last line, and the lines of what isn't well."""
    ran = ended(words)
    lines = [*ran.stderr.splitlines(), *ran.stdout.splitlines()]
    counted = re.fullmatch(r"(\d+) passed, (\d+) failed", lines[-1] if ran.stdout else "")
    return ran.returncode, *(map(int, counted.groups()) if counted else (0, 0)), [line for line in lines if not line.endswith(" ok")]


def shown_in(readme):
    """The program in C that a README shows, and what it prints."""
    section = readme.partition("\n## From C\n")[2].partition("\n## ")[0]
    found = re.search(r"\n```c\n(.*?)```\n.*?\n```\n(.*?)```\n", section, re.DOTALL)
    if not found:
        raise Fault("README.md has no program in its section 'From C'")
    return found[1], found[2]


def declared_in(header):
    """The calls that a header declares."""
    code = re.sub(r"/\*.*?\*/", "", header, flags=re.DOTALL)
    return set(re.findall(r"\b(ntns_\w+)\(", code)) - {"ntns_status"}


def names_in(table):
    """The names that an archive defines for others, and those that it needs of others, by what `nm` prints."""
    rows = re.findall(r"^(?:[0-9a-f]+)? *([A-Za-z]) (\S+)$", table, re.MULTILINE)
    defined = {name for kind, name in rows if kind in "TDBRVWC"}
    return defined, {name for kind, name in rows if kind in "Uw"} - defined


def wrong_libraries(source):
    """The wrong libraries that a source has: the macro of each, and its call."""
    return re.findall(r"^#(?:el)?if defined (\w+)$.*?^INSTEAD\([^,]*, (\w+)", source, re.MULTILINE | re.DOTALL)


class Bench:
    """A folder in which programs are made and run, over a library."""

    def __init__(self, folder, linked):
        self.folder, self.linked = folder, linked

    def made(self, name, sources, *flags, language=C, wrapped=()):
        """Compiles sources and links them to the library; the program."""
        objects = []
        for source in sources:
            objects.append(str(self.folder / f"{name}-{source.stem}.o"))
            run([*language, *FLAGS, *flags, *INCLUDE, "-c", str(source), "-o", objects[-1]])
        program = str(self.folder / name)
        folder = self.linked.parent
        run([language[0], *flags, *objects, str(self.linked), f"-Wl,-rpath,{folder}", *(f"-Wl,--wrap={call}" for call in wrapped), "-o", program])
        return program

    def header(self, name, language):
        """A header alone, twice."""
        source = self.folder / "header.c"
        source.write_text(f"#include <{name}>\n" * 2)
        run([*language, *FLAGS, "-Wconversion", "-pedantic", "-fsyntax-only", *INCLUDE, str(source)])

    def symbols(self):
        """What the archive defines and needs."""
        declared = declared_in((library.INCLUDE / "ntns.h").read_text())
        defined, needed = names_in(run([os.environ.get("NM", "nm"), str(self.linked)]))
        if declared - defined or needed - NEEDED:
            raise Fault(f"the archive lacks {sorted(declared - defined)}, and needs {sorted(needed - NEEDED)}")

    def exports(self):
        """What the shared library defines for others."""
        declared = declared_in((library.INCLUDE / "ntns.h").read_text())
        table = run([os.environ.get("NM", "nm"), "--dynamic", "--defined-only", str(self.linked)])
        defined = {name.partition("@")[0] for name in names_in(table)[0]}
        if declared != defined:
            raise Fault(f"the shared library lacks {sorted(declared - defined)}, and exports {sorted(defined - declared)}")

    def shown(self, language, *before):
        """The program that README.md shows."""
        text, prints = shown_in((ROOT / "README.md").read_text())
        source = self.folder / "shown.c"
        source.write_text(text)
        output = run([*before, self.made("shown", [source], language=language)])
        if output != prints:
            raise Fault(f"it printed {output!r}")

    def client(self, name, *before, language=C, flags=()):
        """A client, perhaps under another program."""
        sources, wrapped = MADE_OF[name]
        program = self.made(name, [CLIENTS / source for source in sources], *flags, language=language, wrapped=wrapped)
        status, passed, failed, lines = checked([*before, program])
        if status or not passed or failed:
            raise Fault("\n".join([f"it ended with {status}", *lines[:20]]))

    def example(self, *before, language=C, flags=()):
        """The system calls of `examples/nt`, perhaps under another program."""
        program = self.made("nt", sorted(EXAMPLE.glob("*.c")), "-pthread", *flags, language=language)
        status, passed, failed, lines = checked([*before, program])
        if status or not passed or failed:
            raise Fault("\n".join([f"it ended with {status}", *lines[:20]]))

    def timed(self):
        """The operations that `clients/bench.c` times, each once."""
        run([self.made("bench", [CLIENTS / "bench.c"]), "1"])

    def wrong(self, macro, call):
        """A wrong library, which fails a client, and yet lets it come to its end."""
        sources, wrapped = MADE_OF[FAILS.get(macro, "cases")]
        program = self.made(macro, [CLIENTS / source for source in ("wrong.c", *sources)], f"-D{macro}", wrapped=(*wrapped, call))
        status, passed, failed, _ = checked([program])
        if status != 1 or not failed:
            raise Fault(f"the client ended with {status}: {passed} passed, {failed} failed")

    def by_pkg_config(self, place):
        """The program that README.md shows, made by what pkg-config says of what is installed at a place."""
        says = {**os.environ, "PKG_CONFIG_PATH": f"{place}/lib/pkgconfig"}
        words = run(["pkg-config", "--cflags", "--libs", "ntns"], env=says).split()
        text, prints = shown_in((ROOT / "README.md").read_text())
        source, program = self.folder / "installed.c", str(self.folder / "installed")
        source.write_text(text)
        run([*C, *FLAGS, str(source), *words, "-o", program])
        if run([program], env={**os.environ, "LD_LIBRARY_PATH": f"{place}/lib"}) != prints:
            raise Fault("the program printed another thing")

    def by_cmake(self, place):
        """The same by CMake, over the shared library and over the archive."""
        text, prints = shown_in((ROOT / "README.md").read_text())
        (self.folder / "shown.c").write_text(text)
        (self.folder / "CMakeLists.txt").write_text(PROJECT)
        run(["cmake", "-S", str(self.folder), "-B", str(self.folder / "made"), f"-DCMAKE_PREFIX_PATH={place}"])
        run(["cmake", "--build", str(self.folder / "made")])
        for name in ("shared", "static"):
            if run([str(self.folder / "made" / name)]) != prints:
                raise Fault(f"the program {name} printed another thing")

    def python(self):
        """The tests of the binding for Python."""
        run([sys.executable, "-B", "-m", "unittest", "test_ntns"], cwd=BINDINGS / "python", env={**os.environ, "NTNS_LIBRARY": str(self.linked)})

    def rust(self):
        """The tests of the binding for Rust, over the archive."""
        says = {"NTNS_LIB_DIR": str(library.ARCHIVE.parent), "CARGO_TARGET_DIR": str(self.folder)}
        run(["cargo", "test", "--offline", "--locked", "--quiet"], cwd=BINDINGS / "rust", env={**os.environ, **says})


def where(program, tried):
    """What is tried where a program is there, and else named as not tried."""
    is_there = shutil.which(program) and not ended([program, "--version"]).returncode
    for shows, part in tried:
        if is_there:
            yield shows, part
        else:
            print(f"c: {shows} ... not tried: there is no {program}")


def parts():
    """What is tried of an archive: what it shows, and how on a bench."""
    yield "ntns.h stands alone in C11", lambda bench: bench.header("ntns.h", C)
    yield "ntns.h stands alone in C++17", lambda bench: bench.header("ntns.h", CXX)
    yield "ntns_windows.h stands alone in C99", lambda bench: bench.header("ntns_windows.h", C99)
    yield "ntns_windows.h stands alone in C++11", lambda bench: bench.header("ntns_windows.h", CXX11)
    yield "the archive has what the header declares, and needs memory alone", Bench.symbols
    yield "README.md's program prints in C what stands there", lambda bench: bench.shown(C)
    yield "README.md's program prints in C++ what stands there", lambda bench: bench.shown(CXX)
    yield "worked cases", lambda bench: bench.client("cases")
    yield "odd arguments", lambda bench: bench.client("hostile")
    yield "each request for memory refused in turn", lambda bench: bench.client("refusals")
    yield "texts and statuses of Windows in C99", lambda bench: bench.client("windows", language=C99)
    yield "texts and statuses of Windows in C++11", lambda bench: bench.client("windows", language=CXX11)
    yield "texts and statuses of Windows under the sanitizers", lambda bench: bench.client("windows", language=C99, flags=SANITIZED)
    yield "system calls over the library in C", Bench.example
    yield "system calls over the library in C++", lambda bench: bench.example(language=CXX)
    yield "system calls under the sanitizers", lambda bench: bench.example(flags=SANITIZED)
    yield "what is timed is answered as it should be", Bench.timed
    under_valgrind = {
        "README.md's program under valgrind": lambda bench: bench.shown(C, *VALGRIND),
        "worked cases under valgrind": lambda bench: bench.client("cases", *VALGRIND),
        "odd arguments under valgrind": lambda bench: bench.client("hostile", *VALGRIND),
        "each request for memory refused in turn, under valgrind": lambda bench: bench.client("refusals", *VALGRIND),
        "system calls under valgrind": lambda bench: bench.example(*VALGRIND),
    }
    yield from where(VALGRIND[0], under_valgrind.items())
    for macro, call in wrong_libraries((CLIENTS / "wrong.c").read_text()):
        yield f"a wrong library fails a client: {macro}", lambda bench, macro=macro, call=call: bench.wrong(macro, call)


def shared_parts(place):
    """What is tried of the shared library, and of what is installed at a place."""
    yield "the shared library exports what the header declares, and nothing else", Bench.exports
    yield "README.md's program over the shared library", lambda bench: bench.shown(C)
    yield "worked cases over the shared library", lambda bench: bench.client("cases")
    yield from where("pkg-config", [("what is installed serves a program by pkg-config", lambda bench: bench.by_pkg_config(place))])
    yield from where("cmake", [("what is installed serves a project in CMake", lambda bench: bench.by_cmake(place))])
    yield "the bindings are of today's header", lambda bench: run([str(BINDINGS / "generate.py"), "--check"])
    yield "the binding for Python passes its tests", Bench.python
    yield from where("cargo", [("the binding for Rust passes its tests", Bench.rust)])


def fault_of(part, folder, linked):
    """What is wrong with a part, on a bench in a new folder."""
    try:
        part(Bench(Path(tempfile.mkdtemp(dir=folder)), linked))
    except Fault as fault:
        return str(fault)
    return ""


def main():
    if len(sys.argv) > 2:
        sys.exit("usage: gate/c.py [ARCHIVE]")
    count = Count("c")
    with tempfile.TemporaryDirectory(prefix="ntns-c-") as folder, ThreadPoolExecutor(os.cpu_count()) as pool:
        tried = []
        if len(sys.argv) == 2:
            archive = Path(sys.argv[1]).resolve()
        else:
            first, place, archive = Path(folder) / "first", Path(folder) / "place", library.ARCHIVE
            if subprocess.run(["make", "-s", "install", f"PREFIX={first}"], cwd=ROOT, check=False).returncode:
                sys.exit("c: error: the library is not built and installed\n0 passed, 1 failed")
            first.rename(place)
            tried = [(shows, part, library.SHARED) for shows, part in shared_parts(place)]
        tried = [*((shows, part, archive) for shows, part in parts()), *tried]
        for shows, fault in [(shows, pool.submit(fault_of, part, folder, linked)) for shows, part, linked in tried]:
            count.add(shows, [fault.result()])
    return count.end()


if __name__ == "__main__":
    sys.exit(main())
