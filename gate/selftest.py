#!/usr/bin/env python3
"""Tests the judges of the gate's own tools: what a check says of a wrong body, what an edit turns, what a run may leave that was refused memory, and what a
README, a header and an archive say. It also compares the code in documents with its sources.

    gate/selftest.py
"""

import itertools
import re
import sys
import tempfile
from pathlib import Path

import c
import crates
import edits
import library
import refusals
import rooms
from crates import ROOT, listed
from runs import Count, Left, parted
from wrong import judge, verdicts, without_answers

PUT, TAKE = "ob::shelf::Shelf::put", "ob::shelf::Shelf::take"
UNPROVED = f"fn {PUT}: no proof: "
SEARCHED = "`search` did not prove `returns`"
ERROR = "./proofs/shelf/Shelf/put/Answers.antt:4:1: error: `returns`: as printed, the two types differ\n"

# what a check prints of a function, and what that says of its edit
JUDGED = [
    ("a body that is proved", f"fn {PUT}: proved", "proved"),
    ("a goal that the search doesn't prove", f"{UNPROVED}expected answers in x; {SEARCHED}", "refused"),
    ("a goal of its own and an unproved callee", f"{UNPROVED}expected answers in x; {SEARCHED}; it calls `ob::a`, which is not proved", "refused"),
    ("a goal of a closure", f"{UNPROVED}it calls `ob::a`, which is not proved\nfn ob::shelf::Shelf::fn::put::closure: no proof: {SEARCHED}", "refused"),
    ("an unproved callee", f"{UNPROVED}it calls `ob::a`, which is not proved", "inherited"),
    ("two unproved callees", f"{UNPROVED}it calls `ob::a` and `ob::b`, which are not proved", "inherited"),
    ("a callee that has no proof", f"{UNPROVED}it calls `ob::a`, which has no proof", "inherited"),
    ("a wait for a proof", f"fn {PUT}: not proved; it waits for the proof of `ob::a`", "inherited"),
    ("an answer that no longer fits", f"{ERROR}fn {PUT}: not proved", "misfits"),
    ("an answer of another function that doesn't fit", ERROR.replace("put", "take") + f"fn {PUT}: proved", "proved"),
    ("an unknown verdict", f"fn {PUT}: not proved", "not proved"),
    ("another function alone", f"fn {TAKE}: proved", "the check gives no verdict"),
]

ANSWERS = "use a.b\n\npub first : goal.first\nfirst c =\n    one\n\npub second : goal.second\nsecond c = two\n"

SOURCE = "pub fn one() -> u8\n    ensures { result ≡ 1 }\n{\n    1\n}\n\nfn two() -> u8 {\n    2 // \"}\"\n}\n\nfn three() -> [u8; 2] {\n    [3, 3]\n}\n"


def of_verdicts():
    """What is judged of a check, and which answers are left out."""
    function = edits.Function(PUT, 0, 0, 0)
    for shows, output, wanted in JUDGED:
        yield shows, judge(function, verdicts(output)), wanted
    yield "the answer of a line is left out, and no other", without_answers(ANSWERS, [5]), ANSWERS.replace("pub first : goal.first\nfirst c =\n    one\n\n", "")
    yield "the last answer is left out too", without_answers(ANSWERS, [7, 8]), ANSWERS.partition("pub second")[0]
    yield "an import that doesn't fit is left out alone", without_answers(ANSWERS, [1]), ANSWERS.removeprefix("use a.b\n\n")


# the names and texts of wrong bodies of SOURCE, and what they are read as
READ = [
    ("a body that is turned", "one-is_two", "old:     1\nnew:     2\n", "ob_small::one"),
    ("a name of another function", "two-is_two", "old:     1\nnew:     2\n", "it is named for two and turns ob_small::one"),
    ("a statement that is turned", "one-is_two", "old: ≡ 1\nnew: ≡ 2\n", "it turns what ob_small::one states, and not its body alone"),
    ("two functions", "one-is_two", "old:     1\nnew:     3\nold:     2\nnew:     3\n", "it is in no one function"),
    ("a body behind a type with a semicolon", "three-is_two", "old:     [3, 3]\nnew:     [2, 3]\n", "ob_small::three"),
    ("a text that isn't there", "one-is_two", "old: 7\nnew: 8\n", "the text '7' is in src/lib.rt 0 times, and not once"),
    ("layout around a function", "two-is_one", "old:     1\nnew:   1\nold:     2\nnew:     1\n", "ob_small::two"),
    ("several functions that a test refuses", "two-is_one", "fails: low::one\nold:     1\nnew:     2\nold: [3\nnew: [1\n", "low::one"),
    ("a test of no function", "four-is_one", "fails: low::one\nold:     1\nnew:     2\n", "the crate has no function four"),
]


def of_edits():
    """What wrong bodies are read as, in a repository of one crate."""
    with tempfile.TemporaryDirectory(prefix="gate-") as folder:
        home = Path(folder) / "crates" / "ob_small"
        for part in ("src", "wrong"):
            (home / part).mkdir(parents=True)
        (home / "src" / "lib.rt").write_text(SOURCE)
        root, crates.ROOT = crates.ROOT, Path(folder)
        for shows, name, text, wanted in READ:
            path = home / "wrong" / f"{name}.edit"
            path.write_text(f"file: src/lib.rt\n{text}")
            try:
                edit = edits.read_edit("ob_small", path)
                yield shows, edit.fails or edit.function.path, wanted
            except edits.Unfit as fault:
                yield shows, str(fault), wanted
        crates.ROOT = root
    owners = [edits.owner_of(header) for header in (" Shelf<T> ", "<T: Drop> From<Failed<T>> for a::Shelf<T> ", " Find for Shelf where T: Drop")]
    yield "the owners of functions", owners, ["Shelf", "ShelfFromFailed", "ShelfFind"]


# the lines by which two texts of one place are kept apart
MERGED = re.compile(r"^(?:<{7}|>{7}) ", re.MULTILINE)


# the documents that show code: its language, the folders of the files that it stands in, and how many pieces there are
SHOWN = [
    ("docs/threads.md", "rust", ("crates/callers/src", "crates/viewers/src"), 6),
    ("docs/emulator.md", "c", ("examples/nt",), 9),
    ("README.md", "rust", ("crates/ob_standard_core/src",), 1),
]


def anchors(page):
    """The places in a page that a link may lead to: its headings, as they are spelled in a link."""
    return {re.sub(r"[^\w -]", "", it.lower()).replace(" ", "-") for it in re.findall(r"^#+ (.*)$", page.read_text(), re.MULTILINE)}


def broken_links():
    """The links of the pages that lead to no file of the repository, or to no heading of it."""
    for page in (*ROOT.glob("*.md"), *ROOT.glob("docs/*.md")):
        for link in re.findall(r"\]\(([^)\s]+)\)", page.read_text()):
            path, _, anchor = link.partition("#")
            target = page.parent / path if path else page
            if "://" not in link and (not target.exists() or (anchor and anchor not in anchors(target))):
                yield f"{page.name}: {link}"


def of_documents():
    """The code in documents, their links and their diagram, and the marks of a merge."""
    map_page = (ROOT / "docs/ARCHITECTURE.md").read_text()
    yield "the diagram of the crates is that of crates.txt", rooms.diagram() in map_page, True
    yield "the map names each crate", [it for it in listed() if it not in map_page and not it.endswith("_tests")], []
    yield "each link leads somewhere", [*broken_links()], []
    for document, language, folders, pieces in SHOWN:
        source = "".join(path.read_text() for folder in folders for path in sorted(ROOT.glob(f"{folder}/*.*")))
        shown = re.findall(rf"\n```{language}\n(.*?)```\n", (ROOT / document).read_text(), re.DOTALL)
        yield f"what {document} shows stands in {' or '.join(folders)}", [text for text in shown if text not in source], []
        yield f"{document} shows code", len(shown), pieces
    count = len(crates.with_dependencies(library.CRATE))
    yield f"README.md says that the library has {count} crates", f"the {count} crates of the static library" in (ROOT / "README.md").read_text(), True
    texts = itertools.chain.from_iterable(ROOT.glob(it) for it in ("*.md", "docs/*.md", *(f"crates/*/{part}/**/*" for part in ("src", "specs", "proofs"))))
    yield "none has the marks of a merge", [path for path in texts if path.is_file() and MERGED.search(path.read_text())], []


# what a run leaves that was refused memory, of a script with an open in line 3, and whether that is right
REFUSED = [
    ("the whole run", 0, b"1: SUCCESS\n3: SUCCESS\n4: SUCCESS\n", b"", True),
    ("another status", 1, b"1: SUCCESS\n3: SUCCESS\n4: SUCCESS\n", b"", False),
    ("no output, and an error", 1, b"", refusals.OUT_OF_MEMORY.errors, True),
    ("no output, and no error", 1, b"", b"", False),
    ("no output, and status 0", 0, b"", refusals.OUT_OF_MEMORY.errors, False),
    ("replies before the error", 1, b"1: SUCCESS\n", refusals.OUT_OF_MEMORY.errors, False),
    ("an end at the line out of memory", 1, b"1: SUCCESS\n3: want of memory\n", b"", True),
    ("one at the first line", 1, b"1: want of memory\n", b"", True),
    ("one with status 0", 0, b"1: SUCCESS\n3: want of memory\n", b"", False),
    ("one that is reported twice", 1, b"1: SUCCESS\n3: want of memory\n", refusals.OUT_OF_MEMORY.errors, False),
    ("one after a line that is lost", 1, b"1: SUCCESS\n4: want of memory\n", b"", False),
    ("one after another reply", 1, b"1: OBJECT_NAME_COLLISION\n3: want of memory\n", b"", False),
    ("lines after it", 1, b"1: SUCCESS\n3: want of memory\n4: SUCCESS\n", b"", False),
    ("another reply", 0, b"1: SUCCESS\n3: SUCCESS\n4: INVALID_HANDLE\n", b"", False),
    ("a run that stops", 0, b"1: SUCCESS\n", b"", False),
    ("a parse out of memory", 0, b"1: SUCCESS\n3: NO_MEMORY\n4: SUCCESS\n", b"", True),
    ("a parse out of memory, with a trace", 0, b"1: SUCCESS\n3: NO_MEMORY\n4: INVALID_HANDLE\n", b"", False),
    ("a parse out of memory, and an end", 1, b"1: SUCCESS\n3: NO_MEMORY\n4: want of memory\n", b"", True),
    ("a line without a parse that says so", 0, b"1: SUCCESS\n3: SUCCESS\n4: NO_MEMORY\n", b"", False),
]


class Refused:
    """A program whose open is refused where line 3 opens nothing."""

    def whole(self, words, script):
        output = b"1: SUCCESS\n2: SUCCESS\n" if b"drop" in script else b"1: SUCCESS\n3: OBJECT_NAME_INVALID\n4: SUCCESS\n"
        assert b"drop" in script or b"%07" in script, words
        return refusals.Counted(Left(0, output), 0, 0, 0, 0, ())


def of_refusals():
    """What is judged of runs that were refused memory, and of steps; and how journals are told from other lines."""
    one = refusals.Case("one", script=b'p1 dir "\\A" - =a\n# more\np1 open File "\\D\\x" - =f\np1 close a\n')
    for shows, status, output, errors, wanted in REFUSED:
        yield shows, not refusals.fault_of_refused(Refused(), one, Left(*REFUSED[0][1:4]), Left(status, output, errors)), wanted
    two, whole = refusals.Case("two", script=b"p1 end v\np1 end w\n"), Left(0, b"1: SUCCESS\n2: SUCCESS\n")
    for shows, second, wanted in (("two parses out of memory", b"2", True), ("one reported twice", b"1", False)):
        yield shows, not refusals.fault_of_refused(Refused(), two, whole, Left(0, b"1: NO_MEMORY\n%b: NO_MEMORY\n" % second)), wanted
    first, second = b'{"first":1,"journal":2}\n{"n":1}\n', b'{"first":1,"journal":2}\n{"first":2}\n'
    yield "journals follow lines", parted(b"a\n" + first + b"b\n" + second + b"end\n"), (b"a\nb\nend\n", [first, second])
    yield "a line of its own is no journal", parted(b'{"n":1}\na\n'), (b'{"n":1}\na\n', [])
    line, end = b"b .. SUCCESS 2f", b"end"
    for shows, status, output, wanted in (
        ("a step that changed nothing", 0, b"b .. refused, nothing changed, then SUCCESS 2f", (True, True)),
        ("a step that wasn't refused", 0, line, (True, False)),
        ("a step that changed something", 1, b"b .. refused, CHANGED, then SUCCESS 2f", (False, False)),
        ("a step that replies another thing when it is made again", 0, b"b .. refused, nothing changed, then SUCCESS 3f", (False, True)),
        ("a step that is lost", 0, b"", (False, False)),
    ):
        fault, is_refused = refusals.fault_of_step(line, end, Left(status, output + b"\nend\n"), "ntns")
        yield shows, (not fault, is_refused), wanted


README = "## From C\n\nIt is\n\n```c\nint main;\n```\n\n```\nout\n```\n\n## More\n\n```c\nnone\n```\n"
HEADER = """/* ntns_none(x) */
ntns_status ntns_open(ntns *ns);
void ntns_close(ntns *ns); /* like ntns_open(ns) */
#define NTNS_OK(status) ((ntns_status)(status))
"""
NAMES = """part.o:
0000000000000000 T ntns_open
                 U malloc
0000000000000010 t own

other.o:
                 U ntns_open
                 w hook
"""


def of_c():
    """What is read of a document, a header and an archive."""
    yield "the program of a README and what it prints", c.shown_in("# A\n\n" + README), ("int main;\n", "out\n")
    try:
        yield "a README without one is a fault", c.shown_in(README.replace("From C", "From D")), c.Fault
    except c.Fault as fault:
        yield "a README without one is a fault", type(fault), c.Fault
    yield "the calls that a header declares", c.declared_in(HEADER), {"ntns_open", "ntns_close"}
    yield "what an archive defines, and needs of others", c.names_in(NAMES), ({"ntns_open"}, {"malloc", "hook"})
    page = (ROOT / "docs" / "c.md").read_text()
    yield "docs/c.md names what the archive may need", [name for name in sorted(c.NEEDED) if f"`{name}`" not in page], []
    source = (c.CLIENTS / "wrong.c").read_text()
    found = [macro for macro, _ in c.wrong_libraries(source)]
    yield "each wrong library is tried", found, re.findall(r"defined (\w+)$", source, re.MULTILINE)
    yield "each client of another wrong library than those for `cases` is told one", c.FAILS.keys() - found, set()


def main():
    count = Count("selftest")
    for part in (of_verdicts, of_edits, of_refusals, of_documents, of_c):
        count.add(part.__name__.removeprefix("of_"), ("" if found == wanted else f"error: {shows}: {found}" for shows, found, wanted in part()))
    return count.end()


if __name__ == "__main__":
    sys.exit(main())
