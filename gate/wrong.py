#!/usr/bin/env python3
"""Tries the wrong bodies in crates/NAME/wrong/ and the turned definitions in crates/NAME/definitions/: each must be refused.

A wrong body, FUNCTION-what_it_does.edit, turns one function, whose own contract must refuse it. One `rt check` gives a verdict for each function that it
looks at, so the wrong bodies of a crate are tried in one check of their functions alone, and those that it leaves open in a second. A wrong body counts as
refused if a goal of its own function, or of a closure in it, is not proved. It does not count
- if the function is not proved only because it calls another turned function: it is tried again without the others;
- if an answer of its proof no longer fits: it is tried again without that answer.
With a line `refusal: CODE` the compiler must refuse it, by errors of that code alone. With a line `fails: TEST` a test must fail, for which the crates are
compiled without proofs: CRATE::TEST of a crate of tests; CRATE, a program that prints something else than its stdout, or fails; or examples/NAME, a script that
`ntns` answers otherwise.

A turned definition, FUNCTION-what_it_says.edit, changes a file of src/ or specs/, and the check of the functions of that name must refuse it.

    gate/wrong.py [--jobs N] [--definitions] [CRATE | CRATE/EDIT ..]
    gate/wrong.py --applies      tries none: checks that each edit applies to the sources, its old text there once, its function there
"""

import argparse
import os
import re
import shutil
import subprocess
import sys
import tempfile
import time
from concurrent.futures import ThreadPoolExecutor, as_completed
from dataclasses import dataclass, field
from pathlib import Path

from build import has_fresh_libraries, stamp
from crates import ROOT, RT, copied, folder_of, is_program, listed, rewrite, with_dependencies
from edits import DEFINITIONS, WRONG, Edit, Unfit, read_edit, with_edits
from runs import Count

# reasons of a verdict that are not the function's own
INHERITED = re.compile(r"(?:calls|waits for the proof of) .*|.*(?:which is not proved|which are not proved|has no proof|have no proof).*")
OWN = re.compile(r"did not prove (`[^;]*)")
PLACED = re.compile(r"(?:\./)?proofs/(\S+)/(Answers|Invariants|Proof)\.antt:(\d+):\d+: error: ")


@dataclass
class Verdict:
    """What a check says of a function."""

    says: str
    misfits: dict = field(default_factory=dict)  # by file of its proof, the lines that no longer fit

    @property
    def is_proved(self):
        return self.says.startswith("proved")

    @property
    def is_inherited(self):
        return any(INHERITED.fullmatch(part.strip().removeprefix("it ")) for part in re.split(r"[;:]", self.says))


def verdicts(output):
    """The verdicts of a check, by the path of each function."""
    found = {match[1]: Verdict(match[2]) for match in re.finditer(r"^fn (\S+): (.*)", output, re.M)}
    places = {path.partition("::")[2]: verdict for path, verdict in found.items() if not verdict.is_proved}
    for match in filter(None, map(PLACED.match, output.splitlines())):
        verdict = places.get(match[1].replace("/", "::").replace("+", ""))
        if verdict:
            verdict.misfits.setdefault(match[2], []).append(int(match[3]))
    return found


def judge(function, found):
    """What a check says of a function's edit: 'refused', 'misfits', 'proved', 'inherited', or what else is wrong."""
    own = [verdict for path, verdict in found.items() if function.owns(path)]
    if function.path not in found:
        return "the check gives no verdict"
    if any(OWN.search(verdict.says) for verdict in own):
        return "refused"
    if any(verdict.misfits for verdict in own):
        return "misfits"
    if all(verdict.is_proved for verdict in own):
        return "proved"
    return "inherited" if any(verdict.is_inherited for verdict in own) else next(verdict.says for verdict in own if not verdict.is_proved)


def without_answers(text, lines):
    """A file of answers without the items at these lines, imports among them."""
    head, *items = re.split(r"(?m)^(?=use |(?:pub )?[^\s:]+ (?:\{[^}]*\} )*:(?: |$))", text)
    kept, at = [head], 1 + head.count("\n")
    for item in items:
        end = at + item.count("\n")
        if not any(at <= line <= max(at, end - 1) for line in lines):
            kept.append(item)
        at = end
    return "".join(kept)


def answers_of(crate, path):
    """The file with the answers of a function or a closure."""
    inside = path.partition("::")[2].split("::")
    plain = Path("proofs", *inside, "Answers.antt")
    return str(plain if (folder_of(crate) / plain).is_file() else Path("proofs", *inside[:-1], f"+{inside[-1]}", "Answers.antt"))


@dataclass
class Try:
    """A wrong body that is to be tried."""

    edit: Edit
    without: dict = field(default_factory=dict)  # by file of answers, its text without those that no longer fit
    is_alone: bool = False


def rt(words, home):
    """What `rt` prints in a crate's folder."""
    how = {"stdin": subprocess.DEVNULL, "stdout": subprocess.PIPE, "stderr": subprocess.STDOUT, "text": True, "errors": "replace"}
    return subprocess.run([RT, *words], cwd=home, check=False, **how).stdout


class Bench:
    """A copy of a crate over what earlier checks or the last `rt ci` kept, in which its edits are tried one check after another."""

    def __init__(self, crate, folder, is_fresh):
        self.crate, self.home, self.changed, self.checks = crate, folder / "crates" / crate, set(), 0
        copied(with_dependencies(crate), folder, with_dependencies(crate))
        if is_fresh:
            stamp(folder)

    def text_of(self, file):
        """The text of one of the crate's own files."""
        return (folder_of(self.crate) / file).read_text()

    def check(self, texts, functions):
        """What a check of these functions prints with these texts in place of the crate's own."""
        for file in self.changed | texts.keys():
            rewrite(self.home / file, texts[file] if file in texts else self.text_of(file))
        self.changed, self.checks = set(texts), self.checks + 1
        return rt(["check", "--jobs", "1", *(word for it in functions for word in ("--only", it.path))], self.home)

    def tried(self, tries):
        """What a check prints with these wrong bodies, each of another function."""
        texts = {file: with_edits(self.text_of(file), [it.edit for it in tries if it.edit.file == file]) for file in {it.edit.file for it in tries}}
        for it in tries:
            texts.update(it.without)
        return self.check(texts, [it.edit.function for it in tries])

    def wrong(self, edits):
        """Tries wrong bodies; the fault of each by name, empty if it was refused."""
        faults, left = {}, [Try(edit, is_alone=bool(edit.refusal)) for edit in edits]
        while left:
            batch = one_of_each(left)
            left = [it for it in left if it not in batch]
            output = self.tried(batch)
            found = verdicts(output)
            for it in batch:
                fault = fault_of_refusal(it.edit, output) if it.edit.refusal else self.fault_of(it, found, output, len(batch) == 1)
                if fault is None:
                    left.append(it)
                else:
                    faults[it.edit.name] = fault
        return faults

    def fault_of(self, it, found, output, was_alone):
        """The fault of one wrong body, empty if it was refused; None if it is to be tried again."""
        if not found:
            it.is_alone = True
            lines = output.splitlines() or ["rt printed nothing"]
            return f"it can't be checked: {next((line for line in lines if 'error' in line), lines[-1])}" if was_alone else None
        says, path = judge(it.edit.function, found), it.edit.function.path
        if says == "misfits":
            return self.leave_out(it, found)
        if says == "inherited" and not was_alone:
            it.is_alone = True
            return None
        known = {"refused": "", "proved": f"{path} is proved with it", "inherited": f"{path} is not proved only because of what it calls"}
        return known.get(says, says)

    def leave_out(self, it, found):
        """Leaves out the answers that no longer fit a wrong body; None if it can be tried so, else the fault."""
        before = dict(it.without)
        for path, verdict in found.items():
            if not it.edit.function.owns(path) or not verdict.misfits:
                continue
            if {*verdict.misfits} != {"Answers"}:
                return f"an invariant or a whole proof of {path} doesn't fit it"
            file = answers_of(self.crate, path)
            text = it.without[file] if file in it.without else self.text_of(file)
            it.without[file] = without_answers(text, verdict.misfits["Answers"])
        return f"the answers of {it.edit.function.path} don't fit it" if it.without == before else None

    def definition(self, edit):
        """The fault of a turned definition, empty if it was refused."""
        output = self.check(edit.files, edit.functions)
        if re.search(rf"^(?:\./)?{re.escape(edit.file)}:\d+:\d+: error", output, re.M):
            return "the turned text can't be read"
        own = [verdict for path, verdict in verdicts(output).items() if any(it.owns(path) for it in edit.functions)]
        if not own:
            return f"the check gives no verdict: {(output.splitlines() or ['rt printed nothing'])[-1]}"
        return f"{edit.function.path} is proved with it" if all(it.is_proved for it in own) else ""


def one_of_each(tries):
    """As many as fit into one check: the first of each function, or else one that is to be tried alone."""
    together = {it.edit.function: it for it in reversed(tries) if not it.is_alone}
    return list(together.values()) or tries[:1]


def fault_of_refusal(edit, output):
    """What is wrong with an edit that the compiler must refuse; empty if it does."""
    errors = re.findall(r"^(?:\./)?(\S+?):\d+:\d+: error(?:\[([\w-]+)\])?", output, re.M)
    if not errors:
        return "the compiler accepts it"
    other = next((error for error in errors if error != (edit.file, edit.refusal)), None)
    return f"it is refused by another error: {other[1] or 'one without a code'} in {other[0]}" if other else ""


def fault_of_test(edit, folder):
    """What is wrong with an edit that a test must refuse; empty if that test fails with it."""
    crate, _, test = edit.fails.partition("::")
    given, wanted = ROOT / f"{crate}.ntns", ROOT / f"{crate}.out"
    if given.is_file():
        crate = "ntns"
    elif crate in listed():
        given, wanted = folder_of(crate) / "stdin", folder_of(crate) / "stdout"
    else:
        return f"there is no test {edit.fails}"
    copied(with_dependencies(crate) | with_dependencies(edit.crate), folder)
    for file, text in edit.files.items():
        rewrite(folder / "crates" / edit.crate / file, text)
    words = [RT, "try", *([] if is_program(crate) else ["--test"])]
    with (given if given.is_file() else Path(os.devnull)).open() as stream:
        ran = subprocess.run(words, cwd=folder / "crates" / crate, stdin=stream, capture_output=True, text=True, errors="replace", check=False)
    if not re.search(r"^run=(?!none)", ran.stderr, re.M):
        return f"it can't be compiled: {(ran.stderr.splitlines() or ['rt printed nothing'])[0]}"
    if is_program(crate):
        passes = ran.stdout == wanted.read_text() and re.search(r"^run=ended status=0\b", ran.stderr, re.M)
    else:
        passes = re.search(rf"^test {re.escape(test)} \.\.\. ok$", ran.stdout + ran.stderr, re.M)
    return f"{edit.fails} passes with it" if passes else ""


def edits_in(crate, kind):
    """The files with a crate's edits of one kind."""
    return sorted((folder_of(crate) / kind).glob("*.edit"))


def edits_of(label, kind):
    """The files with a crate's edits, or with the one of CRATE/EDIT."""
    crate, _, name = label.partition("/")
    return [it for it in edits_in(crate, kind) if name in ("", it.stem)]


def read(crate, paths):
    """A crate's edits, and the faults of those that can't be tried, by name."""
    edits, faults = [], {}
    for path in paths:
        try:
            edits.append(read_edit(crate, path))
        except Unfit as fault:
            faults[path.stem] = str(fault)
    return edits, faults


def try_crate(crate, paths, kind, room, is_fresh):
    """Tries a crate's edits of one kind; a line on that, and the fault of each, empty if it was refused."""
    begun, checks = time.monotonic(), 0
    edits, faults = read(crate, paths)
    try:
        for edit in (it for it in edits if it.fails):
            checks += 1
            faults[edit.name] = fault_of_test(edit, room / f"test-{checks}")
        proved = [it for it in edits if not it.fails]
        if proved:
            bench = Bench(crate, room / "bench", is_fresh)
            faults |= bench.wrong(proved) if kind == WRONG else {edit.name: bench.definition(edit) for edit in proved}
            checks += bench.checks
    finally:
        shutil.rmtree(room, ignore_errors=True)
    line = f"{crate}, {checks} checks by rt in {time.monotonic() - begun:.0f} s"
    return line, [fault and f"{crate}/{name}: not refused: {fault}" for name, fault in sorted(faults.items())]


def prove_below(crates, jobs):
    """Has the libraries proved that these crates stand on, lowest first, if earlier checks have not; returns whether all are."""
    needed = set().union(*(with_dependencies(it) - {it} for it in crates))
    for crate in (it for it in listed() if it in needed):
        output = rt(["lib", "--jobs", str(jobs)], folder_of(crate))
        if not (folder_of(crate) / "out" / "rlib" / "stamp").is_file():
            print(output[-4000:], f"{crate} is not proved", sep="\n")
            return False
    return True


def try_all(asked, kind, jobs, count, is_fresh):
    """Tries all these edits, several crates side by side, the largest first. `is_fresh`: the work tree has the libraries of one `rt ci` over today's files."""
    size = {crate: len(paths) * sum(it.stat().st_size for it in (folder_of(crate) / "src").rglob("*.rt")) for crate, paths in asked.items()}
    with tempfile.TemporaryDirectory(prefix="wrong-") as room, ThreadPoolExecutor(jobs) as pool:
        crates = sorted(asked, key=size.get, reverse=True)
        for run in as_completed([pool.submit(try_crate, crate, asked[crate], kind, Path(room) / crate, is_fresh) for crate in crates]):
            count.add(*run.result())


def applies(kind):
    """The faults of edits of one kind that don't apply, empty for each that does."""
    for crate in listed():
        edits, faults = read(crate, edits_in(crate, kind))
        yield from [""] * len(edits)
        yield from (f"crates/{crate}/{kind}/{name}.edit: {fault}" for name, fault in faults.items())


def main():
    parser = argparse.ArgumentParser(description="Tries wrong bodies and turned definitions.")
    parser.add_argument("asked", nargs="*", metavar="CRATE | CRATE/EDIT")
    parser.add_argument("--jobs", type=int, default=len(os.sched_getaffinity(0)), metavar="N")
    parser.add_argument("--definitions", action="store_true")
    parser.add_argument("--applies", action="store_true")
    words = parser.parse_args()
    unknown = [label for label in words.asked if label.partition("/")[0] not in listed()]
    if unknown:
        parser.error(f"no crate of crates.txt: {' '.join(unknown)}")
    kind = DEFINITIONS if words.definitions else WRONG
    count = Count("edits" if words.applies else kind)
    if words.applies:
        for kind in (WRONG, DEFINITIONS):
            count.add(f"those of {kind}/ apply", applies(kind))
        return count.end()
    asked = {}
    for label in words.asked or [crate for crate in listed() if edits_in(crate, kind)]:
        found = edits_of(label, kind)
        if not found:
            parser.error(f"no edit in {kind}/: {label}")
        asked.setdefault(label.partition("/")[0], []).extend(found)
    is_fresh = has_fresh_libraries()
    proved = {crate for crate, paths in asked.items() if not all("\nfails: " in it.read_text() for it in paths)}
    if not is_fresh and not prove_below(proved, words.jobs):
        sys.exit("0 passed, 1 failed")
    try_all(asked, kind, words.jobs, count, is_fresh)
    return count.end()


if __name__ == "__main__":
    sys.exit(main())
