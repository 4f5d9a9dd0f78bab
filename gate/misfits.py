"""Lines that are no script line, and where each stops: by the forms of docs/script.md alone, and by `cases/misfits.txt`.

Each line is answered by a session, and reported by `ntns check`, in the column that the forms of the page give, with the parts that are left of its form.
"""

import random
import re

from crates import ROOT
from runs import run

PAGE, TABLE = ROOT / "docs" / "script.md", ROOT / "cases" / "misfits.txt"

# how many bytes a line may have
LIMIT = 262_144

# the first line of a script with workers, and of one without, in column 1
START, SESSION_START = "P, stat, seal or thread", "P, stat or tree"
VERB, END, EITHER = "a verb and its parts", "the end of the line", "plain or inherit"

# the parts of the page, as regular expressions
WORD = "[A-Za-z][A-Za-z0-9]{0,31}"
HANDLE = rf"{WORD}(?:\+[123])?"
TEXT = r'"(?:[\x20-\x21\x23\x24\x26-\x7E]|%[0-9A-Fa-f]{2})*"'
PROCESS = rf"(?!(?:stat|thread|join)(?![A-Za-z0-9])){WORD}"
KIND = "Event|Mutant|Section|Device|File|Key"
PARTS = {
    "P": PROCESS,
    "Q": PROCESS,
    "H": HANDLE,
    "V": WORD,
    "NAME": f"(?:{HANDLE}:)?{TEXT}",
    "PLACE": f"none|(?:{HANDLE}:)?{TEXT}",
    "KIND": KIND,
    "WANT": f"any|{KIND}",
    "FLAGS": r"-|x[0-9A-Fa-f]{1,8}|(?:([IPECOL])(?![IPECOL]*\1))+",
    "TEXT": TEXT,
    "ROOM": "0|[1-9][0-9]*",
    "MODE": "first1?|next1?",
    EITHER: EITHER.replace(" or ", "|"),
    "=V": f"={WORD}",
    "=Q": f"={PROCESS}",
}

# mutations of lines, drawn from a seed
MUTATIONS, SEED = 5_000, 76
LETTERS = ' "-=+:%abehkpqx019PIOL\0\r\t#\xff'


def forms():
    """The parts after each verb, by the forms of the page; `exit` has none."""
    (block,) = re.findall("\n### Forms\n\n```\n(.*?)```\n", PAGE.read_text(encoding="utf-8"), re.DOTALL)
    found = {}
    for row in block.splitlines():
        words = re.split(" {2,}", row.replace(" TEXT =V CreateObject", " TEXT =V  CreateObject"))[0].split()
        if words[0] == "P":
            found[words[1]] = [EITHER if word in ("plain", "inherit") else word for word in words[2:]]
    return found


def taken(part, rest, ending):
    """What follows a part and its ending at the beginning of a text, or nothing."""
    match = re.match(rf"(?:{PARTS[part]}){ending}", rest)
    if match and part == "ROOM" and int(match[0]) >= 1 << 32:
        return None
    return rest[match.end() :] if match else None


def stop_of(line, all_forms):
    """The column where a line stops and what is expected there, or nothing if it is a script line."""
    if len(line) > LIMIT:
        return LIMIT + 1, END
    if not line or line[0] == "#" or line == "stat":
        return None
    rest = taken("P", line, " ")
    if rest is None:
        return 1, ""
    at = len(line) - len(rest)
    verb, space, operands = rest.partition(" ")
    if rest == "exit":
        return None
    parts = all_forms.get(verb, [])
    if not parts:
        return at + 1, VERB
    if not space:
        return len(line) + 1, " ".join(parts)
    for number, part in enumerate(parts):
        left = taken(part, operands, r"\Z" if number == len(parts) - 1 else " ")
        if left is None:
            return len(line) - len(operands) + 1, " ".join(parts[number:])
        operands = left
    return None


def drawn(lines):
    """Lines of which some bytes were taken away, put in or changed."""
    draw = random.Random(SEED)
    for _ in range(MUTATIONS):
        line = draw.choice(lines)
        for _ in range(draw.choice((1, 1, 2))):
            place = draw.randrange(len(line) + 1)
            line = line[:place] + draw.choice(("", draw.choice(LETTERS))) + line[place + draw.choice((0, 1)) :]
        if line not in ("thread", "join", "seal"):
            yield line.replace("\n", "")


def difference(says, wanted):
    """The first difference of what is said, line by line."""
    for one, other in zip(says.decode("latin-1").splitlines() + [""], wanted + [""], strict=False):
        if one != other:
            return f"{one[:200]!r} is said, and not {other[:200]!r}"
    return "" if says.count(b"\n") == len(wanted) else f"{says.count(bytes([10]))} lines are said, and not {len(wanted)}"


def faults_of_lines(program, lines, shows):
    """What is wrong with the answers to lines, and with the report on them."""
    all_forms = forms()
    stops = [(number, line, stop_of(line, all_forms)) for number, line in enumerate(lines, 1)]
    script = "".join(f"{line}\n" for line in lines).encode("latin-1")
    reported = [f"line {number}, column {stop[0]}: expected {stop[1] or START}" for number, _, stop in stops if stop]
    left = run([program, "check", "FILE"], script)
    yield f"{shows}: a check ends with {left.status}" if (left.status, left.errors) != (1 if reported else 0, b"") else ""
    yield (says := difference(left.output, reported)) and f"{shows}: {says}"
    answers = [f"{number}: not a script line: column {stop[0]}, {stop[1] or SESSION_START}" for number, _, stop in stops if stop]
    left = run([program, "session"], script)
    said = b"".join(line for line in left.output.splitlines(keepends=True) if b": not a script line" in line)
    yield f"{shows}: a session ends with {left.status}" if (left.status, left.errors) != (0, b"") else ""
    yield (says := difference(said, answers)) and f"{shows}: {says}"


def faults_of_table(program):
    """What is wrong with the rows of the table: a line, closed by a bar, the column where it stops, and what is expected there."""
    rows = [row.rpartition("| ") for row in TABLE.read_text(encoding="ascii").splitlines()]
    all_forms = forms()
    for line, _, stop in rows:
        line = re.sub(r"\^([0-9A-F]{2})", lambda found: chr(int(found[1], 16)), line)
        column, _, expected = stop.partition(" ")
        is_start = expected == SESSION_START
        by_forms = stop_of(line, all_forms)
        yield "" if by_forms == (int(column), "" if is_start else expected) else f"by the page {line!r} stops at {by_forms}, and not {stop}"
        script = line.encode("latin-1")
        reported = f"line 1, column {column}: expected {START if is_start else expected}\n".encode()
        left = run([program, "check", "FILE"], script)
        yield "" if left == (1, reported, b"") else f"{line!r}: a check leaves {left}"
        left = run([program, "session"], script)
        yield "" if left == (0, f"1: not a script line: column {column}, {expected}\n".encode(), b"") else f"{line!r}: a session leaves {left}"


def faults(program, lines, bad):
    """What is wrong with the table, with lines that are no script line, and with mutations of lines that are."""
    yield from faults_of_table(program)
    yield from faults_of_lines(program, [line for line in bad if line not in ("thread", "join", "seal")], "lines that are none")
    yield from faults_of_lines(program, lines, "lines of each form")
    yield from faults_of_lines(program, list(drawn(lines)), "mutated lines")
    yield from faults_of_lines(program, ["#" * LIMIT, "#" * (LIMIT + 1), "p1 close " + "a" * LIMIT, "stat"], "long lines")
