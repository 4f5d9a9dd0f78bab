"""Names in many small namespaces, each with what a plain search over flat rows ends with: scripts for `gate/cases.py`.

A namespace has, beside the opening state's objects, a link `\\b` to `\\GLOBAL??` and up to four objects with names of one letter, each in the root or in the
latest directory. The last of these directories is the caller's device map. Each namespace comes twice: without shadows, and with two objects in a directory
`\\S` that is the shadow of the others, or of some of them. In each, names are opened, opened without case, opened as links, and
made. The search is that of docs/namespace.md, sections 4 to 6, and uses nothing of the program.
"""

from dataclasses import dataclass

ROOT, GLOBAL = 1, 2

# the most reparses of a lookup
MOST = 32

# how many namespaces there are
NAMESPACES = 343

NAMES = ("a", "A", "b")
TARGETS = ("\\a", "\\b\\", "\\A\\a", "b", "\\", "\\??", "\\??\\a")
LOOKED_UP = (
    "\\a", "\\b", "\\A\\a", "\\b\\b", "\\a\\b\\a", "\\b\\A\\", "\\a\\\\b", "\\b\\a\\b",
    "\\??", "\\??\\a", "\\??\\b\\a", "\\??\\A\\", "\\DosDevices\\a",
)
MODES = ("open", "folded", "link", "create")


@dataclass(frozen=True)
class Row:
    """An object with its name; the rows stand in the order in which they came."""

    directory: int
    name: str
    object: int
    kind: str
    target: str = ""
    shadow: int = 0


# the names of the opening state that are looked up
OPENING = (Row(ROOT, "GLOBAL??", GLOBAL, "directory"), Row(ROOT, "DosDevices", 3, "link", "\\??"))


@dataclass(frozen=True)
class End:
    """What a lookup ends with: an object, a vacant place under a name in a directory, or a status."""

    object: int = 0
    vacant: str = ""
    status: str = ""


def find(rows, fold, directory, name):
    """The first row of a name in a directory."""
    for row in rows:
        if row.directory == directory and (row.name == name or (fold and row.name.upper() == name.upper())):
            return row
    return None


def see(rows, fold, directory, name, own):
    """The row that a name is seen by in a directory: of the directory itself, or, unless own rows alone count, else of its shadow."""
    row = find(rows, fold, directory, name)
    shadow = next((it.shadow for it in rows if it.object == directory), 0)
    return row if row or own or not shadow else find(rows, fold, shadow, name)


def begin(local, mode, text):
    """The directories in which the first component of a text is searched, and what is still to be used."""
    if text == "\\??":
        return [local], ""
    if text.startswith("\\??\\"):
        rest = text[3:]
        is_last = "\\" not in rest[1:]
        return [local] if mode == "create" and is_last else [local, GLOBAL], rest
    return [ROOT], "" if text == "\\" else text


def walk(rows, local, mode, text):
    """What a text ends with; a link that is to be followed, as its row and the rest behind it."""
    directories, rest = begin(local, mode, text)
    while rest:
        name = rest[1:].partition("\\")[0]
        rest = rest[1 + len(name) :]
        if not name:
            return End(status="OBJECT_NAME_INVALID")
        own = mode == "create" and not rest
        row = next(filter(None, (see(rows, mode == "folded", it, name, own) for it in directories)), None)
        if row is None:
            if rest:
                return End(status="OBJECT_PATH_NOT_FOUND")
            return End(object=directories[0], vacant=name) if mode == "create" else End(status="OBJECT_NAME_NOT_FOUND")
        if row.kind == "link" and (rest or mode in ("open", "folded")):
            return row, rest
        if row.kind != "directory":
            return End(status="OBJECT_TYPE_MISMATCH") if rest else End(object=row.object)
        directories = [row.object]
    return End(object=directories[0])


def search(rows, local, mode, text):
    """What an absolute name ends with."""
    end, left = walk(rows, local, mode, text), MOST
    while not isinstance(end, End):
        row, rest = end
        text = row.target[:-1] + rest if row.target.endswith("\\") and rest else row.target + rest
        if left == 0:
            return End(status="REPARSE_LIMIT")
        if not text.startswith("\\"):
            return End(status="OBJECT_PATH_SYNTAX_BAD")
        end, left = walk(rows, local, mode, text), left - 1
    return end


def kind_by(digit):
    """The kind of an object."""
    return ("directory", "directory", "directory", "event", "link", "link", "link")[digit]


def shadow_rows(digits):
    """The directory that is a shadow, and what is in it."""
    rows = [Row(ROOT, "S", 8, "directory")]
    for place, name in enumerate(("a", "b")):
        kind = kind_by(digits[place + 1])
        rows.append(Row(8, name, 9 + place, kind, TARGETS[digits[place]] if kind == "link" else ""))
    return rows


def namespace(number, has_shadows):
    """The rows of a namespace beside those of the opening state, and its last directory."""
    digits = [number * 7 // 7**place % 7 for place in range(6)]
    rows, last = [Row(ROOT, "b", 7, "link", "\\GLOBAL??")], GLOBAL
    rows += shadow_rows(digits) if has_shadows else []
    for place in range(4):
        directory = ROOT if digits[place] % 2 == 0 else last
        name, made = NAMES[digits[place + 1] % 3], 7 + len(rows)
        if find(rows, False, directory, name):
            continue
        kind = kind_by(digits[place])
        target = TARGETS[digits[place + 2]] if kind == "link" else ""
        shadow = 8 if has_shadows and kind == "directory" and digits[place + 1] != 0 else 0
        rows.append(Row(directory, name, made, kind, target, shadow))
        last = made if kind == "directory" else last
    return rows, last


def path_of(rows, number):
    """The path of an object."""
    for row in rows:
        if row.object == number:
            return path_of(rows, row.directory).removesuffix("\\") + "\\" + row.name
    return "\\"


def made(row):
    """The line that makes an object, by the word of its directory."""
    place = f'o{row.directory}:"{row.name}"'
    directory = f"shadow o{row.shadow} {place} -" if row.shadow else f"dir {place} -"
    ways = {"directory": directory, "link": f'link {place} - "{row.target}"', "event": f'make Event {place} - ""'}
    return f"p1 {ways[row.kind]} =o{row.object} | SUCCESS"


def created(rows, name, end):
    """The lines of a create of a name, which opens what is there."""
    if end.status:
        return [f'p1 make Event "{name}" - "" =x | {end.status}']
    path = path_of(rows, end.object)
    if end.vacant:
        path = path.removesuffix("\\") + "\\" + end.vacant
        return [f'p1 make Event "{name}" - "" =x | SUCCESS', f'p1 name x | SUCCESS "{path}"', "p1 close x | SUCCESS"]
    kind = next((row.kind for row in rows if row.object == end.object), "directory")
    ways = {"directory": f'dir "{name}" O', "link": f'link "{name}" O "x"', "event": f'make Event "{name}" O ""'}
    return [f"p1 {ways[kind]} =x | OBJECT_NAME_EXISTS", f'p1 name x | SUCCESS "{path}"']


def opened(rows, mode, name, end):
    """The lines of an open of a name."""
    line = f'p1 open any "{name}" {dict(open="-", folded="C", link="L")[mode]} =x'
    if end.status:
        return [f"{line} | {end.status}"]
    return [f"{line} | SUCCESS", f'p1 name x | SUCCESS "{path_of(rows, end.object)}"']


def script_of(number, has_shadows):
    """A script that makes a namespace and looks names up in it, each line with its reply."""
    own, last = namespace(number, has_shadows)
    rows = [*OPENING, *own]
    lines = ['p1 opendir "\\" - =o1 | SUCCESS', 'p1 opendir "\\GLOBAL??" - =o2 | SUCCESS', *map(made, own)]
    if last != GLOBAL:
        lines.append(f"p1 map o{last} | SUCCESS")
    for name in LOOKED_UP:
        for mode in MODES:
            end = search(rows, last, mode, name)
            lines += created(rows, name, end) if mode == "create" else opened(rows, mode, name, end)
    return lines


def scripts():
    """Each namespace's script, with what it shows."""
    for number in range(NAMESPACES):
        yield f"names in the namespace {number} as a plain search finds them", script_of(number, False)
        yield f"names in the namespace {number} with shadows as a plain search finds them", script_of(number, True)
