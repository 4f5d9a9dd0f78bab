"""Edits of a crate's files, and the functions that they turn."""

import re
from dataclasses import dataclass
from functools import cache
from pathlib import Path

from crates import folder_of

WRONG, DEFINITIONS = "wrong", "definitions"


class Unfit(Exception):
    """An edit that can't be tried."""


@dataclass(frozen=True)
class Function:
    """A function of a source file: its path as `rt check` prints it, and where it starts, its body opens, and both end."""

    path: str
    start: int
    opens: int
    end: int

    @property
    def name(self):
        return self.path.rpartition("::")[2]

    def owns(self, path):
        """Whether a verdict's path is this function's, or that of a closure in it."""
        parent, _, name = self.path.rpartition("::")
        return path == self.path or path.startswith(f"{parent}::fn::{name}::")

    def parts(self, text):
        """What is around the function, its statement, and its body, without their layout."""
        return [part.split() for part in (text[: self.start] + text[self.end :], text[self.start : self.opens], text[self.opens : self.end])]


@dataclass(frozen=True)
class Edit:
    """A wrong body or a turned definition: the files that it changes, with their new texts, and the functions whose check must refuse it."""

    crate: str
    name: str
    files: dict
    functions: list  # the one that is turned, or all of the name
    turned: str = ""  # the new text of the one that is turned
    refusal: str = ""  # the code of the compiler's error that refuses it before any proof, if that is what does
    fails: str = ""  # the test that fails with it, if no contract refuses it

    @property
    def file(self):
        return next(iter(self.files))

    @property
    def function(self):
        return self.functions[0]


def blanked(text):
    """The text of a source file with comments, strings and characters blanked, so that braces can be counted."""
    pattern = r'//[^\n]*|/\*.*?\*/|b?"(?:\\.|[^"\\])*"|b?\'(?:\\(?:x[0-9a-fA-F]{2}|u\{[0-9a-fA-F]+\}|.)|[^\'\\])\''
    return re.sub(pattern, lambda match: re.sub(r"[^\n]", " ", match[0]), text, flags=re.S)


@cache
def braces(plain):
    """Where each brace of a blanked text that opens is closed."""
    found, opened = {}, []
    for match in re.finditer(r"[{}]", plain):
        if match[0] == "{":
            opened.append(match.start())
        elif opened:
            found[opened.pop()] = match.start()
    if opened:
        raise Unfit("braces that don't close")
    return found


def type_name(text):
    """The name of a type without its path, its references and its parameters; the prover calls the error of `io` by both names."""
    return re.sub(r"<.*", "", text.strip(), flags=re.S).replace("io::Error", "IoError").lstrip("&").strip().split("::")[-1].split()[-1]


def trait_name(text):
    """The name of a trait, then those of its parameters."""
    name, _, parameters = text.strip().partition("<")
    return type_name(name) + "".join(type_name(it) for it in parameters.removesuffix(">").split(",") if it.strip())


def owner_of(header):
    """How an `impl` appears in the path of its functions: the type, then the trait."""
    header = header.split(" where ")[0].replace("->", "  ").strip()
    plain, was = header, ""
    while plain != was:
        plain, was = re.sub(r"<[^<>]*>", lambda match: "." * len(match[0]), plain), plain
    parameters = re.match(r"\.*", plain).end()
    of_type = re.search(r"\bfor\b", plain)
    return type_name(header[of_type.end() :]) + trait_name(header[parameters : of_type.start()]) if of_type else type_name(header[parameters:])


def module_of(file):
    """The module that a source file is."""
    return [part for part in Path(file).with_suffix("").parts[1:] if part not in ("lib", "main", "mod")]


def sources_of(crate):
    """The source files of a crate, with their texts."""
    home = folder_of(crate)
    return [(str(path.relative_to(home)), path.read_text()) for path in sorted((home / "src").rglob("*.rt"))]


@cache
def homes(crate):
    """The modules of a crate that declare its types, by the types' names."""
    found = {}
    for file, text in sources_of(crate):
        for name in re.findall(r"\b(?:struct|enum)\s+(\w+)", blanked(text)):
            found.setdefault(name, module_of(file))
    return found


def body_of(plain, place):
    """Where the body of a function opens that is named before `place`; none for a declaration.

    Clauses are in braces too, after `requires` or `ensures` and perhaps a name, and the type of an array has a semicolon.
    """
    while match := re.compile(r"\[[^\[\]]*\]|[{;]").search(plain, place):
        if match[0] == ";":
            break
        if match[0] != "{":
            place = match.end()
        elif re.search(r"\b(?:requires|ensures\*?|ghost)(?:\s+\w+)?(?:\s*=)?$", plain[max(0, match.start() - 200) : match.start()].rstrip()):
            place = braces(plain)[match.start()] + 1
        else:
            return match.start()
    return None


@cache
def functions_of(crate, file, text):
    """The functions with a body of a source file. The path of a type's own function has the module that declares the type; that of a trait's has the file's."""
    module, plain = module_of(file), blanked(text)
    blocks = []
    for match in re.finditer(r"\b(?:impl\b([^{;]*)|mod\s+(\w+)\s*|trait\s+(\w+)[^{;]*)\{", plain):
        name = match[2] or match[3] or owner_of(match[1])
        home = module if match[1] is None else homes(crate).get(name, module)
        blocks.append((match.end() - 1, braces(plain)[match.end() - 1], name, home))
    found = []
    for match in re.finditer(r"\bfn\s+(\w+)", plain):
        opens = body_of(plain, match.end())
        if opens is not None:
            around = [(name, home) for start, end, name, home in blocks if start < match.start() < end]
            home = around[-1][1] if around else module
            path = "::".join([crate, *home, *(name for name, _ in around), match[1]])
            found.append(Function(path, match.start(), opens, braces(plain)[opens] + 1))
    return found


def functions_named(crate, name):
    """The functions of a crate that have this name."""
    found = [it for file, text in sources_of(crate) for it in functions_of(crate, file, text) if it.name == name]
    if not found:
        raise Unfit(f"the crate has no function {name}")
    return found


def read_lines(path):
    """What an edit says in its lines `refusal` and `fails`, by these names, and its texts: each a file, an old text and the new one."""
    says, texts = {"file": None}, []
    for line in path.read_text().splitlines():
        key, _, value = line.partition(":")
        value = value.removeprefix(" ")
        if key in ("file", "refusal", "fails"):
            says[key] = value.strip()
        elif key == "old":
            texts.append([says["file"], value, None])
        elif key == "new" and texts:
            texts[-1][2] = value
        elif line.strip():
            raise Unfit(f"a line that is no part of an edit: {line}")
    if not texts or any(None in text for text in texts):
        raise Unfit("no file, or an old text without a new one")
    return says, texts


def turned_files(crate, texts):
    """The files that an edit changes, with their new texts."""
    found = {}
    for file, old, new in texts:
        source = folder_of(crate) / file
        if file.split("/")[0] not in ("src", "specs") or not source.is_file():
            raise Unfit(f"{file} is no file of the crate's src/ or specs/")
        text = found.get(file) or source.read_text()
        if text.count(old) != 1:
            raise Unfit(f"the text '{old}' is in {file} {text.count(old)} times, and not once")
        found[file] = text.replace(old, new)
    return found


def read_edit(crate, path):
    """An edit. Its name begins with that of the one function that a wrong body turns, or of functions that refuse a turned definition or that a test is of."""
    says, texts = read_lines(path)
    files, name = turned_files(crate, texts), path.stem.split("-")[0]
    if path.parent.name == DEFINITIONS:
        if len(files) != 1:
            raise Unfit("it turns several files")
        return Edit(crate, path.stem, files, functions_named(crate, name))
    if "fails" in says:
        return Edit(crate, path.stem, files, functions_named(crate, name), fails=says["fails"])
    (file, turned), *others = files.items()
    if others or not file.startswith("src/"):
        raise Unfit("it turns several files, or none of src/")
    text = (folder_of(crate) / file).read_text()
    old, new = turned_function(crate, file, text, turned)
    if name != old.name:
        raise Unfit(f"it is named for {name} and turns {old.path}")
    return Edit(crate, path.stem, files, [old], turned[new.start : new.end], says.get("refusal", ""))


def turned_function(crate, file, text, turned):
    """The one function whose body alone differs in two texts of a file, as it is in each."""
    before, after = functions_of(crate, file, text), functions_of(crate, file, turned)
    if [function.path for function in before] != [function.path for function in after]:
        raise Unfit("it takes a function away, or brings one")
    pairs = [(old, new) for old, new in zip(before, after) if old.parts(text)[1:] != new.parts(turned)[1:]]
    if not pairs:
        raise Unfit("it is in no function")
    # the last one is in the others, if it is in any
    old, new = pairs[-1]
    (around, statement, _), (around_new, statement_new, _) = old.parts(text), new.parts(turned)
    if around != around_new:
        raise Unfit("it is in no one function")
    if statement != statement_new:
        raise Unfit(f"it turns what {old.path} states, and not its body alone")
    return old, new


def with_edits(text, edits):
    """A source file with these edits, each of another function, applied."""
    for edit in sorted(edits, key=lambda it: -it.function.start):
        text = text[: edit.function.start] + edit.turned + text[edit.function.end :]
    return text
