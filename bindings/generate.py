#!/usr/bin/env python3
"""Writes what the bindings take from include/ntns.h: its constants, and the declarations of its structs and calls, for Python and Rust.

    bindings/generate.py              writes them
    bindings/generate.py --check      only compares; the exit status is 1 where a file differs, or where the header has a declaration of another form
"""

import re
import sys
from pathlib import Path
from typing import NamedTuple

ROOT = Path(__file__).resolve().parent.parent
HEADER = (ROOT / "include" / "ntns.h").read_text()
CODE = re.sub(r"/\*.*?\*/", "", HEADER, flags=re.DOTALL)

# the constants of the header: the class of each, with its document, and the prefix of its names
CLASSES = {
    "Status": ("NTSTATUS values; those from 0xE0000000 on are this library's own.", "NTNS_STATUS_"),
    "Attribute": ("Attributes, as of OBJECT_ATTRIBUTES.", "NTNS_OBJ_"),
    "Type": ("Types of objects; ANY is for opens alone.", "NTNS_TYPE_"),
}

# the part of the binding for Python that is written here
PYTHON = re.compile(r"(?<=# ntns\.h, written by bindings/generate\.py\n).*(?=# end of ntns\.h\n)", re.DOTALL)

# the types of C in Rust and in Python
TYPES = {
    "bool": ("bool", "c_bool"),
    "char": ("c_char", "c_char"),
    "size_t": ("usize", "c_size_t"),
    "uint32_t": ("u32", "c_uint32"),
    "uint64_t": ("u64", "c_uint64"),
    "uintptr_t": ("usize", "c_size_t"),
}

# the types of the header that are numbers, likewise
SCALARS = {name: TYPES[kind] for kind, name in re.findall(r"^typedef (\w+) (\w+);", CODE, re.MULTILINE)}


def in_rust(kind):
    """A type of C in Rust, where structs and numbers of the header keep their names."""
    return TYPES[kind][0] if kind in TYPES else kind


def in_python(kind):
    """A type of C in Python, where a struct is a class, as _Row for ntns_row."""
    if kind in TYPES or kind in SCALARS:
        return {**TYPES, **SCALARS}[kind][1]
    return "_" + "".join(part.title() for part in kind.split("_") if part != "ntns" or kind == "ntns")


class Declared(NamedTuple):
    """A parameter, or a field of a struct."""

    name: str
    kind: str
    is_const: bool
    is_pointer: bool
    count: int  # of an array, and else 0

    def rust(self):
        """It in Rust."""
        kind = f"[{in_rust(self.kind)}; {self.count}]" if self.count else in_rust(self.kind)
        return f"{'kind' if self.name == 'type' else self.name}: {('*const ' if self.is_const else '*mut ') if self.is_pointer else ''}{kind}"

    def python(self):
        """Its type in Python."""
        if self.kind == "char" and self.is_pointer:
            return "c_char_p"
        kind = in_python(self.kind)
        return f"POINTER({kind})" if self.is_pointer else f"{kind} * {self.count}" if self.count else kind


class Struct(NamedTuple):
    """A struct: its document, its fields, and whether its values are the library's alone, and aren't copied."""

    name: str
    document: str
    fields: list
    is_own: bool


class Call(NamedTuple):
    """A call, with the type of its result."""

    name: str
    result: str
    parameters: list


def declared(text):
    """The parts of a parameter or a field."""
    found = re.fullmatch(r"(const )?(?:struct )?(\w+) (\*?)(\w+)(?:\[(\d+)\])?", " ".join(text.split()))
    if not found:
        sys.exit(f"bindings/generate.py: the header has {text.strip()!r}, which isn't read yet")
    const, kind, pointer, name, count = found.groups()
    return Declared(name, kind, bool(const), bool(pointer), int(count or 0))


def document_of(name):
    """The comment right before a struct or a type of the header."""
    found = re.search(rf"/\*((?:(?!\*/).)*)\*/\n(?:typedef )?\w+ {name}\b", HEADER, re.DOTALL)
    return " ".join(found[1].replace("\n *", " ").split()) if found else f"{name} of the header."


def structs():
    """The structs of the header, in its order."""
    found = re.findall(r"^(typedef )?struct (\w+) \{([^}]*)\}", CODE, re.MULTILINE)
    return [Struct(name, document_of(name), [declared(it) for it in fields.split(";") if it.strip()], bool(own)) for own, name, fields in found]


def calls():
    """The calls of the header, in its order."""
    found = re.findall(r"^(const char \*|\w+)\s*(ntns_\w+)\(([^)]*)\);", CODE, re.MULTILINE)
    return [Call(name, result, [declared(it) for it in parameters.split(",") if it != "void"]) for result, name, parameters in found]


def constants(name):
    """The constants of a class, by their names without the prefix."""
    return re.findall(rf"\b{CLASSES[name][1]}(\w+) *(?:=|\(\(ntns_status\)| ) *(0x[0-9A-Fa-f]+|\d+)", CODE)


def numbers():
    """The other constants, as the version."""
    return re.findall(r"^#define NTNS_(\w+) (\d+)$", CODE, re.MULTILINE)


def python_struct(struct):
    """A struct in Python."""
    fields = ", ".join(f'("{it.name}", {it.python()})' for it in struct.fields)
    return f'\n\nclass {in_python(struct.name)}(ctypes.Structure):\n    """{struct.document}"""\n\n    _fields_ = [{fields}]\n'


def python_call(call):
    """A call in Python: its result, and its parameters."""
    result = {"void": "None", "const char *": "c_char_p"}.get(call.result) or in_python(call.result)
    return f'    "{call.name}": ({result}, [{", ".join(it.python() for it in call.parameters)}]),\n'


def python(text):
    """The binding for Python, with what the header has."""
    classes = (
        f'\n\nclass {name}(enum.{"IntFlag" if name == "Attribute" else "IntEnum"}):\n    """{document}"""\n\n'
        + "".join(f"    {row} = {value}\n" for row, value in constants(name))
        for name, (document, _) in CLASSES.items()
    )
    return PYTHON.sub(
        lambda _: "\n"
        + "".join(f"{name} = {value}\n" for name, value in numbers())
        + "".join(classes)
        + "".join(map(python_struct, structs()))
        + "\n\n# the result and the parameters of each call\n_CALLS = {\n"
        + "".join(map(python_call, calls()))
        + "}\n\n",
        text,
    )


def rust_struct(struct):
    """A struct in Rust."""
    rows = "".join(f"    pub {it.rust()},\n" for it in struct.fields)
    derived = "Debug, Default" if struct.is_own else "Debug, Clone, Copy, Default, PartialEq, Eq"
    return f"/// {struct.document}\n#[repr(C)]\n#[derive({derived})]\npub struct {struct.name} {{\n{rows}}}\n\n"


def rust_call(call):
    """A call in Rust."""
    returns = {"void": "", "const char *": " -> *const c_char"}.get(call.result, f" -> {in_rust(call.result)}")
    return f"    pub fn {call.name}({', '.join(it.rust() for it in call.parameters)}){returns};\n"


def declarations(_):
    """The crate `ntns-sys`."""
    return (
        "//! The declarations of `include/ntns.h`, which describes the calls. Written by bindings/generate.py.\n"
        "#![no_std]\n#![allow(non_camel_case_types)]\n\nuse core::ffi::c_char;\n\n"
        + "".join(f"/// {document_of(name)}\npub type {name} = {kind};\n\n" for name, (kind, _) in SCALARS.items())
        + "".join(map(rust_struct, structs()))
        + "".join(f"pub const NTNS_{name}: u32 = {value};\n" for name, value in numbers())
        + "".join(f"pub const {CLASSES[name][1]}{row}: u32 = {value};\n" for name in CLASSES for row, value in constants(name))
        + '\n#[rustfmt::skip]\nunsafe extern "C" {\n'
        + "".join(map(rust_call, calls()))
        + "}\n"
    )


def values(_):
    """The constants of the crate `ntns`."""
    return (
        "//! The constants of `include/ntns.h`. Written by bindings/generate.py.\n\nuse crate::{Attribute, Status, Type};\n\n"
        + "".join(f"/// `NTNS_{name}` of the header that the crate is for.\npub const {name}: u32 = {value};\n" for name, value in numbers())
        + "".join(
            f"\nimpl {name} {{\n" + "".join(f"    pub const {row}: {name} = {name}({value});\n" for row, value in constants(name)) + "}\n" for name in CLASSES
        )
    )


FILES = {"python/ntns.py": python, "rust/ntns-sys/src/lib.rs": declarations, "rust/ntns/src/constants.rs": values}


def main():
    if sys.argv[1:] not in ([], ["--check"]):
        sys.exit("usage: bindings/generate.py [--check]")
    status = 0
    for name, make in FILES.items():
        path = ROOT / "bindings" / name
        text = path.read_text() if path.exists() else ""
        made = make(text)
        if len(sys.argv) == 1:
            path.write_text(made)
        elif made != text:
            status = 1
            print(f"{path.relative_to(ROOT)} is not what bindings/generate.py writes")
    return status


if __name__ == "__main__":
    sys.exit(main())
