#!/usr/bin/env python3
"""Prints the diagram of the crates that docs/ARCHITECTURE.md shows, made from crates.txt: an arrow leads from a crate to one that stands on it directly, if no
other crate is between them. gate/selftest.py compares the two.

    gate/rooms.py
"""

from crates import listed, with_dependencies


def shown():
    """The crates of the diagram: all but those of tests."""
    return [it for it in listed() if not it.endswith("_tests") and it not in ("ob_stage", "ob_flat_model", "callers", "viewers")]


def directly_below(crate):
    """The crates of the repository that a crate names and that it doesn't stand on through another one."""
    named = [it for it in listed()[crate] if it in listed()]
    return [it for it in named if not any(it in with_dependencies(other) for other in named if other != it)]


def diagram():
    """The diagram as a block of a page."""
    arrows = [f"    {below} --> {crate}" for crate in shown() for below in directly_below(crate)]
    return "\n".join(["```mermaid", "flowchart TD", *arrows, "```"])


if __name__ == "__main__":
    print(diagram())
