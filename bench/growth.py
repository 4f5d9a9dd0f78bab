#!/usr/bin/env python3
"""Counts how the instructions of a line grow with the objects of the namespace, and draws them.

    bench/growth.py PROGRAM [FILE]      FILE: the picture, an SVG; docs/growth.svg if nothing is said

It fails nothing. With 100,000 objects a run takes a minute.
"""

import shutil
import sys
from pathlib import Path

from instructions import entries, of_lines

SIZES = (10, 100, 1_000, 10_000, 100_000)
ROWS = (
    ("a temporary event made and closed", "#b04a2f", 'p1 make Event "\\M\\T" - "" =e\np1 close e\n'),
    ("open and close", "#2f6db0", 'p1 open any "\\M\\E000009" - =d\np1 close d\n'),
    ("a miss", "#3f8f4f", 'p1 open any "\\M\\X" - =d\n'),
)
PICTURE = Path(__file__).resolve().parent.parent / "docs" / "growth.svg"
WIDTH, HEIGHT, LEFT, RIGHT, TOP, BOTTOM = 720, 360, 70, 30, 20, 50


def text(x, y, said, anchor="middle", colour="#222"):
    return f'<text x="{x:.0f}" y="{y:.0f}" text-anchor="{anchor}" fill="{colour}">{said}</text>'


def picture(found):
    """The picture of what was found: for each row, the instructions at each size."""
    greatest = 1_000 * (max(map(max, found)) // 1_000 + 1)
    across = [LEFT + at * (WIDTH - LEFT - RIGHT) / (len(SIZES) - 1) for at in range(len(SIZES))]
    up = lambda count: HEIGHT - BOTTOM - count * (HEIGHT - TOP - BOTTOM) / greatest
    parts = [f'<svg xmlns="http://www.w3.org/2000/svg" viewBox="0 0 {WIDTH} {HEIGHT}" font-family="sans-serif" font-size="13">']
    parts.append(f'<rect width="{WIDTH}" height="{HEIGHT}" fill="white"/>')
    for count in range(0, int(greatest) + 1, 2_000):
        parts.append(f'<line x1="{LEFT}" y1="{up(count):.0f}" x2="{WIDTH - RIGHT}" y2="{up(count):.0f}" stroke="#ddd"/>')
        parts.append(text(LEFT - 8, up(count) + 4, f"{count:,}", "end"))
    parts += [text(x, HEIGHT - BOTTOM + 20, f"{size:,}") for x, size in zip(across, SIZES)]
    parts.append(text((LEFT + WIDTH - RIGHT) / 2, HEIGHT - 10, "objects in the directory"))
    for (shows, colour, _), counts in zip(ROWS, found):
        points = " ".join(f"{x:.0f},{up(count):.0f}" for x, count in zip(across, counts))
        parts.append(f'<polyline points="{points}" fill="none" stroke="{colour}" stroke-width="2"/>')
        parts.append(text(across[-1], up(counts[-1]) - 8, f"{shows}, instructions", "end", colour))
    return "\n".join([*parts, "</svg>", ""])


def main():
    if len(sys.argv) not in (2, 3):
        sys.exit("usage: bench/growth.py PROGRAM [FILE]")
    if not shutil.which("valgrind"):
        print("growth: there is no valgrind here")
        return
    found = []
    for shows, _, lines in ROWS:
        found.append([of_lines(sys.argv[1], entries(size), lines) for size in SIZES])
        print(f"{shows}: " + ", ".join(f"{count:,.0f} beside {size:,}" for count, size in zip(found[-1], SIZES)), flush=True)
    (Path(sys.argv[2]) if sys.argv[2:] else PICTURE).write_text(picture(found))


if __name__ == "__main__":
    main()
