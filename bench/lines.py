#!/usr/bin/env python3
"""Times the built program on lines of scripts: what one line takes, and how that grows.

    bench/lines.py PROGRAM

Each time is that of a script with many lines of a kind less that of the script without them, each the least
of five runs, divided by the lines. Nothing here fails; a line that should succeed and doesn't ends it.
"""

import os
import subprocess
import sys
import tempfile
import time
from pathlib import Path

RUNS = 5
MANY = 100_000
HELD = 'p1 dir "\\Device\\Bench" - =held\n'
OPEN = 'p1 opendir "{}" - =opened\np1 close opened\n'


def seconds(program, script):
    """The least time of some runs of a script, and what it printed."""
    took, printed = [], b""
    with tempfile.TemporaryDirectory(prefix="ntns-bench-") as folder:
        path = Path(folder) / "script"
        path.write_text(script)
        for _ in range(RUNS):
            with path.open("rb") as reader, (Path(folder) / "out").open("w+b") as writer:
                before = time.perf_counter()
                subprocess.run([program], stdin=reader, stdout=writer, check=True)
                took.append(time.perf_counter() - before)
                writer.seek(0)
                printed = writer.read()
    return min(took), printed


def a_line(program, title, there, line, count, reply=b"SUCCESS"):
    """Prints what one line, or an open with its close, takes, so many times, behind what is there."""
    without, _ = seconds(program, there)
    took, printed = seconds(program, there + line * count)
    last = printed.splitlines()[-1:]
    if line[0] != "#" and not all(text.endswith(b": " + reply) for text in last):
        sys.exit(f"{title}: the last line printed {last}")
    print(f"{title}: {(took - without) / count * 1e6:.2f} us")


def entries(count):
    """A directory with so many permanent events beside the directory `In`."""
    events = "".join(f'p1 make Event "\\Device\\Bench\\E{n}" P "" =e\np1 close e\n' for n in range(count))
    return HELD + 'p1 dir "\\Device\\Bench\\In" - =in\n' + events


def spread(count):
    """So many permanent events, a thousand to a directory."""
    lines = [HELD]
    for n in range(count):
        if n % 1_000 == 0:
            lines.append(f'p1 dir "\\Device\\Bench\\S{n // 1_000}" P =s\n')
        lines.append(f'p1 make Event s:"E{n}" P "" =e\np1 close e\n')
    return "".join(lines)


def held(count, flags="-"):
    """So many handles that are held, of which a word names the last."""
    return HELD + f'p1 opendir "\\Device\\Bench" {flags} =h\n' * count


def temporaries(count):
    """So many temporary events without names, each held under a word of its own."""
    return HELD + "".join(f'p1 make Event none - "" =e{n}\n' for n in range(count))


def others(count):
    """So many temporary events without names, held by other processes, at most 60,000 by one."""
    lines = []
    for n in range(count):
        if n % 60_000 == 0:
            lines.append(f"p1 new plain =h{n // 60_000}\n")
        lines.append(f'h{n // 60_000} make Event none - "" =t\n')
    return "".join(lines)


def deep(count):
    """The event `D` three directories deep, beside so many permanent ones."""
    path = '\\Device\\Bench\\In\\D'
    return spread(count) + 'p1 dir "\\Device\\Bench\\In" - =in\n' + f'p1 make Event "{path}" - "" =deep\n'


def links(count):
    """So many links, each to the next one, and the last to a directory."""
    chain = "".join(f'p1 link "\\L{n}" - "\\L{n + 1}" =l{n}\n' for n in range(1, count))
    return HELD + chain + f'p1 link "\\L{count}" - "\\Device\\Bench" =l{count}\n'


def mapped():
    """A device map whose directory has the directory `Mine`; `Shared` stands in the global one, and `Plain` elsewhere."""
    paths = ("\\Device\\Bench\\Mine", "\\GLOBAL??\\Shared", "\\Device\\Plain")
    return HELD + "p1 map held\n" + "".join(f'p1 dir "{path}" - =d{n}\n' for n, path in enumerate(paths))


def devices(count):
    """A device with one path, beside so many opens of another device that wait for their parses."""
    made = HELD + 'p1 make Device "\\Device\\D" - "x" =d\np1 make Device "\\Device\\W" - "x" =w\n'
    return made + "".join(f'p1 begin File "\\Device\\W\\x" - =w{n}\n' for n in range(count))


def keys():
    """A key with a path of four components."""
    return HELD + 'p1 make Key "\\Device\\K" - "A\\B\\C\\D" =k\n'


def parses(program):
    """Opens that go into an object, run to their end or begun alone, beside many that wait."""
    file = 'p1 open File "\\Device\\D\\x" - =f\np1 close f\n'
    for count in (0, 10, 10_000):
        a_line(program, f"an open of a file behind a device and its close, {count:,} opens waiting", devices(count), file, 20_000)
    key = 'p1 open Key "\\Device\\K\\A\\B\\C\\D" - =f\np1 close f\n'
    a_line(program, "an open of a key four components deep and its close", keys(), key, 20_000)
    opened = OPEN.format("\\Device\\Bench")
    for count in (10, 10_000):
        a_line(program, f"an open of a directory and its close, {count:,} opens waiting", devices(count), opened, 20_000)
    begun = 'p1 begin File "\\Device\\D\\x" - =f\np1 drop f\n'
    for count in (10, 10_000):
        a_line(program, f"an open that is begun and dropped, {count:,} others waiting", devices(count), begun, 20_000)


def listed(word, count, apart=False):
    """A directory that a word names, with so many permanent events, each of whose entries takes 16 bytes of a page; with `apart` an
    event elsewhere was made before each one, a thousand to a directory, so that no two of those listed stand side by side in the
    store."""
    lines = [f'p1 dir "\\Device\\{word}" - ={word}\n']
    for n in range(count):
        if apart and n % 1_000 == 0:
            lines.append(f'p1 dir "\\Device\\{word}{n // 1_000}" P =s\n')
        if apart:
            lines.append(f'p1 make Event s:"E{n}" P "" =e\np1 close e\n')
        lines.append(f'p1 make Event {word}:"E{n:06}" P "" =e\np1 close e\n')
    return "".join(lines)


def parts_seconds(program, parts):
    """The times from what the first line of each part prints to what the first line of the next one does, in one run; of the
    last part to the end. Output comes in blocks, so a part that is timed should print many."""
    marks, lines = [], 1
    for part in parts:
        marks.append(b"\n%d: " % lines)
        lines += part.count("\n")
    times, last = [], b"\n"
    with tempfile.NamedTemporaryFile("w", prefix="ntns-bench-") as script:
        script.write("".join(parts))
        script.flush()
        with subprocess.Popen([program, "run", script.name], stdout=subprocess.PIPE) as run:
            while block := os.read(run.stdout.fileno(), 1 << 16):
                while len(times) < len(marks) and marks[len(times)] in last + block:
                    times.append(time.perf_counter())
                last = block
            times.append(time.perf_counter())
    if run.returncode or len(times) != len(parts) + 1:
        sys.exit(f"a run ended with {run.returncode}, and {len(times)} times")
    return [after - before for before, after in zip(times, times[1:])]


def scan(word, count, room):
    """The lines of a whole scan of so many entries in pages of this room, an entry taking 16 bytes of it, to the page that has
    none."""
    return f"p1 list {word} {room} first\n" + f"p1 list {word} {room} next\n" * -(-count // (room // 16))


def scans(program):
    """What an entry takes in a whole scan of a small directory and of a large one, in pages of a thousand entries and in the largest,
    where the listed objects were made one after another and where others were made between them. Both are scanned in turn in one
    run, so that what else the machine does meets both alike, and each time is the least of some."""
    counts, rooms, times, entries_timed = {"small": 1_000, "large": 100_000}, (16_000, 1_048_576), 40, 400_000
    for apart in (False, True):
        made = "made between others" if apart else "made one after another"
        there = "".join(listed(word, count, apart) for word, count in counts.items())
        kinds = [(word, count, room) for room in rooms for word, count in counts.items()]
        whole = [scan(*kind) * (entries_timed // kind[1]) for kind in kinds]
        _, *took = parts_seconds(program, [there] + whole * times)
        rates = [entries_timed / min(took[turn :: len(kinds)]) for turn in range(len(kinds))]
        for (_, count, room), rate in zip(kinds, rates):
            print(f"a whole scan in pages of {room:,} bytes, {count:,} entries {made}: {rate:,.0f} entries a second")
        for turn, room in enumerate(rooms):
            print(f"the small directory's rate is that of the large one {rates[2 * turn] / rates[2 * turn + 1]:.2f} times, in pages of {room:,} bytes")


def ends(program):
    """What the first page of a directory takes, and the last, each the least of some. The pages have no room for an entry, so each
    begins where the one before it did."""
    pages, times = 40_000, 5
    at_first, at_last = "p1 list held 1 first\n" * pages, "p1 list held 1 next\n" * pages
    for count in (1_000, 100_000):
        full, rest = divmod(count - 1, 50_000)
        to_last = "p1 list held 1 first\n" + "".join(f"p1 list held {16 * size} next\n" for size in [50_000] * full + [rest])
        _, *took = parts_seconds(program, [listed("held", count)] + [at_first, to_last, at_last] * times)
        print(f"the first page, {count:,} entries: {min(took[::3]) / pages * 1e6:.2f} us")
        print(f"the last page, {count:,} entries: {min(took[2::3]) / pages * 1e6:.2f} us")


def views(program):
    """Opens behind `\\??`, each of which is to take at most twice what one of as many names takes elsewhere."""
    for where, path in (
        ("elsewhere", "\\Device\\Plain"),
        ("found in the local directory", "\\??\\Mine"),
        ("found in the global directory", "\\??\\Shared"),
    ):
        a_line(program, f'an open of "{path}" and its close, {where}', mapped(), OPEN.format(path), 20_000)


def main():
    if len(sys.argv) != 2:
        sys.exit("usage: bench/lines.py PROGRAM")
    program = sys.argv[1]
    a_line(program, "a comment", "", "# nothing\n", 200_000)
    a_line(program, "a close of a word that was never set", "", "p1 close never\n", 100_000, b"INVALID_HANDLE")
    opened = OPEN.format("\\Device\\Bench")
    a_line(program, "an open and its close", HELD, opened, 50_000)
    for count in (10_000, 100_000):
        took, _ = seconds(program, HELD + opened * (count // 2))
        print(f"a script of {count:,} lines: {took * 1e3:.1f} ms, {took / count * 1e6:.2f} us a line")
    for count in (10, 1_000, 20_000):
        line = OPEN.format("\\Device\\Bench\\In")
        a_line(program, f"an open and its close, {count:,} entries beside it", entries(count), line, MANY)
    for count in (10, 1_000, 60_000):
        a_line(program, f"an open and its close, {count:,} handles held", held(count), opened, MANY)
    duplicate = "p1 dup held p1 plain =d\np1 close d\n"
    for count in (10, 60_000):
        a_line(program, f"a duplicate and its close, {count:,} handles held", held(count), duplicate, MANY)
    child = "p1 new inherit =q\nq exit\n"
    for count, times in ((0, 20_000), (10, 20_000), (1_000, 200)):
        a_line(program, f"a child of {count:,} inherited handles, and its exit", held(count, "I"), child, times)
    for count in (10, 10_000):
        a_line(program, f"a child without handles, and its exit, {count:,} objects there", spread(count), child, MANY)
    for count in (10, 100_000):
        title = f"a child of 10 inherited handles, and its exit, {count:,} objects held by another"
        a_line(program, title, others(count) + held(10, "I"), child, MANY)
    made = 'p1 make Event "\\T" - "" =t\np1 close t\n'
    for count in (10, 1_000, 100_000):
        a_line(program, f"a temporary event made and closed, {count:,} permanent ones there", spread(count), made, MANY)
    for count in (10, 1_000, 20_000):
        a_line(program, f"a temporary event made and closed, {count:,} temporary ones held", temporaries(count), made, MANY)
    for count in (10, 1_000, 100_000):
        told = f"the path of an event, three names deep, {count:,} events beside"
        a_line(program, told, deep(count), "p1 name deep\n", MANY, b'SUCCESS "\\Device\\Bench\\In\\D"')
    parses(program)
    scans(program)
    ends(program)
    for count in (1_000, 20_000):
        script = temporaries(count) + "".join(f"p1 close e{n}\n" for n in range(count))
        took, _ = seconds(program, script)
        print(f"{count:,} temporary events made, held and closed: {took / (2 * count) * 1e6:.2f} us a line")
    for count in (1, 32):
        title = f"an open and its close, through a chain of {count} links"
        a_line(program, title, links(count), OPEN.format("\\L1"), 20_000)
    views(program)


if __name__ == "__main__":
    main()
