"""Sessions of the built program, driven over two pipes: each reply has to come before the next line is sent."""

import select
import subprocess

from runs import SECONDS, Case

TREE = """\
\\                                        Directory permanent
├── BaseNamedObjects                     Directory permanent
├── Device                               Directory permanent
├── DosDevices                           SymbolicLink permanent -> \\??
├── E                                    Event handles 1
├── GLOBAL??                             Directory permanent
└── Sessions                             Directory permanent
process 1
    1 \\E"""

# lines of sessions, each with its reply, and without one if it has none; a session goes on after a line that is no script line
SESSIONS = {
    "a reply comes before the next line is sent": [
        ('p1 dir "\\A" - =a', "1: SUCCESS"),
        ("", ""),
        ("# a comment", ""),
        ("p1 name a", '4: SUCCESS "\\A"'),
        ("no line", "5: not a script line: column 4, a verb and its parts"),
        ("p1 close a", "6: SUCCESS"),
        ("stat", "7: objects 6 handles 0 opens 0 closes 0 deletes 0"),
    ],
    "a line may have a NUL, a CR or too many bytes, and is no script line then": [
        ('p1 dir "\\A\0" - =a', "1: not a script line: column 8, PLACE FLAGS =V"),
        ("stat\r", "2: not a script line: column 1, P, stat or tree"),
        ("#" * 262_145, "3: not a script line: column 262145, the end of the line"),
        ("#" * 262_144, ""),
        ("x" * (1 << 24), "5: not a script line: column 262145, the end of the line"),
        ("p1 close a", "6: INVALID_HANDLE"),
    ],
    "a tree comes before the next line is sent, and has no number": [
        ('p1 make Event "\\E" - "" =e', "1: SUCCESS"),
        ("tree", TREE),
        ("p1 close e", "3: SUCCESS"),
        ("Tree", "4: not a script line: column 1, P, stat or tree"),
    ],
    "an open is pending from one line to another": [
        ('p1 make Device "\\Device\\D" - "" =d', "1: SUCCESS"),
        ('p1 begin File "\\Device\\D" - =f', "2: PENDING"),
        ("p1 end f", "3: SUCCESS"),
        ('p1 begin File "\\Device\\D" - =g', "4: PENDING"),
    ],
}


def fault_of(program, rows):
    """What is wrong with a session of these lines: another reply, one that is late, or another end."""
    pipes = {"stdin": subprocess.PIPE, "stdout": subprocess.PIPE, "stderr": subprocess.PIPE}
    with subprocess.Popen([program, "session"], bufsize=0, **pipes) as ran:
        try:
            for line, reply in rows:
                sent = memoryview(f"{line}\n".encode())
                while sent:
                    sent = sent[ran.stdin.write(sent) :]
                if not reply:
                    continue
                if not select.select([ran.stdout], [], [], SECONDS)[0]:
                    return f"{line[:80]!r} has no reply"
                said = b"".join(ran.stdout.readline() for _ in range(reply.count("\n") + 1))
                if said != f"{reply}\n".encode():
                    return f"{line[:80]!r} is answered {said[:80]!r}, and not {reply!r}"
            rest, errors = ran.communicate(timeout=SECONDS)
            return "" if (rest, errors, ran.returncode) == (b"", b"", 0) else f"its end leaves {rest!r}, {errors!r} and {ran.returncode}"
        finally:
            ran.kill()


def cases():
    """Runs of sessions whose input is there at once, or isn't there."""
    yield Case("a session of no line", ("session",), 0)
    yield Case("a session whose last line has no LF", ("session",), 0, b"1: objects 6 handles 0 opens 0 closes 0 deletes 0\n", script=b"stat")
    yield Case("a session goes on after a line that is no script line", ("session",), 0, b"1: not a script line: column 4, a verb and its parts\n2: INVALID_HANDLE\n", script=b"no line\np1 close a\n")


def faults(program):
    """What is wrong with all of them."""
    yield from (fault and f"{shows}: {fault}" for shows, rows in SESSIONS.items() for fault in [fault_of(program, rows)])
    yield from (case.fault(program, None) for case in cases())
