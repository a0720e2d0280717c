"""Rows. Lines: those of the program that are commands, those of a script that are none, and which of them may follow; and names
and payloads of each kind of length."""
from __future__ import annotations
import functools
from collections.abc import Iterator

from frames import framed
from trying import USAGE, refused
from .asking import BOTH, MAKE, TWO, Program, Programs, Question, reports

# A line that is a command is told here by the file that it finds missing.
KNOWN = refused("read fault", 3)

LINES = {
    "make a b": KNOWN,
    "make2 a b": KNOWN,
    "restart a 64 1000000": KNOWN,
    "restart-at a 18446744073709551615 1 1": KNOWN,
    "restart-at a 18446744073709551616 1 1": USAGE,
    "restart-at a 1 1": USAGE,
    "audit a 2": KNOWN,
    "close a b 2": KNOWN,
    "close a b 2 1": USAGE,
    "upgrade a b 2": KNOWN,
    "upgrade a b 2 1": USAGE,
    "": USAGE,
    "restarts a 1 1": USAGE,
}
# Workers and grains, of which one is out of its range or of another form.
NO_PLANS = [("0", "1"), ("65", "1"), ("1", "0"), ("1", "1000001"), ("01", "1"), ("+1", "1"), ("1", "")]

# Scripts, each with the number of its line that is none.
NO_SCRIPTS = [
    ("begin 01\n", 1),
    ("begin +1\n", 1),
    ("begin  1\n", 1),
    ("begin 1 \n", 1),
    ("\n", 1),
    ("begin 1\nbegin 2", 2),
    ("begin 1\n\nbegin 2\n", 2),
    ("begin 18446744073709551616\n", 1),
    ("begin 1\ndequeue 1 0 - 7\n", 2),
    ("checkpoint-hex 0A\n", 1),
    ("kill 0 0\n", 1),
    ("define jobs 0 4294967295\n", 1),
]


def of_lines(rq: Program) -> Iterator[Question]:
    for line, want in LINES.items():
        yield Question(f"the line {line!r}", functools.partial(rq.run, *line.split(), cwd=rq.folder), want)
    for workers, grain in NO_PLANS:
        ask = functools.partial(rq.run, "restart", "a", workers, grain, cwd=rq.folder)
        yield Question(f"{workers!r} workers and a grain of {grain!r}", ask, USAGE)
    for script, number in NO_SCRIPTS:
        ask = functools.partial(rq.making, "make", script.encode())
        yield Question(f"the script {script!r}", ask, (refused(f"script line {number}"), None))

# --- which lines may follow ------------------------------------------------------------------------------------------

# Each table is a script. A line that is not lawful where it stands is left out of what stands before the next one. What the catalogue
# says of each is told by the checkpoint that `make` spells behind it; what a judge says of them, `rqlog append` is asked (appending.py).

# The versions in which a line is lawful.
NONE: list[int] = []

TABLES: dict[str, list[tuple[list[int], str]]] = {
    "definitions": [
        (NONE, "define dead 1 0"), (BOTH, "define dead 0 -"), (NONE, "define dead 0 -"), (NONE, "define jobs 0 0"),
        (NONE, "define jobs 1 -"), (NONE, "define jobs 1 1"), (NONE, "define jobs 1001 0"), (BOTH, "define jobs 1000 0"),
        (TWO, "define mail 1 1"), (BOTH, "define post 1 0"), (BOTH, "checkpoint-hex -"),
    ],
    "registrants": [
        (NONE, "register 0 ann"), (BOTH, "define jobs 0 -"), (BOTH, "define mail 0 -"), (NONE, "deregister 0 ann"),
        (BOTH, "register 0 ann"), (BOTH, "register 0 ann"), (NONE, "register 2 ann"), (NONE, "deregister 1 ann"),
        (NONE, "deregister 0 bob"), (BOTH, "deregister 0 ann"), (NONE, "deregister 0 ann"),
    ],
    "operations": [
        (BOTH, "define jobs 0 -"), (BOTH, "define mail 0 -"), (BOTH, "register 0 ann"), (NONE, "enqueue 1 0 5 - 0 61"),
        (NONE, "dequeue 1 0 - 0"), (BOTH, "begin 1"), (BOTH, "enqueue 1 0 5 - 0 61"), (BOTH, "enqueue 1 0 5 ann 7 61"),
        (NONE, "enqueue 1 0 5 bob 7 61"), (NONE, "enqueue 1 1 5 ann 7 61"), (NONE, "enqueue 1 2 5 - 0 61"),
        (BOTH, "dequeue 1 0 - 0"), (BOTH, "dequeue 1 1 - 0"), (BOTH, "dequeue 1 0 ann 7"), (NONE, "dequeue 1 0 bob 7"),
        (NONE, "dequeue 1 2 - 0"), (BOTH, "deregister 0 ann"), (NONE, "enqueue 1 0 5 ann 7 61"), (NONE, "dequeue 1 0 ann 7"),
        (BOTH, "commit 1"), (NONE, "enqueue 1 0 5 - 0 61"),
    ],
    "units": [
        (NONE, "commit 1"), (NONE, "abort 1"), (NONE, "begin 0"), (BOTH, "begin 5"), (NONE, "begin 5"), (NONE, "begin 4"),
        (BOTH, "begin 6"), (NONE, "commit 4"), (BOTH, "commit 5"), (NONE, "commit 5"), (NONE, "abort 5"), (NONE, "begin 5"),
        (BOTH, "abort 6"), (NONE, "abort 6"), (NONE, "begin 6"), (BOTH, f"begin {2**64 - 1}"),
    ],
    "kills": [
        (NONE, "kill 0 0"), (BOTH, "define jobs 0 -"), (TWO, "kill 0 0"), (TWO, f"kill 0 {2**64 - 1}"), (NONE, "kill 1 0"),
        (NONE, f"kill {2**32 - 1} 0"), (BOTH, "begin 1"), (TWO, "kill 0 2"),
    ],
}


def cases(table: str, version: int) -> Iterator[tuple[list[str], str, bool]]:
    """The lawful lines before each line of a table, that line, and whether it is lawful behind them."""
    before: list[str] = []
    for versions, line in TABLES[table]:
        is_lawful = version in versions
        yield list(before), line, is_lawful
        before += [line] if is_lawful else []


def script_of(lines: list[str]) -> str:
    return "".join(f"{line}\n" for line in lines)


def records_at_checkpoint(rq: Program, version: int, lines: list[str]) -> int:
    """How many records are the front of the log of these lines, by a checkpoint behind them."""
    before = len(rq.made_log(script_of(lines), version))
    log = rq.made_log(script_of([*lines, "checkpoint"]), version)
    return int.from_bytes(log[before + 5:before + 13], "big")


def of_lawful_lines(rq: Program) -> Iterator[Question]:
    for version in BOTH:
        for table in TABLES:
            for before, line, is_lawful in cases(table, version):
                name = f"{table}, version {version}, {len(before)} lines and {line}"
                if line.startswith("kill ") and version == 1:
                    # Version 1 has no such record, and its scripts no such line.
                    ask = functools.partial(rq.making, MAKE[1], script_of([*before, line]).encode())
                    yield Question(name, ask, (refused(f"script line {len(before) + 1}"), None))
                else:
                    ask = functools.partial(records_at_checkpoint, rq, version, [*before, line])
                    yield Question(name, ask, len(before) + is_lawful)

# --- lengths ---------------------------------------------------------------------------------------------------------

# A record keeps short names and payloads in place, and long ones apart.
NAMES = ["a" * length for length in range(1, 65)]
PAYLOADS = [0, 1, 22, 23, 65_535]


def hex_of(length: int) -> str:
    return "70" * length or "-"


def names() -> tuple[str, str]:
    """A registrant of each name, which looks for an element, and nobody, who does so too; and how their report ends."""
    lines = ["define jobs 0 -", *[f"register 0 {name}" for name in NAMES], "begin 1"]
    lines += [f"dequeue 1 0 {name} 70" for name in NAMES] + ["dequeue 1 0 - 0", "commit 1"]
    report = ["queue 0 jobs limit 0 error -", *[f"r {name} dequeue tag 70 element -" for name in NAMES]]
    return "\n".join(lines) + "\n", "\n".join(report) + "\n"


def payloads() -> tuple[str, str]:
    """An element of each length, and how their report ends."""
    lines = ["define jobs 0 -", "begin 1", *[f"enqueue 1 0 5 - 0 {hex_of(length)}" for length in PAYLOADS], "commit 1"]
    report = ["queue 0 jobs limit 0 error -"]
    report += [f"e {2 + at} from 0 priority 5 attempts 0 {hex_of(length)}" for at, length in enumerate(PAYLOADS)]
    return "\n".join(lines) + "\n", "\n".join(report) + "\n"


def in_order(rq: Program) -> Iterator[Question]:
    """Names are told in the order of their bytes, and not of their lengths, in whichever order they came."""
    report = "units 0 committed, 0 aborted, 0 cut off\nqueue 0 jobs limit 0 error -\nr " + "a" * 20 + " none\nr ab none\n"
    for first, second in [("a" * 20, "ab"), ("ab", "a" * 20)]:
        log = rq.log_of(f"define jobs 0 -\nregister 0 {first}\nregister 0 {second}\n")
        want = f"front 3 records, {len(log)} of {len(log)} bytes, whole\n" + report
        yield from reports(rq, f"{first} and {second}", log, want)


def too_long(rq: Program) -> Iterator[Question]:
    """A payload of one byte more than one may have: as a line, and as a body."""
    begins = "define jobs 0 -\nbegin 1\n"
    script = f"{begins}enqueue 1 0 5 - 0 {hex_of(65_536)}\n".encode()
    want = refused("script line 3"), None
    yield Question("a line with 65,536 bytes", functools.partial(rq.making, "make", script), want)
    log = rq.log_of(begins)
    body = b"\x05" + bytes(7) + b"\1" + bytes(4) + b"\5" + bytes(9) + b"p" * 65_536
    report = "units 0 committed, 0 aborted, 1 cut off\nqueue 0 jobs limit 0 error -\n"
    bad = framed(log, body)
    want = f"front 2 records, {len(log)} of {len(bad)} bytes, form\n" + report
    yield from reports(rq, "a body with 65,536 bytes", bad, want)
    good = framed(log, body[:-1])
    want = f"front 3 records, {len(good)} of {len(good)} bytes, whole\n" + report
    yield from reports(rq, "a body with 65,535 bytes", good, want)


def of_lengths(rq: Program) -> Iterator[Question]:
    for name, (script, lines) in {"names": names(), "payloads": payloads()}.items():
        log = rq.log_of(script)
        records = script.count("\n")
        want = f"front {records} records, {len(log)} of {len(log)} bytes, whole\nunits 1 committed, 0 aborted, 0 cut off\n"
        yield from reports(rq, f"{name} of each length", log, want + lines)
    yield from in_order(rq)
    yield from too_long(rq)


def questions(on: Programs) -> Iterator[Question]:
    yield from of_lines(on.rq)
    yield from of_lawful_lines(on.rq)
    yield from of_lengths(on.rq)
