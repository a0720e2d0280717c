"""Shared. What the tables share: rows and questions, the programs that are asked, the logs that rq makes of scripts, and scripts of several themes.

A table is a list of rows, and a theme's questions are made of its rows. A question is a name, a call that asks, and what must be
answered.
"""
from __future__ import annotations
import functools, hashlib, itertools, os, re
from collections.abc import Callable, Iterable, Iterator
from typing import NamedTuple

from trying import DONE, Ended, content, done, put, refused

# Workers and grains that every report is made with.
PLANS = [(workers, grain) for workers in (1, 2, 7, 64) for grain in (1, 1000)]
# Those of a log that is damaged at each place in turn.
FEW_PLANS = [(1, 1), (2, 1000), (7, 1)]

# The versions of a row.
ONE, TWO, BOTH = [1], [2], [1, 2]
# The word that makes the log of a script, by its version.
MAKE = {1: "make", 2: "make2"}


class Question(NamedTuple):
    name: str
    ask: Callable[[], object]
    want: object


NOT_A_LOG = refused("not a log")


def told(text: str) -> Ended:
    """A call that prints this and nothing else."""
    return 0, text.encode(), b""


def script(lines: str) -> str:
    """The script of lines that stand side by side, a unit in a row."""
    return "".join(f"{line}\n" for line in re.split("; |\n", lines))


def first(count: int, script: str) -> str:
    """The first lines of a script."""
    return "".join(script.splitlines(keepends=True)[:count])


class Program:
    """A program that is asked, and the files of its calls in a folder."""

    def __init__(self, path: str, folder: str) -> None:
        self.path = os.path.abspath(path)
        self.folder = folder
        self.numbers = itertools.count()
        self.log_of = functools.lru_cache(None)(self.made_log)

    def run(self, *words: object, given: bytes = b"", **how: object) -> Ended:
        return done(self.path, *words, input=given, **how)

    def file(self, log: bytes) -> str:
        """A file that holds this: one for all questions of the same bytes. They are asked side by side, so it is whole when it is
        there."""
        path = os.path.join(self.folder, hashlib.sha256(log).hexdigest())
        if not os.path.exists(path):
            os.replace(self.new_file(log), path)
        return path

    def new_file(self, log: bytes) -> str:
        """A file of its own that holds this."""
        return put(os.path.join(self.folder, f"part.{next(self.numbers)}"), log)

    def making(self, word: str, source: bytes, *words: object) -> tuple[Ended, bytes | None]:
        """How a command ends that makes a file of another one, and what it made."""
        path = os.path.join(self.folder, f"made.{next(self.numbers)}")
        ended, made = self.run(word, self.file(source), path, *words), content(path)
        if made is not None:
            os.remove(path)
        return ended, made

    def made_log(self, script: str, version: int = 1) -> bytes:
        """The log of a script. `log_of` makes each once."""
        ended, log = self.making(MAKE[version], script.encode())
        if ended != DONE or log is None:
            raise ValueError(f"{MAKE[version]} of {script[:200]!r}: {ended}")
        return log


class Programs(NamedTuple):
    """All that are asked, by the names that lines give them."""
    rq: Program
    rqlook: Program
    rqlog: Program


class Row(NamedTuple):
    """A log, a line, how that ends and what it prints, and what is left of the log."""
    # The words, the program's first. LOG stands for the file, and NAME in what is printed for its name.
    line: str
    # What the log is made of, and what becomes of it.
    script: str
    damage: Callable[[bytes], bytes]
    status: int = 0
    output: str = ""
    # What is said on standard error behind the program's name.
    said: str | bytes = ""
    # What is written to standard input.
    given: bytes = b""
    # The script of the log that is left; none, if it stays as it was.
    left: str | None = None
    version: int = 1


def answer(on: Programs, row: Row, log: bytes) -> tuple[Ended, bytes | None]:
    """How a row's line ends, with NAME for the name of the file, and what that holds then."""
    program, *words = row.line.split()
    path = on.rq.new_file(log)
    status, output, said = getattr(on, program).run(*(path if it == "LOG" else it for it in words), given=row.given)
    left = content(path)
    os.remove(path)
    return (status, output.replace(path.encode(), b"NAME"), said.replace(path.encode(), b"NAME")), left


def rows_of(rows: Iterable[Row], on: Programs) -> Iterator[Question]:
    for row in rows:
        log = row.damage(on.rq.log_of(row.script, row.version))
        left = log if row.left is None else on.rq.log_of(row.left, row.version)
        program, said = row.line.split()[0], row.said if isinstance(row.said, bytes) else row.said.encode()
        want = row.status, row.output.encode(), program.encode() + b": " + said + b"\n" if said else b""
        given = f" given {row.given[:60]!r}" if row.given else ""
        yield Question(f"{row.line}{given}", functools.partial(answer, on, row, log), (want, left))


def reports(rq: Program, name: str, log: bytes, report: str, plans: Iterable[tuple[int, int]] = PLANS) -> Iterator[Question]:
    """Whether the log has this report under each plan."""
    want = told(report)
    for workers, grain in plans:
        ask = functools.partial(rq.run, "restart", rq.file(log), workers, grain)
        yield Question(f"{name}: restart, {workers} workers, grain {grain}", ask, want)


def reports_at(rq: Program, name: str, log: bytes, offset: int, report: str) -> Iterator[Question]:
    """The same from the checkpoint at an offset."""
    for workers, grain in PLANS:
        ask = functools.partial(rq.run, "restart-at", rq.file(log), offset, workers, grain)
        yield Question(f"{name}: restart-at {offset}, {workers} workers, grain {grain}", ask, told(report))


def audits(rq: Program, name: str, log: bytes, found: str) -> Question:
    return Question(f"{name}: audit", functools.partial(rq.run, "audit", rq.file(log), 2), told(found))


def makes(rq: Program, name: str, word: str, log: bytes, want: bytes, workers: int = 2) -> Question:
    """Whether `close` or `upgrade` makes this of the log."""
    ask = functools.partial(rq.making, word, log, workers)
    return Question(f"{name}: {word}, {workers} workers", ask, (DONE, want))


def is_same(name: str, got: object, want: object) -> Question:
    """What is known already, against what it must be."""
    return Question(name, lambda: got, want)


def whole(log: bytes) -> bytes:
    """A log to which nothing happens."""
    return log


# --- scripts of several themes ---------------------------------------------------------------------------------------

ONE_ELEMENT = script("define jobs 0 -; begin 1; enqueue 1 0 5 - 0 61; commit 1")
BEST_FIRST = script("""\
define jobs 0 -
begin 1; enqueue 1 0 1 - 0 61; enqueue 1 0 9 - 0 62; enqueue 1 0 9 - 0 63; commit 1
begin 2; dequeue 2 0 - 0; commit 2""")
SECOND_ABORT = script("""\
define dead 0 -; define jobs 2 0
begin 1; enqueue 1 1 5 - 0 61; commit 1
begin 2; dequeue 2 1 - 0; abort 2
begin 3; dequeue 3 1 - 0; abort 3
begin 4; dequeue 4 0 - 0; abort 4""")
ARRIVAL = script("""\
define dead 0 -; define jobs 2 0; register 0 ann
begin 1; enqueue 1 1 5 - 0 61; commit 1
begin 2; dequeue 2 1 - 0; abort 2
begin 3; dequeue 3 1 - 0
begin 4; dequeue 4 0 ann 70; commit 4
abort 3
begin 5; dequeue 5 0 ann 71; commit 5""")
RETURN_AND_ARRIVAL = script("""\
define dead 0 -; define jobs 1 0; register 0 ann
begin 1; enqueue 1 0 3 - 0 61; enqueue 1 1 7 - 0 62; commit 1
begin 2; dequeue 2 0 - 0; dequeue 2 1 - 0; abort 2
begin 3; dequeue 3 0 ann 9; commit 3""")
NONE_LEFT = script("""\
define jobs 0 -
begin 1; enqueue 1 0 5 - 0 61; commit 1
begin 2; dequeue 2 0 - 0
begin 3; dequeue 3 0 - 0
abort 2
dequeue 3 0 - 0; commit 3""")
PLACE = script("""\
define jobs 0 -; register 0 ann
begin 1
begin 2
enqueue 1 0 5 ann 10 61
enqueue 2 0 5 ann 20 62; commit 2
commit 1
register 0 ann""")
CHECKPOINT = script("""\
define jobs 0 -; register 0 ann
begin 1; enqueue 1 0 5 - 0 61; commit 1
begin 2; dequeue 2 0 ann 10; enqueue 2 0 8 - 0 62; checkpoint; commit 2""")
ERROR_OF_ERROR = script("""\
define bin 0 -; define dead 1 0; define jobs 1 1
begin 1; enqueue 1 2 5 - 0 61; commit 1
begin 2; dequeue 2 2 - 0; abort 2
begin 3; dequeue 3 1 - 0; abort 3""")
KILL = script("""\
define jobs 0 -
begin 1; enqueue 1 0 5 - 0 61; kill 0 2; commit 1
begin 2; dequeue 2 0 - 0; kill 0 2; abort 2
kill 0 2""")
KILLS = script("""\
define dead 0 -; define jobs 1 0; register 1 ann
begin 1; enqueue 1 1 5 - 0 61; enqueue 1 1 200 ann 7 62; commit 1
kill 1 4; kill 0 5
begin 2; enqueue 2 1 9 - 0 63; commit 2
begin 3; dequeue 3 1 - 0; kill 1 5; abort 3
kill 1 10; kill 1 5; kill 0 5""")

# Two queues with an element each, and a third without.
THREE = script("define a 0 -; define b 0 -; define c 0 -; begin 1; enqueue 1 0 0 - 0 -; enqueue 1 1 0 - 0 -; commit 1")
