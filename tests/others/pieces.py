"""Quick, of 300 scripts; by hand of 10,000. Cuts drawn scripts into pieces that rqlog appends to a log, marks and carries on at drawn places,
and holds the restart of what comes out against that of the log which `rq make` makes of the whole script at once: the reports are equal but
for numbers of bytes.

A checkpoint and a file that is carried on are a line `checkpoint` of the whole script; `--close` is an ABORT for each open unit before
it. Half of the scripts are of version 2. The ends are cut off as well, at a drawn byte of what was appended last. With --jobs so many
scripts are tried at a time.
"""
from __future__ import annotations
import argparse, json, os, random, re, subprocess, tempfile
from concurrent.futures import ThreadPoolExecutor
from dataclasses import dataclass, field

from trying import RQ, RQLOG, check

FIRST = re.compile(rb"front (\d+) records, (\d+) of (\d+) bytes, (\w+)\n")
NAMES = ["ann", "bob", "eve"]
DRAWN = {"define": 3, "register": 4, "deregister": 1, "begin": 12, "enqueue": 40, "dequeue": 40, "commit": 10, "abort": 6, "kill": 3}
# Lines of a script, and how many become a piece at most.
LENGTH, PIECE = 80, 30


@dataclass
class Drawing:
    """What the lines so far define, register and begin: as much as says which line is lawful."""
    draw: random.Random
    version: int
    errors: list[bool] = field(default_factory=list)
    registered: set[tuple[int, str]] = field(default_factory=set)
    units: list[int] = field(default_factory=list)
    greatest: int = 0
    records: int = 0

    def define(self) -> str | None:
        limit, error = 0, "-"
        targets = [at for at, has in enumerate(self.errors) if self.version == 2 or not has]
        if targets and self.draw.random() < 0.7:
            limit, error = self.draw.randint(1, 3), self.draw.choice(targets)
        self.errors.append(limit > 0)
        return f"define q{len(self.errors)} {limit} {error}"

    def register(self) -> str | None:
        if not self.errors:
            return None
        pair = self.draw.randrange(len(self.errors)), self.draw.choice(NAMES)
        self.registered.add(pair)
        return f"register {pair[0]} {pair[1]}"

    def deregister(self) -> str | None:
        if not self.registered:
            return None
        pair = self.draw.choice(sorted(self.registered))
        self.registered.remove(pair)
        return f"deregister {pair[0]} {pair[1]}"

    def begin(self) -> str | None:
        self.greatest += self.draw.randint(1, 3)
        self.units.append(self.greatest)
        return f"begin {self.greatest}"

    def place(self) -> tuple[int, int, str] | None:
        """A unit, a queue, and who."""
        if not self.errors or not self.units:
            return None
        queue = self.draw.randrange(len(self.errors))
        known = [name for at, name in sorted(self.registered) if at == queue]
        who = f"{self.draw.choice(known)} {self.draw.randrange(1000)}" if known and self.draw.random() < 0.7 else "- 0"
        return self.draw.choice(self.units), queue, who

    def enqueue(self) -> str | None:
        found = self.place()
        payload = self.draw.randbytes(self.draw.choice([0, 1, 5, 30])).hex() or "-"
        return found and f"enqueue {found[0]} {found[1]} {self.draw.randrange(4)} {found[2]} {payload}"

    def dequeue(self) -> str | None:
        found = self.place()
        return found and f"dequeue {found[0]} {found[1]} {found[2]}"

    def end(self, word: str) -> str | None:
        if not self.units:
            return None
        unit = self.draw.choice(self.units)
        self.units.remove(unit)
        return f"{word} {unit}"

    def kill(self) -> str | None:
        if self.version == 1 or not self.errors:
            return None
        return f"kill {self.draw.randrange(len(self.errors))} {self.draw.randrange(self.records + 1)}"

    def line(self) -> str:
        """A lawful line."""
        while True:
            word = self.draw.choices(list(DRAWN), list(DRAWN.values()))[0]
            found = self.end(word) if word in ("commit", "abort") else getattr(self, word)()
            if found:
                self.records += 1
                return found

    def lines(self, count: int) -> list[str]:
        return [self.line() for _ in range(count)]

    def close(self) -> list[str]:
        """The ABORT of each open unit."""
        ended, self.units = sorted(self.units), []
        self.records += len(ended)
        return [f"abort {unit}" for unit in ended]


class Pieces:
    """A log in pieces, and the script of the same log at once."""

    def __init__(self, folder: str, seed: int):
        self.folder, self.files = folder, 0
        self.draw = random.Random(seed)
        self.version = self.draw.choice([1, 2])
        self.drawing = Drawing(self.draw, self.version)
        self.script: list[str] = []
        self.log = self.path("0.log")
        self.make([], self.log)
        # bytes that were appended to the last file
        self.tail = 0

    def path(self, name: str) -> str:
        return os.path.join(self.folder, name)

    def make(self, lines: list[str], log: str) -> None:
        script = self.path("script")
        with open(script, "w", encoding="ascii") as file:
            file.writelines(f"{line}\n" for line in lines)
        subprocess.run([RQ, "make" if self.version == 1 else "make2", script, log], check=True)

    def do(self, *words: str, lines: list[str] | None = None) -> dict[str, int]:
        script = "".join(f"{line}\n" for line in lines or [])
        done = subprocess.run([RQLOG, *words, "--json", "--workers", "1"], input=script.encode(), capture_output=True)
        if done.returncode:
            raise RuntimeError(f"{words}: {done.stderr!r}")
        return json.loads(done.stdout)

    def append(self) -> None:
        lines = self.drawing.lines(self.draw.randint(0, PIECE))
        before = os.path.getsize(self.log)
        self.do("append", self.log, lines=lines)
        self.tail += os.path.getsize(self.log) - before
        self.script += lines

    def mark(self) -> None:
        close = ["--close"] if self.draw.random() < 0.4 else []
        self.do("checkpoint", self.log, *close)
        self.script += [*(self.drawing.close() if close else []), "checkpoint"]
        self.drawing.records += 1
        self.tail = 0

    def carry(self) -> None:
        self.files += 1
        new = self.path(f"{self.files}.carried")
        self.do("carry", self.log, new)
        self.log, self.tail = new, 0
        self.script.append("checkpoint")
        self.drawing.records += 1

    def restarted(self, log: str, by: str) -> bytes:
        done = subprocess.run([by, "restart", log, "1", "1000"], capture_output=True, check=True)
        return FIRST.sub(lambda it: b"front %s records, %d more, %s\n" % (it[1], int(it[3]) - int(it[2]), it[4]), done.stdout, 1)

    def agree(self) -> bool:
        """Whether the two restart the same, as they are and with as many bytes cut off."""
        whole = self.path("whole.log")
        self.make(self.script, whole)
        same = self.restarted(self.log, RQLOG) == self.restarted(whole, RQ)
        cut = self.draw.randint(0, self.tail)
        for log in (self.log, whole):
            os.truncate(log, os.path.getsize(log) - cut)
        return same and self.restarted(self.log, RQLOG) == self.restarted(whole, RQ)

    def run(self) -> bool:
        while len(self.script) < LENGTH:
            self.draw.choices([self.append, self.mark, self.carry], [6, 1, 1])[0]()
        return self.agree()


def answer(folder: str, seed: int) -> str:
    """What is wrong with the script of this seed in pieces."""
    with tempfile.TemporaryDirectory(dir=folder) as room:
        try:
            return "" if Pieces(room, seed).run() else "differs"
        except (RuntimeError, subprocess.CalledProcessError) as fault:
            return str(fault)


def takes(line: argparse.ArgumentParser) -> None:
    line.add_argument("--scripts", type=int, default=10_000)
    line.add_argument("--seed", type=int, default=1)
    line.add_argument("--jobs", type=int, default=1)


def main(options: argparse.Namespace) -> None:
    seeds = range(options.seed, options.seed + options.scripts)
    with ThreadPoolExecutor(options.jobs) as pool:
        for seed, wrong in zip(seeds, pool.map(lambda it: answer(options.folder, it), seeds)):
            check(f"script {seed}", wrong, "")
