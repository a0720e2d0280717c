"""Rows. What `rqlog` writes behind the front of a log, which lines of a script it refuses, and what is left of the log. And which rules a line
breaks, in the words of `rqlog`: a second writing of docs/MACHINE.md."""
from __future__ import annotations
import random
from collections.abc import Iterator
from itertools import count

from trying import MORE, START
from .asking import Programs, Question, Row, rows_of, whole

LOG, FOLLOWING = START.decode(), MORE.decode()
# How many bytes the log of `START` has, and that with `FOLLOWING`, and with one more `begin`.
SIZE, GROWN, BEGUN = 281, 492, 326
NESTED = "define dead 0 -\ndefine worse 2 0\n"
MANY = "".join(f"define q{number} 0 -\n" for number in range(4096))
LONG = b"enqueue 7 0 5 - 0 " + b"61" * 500

# A line, and the rule that it breaks behind `START` and `begin 5`.
UNLAWFUL = {
    b"commit 7": b"unit 7 is not open",
    b"abort 1": b"unit 1 is not open",
    b"begin 5": b"unit 5 is not above unit 5, the greatest so far",
    b"begin 3": b"unit 3 is not above unit 5, the greatest so far",
    b"register 1 ann": b"queue 1 is not defined",
    b"deregister 0 bob": b"bob is not registered with queue 0",
    b"define jobs 0 -": b"a queue is named jobs already",
    b"define more 0 0": b"limit 0 goes with no error queue, and 0 is named",
    b"define more 3 -": b"limit 3 goes with an error queue, and none is named",
    b"define more 1001 0": b"limit 1001 is above 1000",
    b"define more 3 5": b"queue 5 is not defined",
    b"enqueue 7 0 5 - 0 61": b"unit 7 is not open",
    b"dequeue 7 3 - 0": b"queue 3 is not defined",
}
KIND = "field 1, what the record is: define, register, deregister, begin, enqueue, dequeue, commit, abort or kill"
NUMBER = "a number up to 18446744073709551615"
NAME = "a name of 1 to 64 of a to z, 0 to 9, - . and _"
HEX = "at most 65535 bytes, each as two of 0 to 9 and a to f, or -,"
# Each with what is expected in its place.
NO_LINES = {
    b"begin 01\n": f"field 2, UNIT: {NUMBER}", b"\n": KIND, b"begin 2": "a line feed", b"begin\n": f"field 2, UNIT: {NUMBER}", b"\xff\xfe\n": KIND,
    b"enqueue 1 0 256 - 0 61\n": "field 4, PRIORITY: a number up to 255", b"kill 0\n": f"field 3, ELEMENT: {NUMBER}",
    b"begin 1 2\n": "field 3, behind the last: the end of the line", b"begin  1\n": f"field 2, UNIT: {NUMBER}",
    b"enqueue 1 0 5 - 7 61\n": "field 6, TAG of nobody: 0", b"register 4294967296 ann\n": "field 2, QUEUE: a number up to 4294967295",
    b"register 0 Ann\n": f"field 3, NAME: {NAME}", b"define jobs 65536 -\n": "field 3, LIMIT: a number up to 65535",
    b"define jobs 0 4294967295\n": "field 4, ERROR: a number up to 4294967294, or -,", b"enqueue 1 0 5 - 0 6A\n": f"field 7, HEX: {HEX}",
    b"enqueue 1 0 5 - 0 " + b"61" * 65536 + b"\n": f"field 7, HEX: {HEX}", b"# begin 2\n": KIND,
}


def refused(line: bytes, rule: bytes, script: str = LOG, version: int = 1) -> Row:
    """A line alone, which is refused by its rule."""
    return Row("rqlog append LOG", script, whole, 1, said=b"script line 1: " + line + b": " + rule + b"; nothing was appended",
               given=line + b"\n", version=version)


def told(line: bytes, rule: bytes) -> bytes:
    return b"script line 2: " + line + b": " + rule + b"; "


ROWS = [
    # what is appended is what `rq make` writes of all lines at once
    Row("rqlog append LOG", LOG, whole, output=f"appended 4 records, {GROWN} bytes\n", given=MORE, left=LOG + FOLLOWING),
    Row("rqlog append LOG -", LOG, whole, output=f"appended 4 records, {GROWN} bytes\n", given=MORE, left=LOG + FOLLOWING),
    Row("rqlog append LOG --json", LOG, whole, output=f'{{"appended":4,"offset":{SIZE},"bytes":{GROWN}}}\n', given=MORE, left=LOG + FOLLOWING),
    Row("rqlog append LOG", LOG, whole, output=f"appended 0 records, {SIZE} bytes\n"),
    Row("rqlog append LOG", "", whole, output=f"appended 9 records, {GROWN} bytes\n", given=START + MORE, left=LOG + FOLLOWING),
    # lines that may not follow
    *(Row("rqlog append LOG", LOG, whole, 1, said=told(line, rule) + b"nothing was appended", given=b"begin 5\n" + line + b"\ncommit 5\n")
      for line, rule in UNLAWFUL.items()),
    *(Row("rqlog append --each LOG", LOG, whole, 1, f"appended 1 records, {BEGUN} bytes\n", told(line, rule) + b"1 records before it were appended",
          b"begin 5\n" + line + b"\ncommit 5\n", LOG + "begin 5\n") for line, rule in UNLAWFUL.items()),
    refused(b"define jobs 3 1", b"error queue 1 has an error queue", NESTED),
    refused(b"define more 0 -", b"4096 queues are defined already", MANY),
    refused(b"enqueue 5 0 5 bob 1 61", b"bob is not registered with queue 0", LOG + "begin 5\n"),
    Row("rqlog append LOG", NESTED, whole, output="appended 1 records, 182 bytes\n", given=b"define jobs 3 1\n", left=NESTED + "define jobs 3 1\n",
        version=2),
    refused(b"kill 0 3", b"version 1 has no kill"),
    Row("rqlog append LOG", LOG, whole, output="appended 1 records, 330 bytes\n", given=b"kill 0 3\n", left=LOG + "kill 0 3\n", version=2),
    # lines that are none
    *(Row("rqlog append LOG", LOG, whole, 1, given=b"begin 5\n" + line,
          said=f"script line 2: {why} is expected{'' if line.endswith(bytes([10])) else ' at its end'}; nothing was appended")
      for line, why in NO_LINES.items()),
    Row("rqlog append LOG", LOG, whole, 1, said="script line 1: checkpoint: use rqlog checkpoint; nothing was appended", given=b"checkpoint\n"),
    Row("rqlog append LOG", LOG, whole, 1, given=LONG + b"\n",
        said=b"script line 1: " + LONG[:100] + b"..: unit 7 is not open; nothing was appended"),
    # a new log takes nobody's place
    Row("rqlog new LOG", LOG, whole, 3, said="NAME: it is there already: name a file that is not"),
    # checkpoints, and what is made of the log elsewhere
    Row("rqlog checkpoint LOG", LOG, whole, output=f"{SIZE}\n", left=LOG + "checkpoint\n"),
    Row("rqlog checkpoint LOG --close", LOG + "begin 2\n", whole, output="371\n", left=LOG + "begin 2\nabort 2\ncheckpoint\n"),
    Row("rqlog audit LOG", LOG + "checkpoint\n", whole, output=f"checkpoint {SIZE} true\n"),
]


def questions(on: Programs) -> Iterator[Question]:
    yield from rows_of(ROWS, on)


# --- rules -----------------------------------------------------------------------------------------------------------

QUEUES, LIMIT = 4096, 1000


class Standing:
    """What tells of a line whether it may follow those that were taken."""

    def __init__(self, version: int, lines: list[str]) -> None:
        self.version, self.greatest = version, 0
        # The name and the error queue of each queue.
        self.queues: list[tuple[str, str]] = []
        self.registered: set[tuple[str, str]] = set()
        self.open: set[str] = set()
        for line in lines:
            self.take(line)

    def take(self, line: str) -> None:
        kind, *words = line.split()
        if kind == "define":
            self.queues.append((words[0], words[2]))
        elif kind == "register":
            self.registered.add((words[0], words[1]))
        elif kind == "deregister":
            self.registered.discard((words[0], words[1]))
        elif kind == "begin":
            self.greatest = int(words[0])
            self.open.add(words[0])
        elif kind in ("commit", "abort"):
            self.open.discard(words[0])

    def undefined(self, queue: str) -> list[str]:
        return [f"queue {queue} is not defined"] if int(queue) >= len(self.queues) else []

    def closed(self, unit: str) -> list[str]:
        return [f"unit {unit} is not open"] if unit not in self.open else []

    def unknown(self, queue: str, name: str) -> list[str]:
        return [f"{name} is not registered with queue {queue}"] if (queue, name) not in self.registered else []

    def limited(self, limit: int, error: str) -> list[str]:
        """Of a limit above 0."""
        found = [f"limit {limit} is above {LIMIT}"] if limit > LIMIT else []
        if error == "-":
            return [*found, f"limit {limit} goes with an error queue, and none is named"]
        found += self.undefined(error)
        if self.version == 1 and not self.undefined(error) and self.queues[int(error)][1] != "-":
            found.append(f"error queue {error} has an error queue")
        return found

    def defined(self, name: str, limit: int, error: str) -> list[str]:
        found = [f"a queue is named {name} already"] if name in (it[0] for it in self.queues) else []
        found += [f"{QUEUES} queues are defined already"] if len(self.queues) == QUEUES else []
        if limit == 0 and error != "-":
            found.append(f"limit 0 goes with no error queue, and {error} is named")
        return found + (self.limited(limit, error) if limit else [])

    def operated(self, unit: str, queue: str, who: str) -> list[str]:
        return self.undefined(queue) + self.closed(unit) + (self.unknown(queue, who) if who != "-" else [])

    def broken(self, line: str) -> list[str]:
        """All rules that the line breaks."""
        kind, *words = line.split()
        if kind == "define":
            return self.defined(words[0], int(words[1]), words[2])
        if kind == "register":
            return self.undefined(words[0])
        if kind == "deregister":
            return self.unknown(words[0], words[1])
        if kind == "begin":
            above = int(words[0]) > self.greatest
            return [] if above else [f"unit {words[0]} is not above unit {self.greatest}, the greatest so far"]
        if kind in ("enqueue", "dequeue"):
            return self.operated(words[0], words[1], words[3 if kind == "enqueue" else 2])
        if kind == "kill":
            return self.undefined(words[0]) if self.version == 2 else ["version 1 has no kill"]
        return self.closed(words[0]) if kind in ("commit", "abort") else []


def drawn_lines(draw: random.Random) -> Iterator[str]:
    """Lines of each kind, many of which may not follow those before them. Their units rise slowly."""
    for number in count():
        queue, unit, name = draw.randrange(8), number // 8 + draw.randrange(6), draw.choice(["ann", "bob"])
        by = draw.choice(["- 0", f"{name} 7"])
        yield draw.choice([
            f"define q{draw.randrange(16)} {draw.choice([0, 2, 2, 1000, 1001])} {draw.choice(['-', queue, queue // 3])}",
            f"register {queue} {name}", f"deregister {queue} {name}", f"begin {unit}", f"enqueue {unit} {queue} 5 {by} 61",
            f"dequeue {unit} {queue} {by}", f"{draw.choice(['commit', 'abort'])} {unit}", f"kill {queue} {unit}",
        ])
