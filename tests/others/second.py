"""Quick. Restarts drawn logs with rq and with a second program in Python, written by FORMAT.md, MACHINE.md and REPORT.md alone, and compares
their reports at several plans; so the closed log and the log in version 2, byte by byte.

Half of the logs are of version 2. Each is tried as it is and damaged in the six ways of logs.py.
"""
from __future__ import annotations
import argparse, os, random, re, struct, subprocess
from collections.abc import Iterator
from dataclasses import dataclass
from hashlib import sha256

import frames as records
from frames import HEADER, chained, header_of
from logs import DAMAGES
from trying import RQ, check, content, done, put

PLANS = [("1", "1000"), ("3", "1"), ("7", "1000")]
NAME = re.compile(rb"[a-z0-9._-]{1,64}")
MOST = 268_435_455
# Records in a drawn log.
LENGTH = 300
# What is drawn, by its kind and how often.
DRAWN = {"define": 2, "register": 4, "deregister": 1, "begin": 12, "enqueue": 40, "dequeue": 40, "commit": 8, "abort": 10, "kill": 3,
         "checkpoint": 1}
# How often a number is drawn that may be none of the log's.
STRANGE = 0.002


@dataclass
class Element:
    home: int
    origin: int
    priority: int
    payload: bytes
    attempts: int = 0
    # the open unit that enqueued it, and the one that took it
    fresh: int | None = None
    held: int | None = None


@dataclass
class Note:
    place: int
    unit: int
    at: tuple[int, bytes]
    said: tuple[str, int, int | None]


def named(rest: bytes) -> tuple[bytes, int, bytes] | None:
    """The registrant, or nobody, and the tag at the front of the bytes, and what follows."""
    size = rest[0] if rest else 99
    name, tag, behind = rest[1:1 + size], rest[1 + size:9 + size], rest[9 + size:]
    if size > 64 or len(tag) < 8 or not (NAME.fullmatch(name) if size else tag == bytes(8)):
        return None
    return name, int.from_bytes(tag, "big"), behind


def record_of(body: bytes, version: int) -> tuple | None:
    """The record that a body spells: its kind and its fields."""
    kind, rest = body[0], body[1:]
    if kind == 1 and NAME.fullmatch(rest[6:]):
        return ("define", *struct.unpack(">HI", rest[:6]), rest[6:])
    if kind in (2, 3) and NAME.fullmatch(rest[4:]):
        return "register" if kind == 2 else "deregister", int.from_bytes(rest[:4], "big"), rest[4:]
    if kind in (4, 7, 8) and len(rest) == 8:
        return {4: "begin", 7: "commit", 8: "abort"}[kind], int.from_bytes(rest, "big")
    if kind == 9:
        return "checkpoint",
    if kind == 10 and version == 2 and len(rest) == 12:
        return ("kill", *struct.unpack(">IQ", rest))
    fixed = {5: 13, 6: 12}.get(kind, 0)
    who = named(rest[fixed:]) if fixed and len(rest) > fixed else None
    if who is None or len(who[2]) > (65_535 if kind == 5 else 0):
        return None
    if kind == 5:
        return ("enqueue", *struct.unpack(">QIB", rest[:13]), *who)
    return ("dequeue", *struct.unpack(">QI", rest[:12]), *who[:2])


class Machine:
    """What records make of the empty state."""

    def __init__(self, version: int) -> None:
        self.version, self.place, self.greatest, self.committed, self.aborted = version, 0, 0, 0, 0
        self.open: set[int] = set()
        self.queues: list[tuple[bytes, int, int | None]] = []
        self.registrants: dict[tuple[int, bytes], Note | None] = {}
        self.elements: dict[int, Element] = {}
        self.notes: list[Note] = []

    def takes(self, record: tuple) -> bool:
        """Whether the record is lawful; it has been done then."""
        lawful = getattr(self, record[0])(*record[1:])
        self.place += lawful
        return lawful

    def define(self, limit: int, error: int, name: bytes) -> bool:
        if len(self.queues) == 4096 or any(name == it[0] for it in self.queues):
            return False
        if error == records.NO_QUEUE:
            is_right = limit == 0
        else:
            is_right = 1 <= limit <= 1000 and error < len(self.queues) and (self.version == 2 or self.queues[error][2] is None)
        if is_right:
            self.queues.append((name, limit, None if error == records.NO_QUEUE else error))
        return is_right

    def register(self, queue: int, name: bytes) -> bool:
        if queue < len(self.queues):
            self.registrants.setdefault((queue, name), None)
        return queue < len(self.queues)

    def deregister(self, queue: int, name: bytes) -> bool:
        if (queue, name) not in self.registrants:
            return False
        del self.registrants[queue, name]
        self.notes = [it for it in self.notes if it.at != (queue, name)]
        return True

    def begin(self, unit: int) -> bool:
        if unit <= self.greatest:
            return False
        self.greatest = unit
        self.open.add(unit)
        return True

    def may_act(self, unit: int, queue: int, name: bytes) -> bool:
        return unit in self.open and queue < len(self.queues) and (not name or (queue, name) in self.registrants)

    def note(self, unit: int, queue: int, name: bytes, said: tuple[str, int, int | None]) -> None:
        if name:
            self.notes.append(Note(self.place, unit, (queue, name), said))

    def enqueue(self, unit: int, queue: int, priority: int, name: bytes, tag: int, payload: bytes) -> bool:
        if not self.may_act(unit, queue, name):
            return False
        self.elements[self.place] = Element(queue, queue, priority, payload, fresh=unit)
        self.note(unit, queue, name, ("enqueue", tag, self.place))
        return True

    def free(self, queue: int) -> list[int]:
        """The free elements of a queue, the best first."""
        found = [id for id, it in self.elements.items() if it.home == queue and it.fresh is None and it.held is None]
        return sorted(found, key=lambda id: (-self.elements[id].priority, id))

    def dequeue(self, unit: int, queue: int, name: bytes, tag: int) -> bool:
        if not self.may_act(unit, queue, name):
            return False
        best = next(iter(self.free(queue)), None)
        if best is not None:
            self.elements[best].held = unit
        self.note(unit, queue, name, ("dequeue", tag, best))
        return True

    def commit(self, unit: int) -> bool:
        return self.end(unit, True)

    def abort(self, unit: int) -> bool:
        return self.end(unit, False)

    def end(self, unit: int, commits: bool) -> bool:
        if unit not in self.open:
            return False
        for id, it in list(self.elements.items()):
            if (it.held if commits else it.fresh) == unit:
                del self.elements[id]
            elif it.fresh == unit:
                it.fresh = None
            elif it.held == unit:
                self.give_back(it)
        for note in self.notes:
            last = self.registrants[note.at]
            if commits and note.unit == unit and (last is None or note.place > last.place):
                self.registrants[note.at] = note
        self.notes = [it for it in self.notes if it.unit != unit]
        self.open.discard(unit)
        self.committed, self.aborted = self.committed + commits, self.aborted + (not commits)
        return True

    def give_back(self, it: Element) -> None:
        """An element that a unit held which aborts returns, or moves."""
        _, limit, error = self.queues[it.home]
        it.held, it.attempts = None, it.attempts + 1
        if it.attempts == limit:
            it.home, it.attempts = error, 0

    def kill(self, queue: int, element: int) -> bool:
        if queue < len(self.queues) and element in self.free(queue):
            del self.elements[element]
        return queue < len(self.queues)

    def checkpoint(self) -> bool:
        return True

    def queue_line(self, queue: int) -> str:
        name, limit, error = self.queues[queue]
        return f"queue {queue} {name.decode()} limit {limit} error {dashed(error)}"

    def element_line(self, id: int) -> str:
        it = self.elements[id]
        return f"e {id} from {it.origin} priority {it.priority} attempts {it.attempts} {it.payload.hex() or '-'}"

    def registrant_lines(self, queue: int) -> Iterator[str]:
        for (_, who), last in sorted((it for it in self.registrants.items() if it[0][0] == queue), key=lambda it: it[0]):
            said = "none" if last is None else f"{last.said[0]} tag {last.said[1]} element {dashed(last.said[2])}"
            yield f"r {who.decode()} {said}"

    def lines(self) -> Iterator[str]:
        """What is left, queue by queue."""
        for queue in range(len(self.queues)):
            yield self.queue_line(queue)
            yield from map(self.element_line, self.free(queue))
            yield from self.registrant_lines(queue)


def dashed(number: int | None) -> str:
    return "-" if number is None else str(number)


class Restart:
    """The front of a log, its report, and the logs that are made of it."""

    def __init__(self, log: bytes) -> None:
        self.machine, self.bodies, self.used, self.why = Machine(log[7]), [], HEADER, "whole"
        while self.used < len(log) and self.why == "whole":
            self.why = self.take(log)
        self.cut_off = sorted(self.machine.open)
        counts = f"units {self.machine.committed} committed, {self.machine.aborted} aborted, {len(self.cut_off)} cut off"
        front = f"front {self.machine.place} records, {self.used} of {len(log)} bytes, {self.why}"
        for unit in self.cut_off:
            self.machine.abort(unit)
        self.report = "\n".join([front, counts, *self.machine.lines(), ""]).encode()
        self.closed = chained(log[:HEADER], [*self.bodies, *map(records.abort, self.cut_off)])
        self.upgraded = chained(header_of(2), self.bodies)

    def take(self, log: bytes) -> str:
        """Takes the frame that comes next, or says why it is none of the front."""
        left, size = len(log) - self.used, int.from_bytes(log[self.used:self.used + 4], "big")
        if left >= 4 and not 1 <= size <= MOST + 1:
            return "length"
        if left < 4 or left < 36 + size:
            return "cut"
        end = self.used + 4 + size
        body, digest = log[self.used + 4:end], log[end:end + 32]
        if sha256(log[self.used - 32:end]).digest() != digest:
            return "chain"
        record = record_of(body, log[7])
        if record is None:
            return "form"
        if not self.machine.takes(record):
            return "law"
        self.bodies.append(body)
        self.used += 36 + size
        return "whole"


class Drawing:
    """The bodies of a drawn log; the machine goes along, so that most records are lawful."""

    def __init__(self, draw: random.Random, version: int) -> None:
        self.draw, self.machine = draw, Machine(version)
        self.kinds = [it for it in DRAWN if version == 2 or it != "kill"]
        self.bodies = [records.define(b"dead"), records.define(b"jobs", 2, 0)]
        for it in self.bodies:
            self.machine.takes(record_of(it, version))
        while len(self.bodies) < LENGTH:
            body = self.body(draw.choices(self.kinds, [DRAWN[it] for it in self.kinds])[0])
            if self.machine.takes(record_of(body, version)) or draw.random() < STRANGE:
                self.bodies.append(body)

    def queue(self) -> int:
        return self.draw.randrange(len(self.machine.queues) + (self.draw.random() < 0.1))

    def unit(self) -> int:
        return self.draw.choice([*self.machine.open, self.machine.greatest + 1])

    def who(self) -> tuple[int, bytes, int]:
        """A queue and one of its registrants, or nobody."""
        if self.machine.registrants and self.draw.random() < 0.5:
            queue, name = self.draw.choice([*self.machine.registrants])
            return queue, name, self.draw.randrange(2**64)
        return self.queue(), b"", 0

    def body(self, kind: str) -> bytes:
        draw = self.draw
        if kind == "define":
            limit = draw.randrange(4)
            return records.define(draw.choice([b"q%d" % draw.randrange(20), b"jobs"]), limit, self.queue() if limit else records.NO_QUEUE)
        if kind in ("register", "deregister"):
            return getattr(records, kind)(self.queue(), draw.choice([b"ann", b"an", b"b-1", b"c.d_e"]))
        if kind == "begin":
            return records.begin(self.machine.greatest + draw.randrange(1, 4))
        if kind in ("commit", "abort"):
            return getattr(records, kind)(self.unit())
        if kind == "kill":
            return records.kill(self.queue(), draw.choice([*self.machine.elements, 0]))
        if kind == "checkpoint":
            return records.checkpoint(draw.randbytes(draw.randrange(60)))
        queue, name, tag = self.who()
        if kind == "dequeue":
            return records.dequeue(self.unit(), queue, name, tag)
        return records.enqueue(self.unit(), queue, name, tag, draw.randbytes(draw.randrange(4)), draw.randrange(3))


class Comparison:
    def __init__(self, folder: str) -> None:
        self.log, self.made = os.path.join(folder, "drawn"), os.path.join(folder, "made")

    def make(self, word: str) -> bytes | None:
        subprocess.run([RQ, word, self.log, self.made, "2"], check=True)
        return content(self.made)

    def hold(self, name: str, log: bytes) -> str:
        """Holds all answers of one log against the second program's; why its front ends."""
        put(self.log, log)
        want = Restart(log)
        for workers, grain in PLANS:
            ended = done(RQ, "restart", self.log, workers, grain)
            check(f"{name}, with {workers} workers", ended[:2] == (0, want.report), True)
        check(f"{name}, closed", self.make("close") == want.closed, True)
        check(f"{name}, upgraded", self.make("upgrade") == want.upgraded, True)
        return want.why


def takes(line: argparse.ArgumentParser) -> None:
    line.add_argument("--logs", type=int, default=60)


def main(options: argparse.Namespace) -> None:
    comparison, ends = Comparison(options.folder), {}
    for number in range(options.logs):
        draw = random.Random(number)
        version = 1 + number % 2
        log = chained(header_of(version), Drawing(draw, version).bodies)
        logs = {"whole": log, **{name: damage(log, draw) for name, damage in DAMAGES.items()}}
        for name, damaged in logs.items():
            why = comparison.hold(f"log {number}, {name}", damaged)
            ends[why] = ends.get(why, 0) + 1
    print("fronts that end by", ends)
