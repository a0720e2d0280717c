"""Quick, of 400 sequences, in the gate; by hand of 10,000. Drives a queue manager over memory by random calls, and holds each answer, and
the log that it writes, beside the second program in Python; then lets it go on from what crashes leave of that log.

The program `rqdrive` is built without a proof by tools/tests.py, which needs the toolchain, unless one is named that was built. It takes a line
a call, and answers each with a line. With `new VERSION`, which has no answer, it begins anew. A line of a script is done by the call of its kind, and a BEGIN gets the
next number whatever it tells; `take LINE` does the record as it is told; `later UNIT` is a COMMIT that need not be safe yet; `settle` makes
all safe; `look WHAT` shows something; `left SYNCED HEX` lets another manager go on behind these bytes, of which so many were synced, and
begins a unit there. What is not lawful is answered by a rule that it breaks.
"""
from __future__ import annotations
import argparse, multiprocessing, os, pickle, random, re, struct, subprocess, sys
from collections.abc import Iterable, Iterator
from typing import NamedTuple

import frames as records
from frames import HEADER, header_of, listed
from second import DRAWN, Machine, Note, Restart, record_of
from trying import TOP, check, put

# So many lines a sequence has before crashes.
LENGTH = 40
# How often other lines are drawn than those of second.py, which has the kinds of records.
OTHERS = {"take": 3, "later": 6, "settle": 3, "queues": 1, "units": 3, "first": 6, "last": 4, "logged": 3}
# So many crashes are tried, but of one sequence of so many a crash at each length; and so long is the garbage
# that one may leave.
CRASHES, EACH, GARBAGE = 6, 100, 200
# Behind answers of so many bytes it begins anew, or another run does: a run may not print more than a MiB. It may take so many seconds. So
# many sequences are drawn at a time.
MOST, SECONDS, SOME = 450_000, 60, 50
GREATEST = 2**64 - 1
NAMES = [b"ann", b"an", b"b-1", b"c.d_e"]


def number8(value: int | None) -> bytes:
    return struct.pack(">Q", GREATEST if value is None else value)


def name8(name: bytes) -> bytes:
    return bytes([len(name)]) + name


def said(kind: str, tag: int, element: int | None) -> tuple[bytes, bytes]:
    """An operation of a registrant: its kind, and its tag and element."""
    return bytes([("enqueue", "dequeue").index(kind) + 1]), number8(tag) + number8(element)


def registrant(at: tuple[int, bytes], last: Note | None) -> bytes:
    head = struct.pack(">I", at[0]) + name8(at[1])
    if last is None:
        return head + b"\0"
    kind, rest = said(*last.said)
    return head + kind + number8(last.place) + rest


def noted(note: Note) -> bytes:
    return number8(note.place) + number8(note.unit) + struct.pack(">I", note.at[0]) + name8(note.at[1]) + b"".join(said(*note.said))


def spelling(machine: Machine) -> bytes:
    """The state, as a checkpoint has it."""
    def elements() -> Iterable[bytes]:
        for id, it in sorted(machine.elements.items()):
            mark = b"\0" if it.fresh is None and it.held is None else (b"\1" + number8(it.fresh) if it.fresh is not None else b"\2" + number8(it.held))
            yield struct.pack(">QIIBQ", id, it.home, it.origin, it.priority, it.attempts) + mark + struct.pack(">H", len(it.payload)) + it.payload

    definitions = (struct.pack(">HI", limit, records.NO_QUEUE if error is None else error) + name8(name) for name, limit, error in machine.queues)
    lists = (definitions, map(number8, sorted(machine.open)), (registrant(*it) for it in sorted(machine.registrants.items(), key=lambda it: it[0])),
             elements(), map(noted, sorted(machine.notes, key=lambda it: it.place)))
    return struct.pack(">QQQQ", machine.place, machine.greatest, machine.committed, machine.aborted) + b"".join(map(listed, lists))


def body_of(record: tuple) -> bytes:
    """The body that spells a record: what `record_of` reads."""
    kind, *fields = record
    if kind == "define":
        return records.define(fields[2], fields[0], fields[1])
    if kind == "enqueue":
        unit, queue, priority, name, tag, payload = fields
        return records.enqueue(unit, queue, name, tag, payload, priority)
    return getattr(records, kind)(*fields)


class Rules:
    """The rules that a record breaks, as they are told, of those that a drawn record can break."""

    def __init__(self, machine: Machine) -> None:
        self.machine = machine

    def broken(self, record: tuple) -> list[str]:
        return getattr(self, record[0])(*record[1:])

    def undefined(self, queue: int) -> list[str]:
        return [f"queue {queue} is not defined"] * (queue >= len(self.machine.queues))

    def closed(self, unit: int) -> list[str]:
        return [f"unit {unit} is not open"] * (unit not in self.machine.open)

    def unregistered(self, queue: int, name: bytes) -> list[str]:
        return [f"{name.decode()} is not registered with queue {queue}"] * ((queue, name) not in self.machine.registrants)

    def define(self, limit: int, error: int, name: bytes) -> list[str]:
        found = [f"a queue is named {name.decode()} already"] * any(name == it[0] for it in self.machine.queues)
        if error == records.NO_QUEUE:
            return found
        is_nested = self.machine.version == 1 and error < len(self.machine.queues) and self.machine.queues[error][2] is not None
        return [*found, *self.undefined(error), *[f"error queue {error} has an error queue"] * is_nested]

    def register(self, queue: int, name: bytes) -> list[str]:
        return self.undefined(queue)

    def deregister(self, queue: int, name: bytes) -> list[str]:
        return self.unregistered(queue, name)

    def begin(self, unit: int) -> list[str]:
        greatest = self.machine.greatest
        return [f"unit {unit} is not above unit {greatest}, the greatest so far"] * (unit <= greatest)

    def enqueue(self, unit: int, queue: int, priority: int, name: bytes, tag: int, payload: bytes) -> list[str]:
        return self.dequeue(unit, queue, name, tag)

    def dequeue(self, unit: int, queue: int, name: bytes, tag: int) -> list[str]:
        return [*self.undefined(queue), *self.closed(unit), *(self.unregistered(queue, name) if name else [])]

    def commit(self, unit: int) -> list[str]:
        return self.closed(unit)

    def abort(self, unit: int) -> list[str]:
        return self.closed(unit)

    def kill(self, queue: int, element: int) -> list[str]:
        return self.undefined(queue)


class Sequence:
    """Random lines, and what each is to be answered."""

    def __init__(self, draw: random.Random, version: int) -> None:
        self.draw, self.version, self.machine = draw, version, Machine(version)
        self.log, self.bodies = header_of(version), []
        # Where what is safe ended, each time that all was made safe; nothing is written before.
        self.safe = [0]
        self.lines, self.answers = [b"new %d" % version], []
        kinds = {**{kind: often for kind, often in DRAWN.items() if version == 2 or kind != "kill"}, **OTHERS}
        for line in (b"define dead 0 -", b"define jobs 2 0"):
            self.do(line, record_of(records.define(b"dead") if line.endswith(b"-") else records.define(b"jobs", 2, 0), version))
        self.begin()
        self.begin()
        for kind in draw.choices([*kinds], [*kinds.values()], k=LENGTH):
            getattr(self, kind)()

    def add(self, line: bytes, *answers: str) -> None:
        """A line, and each answer that is right."""
        self.lines.append(line)
        self.answers.append(answers)

    def settled(self) -> None:
        self.safe.append(len(self.log))

    def takes(self, record: tuple, body: bytes) -> bool:
        """Whether the record is lawful: it stands in the log then."""
        if not self.machine.takes(record):
            return False
        self.log = records.framed(self.log, body)
        return True

    def do(self, line: bytes, record: tuple, done: str = "done") -> None:
        refusals = [f"unlawful: {it}" for it in Rules(self.machine).broken(record)]
        self.add(line, *([done] if self.takes(record, body_of(record)) else refusals))

    # --- what is drawn ---------------------------------------------------------------------------------------------

    def queue(self) -> int:
        return self.draw.randrange(len(self.machine.queues) + (self.draw.random() < 0.1))

    def unit(self) -> int:
        return self.draw.choice([*self.machine.open, *self.machine.open, min(self.machine.greatest + 1, GREATEST)])

    def who(self) -> tuple[int, bytes, int]:
        """A queue and one of its registrants, or nobody."""
        if self.machine.registrants and self.draw.random() < 0.5:
            queue, name = self.draw.choice([*self.machine.registrants])
            return queue, name, self.draw.randrange(2**64)
        return self.queue(), b"", 0

    # --- the operations --------------------------------------------------------------------------------------------

    def define(self) -> None:
        limit, name = self.draw.randrange(4), self.draw.choice([b"q%d" % self.draw.randrange(20), b"jobs"])
        error = self.queue() if limit else records.NO_QUEUE
        told = b"%d" % error if limit else b"-"
        self.do(b"define %b %d %b" % (name, limit, told), ("define", limit, error, name))

    def register(self, kind: str = "register") -> None:
        queue, name = self.queue(), self.draw.choice(NAMES)
        self.do(b"%b %d %b" % (kind.encode(), queue, name), (kind, queue, name))

    def deregister(self) -> None:
        self.register("deregister")

    def begin(self) -> None:
        unit = self.machine.greatest + 1
        if unit > GREATEST:
            self.add(b"begin 7", "ended")
        else:
            self.do(b"begin 7", ("begin", unit), f"unit {unit}")

    def enqueue(self) -> None:
        queue, name, tag = self.who()
        unit, priority, payload = self.unit(), self.draw.randrange(3), self.draw.randbytes(self.draw.randrange(40))
        line = b"enqueue %d %d %d %b %d %b" % (unit, queue, priority, name or b"-", tag, payload.hex().encode() or b"-")
        self.do(line, ("enqueue", unit, queue, priority, name, tag, payload), f"element {self.machine.place}")

    def shown(self, id: int) -> str:
        it = self.machine.elements[id]
        return f"{id} {it.origin} {it.priority} {it.attempts} {it.payload.hex()}"

    def dequeue(self) -> None:
        queue, name, tag = self.who()
        unit, best = self.unit(), next(iter(self.machine.free(queue)), None)
        line = b"dequeue %d %d %b %d" % (unit, queue, name or b"-", tag)
        self.do(line, ("dequeue", unit, queue, name, tag), "none" if best is None else self.shown(best))

    def commit(self) -> None:
        before = self.machine.place
        unit = self.unit()
        self.do(b"commit %d" % unit, ("commit", unit))
        if self.machine.place > before:
            self.settled()

    def abort(self) -> None:
        unit = self.unit()
        self.do(b"abort %d" % unit, ("abort", unit))

    def kill(self) -> None:
        queue, element = self.queue(), self.draw.choice([*self.machine.elements, 0])
        self.do(b"kill %d %d" % (queue, element), ("kill", queue, element))

    def checkpoint(self) -> None:
        at, body = len(self.log), b"\x09" + spelling(self.machine)
        self.takes(("checkpoint",), body)
        self.add(b"checkpoint", f"checkpoint {at}")
        self.settled()

    # --- what is no line of a script -------------------------------------------------------------------------------

    def take(self) -> None:
        if self.draw.random() < 0.3:
            told = self.draw.randbytes(self.draw.randrange(1, 60))
            self.takes(("checkpoint",), b"\x09" + told)
            self.add(b"take checkpoint-hex %b" % told.hex().encode(), "done")
        else:
            unit = GREATEST if self.draw.random() < 0.05 else min(self.machine.greatest + self.draw.randrange(4), GREATEST)
            self.do(b"take begin %d" % unit, ("begin", unit))

    def later(self) -> None:
        unit = self.unit()
        self.do(b"later %d" % unit, ("commit", unit))

    def settle(self) -> None:
        self.add(b"settle", "done")
        self.settled()

    # --- what is shown ---------------------------------------------------------------------------------------------

    def queues(self) -> None:
        found = (f"{limit} {records.NO_QUEUE if error is None else error} {name.decode()};" for name, limit, error in self.machine.queues)
        self.add(b"look queues", "".join(found))

    def units(self) -> None:
        self.add(b"look units", "".join(f"{it};" for it in sorted(self.machine.open)))

    def first(self) -> None:
        queue, most = self.queue(), self.draw.randrange(5)
        found = "".join(f"{self.shown(it)};" for it in self.machine.free(queue)[:most])
        self.add(b"look first %d %d" % (queue, most), found)

    def last(self) -> None:
        queue, name = self.queue(), self.draw.choice(NAMES)
        last = self.machine.registrants.get((queue, name), "nobody")
        self.add(b"look last %d %b" % (queue, name), "nothing" if last is None else last if last == "nobody" else f"tag {last.said[1]}")

    def logged(self) -> None:
        written = self.log[:self.safe[-1]]
        self.add(b"look log", f"{len(self.log)} {len(written)} {written.hex()}")


    # --- crashes ---------------------------------------------------------------------------------------------------

    def left(self, at: int, garbage: bytes) -> bytes | None:
        """Lets another manager go on behind so many bytes and garbage. What a crash left, if not all that was safe is found there."""
        synced = max(it for it in self.safe if it <= at)
        left = self.log[:at] + garbage
        found = Restart(left)
        unit = found.machine.greatest + 1
        if unit <= GREATEST:
            goes_on = records.framed(found.closed, records.begin(unit))
            self.add(b"left %d %b" % (synced, left.hex().encode()), f"opened {len(left) - found.used} {unit} {len(goes_on)} {goes_on.hex()}")
        return None if found.used >= synced else left

    def crashes(self, count: int) -> list[bytes]:
        """What was lost by drawn crashes: each leaves what was safe, whatever was written since or a part of it, and garbage."""
        drawn = ((self.draw.randrange(HEADER, len(self.log) + 1), self.garbage()) for _ in range(count))
        return self.lost(drawn)

    def each_crash(self) -> list[bytes]:
        """The same of each length."""
        return self.lost((at, garbage) for at in range(HEADER, len(self.log) + 1) for garbage in (b"", bytes(GARBAGE), self.garbage()))

    def garbage(self) -> bytes:
        return self.draw.choice([b"", bytes(self.draw.randrange(GARBAGE)), self.draw.randbytes(self.draw.randrange(GARBAGE))])

    def lost(self, crashes: Iterable[tuple[int, bytes]]) -> list[bytes]:
        return [left for left in (self.left(*it) for it in crashes) if left is not None]


# --- what is asked of the program --------------------------------------------------------------------------------------

class Asked(NamedTuple):
    """A line, of which sequence it is, and each answer that is right: none, if it has no answer."""
    number: int
    line: bytes
    right: tuple[str, ...] | None


def asked(it: Sequence, number: int) -> Iterator[Asked]:
    """The lines of a sequence, which begins anew where its crashes are many: these ask nothing of what was done before."""
    first, *lines = it.lines
    told = 0
    for at, (line, right) in enumerate(zip(lines, it.answers)):
        if at == 0 or told > MOST:
            told = 0
            yield Asked(number, first, None)
        if line.startswith(b"left "):
            told += len(right[0])
        yield Asked(number, line, right)


def drive(task: tuple[str, range, list[int]]) -> list[tuple[str, str, str]]:
    """Draws some sequences. They go into the folder, as many for each run of the program as it may answer: what is sent, and beside it what
    is right. Answers what is wrong of the logs alone."""
    folder, numbers, each = task
    lost: list[tuple[str, str, str]] = []
    lines: list[Asked] = []
    for number in numbers:
        it = Sequence(random.Random(number), 1 + number % 2)
        it.settle()
        it.logged()
        found = it.each_crash() if number in each else it.crashes(CRASHES)
        lost += [(f"sequence {number}: what a crash leaves", left.hex(), "all that was safe") for left in found]
        lines += asked(it, number)
    put_runs(folder, lines)
    return lost


def put_runs(folder: str, lines: list[Asked]) -> None:
    """Puts the lines into files, each for a run of the program. A run begins where it begins anew."""
    told, run = 0, [lines[0]]
    for it in lines[1:]:
        if it.right is None and told > MOST:
            put_run(folder, run)
            told, run = 0, []
        told += len(it.right[0]) if it.right else 0
        run.append(it)
    put_run(folder, run)


def put_run(folder: str, run: list[Asked]) -> None:
    name = f"{run[0].number}.{len(os.listdir(os.path.join(folder, 'right')))}"
    put(os.path.join(folder, "sent", name), b"".join(it.line + b"\n" for it in run))
    put(os.path.join(folder, "right", name), pickle.dumps([it for it in run if it.right is not None]))


def wrong_of(run: list[Asked], status: int, got: list[str]) -> list[tuple[str, str, str]]:
    """Each line of a run that is answered otherwise, its answer, and the right one."""
    found = [(f"sequence {it.number}: {it.line.decode()}", answer, " or ".join(it.right or ()))
             for it, answer in zip(run, got) if answer not in (it.right or ())]
    if (status, len(got)) != (0, len(run)):
        found.append((f"sequences {run[0].number} to {run[-1].number}: status and count of answers", f"{status}, {len(got)}", f"0, {len(run)}"))
    return found


# --- what it answers -----------------------------------------------------------------------------------------------------

def ended_of(task: tuple[str, str]) -> tuple[str, int, list[str]]:
    """How a built program ends over a file."""
    program, path = task
    with open(path, "rb") as sent:
        ended = subprocess.run([program], stdin=sent, stdout=subprocess.PIPE)
    return os.path.basename(path), ended.returncode, ended.stdout.decode().split("\n")[:-1]


def tried(folder: str) -> Iterator[tuple[str, int, list[str]]]:
    """How the program ends over each file, built without a proof. What else is said of it is told."""
    words = [sys.executable, os.path.join(TOP, "tools", "tests.py"), "rqdrive", str(SECONDS), folder]
    with subprocess.Popen(words, stdin=subprocess.DEVNULL, stdout=subprocess.PIPE, text=True, errors="replace") as going:
        got: list[str] | None = None
        for line in going.stdout:
            begun, end = re.match("== [0-9.]+$", line), re.match(r"case=(\S+) run=(\w+) (?:status=(\d+))?", line)
            if begun:
                got = []
            elif end:
                yield end[1], int(end[3]) if end[2] == "ended" and end[3] else -1, got or []
                got = None
            elif got is not None:
                got.append(line.rstrip("\n"))
            else:
                print(line, end="")
    check("status of tools/tests.py rqdrive", going.returncode, 0)


def takes(line: argparse.ArgumentParser) -> None:
    line.add_argument("--sequences", type=int, default=400)
    line.add_argument("--from", dest="first", type=int, default=0, help="the number of the first sequence")
    line.add_argument("--drive", default="", help="a built program rqdrive")


def main(options: argparse.Namespace) -> None:
    sent, right = (os.path.join(options.folder, it) for it in ("sent", "right"))
    for it in (sent, right):
        os.makedirs(it)
    numbers = range(options.first, options.first + options.sequences)
    each = [it for it in numbers if it % EACH == 0]
    tasks = ((options.folder, numbers[at:at + SOME], each) for at in range(0, len(numbers), SOME))
    with multiprocessing.Pool(len(os.sched_getaffinity(0))) as pool:
        for wrong in pool.imap_unordered(drive, tasks):
            for name, got, want in wrong or [("what crashes leave", "", "")]:
                check(name, got, want)
        left = {*os.listdir(right)}
        program = os.path.abspath(options.drive)
        ran = pool.imap_unordered(ended_of, [(program, os.path.join(sent, it)) for it in left]) if options.drive else tried(sent)
        for name, status, answers in ran:
            left.discard(name)
            with open(os.path.join(right, name), "rb") as file:
                run: list[Asked] = pickle.load(file)
            wrong = wrong_of(run, status, answers)
            for what, got, want in wrong or [(f"sequence {it}", "", "") for it in {it.number for it in run}]:
                check(what, got, want)
    check("runs that did not end", sorted(left), [])
