"""Quick, of 2,000 scripts; by hand of 100,000. Holds random scripts beside what reports alone tell of them: each request of a unit that commits
is shown once, was done once or was killed once; no other number is told; each client's line is its latest operation of a unit that commits;
and the report stays the same if the ABORTs of the open units stand in the log.

It counts records and lines, and is no other machine. What was taken is told by tags: each DEQUEUE names a registrant of its own,
whose line tells the element if its unit commits. What was killed is told by two reports: a number that has a line before a KILL
of it and none behind it. Scripts with queues of their own stand side by side in one log, so that one report tells of many. Half
of the logs are damaged: cut, with one bit turned, or with a record that is not lawful in their midst; then the front counts.
COUNT is the number of scripts; --words are the words behind `restart LOG` (none for a peer that takes no more).
"""
from __future__ import annotations
import argparse, multiprocessing, os, random, subprocess
from collections import Counter
from collections.abc import Iterable, Iterator, Sequence
from typing import NamedTuple

import frames as records
import trying
from frames import header_of, pieces_of
from logs import UNLAWFUL
from trying import RQ, put

# So many scripts stand in one log.
SCRIPTS = 200
# A script has so many KILLs at most.
KILLS = 3
PROCESSES = 2
# What is done next in a script, by weight.
STEPS = {"begin": 4, "enqueue": 9, "dequeue": 12, "commit": 5, "abort": 5, "client": 2, "leave": 1, "again": 1}


class Record(NamedTuple):
    """A record of a script, or of a log: there queues, units and elements have their numbers in the log."""
    kind: str
    queue: int = 0
    unit: int = 0
    name: bytes = b""
    tag: int = 0
    priority: int = 0
    limit: int = 0
    error: int = records.NO_QUEUE
    element: int = 0
    script: int = 0

    def payload(self) -> bytes:
        return b"%d" % self.tag

    def body(self) -> bytes:
        """The body of a record of a log."""
        if self.kind == "define":
            return records.define(self.name, self.limit, self.error)
        if self.kind in ("register", "deregister"):
            return getattr(records, self.kind)(self.queue, self.name)
        if self.kind == "enqueue":
            tag = self.tag if self.name else 0
            return records.enqueue(self.unit, self.queue, self.name, tag, self.payload(), self.priority)
        if self.kind == "dequeue":
            return records.dequeue(self.unit, self.queue, self.name, self.tag)
        if self.kind == "kill":
            return records.kill(self.queue, self.element)
        return getattr(records, self.kind)(self.unit)


class Script:
    """A random script, lawful if its queues, units and names are its own. Its segments end at its KILLs."""

    def __init__(self, draw: random.Random, version: int, number: int) -> None:
        self.draw, self.version, self.number = draw, version, number
        self.queues = draw.randint(1, 3)
        self.opened: list[int] = []
        self.begun = self.requests = self.places = 0
        self.clients: dict[bytes, int] = {}
        self.segments: list[list[Record]] = [[]]
        for queue in range(self.queues):
            self.define(queue)
        for _ in range(draw.randint(10, 60)):
            self.step(draw.choices(list(STEPS), list(STEPS.values()))[0])
        if version == 2:
            self.kill_some()

    def add(self, kind: str, **fields: object) -> None:
        self.segments[-1].append(Record(kind, script=self.number, **fields))
        self.places += 1

    def define(self, queue: int) -> None:
        """The first queue has no limit; an error queue of version 1 has none itself."""
        limit = self.draw.choice([0, 1, 1, 2, 3]) if queue else 0
        error = self.draw.randrange(queue if self.version == 2 else 1) if limit else records.NO_QUEUE
        self.add("define", name=b"q%d.%d" % (self.number, queue), limit=limit, error=error)

    def step(self, kind: str) -> None:
        queue = self.draw.randrange(self.queues)
        if not self.opened or kind == "begin" and len(self.opened) < 3:
            self.begun += 1
            self.opened.append(self.begun)
            self.add("begin", unit=self.begun)
        elif kind == "client":
            name = b"c%d.%d" % (self.number, len(self.clients))
            self.clients[name] = queue
            self.add("register", queue=queue, name=name)
        elif kind == "leave" and self.clients:
            name = self.draw.choice(list(self.clients))
            self.add("deregister", queue=self.clients.pop(name), name=name)
            self.clients[name] = self.draw.randrange(self.queues)
            self.add("register", queue=self.clients[name], name=name)
        elif kind == "again" and self.clients:
            name = self.draw.choice(list(self.clients))
            self.add("register", queue=self.clients[name], name=name)
        elif kind in ("enqueue", "dequeue", "commit", "abort"):
            self.work(kind, queue)

    def work(self, kind: str, queue: int) -> None:
        """What a unit does."""
        unit = self.draw.choice(self.opened)
        if kind in ("commit", "abort"):
            self.opened.remove(unit)
            self.add(kind, unit=unit)
        elif kind == "enqueue":
            names = [name for name, of in self.clients.items() if of == queue] + [b""]
            self.requests += 1
            self.add(kind, unit=unit, queue=queue, priority=self.draw.randrange(3), name=self.draw.choice(names), tag=self.places)
        elif kind == "dequeue":
            name = b"d%d.%d" % (self.number, self.places)
            self.add("register", queue=queue, name=name)
            self.add("dequeue", unit=unit, queue=queue, name=name, tag=self.places)

    def kill_some(self) -> None:
        """Puts KILLs of requests into the script, at places drawn evenly."""
        whole = self.segments[0]
        starts = sorted(self.draw.sample(range(self.queues, len(whole) + 1), min(KILLS, len(whole) + 1 - self.queues)))
        self.segments, before = [], 0
        for start in starts:
            asked = sum(1 for it in whole[:start] if it.kind == "enqueue")
            if asked:
                queue, element = self.draw.randrange(self.queues), self.draw.randrange(asked)
                self.segments.append(whole[before:start] + [Record("kill", queue, element=element, script=self.number)])
                before = start
        self.segments.append(whole[before:])


class Log(NamedTuple):
    """The records of many scripts, and where the KILLs of each round begin and end."""
    version: int
    records: list[Record]
    rounds: list[tuple[int, int]]


class Laid:
    """The scripts as they are laid out in one log."""

    def __init__(self) -> None:
        self.records: list[Record] = []
        self.queues: dict[tuple[int, int], int] = {}
        self.defined: Counter[int] = Counter()
        self.units: dict[tuple[int, int], int] = {}
        self.requests: dict[int, list[int]] = {}

    def put(self, it: Record) -> None:
        """The record with the numbers that it has in the log."""
        script = it.script
        if it.kind == "define":
            self.queues[script, self.defined[script]] = len(self.queues)
            self.defined[script] += 1
            it = it._replace(error=self.queues[script, it.error] if it.limit else it.error)
        elif it.kind == "begin":
            self.units[script, it.unit] = len(self.units) + 1
        elif it.kind == "enqueue":
            self.requests.setdefault(script, []).append(len(self.records))
        if it.kind == "kill":
            it = it._replace(element=self.requests[script][it.element])
        unit = self.units[script, it.unit] if it.unit else 0
        queue = it.queue if it.kind == "define" else self.queues[script, it.queue]
        self.records.append(it._replace(unit=unit, queue=queue))


def laid(draw: random.Random, count: int) -> Log:
    """A log of so many scripts, whose KILLs stand in rounds."""
    version = draw.choice([1, 2])
    scripts = [Script(draw, version, number) for number in range(count)]
    log, rounds = Laid(), []
    for turn in range(KILLS + 1):
        here = [it.segments[turn] for it in scripts if turn < len(it.segments)]
        kills = [it[-1] for it in here if it and it[-1].kind == "kill"]
        for it in mixed(draw, [[r for r in segment if r.kind != "kill"] for segment in here]):
            log.put(it)
        if kills:
            rounds.append((len(log.records), len(log.records) + len(kills)))
        for it in kills:
            log.put(it)
    return Log(version, log.records, rounds)


def mixed(draw: random.Random, segments: list[list[Record]]) -> Iterator[Record]:
    """The records of the segments, each in its order; neighbours go along with each other."""
    for at in range(0, len(segments), 4):
        some = [list(reversed(it)) for it in segments[at:at + 4] if it]
        while some:
            one = draw.choice(some)
            yield one.pop()
            if not one:
                some.remove(one)


class Told(NamedTuple):
    """What a report tells: how many records its front has, the lines of each number (home, origin, priority, attempts, payload),
    each queue's limit and error queue, and the line of each registrant."""
    front: int
    elements: dict[int, list[tuple[int, int, int, int, str]]]
    queues: list[tuple[int, str]]
    clients: dict[tuple[int, str], str]


def told(report: str) -> Told:
    lines = [line.split(" ") for line in report.splitlines()]
    queue, found = -1, Told(int(lines[0][1]), {}, [], {})
    for it in lines[2:]:
        if it[0] == "queue":
            queue += 1
            found.queues.append((int(it[4]), it[6]))
        elif it[0] == "e":
            found.elements.setdefault(int(it[1]), []).append((queue, int(it[3]), int(it[5]), int(it[7]), it[8]))
        else:
            found.clients[queue, it[1]] = " ".join(it[2:])
    return found


def damaged(draw: random.Random, log: Log, pieces: list[bytes]) -> tuple[int, bytes]:
    """How many records the front of the damaged log has, and the log."""
    front = draw.randrange(1, len(log.records))
    kept, frame = b"".join(pieces[:front + 1]), pieces[front + 1]
    kind = draw.randrange(3)
    if kind == 0:
        return front, kept + frame[:draw.randrange(len(frame))]
    if kind == 1:
        place = draw.randrange(4, len(frame))
        frame = frame[:place] + bytes([frame[place] ^ 1 << draw.randrange(8)]) + frame[place + 1:]
        return front, kept + frame + b"".join(pieces[front + 2:])
    bodies = [it.body() for it in log.records]
    return front, b"".join(pieces_of(header_of(log.version), [*bodies[:front], UNLAWFUL, *bodies[front:]]))


class Reporter:
    """Asks the program for reports of logs."""

    def __init__(self, program: str, words: list[str], folder: str) -> None:
        self.path = os.path.join(folder, f"fates.{os.getpid()}")
        self.words = [program, "restart", self.path, *words]

    def of(self, log: bytes) -> Told:
        put(self.path, log)
        return told(subprocess.run(self.words, check=True, capture_output=True, text=True).stdout)


def clients_of(front: Sequence[Record], committed: set[int]) -> dict[tuple[int, str], str]:
    """How the line of each registrant begins: its latest operation of a unit that commits, with no DEREGISTER behind."""
    lines: dict[tuple[int, str], str] = {}
    for place, it in enumerate(front):
        key = (it.queue, it.name.decode())
        if it.kind == "register":
            lines.setdefault(key, "none")
        elif it.kind == "deregister":
            del lines[key]
        elif it.kind == "enqueue" and it.name and it.unit in committed and key in lines:
            lines[key] = f"enqueue tag {it.tag} element {place}"
        elif it.kind == "dequeue" and it.unit in committed:
            lines[key] = f"dequeue tag {it.tag} element "
    return lines


def is_as_enqueued(it: Record, line: tuple[int, int, int, int, str], queues: list[tuple[int, str]], vain: Counter[int]) -> bool:
    """The element is as its ENQUEUE made it, in a home that limits lead to, with fewer attempts than the limit there, and no more
    than there were vain DEQUEUEs of that queue."""
    home, origin, priority, attempts, payload = line
    at = origin
    while at != home and queues[at][0]:
        at = int(queues[at][1])
    limit = queues[home][0]
    same = (origin, priority, payload) == (it.queue, it.priority, it.payload().hex())
    return same and at == home and (limit == 0 or attempts < limit) and attempts <= vain[home]


def faults(front: Sequence[Record], last: Told, killed: Counter[int]) -> Iterator[tuple[int, str]]:
    """The scripts that fail, each with what is wrong."""
    committed = {it.unit for it in front if it.kind == "commit"}
    done = Counter(int(text.rsplit(" ", 1)[1]) for text in last.clients.values()
                   if text.startswith("dequeue") and not text.endswith("-"))
    vain = Counter(it.queue for it in front if it.kind == "dequeue" and it.unit not in committed)
    for place, it in enumerate(front):
        lines = last.elements.get(place, [])
        fates = (len(lines), done[place], killed[place])
        wanted = int(it.kind == "enqueue" and it.unit in committed)
        if sum(fates) != wanted:
            yield it.script, f"number {place}: shown, done, killed {fates}, requested {wanted}"
        elif lines and not is_as_enqueued(it, lines[0], last.queues, vain):
            yield it.script, f"number {place}: shown as {lines[0]}"
    of = {(it.queue, it.name.decode()): it.script for it in front if it.kind == "register"}
    lines_wanted = clients_of(front, committed)
    for key, script in of.items():
        text, wanted_text = last.clients.get(key), lines_wanted.get(key)
        open_end = wanted_text is not None and wanted_text.endswith(" ")
        if text != wanted_text and not (open_end and text is not None and text.startswith(wanted_text)):
            yield script, f"registrant {key}: {text}, and not {wanted_text}"


def killed_of(reporter: Reporter, log: Log, pieces: list[bytes], front: int) -> Counter[int]:
    """How often each number had a line, in the queue that a KILL of it names, before the KILL and none behind it."""
    killed: Counter[int] = Counter()
    for start, end in log.rounds:
        end = min(end, front)
        if start < end:
            before, after = (reporter.of(b"".join(pieces[:place + 1])).elements for place in (start, end))
            killed.update(it.element for it in log.records[start:end] if it.element not in after
                          and it.queue in [line[0] for line in before.get(it.element, [])])
    return killed


def with_aborts(log: Log, front: int) -> bytes:
    """The log of the front, and behind it the ABORTs of the units that are still open."""
    ended = {it.unit for it in log.records[:front] if it.kind in ("commit", "abort")}
    opened = [it.unit for it in log.records[:front] if it.kind == "begin" and it.unit not in ended]
    bodies = [it.body() for it in log.records[:front]] + [records.abort(unit) for unit in sorted(opened)]
    return b"".join(pieces_of(header_of(log.version), bodies))


def fates_of(front: Sequence[Record], last: Told, killed: Counter[int]) -> Counter[str]:
    """How many requests have each fate, by their lines, and how many of those shown have moved."""
    lines = [line for lines in last.elements.values() for line in lines]
    taken = [it for it in last.clients.values() if it.startswith("dequeue") and not it.endswith("-")]
    return Counter({"shown": len(lines), "moved": sum(line[0] != line[1] for line in lines), "done": len(taken),
                    "killed": sum(killed.values()), "records": len(front)})


def judged(task: tuple[str, list[str], str, int, int]) -> tuple[dict[int, str], Counter[str]]:
    """The scripts of one log that fail, each with the first thing that is wrong, and how many have each fate."""
    program, words, folder, seed, count = task
    draw = random.Random(seed)
    log = laid(draw, count)
    pieces = list(pieces_of(header_of(log.version), (it.body() for it in log.records)))
    reporter = Reporter(program, words, folder)
    front, data = damaged(draw, log, pieces) if draw.random() < 0.5 else (len(log.records), b"".join(pieces))
    last = reporter.of(data)
    found: dict[int, str] = {}
    if last.front != front:
        return {script: f"front {last.front}, and not {front}" for script in range(count)}, Counter()
    if not all(place < front for place in last.elements):
        return {script: "a number that is no record's is told" for script in range(count)}, Counter()
    if reporter.of(with_aborts(log, front))[1:] != last[1:]:
        return {script: "another report with the last ABORTs in the log" for script in range(count)}, Counter()
    killed = killed_of(reporter, log, pieces, front)
    for script, fault in faults(log.records[:front], last, killed):
        found.setdefault(script, fault)
    return found, fates_of(log.records[:front], last, killed)


def tasks(options: argparse.Namespace) -> Iterable[tuple[str, list[str], str, int, int]]:
    for at in range(0, options.count, SCRIPTS):
        yield RQ, options.words.split(), options.folder, options.seed * 1_000_000 + at, min(SCRIPTS, options.count - at)


def takes(line: argparse.ArgumentParser) -> None:
    line.add_argument("count", nargs="?", type=int, default=100_000)
    line.add_argument("--seed", type=int, default=1)
    line.add_argument("--words", default="2 1000")


def main(options: argparse.Namespace) -> None:
    fates: Counter[str] = Counter()
    with multiprocessing.Pool(PROCESSES) as pool:
        for at, (found, some) in enumerate(pool.imap(judged, tasks(options))):
            fates += some
            for script, fault in sorted(found.items()):
                trying.failed += 1
                if trying.failed <= 10:
                    print(f"log {at}, script {script}: {fault}")
    trying.passed = options.count - trying.failed
    kinds = ", ".join(f"{fates[kind]} {kind}" for kind in ("records", "shown", "moved", "done", "killed"))
    print(f"{options.count} scripts, {trying.failed} without exactly one fate; {kinds}")
