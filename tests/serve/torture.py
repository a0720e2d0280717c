"""Quick, of 30 kills; by hand of 1,000 before a release, and if serve or what it stands on changes. Eight clients ask a served log, whose process is
killed anywhere, whose writes and syncs fail, whose disk is full, and whose host loses power: then that stands which was synced, or some pages more, or
garbage. Each second life has a log that goes on in new files. Two judges look on. One is the model, which knows what each line answers and writes;
the other knows only what the clients know.

With --wrong it tries wrong programs, which are made of the stand-in: each is caught. With --draw it tries so many of them, drawn by the sum of the
clone's files. With --kills so many runs end by a crash. With --first it begins with the life of this number: each life is a log that outlives so many
crashes, and the same number makes the same life, but for when a kill comes.
With --carry each life has a log that goes on in new files.
"""
from __future__ import annotations
import argparse, itertools, multiprocessing, os, random, shutil, tempfile, threading, time
from collections import Counter, deque
from collections.abc import Callable
from typing import NamedTuple

import trying
import wrong_programs
from clients import DEFINITIONS, STAGES, Client, Ledger, Line, Talk, Wrong, eight, must
from disk import Disk
from frames import CARRIED_AT, carried_header_of
from model import CARRY_AT, Model, Start, begun
from served import UNANSWERED, Served
from standin import is_left
from trying import HERE, check, content, drawn

LOG = "orders.log"
# Runs of a life; the most turns of a run, and of calls on files before one of them fails.
RUNS, TURNS, CALLS = 20, 30, 40
# At so many bytes a log goes on in a new file, in a life in which it does. Of the faults of such a life so many come when that is made, at one of so
# many calls.
LEASTS = [1_500, 6_000, 30_000]
OF_CARRIES, CARRY_CALLS = 0.6, 16
# What ends a run, and how often: a signal, a call on a file that ends otherwise than well, the end of input, a close.
ENDS = {"signal": 10, "kills": 4, "halves": 3, "fails": 5, "stuck": 3, "full": 3, "input": 1, "close": 1}
FAILING = ("fails", "stuck", "full")
POWER_CUTS = 0.4
# What may stand behind the last LF where the input ends: it is not done.
HALVES = [b"", b"beg", b"begin", b"define more 0 -"]
# A process that takes so many seconds for a run is said to hang.
HANGS = 120


class Told(NamedTuple):
    """A line that was sent: who hears its answer, what that must be, how many logs were carried on then, how long the log is, and whether it says
    that this is safe."""
    line: str
    hear: Callable[[str], None]
    want: str
    number: int
    length: int
    is_safe: bool


class Over(Exception):
    """The process is gone."""


class Run:
    """A process, from its start to its end, and what is said in between."""

    def __init__(self, life: "Life", end: str = "") -> None:
        self.life, self.draw = life, life.draw
        self.end = end or self.draw.choices([*ENDS], [*ENDS.values()])[0]
        is_of_carry = life.carries and self.draw.random() < OF_CARRIES
        self.begins, calls = (".next", CARRY_CALLS) if is_of_carry else ("", CALLS)
        self.at = self.draw.randrange(1, calls) if self.end not in ("signal", "input", "close") else 0
        self.sent: deque[Told] = deque()
        self.is_spent = False
        self.status = 0
        before = content(life.log)
        self.start = Start(before)
        if self.start.model is None:
            raise Wrong(f"no crash leaves this: its front ends by {self.start.why}")
        self.model: Model = self.start.model.carries_at(life.least)
        self.opened = bytes(self.model.log)
        fault = self.end if self.at else ""
        self.served = Served(life.log, "--carry-at", str(life.least), env=life.disk.variables(fault, self.at, self.begins))

    # --- lines and answers -----------------------------------------------------------------------------------------

    def tell(self, lines: list[Line]) -> bytes:
        """Lines as they are sent; the model does them."""
        for line, hear in lines:
            want = self.model.answered(line.encode())
            self.sent.append(Told(line, hear, want.text, len(self.model.past), len(self.model.log), want.is_safe))
            if self.model.is_due():
                self.model.carry_on()
        return b"".join(line.encode() + b"\n" for line, _ in lines)

    def ask(self, lines: list[Line]) -> None:
        """Sends lines, as many at once as may be unanswered, and hears the answers."""
        if self.life.carries and self.end in FAILING:
            for line, hear in lines:
                self.ask_one(line, hear)
            return
        while lines:
            count = max(1, fitting(lines))
            self.served.send(self.tell(lines[:count]))
            lines = lines[count:]
            while self.sent:
                self.hear()

    def ask_one(self, line: str, hear: Callable[[str], None]) -> None:
        """Sends a line to a process that may fail to carry its log on, and sees whether it did."""
        if line == "carry":
            self.see_carry(line, hear)
            return
        want = self.model.answered(line.encode())
        self.sent.append(Told(line, hear, want.text, len(self.model.past), len(self.model.log), want.is_safe))
        self.served.send(line.encode() + b"\n")
        self.hear()
        if self.model.is_due():
            # What is answered behind it comes when it was carried on, or not.
            self.see_carry("settle", lambda _: None)

    def see_carry(self, line: str, hear: Callable[[str], None]) -> None:
        self.served.send(line.encode() + b"\n")
        answer, records = self.served.answer(), self.model.machine.place
        self.is_spent = answer is not None and answer.startswith("spent: ")
        if answer is None or self.is_spent:
            # Perhaps it was carried on.
            self.model.carry_on()
            raise Over
        kept = f"{self.life.log}.{records}"
        is_carried = os.path.exists(kept) and not os.path.samefile(kept, self.life.log)
        if is_carried:
            self.model.carry_on()
        else:
            self.model.put_off() if line == "settle" else None
            self.life.counted["carries that failed"] += 1
        want = f"carried {records}" if is_carried else "refused carry"
        must(answer.partition(": ")[0] == (want if line == "carry" else "ok"), f"{line}: {answer} in place of {want}")
        hear(answer)
        if is_carried or line == "settle":
            self.life.is_safe([*self.model.past], bytes(self.model.log))

    def hear(self) -> None:
        """Hears the next answer, if there is one."""
        answer = self.served.answer()
        if answer is None or not self.sent:
            must(answer is None, f"an answer to nothing: {answer}")
            raise Over
        it = self.sent.popleft()
        if answer.startswith("spent: "):
            self.sent.appendleft(it)
            self.is_spent = True
            raise Over
        is_same = answer.partition(": ")[0] == it.want.partition(": ")[0] if it.want.startswith(("refused ", "error: ")) else answer == it.want
        must(is_same, f"{it.line[:60]}: {answer[:60]} in place of {it.want[:60]}")
        it.hear(answer)
        if it.is_safe:
            self.life.is_safe(*self.log_at(it))

    def log_at(self, it: Told) -> tuple[list[tuple[int, bytes]], bytes]:
        """The logs before the log, and the log, as they were behind a line."""
        logs = [*self.model.past, (0, bytes(self.model.log))]
        return logs[:it.number], logs[it.number][1][:it.length]

    # --- what is said ----------------------------------------------------------------------------------------------

    def greeted(self) -> None:
        """What a start says, and what it kept."""
        must(self.served.greeting == self.start.greeting(), f"the greeting: {self.served.greeting} in place of {self.start.greeting()}")
        kept = content(f"{self.life.log}.cut-{len(self.start.front)}") or b""
        must(kept == self.start.kept(), f"{len(kept)} bytes were kept in place of {len(self.start.kept())}")
        must(content(self.life.log) == self.opened, "the log is not that of the greeting")
        self.life.is_safe([], self.opened)

    def come_back(self) -> None:
        """Each client registers, and all is found that must be there."""
        def nothing(_: str) -> None:
            pass

        listed: dict[str, list[tuple[bytes, int]]] = {}

        def lists(queue: str) -> Line:
            def hear(answer: str) -> None:
                words = (it.split() for it in answer.split("\n") if it.startswith("e "))
                listed[queue] = [(bytes.fromhex(it[8]), int(it[7])) for it in words]
            return f"queue {queue} 1000000", hear

        self.ask([(it, nothing) for it in DEFINITIONS])
        self.ask([(f"register {it.queue} {it.name}", it.came_back) for it in self.life.clients])
        self.ask([lists(queue) for queue in STAGES])
        self.life.ledger.found(listed)

    def turns(self) -> None:
        """Clients send lines, some of them at a time, until it is over."""
        talks = {it: Turn(it.talk()) for it in self.life.clients}
        for _ in range(self.draw.randrange(TURNS)):
            some = self.draw.sample(self.life.clients, self.draw.randrange(1, 9))
            self.ask(self.mixed([talks[it] for it in some]))
            for it in some:
                talks[it].go_on()
        if self.end == "signal":
            self.killed(self.mixed([*talks.values()]))

    def mixed(self, turns: list["Turn"]) -> list[Line]:
        """The lines of some clients, those of each in their order. Where a unit begins it gets its number."""
        found: list[Line] = []
        waiting = [it for it in turns if it.left]
        greatest = self.model.machine.greatest
        while waiting:
            turn = self.draw.choice(waiting)
            line, hear = turn.left.popleft()
            if line == "begin UNIT":
                is_named = self.draw.random() < 0.5
                turn.unit = greatest = greatest + 1 + (self.draw.randrange(3) if is_named else 0)
                line = f"begin {turn.unit}" if is_named else "begin"
            found.append((line.replace("UNIT", str(turn.unit), 1), turn.heard(hear)))
            waiting = [it for it in waiting if it.left]
        return found

    def killed(self, lines: list[Line]) -> None:
        """Kills the process between lines, while it does some, or behind half a line."""
        how = self.draw.randrange(3)
        lines = lines[:fitting(lines)]
        if how == 1:
            self.served.send(self.tell(lines))
            time.sleep(self.draw.random() * 0.004)
        elif how == 2 and lines:
            count = self.draw.randrange(len(lines))
            half = lines[count][0].encode()
            self.served.send(self.tell(lines[:count]) + half[:self.draw.randrange(len(half) + 1)])
            time.sleep(self.draw.random() * 0.004)
        self.served.process.kill()

    # --- the end ---------------------------------------------------------------------------------------------------

    def go(self) -> None:
        watch = threading.Timer(HANGS, self.served.process.kill)
        watch.start()
        try:
            if self.served.greeting:
                self.greeted()
                self.come_back()
                self.turns()
                self.finish()
            while True:
                self.hear()
        except Over:
            pass
        finally:
            must(watch.is_alive(), "it hangs")
            watch.cancel()
            self.served.process.stdin.close()
        self.judge(self.served.ended())

    def finish(self) -> None:
        """Ends a process that nothing has ended."""
        if self.end == "close":
            self.ask([("close", lambda _: None)])
        elif self.end != "signal":
            self.model.abort_all()
            self.served.send(self.draw.choice(HALVES))
            self.served.process.stdin.close()

    def judge(self, status: int) -> None:
        """Whether the process ended as it must, and the log has what it must have."""
        after, said, self.status = content(self.life.log), self.served.errors(), status
        is_killed = status == -9 and self.end in ("signal", "kills", "halves")
        is_failed = status == 3 and self.end in FAILING and said != ""
        must(is_killed or is_failed or (status == 0 and self.end != "signal"), f"status {status} behind {self.end}: {said}")
        must(not self.is_spent or is_failed, f"spent behind {self.end}")
        if status == 0:
            must(after == bytes(self.model.log), f"the log has {len(after)} bytes, not the {len(self.model.log)} of the model")
        if self.served.greeting:
            logs = [*(it for _, it in self.model.past), bytes(self.model.log)]
            must(any(it.startswith(after) for it in logs), f"the log has {len(after)} bytes that are no beginning of the model's {len(self.model.log)}")
            self.life.counted["carries"] += len(self.model.past)
        self.life.counted["kills" if is_killed else "failed writes and syncs" if is_failed else "ends"] += 1


def fitting(lines: list[Line]) -> int:
    """How many of the lines may be unanswered."""
    sizes = itertools.accumulate(len(line) + 1 for line, _ in lines)
    return sum(it <= UNANSWERED for it in sizes)


class Turn:
    """What a client says, line by line."""

    def __init__(self, talk: Talk) -> None:
        self.talk, self.unit = talk, 0
        self.left: deque[Line] = deque(next(talk))
        self.answers: list[str] = []

    def heard(self, hear: Callable[[str], None]) -> Callable[[str], None]:
        def both(answer: str) -> None:
            self.answers.append(answer)
            hear(answer)
        return both

    def go_on(self) -> None:
        """All its lines are answered: what it says then."""
        answers, self.answers = self.answers, []
        self.left = deque(self.talk.send(answers))


class Life:
    """A log that outlives many crashes, and its clients."""

    def __init__(self, number: int, folder: str, library: str, carries: bool) -> None:
        self.draw = random.Random(number)
        self.carries = carries or number % 2 == 1
        self.least = self.draw.choice(LEASTS) if self.carries else CARRY_AT
        self.disk = Disk(os.path.join(folder, f"log{number}"), os.path.join(folder, f"disk{number}"), library)
        self.log = os.path.join(self.disk.folder, LOG)
        self.ledger = Ledger()
        self.clients: list[Client] = eight(self.ledger, self.draw, self.carries)
        # What is safe: of the log, and each log before it that is looked for.
        self.safe, self.past = b"", []
        self.counted: Counter[str] = Counter()

    def begin(self) -> None:
        it = Served(self.log, "--create", env=self.disk.variables())
        must(it.end()[0] == 0, "a new log can't be made")
        must(self.disk.synced_names() == self.disk.numbers(), "a new log is not on the disk")

    def is_safe(self, past: list[tuple[int, bytes]], log: bytes) -> None:
        """It was answered that so much is safe."""
        self.past, self.safe = past, log
        self.ledger.is_safe()
        for it in self.clients:
            it.is_safe()

    def run(self) -> str:
        """A run and what comes behind it: how it ended."""
        run = Run(self)
        run.go()
        is_written = run.end in ("signal", "kills", "halves", "input", "close") or run.status == 0
        how = run.end + f" at call {run.at}" * bool(run.at) + f" from {run.begins}" * bool(run.at and run.begins)
        self.must_hold(run.model, self.disk.image_of, f"the disk lacks some, behind {how}")
        left = self.must_hold(run.model, self.content, f"the log lost some, behind {how}")
        if self.draw.random() < POWER_CUTS:
            how, is_written = f"{how}, power cut: {self.disk.cut_power(self.draw, LOG)}", False
            self.counted["power cuts"] += 1
            left = self.must_hold(run.model, self.content, f"the power cut took some, behind {how}")
        for it in self.clients:
            it.crashed()
        self.ledger.crashed(is_written, sum(it.line.startswith("dequeue") for it in run.sent))
        self.past, self.safe = [], left
        self.clear()
        return how

    def content(self, name: str) -> bytes | None:
        return content(os.path.join(self.disk.folder, name))

    def must_hold(self, model: Model, read: Callable[[str], bytes | None], what: str) -> bytes:
        """All that is safe is there: in the log, or in the one that it went on from, and each log before has its name. What of the log is safe."""
        later = model.past[len(self.past):]
        logs = [self.safe, *(it for _, it in later[1:]), bytes(model.log)] if later else [self.safe]
        found = read(LOG) or b""
        at = next((at for at, it in enumerate(logs) if at and found[:CARRIED_AT] == it[:CARRIED_AT]), 0)
        safe = logs[at] if at == 0 else logs[at][:begun(logs[at])]
        must(found.startswith(safe), f"of {len(safe)} safe bytes {what}")
        for records, it in [*self.past, *later[:at]]:
            must(read(f"{LOG}.{records}") == it, f"of the log before, of {records} records, {what}")
        return safe

    def clear(self) -> None:
        """What an operator does between two runs: he moves old logs away, and what no crash left of a new one. A name of the log itself he may
        overlook."""
        for name in os.listdir(self.disk.folder):
            path = os.path.join(self.disk.folder, name)
            is_log = name != LOG and os.path.samefile(path, self.log) and self.draw.random() < 0.5
            if not is_log and name != LOG and not (name == f"{LOG}.next" and is_left(path, carried_header_of(2))):
                os.remove(path)

    def last(self) -> None:
        """What all of it comes to: each request is there, once."""
        run = Run(self, "close")
        run.greeted()
        run.come_back()
        run.finish()
        run.served.end()
        self.counted["requests"] += len(self.ledger.put)
        self.counted["done"] += len(self.ledger.over)


def lived(task: tuple[int, int, str, str, bool]) -> tuple[int, str, Counter[str]]:
    """Goes through a life: what was wrong, if something was."""
    number, runs, folder, library, carries = task
    folder = tempfile.mkdtemp(dir=folder)
    life, ends = Life(number, folder, library, carries), ["the beginning"]
    try:
        life.begin()
        while life.counted["kills"] + life.counted["failed writes and syncs"] < runs:
            ends.append(life.run())
        life.last()
        shutil.rmtree(folder)
        return number, "", life.counted
    except Wrong as seen:
        return number, f"behind run {len(ends) - 1} ({ends[-1]}), {folder}: {seen}", life.counted
    except Exception as fault:
        return number, f"behind run {len(ends) - 1} ({ends[-1]}), {folder}: {fault!r}", life.counted


def caught(task: tuple[str, str, str, bool]) -> tuple[str, str]:
    """How a wrong program is caught; not at all, if no life shows it."""
    name, folder, library, carries = task
    trying.RQLOG = wrong_programs.program_of(name, folder)
    carries = carries or wrong_programs.PROGRAMS[name].carries
    lives = map(lived, ((it, RUNS, folder, library, carries) for it in range(wrong_programs.LIVES)))
    return name, next((how for _, how, _ in lives if how), "")


def takes(line: argparse.ArgumentParser) -> None:
    line.add_argument("--kills", type=int, default=30)
    line.add_argument("--first", type=int, default=0, help="the number of the first life")
    line.add_argument("--jobs", type=int, default=len(os.sched_getaffinity(0)))
    line.add_argument("--carry", action="store_true", help="each log goes on in new files")
    line.add_argument("--wrong", nargs="*", metavar="NAME", help="tries wrong programs: these, or all")
    line.add_argument("--draw", type=int, default=len(wrong_programs.PROGRAMS), help="tries so many of all wrong programs")


def tortured(options: argparse.Namespace, library: str) -> None:
    runs = min(RUNS, options.kills)
    lives = range(options.first, options.first + -(-options.kills // runs))
    total: Counter[str] = Counter()
    with multiprocessing.Pool(options.jobs) as pool:
        for number, how, counted in pool.imap_unordered(lived, ((it, runs, options.folder, library, options.carry) for it in lives)):
            check(f"life {number}", how, "")
            total += counted
    print(", ".join(f"{count} {what}" for what, count in sorted(total.items())))


def main(options: argparse.Namespace) -> None:
    library = trying.built_shim("serve/disk.c")
    if library is None:
        print("left out: a disk that fails needs a C compiler")
        return
    if options.wrong is None:
        tortured(options, library)
        return
    with multiprocessing.Pool(options.jobs) as pool:
        names = options.wrong or drawn([*wrong_programs.PROGRAMS], options.draw)
        for name, how in pool.imap_unordered(caught, ((it, options.folder, library, options.carry) for it in names)):
            if options.wrong:
                print(f"{name}: {how}")
            check(f"{name} is caught", how != "", True)
