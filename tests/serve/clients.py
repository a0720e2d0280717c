"""Shared. The clients of the torture test, and the judge that knows only what they know: what they asked, what was answered, and what they are told
when they register again. Each request is to be done once, whatever crashes; none is to be lost, nor tried beyond its limit.

A request's work goes from `jobs` to `done`, over `dead` if it was tried too often, and is taken from there. Its *stage* is `work`, and then
`done`. Its tries of a stage are counted over `jobs` and `dead`: so it is in `dead` exactly if they have reached the limit."""
from __future__ import annotations
import random
from collections.abc import Callable, Generator, Iterator
from dataclasses import dataclass
from functools import partial

LIMIT = 3
# In `bulk` nothing stays.
DEFINITIONS = ["define dead 0 -", f"define jobs {LIMIT} dead", "define done 0 -", "define bulk 0 -"]
STAGES = {"jobs": "work", "dead": "work", "done": "done"}
# So long are payloads, and so often; and so many bytes are more than may stand unsynced.
LENGTHS, OFTEN = [20, 60, 300, 4_000, 65_535], [30, 10, 5, 2, 0.3]
BULK = (20, 60_000)

# A line, and who hears its answer.
Line = tuple[str, Callable[[str], None]]
Talk = Generator[list[Line], list[str], None]
Stage = tuple[bytes, str]


class Wrong(Exception):
    """What no client may see."""


def must(is_so: bool, what: str) -> None:
    if not is_so:
        raise Wrong(what)


def hears_nothing(_: str) -> None:
    """Of an answer that changes nothing that a client knows."""


@dataclass(eq=False)
class Handout:
    """An element that a client was given."""
    of: Stage


@dataclass(eq=False)
class Doing:
    """A unit whose commit was sent: the client's tag in it, what it does, what it holds, and whether that was answered."""
    tag: int
    does: Callable[[], None]
    holds: list[Handout]
    is_answered: bool = False


class Ledger:
    """What all clients know together."""

    def __init__(self) -> None:
        # What is put in, by payload its priority; what is done with, by stage who did it; and what somebody killed: each for sure.
        self.put: dict[bytes, int] = {}
        self.over: dict[Stage, str] = {}
        self.killed: set[bytes] = set()
        # What is or may be so: it was sent, and no answer came, or none that is safe.
        self.maybe_put: dict[bytes, int] = {}
        self.maybe_over: set[Stage] = set()
        self.maybe_killed: set[bytes] = set()
        self.tries: dict[Stage, int] = {}
        self.held: set[bytes] = set()
        # Those that would not count if the host went down now; of these, what a process wrote that is gone; those of which a crash left it
        # open; and how many more there may be, of which no answer came.
        self.unsure: list[Handout] = []
        self.written: list[Handout] = []
        self.doubted: list[Handout] = []
        self.unanswered = 0

    # --- what is done ----------------------------------------------------------------------------------------------

    def is_put(self, payload: bytes, priority: int) -> None:
        must(payload not in self.put, f"{payload[:30]!r} was put in twice")
        self.put[payload] = priority
        self.maybe_put.pop(payload, None)

    def is_over(self, of: Stage, who: str) -> None:
        must(of not in self.over, f"{of[0][:30]!r} of {of[1]} was done by {self.over.get(of)} and by {who}")
        self.over[of] = who

    # --- what is handed out ----------------------------------------------------------------------------------------

    def handed_out(self, answer: str, queue: str) -> Handout:
        """Checks an element that a client was given."""
        _, _, origin, priority, attempts, told = answer.split()
        payload = b"" if told == "-" else bytes.fromhex(told)
        of, name = (payload, STAGES[queue]), f"{payload[:30]!r} from {queue}"
        known = self.put.get(payload, self.maybe_put.get(payload))
        must(known is not None, f"{name} was never put in")
        must(payload not in self.held, f"{name} is held by two")
        must(of not in self.over and of not in self.maybe_over and payload not in self.killed, f"{name} was done, and is handed out again")
        if queue != "done":
            must((origin, int(priority)) == ("jobs", known), f"{name} is of {origin} and {priority}")
        tries = self.tries.setdefault(of, 0)
        must(int(attempts) == tries - LIMIT * (queue == "dead") and (queue != "jobs" or tries < LIMIT), f"{name} has {attempts} attempts of {tries}")
        self.held.add(payload)
        it = Handout(of)
        self.unsure.append(it)
        return it

    def given_back(self, it: Handout) -> None:
        self.held.discard(it.of[0])
        self.tries[it.of] += 1

    # --- what is found after a crash -------------------------------------------------------------------------------

    def crashed(self, is_written: bool, unanswered: int) -> None:
        """The process is gone. All that it answered was written, and stands if something is synced before the host goes down, too."""
        self.written += self.unsure
        if not is_written:
            self.doubted, self.written = self.doubted + self.written, []
        self.unsure, self.unanswered = [], self.unanswered + unanswered
        self.held, self.maybe_over = set(), set()

    def is_safe(self) -> None:
        """Something was answered that says that all before it is safe."""
        self.unsure, self.written = [], []

    def least_tries(self, of: Stage) -> int:
        return self.tries.get(of, 0) - sum(it.of == of for it in self.doubted)

    def found(self, listed: dict[str, list[tuple[bytes, int]]]) -> None:
        """Checks what all queues hold once each client came back, and no unit is open: the payloads and their attempts."""
        # What was undone as a whole begins anew.
        self.tries = {of: it for of, it in self.tries.items() if of[0] in self.put and (of[1] == "work" or (of[0], "work") in self.over)}
        places: dict[bytes, list[str]] = {}
        for queue, elements in listed.items():
            for payload, attempts in elements:
                places.setdefault(payload, []).append(queue)
                self.found_one((payload, STAGES[queue]), queue, attempts)
        for payload in self.put:
            self.found_at(payload, places.pop(payload, []))
        must(not places, f"never put in, and there: {[(it[:30], at) for it, at in places.items()]}")
        self.doubted, self.unanswered = [], 0

    def found_at(self, payload: bytes, places: list[str]) -> None:
        name = f"{payload[:30]!r} in {places}"
        must(len(places) <= 1, f"{name}: there twice")
        if payload in self.maybe_killed:
            self.maybe_killed.discard(payload)
            if not places:
                self.killed.add(payload)
        if payload in self.killed or (payload, "done") in self.over:
            must(not places, f"{name}: it was done, and is there")
        else:
            must(bool(places), f"{name}: lost")
            must((places == ["done"]) == ((payload, "work") in self.over), f"{name}: it is in the wrong queue")

    def found_one(self, of: Stage, queue: str, attempts: int) -> None:
        """Takes the tries of one, if they may be what they are."""
        tries = attempts + LIMIT * (queue == "dead")
        least, most = self.least_tries(of), self.tries.get(of, 0) + self.unanswered
        must(least <= tries <= most and (queue != "jobs" or tries < LIMIT), f"{of[0][:30]!r} in {queue}: {tries} tries, not {least} to {most}")
        self.tries[of] = tries


class Client:
    """A client, which is registered with one queue, and has one unit open at a time."""

    def __init__(self, name: str, queue: str, ledger: Ledger, draw: random.Random) -> None:
        self.name, self.queue, self.ledger, self.draw = name, queue, ledger, draw
        # The tag of its last unit that is committed for sure, and its units of which it is not sure.
        self.tag = 0
        self.doing: list[Doing] = []
        self.holds: list[Handout] = []

    # --- what makes sure -------------------------------------------------------------------------------------------

    def is_safe(self) -> None:
        """Something was answered that says that all before it is safe."""
        while self.doing and self.doing[0].is_answered:
            self.stands(self.doing.pop(0))

    def stands(self, it: Doing) -> None:
        it.does()
        self.tag = it.tag

    def came_back(self, told: str) -> None:
        """Learns from the answer to `register` how far it came."""
        must(told.startswith("last "), f"{self.name} registers: {told}")
        tag = 0 if told == "last none" else int(told.split()[2])
        must(tag in [self.tag, *(it.tag for it in self.doing)], f"{self.name} is told tag {tag}, and not {self.tag} or {[it.tag for it in self.doing]}")
        for it in self.doing:
            if it.tag <= tag:
                self.stands(it)
            else:
                self.gives_back(it.holds)
        self.doing = []

    def crashed(self) -> None:
        """What it held comes back. Of units that it was committing, and that are not safe, it hears when it registers."""
        committing = [handout for it in self.doing for handout in it.holds]
        for it in self.doing:
            it.is_answered = False
        self.gives_back([it for it in self.holds if it not in committing])
        self.holds = []

    # --- what it sends ---------------------------------------------------------------------------------------------

    def next_tag(self) -> int:
        return 1 + (self.doing[-1].tag if self.doing else self.tag)

    def by(self, tag: int) -> str:
        return f"{self.name} {tag}"

    def takes(self, queue: str, tag: int) -> Line:
        def hear(answer: str) -> None:
            if answer.startswith("element "):
                self.holds.append(self.ledger.handed_out(answer, queue))
            else:
                must(answer == "none", f"{self.name} takes from {queue}: {answer}")
        return f"dequeue UNIT {queue} {self.by(tag)}", hear

    def commits(self, tag: int, does: Callable[[], None]) -> Line:
        """A commit; sometimes one that need not be safe yet."""
        it, later = Doing(tag, does, self.holds), self.draw.random() < 0.4
        self.doing.append(it)

        def hear(answer: str) -> None:
            if answer.startswith("refused doomed: "):
                self.doing.remove(it)
                return
            must(answer == ("later" if later else "ok"), f"{self.name} commits: {answer}")
            it.is_answered = True
            for handout in self.holds:
                self.ledger.held.remove(handout.of[0])
                self.ledger.maybe_over.add(handout.of)
            self.holds = []
        return "commit UNIT" + " later" * later, hear

    def aborts(self) -> Line:
        def hear(answer: str) -> None:
            must(answer == "ok", f"{self.name} aborts: {answer}")
            self.gives_back(self.holds)
            self.holds = []
        return "abort UNIT", hear

    def gives_back(self, handouts: list[Handout]) -> None:
        for it in handouts:
            self.ledger.given_back(it)

    def rests(self, most: int) -> Iterator[list[Line]]:
        """Its turns in which it sends nothing."""
        return ([] for _ in range(self.draw.randrange(most)))

    def talk(self) -> Talk:
        raise NotImplementedError


class Customer(Client):
    """Puts requests into `jobs`."""

    def talk(self) -> Talk:
        while True:
            tag = self.next_tag()
            priority, length = self.draw.randrange(3), self.draw.choices(LENGTHS, OFTEN)[0]
            payload = self.ledger_payload(tag, length)
            self.ledger.maybe_put[payload] = priority
            lines = [("begin UNIT", hears_nothing), (f"enqueue UNIT jobs {priority} {self.by(tag)} {payload.hex()}", hears_nothing),
                     self.commits(tag, partial(self.ledger.is_put, payload, priority))]
            answers = yield from self.sent(lines)
            if answers[-1].startswith("refused"):
                yield [self.aborts()]
            yield from self.rests(3)

    def ledger_payload(self, tag: int, length: int) -> bytes:
        """The payload of a tag: the same each time that it is tried. No two have one."""
        for payload in self.ledger.maybe_put:
            if payload.startswith(f"{self.name} {tag} ".encode()):
                return payload
        return f"{self.name} {tag} ".encode().ljust(length, b".")

    def sent(self, lines: list[Line]) -> Generator[list[Line], list[str], list[str]]:
        """A whole unit at once, or line by line."""
        if self.draw.random() < 0.6:
            return (yield lines)
        answers = []
        for it in lines:
            answers += yield [it]
        return answers


class Worker(Client):
    """Takes from its queue; puts what it did into `done`, if there is something to put: both, or neither."""

    def __init__(self, *of: object, puts: bool = True, gives_up: float = 0.4) -> None:
        super().__init__(*of)
        self.puts, self.gives_up = puts, gives_up

    def talk(self) -> Talk:
        while True:
            tag = self.next_tag()
            yield [("begin UNIT", hears_nothing), self.takes(self.queue, tag)]
            yield from self.rests(4)
            answers = yield [self.aborts()] if not self.holds or self.draw.random() < self.gives_up else self.ending(tag)
            if answers[-1].startswith("refused"):
                yield [self.aborts()]
            yield from self.rests(3)

    def ending(self, tag: int) -> list[Line]:
        of = self.holds[0].of
        does = self.commits(tag, partial(self.ledger.is_over, of, self.name))
        return [(f"enqueue UNIT done {self.draw.randrange(3)} - 0 {of[0].hex()}", hears_nothing), does] if self.puts else [does]


class Operator(Client):
    """Looks, kills, settles, writes checkpoints, carries the log on if it does so; and makes faults, which doom units of others."""

    def __init__(self, *of: object, carries: bool) -> None:
        super().__init__(*of)
        self.lines = ["settle", "settle", "checkpoint", "last jobs ann", *["carry"] * carries]

    def talk(self) -> Talk:
        while True:
            yield from self.draw.choice([self.asks, self.asks, self.looks, self.kills, self.errs, self.doomed, self.bulky])()
            yield from self.rests(6)

    def asks(self) -> Talk:
        yield [(self.draw.choice(self.lines), hears_nothing)]

    def looks(self) -> Talk:
        yield [(line, hears_nothing) for line in ("queues", "queue jobs 5", "queue dead 1000")]

    def kills(self) -> Talk:
        (listed,) = yield [("queue jobs 9", hears_nothing)]
        elements = [it.split() for it in listed.split("\n") if it.startswith("e ")]
        if not elements or self.draw.random() < 0.7:
            return
        element = self.draw.choice(elements)
        payload = bytes.fromhex(element[8])
        self.ledger.maybe_killed.add(payload)

        def hear(answer: str) -> None:
            self.ledger.maybe_killed.discard(payload)
            if answer == "ok":
                self.ledger.killed.add(payload)
        yield [(f"kill jobs {element[1]}", hear)]

    def errs(self) -> Talk:
        def hear(answer: str) -> None:
            must(answer.startswith("error: "), f"no request: {answer}")
        if self.draw.random() < 0.3:
            yield [(self.draw.choice(["frob", "begin 01", "", "commit", "enqueue 1 jobs 5 - 3 61"]), hear)]

    def doomed(self) -> Talk:
        yield [(line, hears_nothing) for line in ("begin UNIT", "enqueue UNIT nowhere 5 - 0 61", "commit UNIT")]
        yield [("abort UNIT", hears_nothing)]

    def bulky(self) -> Talk:
        if self.draw.random() < 0.03:
            count, length = BULK
            yield [("begin UNIT", hears_nothing), *[(f"enqueue UNIT bulk 0 - 0 {'ab' * length}", hears_nothing)] * count]
            yield [("abort UNIT", hears_nothing)]


def eight(ledger: Ledger, draw: random.Random, carries: bool) -> list[Client]:
    """The clients, by the queue that each is registered with."""
    given = ledger, draw
    return [Customer("ann", "jobs", *given), Customer("bob", "jobs", *given), Worker("pat", "jobs", *given), Worker("peg", "jobs", *given),
            Worker("pip", "jobs", *given, gives_up=0.8), Worker("kim", "dead", *given), Worker("sam", "done", *given, puts=False),
            Operator("op", "jobs", *given, carries=carries)]
