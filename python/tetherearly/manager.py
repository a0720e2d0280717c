"""A manager, its queues and registrants, and units of work."""
from __future__ import annotations
import os, threading, time
from types import TracebackType
from typing import Callable, Iterator, Optional, Sequence, Type

from .errors import CannotOpen, Lost, NotServed, Refused, refusal_of
from .pipes import Pipes
from .values import (GREATEST, Depth, Element, Last, Tag, depth_of, element_of, free_of, greeting_of, hexadecimal, last_of, name, natural)

# Seconds between two tries to open a log that another program holds.
PAUSE = 0.05
# What may make an element free that was not.
ENDS = ("commit ", "abort ")


class Registrant:
    """A name that is registered with a queue, and how far it came."""

    def __init__(self, queue: Queue, name: str, last: Optional[Last]) -> None:
        self.queue, self.name, self.last = queue, name, last
        self._tag = last.tag if last else 0

    def tag(self, number: int) -> Tag:
        """An operation of this registrant, with this tag."""
        return Tag(self.name, number)

    def next(self) -> Tag:
        """An operation with a tag that is greater by one than the last one's."""
        self._tag += 1
        return Tag(self.name, self._tag)


class Queue:
    """A queue of a manager."""

    def __init__(self, manager: Manager, name: str) -> None:
        self.manager, self.name = manager, name

    def register(self, who: str) -> Registrant:
        """Registers a name, or comes back under it: `last` says how far it came."""
        return Registrant(self, who, last_of(self.manager.ask(f"register {self.name} {name(who)}")))

    def deregister(self, who: str) -> None:
        """Drops a name, and what was its last operation."""
        self.manager.ask(f"deregister {self.name} {name(who)}")

    def last(self, who: str) -> Optional[Last]:
        """How far a name came, of what was committed; also what is not safe yet."""
        return last_of(self.manager.ask(f"last {self.name} {name(who)}"))

    def kill(self, element: int) -> bool:
        """Removes a free element for good; false, if none of this number is free here."""
        return self.manager.ask(f"kill {self.name} {natural(element, GREATEST)}") == "ok"

    def depth(self) -> Depth:
        """How many elements the queue has."""
        return next(it for it in self.manager.depths() if it.name == self.name)

    def free(self, count: int = 1000) -> list[Element]:
        """The first free elements, the best first. Nothing is taken."""
        queues, shown = self.manager.ask_each(["queues", f"queue {self.name} {natural(count, GREATEST)}"])
        names = {it.number: it.name for it in map(depth_of, queues.split("\n")[1:])}
        return [free_of(it, names) for it in shown.split("\n")[1:] if it.startswith("e ")]


class Unit:
    """A unit of work: what it does stands together, or not at all. As a context it commits at its end, and aborts if an exception leaves it.
    One thread uses it at a time."""

    def __init__(self, manager: Manager, number: int, later: bool) -> None:
        self.manager, self.number, self.later = manager, number, later
        self.is_open = True

    def enqueue(self, queue: Queue, payload: bytes, priority: int = 0, by: Optional[Tag] = None) -> int:
        """Puts an element into a queue, from where it can be taken once this is committed; its id."""
        words = f"{self.number} {queue.name} {natural(priority, 255)} {words_of(by)} {hexadecimal(payload)}"
        return int(self.manager.ask(f"enqueue {words}").split()[1])

    def dequeue(self, queue: Queue, by: Optional[Tag] = None, wait: float = 0) -> Optional[Element]:
        """Takes the best free element: of the greatest priority, then the oldest. If none is free, it waits so many seconds for units of
        other threads to end, and is none then."""
        line = f"dequeue {self.number} {queue.name} {words_of(by)}"
        until = time.monotonic() + wait
        while True:
            ended = self.manager.pipes.ended
            element, left = element_of(self.manager.ask(line)), until - time.monotonic()
            if element is not None or left <= 0:
                return element
            self.manager.pipes.wait_for_end_of_unit(ended, left)

    def take_all(self, queue: Queue, by: Optional[Tag] = None) -> Iterator[Element]:
        """Takes elements until none is free."""
        while (element := self.dequeue(queue, by)) is not None:
            yield element

    def commit(self) -> None:
        """What was done stands, and is safe if this returns; with `later`, once something else is. If it is refused, the unit is aborted."""
        try:
            self.manager.ask(f"commit {self.number}" + " later" * self.later)
        except Refused:
            self.abort()
            raise
        self.is_open = False

    def abort(self) -> None:
        """What was done is undone. What was taken is free again, with one attempt more."""
        self.is_open = False
        self.manager.ask(f"abort {self.number}")

    def __enter__(self) -> Unit:
        return self

    def __exit__(self, kind: Optional[Type[BaseException]], fault: Optional[BaseException], trace: Optional[TracebackType]) -> None:
        if not self.is_open or isinstance(fault, Lost):
            return
        if fault is None:
            self.commit()
        else:
            self.abort()


class Manager:
    """The queues of one log, which a process `rqlog serve` of this program keeps. Threads share it, each with units of its own.

    `log` is made if it is not there, unless `create` is false. `program` is what stands before `serve`: the words of `rqlog`, or the
    variable RQLOG if none are given. A log that another program holds is tried again for `patience` seconds. A log of `carry_at` bytes goes on
    in a new one by itself: of 3 GiB, if that is not told."""

    def __init__(self, log: str, create: bool = True, program: Optional[Sequence[str]] = None, patience: float = 5.0,
                 carry_at: Optional[int] = None) -> None:
        carries = [] if carry_at is None else ["--carry-at", str(natural(carry_at, 2**32 - 1))]
        words = [*(program or [os.environ.get("RQLOG", "rqlog")]), "serve", *["--create"] * create, *carries, log]
        until = time.monotonic() + patience
        while (pipes := opened(words, is_last=time.monotonic() > until)) is None:
            time.sleep(PAUSE)
        self.pipes, greeting = pipes
        self.greeting = greeting_of(greeting)

    # --- asking in the protocol's own words ------------------------------------------------------------------------------

    def ask(self, line: str) -> str:
        """Sends a request, and returns its answer; of several lines, with LF between them. A refusal is raised."""
        (answer,) = self.ask_each([line])
        return answer

    def ask_each(self, lines: Sequence[str]) -> list[str]:
        """As `ask_all`, but the first refusal is raised."""
        answers = self.ask_all(lines)
        for answer in answers:
            if answer.startswith(("refused ", "error: ")):
                raise refusal_of(answer)
        return answers

    def ask_all(self, lines: Sequence[str]) -> list[str]:
        """Many requests in one write: one sync for all their commits. A refusal stands among the answers."""
        if any("\n" in it for it in lines):
            raise ValueError("a request is one line")
        answers = self.pipes.ask(lines)
        if any(line.startswith(ENDS) for line in lines):
            self.pipes.unit_ended()
        return answers

    # --- what is asked -------------------------------------------------------------------------------------------------

    def define(self, queue: str, limit: int = 0, error: Optional[Queue] = None) -> Queue:
        """Defines a queue, unless it is defined just so. An element whose units were aborted `limit` times goes to the error queue."""
        self.ask(f"define {name(queue)} {natural(limit, 65_535)} {error.name if error else '-'}")
        return Queue(self, queue)

    def queue(self, queue: str) -> Queue:
        """A queue that is defined, by its name. Nothing is asked."""
        return Queue(self, name(queue))

    def depths(self) -> list[Depth]:
        """All queues, and how many elements each has."""
        return [depth_of(it) for it in self.ask("queues").split("\n")[1:]]

    def unit(self, later: bool = False) -> Unit:
        """Begins a unit. With `later` its commit need not be safe before the next answer that is."""
        return Unit(self, int(self.ask("begin").split()[1]), later)

    def settle(self) -> None:
        """All that was answered is safe."""
        self.ask("settle")

    def checkpoint(self) -> int:
        """Writes the state into the log, from where a restart may begin; the offset."""
        return int(self.ask("checkpoint").split()[1])

    def carry(self) -> int:
        """Goes on in a new log, which begins with the state: behind how many records. The old log has that number behind its name."""
        return int(self.ask("carry").split()[1])

    def kill(self) -> None:
        """Ends the process as a crash does: for tests."""
        self.pipes.process.kill()

    def close(self) -> None:
        """Aborts what is open, and ends the process."""
        try:
            if self.pipes.process.poll() is None:
                self.ask("close")
        except Lost:
            pass
        finally:
            self.pipes.end()

    def __enter__(self) -> Manager:
        return self

    def __exit__(self, kind: Optional[Type[BaseException]], fault: Optional[BaseException], trace: Optional[TracebackType]) -> None:
        self.close()


def words_of(by: Optional[Tag]) -> str:
    return by.words() if by else "- 0"


def opened(words: Sequence[str], is_last: bool) -> Optional[tuple[Pipes, str]]:
    """A process that greets, and its greeting; none, if another program holds the log and this is not the last try."""
    try:
        pipes = Pipes(words)
    except OSError as fault:
        raise CannotOpen(f"{words[0]}: {fault.strerror}", 2) from None
    greeting = pipes.first_line()
    if greeting.startswith("ready 1 "):
        return pipes, greeting
    said = pipes.said()
    status = pipes.end()
    if greeting:
        raise NotServed(greeting)
    if status == 3 and "another program" in said and not is_last:
        return None
    raise CannotOpen(said, status)
