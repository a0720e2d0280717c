#!/usr/bin/env python3
"""`rt ci`, with its processors shared out by the chains of crates.

usage: proofs.py [--sparing]
Run where `rt ci` runs. It says and keeps what `rt ci` does, and ends as that does. But `rt ci` gives a check more than one processor only
if hardly anything else is ready, so the longest chain of crates takes half an hour on four processors. Here the crate that has the
longest chain of others behind it gets several of them, all if nothing else is ready. Beside it others get up to half of them each, and
are nicer than it, so that they take what it leaves idle. With --sparing each check gets one processor, the longest chains first, and
processors take the least time in all: of rq_record a check on two takes 1.3 times what it takes on one, on four 1.4 times. As for rt,
RT_JOBS is the number of processors, and then free memory decides only whether a check gets more than one. The tests of a crate that
ONLY_RUN names are not proved, nor is a program that it names: tests.py runs them. If the toolchain's rt is made otherwise than those
of rattle-kit-13b and rattle-kit-13f are, its `rt ci` shares processors out by itself, and proves these too.
"""
from __future__ import annotations
import contextlib, os, sys
from concurrent.futures import FIRST_COMPLETED, Future, ThreadPoolExecutor, wait
from typing import Any, Callable, Dict, List, NamedTuple, Tuple

sys.dont_write_bytecode = True
from place import loaded

# What a check takes in memory for each processor after the first, in parts of what it takes with one; and the most that one was seen
# to take, in parts of what rt guesses.
FOR_EACH_MORE, OF_GUESS = 0.6, 0.67
# How nice the others are to the first. On Linux a thread has a niceness of its own, and what it starts takes that over.
NICER = 2
# What it takes to compile a line of a library for a program or for tests, in parts of what it takes to prove one.
COMPILED = 0.1
# What rt calls the two checks of a crate, in the name of a task behind that of the crate; and what its wrong bodies take, which
# fill what these leave free.
CHECKS, FILLS = ("proof", "tests"), ("seed", "edits")
# The crates of tests whose tests are run without a proof, and the programs for tests.
ONLY_RUN = ("rq_tests", "rqdrive")
# The name of a task: that of the crate, what is done, and a number if there are several.
Key = Tuple[Any, ...]


class Task(NamedTuple):
    """A task, as rt has it: those that it waits for, its work in lines, its memory, and the call that does it, which is told what each
    of the others gave, and how many processors it may use."""

    waits: List[Key]
    work: int
    memory: int
    call: Callable[[Dict[Key, Any], int], Any]


def chains(tasks: Dict[Key, Task]) -> Dict[Key, float]:
    """The work of the longest chain that begins with each task. Each comes behind those that it waits for. A check that nobody waits
    for is taken for one of a program, or of tests: these are compiled with all that they stand on."""
    waited_for = {below for it in tasks.values() for below in it.waits}
    found = dict.fromkeys(tasks, 0.0)
    for key in reversed([*tasks]):
        found[key] += tasks[key].work
        if key[1] in CHECKS and tasks[key].work and key not in waited_for:
            found[key] += COMPILED * sum(tasks[it].work for it in tasks[key].waits)
        for it in tasks[key].waits:
            found[it] = max(found[it], found[key])
    return found


def ranks(tasks: Dict[Key, Task]) -> Dict[Key, Tuple[bool, float]]:
    """Who comes first: wrong bodies last, and of the rest the longest chain first."""
    return {key: (key[1] not in FILLS, chain) for key, chain in chains(tasks).items()}


class Shares:
    """The tasks that run, and what each of them has: processors and memory."""

    def __init__(self, processors: int, memory: float, is_fixed: bool, ranks: Dict[Key, Tuple[bool, float]], is_sparing: bool) -> None:
        self.processors, self.memory, self.is_fixed, self.ranks, self.is_sparing = processors, memory, is_fixed, ranks, is_sparing
        self.running: Dict[Key, Tuple[int, float]] = {}

    def is_first(self, key: Key) -> bool:
        """Whether it comes before all that run."""
        return all(self.ranks[key] > self.ranks[it] for it in self.running)

    def jobs(self, key: Key, is_alone: bool) -> int:
        """How many processors the task may use, if it begins now; 0 if it has to wait. One that comes first finds a place: it is asked
        for once another has ended, and before those behind it."""
        is_first = self.is_first(key)
        if not is_first and len(self.running) >= self.processors:
            return 0
        if self.is_sparing:
            return 1
        most = self.processors if is_alone else self.processors - 1 if is_first else self.processors // 2
        return max(1, most)

    def begin(self, key: Key, memory: float, is_alone: bool) -> int:
        """Lets the task begin, if it may and its memory is free: answers its processors, and else 0."""
        jobs, free = self.jobs(key, is_alone), self.memory - sum(it for _, it in self.running.values())
        while jobs > 1 and memory * (1 + FOR_EACH_MORE * (jobs - 1)) > free:
            jobs -= 1
        if not jobs or (self.running and memory > free and not self.is_fixed):
            return 0
        self.running[key] = jobs, memory * (1 + FOR_EACH_MORE * (jobs - 1))
        return jobs


def side_by_side(rt: Any, tasks: Dict[Key, Any], is_sparing: bool) -> Dict[Key, Any]:
    """Runs the tasks, each once those that it waits for have ended, and returns what each gave."""
    known = {key: Task(*it) for key, it in tasks.items()}
    number = os.environ.get("RT_JOBS", "")
    fixed = int(number) if number.isdigit() else 0
    shares = Shares(fixed or rt.processors(), 0.85 * rt.free(), fixed > 0, ranks(known), is_sparing)
    left, given = sorted(known, key=shares.ranks.get, reverse=True), {}
    going: Dict[Future, Key] = {}
    first, others = ThreadPoolExecutor(len(known) or 1), ThreadPoolExecutor(len(known) or 1, initializer=os.nice, initargs=(NICER,))
    # (what rattle-kit-13f does at the end, as it gives up its places in the machine's queue)
    with getattr(rt, "ending", contextlib.nullcontext)(), first, others:
        while left or going:
            ready = [it for it in left if all(below in given for below in known[it].waits)]
            is_alone = not going and sum(1 for it in ready if known[it].work) == 1
            for key in ready:
                pool = first if shares.is_first(key) else others
                jobs = shares.begin(key, OF_GUESS * known[key].memory, is_alone)
                if jobs:
                    left.remove(key)
                    going[pool.submit(known[key].call, given, jobs)] = key
            for it in wait(going, return_when=FIRST_COMPLETED).done:
                key = going.pop(it)
                del shares.running[key]
                given[key] = it.result()
    return given


def leave_out(rt: Any) -> None:
    """Has rt prove none of what is only run."""
    has_tests, crates_of, stop_on_unread = rt.Crate.has_tests, rt.crates_of, rt.rtlib.stop_on_unread
    every: List[Any] = []

    def crates(*words: str) -> List[Any]:
        every[:] = crates_of(*words)
        return [it for it in every if not (it.is_program and it.name in ONLY_RUN)]

    rt.Crate.has_tests = lambda crate: crate.name not in ONLY_RUN and has_tests(crate)
    rt.crates_of = crates
    # (it wants each file to be of a crate that it knows)
    rt.rtlib.stop_on_unread = lambda top, _: stop_on_unread(top, every)


def main(*words: str) -> int:
    if words not in ((), ("--sparing",)):
        print(__doc__)
        return 2
    # rt reads its words as it is loaded.
    sys.argv = ["rt", "ci"]
    try:
        rt = loaded("rt_main", "rt")
    except (OSError, SyntaxError, ValueError):
        rt = None
    if not all(hasattr(rt, it) for it in ("in_lanes", "processors", "free", "main", "Crate", "crates_of", "rtlib")):
        os.execvp("rt", ["rt", "ci"])
    rt.in_lanes = lambda tasks: side_by_side(rt, tasks, bool(words))
    leave_out(rt)
    return rt.main(["ci"])


if __name__ == "__main__":
    sys.exit(main(*sys.argv[1:]))
