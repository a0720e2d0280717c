"""By hand, before a release and where a loop changes. Restarts and audits logs that try to make them slow or dear in memory, each at n and at 2n
records.

Each time is the best of the runs, taken in turn at both lengths and with the peer (peer.rs); processor
time is the least of the runs. The bounds, with each number of workers:
- from n to 2n a restart, an audit and a restart from a checkpoint grow at most 2.6 times;
- a restart takes at most 4 times as long as the peer;
- an audit takes at most 3 times as long as a restart of the same log, and 3 times its processor time; but if all checkpoints are
  true and much longer than what is between them, it goes through 60 MB of them in a second with one worker, through 150 with four;
  that of chain_told, whose checkpoints are true and half of its bytes, is only told;
- with more than four workers each takes at most 1.5 times the processor time that it takes with four;
- neither a restart nor an audit holds more than 6 times the log in memory, and a restart from a checkpoint at most 10 times;
- the report is the peer's, from a true checkpoint too, and an audit finds what the log was made for.
If a log is shorter than 15 MB, what a restart of an empty log holds is taken off. A restart from a checkpoint is one from the last
checkpoint of a log: if its checkpoints are true and long, or if it is one false checkpoint. Prints a table and each bound that is
missed, and exits with 1 if any is. A run that takes longer than the limit is stopped, and counts as the limit. With --keep the logs
stay in DIR, and those that stand there are taken as they are.
"""
from __future__ import annotations
import argparse, hashlib, math, os, subprocess, sys
from collections.abc import Callable, Iterator
from typing import NamedTuple

from frames import HEADER, bodies_of, header_of, write_log
from hostilelogs import AUDITED_IN_VERSION_TWO, FALSE, IN_VERSION_TWO, LONG_AND_TRUE, RATED, RESTARTED, SMALL, TOLD_AT, TRUE, WITHOUT
from logs import built_peer
from trying import RQ

GROWTH, TO_PEER, TO_RESTART, MEMORY, MEMORY_AT = 2.6, 4.0, 3.0, 6.0, 10.0
# Bytes of true checkpoints in a second, by the number of workers.
RATES = {1: 60e6, 4: 150e6}
# As many workers as there are cores, and how many times their processor time more workers take.
CORES, TO_CORES = 4, 1.5
# What is shorter tells more of the host than of the program.
SHORT = 0.05
# Of a log of fewer bytes what the program itself holds counts for much.
FEW_BYTES = 15_000_000

AUDITED = FALSE + TRUE + LONG_AND_TRUE + WITHOUT
VERSION_TWO = IN_VERSION_TWO + AUDITED_IN_VERSION_TWO
SHAPES = {shape.__name__: shape for shape in RESTARTED + IN_VERSION_TWO + AUDITED + SMALL + TOLD_AT}

HEAD = "| log of 2n | workers | MiB | peer n | 2n | restart n | 2n | grows | to the peer | audit n | 2n | grows | to the restart "
HEAD += "| in processor time | MB/s | restart-at n | 2n | grows | memory / log | from the checkpoint | to four workers |"

# Runs the words behind the first one, and writes to that descriptor the seconds, those of the processors, the KiB held at most, and
# the status.
ASK = """import os, sys, time
begun = time.perf_counter()
_, status, usage = os.wait4(os.posix_spawnp(sys.argv[2], sys.argv[2:], os.environ), 0)
told = time.perf_counter() - begun, usage.ru_utime + usage.ru_stime, usage.ru_maxrss, os.waitstatus_to_exitcode(status)
os.write(int(sys.argv[1]), " ".join(map(str, told)).encode())"""


class Ended(NamedTuple):
    """How a command ended: its wall seconds, its processor seconds, its peak memory in KiB and its status."""
    seconds: float
    processor: float
    memory: int
    status: int


def asked(words: list[str], take: Callable[[bytes], object]) -> Ended:
    """How a command ends, whose output is handed on piece by piece. A small process asks: the system counts with a program what
    the process held at most that started it."""
    seen, told = os.pipe()
    line = [sys.executable, "-I", "-S", "-c", ASK, str(told), *words]
    with subprocess.Popen(line, stdout=subprocess.PIPE, stderr=subprocess.DEVNULL, pass_fds=[told]) as started:
        os.close(told)
        while piece := started.stdout.read(1 << 20):
            take(piece)
    with os.fdopen(seen) as file:
        seconds, processor, memory, status = file.read().split()
    return Ended(float(seconds), float(processor), int(memory), int(status))


class Timed:
    """A command over one log: its best times, its greatest memory in bytes, and what it wrote."""

    def __init__(self, words: list[str], limit: float) -> None:
        self.words, self.limit = words, limit
        self.best, self.processor, self.memory, self.wrote, self.was_stopped = limit, math.inf, 0, "", False

    def run(self) -> None:
        if self.was_stopped:
            return
        digest = hashlib.sha256()
        ended = asked(["timeout", str(self.limit), *self.words], digest.update)
        self.was_stopped = ended.status == 124
        if ended.status not in (0, 124):
            sys.exit(f"{' '.join(self.words)} ended with {ended.status}")
        self.best = min(self.best, ended.seconds)
        self.processor = min(self.processor, ended.processor)
        self.memory = max(self.memory, ended.memory * 1024)
        self.wrote = digest.hexdigest()


def own_memory(options: argparse.Namespace, workers: int) -> int:
    """What a restart of a log without records holds, in bytes."""
    log = os.path.join(options.folder, "empty")
    write_log(log, header_of(1), [])
    empty = Timed([RQ, "restart", log, str(workers), "1000"], options.limit)
    empty.run()
    return empty.memory


def checkpoints_of(log: str) -> dict[int, int]:
    """How many bytes each checkpoint has, by its offset."""
    with open(log, "rb") as file:
        bodies = bodies_of(file.read())
    found, at = {}, HEADER
    for body in bodies:
        if body[0] == 9:
            found[at] = len(body) - 1
        at += 36 + len(body)
    return found


class Tried:
    """A shape at one length: the peer's restart, and by workers what the program is asked for."""

    def __init__(self, options: argparse.Namespace, peer: str, name: str, records: int) -> None:
        shape = SHAPES[name]
        self.log = log = os.path.join(options.folder, f"{name}.{records}")
        if not (options.keep and os.path.exists(log)):
            # under another name first, so that no part of a log is ever taken for it
            write_log(log + ".part", header_of(2 if shape in VERSION_TWO else 1), shape(records))
            os.replace(log + ".part", log)
        self.bytes = os.path.getsize(log)
        self.checkpoints = checkpoints_of(log) if shape in AUDITED + TOLD_AT else {}
        self.truth = "true" if shape in TRUE + LONG_AND_TRUE else "false"
        self.peer = Timed([peer, "restart", log], options.limit)
        self.with_workers = {workers: self.commands(options, shape, workers) for workers in options.plans}

    def commands(self, options: argparse.Namespace, shape: Callable, workers: int) -> dict[str, Timed]:
        """The restart, its audit if the shape is for audits, and the restart from the last checkpoint if it is for that."""
        words = {"restart": ["restart", self.log, str(workers), "1000"]}
        if shape in AUDITED:
            words["audit"] = ["audit", self.log, str(workers)]
        if shape in TOLD_AT + LONG_AND_TRUE and self.checkpoints:
            words["restart-at"] = ["restart-at", self.log, str(max(self.checkpoints)), str(workers), "1000"]
        return {word: Timed([RQ, *line], options.limit) for word, line in words.items()}

    def run(self) -> None:
        self.peer.run()
        for it in [timed for commands in self.with_workers.values() for timed in commands.values()]:
            it.run()

    def wanted_audit(self) -> str:
        """The digest of what an audit must say."""
        return hashlib.sha256("".join(f"checkpoint {at} {self.truth}\n" for at in self.checkpoints).encode()).hexdigest()

    def rate(self, workers: int) -> float:
        """How many bytes of checkpoints an audit goes through in a second."""
        return sum(self.checkpoints.values()) / self.with_workers[workers]["audit"].best


def tried(options: argparse.Namespace, peer: str, name: str) -> tuple[Tried, Tried]:
    """The shape at n and at 2n, run in turn, so that both meet the same load."""
    small, large = Tried(options, peer, name, options.records), Tried(options, peer, name, 2 * options.records)
    for _ in range(options.runs):
        small.run()
        large.run()
    if not options.keep:
        os.remove(small.log)
        os.remove(large.log)
    return small, large


def in_words(workers: int) -> str:
    return "1 worker" if workers == 1 else f"{workers} workers"


class Judged:
    """A shape at both lengths with so many workers, and the bounds that it misses, in words."""

    def __init__(self, name: str, small: Tried, large: Tried, workers: int, own: int) -> None:
        self.name, self.shape, self.tried, self.workers = name, SHAPES[name], large, workers
        self.small, self.large = small.with_workers[workers], large.with_workers[workers]
        self.beside = large.with_workers.get(CORES, {}) if workers > CORES else {}
        self.one_peer, self.peer, self.restart = small.peer, large.peer, self.large["restart"]
        self.audit, self.at = self.large.get("audit"), self.large.get("restart-at")
        self.own = own if large.bytes < FEW_BYTES else 0

    def held(self, timed: Timed) -> float:
        """As a multiple of the log."""
        return (timed.memory - self.own) / self.tried.bytes

    def memory(self) -> float:
        return max(self.held(it) for it in (self.restart, self.audit) if it)

    def to_cores(self, word: str) -> float:
        """How many times the processor time that as many workers as cores take."""
        return self.large[word].processor / self.beside[word].processor

    def missed(self) -> Iterator[str]:
        found = [*self.wrong(), *self.grown(), *self.slow(), *self.dear()]
        return (f"{self.name}, {in_words(self.workers)}: {it}" for it in found)

    def grown(self) -> Iterator[str]:
        for word, one in self.small.items():
            two = self.large[word]
            if two.best > max(SHORT, GROWTH * one.best):
                yield f"from n to 2n the {word} grows {two.best / one.best:.1f} times"
            if one.was_stopped or two.was_stopped:
                yield f"the {word} was stopped at the limit"

    def slow(self) -> Iterator[str]:
        if self.restart.best > max(SHORT, TO_PEER * self.peer.best):
            yield f"the restart takes {self.restart.best / self.peer.best:.1f} times as long as the peer"
        if self.audit:
            yield from self.slow_audit()
        for word in self.beside:
            if self.large[word].processor > max(SHORT, TO_CORES * self.beside[word].processor):
                yield f"the {word} takes {self.to_cores(word):.1f} times the processor time of {CORES} workers"

    def slow_audit(self) -> Iterator[str]:
        if self.shape in LONG_AND_TRUE:
            yield from self.slow_rate()
            return
        if self.audit.best > max(SHORT, TO_RESTART * self.restart.best):
            yield f"the audit takes {self.audit.best / self.restart.best:.1f} times as long as the restart"
        if self.audit.processor > max(SHORT, TO_RESTART * self.restart.processor):
            yield f"the audit takes {self.audit.processor / self.restart.processor:.1f} times the restart's processor time"

    def slow_rate(self) -> Iterator[str]:
        rate = self.tried.rate(self.workers)
        if self.shape in RATED and self.audit.best > SHORT and rate < RATES.get(self.workers, 0):
            yield f"the audit goes through {rate / 1e6:.0f} MB of checkpoints in a second"

    def dear(self) -> Iterator[str]:
        if self.memory() > MEMORY:
            yield f"{self.memory():.1f} times the log in memory"
        if self.at and self.held(self.at) > MEMORY_AT:
            yield f"from its checkpoint {self.held(self.at):.1f} times the log in memory"

    def wrong(self) -> Iterator[str]:
        if not self.restart.was_stopped and self.restart.wrote != self.peer.wrote:
            yield "another report than the peer's"
        if self.audit and not self.audit.was_stopped and self.audit.wrote != self.tried.wanted_audit():
            yield f"an audit that does not find all checkpoints {self.tried.truth}"
        if self.at and self.tried.truth == "true" and not self.at.was_stopped and self.at.wrote != self.peer.wrote:
            yield "another report from the last checkpoint than the peer's"

    def cells(self) -> list[str]:
        """A line of the table."""
        cells = [self.name, str(self.workers), f"{self.tried.bytes / (1 << 20):.1f}"]
        cells += [f"{self.one_peer.best:.2f}", f"{self.peer.best:.2f}"]
        cells += [*self.times("restart"), f"{self.restart.best / self.peer.best:.1f}"]
        cells += [*self.times("audit"), *self.to_restart(), *self.times("restart-at")]
        cells += [f"{self.memory():.1f}", f"{self.held(self.at):.1f}" if self.at else ""]
        return [*cells, f"{max(map(self.to_cores, self.beside)):.1f}" if self.beside else ""]

    def to_restart(self) -> list[str]:
        """How an audit stands to the restart, in time and in processor time, and how fast it goes through long true checkpoints."""
        if not self.audit:
            return [""] * 3
        rate = f"{self.tried.rate(self.workers) / 1e6:.0f}" if self.shape in LONG_AND_TRUE else ""
        return [f"{self.audit.best / self.restart.best:.1f}", f"{self.audit.processor / self.restart.processor:.1f}", rate]

    def times(self, word: str) -> list[str]:
        """Both times of a command, and how they grow."""
        if word not in self.small:
            return [""] * 3
        one, two = self.small[word].best, self.large[word].best
        return [f"{one:.2f}", f"{two:.2f}", f"{two / one:.1f}"]


def takes(words: argparse.ArgumentParser) -> None:
    words.add_argument("shapes", nargs="*", default=list(SHAPES))
    words.add_argument("--records", type=int, default=1000000)
    words.add_argument("--runs", type=int, default=3)
    words.add_argument("--workers", default="1,4,64")
    words.add_argument("--limit", type=float, default=60)
    words.add_argument("--keep", action="store_true")


def main(options: argparse.Namespace) -> int:
    options.plans = list(map(int, options.workers.split(",")))
    peer = built_peer(options.folder)
    own = {workers: own_memory(options, workers) for workers in options.plans}
    empty = ", ".join(f"{held / (1 << 20):.1f} MiB with {in_words(workers)}" for workers, held in own.items())
    print(f"{options.records} and {2 * options.records} records, best of {options.runs}; seconds; "
          f"a restart of an empty log holds {empty}\n")
    print(HEAD)
    print("|---" * (HEAD.count("|") - 1) + "|")
    told = []
    for name in options.shapes:
        small, large = tried(options, peer, name)
        judged = [Judged(name, small, large, workers, own[workers]) for workers in options.plans]
        print("\n".join("| " + " | ".join(it.cells()) + " |" for it in judged), flush=True)
        told += [line for it in judged for line in it.missed()]
    print("\n" + "\n".join(told or ["every bound is kept"]))
    return 1 if told else 0
