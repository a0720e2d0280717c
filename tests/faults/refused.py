"""Quick, of small logs; by hand with --all. Refuses programs each of their allocations in turn, and each of their threads, and tells how the
runs end.

A run that is refused must write what it writes with ample memory, or end with status 4, say `resources`, and write nothing, no file either.
With --all it sweeps each command over the logs of two scripts in `examples/`, what rqlook shows of a log that is whole, of one that is damaged
and of one that was carried on, and what rqlog does; and it restarts and upgrades logs that are large enough for what runs on large logs alone:
records decoded by several workers, digests checked beside the analysis and in lanes, a report made in pieces. Of these each Nth allocation is
refused, for a prime N (--step). rqlook and rqlog may name the log before they say `resources`. A COMMAND is one of rq. If it writes a file it
names that `{made}/NAME`. The status is 1 if a run ended otherwise, or if no allocation of a command was met.
"""
from __future__ import annotations
import argparse, os, re, subprocess, sys, time
from typing import NamedTuple

from logs import built_peer, log_of as peers_log
from tables import asking
from trying import EXAMPLES, MORE, RQ, RQLOG, RQLOOK, check, content, done, has_shim, lines_of, log_of, plain, put, sweep

# Status, standard output, standard error, and the files that were made.
Outcome = tuple[int, bytes, bytes, dict[str, bytes]]
# The bytes of the last frame of that log, a COMMIT.
COMMIT_FRAME = 45
REFUSED: Outcome = (4, b"", b"rq: resources\n", {})


class Counts(NamedTuple):
    """How many runs were refused, and of these, how many ended the same, with `resources`, and otherwise."""
    refused: int
    same: int
    resources: int
    wrong: int


class Sweep:
    """Runs of a program that are refused something, and how one must end that could not do without."""

    def __init__(self, program: str, folder: str, refused: Outcome = REFUSED) -> None:
        self.program, self.refused = program, refused
        self.made = os.path.join(folder, "made")
        os.makedirs(self.made, exist_ok=True)

    def outcome(self, *words: str, **options: object) -> Outcome:
        """How the program ends; files that it made are read and taken away."""
        ended = done(self.program, *words, timeout=None, **options)
        files = {}
        for name in os.listdir(self.made):
            path = os.path.join(self.made, name)
            files[name] = content(path)
            os.remove(path)
        return (*ended, files)

    def counted(self, words: list[str], ample: Outcome, step: int, sort: str) -> Counts:
        """Refuses each of a sort, or each `step`th, until a run meets no refusal."""
        ends = {"same": 0, "resources": 0, "wrong": 0}
        for number, ended in sweep(*words, sort=sort, step=step, by=self.outcome):
            end = "same" if ended == ample else "resources" if ended == self.refused else "wrong"
            ends[end] += 1
            if end == "wrong":
                print(f"`{' '.join(words)}`, {sort} {number} refused, ends with", *ended, file=sys.stderr)
        return Counts(sum(ends.values()), **ends)

    def check(self, words: list[str]) -> None:
        """Refuses each allocation and each thread of a line."""
        ample = self.outcome(*words)
        memory, threads = (self.counted(words, ample, 1, sort) for sort in ("memory", "thread"))
        ends = ample[0], memory.wrong, threads.wrong, memory.resources > 0
        check(f"`{' '.join(words)}` if each allocation and each thread is refused in turn", ends, (0, 0, 0, True))

    def row(self, name: str, words: list[str], step: int = 1) -> int:
        """Prints a line of the table, and tells how many runs ended otherwise than they must; one more if none was refused."""
        words = [word.replace("{made}", self.made) for word in words]
        ample = self.outcome(*words)
        memory = self.counted(words, ample, step, "memory")
        threads = self.counted(words, ample, 1, "thread")
        wrong = memory.wrong + threads.wrong
        if memory.refused == 0:
            wrong += 1
            print(f"`{' '.join(words)}`: no allocation was met: is RQ the built program itself?", file=sys.stderr)
        which = "each" if step == 1 else f"1 in {step}"
        print(f"| {name} | {which} | {memory.refused} | {memory.same} | {memory.resources} "
              f"| {threads.refused} | {threads.same} | {threads.resources} | {wrong} |", flush=True)
        return wrong


class NamingSweep(Sweep):
    """Runs of a program that may name its log before it says that memory was refused."""

    def __init__(self, program: str, folder: str) -> None:
        self.begins = b"rqlook: " if "rqlook" in os.path.basename(program) else b"rqlog: "
        super().__init__(program, folder, (4, b"", self.begins + b"resources\n", {}))

    def outcome(self, *words: str, **options: object) -> Outcome:
        status, output, said, files = super().outcome(*words, **options)
        for word in words:
            if said == self.begins + word.encode() + b": resources\n":
                said = self.begins + b"resources\n"
        return status, output, said, files


def of_scripts(sweep: Sweep, folder: str) -> int:
    """Sweeps each command over the logs of two scripts."""
    logs = {}
    wrong = 0
    for name in ("error-queue", "checkpoint"):
        script = os.path.join(EXAMPLES, name + ".script")
        logs[name] = os.path.join(folder, name + ".log")
        subprocess.run([sweep.program, "make", script, logs[name]], check=True)
        wrong += sweep.row(f"`make` {name}", ["make", script, "{made}/log"])
    audit = subprocess.run([sweep.program, "audit", logs["checkpoint"], "1"], check=True, capture_output=True).stdout
    offset = audit.split()[1].decode()
    with_open_unit = os.path.join(folder, "open.log")
    with open(logs["checkpoint"], "rb") as whole, open(with_open_unit, "wb") as cut:
        cut.write(whole.read()[:-COMMIT_FRAME])
    for workers in ("1", "2", "4"):
        for name, log in logs.items():
            wrong += sweep.row(f"`restart` {name}, {workers}", ["restart", log, workers, "1"])
        wrong += sweep.row(f"`restart-at` {offset}, {workers}", ["restart-at", logs["checkpoint"], offset, workers, "1"])
        wrong += sweep.row(f"`audit` checkpoint, {workers}", ["audit", logs["checkpoint"], workers])
        wrong += sweep.row(f"`close` with an open unit, {workers}", ["close", with_open_unit, "{made}/log", workers])
        wrong += sweep.row(f"`upgrade` checkpoint, {workers}", ["upgrade", logs["checkpoint"], "{made}/log", workers])
    return wrong


def of_large_logs(sweep: Sweep, folder: str) -> int:
    """Sweeps restarts of logs in which the bodies for large logs run."""
    peer = built_peer(folder)
    wrong = 0
    for shape, mib, workers, step in (("kib", 2, "4", 11), ("small", 1, "2", 97), ("errors", 2, "4", 53), ("wide", 2, "4", 101)):
        log = peers_log(peer, folder, shape, mib)
        wrong += sweep.row(f"`restart` {shape} of {mib} MiB, {workers}", ["restart", log, workers, "10"], step)
    log = peers_log(peer, folder, "kib", 2)
    return wrong + sweep.row("`upgrade` kib of 2 MiB, 4", ["upgrade", log, "{made}/log", "4"], 11)


def damaged(log: str) -> str:
    """The log with a byte changed in the middle, beside it."""
    with open(log, "rb") as source:
        bytes_ = bytearray(source.read())
    bytes_[len(bytes_) // 2] ^= 1
    with open(log + ".damaged", "wb") as to:
        to.write(bytes_)
    return log + ".damaged"


# The lines that show any log.
SHOWING = [["dump", "LOG"], ["dump", "LOG", "--json", "--behind"], ["check", "LOG"], ["stats", "LOG"], ["stats", "LOG", "--json"],
           ["report", "LOG"], ["report", "LOG", "--json"], ["page", "LOG", "{made}/page"], ["mend", "LOG", "{made}/log"]]


def of_rqlog(write: str, logs: list[str], carried: str, folder: str) -> int:
    """Sweeps lines of `rqlog` over these logs and over the last of them once it was carried on."""
    sweep, wrong = NamingSweep(write, folder), 0
    if os.path.exists(carried):
        os.remove(carried)
    subprocess.run([write, "carry", logs[-1], carried], check=True, capture_output=True)
    for log in [*logs, carried]:
        name = os.path.basename(log)
        for word in ("restart", "audit"):
            wrong += sweep.row(f"`rqlog {word}` {name}", [word, log])
        wrong += sweep.row(f"`rqlog follow` {name}", ["follow", "--from", log])
        for word in ("close", "carry"):
            wrong += sweep.row(f"`rqlog {word}` {name}", [word, log, "{made}/log"])
    return wrong


def of_rqlook(look: str, logs: list[str], carried: str, folder: str) -> int:
    """Sweeps the lines of `rqlook` over these logs, one of them damaged too, and over the one that was carried on, if it is there."""
    sweep = NamingSweep(look, folder)
    wrong = sweep.row("`rqlook story` checkpoint.log", ["story", logs[-1], "3"])
    wrong += sweep.row("`rqlook unit` checkpoint.log", ["unit", logs[-1], "2"])
    for log in [*logs, damaged(logs[0]), *([carried] if os.path.exists(carried) else [])]:
        name = os.path.basename(log)
        lines = SHOWING if log == carried else [*SHOWING, ["script", log], ["salvage", log, "{made}/script"]]
        for line in lines:
            wrong += sweep.row(f"`rqlook {line[0]}` {name}", [log if word == "LOG" else word for word in line])
    return wrong


SMALL = ["make one.script MADE", "make two.script MADE", "restart two.log 1 1", "restart two.log 2 1", "restart-at two.log 447 1 1"]
SMALL += ["audit two.log 1", "audit twice.log 2", "close open.log MADE 1", "upgrade two.log MADE 1"]
LINE_REFUSED = re.compile(rb"\Arqlog: script line [1-4]: resources; nothing was appended\n\Z")


class Appends(Sweep):
    """Runs that append to a log, which stands in the folder of what is made, and is there each time as it was before."""

    def __init__(self, folder: str, before: bytes) -> None:
        super().__init__(RQLOG, folder, (4, b"", b"rqlog: resources\n", {"log": before}))
        self.before = before

    def outcome(self, *words: str, **options: object) -> Outcome:
        """How the program ends. A line of the script for which memory is refused is told by its number, and counts as no other."""
        put(os.path.join(self.made, "log"), self.before)
        status, said, error, files = super().outcome(*words, **options)
        if words[0] == "append":
            error = LINE_REFUSED.sub(b"rqlog: resources\n", error)
        return status, said, error, files


def of_small_logs(folder: str) -> None:
    """Lines of rq, and those of rqlog that write, over the logs of small scripts."""
    os.chdir(folder)
    for name, script in {"one": asking.ONE_ELEMENT, "two": asking.CHECKPOINT, "twice": "checkpoint\ncheckpoint\n",
                         "open": asking.CHECKPOINT.removesuffix("commit 2\n")}.items():
        log_of(script.encode(), name)
    sweep = Sweep(RQ, os.path.join(folder, "swept"))
    for line in lines_of(SMALL, MADE=os.path.join(sweep.made, "log")):
        sweep.check(list(map(str, line)))
    put("more.script", MORE)
    appends = Appends(os.path.join(folder, "appended"), content(plain("scarce")))
    log = os.path.join(appends.made, "log")
    appends.check(["new", log + ".new"])
    for line in (["append", log, "more.script"], ["checkpoint", "--close", log], ["carry", log, log + ".carried"]):
        appends.check([*line, "--workers", "2"])


def takes(line: argparse.ArgumentParser) -> None:
    line.add_argument("--all", action="store_true")
    line.add_argument("--step", type=int, default=1)
    line.add_argument("command", nargs="*")


def main(options: argparse.Namespace) -> int | None:
    if not has_shim("to refuse allocations"):
        return None
    if not options.all and not options.command:
        return of_small_logs(options.folder)
    sweep = Sweep(RQ, options.folder)
    print("| command | allocations | refused | the same | resources | threads refused | the same | resources | anything else |")
    print("|---|---|---|---|---|---|---|---|---|")
    begun = time.perf_counter()
    if options.command:
        wrong = sweep.row(" ".join(options.command[:1]), options.command, options.step)
    else:
        wrong = of_scripts(sweep, options.folder)
        logs = [os.path.join(options.folder, name + ".log") for name in ("error-queue", "checkpoint")]
        carried = os.path.join(options.folder, "checkpoint.carried")
        wrong += of_rqlog(RQLOG, logs, carried, options.folder) + of_rqlook(RQLOOK, logs, carried, options.folder)
        wrong += of_large_logs(sweep, options.folder)
    print(f"{time.perf_counter() - begun:.0f} s, {wrong} wrong")
    return int(wrong != 0)
