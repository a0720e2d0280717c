"""By hand. Times what makes a log of a log, restarts from checkpoints, the reading and spelling of states, and a queue manager."""
from __future__ import annotations
import argparse, hashlib, os, statistics, subprocess, sys
from collections.abc import Iterator

from frames import begin, define, enqueue, header_of, spans_of, write_log
from logs import built_peer, checkpoints_script
from restarts import best, parsed, parser, seconds

# The logs of which a close and an upgrade are timed have so many open units and queues.
OPEN_UNITS = 64_000
OPEN_QUEUES = 64


def open_bodies(mib: int, payload: int) -> Iterator[bytes]:
    """DEFINE of each queue, BEGIN of each unit, and elements of the units in turn."""
    yield from (define(b"q%d" % queue) for queue in range(OPEN_QUEUES))
    yield from (begin(unit) for unit in range(1, OPEN_UNITS + 1))
    for place in range(((mib << 20) - OPEN_UNITS * 45) // (59 + payload)):
        yield enqueue(1 + place % OPEN_UNITS, place % OPEN_QUEUES, priority=place % 7, payload=b"\xa5" * payload)


def open_log_of(folder: str, mib: int, payload: int) -> str:
    path = os.path.join(folder, f"open.{mib}.{payload}")
    if not os.path.exists(path):
        write_log(path, header_of(1), open_bodies(mib, payload))
    return path


def making_words() -> argparse.ArgumentParser:
    """The words of a script that times a command which makes a log of a log."""
    words = parser()
    words.add_argument("--mib", type=int, default=128)
    words.add_argument("--rounds", type=int, default=5)
    words.add_argument("--memory", default="/dev/shm/rq-bench")
    return words


class Making:
    """The best seconds of a restart, of a command that makes a log of the same log, into memory and onto the disk, and
    of writing as many bytes there."""

    def __init__(self, word: str) -> None:
        self.word = word
        self.restart = self.memory = self.disk = self.written = float("inf")

    def round(self, program: str, log: str, workers: str, folder: str, memory: str) -> None:
        on_disk, in_memory = os.path.join(folder, "made.log"), os.path.join(memory, "made.log")
        self.restart = min(self.restart, seconds([program, "restart", log, workers, "1000"])[0])
        self.memory = min(self.memory, seconds([program, self.word, log, in_memory, workers])[0])
        self.disk = min(self.disk, seconds([program, self.word, log, on_disk, workers])[0])
        os.remove(on_disk)
        copied = ["dd", f"if={in_memory}", f"of={on_disk}", "bs=1M", "conv=fsync"]
        self.written = min(self.written, seconds(copied)[0])
        os.remove(on_disk)
        os.remove(in_memory)

    def line(self) -> str:
        return (f"restart {self.restart:.2f} s, "
                f"{self.word} into memory {self.memory:.2f} s ({self.memory / self.restart:.2f}), "
                f"onto disk {self.disk:.2f} s ({self.disk / self.restart:.2f}), dd {self.written:.2f} s, "
                f"onto disk less dd {(self.disk - self.written) / self.restart:.2f}")


# --- closing ---------------------------------------------------------------------------------------------------------

def closing() -> None:
    """Times closing a log in which 64,000 units are open, beside a restart of it.

    usage: python3 bench closing RQ [--mib N] [--rounds N] [--folder DIR] [--memory DIR]
    Makes two logs, one of long frames and one of short ones, in which no unit ends: so a restart prints no element, and what it takes
    is a restart less its report. Each round restarts the log, closes it into the folder that is kept in memory, closes it onto the
    disk of the other folder, and has `dd conv=fsync` write as many bytes there. Prints the best seconds of each, what the two ways to
    close are as multiples of the restart, and last what closing onto the disk is without what `dd` takes: the program's own work.
    """
    options = parsed(making_words())
    os.makedirs(options.memory, exist_ok=True)
    for payload in (2000, 10):
        log = open_log_of(options.folder, options.mib, payload)
        for workers in ("1", "2", "4"):
            times = Making("close")
            for _ in range(options.rounds):
                times.round(options.program, log, workers, options.folder, options.memory)
            print(f"{options.mib} MiB, payloads of {payload} bytes, {workers} workers: {times.line()}", flush=True)
    os.rmdir(options.memory)


# --- upgrading -------------------------------------------------------------------------------------------------------

def upgrading() -> None:
    """Times upgrading a log in which 64,000 units are open, beside a restart of it and the digests of the new chain on one thread.

    usage: python3 bench upgrading RQ [--mib N] [--rounds N] [--folder DIR] [--memory DIR] [--without-sha]
    Logs and times are those of `bench closing`, with `upgrade` in place of `close`. In each round the peer also reads the log and chains its
    frames anew, on one thread over OpenSSL: each digest is of the one before it, so more workers take nothing off that. With
    --without-sha OpenSSL does without the processor's SHA instructions, as the program does.
    """
    words = making_words()
    words.add_argument("--without-sha", action="store_true")
    options = parsed(words)
    if options.without_sha:
        os.environ["OPENSSL_ia32cap"] = ":~0x20000000"
    os.makedirs(options.memory, exist_ok=True)
    peer = built_peer(options.folder)
    for payload in (2000, 10):
        log = open_log_of(options.folder, options.mib, payload)
        for workers in ("1", "2", "4"):
            times, digests = Making("upgrade"), float("inf")
            for _ in range(options.rounds):
                times.round(options.program, log, workers, options.folder, options.memory)
                digests = min(digests, seconds([peer, "chain", log])[0])
            print(f"{options.mib} MiB, payloads of {payload} bytes, {workers} workers: {times.line()}, "
                  f"new digests by the peer {digests:.2f} s ({times.memory / digests:.2f})", flush=True)
    os.rmdir(options.memory)


# --- checkpoints -----------------------------------------------------------------------------------------------------

def timed_and_told(words: list[str]) -> tuple[float, bytes]:
    """The seconds of a command, and what it writes."""
    pieces: list[bytes] = []
    took, _ = seconds(words, take=pieces.append)
    return took, b"".join(pieces)


def checkpoints() -> None:
    """Times restarts from checkpoints and their audit beside the restart of the whole log, in one run.

    usage: python3 bench checkpoints RQ [--mib N] [--folder DIR]
    Makes two logs of the same work with `rq make`: one with 8 checkpoints, one with 100. Prints seconds: the restart of the
    whole, the restart from the last of 8 checkpoints, the audit of 100. The last line is `N passed, M failed`: whether the restart from
    the last checkpoint has the report of the whole, and whether each checkpoint is true.
    """
    words = parser()
    words.add_argument("--mib", type=int, default=128)
    options = parsed(words)
    program, failed = options.program, 0
    for checkpoints in (8, 100):
        text = os.path.join(options.folder, f"script.{checkpoints}")
        log = os.path.join(options.folder, f"checkpoints.{checkpoints}.{options.mib}")
        checkpoints_script(text, options.mib, checkpoints)
        made, _ = timed_and_told([program, "make", text, log])
        os.remove(text)
        whole, report = min(timed_and_told([program, "restart", log, "4", "1000"]) for _ in range(3))
        audit, lines = timed_and_told([program, "audit", log, "4"])
        last = lines.decode().split("\n")[-2].split()
        part, again = min(timed_and_told([program, "restart-at", log, last[1], "4", "1000"]) for _ in range(3))
        all_true = lines.count(b" true\n") == lines.count(b"\n")
        failed += (report != again) + (not all_true)
        same = ("the same report" if report == again else "ANOTHER REPORT") + ("" if all_true else ", NOT ALL TRUE")
        print(f"{checkpoints} checkpoints, {os.path.getsize(log) >> 20} MiB: make {made:.2f}, restart {whole:.2f}, "
              f"audit {audit:.2f} ({audit / whole:.1f} restarts), restart-at the last {part:.2f} ({part / whole:.2f}), {same}")
    print(f"{4 - failed} passed, {failed} failed")
    sys.exit(failed != 0)


# --- states ----------------------------------------------------------------------------------------------------------

# What stands before the number of definitions in the bytes of a state: four numbers of 8 bytes.
BEFORE_LISTS = 32


def state_script(path: str, payload: int, size: int, checkpoints: int) -> str:
    """A unit that fills queues, and checkpoints of the state behind it."""
    with open(path, "w") as out:
        out.write("".join(f"define work{queue} 0 -\n" for queue in range(64)) + "begin 1\n")
        for place in range(size // (payload + 36)):
            out.write(f"enqueue 1 {place % 64} {place % 8} - 0 {'a5' * payload}\n")
        out.write("commit 1\n" + "checkpoint\n" * checkpoints)
    return path


def spoilt(log: str, data: bytes, frame: int, place: int) -> str:
    """The log with another byte at a place of its last body, and a right digest all the same."""
    path = f"{log}.{place}"
    changed = bytearray(data)
    changed[frame + 4 + place] ^= 0x80
    changed[-32:] = hashlib.sha256(changed[frame - 32:-32]).digest()
    with open(path, "wb") as out:
        out.write(changed)
    return path


def states() -> None:
    """How fast a state is read from a checkpoint, and spelled into one.

    usage: python3 bench states RQ [--mb N] [--folder DIR]
    Makes logs whose one checkpoint, behind all other records, spells a state of N MB: elements with payloads of 16, 256 and
    4,096 bytes. Reading is timed by two checkpoints that are refused: one at its first list and one at its last byte, with
    the same digests; the difference is the time of all that lies between. Spelling is timed by a script with one checkpoint
    more: the difference to `make` without it is the state spelled once more, framed, digested and written to the log.
    """
    words = parser()
    words.add_argument("--mb", type=int, default=100)
    options = parsed(words)
    print("| payloads | state | read | spelled and framed |\n|---|---|---|---|")
    for payload in (16, 256, 4096):
        log = os.path.join(options.folder, f"state.{payload}")
        scripts = [state_script(f"{log}.state_script{count}", payload, options.mb * 1_000_000, count) for count in (1, 2)]
        once, twice = (best([options.program, "make", path, out]) for path, out in zip(scripts, (log, log + ".twice")))
        with open(log, "rb") as source:
            data = source.read()
        *_, (frame, _) = spans_of(data)
        size = (len(data) - frame - 37) / 1e6
        files = [spoilt(log, data, frame, 1 + BEFORE_LISTS), spoilt(log, data, frame, len(data) - frame - 37)]
        early, late = (best([options.program, "restart-at", path, str(frame), "1", "1000"], 1) for path in files)
        read, spelled = late - early, twice - once
        print(f"| {payload} bytes | {size:.0f} MB | {read:.2f} s, {size / read:.0f} MB/s | {spelled:.2f} s, {size / spelled:.0f} MB/s |")


def live() -> None:
    """Times a queue manager over memory: how many records a second it does.

    usage: python3 bench live RQDRIVE [--elements N] [--runs N]
    Each element is put in by one unit and taken out by another: six records, payloads of 100 bytes. The units are made safe at the end,
    and the log stays in memory. The median and the best of the runs.
    """
    words = parser()
    words.add_argument("--elements", type=int, default=500_000)
    words.add_argument("--runs", type=int, default=5)
    options = parsed(words)
    took = []
    for _ in range(options.runs):
        done = subprocess.run([options.program], input=f"time {options.elements}\n", capture_output=True, text=True, check=True)
        took.append(int(done.stdout.split()[2]) / 1000)
    records = 6 * options.elements + 1
    print(f"{records} records: median {statistics.median(took):.2f} s, {records / statistics.median(took) / 1e6:.2f} million a second; "
          f"best {min(took):.2f} s, {records / min(took) / 1e6:.2f} million a second")
