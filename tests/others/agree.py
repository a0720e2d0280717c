"""Quick, of one seed and one damage; by hand of more. Holds what rq says of logs of every shape, whole and damaged, against the peer, a plain
restart in Rust over OpenSSL's SHA-256 (peer.rs), which shares no line with it; and against other builds of rq.

Each log is restarted at several plans, and upgraded: what is made must be the bodies of the front, chained anew in version 2, with the same
report but for its first line, the same audit, and from each true checkpoint the same restart. A whole log is closed, too: the peer's report
of the closed log must be `whole` and have the same queue lines. One log has true checkpoints.
Damaged, a log is cut, has one bit turned, or gets a body that is no record, one that is not lawful, both, or a KILL (no record in version 1),
at places drawn evenly; behind a changed body all digests are made anew, so that the chain holds and the body itself ends the front.
With --beside each answer, its exit status with it, is compared with those of other builds instead: the gate builds for x86-64-v2 alone. With
--again one log is restarted so many times, at 2, 3, 7 and 64 workers.
"""
from __future__ import annotations
import argparse, os, random, subprocess

from logs import COMPARED, DAMAGES, PLANS, built_peer, checkpoints_script, log_of, report, upgrade_agrees
from trying import RQ, check, content, done, put

# The shape of the log that has true checkpoints.
CHECKPOINTS = "checkpoints"


def closed_report(peer: str, log: str, out: str) -> tuple[bool, bytes]:
    """Whether the closed log is whole, and the lines of its queues, as the peer says."""
    subprocess.run([RQ, "close", log, out, "2"], check=True)
    front, _, queues = report([peer, "restart", out]).split(b"\n", 2)
    return front.endswith(b", whole"), queues


def logs_of(peer: str, folder: str, shape: str, mib: int, seeds: range) -> list[str]:
    """A log of the shape for each seed; of the one that has true checkpoints, which rq makes itself, one log."""
    if shape != CHECKPOINTS:
        return [log_of(peer, folder, shape, mib, seed) for seed in seeds]
    text, log = os.path.join(folder, "agree.script"), os.path.join(folder, f"{shape}.agree.{mib}")
    checkpoints_script(text, mib, 5)
    subprocess.run([RQ, "make", text, log], check=True)
    os.remove(text)
    return [log]


def same_restarts(peer: str, name: str, log: str) -> bytes:
    """The peer's report of a log, which rq's is at each plan, and that of the log once it is upgraded."""
    want = report([peer, "restart", log])
    for workers, grain in PLANS:
        check(f"{name} with {workers} workers and grain {grain}", report([RQ, "restart", log, workers, grain]) == want, True)
    check(f"{name}, upgraded", upgrade_agrees(RQ, peer, log, want), True)
    return want


def whole_logs(options: argparse.Namespace, peer: str) -> None:
    for shape in [*COMPARED, CHECKPOINTS]:
        for mib in options.mib.split(","):
            for log in logs_of(peer, options.folder, shape, int(mib), range(2, 2 + options.seeds)):
                queues = same_restarts(peer, log, log).split(b"\n", 2)[2]
                check(f"{log}, closed", closed_report(peer, log, os.path.join(options.folder, "closed")) == (True, queues), True)


def damaged_logs(options: argparse.Namespace, peer: str) -> None:
    path, draw = os.path.join(options.folder, "damaged"), random.Random(1)
    ends: dict[str, int] = {}
    for shape in COMPARED:
        log = content(log_of(peer, options.folder, shape, 1))
        for name, damage in DAMAGES.items():
            for time in range(options.damages):
                said = same_restarts(peer, f"{shape}, {name} for the {time}th time", put(path, damage(log, draw)))
                end = said.split(b"\n")[0].decode().rsplit(" ", 1)[1]
                ends[end] = ends.get(end, 0) + 1
    print("fronts that end by", ends)


def other_builds(options: argparse.Namespace, peer: str) -> None:
    path, draw = os.path.join(options.folder, "builds"), random.Random(1)
    for shape in [*COMPARED, "big", "even"]:
        log = content(log_of(peer, options.folder, shape, 4))
        for damaged in [log, *(damage(log, draw) for damage in DAMAGES.values() for _ in range(options.damages))]:
            put(path, damaged)
            for plan in PLANS:
                want = done(RQ, "restart", path, *plan)[:2]
                for other in options.beside:
                    check(f"{shape}, {plan}, {other}", done(other, "restart", path, *plan)[:2] == want, True)


def same_again(log: str, count: int) -> None:
    want = report([RQ, "restart", log, "1", "1000"])
    for number in range(count):
        workers = (2, 3, 7, 64)[number % 4]
        check(f"run {number}, {workers} workers", report([RQ, "restart", log, str(workers), "1000"]) == want, True)


def takes(line: argparse.ArgumentParser) -> None:
    line.add_argument("--seeds", type=int, default=5)
    line.add_argument("--mib", default="1,4")
    line.add_argument("--damages", type=int, default=4, help="how often each damage is done to each log")
    line.add_argument("--beside", nargs="+", metavar="RQ")
    line.add_argument("--again", nargs=2, metavar=("LOG", "N"))


def main(options: argparse.Namespace) -> None:
    if options.again:
        same_again(options.again[0], int(options.again[1]))
        return
    try:
        peer = built_peer(options.folder)
    except subprocess.CalledProcessError as fault:
        check("the peer compiles", fault.stderr.decode(errors="replace"), "")
        return
    if options.beside:
        other_builds(options, peer)
    else:
        whole_logs(options, peer)
        damaged_logs(options, peer)
