"""Shared. Logs that the peer makes, damages of logs, and what the program and the peer say of them."""
from __future__ import annotations
import os, random, subprocess

from frames import HEADER, bodies_of, chained, commit, header_of, kill
from trying import HERE

# The logs whose times and memory are told, by the peer's names.
SHAPES = ["small", "kib", "big", "hot", "names", "wide", "errors", "deep", "kills"]
# The logs of which the program's answers are compared with others, and at which workers and grains.
COMPARED = ["errors", "wide", "small", "names", "hot", "kib", "deep", "kills"]
PLANS = [("1", "1000"), ("2", "1"), ("3", "1000"), ("7", "1000"), ("64", "1000")]

NO_RECORD = bytes(9)
# The COMMIT of a unit that was never begun.
UNLAWFUL = commit(2**64 - 1)


def built_peer(folder: str) -> str:
    peer = os.path.join(folder, "peer")
    source = os.path.join(HERE, "others", "peer.rs")
    if not os.path.exists(peer) or os.path.getmtime(peer) < os.path.getmtime(source):
        build = ["rustc", "--edition", "2024", "-O", "-C", "target-cpu=native", source, "-l", "crypto", "-o", peer]
        subprocess.run(build, check=True, stderr=subprocess.PIPE)
    return peer


def can_link_crypto(folder: str) -> bool:
    """Whether rustc links a program with OpenSSL's library here."""
    source, program = os.path.join(folder, "empty.rs"), os.path.join(folder, "empty")
    with open(source, "w", encoding="ascii") as file:
        file.write("fn main() {}\n")
    build = ["rustc", source, "-l", "crypto", "-o", program]
    return subprocess.run(build, stdout=subprocess.DEVNULL, stderr=subprocess.DEVNULL).returncode == 0


def log_of(peer: str, folder: str, shape: str, mib: int, seed: int = 1) -> str:
    path = os.path.join(folder, f"{shape}.{mib}.{seed}")
    if not os.path.exists(path):
        subprocess.run([peer, "gen", path, shape, str(seed), str(mib)], check=True, stderr=subprocess.DEVNULL)
    return path


def with_bodies(log: bytes, draw: random.Random, *others: bytes) -> bytes:
    """The log with other bodies in place of as many of its own."""
    bodies = bodies_of(log)
    for place, other in zip(draw.sample(range(len(bodies)), len(others)), others):
        bodies[place] = other
    return chained(log[:HEADER], bodies)


def turned(log: bytes, draw: random.Random) -> bytes:
    place = draw.randrange(HEADER, len(log))
    return log[:place] + bytes([log[place] ^ 1 << draw.randrange(8)]) + log[place + 1:]


DAMAGES = {
    "cut": lambda log, draw: log[:draw.randrange(HEADER, len(log))],
    "turned": turned,
    "no record": lambda log, draw: with_bodies(log, draw, NO_RECORD),
    "not lawful": lambda log, draw: with_bodies(log, draw, UNLAWFUL),
    "both": lambda log, draw: with_bodies(log, draw, NO_RECORD, UNLAWFUL),
    "a kill": lambda log, draw: with_bodies(log, draw, kill(0, 0)),
}


def report(words: list[str]) -> bytes:
    return subprocess.run(words, check=True, capture_output=True).stdout


def front_of(log: str, used: int) -> bytes:
    """The front of a log in version 2, made a second time."""
    with open(log, "rb") as file:
        return chained(header_of(2), bodies_of(file.read(used)))


def upgraded(program: str, log: str, workers: str) -> tuple[str, bytes]:
    """Where the upgraded log lies, and its bytes."""
    out = f"{log}.upgraded"
    subprocess.run([program, "upgrade", log, out, workers], check=True)
    with open(out, "rb") as file:
        return out, file.read()


def upgrade_agrees(program: str, peer: str, log: str, want: bytes) -> bool:
    """Whether the upgraded log is right, if this is the peer's report of the log; what was made is taken away."""
    first, rest = want.split(b"\n", 1)
    words = first.decode().split()
    out, made = upgraded(program, log, "2")
    again, twice = upgraded(program, out, "7")
    whole = f"front {words[1]} records, {words[3]} of {words[3]} bytes, whole\n".encode() + rest
    right = made == front_of(log, int(words[3])) and twice == made
    right = right and report([peer, "restart", out]) == whole == report([program, "restart", out, "3", "1000"])
    audit = report([program, "audit", log, "2"])
    right = right and report([program, "audit", out, "2"]) == audit
    for line in audit.decode().splitlines():
        if line.endswith(" true"):
            offset = line.split()[1]
            old, new = (report([program, "restart-at", name, offset, "2", "1000"]) for name in (log, out))
            right = right and new == whole and old.split(b"\n", 1)[1] == rest
    os.remove(again)
    os.remove(out)
    return right


def checkpoints_script(path: str, mib: int, checkpoints: int) -> None:
    """Units on 64 queues that enqueue and dequeue payloads of 256 bytes; checkpoints at even distances."""
    rng = random.Random(7)
    size = unit = 0
    every = (mib << 20) // checkpoints
    due = every
    with open(path, "w") as out:
        for queue in range(64):
            out.write(f"define work{queue} 0 -\n")
        while size < mib << 20:
            unit += 1
            out.write(f"begin {unit}\n")
            for _ in range(4):
                out.write(f"enqueue {unit} {rng.randrange(64)} {rng.randrange(8)} - 0 {'a5' * 256}\n")
            for _ in range(4):
                out.write(f"dequeue {unit} {rng.randrange(64)} - 0\n")
            out.write(f"commit {unit}\n")
            size += 2 * 45 + 4 * (59 + 256) + 4 * 58
            if size >= due:
                out.write("checkpoint\n")
                due += every
