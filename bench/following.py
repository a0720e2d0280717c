"""By hand. Times a standby: how far behind the end of a log its report is, what a piece of records costs it, and how soon it serves."""
from __future__ import annotations
import fcntl, hashlib, os, statistics, struct, subprocess, termios, time
from collections.abc import Iterator

from frames import begin, commit, define, dequeue, enqueue, header_of
from restarts import parsed, parser

MIB = 2**20
# How many operations a unit of the log has, and bytes a payload.
IN_UNIT, PAYLOAD = 100, 1024
# How many records a piece has.
PIECE = 60
IDLE = 0.02


class Chain:
    """The frames of bodies, one behind the other, and how many bytes they have."""

    def __init__(self) -> None:
        self.header = header_of(2)
        self.last, self.len, self.unit = self.header[-32:], len(self.header), 0

    def frames(self, bodies: list[bytes]) -> bytes:
        found = []
        for body in bodies:
            head = struct.pack(">I", len(body)) + body
            self.last = hashlib.sha256(self.last + head).digest()
            found.append(head + self.last)
        whole = b"".join(found)
        self.len += len(whole)
        return whole

    def of_unit(self, operations: list[bytes]) -> bytes:
        """A unit of operations, each of which names it."""
        self.unit += 1
        return self.frames([begin(self.unit), *operations, commit(self.unit)])

    def puts(self, count: int, payload: bytes) -> bytes:
        return self.of_unit([enqueue(self.unit + 1, 0, payload=payload) for _ in range(count)])

    def takes(self, count: int) -> bytes:
        return self.of_unit([dequeue(self.unit + 1, 0) for _ in range(count)])


def through(chain: Chain, mib: int, left: int) -> Iterator[bytes]:
    """The bytes of a log so long, of which so many elements are left."""
    yield chain.header + chain.frames([define(b"jobs")])
    for _ in range(left // IN_UNIT):
        yield chain.puts(IN_UNIT, bytes(PAYLOAD))
    while chain.len < mib * MIB:
        yield chain.puts(IN_UNIT, bytes(PAYLOAD))
        yield chain.takes(IN_UNIT)


class Standby:
    def __init__(self, program: str, *words: str, **options: object) -> None:
        self.process = subprocess.Popen([program, "follow", *words], stdin=subprocess.PIPE, stdout=subprocess.PIPE, bufsize=0, **options)

    def send(self, piece: bytes) -> None:
        while piece:
            piece = piece[os.write(self.process.stdin.fileno(), piece):]

    def spent(self) -> int:
        """Nanoseconds of a processor that it took."""
        with open(f"/proc/{self.process.pid}/schedstat") as stat:
            return int(stat.read().split()[0])

    def rest(self) -> int:
        """Waits until all that was sent is done; the nanoseconds that it took."""
        before = -1
        while self.left() or before != self.spent():
            before = self.spent()
            time.sleep(IDLE)
        return before

    def left(self) -> int:
        return struct.unpack("i", fcntl.ioctl(self.process.stdin.fileno(), termios.FIONREAD, b"\0" * 4))[0]

    def end(self) -> tuple[float, bytes]:
        """Ends the log: the seconds until all is printed, and that."""
        begun = time.perf_counter()
        self.process.stdin.close()
        printed = self.process.stdout.read()
        self.process.wait()
        return time.perf_counter() - begun, printed


def behind(program: str, mib: int, left: int) -> tuple[float, float]:
    """Seconds from the end of a log so long to the end of its report, and those that all of it takes."""
    it, chain, begun = Standby(program), Chain(), time.perf_counter()
    for piece in through(chain, mib, left):
        it.send(piece)
    while it.left():
        time.sleep(0.0001)
    took, printed = it.end()
    assert printed.count(b"\ne ") == left and printed.startswith(b"front "), printed[:200]
    return took, time.perf_counter() - begun


def piece_cost(program: str, elements: int, runs: int) -> list[float]:
    """Milliseconds of a processor that pieces of records cost a standby with so many elements."""
    it, chain = Standby(program), Chain()
    it.send(chain.header + chain.frames([define(b"jobs")]))
    for _ in range(elements // 1000):
        it.send(chain.puts(1000, b"pay 7"))
    last, found = it.rest(), []
    for run in range(runs):
        it.send((chain.puts if run % 2 else lambda count, _: chain.takes(count))(PIECE - 2, b"pay 7"))
        now = it.rest()
        found.append((now - last) / 1e6)
        last = now
    it.process.kill()
    it.process.wait()
    return found


def taken_over(program: str, mib: int, folder: str) -> float:
    """Seconds from the end of a log so long to the greeting of the manager of its copy."""
    pipe, copy, chain = os.path.join(folder, "pipe"), os.path.join(folder, "copy"), Chain()
    for path in (pipe, copy):
        if os.path.exists(path):
            os.remove(path)
    os.mkfifo(pipe)
    it = subprocess.Popen([program, "follow", copy, "--from", pipe, "--serve"], stdin=subprocess.PIPE, stdout=subprocess.PIPE, bufsize=0)
    with open(pipe, "wb", buffering=0) as log:
        for piece in through(chain, mib, 1000):
            log.write(piece)
        while struct.unpack("i", fcntl.ioctl(log.fileno(), termios.FIONREAD, b"\0" * 4))[0]:
            time.sleep(0.0001)
        time.sleep(0.5)
        begun = time.perf_counter()
    greeting = it.stdout.readline()
    took = time.perf_counter() - begun
    it.stdin.close()
    it.wait()
    assert greeting.startswith(b"ready 1 "), greeting
    return took


def follow() -> None:
    """Times a standby: how far its report is behind the end of a log, what a piece of records costs, and how soon it serves.

    usage: python3 bench follow RQLOG [--mib N] [--elements N] [--runs N] [--folder FOLDER]
    A log of N MiB, with payloads of 1 KiB and 1,000 elements left, comes through a pipe. A piece has 60 records, on a machine with so many
    elements; its cost is the time of a processor. Each figure is the median of the runs.
    """
    words = parser()
    words.add_argument("--mib", type=int, default=1024)
    words.add_argument("--elements", type=int, default=1_000_000)
    words.add_argument("--runs", type=int, default=5)
    options = parsed(words)
    program = os.path.abspath(options.program)
    ends = [behind(program, options.mib, 1000) for _ in range(options.runs)]
    print(f"{options.mib} MiB: the report is {1000 * statistics.median(it for it, _ in ends):.1f} ms behind the end "
          f"(all of it took {statistics.median(it for _, it in ends):.1f} s)")
    costs = piece_cost(program, options.elements, 20 * options.runs)
    print(f"{PIECE} records with {options.elements} elements: {statistics.median(costs):.3f} ms, at most {max(costs):.3f}")
    print(f"{options.mib} MiB: it serves {1000 * statistics.median(taken_over(program, options.mib, options.folder) for _ in range(options.runs)):.1f} ms "
          "behind the end")
