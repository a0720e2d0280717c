"""By hand. Times a served log beside a table of SQLite, and beside the bytes alone; and does a long session."""
from __future__ import annotations
import os, shutil, statistics, subprocess, sys, time

from frames import bodies_of, commit
from restarts import parsed, parser
from trying import TOP

# Each way, and what it is.
WAYS = {"raw": "append and fdatasync of the same bytes, a unit each", "sqlite-full": "SQLite, WAL, FULL: a commit each",
        "serve-1": "serve, one client", "loop-8": "serve, eight clients in a closed loop", "serve-100": "serve, 100 units in a write",
        "sqlite-off": "SQLite, WAL, OFF: a commit each", "sqlite-off-8": "SQLite, WAL, OFF: eight elements through in a transaction",
        "later-1": "serve without sync, one client", "later-8": "serve without sync, eight units in a write",
        "one-core sqlite-off": "SQLite, WAL, OFF: a commit each, on one processor",
        "one-core later-1": "serve without sync, one client: both on one processor",
        "one-core later-8": "serve without sync, eight units in a write: both on one processor"}
# What is asked and what answers stay on one processor then: neither has to wake another one.
ONE_CORE = "one-core "
# The first byte of a COMMIT.
COMMIT = commit(0)[0]
IN_PROCESS = "a manager in the process, a unit a sync"
# These need so many times as many units for one figure.
QUICK = ("sqlite-off", "sqlite-off-8", "later-1", "later-8", "serve-100")


def built(folder: str) -> str:
    """The program that does the units, in C: what it costs itself should not count."""
    made, source = os.path.join(folder, "serving"), os.path.join(TOP, "bench", "serving.c")
    done = subprocess.run(["cc", "-O2", source, "-lsqlite3", "-o", made], capture_output=True, text=True)
    if done.returncode:
        sys.exit(f"needs a C compiler, and SQLite's library with its header: {done.stderr}")
    return made


def free_path(folder: str) -> str:
    """A path at which nothing stands, in a folder of its own."""
    room = os.path.join(folder, "served")
    shutil.rmtree(room, ignore_errors=True)
    os.makedirs(room)
    return os.path.join(room, "log")


def how_of(way: str) -> str:
    """What the program in C calls it."""
    return way.removeprefix(ONE_CORE)


def stay_on_one() -> None:
    """Keeps a process, and those that it starts, on one processor."""
    os.sched_setaffinity(0, {max(os.sched_getaffinity(0))})


def timed(made: str, way: str, count: int, path: str, program: str) -> tuple[float, float]:
    """Seconds of a unit, and its bytes."""
    words = [made, how_of(way), str(count), path, program, "serve", "--create", path]
    pinned = stay_on_one if way.startswith(ONE_CORE) else None
    took, size = subprocess.run(words, check=True, capture_output=True, text=True, preexec_fn=pinned).stdout.split()
    return float(took) / (2 * count), int(size) / (2 * count)


def timed_in_process(drive: str, count: int, path: str) -> tuple[float, float]:
    """The same of a manager that `rqdrive` has."""
    done = subprocess.run([drive], input=f"file {count} {path}\n", check=True, capture_output=True, text=True).stdout.split()
    return int(done[2]) / 1000 / (2 * count), int(done[0]) / (2 * count)


def bytes_by_unit(path: str) -> list[int]:
    """How many bytes of a log each unit has."""
    with open(path, "rb") as file:
        bodies = bodies_of(file.read())
    sizes = [0]
    for body in bodies[1:]:
        sizes[-1] += 4 + len(body) + 32
        if body[0] == COMMIT:
            sizes.append(0)
    return sizes[:-1]


def bytes_of(way: str, its: list[tuple[float, float]]) -> str:
    """How many bytes of the log a unit has; what SQLite writes goes through another file."""
    return "" if how_of(way).startswith("sqlite") else f"{its[0][1]:.0f}"


def serve() -> None:
    """Times a served log beside a table of SQLite, and beside the bytes alone.

    usage: python3 bench serve RQLOG [--drive RQDRIVE] [--units N] [--runs N] [--folder FOLDER]
    An element of 100 bytes is put in by one unit and taken out by another. The ways take turns; each figure is the median of the runs. FOLDER
    is to be on the disk that is asked. With --drive a manager in a process of its own takes part. Behind the table stand the bytes of a unit
    of each kind.
    """
    words = parser()
    words.add_argument("--drive")
    words.add_argument("--units", type=int, default=4_000)
    words.add_argument("--runs", type=int, default=5)
    options = parsed(words)
    made, program = built(options.folder), os.path.abspath(options.program)
    ways = {**WAYS, "manager": IN_PROCESS} if options.drive else WAYS
    found: dict[str, list[tuple[float, float]]] = {it: [] for it in ways}
    for _ in range(options.runs):
        for way in ways:
            count, path = options.units // 2 * (10 if how_of(way) in QUICK else 1), free_path(options.folder)
            found[way].append(timed_in_process(options.drive, count, path) if way == "manager" else timed(made, way, count, path, program))
    medians = {way: statistics.median(took for took, _ in its) for way, its in found.items()}
    print("| | microseconds a unit | units a second | beside raw | beside SQLite FULL | bytes a unit |\n|---|---|---|---|---|---|")
    for way, what in ways.items():
        took = medians[way]
        print(f"| {what} | {took * 1e6:.1f} | {1 / took:.0f} | {took / medians['raw']:.2f} | {took / medians['sqlite-full']:.2f} | {bytes_of(way, found[way])} |")
    path = free_path(options.folder)
    timed(made, "serve-1", 100, path, program)
    sizes = bytes_by_unit(path)
    print(f"\nbytes of a unit that puts one in: at most {max(sizes[::2])}; that takes one out: at most {max(sizes[1::2])}")


# --- a long session --------------------------------------------------------------------------------------------------

# So often the memory of the program is looked at.
EACH = 0.25


def memory_of(parent: int) -> int | None:
    """How many KiB of memory the child of a process has; none if it has none by now."""
    try:
        with open(f"/proc/{parent}/task/{parent}/children", encoding="ascii") as file:
            child = file.read().split()[0]
        with open(f"/proc/{child}/statm", encoding="ascii") as file:
            return int(file.read().split()[1]) * os.sysconf("SC_PAGE_SIZE") // 1024
    except (OSError, IndexError):
        return None


def session() -> None:
    """Does many units through one served log, which carries itself on, and tells the memory of `serve` meanwhile.

    usage: python3 bench session RQLOG [--units N] [--carry-at BYTES] [--folder FOLDER]
    An element of 100 bytes is put in by one unit and taken out by another, 100 units in a write. The table has a line for each tenth of the
    session: the most memory that `serve` had in it.
    """
    words = parser()
    words.add_argument("--units", type=int, default=10_000_000)
    words.add_argument("--carry-at", type=int, default=256 << 20)
    options = parsed(words)
    made, path = built(options.folder), free_path(options.folder)
    begun = time.perf_counter()
    command = [made, "serve-100", str(options.units // 2), path, options.program, "serve", "--create", "--carry-at", str(options.carry_at), path]
    running = subprocess.Popen(command, stdout=subprocess.PIPE, text=True)
    seen: list[int] = []
    while running.poll() is None:
        if (now := memory_of(running.pid)) is not None:
            seen.append(now)
        time.sleep(EACH)
    took = time.perf_counter() - begun
    if running.returncode:
        sys.exit(f"the session ended with {running.returncode}")
    files = sorted(os.listdir(os.path.dirname(path)))
    size = sum(os.path.getsize(os.path.join(os.path.dirname(path), it)) for it in files)
    print(f"{options.units} units in {took:.0f} s, {options.units / took:.0f} a second; {len(files)} files, {size / 1e9:.2f} GB in all\n")
    print("| tenth of the session | memory, KiB |\n|---|---|")
    for tenth in range(10):
        part = seen[len(seen) * tenth // 10:len(seen) * (tenth + 1) // 10]
        print(f"| {tenth + 1} | {max(part, default=0)} |")
