"""By hand. Times what a restart is made of: its parts apart, what several workers do, its threads, its layers and the redo of queues, as `perf
record` sees them."""
from __future__ import annotations
import collections, os, statistics, subprocess, sys, tempfile

from frames import HEADER, bodies_of, write_log
from logs import built_peer, log_of
from restarts import parsed, parser, seconds


# --- shares ----------------------------------------------------------------------------------------------------------

def without_lengths(log: str) -> str:
    """The log with a first frame that has no length."""
    path = log + ".read"
    if not os.path.exists(path):
        with open(log, "rb") as source:
            data = bytearray(source.read())
        data[HEADER:HEADER + 4] = bytes(4)
        with open(path, "wb") as out:
            out.write(data)
    return path


def without_records(log: str) -> str:
    """The log with a first body that is no record, and right digests all the same."""
    path = log + ".digests"
    if not os.path.exists(path):
        with open(log, "rb") as source:
            data = source.read()
        first, *others = bodies_of(data)
        write_log(path, data[:HEADER], [b"\0" + first[1:], *others])
    return path


def shares() -> None:
    """Times the parts of a restart apart from one another: reading the file, the digests of the chain, and the rest.

    usage: python3 bench shares RQ [--mib N] [--runs N] [--workers 1,2,4] [--grain N] [--folder DIR] [SHAPE ...]
    Beside each log two others are made of it. In the one the first frame has no length, so the program only reads the file.
    In the other the first body is no record and the frames are chained anew, so it reads the file and checks every digest,
    and then has nothing to redo. The differences of the three times are the digests' and the rest's: decoding, analysis,
    redo of the queues, the report. Each time is the best of the runs, taken in turn; the ratios are to one worker.
    """
    words = parser()
    words.add_argument("shapes", nargs="*", default=["small", "kib", "big", "even"])
    words.add_argument("--mib", type=int, default=128)
    words.add_argument("--runs", type=int, default=5)
    words.add_argument("--workers", default="1,2,4")
    words.add_argument("--grain", default="10")
    options = parsed(words)
    peer = built_peer(options.folder)
    workers = options.workers.split(",")
    print(f"{options.mib} MiB, best of {options.runs}, grain {options.grain}; seconds (times faster than with {workers[0]})\n")
    print("| log | workers | read | digests | rest | whole |\n|---|---|---|---|---|---|")
    for shape in options.shapes:
        log = log_of(peer, options.folder, shape, options.mib)
        files = [without_lengths(log), without_records(log), log]
        best = {count: [float("inf")] * len(files) for count in workers}
        for _ in range(options.runs):
            for count in workers:
                for place, path in enumerate(files):
                    took, _ = seconds([options.program, "restart", path, count, options.grain])
                    best[count][place] = min(best[count][place], took)
        parts = {count: (read, chained - read, whole - chained, whole) for count, (read, chained, whole) in best.items()}
        for count in workers:
            cells = [f"{now:.3f} ({first / now:.2f})" for now, first in zip(parts[count], parts[workers[0]])]
            print(f"| {shape} | {count} | " + " | ".join(cells) + " |", flush=True)


# --- speedup ---------------------------------------------------------------------------------------------------------

FREE = 0.03
TICKS = os.sysconf("SC_CLK_TCK")


def stolen() -> float:
    """Seconds that the host has kept from this machine's cores since it began."""
    with open("/proc/stat", encoding="ascii") as stat:
        return int(stat.readline().split()[8]) / TICKS


def one_run(program: str, log: str, workers: int, grain: str) -> tuple[float, float]:
    """Seconds, and the part of the workers' cores that the host kept."""
    before = stolen()
    took = seconds([program, "restart", log, str(workers), grain])[0]
    return took, (stolen() - before) / (workers * took)


def line(shape: str, which: str, rounds: list[tuple[float, float, float]]) -> str:
    if not rounds:
        return f"| {shape} | {which} | 0 | | | | | |"
    ones, fours = [one for one, _, _ in rounds], [four for _, four, _ in rounds]
    best, ratios = min(ones) / min(fours), [one / four for one, four, _ in rounds]
    kept = statistics.median(kept for _, _, kept in rounds)
    return (f"| {shape} | {which} | {len(rounds)} | {100 * kept:.0f} % | {min(ones):.3f} ({statistics.median(ones):.3f}) "
            f"| {min(fours):.3f} ({statistics.median(fours):.3f}) | {best:.2f} "
            f"| {statistics.median(ratios):.2f} ({min(ratios):.2f} to {max(ratios):.2f}) |")


def speedup() -> None:
    """How much faster a restart is on four workers than on one, and how much of the cores the host kept meanwhile.

    usage: python3 bench speedup RQ [--mib N] [--rounds N] [--grain N] [SHAPE ..]
    In each round: one restart with one worker, one with four. For each of them `/proc/stat` tells for how long the host ran
    something else in place of a core that wanted to run (stolen time). A round counts as one on free cores if that was at
    most three of a hundred parts of what the restart could use, one core or four, in both.
    """
    words = parser()
    words.add_argument("--mib", type=int, default=128)
    words.add_argument("--rounds", type=int, default=15)
    words.add_argument("--grain", default="100")
    words.add_argument("shapes", nargs="*", default=["kib", "big"])
    options = parsed(words)
    peer = built_peer(options.folder)
    print("| log | rounds | count | stolen | 1 worker: best (median) | 4 workers | best / best | in a round: median (least to most) |\n|---|---|---|---|---|---|---|---|")
    for shape in options.shapes:
        log = log_of(peer, options.folder, shape, options.mib)
        rounds = []
        for _ in range(options.rounds):
            one, from_one = one_run(options.program, log, 1, options.grain)
            four, from_four = one_run(options.program, log, 4, options.grain)
            rounds.append((one, four, max(from_one, from_four)))
        print(line(shape, "on free cores", [each for each in rounds if each[2] <= FREE]))
        print(line(shape, "all", rounds), flush=True)


# --- threads ---------------------------------------------------------------------------------------------------------

def stretches(words: list[str]) -> list[float]:
    """The wall seconds of each stretch with more than one thread."""
    with tempfile.TemporaryDirectory() as folder:
        told = os.path.join(folder, "calls")
        subprocess.run(["strace", "--seccomp-bpf", "-f", "-ttt", "-e", "trace=clone3,exit", "-o", told, *words],
                       stdout=subprocess.DEVNULL, check=True)
        with open(told) as lines:
            events = sorted((float(line.split()[1]), line.split()[2]) for line in lines)
    found, alive, begun = [], 0, 0.0
    for at, call in events:
        if call.startswith("clone3("):
            begun = at if alive == 0 else begun
            alive += 1
        elif call.startswith("exit("):
            alive -= 1
            if alive == 0:
                found.append(at - begun)
    return found


def threads() -> None:
    """When the threads of a restart run: the wall seconds of each stretch in which there are several.

    usage: python3 bench threads RQ LOG WORKERS [RUNS]
    Told by `strace`, which sees threads start and end. The calling thread works as well, and what it still does when the
    others have ended is not in a stretch (`bench redo` sees it). The stretches are, in their order: the digests, decoding (if there
    are bodies enough), and the redo of the queues, one stretch. The best of the runs, stretch by stretch. With
    one worker no thread is started. RQ is the built program itself, not the root script.
    """
    if len(sys.argv) < 4:
        sys.exit("usage: python3 bench threads RQ LOG WORKERS [RUNS]")
    program, log, workers = sys.argv[1:4]
    runs = [stretches([program, "restart", log, workers, "1000"]) for _ in range(int(sys.argv[4]) if len(sys.argv) > 4 else 3)]
    print(" ".join(f"{min(times):.3f}" for times in zip(*runs)))


# --- layers ----------------------------------------------------------------------------------------------------------

LAYERS = [
    ("sha2::", "digests"), ("rq_lanes::", "digests"), ("rq_front::", "walk along the lengths"), ("rq_record::", "decoding"),
    ("rq_judged::bodies", "decoding"), ("rq_catalog::", "analysis"),
    ("rq_queue::", "redo"), ("rq_standing::", "standing queues"), ("rq_state::reading", "state read"),
    ("rq_state::writing", "state spelled"), ("rq_state::", "state built"), ("rq_exchange::", "replay"),
    ("hex::", "report"), ("rq_report::", "report"), ("rq_writer::", "script"), ("rq_tool::input", "input"),
]
PER_SECOND = 1000


def layer_of(stack: list[str]) -> str:
    for symbol in stack:
        for beginning, layer in LAYERS:
            if symbol.startswith(beginning):
                return layer
    return "memory and files"


def record(data: str, words: list[str]) -> None:
    subprocess.run(["perf", "record", "-e", "cpu-clock", "-F", str(PER_SECOND), "-g", "-o", data, *words],
                   stdout=subprocess.DEVNULL, stderr=subprocess.DEVNULL, check=False)


def timed_stacks(data: str) -> list[tuple[float, list[str]]]:
    """The second of each sample and its stack, the innermost function first."""
    told = subprocess.run(["perf", "script", "-i", data, "-F", "time,ip,sym"], capture_output=True, text=True, check=True).stdout
    blocks = [[line.strip() for line in block.splitlines() if line.strip()] for block in told.split("\n\n")]
    return [(float(block[0].rstrip(":")), [line.split(" ", 1)[-1] for line in block[1:]]) for block in blocks if block]


def seconds_by_layer(words: list[str]) -> dict[str, float]:
    """Seconds of processor time of a command by layer, the most first."""
    with tempfile.TemporaryDirectory() as folder:
        data = os.path.join(folder, "perf.data")
        record(data, words)
        counts = collections.Counter(layer_of(stack) for _, stack in timed_stacks(data))
    return {layer: count / PER_SECOND for layer, count in counts.most_common()}


def layers() -> None:
    """Where a command of the program spends its time: seconds of processor time by layer, from samples of `perf record`.

    usage: python3 bench layers RQ COMMAND [WORD ...]      for example: bench layers RQ restart LOG 1 1000
    A sample counts for the innermost layer in its stack. Samples in the C library and the kernel whose stack cannot be read
    are listed as memory and files: they are copies of payloads, page faults and reads. RQ is the built program itself, not
    the root script.
    """
    if len(sys.argv) < 3:
        sys.exit("usage: python3 bench layers RQ COMMAND [WORD ..]")
    found = seconds_by_layer(sys.argv[1:])
    total = sum(found.values())
    print("| layer | seconds | share |\n|---|---|---|")
    for layer, took in found.items():
        print(f"| {layer} | {took:.2f} | {100 * took / total:.0f} % |")


# --- redo ------------------------------------------------------------------------------------------------------------

RUNS = [("skew", 1), ("skew", 4), ("lone", 4), ("own", 4)]
TREE_RUNS = [("tree", 1), ("tree", 4), ("path", 4)]


def is_redo(stack: list[str]) -> bool:
    return layer_of(stack) == "redo" or any("following::" in symbol for symbol in stack)


def redo_seconds(words: list[str]) -> float:
    """From the first sample of the redo to the last."""
    with tempfile.TemporaryDirectory() as folder:
        data = os.path.join(folder, "perf.data")
        record(data, words)
        times = [time for time, stack in timed_stacks(data) if is_redo(stack)]
    return max(times) - min(times)


def redo() -> None:
    """How long the redo of the queues takes: the wall seconds from its first sample to its last, whatever threads do it.

    usage: python3 bench redo RQ [--tree] [--mib N] [--rounds N]
    Over `skew` with one worker and with four, and over `lone` and `own` with four, in turn: both have the operations of `skew` on
    its first queue alone, so their redo is that of this queue. In `lone` a record that touches no queue stands in place of each
    other operation, so that those of the queue lie where they lie in `skew`; in `own` nothing does. With --tree over `tree`, where
    each queue has an error queue of its own, with one worker and with four, and over `path`, which is to `tree` what `lone` is to
    `skew`: its redo is that of the first queue and then of its error queue, the longest path. Told by `perf record`. RQ is the
    built program itself, not the root script.
    """
    words = parser()
    words.add_argument("--mib", type=int, default=128)
    words.add_argument("--rounds", type=int, default=5)
    words.add_argument("--tree", action="store_true")
    options = parsed(words)
    peer = built_peer(options.folder)
    runs = TREE_RUNS if options.tree else RUNS
    found: dict[tuple[str, int], list[float]] = {run: [] for run in runs}
    for _ in range(options.rounds):
        for shape, workers in runs:
            log = log_of(peer, options.folder, shape, options.mib)
            found[shape, workers].append(redo_seconds([options.program, "restart", log, str(workers), "100"]))
    print("| log | workers | best | median |\n|---|---|---|---|")
    for (shape, workers), took in found.items():
        print(f"| {shape} | {workers} | {min(took):.3f} | {statistics.median(took):.3f} |")
