"""Quick; by hand with --all, in some minutes: every beginning of every log, and not some of each. Tries rqlog recover from outside: what a crash
can leave of a log, and what no crash leaves; and what the commands that write behind a front refuse.

What must come of a log is made here, frame by frame, as docs/FORMAT.md has it.
"""
from __future__ import annotations
import argparse, itertools, json, os, random, signal
from collections.abc import Callable
from concurrent.futures import ThreadPoolExecutor
from typing import NamedTuple

from frames import (HEADER, abort, begin, changed, chained, checkpoint, commit, define, dequeue, enqueue, frames_from, header_of, kill,
                    register, right_at, spelled)
from ordering import noted, unsynced
from trying import MORE, START, appended, check, content, has_shim, plain, put, rqlog, run_parts, says

LOGS = 40
# Of each log so many beginnings are tried, if not all are.
SAMPLE = 3
TORN = 1_048_576
CHECKPOINT = 9
USE = ": use rqlook check, rqlook mend and rqlook salvage; --drop leaves it out"


def why_at(log: bytes, end: int) -> str:
    """Why a front ends here whose next frame is not right."""
    left = len(log) - end
    size = int.from_bytes(log[end:end + 4], "big")
    if left == 0:
        return "whole"
    if left >= 4 and not 1 <= size <= 2**28:
        return "length"
    return "cut" if left < 36 + size else "chain"


def open_in(bodies: list[bytes], units: list[int]) -> list[int]:
    """The units that are open behind records, rising; these were before."""
    units = list(units)
    for body in bodies:
        if body[0] == 4:
            units.append(int.from_bytes(body[1:], "big"))
        elif body[0] in (7, 8):
            units.remove(int.from_bytes(body[1:], "big"))
    return sorted(units)


class Whole(NamedTuple):
    """What must become of a log: what stays of it, what is cut, the units that are aborted, and why the front ends."""
    front: bytes
    cut: bytes
    units: list[int]
    why: str

    def log(self) -> bytes:
        return chained(self.front, map(abort, self.units))

    def is_torn(self) -> bool:
        """Whether a crash can leave what is cut: no frame in it is right, and it is not too long."""
        whole, used = self.front + self.cut, len(self.front)
        if self.why in ("length", "chain") and len(self.cut) > TORN:
            return False
        return not any(right_at(whole, at) for at in range(used, len(whole)))


def whole_of(log: bytes, at: int = HEADER, units: list[int] | None = None) -> Whole:
    """Of a log whose right frames are all of lawful records."""
    frames = list(frames_from(log, at))
    end = frames[-1].end if frames else at
    return Whole(log[:end], log[end:], open_in([it.body for it in frames], units or []), why_at(log, end))


def drawn_bodies(drawn: random.Random) -> list[bytes]:
    """Records of a small log."""
    bodies, units, greatest = [define(b"jobs"), register(0, b"ann")], [], 0
    for _ in range(drawn.randint(4, 14)):
        kind = drawn.choice("bbeeeedca") if units else "b"
        if kind == "b":
            greatest += drawn.randint(1, 3)
            units.append(greatest)
            bodies.append(begin(greatest))
        elif kind == "e":
            bodies.append(enqueue(drawn.choice(units), 0, payload=drawn.randbytes(drawn.choice([0, 1, 3, 40, 300]))))
        elif kind == "d":
            bodies.append(dequeue(drawn.choice(units), 0, b"ann", drawn.randint(0, 9)))
        else:
            unit = units.pop(drawn.randrange(len(units)))
            bodies.append(commit(unit) if kind == "c" else abort(unit))
    return bodies


def torn(log: bytes, end: int, drawn: random.Random) -> dict[str, bytes]:
    """What may be left of a log of which so many bytes were written: these; zeros behind them, up to a page or more; garbage; a hole
    where half a page was not written, and what stood behind it."""
    page = bytes(drawn.choice([1, 3, 4, 17, 36, 100, 4096 - end % 4096, 8192]))
    return {"cut": log[:end], "zeros": log[:end] + page, "garbage": log[:end] + drawn.randbytes(drawn.randint(1, 600)),
            "half a page": log[:end] + bytes(min(drawn.choice([64, 256, 512]), len(log) - end)) + log[end + 512:end + 2048]}


def kept_as(log: str, made: Whole) -> str:
    return f"{log}.cut-{len(made.front)}"


def told_of(log: str, made: Whole) -> bytes:
    """What is printed of it."""
    cut = f"cut {len(made.cut)} bytes at {len(made.front)}, kept in {kept_as(log, made)}\n" if made.cut else ""
    aborted = f"aborted {len(made.units)} units\n" if made.units else ""
    return f"{cut}{aborted}whole, {len(made.log())} bytes\n".encode()


def is_recovered(log: str, bytes_: bytes, at: int = HEADER, units: list[int] | None = None) -> bool:
    """Whether that is made of the log which must be, and nothing of one that no crash left."""
    made = whole_of(bytes_, at, units)
    put(log, bytes_)
    kept = kept_as(log, made)
    ended = rqlog("recover", log)
    left, cut = content(log), content(kept)
    if cut is not None:
        os.remove(kept)
    if not made.is_torn():
        return ended[0] == 1 and ended[2].startswith(f"rqlog: {log}: its front ends by ".encode()) and (left, cut) == (bytes_, None)
    return ended == (0, told_of(log, made), b"") and left == made.log() and cut == (made.cut or None)


def wrong_of(number: int, is_all: bool) -> tuple[int, list[str]]:
    """How many beginnings of a log were tried, and of which that was not made which must be."""
    drawn = random.Random(number)
    bytes_ = chained(header_of(1 + number % 2), drawn_bodies(drawn))
    log = f"{number}.log"
    every = range(HEADER, len(bytes_) + 1)
    ends = every if is_all else sorted({HEADER, len(bytes_), *drawn.sample(every, min(SAMPLE, len(every)))})
    tried = [(f"{kind} at {end}", it) for end in ends for kind, it in torn(bytes_, end, drawn).items()]
    return len(tried), [kind for kind, it in tried if not is_recovered(log, it)]


def beginnings(is_all: bool) -> None:
    """Each beginning of a log, and each with what a crash may leave behind it."""
    with ThreadPoolExecutor(len(os.sched_getaffinity(0))) as pool:
        for number, (tried, wrong) in enumerate(pool.map(lambda it: wrong_of(it, is_all), range(LOGS))):
            check(f"log {number}: {tried} ends", wrong, [])


def carried_beginnings() -> None:
    """The same of a log that was carried on: its front begins with the checkpoint, whose open units are aborted as well."""
    log = plain("old", START + MORE.removesuffix(b"commit 2\n"))
    rqlog("carry", log, "new.carried")
    start = content("new.carried")
    at = next(it for it in range(HEADER, len(start)) if (frame := right_at(start, it)) and frame.body[0] == CHECKPOINT)
    rqlog("append", "new.carried", script=b"begin 7\nenqueue 7 0 5 - 0 61\ncommit 2\n")
    bytes_, drawn = content("new.carried"), random.Random(1)
    tried = [(end, kind, it) for end in range(len(start), len(bytes_) + 1, 7) for kind, it in torn(bytes_, end, drawn).items()]
    check("carried", [(end, kind) for end, kind, it in tried if not is_recovered("new.carried", it, at, [2])], [])


def goes_on() -> None:
    """A log that was recovered takes records; one that is whole with no open unit is not written; what JSON tells."""
    log = plain("on", START + MORE.removesuffix(b"commit 2\n"))
    made = whole_of(content(log) + bytes(40))
    put(log, content(log) + bytes(40))
    told = rqlog("recover", log, "--json")
    want = {"offset": len(made.front), "cut": 40, "aborted": 1, "bytes": len(made.log())}
    check("recover --json", (told[0], json.loads(told[1]), told[2], content(kept_as(log, made))), (0, want, b"", bytes(40)))
    check("append goes on", rqlog("append", log, script=b"begin 3\n"), appended(1, len(made.log()) + 45))
    log = plain("whole")
    before, looked = content(log), os.stat(log)
    check("whole", (rqlog("recover", log), content(log)), ((0, b"whole, %d bytes\n" % len(before), b""), before))
    check("whole is not written", os.stat(log).st_mtime_ns, looked.st_mtime_ns)


def keeps() -> None:
    """What is cut off never takes another file's place. The same bytes there are those of a run that ended before."""
    log = plain("kept", START)
    bytes_ = content(log) + b"\0\0\0\x09\x04"
    made = whole_of(bytes_)
    kept = kept_as(log, made)
    for other in (b"", made.cut[:-1], made.cut + b"\0", bytes(len(made.cut))):
        put(kept, other)
        put(log, bytes_)
        want = says(f"{kept}: other bytes stand there: move it away", 3)
        check(f"kept: {other!r}", (rqlog("recover", log), content(log), content(kept)), (want, bytes_, other))
    put(kept, made.cut)
    check("kept already", (rqlog("recover", log), content(log)), ((0, told_of(log, made), b""), made.log()))
    os.remove(kept)
    os.mkdir(kept)
    put(log, bytes_)
    ended = rqlog("recover", log)
    check("kept: a folder", (ended[0], ended[2].startswith(f"rqlog: {kept}: ".encode()), content(log)), (3, True, bytes_))
    os.rmdir(kept)


def ends_between() -> None:
    """Recovery ends before any of its calls, and is begun again: then the log is what it must be, and what was cut is kept."""
    if not has_shim("to end a recovery between"):
        return
    bodies = [define(b"jobs"), begin(1), enqueue(1, 0), begin(2), begin(5)]
    bytes_ = chained(header_of(1), bodies) + (300).to_bytes(4, "big") + bytes(200)
    made, wrong = whole_of(bytes_), []
    kept = kept_as("between.log", made)
    for number in itertools.count(1):
        for name in os.listdir("."):
            if name.startswith("between.log"):
                os.remove(name)
        put("between.log", bytes_)
        ended, calls = noted("recover LOG", "between.log", at=number, does="dies")
        if ended[0] != -signal.SIGKILL:
            break
        again = rqlog("recover", "between.log")
        left = whole_of(content("between.log"))
        if again[0] != 0 or left.cut or left.units or not left.front.startswith(made.front) or content(kept) != made.cut:
            wrong.append(number)
    check(f"ends before each of {number - 1} calls", (wrong, ended[0], unsynced(calls)), ([], 0, []))


def kept_before() -> None:
    """What is cut off may stand there already, as a run left it that ended before. It is synced, and so is its name, before the log is
    cut."""
    if not has_shim("to end a recovery between"):
        return
    log = plain("again", START)
    bytes_ = content(log) + b"\0\0\0\x09\x04"
    kept = put(kept_as(put(log, bytes_), whole_of(bytes_)), bytes_[-5:])
    ended, calls = noted("recover LOG", log)
    numbers = {name: os.stat(name).st_ino for name in (log, kept, ".")}
    cut = next((at for at, it in enumerate(calls) if it.letter in "tw" and it.file == numbers[log]), 0)
    synced = {(it.letter, it.file) for it in calls[:cut]}
    check("kept before", (ended[0], synced >= {("s", numbers[kept]), ("d", numbers["."])}), (0, True))


def damages() -> dict[str, tuple[bytes, str, str]]:
    """Logs that no crash left: the bytes, why the front ends, and what is told of it."""
    bodies = [define(b"jobs"), begin(1), enqueue(1, 0), commit(1), begin(2), enqueue(2, 0), commit(2)]
    good = chained(header_of(1), bodies)
    frames = list(frames_from(good))
    third, fifth = frames[2], frames[4]

    def other(at: int, to: bytes) -> bytes:
        return changed(good, at, to)

    def right(place: int) -> str:
        return f"a right frame stands behind it at {place}"
    return {
        "length": (other(third.at, b"\xff"), "length", right(third.end)),
        "length in range": (other(third.at, b"\x00\x0f"), "cut", right(third.end)),
        "zero length": (other(third.at, bytes(4)), "length", right(third.end)),
        "body": (other(third.at + 20, b"\xee"), "chain", right(third.end)),
        "digest": (other(third.end - 1, bytes([good[third.end - 1] ^ 1])), "chain", right(frames[3].end)),
        "alone": (other(third.at, b"\xff")[:frames[3].end] + fifth.body[:7], "length", right(third.end)),
        "form": (chained(header_of(1), [*bodies[:2], kill(0, 1)]), "form", "a right frame stands there"),
        "law": (chained(header_of(1), [*bodies[:2], commit(9), commit(1)]), "law", "a right frame stands there"),
        "long": (good + bytes(TORN + 1), "length", "more stands behind it than a crash leaves"),
    }


def is_refused(line: str, bytes_: bytes, want: bytes) -> bool:
    """Whether a line leaves the log as it was, makes no file, and says so."""
    put("damaged.log", bytes_)
    before = set(os.listdir("."))
    ended = rqlog(*line.split(), script=b"begin 77\n")
    return ended == (1, b"", want) and content("damaged.log") == bytes_ and set(os.listdir(".")) == before


def refuses() -> None:
    """Each kind of damage, and each command that writes behind a front: the log stays as it was."""
    for name, (bytes_, why, told) in damages().items():
        made = whole_before(bytes_, why)
        want = f"rqlog: damaged.log: its front ends by {why} at {len(made.front)} of {len(bytes_)} bytes, and {told}{USE}\n".encode()
        for line in ("recover LOG", "append LOG", "append LOG --each", "checkpoint LOG", "checkpoint LOG --close", "carry LOG new.log",
                     "close LOG LOG"):
            line = line.replace("LOG", "damaged.log")
            check(f"{line}, {name}", is_refused(line, bytes_, want), True)


def whole_before(bytes_: bytes, why: str) -> Whole:
    """What stays of a damaged log. Its third record is not lawful, or none, if the front ends by `law` or `form`."""
    if why not in ("form", "law"):
        return whole_of(bytes_)
    frames = list(frames_from(bytes_))[:2]
    end = frames[-1].end
    return Whole(bytes_[:end], bytes_[end:], open_in([it.body for it in frames], []), why)


def left_out(made: Whole, frames: int) -> bytes:
    return f"rqlog: left out {len(made.cut)} bytes behind the front, with {frames} right frames\n".encode()


def drops() -> None:
    """With --drop each of them leaves out what stands behind the front, and says how much; `close` into another file does so always."""
    for name, (bytes_, why, _) in damages().items():
        made = whole_before(bytes_, why)
        count = {"length": 4, "length in range": 4, "zero length": 4, "body": 4, "digest": 3, "alone": 1, "form": 1, "law": 2}.get(name, 0)
        lines: dict[str, Callable[[bytes], bool]] = {
            "recover LOG --drop": lambda left: left == made.log(),
            "close LOG LOG --drop": lambda left: left == made.log(),
            "append LOG --drop": lambda left: left[:len(made.front)] == made.front and len(left) == len(made.front) + 45,
            "checkpoint LOG --drop": lambda left: left[:len(made.front)] == made.front and right_at(left, len(made.front)) is not None,
            "carry LOG new.log --drop": lambda left: left == bytes_,
            "close LOG new.log": lambda left: left == bytes_ and content("new.log") == made.log(),
        }
        for line, is_left in lines.items():
            put("damaged.log", bytes_)
            ended = rqlog(*line.replace("LOG", "damaged.log").split(), script=b"begin 77\n")
            check(f"{line}, {name}", (ended[0], ended[2], is_left(content("damaged.log"))), (0, left_out(made, count), True))
            kept = content(kept_as("damaged.log", made))
            if line.startswith("recover"):
                check(f"{line}, {name}: kept", kept == made.cut, True)
                os.remove(kept_as("damaged.log", made))
            if os.path.exists("new.log"):
                os.remove("new.log")


def torn_ends() -> None:
    """What a crash left besides the beginning of a frame is for `recover`: the others refuse it, and name that."""
    good = content(plain("torn"))
    for name, rest in {"zeros": bytes(9), "garbage": b"\xff" * 50, "most": bytes(TORN), "a torn frame": (1).to_bytes(4, "big") + bytes(33)}.items():
        made = whole_of(good + rest)
        want = (f"rqlog: damaged.log: its front ends by {made.why} at {len(good)} of {len(good + rest)} bytes, and no right frame stands behind it: "
                "use rqlog recover\n").encode()
        for line in ("append damaged.log", "checkpoint damaged.log", "carry damaged.log new.log", "close damaged.log damaged.log"):
            check(f"{line}, {name}", is_refused(line, good + rest, want), True)
        check(f"recover, {name}", is_recovered("torn.log", good + rest), True)


def cut_checkpoint() -> None:
    """The beginning of a long checkpoint is a frame cut short, whatever its length."""
    good = content(plain("long"))
    elements = [(number, random.Random(number).randbytes(60_000)) for number in range(30)]
    body = checkpoint(spelled((5, 1, 1, 0), [b"jobs"], elements))
    check("a checkpoint cut short", len(body) > TORN and is_recovered("long.log", good + len(body).to_bytes(4, "big") + body[:-1]), True)


def no_logs() -> None:
    """What is no log, or not there."""
    for what, bytes_ in {"empty": b"", "script": START, "header": header_of(1)[:39]}.items():
        put("none.log", bytes_)
        check(f"recover, {what}", (rqlog("recover", "none.log"), content("none.log")), (says("none.log: not a log: rq make makes one"), bytes_))
    ended = rqlog("recover", "missing.log")
    check("recover, missing", (ended[0], ended[1], ended[2].startswith(b"rqlog: missing.log: ")), (3, b"", True))
    check("recover, no words", rqlog("recover")[0], 2)


PARTS = [goes_on, keeps, kept_before, ends_between, refuses, drops, torn_ends, cut_checkpoint, no_logs, carried_beginnings]


def takes(line: argparse.ArgumentParser) -> None:
    line.add_argument("--all", action="store_true")
    line.add_argument("parts", nargs="*", metavar="PART")


def main(options: argparse.Namespace) -> None:
    run_parts([it for it in PARTS if not options.parts or it.__name__ in options.parts], True)
    if not options.parts:
        os.chdir(options.folder)
        beginnings(options.all)
