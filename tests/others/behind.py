"""Quick, of 20 logs; by hand of 1,000, and with --hostile. Damages drawn logs, and holds what rqlook shows behind their fronts against the
frames of a plain search, which is written by docs/LOOKING.md and docs/FORMAT.md alone, asks each place in turn and knows no budget.

Each log has one to three damaged places: a changed byte in a body, in a digest or in a length; bytes that are removed; bytes that are put
in. Some frames spell no record, or one of the other version alone. Compared are the lines of `check`, the records of `dump --behind
--json`, those of them that are asked for, and the lines of `salvage`. One more log has 100,010 records and one byte changed at a tenth:
90,259 right frames. With --hostile logs of so many MiB and of twice as many are looked at that want to
make the search slow: a table of seconds, with those of `rq restart` of the same file and of a log of that length that is whole.
"""
from __future__ import annotations
import argparse, json, os, random, re, struct, subprocess, time
from collections.abc import Callable
from concurrent.futures import ThreadPoolExecutor
from itertools import zip_longest
from typing import NamedTuple

from frames import (HEADER, abort, begin, chained, checkpoint, commit, define, deregister, dequeue, end_of, enqueue, framed, header_of, kill,
                    register, right_at, spans_of)
from looked import KINDS, fields_of
from second import record_of
from trying import RQ, RQLOOK, check, done, put

# What stands for words that are not held here.
ANY = "any"


def script_line(it: dict) -> str:
    """The line of a script that tells a record."""
    by = f"{it.get('registrant', '-')} {it.get('tag', 0)}"
    data = (it.get("payload") or it.get("bytes") or {}).get("hex") or "-"
    words = {
        "define": lambda: f"{it['name']} {it['limit']} {it.get('error', '-')}", "kill": lambda: f"{it['queue']} {it['element']}",
        "register": lambda: f"{it['queue']} {it['registrant']}", "deregister": lambda: f"{it['queue']} {it['registrant']}",
        "enqueue": lambda: f"{it['unit']} {it['queue']} {it['priority']} {by} {data}",
        "dequeue": lambda: f"{it['unit']} {it['queue']} {by}", "checkpoint": lambda: data,
    }.get(it["kind"], lambda: str(it["unit"]))()
    return f"{'checkpoint-hex' if it['kind'] == 'checkpoint' else it['kind']} {words}"


class Log:
    """The bytes of a log, and what stands at a place of them."""

    def __init__(self, log: bytes):
        self.log, self.version = log, log[7]

    def end(self, at: int) -> int | None:
        return end_of(self.log, at)

    def shown(self, at: int, end: int) -> dict:
        """The right frame between two places as a dump shows it as JSON. A queue that is defined has no number there; and why a body
        spells no record is not held here."""
        body, it = self.log[at + 4:end - 32], {"offset": at, "behind": True}
        if record_of(body, self.version) is None:
            return {**it, "reason": ANY}
        fields = fields_of(body, 0)
        return {**it, "kind": KINDS[body[0]], **{name: value for name, value in fields.items() if (body[0], name) != (1, "queue")}}

    def choices(self, from_: int, found: list[tuple[int, int]]) -> list[str]:
        """The lines of a salvage behind the front: each frame, to choose it, and what fits nothing between them."""
        lines, last = [], from_
        for at, end in [*found, (len(self.log), 0)]:
            lines += [f"# {at - last} bytes at {last} fit nothing"] if last < at else []
            lines += [self.choice(at, end)] if end else []
            last = end
        return lines

    def choice(self, at: int, end: int) -> str:
        it = self.shown(at, end)
        if "kind" in it and it.get("registrant", "") + it["kind"] not in ("-enqueue", "-dequeue"):
            return f"#{at} {script_line(it)}"
        return f"# {end - at - 36} bytes of a body at {at} have no line: {ANY}"

    def is_right(self, at: int) -> bool:
        return right_at(self.log, at) is not None

    def is_run(self, at: int, count: int = 3) -> bool:
        """So many right frames of records in a row, or fewer up to the end of the bytes."""
        end = self.end(at)
        if end is None or record_of(self.log[at + 4:end - 32], self.version) is None or not self.is_right(at):
            return False
        return count == 1 or end == len(self.log) or self.is_run(end, count - 1)

    def led(self, at: int) -> int | None:
        """The right frame to which the length of a wrong one leads, over at most one wrong one more."""
        second = self.end(at)
        if second is None or self.is_right(second):
            return second
        third = self.end(second)
        return third if third is not None and self.is_right(third) else None

    def next(self, at: int) -> int | None:
        if self.is_right(at):
            return at
        led = self.led(at)
        if led is not None:
            return led
        return next((place for place in range(at + 1, len(self.log)) if self.is_run(place)), None)

    def behind(self, at: int) -> list[tuple[int, int]]:
        """Where the right frames behind a place begin and end."""
        found = []
        place = self.next(at)
        while place is not None:
            end = self.end(place)
            assert end is not None
            found.append((place, end))
            place = self.next(end)
        return found


# Drawn logs.

NAMES = [b"ann", b"bob", b"a-name-of-thirty-letters-or-so", b"-"]


def drawn_body(draw: random.Random) -> bytes:
    """The body of a record of either version, lawful or not, or of none."""
    unit, queue = draw.randrange(2**draw.choice((4, 40))), draw.randrange(5)
    name, tag = draw.choice([(b"", 0), (draw.choice(NAMES), draw.randrange(2**40))])
    payload = draw.randbytes(draw.choice((0, 1, 5, 40, 40, 300, 3000)))
    kinds = [define(draw.choice(NAMES)), register(queue, draw.choice(NAMES)), deregister(queue, draw.choice(NAMES)), begin(unit),
             enqueue(unit, queue, name, tag, payload), enqueue(unit, queue, name, tag, nested(draw)), dequeue(unit, queue, name, tag),
             commit(unit), abort(unit), checkpoint(payload), kill(queue, unit)]
    return draw.choice(kinds + [formless(draw, draw.choice(kinds))])


def formless(draw: random.Random, body: bytes) -> bytes:
    """A body that spells no record, whatever the version: a kind that none has, and a record with a byte too few in its first fields."""
    return draw.choice((b"\0" + body[1:], b"\x0b" + body[1:], body[:4]))


def nested(draw: random.Random) -> bytes:
    """A payload that looks like frames: a log, the end of one, or lengths and kinds."""
    log = chained(header_of(1), [begin(1), commit(1), begin(2), abort(2)])
    return draw.choice((log, log[60:], b"\0\0\0\x09\x04" * 30, b"\0\0\0\x02\x09\x09" + bytes(30)))


def lawful_bodies(draw: random.Random, version: int, count: int) -> list[bytes]:
    """The bodies of a log whose front is long: each is lawful where it stands."""
    bodies = [define(b"jobs"), register(0, b"ann")]
    for unit in range(1, count):
        bodies += [begin(unit), enqueue(unit, 0, *draw.choice(((b"", 0), (b"ann", unit))), draw.randbytes(draw.choice((0, 3, 30, 400, 2000)))),
                   draw.choice((commit, commit, abort))(unit)]
    if version == 2 and count > 3:
        bodies.append(kill(0, 3))
    return bodies


def changed(log: bytes, place: int, draw: random.Random) -> bytes:
    return log[:place] + bytes([log[place] ^ draw.randrange(1, 256)]) + log[place + 1:]


def damaged(log: bytes, draw: random.Random) -> bytes:
    """The log with one place damaged, behind its first frame as a rule."""
    at, end = draw.choice(list(spans_of(log)))
    kind = draw.choice(("body", "digest", "length", "low length", "removed", "put in", "cut"))
    if kind == "body":
        return changed(log, draw.randrange(at + 4, end - 32), draw)
    if kind == "digest":
        return changed(log, draw.randrange(end - 32, end), draw)
    if kind in ("length", "low length"):
        return changed(log, at + (3 if kind == "low length" else draw.randrange(4)), draw)
    if kind == "removed":
        return log[:at + 1] + log[at + 1 + draw.choice((1, 3, end - at, 4 * (end - at))):]
    if kind == "put in":
        return log[:at] + draw.randbytes(draw.choice((1, 4, 32, 100))) + log[at:]
    return log[:draw.randrange(at, end)] if draw.random() < 0.2 else changed(log, draw.randrange(at, end), draw)


def drawn_log(seed: int) -> bytes:
    draw = random.Random(seed)
    version = draw.choice((1, 2))
    count = draw.choice((1, 3, 8, 20, 40))
    bodies = lawful_bodies(draw, version, count) if draw.random() < 0.5 else [drawn_body(draw) for _ in range(3 * count)]
    whole = chained(header_of(version), bodies)
    log = whole
    for _ in range(draw.randint(1, 3)):
        # places are drawn in the whole log, as long as no bytes were removed or put in
        log = damaged(log, draw) if frames_are_whole(log) else changed(log, draw.randrange(HEADER, len(log)), draw)
    return log


def frames_are_whole(log: bytes) -> bool:
    ends = [end for _, end in spans_of(log)]
    return bool(ends) and ends[-1] == len(log)


def of_many_records() -> bytes:
    """100,010 records, of which the body of number 9,750 is changed, at a tenth of the log: 90,259 right frames stand behind."""
    bodies = [define(b"jobs")] + [register(0, f"r{it}".encode()) for it in range(9)]
    for unit in range(1, 25001):
        bodies += [begin(unit), enqueue(unit, 0, b"r1", unit, b"payload"), dequeue(unit, 0, b"r2", unit), commit(unit)]
    log = bytearray(chained(header_of(1), bodies))
    log[list(spans_of(bytes(log)))[9750][0] + 6] ^= 1
    return bytes(log)


# What the program tells.

class Told(NamedTuple):
    """What is told of what stands behind a front: by a check, by a dump, by dumps of what is asked for, and by a salvage."""
    lines: bytes
    shown: list[dict]
    asked: list[list[dict]]
    saved: list[str]


def dumped(path: str, *words: str) -> tuple[dict, list[dict]]:
    """Where the front ends, and the frames behind it that a dump shows."""
    shown = [json.loads(line) for line in done(RQLOOK, "dump", path, "--behind", "--json", *words)[1].splitlines()]
    behind = [it for it in shown if it.get("behind") is True]
    return shown[-1]["front"], [{**it, "reason": ANY} if it.get("reason") else it for it in behind]


def saved(path: str) -> list[str]:
    """The lines of a salvage behind the one that counts the frames."""
    lines = done(RQLOOK, "salvage", path, "-")[1].decode().splitlines()
    counted = [at for at, line in enumerate(lines) if line.startswith("# behind it ")]
    return [re.sub(r"(have no line: ).+", rf"\1{ANY}", line) for line in lines[counted[0] + 1:]] if counted else []


def told_of(path: str, shown: list[dict], questions: list[Question]) -> Told:
    lines = done(RQLOOK, "check", path)[1].splitlines(keepends=True)
    return Told(b"".join(line for line in lines if line.startswith((b"behind it ", b"the search"))), shown,
                [dumped(path, *it.words)[1] for it in questions], saved(path))


class Question(NamedTuple):
    """The words of a dump that ask for some records, and which fields those have."""
    words: list[str]
    field: str
    value: object

    def answer(self, frames: list[dict]) -> list[dict]:
        return [it for it in frames if it.get(self.field) == self.value]


def questions_of(draw: random.Random, frames: list[dict]) -> list[Question]:
    """What is asked for behind a front: what a frame there has, or what none has."""
    found = []
    for field, other in {"kind": "kill", "unit": 7, "queue": 0, "registrant": "ann"}.items():
        value = draw.choice([it[field] for it in frames if field in it and it[field] != "-"] or [other])
        found.append(Question([f"--{field}", str(value)], field, value))
    return found


def wanted_lines(used: int, total: int, found: list[tuple[int, int]]) -> bytes:
    if used == total:
        return b""
    unfit = total - used - sum(end - at for at, end in found)
    what = f"{len(found)} frames are right in themselves, the first at {found[0][0]}" if found else "no frame is right in itself"
    return f"behind it {what}; {unfit} bytes fit nothing\n".encode()


def first_other(told: object, want: object) -> str:
    """Where two answers differ first."""
    if isinstance(told, list) and isinstance(want, list):
        pairs = ((one, other) for one, other in zip_longest(told, want) if one != other)
        return first_other(*next(pairs))
    return f"{str(told)[:300]} in place of {str(want)[:300]}"


def answer(path: str, bytes_: bytes) -> str:
    """What is told of a log otherwise than it must be; nothing, if all is right."""
    log = Log(bytes_)
    front, shown = dumped(put(path, bytes_))
    used = front["used"]
    found = log.behind(used)
    frames = [log.shown(*it) for it in found]
    questions = questions_of(random.Random(os.path.basename(path)), frames)
    told = told_of(path, shown, questions)
    want = Told(wanted_lines(used, front["total"], found), frames, [it.answer(frames) for it in questions], log.choices(used, found))
    what = next((it for it in Told._fields if getattr(told, it) != getattr(want, it)), "")
    return what and f"{what}: {first_other(getattr(told, what), getattr(want, what))}"


# Logs that want to make the search slow.

def almost(body: bytes) -> bytes:
    """A frame whose digest is wrong."""
    return len(body).to_bytes(4, "big") + body + bytes(32)


def right(before: bytes, body: bytes) -> bytes:
    return framed(before, body)[len(before):]


def repeated(piece: bytes, count: int) -> bytes:
    return (piece * (count // len(piece) + 1))[:count]


def short_ones(count: int) -> bytes:
    """Short frames of records, one behind the other, all wrong."""
    return repeated(almost(begin(1)), count)


def overlapping(count: int) -> bytes:
    """At each fifth byte a long checkpoint, and all of them end at one place, where wrong frames stand."""
    tail = short_ones(400)
    places = count // 5
    return b"".join(struct.pack(">IB", min(5 * (places - at) - 36, 2**28), 9) for at in range(places - 8)) + bytes(40) + tail


def overlapping_short(count: int) -> bytes:
    """At each fifth byte a checkpoint of a hundred bytes or so, each of which leads to another such one."""
    return repeated(struct.pack(">IB", 64, 9), count)


def right_behind_long(count: int) -> bytes:
    """Short right frames, each behind a long wrong one that spans them all."""
    found, made, before = [], 0, bytes(32)
    while made < count:
        gap = struct.pack(">I", min(count - made - 36, 2**28 - 1)) + b"\x09" + bytes(31) if count - made > 80 else bytes(32)
        frame = right(gap[-32:], begin(1))
        found += [gap, frame]
        made += len(gap) + len(frame)
    return b"".join(found)[:count]


def runs_and_long(count: int) -> bytes:
    """Runs of three right frames, and behind each a long wrong one."""
    found, made = [], 0
    while made < count:
        gap = struct.pack(">I", max(1, min(count - made - 200, 2**28 - 1))) + b"\x09" + bytes(40)
        found.append(gap)
        before = gap[-32:]
        for _ in range(3):
            found.append(right(before, begin(1)))
            before = found[-1][-32:]
        made += len(gap) + 135
    return b"".join(found)[:count]


def long_names(count: int) -> bytes:
    """At each fifth byte a short checkpoint that leads to a name of 64 letters, and from there to another: dear bodies."""
    body = register(0, b"n" * 64)
    block, far = bytearray(), almost(body) + almost(body)[:-1] + b"\1"
    for at in range(50):
        block += struct.pack(">IB", 5 * (50 - at) - 36 if 5 * (50 - at) > 40 else 1, 9)
    return repeated(bytes(block) + far, count)


def zeros(count: int) -> bytes:
    return bytes(count)


def noise(count: int) -> bytes:
    return random.Random(1).randbytes(count)


HOSTILE: dict[str, Callable[[int], bytes]] = {
    "short wrong frames": short_ones, "long ones that overlap": overlapping, "short ones that overlap": overlapping_short,
    "right ones behind long wrong ones": right_behind_long, "runs and long wrong ones": runs_and_long, "dear names": long_names,
    "zeros": zeros, "noise": noise,
}


def seconds(*words: str) -> float:
    begun = time.monotonic()
    subprocess.run(words, capture_output=True, check=False)
    return time.monotonic() - begun


def whole_log(size: int) -> bytes:
    bodies = [define(b"jobs"), begin(1)]
    while len(bodies) * 60 < size:
        bodies.append(enqueue(1, 0))
    return chained(header_of(1), bodies)


def timed(path: str) -> tuple[float, float]:
    """The least of three of a look and of a restart."""
    looks = [seconds(RQLOOK, "check", "--workers", "1", path) for _ in range(3)]
    restarts = [seconds(RQ, "restart", path, "1", "1000") for _ in range(3)]
    return min(looks), min(restarts)


def hostile(folder: str, mib: int) -> None:
    print("| log | MiB | rqlook check | rq restart of it | of a whole one | check by the latter | answer |\n|---|---|---|---|---|---|---|")
    path = os.path.join(folder, "hostile.log")
    wholes = {size: timed(put(path, whole_log(size << 20)))[1] for size in (mib, 2 * mib)}
    for name, made in HOSTILE.items():
        for size in (mib, 2 * mib):
            put(path, chained(header_of(1), [define(b"jobs")])[:-1] + b"\0" + made(size << 20))
            look, restart = timed(path)
            lines = done(RQLOOK, "check", path)[1].splitlines()
            answer = "gave up" if any(it.startswith(b"the search") for it in lines) else "searched"
            print(f"| {name} | {size} | {look:.2f} s | {restart:.2f} s | {wholes[size]:.2f} s | {look / wholes[size]:.1f} | {answer} |", flush=True)
    os.remove(path)


def takes(line: argparse.ArgumentParser) -> None:
    line.add_argument("--logs", type=int, default=1000)
    line.add_argument("--seed", type=int, default=1)
    line.add_argument("--jobs", type=int, default=os.cpu_count() or 1)
    line.add_argument("--hostile", type=int, default=0, metavar="MIB")


def main(options: argparse.Namespace) -> int | None:
    if options.hostile:
        hostile(options.folder, options.hostile)
        return 0
    logs = {f"behind.{seed}.log": seed for seed in range(options.seed, options.seed + options.logs)}
    with ThreadPoolExecutor(options.jobs) as pool:
        for name, found in zip(logs, pool.map(lambda it: answer(os.path.join(options.folder, it), drawn_log(logs[it])), logs)):
            check(name, found, "")
    check("a log of many records", answer(os.path.join(options.folder, "behind.many.log"), of_many_records()), "")
    return None
