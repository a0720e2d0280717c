"""Quick, of 60 logs; by hand of 1,000 if mending changes. Damages drawn logs in one to three places, and looks what `rqlook mend` makes of
each: who damages them knows what was there.

A place is a bit or a byte of a body, a byte of a length or all of it, a byte of a digest or all of it, or bytes of the header. Each byte
that is put back has to be the one that was there, and OUT to differ from LOG in the bytes that are told and in no other. A log that is
damaged in one place has to come back whole, unless it is the digest of the last frame, or the header of a carried file. It prints how
many places came back, by kind.
"""
from __future__ import annotations
import argparse, collections, os, random, re, tempfile
from concurrent.futures import ThreadPoolExecutor
from typing import NamedTuple

from behind import lawful_bodies, nested
from frames import CARRIED_AT, HEADER, begin, carried_bytes, chained, checkpoint, commit, enqueue, header_of, spans_of, spelled
from trying import RQLOOK, check, content, done, put

KINDS = ("bit", "byte", "length byte", "length", "digest byte", "digest", "header")
TOLD = re.compile(r"^at (\d+) stood (\d+), now (\d+): the digest of the frame at \d+ proves it$", re.M)
# A body of more bytes is not tried byte by byte.
LONGEST = 8192


class Place(NamedTuple):
    """What is damaged: some bytes of the frame of this number."""
    kind: str
    frame: int
    at: int
    bytes: bytes


def is_carried(log: bytes) -> bool:
    return log[5] == 1


def frames_of(log: bytes) -> list[tuple[int, int]]:
    """Where each frame begins, and how many bytes its body has."""
    return [(at, end - at - 36) for at, end in spans_of(log, CARRIED_AT if is_carried(log) else HEADER)]


def drawn_log(draw: random.Random) -> bytes:
    """A lawful log of which nothing is open, or a carried file; some payloads look like logs."""
    version = draw.choice((1, 2))
    bodies = lawful_bodies(draw, version, draw.randrange(2, 12))
    if draw.random() < 0.3:
        bodies += [begin(99), enqueue(99, 0, b"", 0, nested(draw)), commit(99)]
    # No KILL names an element by its number there.
    if version == 1 and draw.random() < 0.4:
        return carried_bytes(1, draw.randbytes(32), [checkpoint(spelled((0, 0, 0, 0), [], [])), *bodies])
    return chained(header_of(version), bodies)


def others(draw: random.Random, old: bytes) -> bytes:
    """As many bytes, each another."""
    return bytes(byte ^ draw.randrange(1, 256) for byte in old)


def damage_in(draw: random.Random, log: bytes, kind: str, number: int) -> Place:
    """A damage of this kind to the frame of this number; of the header, whatever the number."""
    at, size = frames_of(log)[number]
    if kind == "header":
        first = draw.randrange(HEADER)
        start, end = first, draw.randrange(first + 1, HEADER + 1)
    elif kind in ("bit", "byte"):
        start = at + 4 + draw.randrange(size)
        end = start + 1
    elif kind == "length byte":
        start = at + draw.randrange(4)
        end = start + 1
    elif kind == "length":
        start, end = at, at + 4
    elif kind == "digest byte":
        start = at + 4 + size + draw.randrange(32)
        end = start + 1
    else:
        start, end = at + 4 + size, at + 36 + size
    old = log[start:end]
    new = bytes([old[0] ^ 1 << draw.randrange(8)]) if kind == "bit" else others(draw, old)
    return Place(kind, number, start, new)


def drawn_places(draw: random.Random, log: bytes, count: int) -> list[Place]:
    """So many damages, each to a frame of its own."""
    numbers = draw.sample(range(len(frames_of(log))), count)
    return [damage_in(draw, log, draw.choice(KINDS), number) for number in numbers]


def with_places(log: bytes, places: list[Place]) -> bytes:
    damaged = bytearray(log)
    for place in places:
        damaged[place.at:place.at + len(place.bytes)] = place.bytes
    return bytes(damaged)


def comes_back(log: bytes, places: list[Place]) -> bool:
    """Whether a log with this one damage has to come back whole."""
    (place,) = places
    frames = frames_of(log)
    is_last = place.frame == len(frames) - 1
    if place.kind == "header":
        return not is_carried(log)
    return not (place.kind in ("digest byte", "digest") and is_last) and frames[place.frame][1] <= LONGEST


class Mended(NamedTuple):
    """How the command ends, what it says, and the file that it makes."""
    status: int
    said: str
    made: bytes | None


def mended(folder: str, log: bytes) -> Mended:
    path, out = put(os.path.join(folder, "log"), log), os.path.join(folder, "out")
    status, told, _ = done(RQLOOK, "mend", path, out, "--workers", "1", timeout=300)
    return Mended(status, told.decode(), content(out))


class Found(NamedTuple):
    """What is wrong with a mended log, in words; and of each place whether it came back."""
    wrong: list[str]
    back: list[tuple[str, bool]]


def wrong_of(log: bytes, damaged: bytes, it: Mended) -> list[str]:
    """What a mended log has that it must not have."""
    if it.made is None:
        return [] if it.status == 1 else [f"no file, and status {it.status}"]
    told = {int(at): (int(was), int(now)) for at, was, now in TOLD.findall(it.said)}
    differ = {at: (damaged[at], it.made[at]) for at in range(len(log)) if damaged[at] != it.made[at]}
    wrong = []
    if len(it.made) != len(log) or told != differ:
        wrong.append(f"told {told}, and made {differ}")
    if any(log[at] != now for at, (_, now) in differ.items()):
        wrong.append(f"invented: {[at for at, (_, now) in differ.items() if log[at] != now]}")
    if it.status != (0 if it.made == log else 1):
        wrong.append(f"status {it.status}, and {'all' if it.made == log else 'not all'} came back")
    return wrong


def tried(seed: str, count: int) -> Found:
    """One log, damaged in so many places."""
    draw = random.Random(seed)
    log = drawn_log(draw)
    places = drawn_places(draw, log, count)
    damaged = with_places(log, places)
    with tempfile.TemporaryDirectory() as folder:
        it = mended(folder, damaged)
    wrong = wrong_of(log, damaged, it)
    made = it.made or damaged
    back = [(place.kind, made[place.at:place.at + len(place.bytes)] == log[place.at:place.at + len(place.bytes)]) for place in places]
    if count == 1 and comes_back(log, places) and it.made != log:
        wrong.append(f"{places[0].kind} at {places[0].at} did not come back")
    return Found(wrong, back)


def whole_logs(draw: random.Random) -> None:
    """A log with nothing wrong comes back as it was."""
    log = drawn_log(draw)
    with tempfile.TemporaryDirectory() as folder:
        it = mended(folder, log)
        check("a whole log", (it.status, it.made == log, TOLD.findall(it.said)), (0, True, []))
        again = mended(folder, log)
        check("OUT that is there", (again.status, again.made == log), (3, True))


def takes(line: argparse.ArgumentParser) -> None:
    line.add_argument("--logs", type=int, default=60)
    line.add_argument("--seed", default="1")
    line.add_argument("--jobs", type=int, default=4)


def main(options: argparse.Namespace) -> None:
    whole_logs(random.Random(options.seed))
    with ThreadPoolExecutor(options.jobs) as pool:
        found = list(pool.map(lambda number: tried(f"{options.seed} {number}", 1 + number % 3), range(options.logs)))
    for number, it in enumerate(found):
        check(f"log {number}", it.wrong, [])
    places = [place for it in found for place in it.back]
    back = collections.Counter(kind for kind, is_back in places if is_back)
    for kind, count in sorted(collections.Counter(kind for kind, _ in places).items()):
        print(f"{kind}: {back[kind]} of {count} came back")
