"""Rows. Damaged logs: where their fronts end, and why; and wrong digests among frames of whatever lengths."""
from __future__ import annotations
import functools, hashlib
from collections.abc import Callable, Iterable, Iterator
from typing import NamedTuple

from frames import changed, framed, header_of
from trying import DONE
from .asking import BOTH, FEW_PLANS, NOT_A_LOG, ONE, ONE_ELEMENT, PLANS, RETURN_AND_ARRIVAL, Program, Programs, Question, is_same, reports

DEFINE = "define jobs 0 -\n"


class Damage(NamedTuple):
    name: str
    versions: list[int]
    script: str
    # What becomes of the script's log.
    damage: Callable[[bytes], bytes]
    report: str


def unchained(log: bytes) -> bytes:
    """The first frame's digest is that of its length and its body alone."""
    return changed(log, 55, hashlib.sha256(log[40:55]).digest())


def with_kill(log: bytes) -> bytes:
    """A right frame of `kill 0 2` more."""
    return framed(log, bytes.fromhex("0a 00000000 0000000000000002"))


DAMAGES = [
    Damage("the last byte is missing", BOTH, ONE_ELEMENT, lambda log: log[:-1], """\
front 3 records, 192 of 236 bytes, cut
units 0 committed, 0 aborted, 1 cut off
queue 0 jobs limit 0 error -
"""),
    Damage("a changed payload", BOTH, ONE_ELEMENT, lambda log: changed(log, 159, b"\x62"), """\
front 2 records, 132 of 237 bytes, chain
units 0 committed, 0 aborted, 1 cut off
queue 0 jobs limit 0 error -
"""),
    Damage("a length of 0", BOTH, ONE_ELEMENT, lambda log: changed(log, 192, bytes(4)), """\
front 3 records, 192 of 237 bytes, length
units 0 committed, 0 aborted, 1 cut off
queue 0 jobs limit 0 error -
"""),
    Damage("an unchained digest", BOTH, ONE_ELEMENT, unchained, """\
front 0 records, 40 of 237 bytes, chain
units 0 committed, 0 aborted, 0 cut off
"""),
    Damage("a frame of no record", BOTH, "", lambda log: framed(log, b"\x0a"), """\
front 0 records, 40 of 77 bytes, form
units 0 committed, 0 aborted, 0 cut off
"""),
    Damage("a kill behind a header of version 1", ONE, DEFINE, with_kill, """\
front 1 records, 87 of 136 bytes, form
units 0 committed, 0 aborted, 0 cut off
queue 0 jobs limit 0 error -
"""),
    Damage("a header of version 2 before a chain of version 1", ONE, DEFINE, lambda log: changed(with_kill(log), 0, header_of(2)),
           """\
front 0 records, 40 of 136 bytes, chain
units 0 committed, 0 aborted, 0 cut off
"""),
]

def rest(committed: int, aborted: int, cut_off: int, *below: str) -> str:
    """A report behind its first line: its units, and the lines below each queue that is defined."""
    heads = ("queue 0 dead limit 0 error -\n", "queue 1 jobs limit 1 error 0\n")
    return f"units {committed} committed, {aborted} aborted, {cut_off} cut off\n" + "".join(head + lines for head, lines in zip(heads, below))


# The elements of `RETURN_AND_ARRIVAL`, before and behind their first abort, and its registrant.
LOW, LOW_AGAIN = "e 4 from 0 priority 3 attempts 0 61\n", "e 4 from 0 priority 3 attempts 1 61\n"
HIGH, HIGH_AGAIN, ANN = "e 5 from 1 priority 7 attempts 0 62\n", "e 5 from 1 priority 7 attempts 1 62\n", "r ann none\n"
# What the report says behind its first line of the first lines of that script, from none of them to all 14.
RESTS = [
    rest(0, 0, 0), rest(0, 0, 0, ""), rest(0, 0, 0, "", ""), rest(0, 0, 0, ANN, ""), *[rest(0, 0, 1, ANN, "")] * 3,
    rest(1, 0, 0, LOW + ANN, HIGH),
    rest(1, 0, 1, LOW + ANN, HIGH),
    rest(1, 0, 1, LOW_AGAIN + ANN, HIGH),
    rest(1, 0, 1, HIGH + LOW_AGAIN + ANN, ""),
    rest(1, 1, 0, HIGH + LOW_AGAIN + ANN, ""),
    rest(1, 1, 1, HIGH + LOW_AGAIN + ANN, ""),
    rest(1, 1, 1, HIGH_AGAIN + LOW_AGAIN + ANN, ""),
    rest(2, 1, 0, LOW_AGAIN + "r ann dequeue tag 9 element 5\n", ""),
]
# Where the frames of that log end, behind its header.
ENDS = [40, 87, 134, 178, 223, 283, 343, 388, 433, 491, 549, 594, 639, 700, 745]


def frames_before(offset: int) -> int:
    """How many frames of that log end at an offset or before it."""
    return sum(end <= offset for end in ENDS) - 1


def fronts(rq: Program, name: str, log: bytes, frames: int, why: str, version: int) -> Iterator[Question]:
    """Whether so many frames are the front of the log."""
    first_line = f"front {frames} records, {ENDS[frames]} of {len(log)} bytes, {why}\n"
    plans = FEW_PLANS if version == 1 else FEW_PLANS[1:2]
    return reports(rq, f"{name}, version {version}", log, first_line + RESTS[frames], plans)


def is_no_log(rq: Program, name: str, content: bytes) -> Question:
    return Question(f"{name}: restart", functools.partial(rq.run, "restart", rq.file(content), 2, 1), NOT_A_LOG)


def why_of_beginning(length: int) -> str | None:
    """Why the front of a beginning of that log ends. Without the header it is no log."""
    if length < 40:
        return None
    return "whole" if length in ENDS else "cut"


def beginnings(rq: Program, version: int) -> Iterator[Question]:
    """That log, cut at every place: its front is the frames that are whole."""
    log = rq.log_of(RETURN_AND_ARRIVAL, version)
    yield is_same(f"the log that is cut, version {version}", len(log), 745)
    for length in range(745):
        name, why = f"the first {length} bytes", why_of_beginning(length)
        if why is None:
            yield is_no_log(rq, name, log[:length])
        else:
            yield from fronts(rq, name, log[:length], frames_before(length), why, version)
    counts = [sum(why_of_beginning(length) == why for length in range(745)) for why in (None, "whole", "cut")]
    yield is_same("how beginnings end", counts, [40, 14, 691])


def why_behind(rest: bytes) -> str:
    """What stands behind the front of a log of which one byte was changed."""
    length = int.from_bytes(rest[:4], "big")
    if not 1 <= length <= 268_435_456:
        return "length"
    return "chain" if 36 + length <= len(rest) else "cut"


def changed_bytes(rq: Program, version: int) -> Iterator[Question]:
    """That log, changed at every byte by exclusive or: the front ends before the frame of the byte."""
    log = rq.log_of(RETURN_AND_ARRIVAL, version)
    for offset in range(745):
        for mask in (0x01, 0xFF):
            name, turned = f"byte {offset} by {mask:02x}", changed(log, offset, bytes([log[offset] ^ mask]))
            frames = frames_before(offset)
            if offset < 40:
                yield is_no_log(rq, name, turned)
            else:
                yield from fronts(rq, name, turned, frames, why_behind(turned[ENDS[frames]:]), version)


def headers(rq: Program) -> Iterator[Question]:
    """A header of which a byte is any other one; in version 2, one with its lowest bit turned, and one with all."""
    for version, masks in [(1, range(1, 256)), (2, (0x01, 0xFF))]:
        log = rq.log_of("", version)
        for offset in range(40):
            for mask in masks:
                turned = changed(log, offset, bytes([log[offset] ^ mask]))
                yield is_no_log(rq, f"byte {offset} of a header of version {version} by {mask:02x}", turned)


def no_logs(rq: Program) -> Iterator[Question]:
    """What is no log has no audit; a header alone has one of no line."""
    log = rq.log_of(ONE_ELEMENT)
    table = [("no byte", b"", NOT_A_LOG), ("39 bytes", log[:39], NOT_A_LOG), ("40 bytes", log[:40], DONE),
             ("a header of version 3", header_of(3), NOT_A_LOG)]
    for name, content, want in table:
        yield Question(f"{name}: audit", functools.partial(rq.run, "audit", rq.file(content), 2), want)
    yield is_no_log(rq, "no byte", b"")

# --- digests ---------------------------------------------------------------------------------------------------------

# Workers and grains that take the frames in small pieces, and in large ones.
FINE, COARSE = (2, 1), (2, 1000)
# One worker takes pieces of 4 MiB.
ALONE = (1, 1)
UNITS = "units 0 committed, 0 aborted, 0 cut off\n"


class Checkpoints(NamedTuple):
    """A log, and where each of its frames ends."""

    log: bytes
    ends: list[int]

    def report(self, frames: int, why: str) -> str:
        """What a restart says if so many frames are the front."""
        used = self.ends[frames - 1] if frames else 40
        return f"front {frames} records, {used} of {len(self.log)} bytes, {why}\n{UNITS}"

    def turned(self, places: Iterable[int]) -> bytes:
        """The log with the last bytes of these frames changed, which belong to their digests."""
        log = self.log
        for place in places:
            log = changed(log, self.ends[place] - 1, bytes([log[self.ends[place] - 1] ^ 0x41]))
        return log


def frames_of_lengths(lengths: Iterable[int]) -> Checkpoints:
    """A frame for each of these lengths, all of them of checkpoints: whatever one spells, a restart goes past it."""
    log, ends = bytearray(header_of(1)), []
    for number, length in enumerate(lengths):
        stated = length.to_bytes(4, "big") + b"\x09" + bytes([number % 256]) * (length - 1)
        log += stated + hashlib.sha256(log[-32:] + stated).digest()
        ends.append(len(log))
    return Checkpoints(bytes(log), ends)


class Lanes(NamedTuple):
    name: str
    lengths: list[int]
    # The frames whose digests are wrong at once; each frame by itself, if none are named.
    wrong: list[list[int]]
    plans: list[tuple[int, int]]


TWENTIES = [Lanes(f"{count} frames of one length", [20] * count, [], [FINE, (2, 8), COARSE]) for count in (1, 7, 8, 9, 37)]
LENGTHS = [Lanes(f"lengths from {first} on", list(range(first, first + 20)), [], [COARSE]) for first in range(1, 301, 20)]
LANES = [
    *TWENTIES,
    *LENGTHS,
    # A digest is of 36 bytes more than the body has.
    Lanes("lengths about the ends of blocks", [19, 20, 26, 27, 28, 29, 82, 83, 84, 85, 91, 92, 93, 147, 148, 4059, 4060, 9000], [],
        [FINE, COARSE]),
    Lanes("two wrong digests", [30] * 24, [[0, 7], [8, 9], [9, 15], [16, 23], [3, 20]], [FINE]),
    # Checkpoints of 1,036 bytes: 1,013 of them are a piece of 1 MiB, and 4,049 one of 4 MiB.
    Lanes("the ends of pieces", [1000] * 4100, [[0], [1012], [1013], [4099]], [FINE]),
    Lanes("the ends of long pieces", [1000] * 4100, [[4048], [4049]], [(2, 1_000_000), ALONE]),
    # The lanes take a body of 16 KiB before shorter ones, and one of 1 MiB is checked by itself.
    Lanes("long frames among short ones", [20, 16_383, 16_384, 30, 1_048_575, 1_048_576, 40, 60_000, 1_100_000, 1_100_000, 20], [],
        [FINE, (2, 4), COARSE]),
]


def digests_asked(rq: Program, row: Lanes) -> Iterator[Question]:
    frames = frames_of_lengths(row.lengths)
    count = len(frames.ends)
    yield from reports(rq, f"{row.name}, as they are", frames.log, frames.report(count, "whole"), row.plans)
    for places in row.wrong or [[place] for place in range(count)]:
        name = f"{row.name}, wrong at {places}"
        yield from reports(rq, name, frames.turned(places), frames.report(places[0], "chain"), row.plans)


def questions(on: Programs) -> Iterator[Question]:
    rq = on.rq
    for row in DAMAGES:
        for version in row.versions:
            log = row.damage(rq.log_of(row.script, version))
            yield from reports(rq, f"{row.name}, version {version}", log, row.report, PLANS)
    yield from no_logs(rq)
    yield from headers(rq)
    for version in BOTH:
        yield from beginnings(rq, version)
        yield from changed_bytes(rq, version)
    for row in LANES:
        yield from digests_asked(rq, row)
