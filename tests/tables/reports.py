"""Rows. Scripts, and the reports of their logs under every plan: small ones, and those of many queues, of long payloads, and longer than what a
pass looks at of a log at a time."""
from __future__ import annotations
import functools
from collections.abc import Iterator
from typing import NamedTuple

from frames import changed, flipped
from .asking import (ARRIVAL, BEST_FIRST, BOTH, ERROR_OF_ERROR, KILL, KILLS, NONE_LEFT, ONE, ONE_ELEMENT, PLACE, PLANS, RETURN_AND_ARRIVAL,
                     SECOND_ABORT, THREE, TWO, Program, Programs, Question, first, is_same, makes, reports, script, whole)


class Row(NamedTuple):
    name: str
    versions: list[int]
    script: str
    # How many bytes the log has.
    bytes: int
    report: str


# What queues and elements are after a restart.
QUEUES = [
    Row("empty script", BOTH, "", 40, """\
front 0 records, 40 of 40 bytes, whole
units 0 committed, 0 aborted, 0 cut off
"""),
    Row("one element", BOTH, ONE_ELEMENT, 237, """\
front 4 records, 237 of 237 bytes, whole
units 1 committed, 0 aborted, 0 cut off
queue 0 jobs limit 0 error -
e 2 from 0 priority 5 attempts 0 61
"""),
    Row("cut off", BOTH, first(3, ONE_ELEMENT), 192, """\
front 3 records, 192 of 192 bytes, whole
units 0 committed, 0 aborted, 1 cut off
queue 0 jobs limit 0 error -
"""),
    Row("best first", BOTH, BEST_FIRST, 505, """\
front 9 records, 505 of 505 bytes, whole
units 2 committed, 0 aborted, 0 cut off
queue 0 jobs limit 0 error -
e 4 from 0 priority 9 attempts 0 63
e 2 from 0 priority 1 attempts 0 61
"""),
    Row("returned", BOTH, first(8, BEST_FIRST), 460, """\
front 8 records, 460 of 460 bytes, whole
units 1 committed, 0 aborted, 1 cut off
queue 0 jobs limit 0 error -
e 3 from 0 priority 9 attempts 1 62
e 4 from 0 priority 9 attempts 0 63
e 2 from 0 priority 1 attempts 0 61
"""),
    Row("abort, then none left", BOTH, NONE_LEFT, 591, """\
front 11 records, 591 of 591 bytes, whole
units 2 committed, 1 aborted, 0 cut off
queue 0 jobs limit 0 error -
"""),
    Row("abort, then cut off", BOTH, first(9, NONE_LEFT), 488, """\
front 9 records, 488 of 488 bytes, whole
units 1 committed, 1 aborted, 1 cut off
queue 0 jobs limit 0 error -
e 2 from 0 priority 5 attempts 1 61
"""),
    Row("second abort moves", BOTH, first(11, SECOND_ABORT), 580, """\
front 11 records, 580 of 580 bytes, whole
units 1 committed, 2 aborted, 0 cut off
queue 0 dead limit 0 error -
e 3 from 1 priority 5 attempts 0 61
queue 1 jobs limit 2 error 0
"""),
    Row("abort of a moved element", BOTH, SECOND_ABORT, 728, """\
front 14 records, 728 of 728 bytes, whole
units 1 committed, 3 aborted, 0 cut off
queue 0 dead limit 0 error -
e 3 from 1 priority 5 attempts 1 61
queue 1 jobs limit 2 error 0
"""),
    Row("arrival too late", BOTH, first(15, ARRIVAL), 775, """\
front 15 records, 775 of 775 bytes, whole
units 2 committed, 2 aborted, 0 cut off
queue 0 dead limit 0 error -
e 4 from 1 priority 5 attempts 0 61
r ann dequeue tag 70 element -
queue 1 jobs limit 2 error 0
"""),
    Row("arrival in time", BOTH, ARRIVAL, 926, """\
front 18 records, 926 of 926 bytes, whole
units 3 committed, 2 aborted, 0 cut off
queue 0 dead limit 0 error -
r ann dequeue tag 71 element 4
queue 1 jobs limit 2 error 0
"""),
    Row("return and arrival", BOTH, RETURN_AND_ARRIVAL, 745, """\
front 14 records, 745 of 745 bytes, whole
units 2 committed, 1 aborted, 0 cut off
queue 0 dead limit 0 error -
e 4 from 0 priority 3 attempts 1 61
r ann dequeue tag 9 element 5
queue 1 jobs limit 1 error 0
"""),
    Row("arrival outranks", BOTH, first(10, RETURN_AND_ARRIVAL), 549, """\
front 10 records, 549 of 549 bytes, whole
units 1 committed, 0 aborted, 1 cut off
queue 0 dead limit 0 error -
e 5 from 1 priority 7 attempts 0 62
e 4 from 0 priority 3 attempts 1 61
r ann none
queue 1 jobs limit 1 error 0
"""),
]

# What registrants are told after a restart.
REGISTRANTS = [
    Row("own fresh element", BOTH, script("define jobs 0 -; register 0 ann; begin 1; enqueue 1 0 5 - 0 61; dequeue 1 0 ann 4; commit 1"), 342, """\
front 6 records, 342 of 342 bytes, whole
units 1 committed, 0 aborted, 0 cut off
queue 0 jobs limit 0 error -
e 3 from 0 priority 5 attempts 0 61
r ann dequeue tag 4 element -
"""),
    Row("place, not commit order", BOTH, first(8, PLACE), 437, """\
front 8 records, 437 of 437 bytes, whole
units 2 committed, 0 aborted, 0 cut off
queue 0 jobs limit 0 error -
e 4 from 0 priority 5 attempts 0 61
e 5 from 0 priority 5 attempts 0 62
r ann enqueue tag 20 element 5
"""),
    Row("register again", BOTH, PLACE, 481, """\
front 9 records, 481 of 481 bytes, whole
units 2 committed, 0 aborted, 0 cut off
queue 0 jobs limit 0 error -
e 4 from 0 priority 5 attempts 0 61
e 5 from 0 priority 5 attempts 0 62
r ann enqueue tag 20 element 5
"""),
    Row("deregister forgets", BOTH, script("""\
define jobs 0 -; register 0 ann
begin 1; enqueue 1 0 5 ann 10 61; deregister 0 ann; register 0 ann; commit 1"""), 372, """\
front 7 records, 372 of 372 bytes, whole
units 1 committed, 0 aborted, 0 cut off
queue 0 jobs limit 0 error -
e 3 from 0 priority 5 attempts 0 61
r ann none
"""),
    Row("two registrants of one name", BOTH, script("""\
define a 0 -; define b 0 -; register 0 x; register 1 x
begin 1; enqueue 1 0 1 x 7 -; dequeue 1 1 x 8; commit 1"""), 421, """\
front 8 records, 421 of 421 bytes, whole
units 1 committed, 0 aborted, 0 cut off
queue 0 a limit 0 error -
e 5 from 0 priority 1 attempts 0 -
r x enqueue tag 7 element 5
queue 1 b limit 0 error -
r x dequeue tag 8 element -
"""),
]

# Records that are not lawful.
UNLAWFUL = [
    Row("unlawful", BOTH, script("define jobs 0 -; commit 7; begin 1"), 177, """\
front 1 records, 87 of 177 bytes, law
units 0 committed, 0 aborted, 0 cut off
queue 0 jobs limit 0 error -
"""),
    Row("unit 0", BOTH, script("begin 0"), 85, """\
front 0 records, 40 of 85 bytes, law
units 0 committed, 0 aborted, 0 cut off
"""),
    Row("error queue undefined", BOTH, script("define a 1 0"), 84, """\
front 0 records, 40 of 84 bytes, law
units 0 committed, 0 aborted, 0 cut off
"""),
]

# Error queues that have error queues, and KILL.
VERSION_TWO = [
    Row("error queue of an error queue", TWO, ERROR_OF_ERROR, 626, """\
front 12 records, 626 of 626 bytes, whole
units 1 committed, 2 aborted, 0 cut off
queue 0 bin limit 0 error -
e 4 from 2 priority 5 attempts 0 61
queue 1 dead limit 1 error 0
queue 2 jobs limit 1 error 1
"""),
    Row("error queue of an error queue, cut off", TWO, first(11, ERROR_OF_ERROR), 581, """\
front 11 records, 581 of 581 bytes, whole
units 1 committed, 1 aborted, 1 cut off
queue 0 bin limit 0 error -
e 4 from 2 priority 5 attempts 0 61
queue 1 dead limit 1 error 0
queue 2 jobs limit 1 error 1
"""),
    Row("error queue of an error queue in version 1", ONE, ERROR_OF_ERROR, 626, """\
front 2 records, 133 of 626 bytes, law
units 0 committed, 0 aborted, 0 cut off
queue 0 bin limit 0 error -
queue 1 dead limit 1 error 0
"""),
    Row("kill", TWO, KILL, 532, """\
front 10 records, 532 of 532 bytes, whole
units 1 committed, 1 aborted, 0 cut off
queue 0 jobs limit 0 error -
"""),
    Row("kill of fresh and held", TWO, first(9, KILL), 483, """\
front 9 records, 483 of 483 bytes, whole
units 1 committed, 1 aborted, 0 cut off
queue 0 jobs limit 0 error -
e 2 from 0 priority 5 attempts 1 61
"""),
    Row("kill of no queue", TWO, script("kill 0 0"), 89, """\
front 0 records, 40 of 89 bytes, law
units 0 committed, 0 aborted, 0 cut off
"""),
    Row("kills", TWO, KILLS, 983, """\
front 19 records, 983 of 983 bytes, whole
units 2 committed, 1 aborted, 0 cut off
queue 0 dead limit 0 error -
queue 1 jobs limit 1 error 0
r ann enqueue tag 7 element 5
"""),
    Row("kills, the first three", TWO, first(16, KILLS), 836, """\
front 16 records, 836 of 836 bytes, whole
units 2 committed, 1 aborted, 0 cut off
queue 0 dead limit 0 error -
e 5 from 1 priority 200 attempts 0 62
queue 1 jobs limit 1 error 0
e 10 from 1 priority 9 attempts 0 63
r ann enqueue tag 7 element 5
"""),
]

# Two queues with an element each, and a third without.
THREE_QUEUES = Row("three queues", BOTH, THREE, 380, """\
front 7 records, 380 of 380 bytes, whole
units 1 committed, 0 aborted, 0 cut off
queue 0 a limit 0 error -
e 4 from 0 priority 0 attempts 0 -
queue 1 b limit 0 error -
e 5 from 1 priority 0 attempts 0 -
queue 2 c limit 0 error -
""")


def asked(rq: Program, row: Row, version: int, plans: list[tuple[int, int]]) -> Iterator[Question]:
    name, log = f"{row.name}, version {version}", rq.log_of(row.script, version)
    yield is_same(f"{name}: bytes of the log", len(log), row.bytes)
    yield from reports(rq, name, log, row.report, plans)


# --- large logs ------------------------------------------------------------------------------------------------------

# How the unit ends that takes a queue's element: by the queue's number modulo 3, and not at all if that is 1.
ENDS = {0: "abort", 2: "commit"}


def payload(queue: int) -> str:
    """65,535 bytes for each tenth queue, nothing for the others."""
    return f"{queue:02x}" * 65_535 if queue % 10 == 0 else "-"


def two_hundred_queues() -> str:
    """Queues `d0` to `d19`, and `q20` to `q199` whose elements go to them at their first abort. Each of these gets an
    element, which a unit then takes that aborts, commits or stays open."""
    lines = [f"define d{queue} 0 -" for queue in range(20)]
    lines += [f"define q{queue} 1 {queue % 20}" for queue in range(20, 200)]
    for queue in range(20, 200):
        unit = queue - 19
        lines += [f"begin {unit}", f"enqueue {unit} {queue} {queue % 7} - 0 {payload(queue)}", f"commit {unit}"]
    for queue in range(20, 200):
        unit = queue + 161
        lines += [f"begin {unit}", f"dequeue {unit} {queue} - 0"]
        lines += [f"{ENDS[queue % 3]} {unit}"] if queue % 3 in ENDS else []
    return "\n".join(lines) + "\n"


def moved_to(queue: int) -> list[str]:
    """The elements that end in an error queue: those that no unit took for good, of greater priority first."""
    sources = [q for q in range(20, 200) if q % 20 == queue and q % 3 != 2]
    sources.sort(key=lambda q: (-(q % 7), q))
    return [f"e {141 + 3 * q} from {q} priority {q % 7} attempts 0 {payload(q)}" for q in sources]


def their_queue_lines() -> str:
    lines = []
    for queue in range(20):
        lines += [f"queue {queue} d{queue} limit 0 error -", *moved_to(queue)]
    lines += [f"queue {queue} q{queue} limit 1 error {queue % 20}" for queue in range(20, 200)]
    return "\n".join(lines) + "\n"


WHOLE = "front 1220 records, 1239720 of 1239720 bytes, whole\nunits 240 committed, 60 aborted, 60 cut off\n"
CLOSED = "front 1280 records, 1242420 of 1242420 bytes, whole\nunits 240 committed, 120 aborted, 0 cut off\n"
NINE_QUEUES = """\
front 9 records, 445 of 1239720 bytes, chain
units 0 committed, 0 aborted, 0 cut off
""" + "".join(f"queue {queue} d{queue} limit 0 error -\n" for queue in range(9))


def of_two_hundred(rq: Program) -> Iterator[Question]:
    """Their report, and that of the log once it is closed."""
    log, lines = rq.log_of(two_hundred_queues()), their_queue_lines()
    yield is_same("two hundred queues: bytes of the log", len(log), 1_239_720)
    yield is_same("two hundred queues: lines of the report", (WHOLE + lines).count("\n"), 322)
    first_elements = [line.split()[1] for line in moved_to(0)]
    yield is_same("elements of the first queue", first_elements, ["621", "261", "681", "321", "441", "501"])
    yield from reports(rq, "two hundred queues", log, WHOLE + lines)
    closed = rq.making("close", log, 2)[1] or b""
    yield is_same("two hundred queues, closed", (len(closed), closed[:len(log)] == log), (1_242_420, True))
    yield from reports(rq, "two hundred queues, closed", closed, CLOSED + lines)
    yield makes(rq, "two hundred queues, closed", "close", closed, closed)


def in_grains(rq: Program) -> Iterator[Question]:
    """One damage of that log, and a second one behind it, in pieces of so many frames."""
    log = rq.log_of(two_hundred_queues())
    one = flipped(log, 489)
    grains = [(2, grain) for grain in (1, 2, 9, 10, 11, 1_000, 1_000_000)]
    yield from reports(rq, "one damage", one, NINE_QUEUES, grains)
    yield from reports(rq, "two damages", changed(one, 582, bytes(4)), NINE_QUEUES, grains)


def long_elements() -> tuple[str, str]:
    """Three queues and 21 elements of 60,000 bytes, more than 1 MiB, so that several threads make the report; and this."""
    payloads = {element: f"{element:02x}" * 60_000 for element in range(4, 25)}
    script = [f"define q{queue} 0 -" for queue in range(3)] + ["begin 1"]
    script += [f"enqueue 1 {element % 3} 5 - 0 {payloads[element]}" for element in payloads] + ["commit 1"]
    # A header; three frames of 45 bytes, those of BEGIN and COMMIT of 45, and 21 of 60,059.
    size = 40 + 3 * 45 + 2 * 45 + 21 * 60_059
    report = [f"front 26 records, {size} of {size} bytes, whole", "units 1 committed, 0 aborted, 0 cut off"]
    for queue in range(3):
        report.append(f"queue {queue} q{queue} limit 0 error -")
        elements = [element for element in payloads if element % 3 == queue]
        report += [f"e {element} from {queue} priority 5 attempts 0 {payloads[element]}" for element in elements]
    return "\n".join(script) + "\n", "\n".join(report) + "\n"


# A pass looks at so many bytes of a log, and then at so many more.
WINDOW = 1 << 24
# A header; the frames of the DEFINE and the BEGIN; 260 of an ENQUEUE of 65,535 bytes; that of the last line.
BEFORE, EACH, LAST = 40 + 47 + 45, 59 + 65_535, 45
TOTAL = BEFORE + 260 * EACH + LAST


def longer_than_a_window(last: str) -> str:
    """A unit that puts in 260 elements of 65,535 bytes, and this line behind it."""
    return "define jobs 0 -\nbegin 1\n" + ("enqueue 1 0 5 - 0 " + "61" * 65_535 + "\n") * 260 + last + "\n"


# What is done with the log of which last line, and where its front ends: records, bytes used, bytes of all, why.
WINDOWS = [
    ("whole", "commit 1", whole, (263, TOTAL, TOTAL, "whole")),
    ("without its last byte", "commit 1", lambda log: log[:-1], (262, TOTAL - LAST, TOTAL - 1, "cut")),
    ("with an unlawful end", "commit 2", whole, (262, TOTAL - LAST, TOTAL, "law")),
    ("damaged in its first window", "commit 1", lambda log: flipped(log, 60), (0, 40, TOTAL, "chain")),
    ("damaged in its second window", "commit 1", lambda log: flipped(log, WINDOW), (257, BEFORE + 255 * EACH, TOTAL, "chain")),
]


def windows(rq: Program) -> Iterator[tuple[str, bytes, tuple[int, int, int, str]]]:
    """Each of these logs, with its name and where its front ends."""
    for name, last, damage, end in WINDOWS:
        yield f"a long log {name}", damage(rq.log_of(longer_than_a_window(last))), end


def first_line(rq: Program, log: bytes) -> bytes:
    return rq.run("restart", rq.file(log), 4, 1000)[1].split(b"\n", 1)[0]


def questions(on: Programs) -> Iterator[Question]:
    rq = on.rq
    for row in QUEUES + REGISTRANTS + UNLAWFUL + VERSION_TWO:
        for version in row.versions:
            yield from asked(rq, row, version, PLANS)
    every_number = [(workers, 1) for workers in range(1, 65)]
    for version in BOTH:
        yield from asked(rq, THREE_QUEUES, version, every_number)
    yield from of_two_hundred(rq)
    yield from in_grains(rq)
    script, report = long_elements()
    yield from reports(rq, "a long report", rq.log_of(script), report, PLANS)
    yield is_same("a log of two windows", WINDOW < TOTAL < 2 * WINDOW, True)
    for name, log, (records, used, total, why) in windows(rq):
        want = f"front {records} records, {used} of {total} bytes, {why}".encode()
        yield Question(name, functools.partial(first_line, rq, log), want)
