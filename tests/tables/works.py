"""Rows. What rq makes of a log beside its report: the report from a checkpoint, an audit, the closed log and the upgraded one; and what a crash
leaves of what closes it."""
from __future__ import annotations
import functools
from collections.abc import Callable, Iterator
from typing import NamedTuple

from frames import CARRIED_AT, carried, changed, flipped, framed
from trying import Ended, refused
from .asking import (BEST_FIRST, BOTH, CHECKPOINT, KILL, NONE_LEFT, NOT_A_LOG, ONE_ELEMENT, Program, Programs, Question, audits, first, is_same,
                     makes, reports, reports_at, script, told, whole)

NO_CHECKPOINT = refused("no checkpoint")

# A checkpoint of the state before all records, which spells 52 zero bytes.
ZEROES = "checkpoint-hex " + "00" * 52 + "\n"
# What the state after the first eight lines of `CHECKPOINT` spells: counts, definitions, open units, registrants, elements
# and notes.
SPELLED = bytes.fromhex("""
    0000000000000008 0000000000000002 0000000000000001 0000000000000000
    00000001 0000 ffffffff 04 6a6f6273
    00000001 0000000000000002
    00000001 00000000 03 616e6e 00
    00000002
    0000000000000003 00000000 00000000 05 0000000000000000 02 0000000000000002 0001 61
    0000000000000007 00000000 00000000 08 0000000000000000 01 0000000000000002 0001 62
    00000001 0000000000000006 0000000000000002 00000000 03 616e6e 02 000000000000000a 0000000000000003
""")


def with_line(line: str) -> str:
    """The script with another line in place of `checkpoint`."""
    return CHECKPOINT.replace("checkpoint\n", line)


class Row(NamedTuple):
    name: str
    script: str
    # How many bytes the log has.
    bytes: int
    audit: str
    # The report of a restart, if it is asked for.
    restart: str | None
    # What a restart says from an offset, and the offsets at which it is refused.
    at: dict[int, str]
    refused_at: dict[int, Ended]


WHOLE = """\
front 10 records, 724 of 724 bytes, whole
units 2 committed, 0 aborted, 0 cut off
queue 0 jobs limit 0 error -
e 7 from 0 priority 8 attempts 0 62
r ann dequeue tag 10 element 3
"""
CUT_OFF = """\
front 9 records, 679 of 679 bytes, whole
units 1 committed, 0 aborted, 1 cut off
queue 0 jobs limit 0 error -
e 3 from 0 priority 5 attempts 1 61
r ann none
"""
FALSE = """\
front 10 records, 581 of 581 bytes, whole
units 2 committed, 0 aborted, 0 cut off
queue 0 jobs limit 0 error -
e 7 from 0 priority 8 attempts 0 62
r ann dequeue tag 10 element 3
"""
FROM_FALSE = """\
front 1 records, 536 of 581 bytes, law
units 0 committed, 0 aborted, 0 cut off
"""
ALL_NUMBERS = """\
front 4294967296 records, 129 of 129 bytes, whole
units 0 committed, 0 aborted, 0 cut off
"""
ONE_RECORD = """\
front 1 records, 129 of 129 bytes, whole
units 0 committed, 0 aborted, 0 cut off
"""
GREATEST = "checkpoint-hex 00000000ffffffff" + "00" * 44 + "\n"

# Records that take members out of a state, with a checkpoint behind each of them.
TAKEN_FROM = script("""\
define dead 0 -; define jobs 1 0; register 1 ann
begin 1; enqueue 1 1 5 ann 1 6869; enqueue 1 1 4 - 0 -; checkpoint; commit 1
checkpoint
begin 2; dequeue 2 1 ann 2; checkpoint; abort 2
checkpoint
begin 3; enqueue 3 1 0 - 0 616263; abort 3
checkpoint
begin 4; dequeue 4 0 - 0; dequeue 4 1 ann 9; checkpoint; deregister 1 ann; checkpoint; commit 4
checkpoint""")
TAKEN_FROM_AUDIT = """\
checkpoint 346 true
checkpoint 634 true
checkpoint 942 true
checkpoint 1246 true
checkpoint 1600 true
checkpoint 1966 true
checkpoint 2277 true
checkpoint 2515 true
"""

ROWS = [
    Row("a true checkpoint", CHECKPOINT, 724, "checkpoint 447 true\n", WHOLE, {447: WHOLE},
        {448: NO_CHECKPOINT, 387: NO_CHECKPOINT, 39: NO_CHECKPOINT}),
    Row("a unit that is cut off", first(9, CHECKPOINT), 679, "checkpoint 447 true\n", CUT_OFF, {447: CUT_OFF}, {}),
    Row("a false checkpoint", with_line(ZEROES), 581, "checkpoint 447 false\n", FALSE, {447: FROM_FALSE}, {}),
    Row("a checkpoint of no state", with_line("checkpoint-hex 00\n"), 530, "checkpoint 447 false\n", None, {},
        {447: refused("bad checkpoint")}),
    Row("the greatest record number", GREATEST, 129, "checkpoint 40 false\n", ONE_RECORD, {40: ALL_NUMBERS}, {}),
    Row("two checkpoints", "checkpoint\ncheckpoint\n", 218, "checkpoint 40 true\ncheckpoint 129 true\n", None, {}, {}),
    Row("behind what takes members away", TAKEN_FROM, 2626, TAKEN_FROM_AUDIT, None, {}, {}),
]


def asked(rq: Program, row: Row, version: int) -> Iterator[Question]:
    name, log = f"{row.name}, version {version}", rq.log_of(row.script, version)
    yield is_same(f"{name}: bytes of the log", len(log), row.bytes)
    yield audits(rq, name, log, row.audit)
    if row.restart is not None:
        yield from reports(rq, name, log, row.restart)
    for offset, report in row.at.items():
        yield from reports_at(rq, name, log, offset, report)
    for offset, want in row.refused_at.items():
        ask = functools.partial(rq.run, "restart-at", rq.file(log), offset, 1, 1)
        yield Question(f"{name}: restart-at {offset}", ask, want)


def spellings(rq: Program, version: int) -> Iterator[Question]:
    """The bytes of checkpoints that `checkpoint` lines make: a length, the kind 9, and what the state before it spells."""
    inside, behind = rq.log_of(CHECKPOINT, version), rq.log_of("checkpoint\ncheckpoint\n", version)
    yield is_same(f"the state inside a unit, version {version}", inside[447:647], bytes.fromhex("000000c4 09") + SPELLED)
    second = bytes.fromhex("00000035 09 0000000000000001") + bytes(44)
    yield is_same(f"the state behind a checkpoint, version {version}", behind[129:186], second)


def audit_behind_eight(rq: Program, spelled: str) -> Ended:
    """The audit of the script's first eight lines and of a checkpoint of these bytes behind them."""
    log = rq.made_log(first(8, CHECKPOINT) + f"checkpoint-hex {spelled}\n")
    return rq.run("audit", rq.file(log), 1)


def changed_spellings(rq: Program) -> Iterator[Question]:
    """A checkpoint is true by all of its bytes: one with another digit at any place is false."""
    spelled = SPELLED.hex()
    yield Question("the bytes of the state", functools.partial(audit_behind_eight, rq, spelled), told("checkpoint 447 true\n"))
    for place, digit in enumerate(spelled):
        other = spelled[:place] + ("1" if digit == "0" else "0") + spelled[place + 1:]
        ask = functools.partial(audit_behind_eight, rq, other)
        yield Question(f"another digit at {place} of the state", ask, told("checkpoint 447 false\n"))


def no_states() -> Iterator[tuple[str, bytes]]:
    """What is nearly the spelling of the state before all records, and spells none."""
    yield "a byte too few", bytes(51)
    yield "a byte too many", bytes(53)
    yield "a record number past the greatest", changed(bytes(52), 3, b"\1")
    for place in range(5):
        yield f"a count without members, list {place}", changed(bytes(52), 32 + 4 * place, b"\xff" * 4)


def refused_spellings(rq: Program, version: int) -> Iterator[Question]:
    """The spelling of the state before all records is read whole, and what is none is refused."""
    yield from reports_at(rq, f"no members, version {version}", rq.log_of(ZEROES, version), 40, ONE_RECORD)
    for name, spelled in no_states():
        log = rq.log_of(f"checkpoint-hex {spelled.hex()}\n", version)
        ask = functools.partial(rq.run, "restart-at", rq.file(log), 40, 1, 1)
        yield Question(f"{name}, version {version}", ask, refused("bad checkpoint"))

# --- files that begin with a checkpoint ------------------------------------------------------------------------------

# Where the front of the log of `ONE_ELEMENT` ends.
ONE_ELEMENT_ENDS = 237
# Behind its checkpoint: the bytes of the record number and of the count of committed units that a checkpoint has, how many bytes
# it has at most, and whether it is true. Two of one number are not both true; one counts wrong, and one is cut off.
POINTS = [(5, 1, None, True), (5, 1, None, False), (7, 2, None, False), (8, 1, 8, False), (9, 1, None, True)]


def carried_one(rq: Program) -> bytes:
    """A log that begins with the state of `ONE_ELEMENT`."""
    return carried(rq.log_of(ONE_ELEMENT + "checkpoint\n"), ONE_ELEMENT_ENDS)


def with_points(log: bytes) -> tuple[bytes, list[tuple[int, bool]]]:
    """The log that begins with a checkpoint alone, and five more behind it; where these stand, and whether they are true."""
    spelling, found = log[CARRIED_AT + 5:-32], []
    for number, committed, most, truth in POINTS:
        found.append((len(log), truth))
        told = bytearray(spelling)
        told[7], told[23] = number, committed
        log = framed(log, b"\x09" + told[:most])
    return log, found


# --- logs that are closed --------------------------------------------------------------------------------------------

class Closing(NamedTuple):
    name: str
    script: str
    # What becomes of the script's log before it is closed.
    damage: Callable[[bytes], bytes]
    # The script of the closed log.
    closed: str


THREE_LINES = first(3, ONE_ELEMENT)
UNLAWFUL = THREE_LINES + "commit 7\ncommit 1\n"

CLOSINGS = [
    Closing("a unit is open", first(8, BEST_FIRST), whole, first(8, BEST_FIRST) + "abort 2\n"),
    Closing("two units are open", first(8, NONE_LEFT), whole, first(8, NONE_LEFT) + "abort 2\nabort 3\n"),
    Closing("a cut frame behind the front", ONE_ELEMENT, lambda log: log[:-1], THREE_LINES + "abort 1\n"),
    Closing("a wrong digest behind the front", ONE_ELEMENT, lambda log: flipped(log, 236), THREE_LINES + "abort 1\n"),
    Closing("a length of 0 behind the front", first(8, BEST_FIRST), lambda log: log + bytes(9), first(8, BEST_FIRST) + "abort 2\n"),
    Closing("an unlawful record behind the front", UNLAWFUL, whole, THREE_LINES + "abort 1\n"),
    Closing("no open unit behind a checkpoint", CHECKPOINT, whole, CHECKPOINT),
    Closing("no open unit", ONE_ELEMENT, whole, ONE_ELEMENT),
    Closing("no record", "", whole, ""),
]

# What the elements are of the first row, whether its log is closed or not.
RETURNED = """\
queue 0 jobs limit 0 error -
e 3 from 0 priority 9 attempts 1 62
e 4 from 0 priority 9 attempts 0 63
e 2 from 0 priority 1 attempts 0 61
"""
CLOSED = "front 9 records, 505 of 505 bytes, whole\nunits 1 committed, 1 aborted, 0 cut off\n" + RETURNED
CLOSED_BUT_ONE = "front 8 records, 460 of 504 bytes, cut\nunits 1 committed, 0 aborted, 1 cut off\n" + RETURNED
# What the queue is of the second row.
GIVEN_BACK = """\
queue 0 jobs limit 0 error -
e 2 from 0 priority 5 attempts 1 61
"""
ONE_ABORTED = "front 9 records, 488 of 488 bytes, whole\nunits 1 committed, 1 aborted, 1 cut off\n" + GIVEN_BACK


def closed_logs(rq: Program, version: int) -> Iterator[Question]:
    """Each row, closed and closed again."""
    for row in CLOSINGS:
        name, closed = f"{row.name}, version {version}", rq.log_of(row.closed, version)
        log = row.damage(rq.log_of(row.script, version))
        for workers in (1, 2, 7, 64):
            yield makes(rq, name, "close", log, closed, workers)
        yield makes(rq, f"{name}, again", "close", closed, closed)


def closed_reports(rq: Program, version: int) -> Iterator[Question]:
    """The closed log of the first row, whole and without its last byte."""
    closed = rq.log_of(CLOSINGS[0].closed, version)
    yield is_same(f"bytes of the closed log, version {version}", len(closed), 505)
    yield from reports(rq, f"the closed log, version {version}", closed, CLOSED)
    yield from reports(rq, f"the closed log without its last byte, version {version}", closed[:-1], CLOSED_BUT_ONE)


def queue_lines(rq: Program, log: bytes) -> tuple[int, bytes]:
    status, report, _ = rq.run("restart", rq.file(log), 2, 1)
    return status, report.split(b"\n", 2)[-1]


def crashes(rq: Program, version: int) -> Iterator[Question]:
    """Whatever beginning of what closes the second row's log follows it, its queue lines stay the same."""
    log, closed = rq.log_of(CLOSINGS[1].script, version), rq.log_of(CLOSINGS[1].closed, version)
    yield is_same(f"the log of two open units, version {version}", (len(log), len(closed) - len(log)), (443, 90))
    for length in range(443, 534):
        ask = functools.partial(queue_lines, rq, closed[:length])
        yield Question(f"the first {length} bytes of the closed log, version {version}", ask, (0, GIVEN_BACK.encode()))
    yield from reports(rq, f"one unit closed of two, version {version}", closed[:488], ONE_ABORTED)


def of_closings(rq: Program) -> Iterator[Question]:
    for version in BOTH:
        yield from closed_logs(rq, version)
        yield from closed_reports(rq, version)
        yield from crashes(rq, version)
    yield Question("no byte: close", functools.partial(rq.making, "close", b"", 2), (NOT_A_LOG, None))


# --- upgrades --------------------------------------------------------------------------------------------------------

class Upgrade(NamedTuple):
    name: str
    version: int
    script: str
    # What becomes of the script's log before it is upgraded.
    damage: Callable[[bytes], bytes]
    # The script of the upgraded log, which `make2` makes, and how many bytes that has.
    upgraded: str
    bytes: int


FALSE_ONE = with_line(ZEROES)

UPGRADES = [
    Upgrade("a changed payload", 1, ONE_ELEMENT, lambda log: changed(log, 159, b"\x62"), first(2, ONE_ELEMENT), 132),
    Upgrade("a true checkpoint", 1, CHECKPOINT, whole, CHECKPOINT, 724),
    Upgrade("a false checkpoint", 1, FALSE_ONE, whole, FALSE_ONE, 581),
    Upgrade("a length of 0 behind the front", 1, CHECKPOINT, lambda log: log + bytes(9), CHECKPOINT, 724),
    Upgrade("a log of version 2", 2, KILL, whole, KILL, 532),
    Upgrade("a log of version 2 without its last byte", 2, KILL, lambda log: log[:-1], first(9, KILL), 483),
    Upgrade("no record", 1, "", whole, "", 40),
]

DAMAGED = """\
front 2 records, 132 of 132 bytes, whole
units 0 committed, 0 aborted, 1 cut off
queue 0 jobs limit 0 error -
"""


def upgraded_logs(rq: Program) -> Iterator[Question]:
    """Each row, upgraded and upgraded again."""
    for row in UPGRADES:
        log, upgraded = row.damage(rq.log_of(row.script, row.version)), rq.log_of(row.upgraded, 2)
        yield is_same(f"{row.name}: bytes of the upgraded log", len(upgraded), row.bytes)
        for workers in (1, 2, 7, 64):
            yield makes(rq, row.name, "upgrade", log, upgraded, workers)
        for workers in (1, 7):
            yield makes(rq, f"{row.name}, again", "upgrade", upgraded, upgraded, workers)


def upgraded_reports(rq: Program) -> Iterator[Question]:
    """The upgraded logs of the first three rows."""
    damaged, true, false = (rq.log_of(row.upgraded, 2) for row in UPGRADES[:3])
    yield from reports(rq, "a changed payload, upgraded", damaged, DAMAGED)
    yield from reports(rq, "a true checkpoint, upgraded", true, WHOLE)
    yield from reports_at(rq, "a true checkpoint, upgraded", true, 447, WHOLE)
    yield audits(rq, "a true checkpoint, upgraded", true, "checkpoint 447 true\n")
    yield from reports(rq, "a false checkpoint, upgraded", false, FALSE)
    yield from reports_at(rq, "a false checkpoint, upgraded", false, 447, FROM_FALSE)
    yield audits(rq, "a false checkpoint, upgraded", false, "checkpoint 447 false\n")


def of_upgrades(rq: Program) -> Iterator[Question]:
    yield from upgraded_logs(rq)
    yield from upgraded_reports(rq)
    for name, content in [("no byte", b""), ("39 bytes", rq.log_of("")[:39])]:
        yield Question(f"{name}: upgrade", functools.partial(rq.making, "upgrade", content, 2), (NOT_A_LOG, None))


def questions(on: Programs) -> Iterator[Question]:
    rq = on.rq
    for version in BOTH:
        for row in ROWS:
            yield from asked(rq, row, version)
        yield from spellings(rq, version)
        yield from refused_spellings(rq, version)
    yield from changed_spellings(rq)
    yield from of_closings(rq)
    yield from of_upgrades(rq)
