"""Shared. The protocol of docs/SERVE.md on one thread: what each line answers, and which bytes the log has behind it; and what a start makes of
a file, a plain log or one that was carried on. It stands on the second program in Python, and knows nothing of how lines come, and when they are
written and synced."""
from __future__ import annotations
import re, struct
from collections.abc import Callable, Iterator
from typing import NamedTuple

import frames as records
from driven import body_of, spelling
from frames import CARRIED_AT, HEADER, carried_bytes, carried_header_of, chained, header_of, right_at
from second import NAME, Element, Machine, Note, Restart, dashed

# The longest line, before its LF; the longest log; the most bytes that a checkpoint's state may have, and the most records that it counts.
LONGEST_LINE, LONGEST_LOG, LARGEST_STATE, MOST_RECORDS = 131_254, 2**32 - 1, 268_435_455, 2**63 - 1
# So many bytes at most are written and not synced; and so long is the frame of a COMMIT or an ABORT.
WINDOW, END = 1_048_576, 45
# A log of so many bytes is carried on, if nothing else is told.
CARRY_AT = 3_221_225_472
NUMBER = re.compile(rb"0|[1-9][0-9]*")
HEX = re.compile(rb"(?:[0-9a-f]{2}){1,65535}")


class NoRequest(Exception):
    """The line is no request."""


class Refusal(Exception):
    """The request is not lawful now: the word of the protocol, and a text."""


class Answer(NamedTuple):
    """The lines that answer a request, without the last LF; and whether they say that all before them is safe."""
    text: str
    is_safe: bool = False

    def is_no(self) -> bool:
        return self.text.startswith(("refused ", "error: "))


# --- the words of a line -------------------------------------------------------------------------------------------

def number(most: int) -> Callable[[bytes], int]:
    def read(word: bytes) -> int:
        if not NUMBER.fullmatch(word) or int(word) > most:
            raise NoRequest
        return int(word)
    return read


def name(word: bytes) -> bytes:
    if not NAME.fullmatch(word):
        raise NoRequest
    return word


def error_name(word: bytes) -> bytes | None:
    return None if word == b"-" else name(word)


def who(word: bytes) -> bytes:
    return b"" if word == b"-" else name(word)


def payload(word: bytes) -> bytes:
    if word != b"-" and not HEX.fullmatch(word):
        raise NoRequest
    return b"" if word == b"-" else bytes.fromhex(word.decode())


def later(word: bytes) -> bool:
    if word != b"later":
        raise NoRequest
    return True


U64 = number(2**64 - 1)
# Each request with the words behind it; what stands behind `may` may be left out.
FORMS: dict[bytes, tuple[tuple[Callable, ...], tuple[Callable, ...]]] = {
    b"define": ((name, number(65_535), error_name), ()), b"register": ((name, name), ()), b"deregister": ((name, name), ()),
    b"begin": ((), (U64,)), b"enqueue": ((U64, name, number(255), who, U64, payload), ()), b"dequeue": ((U64, name, who, U64), ()),
    b"commit": ((U64,), (later,)), b"settle": ((), ()), b"abort": ((U64,), ()), b"kill": ((name, U64), ()), b"checkpoint": ((), ()),
    b"carry": ((), ()), b"last": ((name, name), ()), b"queues": ((), ()), b"queue": ((name, U64), ()), b"close": ((), ()),
}


def request_of(line: bytes) -> tuple[str, list]:
    """What a line asks for, and its words."""
    kind, *words = line.split(b" ")
    must, may = FORMS.get(kind, (None, ()))
    if len(line) > LONGEST_LINE or must is None or not len(must) <= len(words) <= len(must) + len(may):
        raise NoRequest
    return kind.decode(), [read(word) for read, word in zip(must + may, words)]


# --- what requests do ----------------------------------------------------------------------------------------------

class Model:
    """A queue manager: the state behind the records of a log, and the log's bytes."""

    def __init__(self, machine: Machine, log: bytes) -> None:
        self.machine, self.log = machine, bytearray(log)
        self.doomed: set[int] = set()
        self.is_closed = False
        # The logs that it went on from, each with the number of records behind it; and at which length the log is carried on by itself.
        self.past: list[tuple[int, bytes]] = []
        self.least, self.due = CARRY_AT, LONGEST_LOG + 1
        # Makes the file of a new log, behind so many records: refused if that can't be made.
        self.put_on: Callable[[int, bytes], None] = lambda records, new: None

    def carries_at(self, least: int) -> Model:
        """A log of so many bytes is carried on, if it has twice as many as it began with."""
        self.least, self.due = least, max(least, 2 * begun(self.log))
        return self

    def answer(self, line: bytes) -> Answer:
        """Does what a line asks for, and answers it; carries the log on behind it, if that is due."""
        answer = self.answered(line)
        if self.is_due():
            self.carry_by_itself()
        return answer

    def is_due(self) -> bool:
        """Whether the log is carried on now, behind a line."""
        return not self.is_closed and len(self.log) >= self.due

    def answered(self, line: bytes) -> Answer:
        try:
            kind, words = request_of(line)
            return getattr(self, kind)(*words)
        except NoRequest:
            self.doomed |= self.machine.open
            return Answer("error: no request")
        except Refusal as refusal:
            return Answer("refused {}: {}".format(*refusal.args))

    def queue_of(self, name: bytes) -> int:
        for number, queue in enumerate(self.machine.queues):
            if queue[0] == name:
                return number
        raise Refusal("no-queue", "no such queue")

    def must_be_open(self, unit: int) -> None:
        if unit not in self.machine.open:
            raise Refusal("no-unit", "no such unit is open")

    def must_be_known(self, queue: int, who: bytes) -> None:
        if who and (queue, who) not in self.machine.registrants:
            raise Refusal("no-registrant", "not registered with this queue")

    def write(self, record: tuple, body: bytes | None = None, opens: int = 0) -> None:
        """Does a record and appends its frame. There is room behind it for the ends of all open units, of those that it opens too."""
        frame = chained(bytes(self.log[-32:]), [body or body_of(record)])[32:]
        is_end = record[0] in ("commit", "abort")
        if not is_end and len(self.log) + len(frame) + END * (len(self.machine.open) + opens) > LONGEST_LOG:
            raise Refusal("full", "the log has no room")
        if not self.machine.takes(record):
            raise AssertionError(f"not lawful: {record}")
        self.log += frame

    # --- queues and registrants ------------------------------------------------------------------------------------

    def define(self, name: bytes, limit: int, error: bytes | None) -> Answer:
        known = [it[0] for it in self.machine.queues]
        if name in known:
            number = known.index(name)
            _, its_limit, its_error = self.machine.queues[number]
            if (limit, error) != (its_limit, None if its_error is None else known[its_error]):
                raise Refusal("defined", "it is defined otherwise")
            return Answer(f"queue {number}", True)
        queue = None if error is None else self.queue_of(error)
        nests = queue is not None and self.machine.version == 1 and self.machine.queues[queue][2] is not None
        if limit > 1000 or (limit == 0) != (queue is None) or nests:
            raise Refusal("limit", "this limit does not go with this error queue")
        if len(known) == 4096:
            raise Refusal("queues", "no further queue can be defined")
        self.write(("define", limit, records.NO_QUEUE if queue is None else queue, name))
        return Answer(f"queue {len(known)}", True)

    def told(self, queue: int, who: bytes) -> str:
        """How far a registrant came."""
        last = self.machine.registrants[queue, who]
        return "last none" if last is None else f"last {last.said[0]} {last.said[1]} {dashed(last.said[2])}"

    def register(self, name: bytes, who: bytes) -> Answer:
        queue = self.queue_of(name)
        if (queue, who) not in self.machine.registrants:
            self.write(("register", queue, who))
        return Answer(self.told(queue, who), True)

    def deregister(self, name: bytes, who: bytes) -> Answer:
        queue = self.queue_of(name)
        self.must_be_known(queue, who)
        self.write(("deregister", queue, who))
        return Answer("ok", True)

    def last(self, name: bytes, who: bytes) -> Answer:
        queue = self.queue_of(name)
        self.must_be_known(queue, who)
        return Answer(self.told(queue, who))

    # --- units -----------------------------------------------------------------------------------------------------

    def begin(self, unit: int | None = None) -> Answer:
        unit = self.machine.greatest + 1 if unit is None else unit
        if unit <= self.machine.greatest:
            raise Refusal("unit", "a unit of this number, or a greater one, was begun")
        self.write(("begin", unit), opens=1)
        return Answer(f"unit {unit}")

    def may_act(self, unit: int, name: bytes, who: bytes, tag: int) -> int:
        """The queue that a unit may use. A unit that may not is doomed."""
        if not who and tag:
            raise NoRequest
        queue = self.queue_of(name)
        self.must_be_open(unit)
        self.must_be_known(queue, who)
        return queue

    def acts(self, unit: int, do: Callable[[], Answer]) -> Answer:
        """An operation of a unit, which is doomed if it is refused."""
        try:
            return do()
        except Refusal:
            self.doomed |= self.machine.open & {unit}
            raise

    def enqueue(self, unit: int, name: bytes, priority: int, who: bytes, tag: int, payload: bytes) -> Answer:
        def do() -> Answer:
            queue, element = self.may_act(unit, name, who, tag), self.machine.place
            self.write(("enqueue", unit, queue, priority, who, tag, payload))
            return Answer(f"element {element}")
        return self.acts(unit, do)

    def dequeue(self, unit: int, name: bytes, who: bytes, tag: int) -> Answer:
        def do() -> Answer:
            queue = self.may_act(unit, name, who, tag)
            best = next(iter(self.machine.free(queue)), None)
            if best is None:
                return Answer("none")
            it = self.machine.elements[best]
            told = (self.machine.queues[it.origin][0].decode(), it.priority, it.attempts, it.payload.hex() or "-")
            self.write(("dequeue", unit, queue, who, tag))
            return Answer("element {} {} {} {} {}".format(best, *told))
        return self.acts(unit, do)

    def end(self, kind: str, unit: int) -> None:
        self.write((kind, unit))
        self.doomed.discard(unit)

    def commit(self, unit: int, is_later: bool = False) -> Answer:
        self.must_be_open(unit)
        if unit in self.doomed:
            raise Refusal("doomed", "a line of this unit was refused")
        self.end("commit", unit)
        return Answer("later") if is_later else Answer("ok", True)

    def abort(self, unit: int) -> Answer:
        self.must_be_open(unit)
        self.end("abort", unit)
        return Answer("ok")

    def settle(self) -> Answer:
        return Answer("ok", True)

    # --- what concerns all -----------------------------------------------------------------------------------------

    def kill(self, name: bytes, element: int) -> Answer:
        queue = self.queue_of(name)
        if self.machine.version == 1:
            raise Refusal("version", "a log of version 1 has no kill")
        if element not in self.machine.free(queue):
            return Answer("none", True)
        self.write(("kill", queue, element))
        return Answer("ok", True)

    def spelled(self) -> bytes:
        """The state, as a checkpoint has it."""
        if self.machine.place > MOST_RECORDS:
            raise Refusal("ended", "no checkpoint counts so many records")
        state = spelling(self.machine)
        if len(state) > LARGEST_STATE:
            raise Refusal("large", "the state is too large")
        return state

    def checkpoint(self) -> Answer:
        at, state = len(self.log), self.spelled()
        self.write(("checkpoint",), b"\x09" + state)
        return Answer(f"checkpoint {at}", True)

    def carry(self) -> Answer:
        return Answer(f"carried {self.carry_on()}", True)

    def carry_on(self) -> int:
        """Goes on in a new log, which begins with the state: behind how many records."""
        records = self.machine.place
        new = carried_bytes(self.machine.version, bytes(self.log[-32:]), [b"\x09" + self.spelled()])
        self.put_on(records, new)
        self.machine.takes(("checkpoint",))
        self.past.append((records, bytes(self.log)))
        self.log = bytearray(new)
        self.carries_at(self.least)
        return records

    def carry_by_itself(self) -> None:
        try:
            self.carry_on()
        except Refusal:
            self.put_off()

    def put_off(self) -> None:
        """It was not carried on: it is tried again when it has more than a tenth of what was left."""
        self.due = len(self.log) + (LONGEST_LOG - len(self.log)) // 10 + 1

    def queues(self) -> Answer:
        def lines() -> Iterator[str]:
            for queue in range(len(self.machine.queues)):
                its = [it for it in self.machine.elements.values() if it.home == queue]
                fresh, held = sum(it.fresh is not None for it in its), sum(it.held is not None for it in its)
                yield f"{self.machine.queue_line(queue)} free {len(its) - fresh - held} fresh {fresh} held {held}"
        return listed(lines())

    def queue(self, name: bytes, count: int) -> Answer:
        queue = self.queue_of(name)
        return listed([*map(self.machine.element_line, self.machine.free(queue)[:count]), *self.machine.registrant_lines(queue)])

    def close(self) -> Answer:
        self.abort_all()
        self.is_closed = True
        return Answer(f"closed {len(self.log)}", True)

    def abort_all(self) -> None:
        """What the end of input does, too."""
        for unit in sorted(self.machine.open):
            self.end("abort", unit)


def listed(lines: Iterator[str] | list[str]) -> Answer:
    found = list(lines)
    return Answer("\n".join([f"lines {len(found)}", *found]))


# --- states --------------------------------------------------------------------------------------------------------

class Spelled:
    """The bytes of a state, read from the front."""

    def __init__(self, bytes_: bytes) -> None:
        self.bytes, self.at = bytes_, 0

    def take(self, form: str) -> tuple:
        self.at += struct.calcsize(form)
        return struct.unpack(form, self.bytes[self.at - struct.calcsize(form):self.at])

    def text(self, form: str) -> bytes:
        """Bytes behind their count."""
        (count,) = self.take(form)
        self.at += count
        return self.bytes[self.at - count:self.at]

    def number(self, none: int, form: str) -> int | None:
        (found,) = self.take(form)
        return None if found == none else found

    def list(self) -> range:
        return range(*self.take(">I"))

    def said(self, kind: int) -> tuple[str, int, int | None]:
        return ("enqueue", "dequeue")[kind - 1], *self.take(">Q"), self.number(2**64 - 1, ">Q")

    def registrant(self, machine: Machine) -> None:
        at = (*self.take(">I"), self.text(">B"))
        (kind,) = self.take(">B")
        machine.registrants[at] = Note(*self.take(">Q"), 0, at, self.said(kind)) if kind else None

    def element(self, machine: Machine) -> None:
        id, home, origin, priority, attempts, mark = self.take(">QIIBQB")
        (unit,) = self.take(">Q") if mark else (None,)
        holds = {0: {}, 1: {"fresh": unit}, 2: {"held": unit}}[mark]
        machine.elements[id] = Element(home, origin, priority, self.text(">H"), attempts, **holds)

    def note(self, machine: Machine) -> None:
        place, unit, queue = self.take(">QQI")
        at = (queue, self.text(">B"))
        machine.notes.append(Note(place, unit, at, self.said(*self.take(">B"))))

    def put(self, machine: Machine) -> None:
        """Puts the state into an empty machine."""
        machine.place, machine.greatest, machine.committed, machine.aborted = self.take(">QQQQ")
        for _ in self.list():
            limit, error = self.take(">H")[0], self.number(2**32 - 1, ">I")
            machine.queues.append((self.text(">B"), limit, error))
        machine.open = {unit for _ in self.list() for unit in self.take(">Q")}
        for one in (self.registrant, self.element, self.note):
            for _ in self.list():
                one(machine)


class CarriedRestart(Restart):
    """The front of a carried file: the state that it begins with, and what is behind that."""

    def take(self, log: bytes) -> str:
        if self.used > HEADER:
            return super().take(log)
        self.used = CARRIED_AT
        why = super().take(log)
        if why != "whole" or self.begins(self.bodies[0]):
            return why
        self.bodies = []
        return "no checkpoint"

    def begins(self, body: bytes) -> bool:
        """Begins in the state that a checkpoint spells, if it is one."""
        self.machine = Machine(self.machine.version)
        try:
            Spelled(body[1:]).put(self.machine)
        except (struct.error, KeyError, IndexError):
            return False
        is_checkpoint = body == b"\x09" + spelling(self.machine)
        self.machine.place += 1
        return is_checkpoint


def begun(log: bytes) -> int:
    """How many bytes a log began with: its header, and of a carried file the frame of the state."""
    if log[5] == 0:
        return HEADER
    return CARRIED_AT + 36 + int.from_bytes(log[CARRIED_AT:CARRIED_AT + 4], "big")


# --- starts --------------------------------------------------------------------------------------------------------

class Start:
    """What a start makes of the bytes of a file: a model behind the ABORTs of the units that were open, and the greeting; or nothing, if
    no crash left them."""

    def __init__(self, log: bytes) -> None:
        self.model: Model | None = None
        is_carried = log[:HEADER] in (carried_header_of(1), carried_header_of(2))
        if not is_carried and log[:HEADER] not in (header_of(1), header_of(2)) or len(log) > LONGEST_LOG:
            self.why = "not a log"
            return
        found = CarriedRestart(log) if is_carried else Restart(log)
        self.why, self.front, self.cut, self.aborted = found.why, log[:found.used], log[found.used:], found.cut_off
        if is_carried and not found.bodies:
            return
        if self.is_left_by_crash():
            found.machine.place += len(found.cut_off)
            self.model = Model(found.machine, chained(self.front, map(records.abort, found.cut_off)))

    def has_right(self) -> bool:
        """Whether a frame that is right in itself stands behind the front."""
        log = self.front + self.cut
        return any(right_at(log, at) for at in range(len(self.front) + 1, len(log) - 36))

    def is_left_by_crash(self) -> bool:
        """A frame that was cut short may be long; other bytes were not synced."""
        if self.why == "cut" and len(self.cut) > WINDOW:
            return not self.has_right()
        return self.why in ("whole", "cut") or self.why in ("length", "chain") and len(self.cut) <= WINDOW

    def kept(self) -> bytes:
        """What is kept beside the log: nothing, if it is the beginning of a frame."""
        return b"" if self.why == "cut" and not self.has_right() else self.cut

    def greeting(self) -> str:
        it = self.model
        return (f"ready 1 unit {it.machine.greatest} records {it.machine.place} bytes {len(it.log)} aborted {len(self.aborted)} "
                f"cut {len(self.cut)}")


def new_model(version: int = 2) -> Model:
    return Model(Machine(version), header_of(version))
