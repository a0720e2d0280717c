"""Shared. Logs byte by byte, as docs/FORMAT.md has them: the bodies of records, the spelling of a state, headers and frames."""
from __future__ import annotations
import hashlib, struct
from collections.abc import Iterable, Iterator, Sequence
from typing import NamedTuple

NO_QUEUE = 2**32 - 1
HEADER = 40
# Where the checkpoint of a carried file stands.
CARRIED_AT = 72
# The longest body of a frame.
LONGEST = 2**28


# --- records -------------------------------------------------------------------------------------------------------

def define(name: bytes, limit: int = 0, error: int = NO_QUEUE) -> bytes:
    return b"\x01" + struct.pack(">HI", limit, error) + name


def register(queue: int, name: bytes) -> bytes:
    return b"\x02" + struct.pack(">I", queue) + name


def deregister(queue: int, name: bytes) -> bytes:
    return b"\x03" + struct.pack(">I", queue) + name


def begin(unit: int) -> bytes:
    return b"\x04" + struct.pack(">Q", unit)


def enqueue(unit: int, queue: int, name: bytes = b"", tag: int = 0, payload: bytes = b"a", priority: int = 5) -> bytes:
    return b"\x05" + struct.pack(">QIBB", unit, queue, priority, len(name)) + name + struct.pack(">Q", tag) + payload


def dequeue(unit: int, queue: int, name: bytes = b"", tag: int = 0) -> bytes:
    return b"\x06" + struct.pack(">QIB", unit, queue, len(name)) + name + struct.pack(">Q", tag)


def commit(unit: int) -> bytes:
    return b"\x07" + struct.pack(">Q", unit)


def abort(unit: int) -> bytes:
    return b"\x08" + struct.pack(">Q", unit)


def checkpoint(told: bytes) -> bytes:
    return b"\x09" + told


def kill(queue: int, element: int) -> bytes:
    return b"\x0a" + struct.pack(">IQ", queue, element)


# The records of the lines `START` of trying.py.
START_BODIES = [define(b"jobs"), register(0, b"ann"), begin(1), enqueue(1, 0), commit(1)]


# --- states --------------------------------------------------------------------------------------------------------

def listed(members: Iterable[bytes]) -> bytes:
    all_of_them = list(members)
    return struct.pack(">I", len(all_of_them)) + b"".join(all_of_them)


def definition(name: bytes, limit: int = 0, error: int = NO_QUEUE) -> bytes:
    """A queue, as a state spells it."""
    return struct.pack(">HIB", limit, error, len(name)) + name


def newcomer(queue: int, name: bytes) -> bytes:
    """A registrant without a last operation, as a state spells it."""
    return struct.pack(">IB", queue, len(name)) + name + b"\0"


def state(counts: tuple[int, int, int, int], definitions: Iterable[bytes], units: Iterable[bytes] = (),
          registrants: Iterable[bytes] = (), elements: Iterable[bytes] = (), notes: Iterable[bytes] = ()) -> bytes:
    """A state of these members, each as it is spelled."""
    return struct.pack(">QQQQ", *counts) + b"".join(map(listed, (definitions, units, registrants, elements, notes)))


def spelled(counts: tuple[int, int, int, int], queues: Sequence[bytes], elements: Sequence[tuple[int, bytes]],
            units: Sequence[int] = (), priority: int = 5) -> bytes:
    """A state with these open units and no registrant, whose elements are Free in queue 0, without an attempt."""
    members = (struct.pack(">QIIBQBH", id, 0, 0, priority, 0, 0, len(payload)) + payload for id, payload in elements)
    return state(counts, map(definition, queues), (struct.pack(">Q", unit) for unit in units), (), members)


# --- frames that are made ------------------------------------------------------------------------------------------

def header_of(version: int, kind: int = 0) -> bytes:
    """A right header, of whatever version."""
    magic = b"RQLOG" + bytes([kind, 0, version])
    return magic + hashlib.sha256(magic).digest()


def carried_header_of(version: int) -> bytes:
    return header_of(version, 1)


def pieces_of(header: bytes, bodies: Iterable[bytes]) -> Iterator[bytes]:
    """What ends with a digest, then a right frame for each body, piece by piece."""
    yield header
    digest = header[-32:]
    for body in bodies:
        framed = len(body).to_bytes(4, "big") + body
        digest = hashlib.sha256(digest + framed).digest()
        yield framed + digest


def chained(header: bytes, bodies: Iterable[bytes]) -> bytes:
    return b"".join(pieces_of(header, bodies))


def framed(log: bytes, body: bytes) -> bytes:
    """The log and a right frame of the body."""
    return chained(log, [body])


def write_log(path: str, header: bytes, bodies: Iterable[bytes]) -> None:
    with open(path, "wb") as log:
        log.writelines(pieces_of(header, bodies))


def changed(log: bytes, offset: int, by: bytes) -> bytes:
    """The log with these bytes in place of those at the offset."""
    return log[:offset] + by + log[offset + len(by):]


def flipped(log: bytes, offset: int) -> bytes:
    """The log with the lowest bit of a byte turned."""
    return changed(log, offset, bytes([log[offset] ^ 1]))


# --- carried files -------------------------------------------------------------------------------------------------

def carried_bytes(version: int, link: bytes, bodies: Iterable[bytes]) -> bytes:
    """A carried file of these bodies, behind a log with this last digest."""
    return chained(carried_header_of(version) + link, bodies)


def carried(log: bytes, at: int) -> bytes:
    """The log from its checkpoint at an offset on, in a file of its own."""
    return carried_header_of(log[7]) + log[at - 32:]


def as_log(file: bytes) -> bytes:
    """The log as which a carried file is read: `rq` takes it, from the checkpoint on."""
    return header_of(file[7]) + file[HEADER:]


def read_as_log(path: str) -> str:
    """A file of the log as which a carried file is read."""
    with open(path, "rb") as file, open(path + ".log", "wb") as to:
        to.write(as_log(file.read()))
    return path + ".log"


# --- frames that are read ------------------------------------------------------------------------------------------

def spans_of(log: bytes, at: int = HEADER) -> Iterator[tuple[int, int]]:
    """Where the frames of a log begin and end, by their lengths alone; the last one may end behind the log."""
    while at < len(log):
        end = at + 36 + int.from_bytes(log[at:at + 4], "big")
        yield at, end
        at = end


def bodies_of(log: bytes) -> list[bytes]:
    """The bodies of a log that is whole."""
    return [log[at + 4:end - 32] for at, end in spans_of(log)]


class Frame(NamedTuple):
    at: int
    body: bytes
    end: int


def end_of(log: bytes, at: int) -> int | None:
    """Where the frame at a place ends, whatever its digest; none where no whole frame stands there."""
    size = int.from_bytes(log[at:at + 4], "big")
    return at + 36 + size if 1 <= size <= LONGEST and at + 36 + size <= len(log) else None


def right_at(log: bytes, at: int) -> Frame | None:
    """The frame at an offset that is right in itself."""
    end = end_of(log, at)
    if end is None or hashlib.sha256(log[at - 32:end - 32]).digest() != log[end - 32:end]:
        return None
    return Frame(at, log[at + 4:end - 32], end)


def frames_from(log: bytes, at: int = HEADER) -> Iterator[Frame]:
    """The frames one behind the other, up to the first that is not right."""
    while frame := right_at(log, at):
        yield frame
        at = frame.end
