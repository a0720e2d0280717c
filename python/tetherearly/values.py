"""What the protocol's answers say, and the words of its requests."""
from __future__ import annotations
import re
from typing import NamedTuple, Optional

NAME = re.compile(r"[a-z0-9._-]{1,64}")
LONGEST_PAYLOAD = 65_535
GREATEST = 2**64 - 1


class Greeting(NamedTuple):
    """What a start found: the greatest unit, the records so far, the log's bytes, how many units a crash had left open, and how many bytes
    behind the log's front were cut off."""
    unit: int
    records: int
    bytes: int
    aborted: int
    cut: int


class Last(NamedTuple):
    """A registrant's last operation in a committed unit: `enqueue` or `dequeue`."""
    kind: str
    tag: int
    element: Optional[int]


class Element(NamedTuple):
    """An element: the queue that it was enqueued in, and how many units that held it in its queue were aborted."""
    id: int
    origin: str
    priority: int
    attempts: int
    payload: bytes


class Depth(NamedTuple):
    """A queue's definition, and how many of its elements are free, new in open units, and held by open units."""
    number: int
    name: str
    limit: int
    error: Optional[int]
    free: int
    fresh: int
    held: int


class Tag(NamedTuple):
    """Whose operation it is: a registrant of the queue, and a number of its own."""
    who: str
    number: int

    def words(self) -> str:
        return f"{name(self.who)} {natural(self.number, GREATEST)}"


# --- words of requests: what the protocol has no word for is a ValueError, and is not sent -------------------------------------------

def name(text: str) -> str:
    if not NAME.fullmatch(text):
        raise ValueError(f"not 1 to 64 of a-z 0-9 - . _: {text!r}")
    return text


def natural(number: int, most: int) -> int:
    if not 0 <= number <= most:
        raise ValueError(f"not 0 to {most}: {number}")
    return number


def hexadecimal(payload: bytes) -> str:
    if len(payload) > LONGEST_PAYLOAD:
        raise ValueError(f"a payload has at most {LONGEST_PAYLOAD} bytes, and this one {len(payload)}")
    return payload.hex() or "-"


# --- words of answers --------------------------------------------------------------------------------------------------------------

def payload_of(word: str) -> bytes:
    return b"" if word == "-" else bytes.fromhex(word)


def optional(word: str) -> Optional[int]:
    return None if word == "-" else int(word)


def greeting_of(line: str) -> Greeting:
    words = line.split()
    unit, records, size, aborted, cut = (int(it) for it in words[3:12:2])
    return Greeting(unit, records, size, aborted, cut)


def last_of(answer: str) -> Optional[Last]:
    words = answer.split()
    return None if words[1] == "none" else Last(words[1], int(words[2]), optional(words[3]))


def element_of(answer: str) -> Optional[Element]:
    words = answer.split()
    return None if words[0] == "none" else Element(int(words[1]), words[2], int(words[3]), int(words[4]), payload_of(words[5]))


def depth_of(line: str) -> Depth:
    words = line.split()
    return Depth(int(words[1]), words[2], int(words[4]), optional(words[6]), int(words[8]), int(words[10]), int(words[12]))


def free_of(line: str, names: dict[int, str]) -> Element:
    """The element of an `e` line."""
    words = line.split()
    return Element(int(words[1]), names[int(words[3])], int(words[5]), int(words[7]), payload_of(words[8]))
