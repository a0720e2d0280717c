"""What can be said in place of an answer: an exception for each word of the protocol."""
from __future__ import annotations


class ServeError(Exception):
    """The answer is not the one that was asked for."""


class Refused(ServeError):
    """Not lawful now: nothing was written, and the manager goes on. `word` is the protocol's."""

    word = ""


class NoQueue(Refused):
    """No queue has this name."""
    word = "no-queue"


class NoUnit(Refused):
    """The unit is not open."""
    word = "no-unit"


class NoRegistrant(Refused):
    """The name is not registered with this queue."""
    word = "no-registrant"


class UnitNotGreater(Refused):
    """The unit's number is not greater than every one before."""
    word = "unit"


class DefinedOtherwise(Refused):
    """The queue is defined with another limit or error queue."""
    word = "defined"


class BadLimit(Refused):
    """The limit does not go with this error queue, or is above 1,000."""
    word = "limit"


class TooManyQueues(Refused):
    """4,096 queues are defined."""
    word = "queues"


class OldVersion(Refused):
    """The log has version 1, which has no KILL."""
    word = "version"


class Doomed(Refused):
    """The unit can't be committed, since a line of it was refused. It was aborted."""
    word = "doomed"


class LogFull(Refused):
    """The record, and the ends of all open units, would not fit into the log."""
    word = "full"


class StateTooLarge(Refused):
    """The state has more bytes than a checkpoint may have."""
    word = "large"


class NumbersEnd(Refused):
    """More records were done than a checkpoint may count."""
    word = "ended"


class NotCarried(Refused):
    """The new log could not be made: what the process said on standard error tells why."""
    word = "carry"


class BadRequest(ServeError):
    """The line was no request: a fault of the caller. Every unit that was open is doomed."""


class NotServed(ServeError):
    """The answer is none of the protocol's: the program is no `rqlog serve`, or a later one."""


class CannotOpen(ServeError):
    """There was no greeting. `status` is that of the process: 1 no log or damage, 2 another program, 3 the file, 4 memory."""

    def __init__(self, said: str, status: int) -> None:
        super().__init__(f"{said} (status {status})")
        self.said, self.status = said, status


class Lost(ServeError):
    """The manager is gone. What was not answered is in doubt: start another, and register. `answers` are those of the lines that were asked
    together and answered before."""

    def __init__(self, said: str) -> None:
        super().__init__(said)
        self.answers: list[str] = []


REFUSALS: dict[str, type[Refused]] = {it.word: it for it in Refused.__subclasses__()}


def refusal_of(answer: str) -> ServeError:
    """The exception of an answer `refused WORD: TEXT` or `error: TEXT`."""
    head, _, text = answer.partition(": ")
    if head == "error":
        return BadRequest(text)
    word = head[len("refused "):]
    return REFUSALS.get(word, Refused)(text)
