"""Recoverable queues in one log: a client of `rqlog serve`.

    with Manager("orders.log") as m:
        jobs = m.define("jobs", limit=3, error=m.define("dead"))
        ann = jobs.register("ann")                       # ann.last says how far she came
        with m.unit() as u:                              # commits at its end, aborts if it is left by an exception
            u.enqueue(jobs, b"hello", by=ann.tag(10))

What a unit did is safe once its `with` is left without an exception. `Lost` says that it is in doubt: start again, and register.
"""
from .errors import (BadLimit, BadRequest, CannotOpen, DefinedOtherwise, Doomed, LogFull, Lost, NoQueue, NoRegistrant, NotCarried, NotServed, NoUnit,
                     NumbersEnd, OldVersion, Refused, ServeError, StateTooLarge, TooManyQueues, UnitNotGreater)
from .manager import Manager, Queue, Registrant, Unit
from .values import Depth, Element, Greeting, Last, Tag

__all__ = ["BadLimit", "BadRequest", "CannotOpen", "DefinedOtherwise", "Depth", "Doomed", "Element", "Greeting", "Last", "LogFull", "Lost", "Manager",
           "NoQueue", "NoRegistrant", "NotCarried", "NotServed", "NoUnit", "NumbersEnd", "OldVersion", "Queue", "Refused", "Registrant", "ServeError", "StateTooLarge", "Tag",
           "TooManyQueues", "Unit", "UnitNotGreater"]
