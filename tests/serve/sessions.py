"""Shared. Sessions of docs/SERVE.md: what is asked of a new log, and each answer. A line behind `> ` is a request; the lines below are its answer.
Of a refusal and an error the words stand here: the text behind them is for people."""
from __future__ import annotations
from typing import NamedTuple

NAME = "abcdefghijklmnopqrstuvwxyz-0123456789._" + "x" * 25
JOBS = "> define jobs 0 -\nqueue 0\n"
TWO = "> define dead 0 -\nqueue 0\n> define jobs 2 dead\nqueue 1\n"
ANN = JOBS + "> register jobs ann\nlast none\n"
# One element of priority 5 is free in `jobs`, put there by unit 1.
ONE = JOBS + "> begin\nunit 1\n> enqueue 1 jobs 5 - 0 61\nelement 2\n> commit 1\nok\n"
GREATEST = 2**64 - 1


class Session(NamedTuple):
    """The text of a session, and the version of its log."""
    text: str
    version: int = 2


SESSIONS: dict[str, Session] = {it: Session(text) for it, text in {
    "the page's own": """
> define jobs 0 -
queue 0
> begin
unit 1
> enqueue 1 jobs 5 - 0 6869
element 2
> commit 1
ok
> begin
unit 2
> dequeue 2 jobs - 0
element 2 jobs 5 0 6869
> commit 2
ok
> close
closed 386
""",
    # --- define ----------------------------------------------------------------------------------------------------
    "queues have numbers in the order of their definitions": """
> define a 0 -
queue 0
> define b 0 -
queue 1
> define c 3 a
queue 2
> close
closed 172
""",
    "a definition that is there is not written again": """
> define jobs 0 -
queue 0
> define jobs 0 -
queue 0
> close
closed 87
""",
    "a definition with an error queue that is there": TWO + """
> define jobs 2 dead
queue 1
> define dead 0 -
queue 0
> close
closed 134
""",
    "a queue that is defined otherwise": TWO + """
> define other 0 -
queue 2
> define jobs 3 dead
refused defined
> define jobs 2 other
refused defined
> define jobs 0 -
refused defined
> define dead 2 other
refused defined
> close
closed 182
""",
    "limits without error queues, and error queues without limits": """
> define dead 0 -
queue 0
> define jobs 1 -
refused limit
> define jobs 1000 -
refused limit
> define jobs 0 dead
refused limit
> define jobs 1001 dead
refused limit
> define jobs 65535 dead
refused limit
> define jobs 1001 -
refused limit
> define jobs 1000 dead
queue 1
> define once 1 dead
queue 2
> close
closed 181
""",
    "an error queue that is not defined": """
> define jobs 3 dead
refused no-queue
> define jobs 3 jobs
refused no-queue
> define jobs 0 -
queue 0
""",
    "in version 2 an error queue may have one": TWO + """
> define more 3 jobs
queue 2
""",
    "names of queues": f"""
> define {NAME} 0 -
queue 0
> define - 0 -
queue 1
> define . 0 -
queue 2
> define 0 0 -
queue 3
> define {NAME}y 0 -
error
> define Jobs 0 -
error
> define j/b 0 -
error
> define j+b 0 -
error
> define jöbs 0 -
error
""",
    "no definitions": """
> define
error
> define jobs
error
> define jobs 0
error
> define jobs 0 - -
error
> define jobs -1 -
error
> define jobs 00 -
error
> define jobs 01 -
error
> define jobs +0 -
error
> define jobs 0x0 -
error
> define jobs - -
error
> define jobs 0 Dead
error
> define jobs 65536 dead
error
> define jobs 18446744073709551616 -
error
> define jobs 0 -
queue 0
""",
    # --- registrants -----------------------------------------------------------------------------------------------
    "who registers is told how far he came": ANN + """
> begin
unit 1
> enqueue 1 jobs 5 ann 10 61
element 3
> last jobs ann
last none
> commit 1
ok
> last jobs ann
last enqueue 10 3
> register jobs ann
last enqueue 10 3
> begin
unit 2
> dequeue 2 jobs ann 11
element 3 jobs 5 0 61
> register jobs ann
last enqueue 10 3
> commit 2
ok
> register jobs ann
last dequeue 11 3
> close
closed 435
""",
    "to register again writes nothing": ANN + """
> register jobs ann
last none
> close
closed 131
""",
    "a name is another registrant with another queue": """
> define a 0 -
queue 0
> define b 0 -
queue 1
> register a ann
last none
> begin
unit 1
> enqueue 1 b 5 ann 1 61
refused no-registrant
> abort 1
ok
> register b ann
last none
> begin
unit 2
> enqueue 2 b 5 ann 1 61
element 7
> commit 2
ok
> last a ann
last none
> last b ann
last enqueue 1 7
""",
    "nobody is registered, and nothing is defined": """
> register jobs ann
refused no-queue
> deregister jobs ann
refused no-queue
> last jobs ann
refused no-queue
> define jobs 0 -
queue 0
> deregister jobs ann
refused no-registrant
> last jobs ann
refused no-registrant
> close
closed 87
""",
    "who is dropped begins anew": ANN + """
> begin
unit 1
> enqueue 1 jobs 5 ann 10 61
element 3
> commit 1
ok
> deregister jobs ann
ok
> last jobs ann
refused no-registrant
> register jobs ann
last none
""",
    "who is dropped within a unit": ANN + """
> begin
unit 1
> enqueue 1 jobs 5 ann 10 61
element 3
> deregister jobs ann
ok
> register jobs ann
last none
> commit 1
ok
> last jobs ann
last none
> queue jobs 9
lines 2
e 3 from 0 priority 5 attempts 0 61
r ann none
""",
    "the greatest place is the last operation": ANN + """
> begin
unit 1
> begin
unit 2
> enqueue 1 jobs 5 ann 10 61
element 4
> enqueue 2 jobs 5 ann 20 62
element 5
> commit 2
ok
> commit 1
ok
> last jobs ann
last enqueue 20 5
""",
    "tags need not rise, and have any u64": ANN + f"""
> begin
unit 1
> enqueue 1 jobs 5 ann {GREATEST} 61
element 3
> commit 1
ok
> last jobs ann
last enqueue {GREATEST} 3
> begin
unit 2
> enqueue 2 jobs 5 ann 0 61
element 6
> commit 2
ok
> last jobs ann
last enqueue 0 6
> begin
unit 3
> enqueue 3 jobs 5 ann {GREATEST + 1} 61
error
""",
    "no registrations": """
> define jobs 0 -
queue 0
> register jobs
error
> register jobs Ann
error
> register jobs ann 1
error
> register  ann
error
> deregister jobs
error
> deregister jobs ann bob
error
> last jobs
error
> last jobs ann 1
error
> close
closed 87
""",
    # --- units -----------------------------------------------------------------------------------------------------
    "units have numbers that rise": """
> begin
unit 1
> begin 8
unit 8
> begin
unit 9
> begin 9
refused unit
> begin 8
refused unit
> begin 2
refused unit
> begin 0
refused unit
> begin 10
unit 10
""",
    "the greatest unit": f"""
> begin {GREATEST}
unit {GREATEST}
> begin {GREATEST}
refused unit
> commit {GREATEST}
ok
> begin {GREATEST + 1}
error
""",
    "a unit that is not open": JOBS + """
> commit 1
refused no-unit
> commit 1 later
refused no-unit
> abort 1
refused no-unit
> enqueue 1 jobs 5 - 0 61
refused no-unit
> dequeue 1 jobs - 0
refused no-unit
> begin
unit 1
> commit 1
ok
> commit 1
refused no-unit
> abort 1
refused no-unit
> enqueue 1 jobs 5 - 0 61
refused no-unit
> close
closed 177
""",
    "a unit that is aborted": JOBS + """
> begin
unit 1
> enqueue 1 jobs 5 - 0 61
element 2
> abort 1
ok
> commit 1
refused no-unit
> queue jobs 9
lines 0
> close
closed 237
""",
    "units beside each other": JOBS + """
> begin
unit 1
> begin
unit 2
> enqueue 2 jobs 5 - 0 62
element 3
> enqueue 1 jobs 5 - 0 61
element 4
> commit 2
ok
> abort 1
ok
> queue jobs 9
lines 1
e 3 from 0 priority 5 attempts 0 62
""",
    "no units": """
> begin 01
error
> begin 1 2
error
> begin -
error
> commit
error
> commit 01
error
> commit 1 now
error
> commit 1 later later
error
> abort
error
> abort 1 later
error
> abort -1
error
""",
    # --- elements --------------------------------------------------------------------------------------------------
    "the best element goes first, and of these the oldest": JOBS + """
> begin
unit 1
> enqueue 1 jobs 1 - 0 61
element 2
> enqueue 1 jobs 9 - 0 62
element 3
> enqueue 1 jobs 9 - 0 63
element 4
> enqueue 1 jobs 255 - 0 64
element 5
> enqueue 1 jobs 0 - 0 65
element 6
> commit 1
ok
> queue jobs 3
lines 3
e 5 from 0 priority 255 attempts 0 64
e 3 from 0 priority 9 attempts 0 62
e 4 from 0 priority 9 attempts 0 63
> begin
unit 2
> dequeue 2 jobs - 0
element 5 jobs 255 0 64
> dequeue 2 jobs - 0
element 3 jobs 9 0 62
> dequeue 2 jobs - 0
element 4 jobs 9 0 63
> dequeue 2 jobs - 0
element 2 jobs 1 0 61
> dequeue 2 jobs - 0
element 6 jobs 0 0 65
> dequeue 2 jobs - 0
none
> commit 2
ok
""",
    "a unit does not take what it put in": JOBS + """
> begin
unit 1
> enqueue 1 jobs 5 - 0 61
element 2
> dequeue 1 jobs - 0
none
> begin
unit 2
> dequeue 2 jobs - 0
none
> commit 1
ok
> dequeue 2 jobs - 0
element 2 jobs 5 0 61
""",
    "what a unit holds no other takes": ONE + """
> begin
unit 2
> dequeue 2 jobs - 0
element 2 jobs 5 0 61
> begin
unit 3
> dequeue 3 jobs - 0
none
> abort 2
ok
> dequeue 3 jobs - 0
element 2 jobs 5 1 61
> commit 3
ok
> begin
unit 4
> dequeue 4 jobs - 0
none
""",
    "asking for nothing costs nothing, and is no operation": ANN + """
> begin
unit 1
> dequeue 1 jobs - 0
none
> dequeue 1 jobs ann 7
none
> commit 1
ok
> last jobs ann
last none
> close
closed 221
""",
    "a unit takes and puts": ONE + """
> define done 0 -
queue 1
> begin
unit 2
> dequeue 2 jobs - 0
element 2 jobs 5 0 61
> enqueue 2 done 3 - 0 6161
element 7
> commit 2
ok
> queues
lines 2
queue 0 jobs limit 0 error - free 0 fresh 0 held 0
queue 1 done limit 0 error - free 1 fresh 0 held 0
""",
    "payloads": JOBS + """
> begin
unit 1
> enqueue 1 jobs 5 - 0 -
element 2
> enqueue 1 jobs 5 - 0 00
element 3
> enqueue 1 jobs 5 - 0 0aff
element 4
> commit 1
ok
> begin
unit 2
> dequeue 2 jobs - 0
element 2 jobs 5 0 -
> dequeue 2 jobs - 0
element 3 jobs 5 0 00
> dequeue 2 jobs - 0
element 4 jobs 5 0 0aff
""",
    "no operations": ANN + """
> enqueue 1 jobs 256 - 0 61
error
> enqueue 1 jobs 5 - 0 6
error
> enqueue 1 jobs 5 - 0 6A
error
> enqueue 1 jobs 5 - 0 6g
error
> enqueue 1 jobs 5 - 0
error
> enqueue 1 jobs 5 - 0 61 62
error
> enqueue 1 jobs 5 - 1 61
error
> enqueue 1 jobs 05 - 0 61
error
> enqueue 1 jobs - - 0 61
error
> enqueue 1 Jobs 5 - 0 61
error
> enqueue 1 jobs 5 Ann 0 61
error
> enqueue 1 jobs 5 ann - 61
error
> enqueue - jobs 5 ann 1 61
error
> dequeue 1 jobs - 1
error
> dequeue 1 jobs -
error
> dequeue 1 jobs ann 1 2
error
> dequeue 1 jobs Ann 1
error
> dequeue 1  - 0
error
> close
closed 131
""",
    "operations that are refused": ANN + """
> begin
unit 1
> enqueue 1 dead 5 - 0 61
refused no-queue
> dequeue 1 dead - 0
refused no-queue
> enqueue 1 jobs 5 bob 1 61
refused no-registrant
> dequeue 1 jobs bob 1
refused no-registrant
> close
closed 221
""",
    # --- attempts --------------------------------------------------------------------------------------------------
    "attempts grow without a limit": ONE + "".join(f"""
> begin
unit {2 + it}
> dequeue {2 + it} jobs - 0
element 2 jobs 5 {it} 61
> abort {2 + it}
ok
""" for it in range(4)),
    "at its limit an element goes to the error queue": TWO + """
> begin
unit 1
> enqueue 1 jobs 5 - 0 61
element 3
> commit 1
ok
> begin
unit 2
> dequeue 2 jobs - 0
element 3 jobs 5 0 61
> abort 2
ok
> begin
unit 3
> dequeue 3 jobs - 0
element 3 jobs 5 1 61
> abort 3
ok
> queue jobs 9
lines 0
> queue dead 9
lines 1
e 3 from 1 priority 5 attempts 0 61
> begin
unit 4
> dequeue 4 jobs - 0
none
> dequeue 4 dead - 0
element 3 jobs 5 0 61
> abort 4
ok
> begin
unit 5
> dequeue 5 dead - 0
element 3 jobs 5 1 61
> commit 5
ok
""",
    "an error queue's error queue": """
> define end 0 -
queue 0
> define dead 1 end
queue 1
> define jobs 1 dead
queue 2
> begin
unit 1
> enqueue 1 jobs 5 - 0 61
element 4
> commit 1
ok
> begin
unit 2
> dequeue 2 jobs - 0
element 4 jobs 5 0 61
> abort 2
ok
> begin
unit 3
> dequeue 3 dead - 0
element 4 jobs 5 0 61
> abort 3
ok
> queue end 9
lines 1
e 4 from 2 priority 5 attempts 0 61
""",
    # --- what is refused, and dooms --------------------------------------------------------------------------------
    "a unit in which a line was refused": ONE + """
> begin 2
unit 2
> dequeue 2 jobs - 0
element 2 jobs 5 0 61
> enqueue 2 done 5 - 0 61
refused no-queue
> commit 2
refused doomed
> commit 2 later
refused doomed
> abort 2
ok
> queue jobs 9
lines 1
e 2 from 0 priority 5 attempts 1 61
""",
    "other units go on": JOBS + """
> begin
unit 1
> begin
unit 2
> dequeue 1 dead - 0
refused no-queue
> enqueue 2 jobs 5 - 0 61
element 3
> commit 2
ok
> commit 1
refused doomed
""",
    "an error dooms each unit that is open": JOBS + """
> begin
unit 1
> begin
unit 2
> frob
error
> begin
unit 3
> commit 1
refused doomed
> commit 2
refused doomed
> commit 3
ok
> abort 1
ok
> abort 2
ok
""",
    "other refusals doom nothing": JOBS + """
> begin
unit 1
> define jobs 1 -
refused defined
> register dead ann
refused no-queue
> last jobs ann
refused no-registrant
> kill dead 1
refused no-queue
> begin 1
refused unit
> commit 7
refused no-unit
> enqueue 7 jobs 5 - 0 61
refused no-unit
> queue dead 1
refused no-queue
> commit 1
ok
""",
    "a whole unit at once": JOBS + """
> begin 5
unit 5
> enqueue 5 jobs 5 ann 1 61
refused no-registrant
> commit 5
refused doomed
> begin 6
unit 6
> enqueue 6 jobs 5 - 0 62
element 3
> commit 6
ok
> abort 5
ok
""",
    # --- later and settle ------------------------------------------------------------------------------------------
    "later, and settle": JOBS + """
> begin
unit 1
> enqueue 1 jobs 5 - 0 61
element 2
> commit 1 later
later
> begin
unit 2
> dequeue 2 jobs - 0
element 2 jobs 5 0 61
> commit 2 later
later
> settle
ok
> settle
ok
> close
closed 385
""",
    "no settling": """
> settle now
error
> settle 1
error
> close 1
error
> checkpoint 1
error
> carry 1
error
> carry later
error
> queues 1
error
""",
    # --- kill ------------------------------------------------------------------------------------------------------
    "a kill removes what is free": ONE + """
> kill jobs 7
none
> kill jobs 2
ok
> kill jobs 2
none
> queue jobs 9
lines 0
> close
closed 286
""",
    "a kill removes nothing that is fresh, held, or elsewhere": ONE + """
> define dead 0 -
queue 1
> kill dead 2
none
> begin
unit 2
> dequeue 2 jobs - 0
element 2 jobs 5 0 61
> kill jobs 2
none
> begin
unit 3
> enqueue 3 jobs 5 - 0 62
element 8
> kill jobs 8
none
> abort 2
ok
> kill jobs 2
ok
> commit 3
ok
> kill jobs 8
ok
""",
    "no kills": JOBS + f"""
> kill jobs
error
> kill jobs -
error
> kill jobs 1 2
error
> kill jobs {GREATEST}
none
> kill jobs {GREATEST + 1}
error
> kill dead 0
refused no-queue
""",
    # --- checkpoints -----------------------------------------------------------------------------------------------
    "checkpoints": """
> checkpoint
checkpoint 40
> define jobs 0 -
queue 0
> begin
unit 1
> enqueue 1 jobs 5 - 0 61
element 3
> checkpoint
checkpoint 281
> commit 1
ok
> close
closed 471
""",
    # --- a new log -------------------------------------------------------------------------------------------------
    "a log goes on in a new one": JOBS + """
> begin
unit 1
> enqueue 1 jobs 5 - 0 6869
element 2
> carry
carried 3
> commit 1
ok
> carry
carried 5
> carry
carried 6
> queue jobs 9
lines 1
e 2 from 0 priority 5 attempts 0 6869
> begin
unit 2
> dequeue 2 jobs - 0
element 2 jobs 5 0 6869
> commit 2
ok
> enqueue 2 jobs 5 - 0 61
refused no-unit
> begin 2
refused unit
> begin
unit 3
> enqueue 3 jobs 5 - 0 61
element 11
> checkpoint
checkpoint 455
> close
closed 645
""",
    "an empty log goes on": """
> carry
carried 0
> carry
carried 1
> define jobs 0 -
queue 0
> close
closed 208
""",
    "what is held, fresh, doomed and tagged stays so in a new log": TWO + """
> register jobs ann
last none
> begin
unit 1
> enqueue 1 jobs 5 ann 4 61
element 4
> enqueue 1 jobs 5 - 0 62
element 5
> commit 1 later
later
> begin
unit 2
> dequeue 2 jobs ann 5
element 4 jobs 5 0 61
> enqueue 2 nowhere 5 - 0 61
refused no-queue
> begin
unit 3
> enqueue 3 dead 9 ann 6 -
refused no-registrant
> begin
unit 4
> enqueue 4 dead 9 - 0 -
element 11
> carry
carried 12
> queues
lines 2
queue 0 dead limit 0 error - free 0 fresh 1 held 0
queue 1 jobs limit 2 error 0 free 1 fresh 0 held 1
> register jobs ann
last enqueue 4 4
> commit 2
refused doomed
> commit 3
refused doomed
> abort 2
ok
> abort 3
ok
> begin
unit 5
> dequeue 5 jobs ann 7
element 4 jobs 5 1 61
> carry
carried 17
> abort 5
ok
> commit 4
ok
> queue dead 9
lines 2
e 11 from 0 priority 9 attempts 0 -
e 4 from 1 priority 5 attempts 0 61
> kill dead 11
ok
> kill jobs 5
ok
> last jobs ann
last enqueue 4 4
""",
    # --- what is shown ---------------------------------------------------------------------------------------------
    "queues": """
> queues
lines 0
> define dead 0 -
queue 0
> define jobs 2 dead
queue 1
> queues
lines 2
queue 0 dead limit 0 error - free 0 fresh 0 held 0
queue 1 jobs limit 2 error 0 free 0 fresh 0 held 0
> begin
unit 1
> enqueue 1 jobs 5 - 0 61
element 3
> enqueue 1 jobs 5 - 0 62
element 4
> queues
lines 2
queue 0 dead limit 0 error - free 0 fresh 0 held 0
queue 1 jobs limit 2 error 0 free 0 fresh 2 held 0
> commit 1
ok
> begin
unit 2
> dequeue 2 jobs - 0
element 3 jobs 5 0 61
> enqueue 2 dead 5 - 0 63
element 8
> queues
lines 2
queue 0 dead limit 0 error - free 0 fresh 1 held 0
queue 1 jobs limit 2 error 0 free 1 fresh 0 held 1
""",
    "a queue": ANN + """
> register jobs al
last none
> begin
unit 1
> enqueue 1 jobs 5 ann 4 61
element 4
> enqueue 1 jobs 6 - 0 -
element 5
> commit 1
ok
> queue jobs 0
lines 2
r al none
r ann enqueue tag 4 element 4
> queue jobs 1
lines 3
e 5 from 0 priority 6 attempts 0 -
r al none
r ann enqueue tag 4 element 4
> queue jobs 1000000
lines 4
e 5 from 0 priority 6 attempts 0 -
e 4 from 0 priority 5 attempts 0 61
r al none
r ann enqueue tag 4 element 4
""",
    "no questions": JOBS + """
> queue jobs
error
> queue jobs -1
error
> queue jobs 1 2
error
> queue dead 1
refused no-queue
""",
    # --- lines that are none ---------------------------------------------------------------------------------------
    "no requests": """
> 
error
>  
error
> frob
error
> BEGIN
error
> begin 
error
>  begin
error
> begin\t
error
> begin\r
error
> # begin
error
> queues  
error
> ready
error
> ok
error
> queues
lines 0
""",
    # --- ends ------------------------------------------------------------------------------------------------------
    "nothing behind a close is done": JOBS + """
> begin
unit 1
> close
closed 177
""",
}.items()} | {
    "version 1 has no kill": Session(JOBS + """
> kill jobs 0
refused version
> kill dead 0
refused no-queue
""", 1),
    "in version 1 an error queue has none itself": Session(TWO + """
> define more 3 jobs
refused limit
> define more 3 dead
queue 2
""", 1),
    "a log of version 1 goes on": Session(TWO + """
> carry
carried 2
> define more 3 jobs
refused limit
> kill jobs 0
refused version
> begin
unit 1
> enqueue 1 jobs 5 - 0 61
element 4
> carry
carried 5
> commit 1
ok
""", 1),
}


def questions_of(text: str) -> list[tuple[str, str]]:
    """Each request of a session, and its answer."""
    found: list[tuple[str, str]] = []
    for part in ("\n" + text).split("\n> ")[1:]:
        request, _, answer = part.partition("\n")
        found.append((request, "\n".join(it for it in answer.split("\n") if it)))
    return found
