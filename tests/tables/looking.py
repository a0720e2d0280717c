"""Rows. What `rqlook` shows of logs: of them whole, damaged, and carried on; and what a page says first, what it finds behind the front, and what
it says that it leaves out."""
from __future__ import annotations
import functools, html, json, os, re
from collections.abc import Callable, Iterator
from typing import NamedTuple

from frames import as_log, carried, changed, flipped, framed
from trying import START, Ended
from .asking import CHECKPOINT, MAKE, ONE_ELEMENT, Program, Programs, Question, Row, first, rows_of, script, told, whole
from .reports import windows
from .works import carried_one, with_points
from .writing import UNLAWFUL

# An element whose takers abort: two, and it moves to the error queue; and one there.
SECOND_ABORT = script("""\
define dead 0 -; define jobs 2 0
begin 5; enqueue 5 1 5 - 0 6869; commit 5
begin 6; dequeue 6 1 - 0; abort 6
begin 7; dequeue 7 1 - 0; abort 7
begin 8; dequeue 8 0 - 0; abort 8""")
STORY = """\
179 3 enqueue unit 5 queue 1 priority 5 by - payload "hi": puts in element 3
240 4 commit unit 5: element 3 is free in queue 1
330 6 dequeue unit 6 queue 1 by -: takes element 3
388 7 abort unit 6: element 3 is back in queue 1, attempts 1
478 9 dequeue unit 7 queue 1 by -: takes element 3
536 10 abort unit 7: element 3 moves to queue 0
626 12 dequeue unit 8 queue 0 by -: takes element 3
684 13 abort unit 8: element 3 is back in queue 0, attempts 1
front ends behind 14 records, at 729 of 729 bytes, whole: nothing follows
"""
OF_ONE_QUEUE = """\
queue 0 dead limit 0 error -
e 3 from 1 priority 5 attempts 1 6869
"""

NUMBERS = """\
front ends behind 14 records, at 729 of 729 bytes, whole: nothing follows
define 2 records, 94 bytes
begin 4 records, 180 bytes
enqueue 1 records, 61 bytes
dequeue 3 records, 174 bytes
commit 1 records, 45 bytes
abort 3 records, 135 bytes
units 1 committed, 3 aborted, 0 cut off
unit 5 open for 2 records, committed
unit 6 open for 2 records, aborted
unit 7 open for 2 records, aborted
unit 8 open for 2 records, aborted
payload of 2 bytes at 179, record 3
queue 0 dead 1 free elements
queue 0 dead 1 elements moved there by aborts
"""
# The same as JSON, but for the first and the longest.
COUNTED = {
    "units": {"committed": 1, "aborted": 3, "cut_off": 0},
    "largest_payloads": [{"bytes": 2, "offset": 179, "record": 3}],
    "deepest_queues": [{"queue": 0, "name": "dead", "elements": 1}],
    "error_moves": [{"queue": 0, "name": "dead", "elements": 1}],
}

# Two units, of which each puts in an element of a queue of its own.
TWO_UNITS = script("""\
define mail 0 -; define jobs 0 -; register 1 ann
begin 1; enqueue 1 0 5 - 0 61
begin 2; enqueue 2 1 5 ann 10 62
commit 1
commit 2""")
DEFINE = "87 1 define queue 1 name jobs limit 0 error -\n"
REGISTER = "134 2 register queue 1 name ann\n"
BEGIN = "283 5 begin unit 2\n"
ENQUEUE = '328 6 enqueue unit 2 queue 1 priority 5 by ann tag 10 payload "b"\n'
COMMIT = "436 8 commit unit 2\n"
END = "front ends behind 9 records, at 481 of 481 bytes, whole: nothing follows\n"

ALL = """\
40 0 define queue 0 name jobs limit 0 error -
87 1 begin unit 1
132 2 enqueue unit 1 queue 0 priority 5 by - payload "a"
192 3 commit unit 1
front ends behind 4 records, at 237 of 237 bytes, whole: nothing follows
"""
OBJECTS = """\
{"offset":132,"record":2,"kind":"enqueue","unit":1,"queue":0,"priority":5,"payload":{"hex":"61","text":"a"}}
{"front":{"records":4,"used":237,"total":237,"why":"whole","reason":"nothing follows"}}
"""
CUT = "front ends behind 3 records, at 192 of 236 bytes, cut: 44 bytes follow, and the frame has 45\n"
# More units at a time than a log has as a rule.
OPEN = "".join(f"begin {unit}\n" for unit in range(1, 1501))
OPEN_END = "front ends behind 1500 records, at 67540 of 67540 bytes, whole: nothing follows\n"
LAW = "front ends behind 1 records, at 87 of 132 bytes, law: unit 1 is not open\n"
# What stands behind these fronts: the beginning of a COMMIT, and a COMMIT that is right and not lawful.
NOTHING_BEHIND = "behind it no frame is right in itself; 44 bytes fit nothing\n"
ONE_BEHIND = "behind it 1 frames are right in themselves, the first at 87; 0 bytes fit nothing\n"
# A log whose BEGIN is another unit's: its frame is wrong, and the two behind it are right.
BEGUN_OTHERWISE = """\
40 0 define queue 0 name jobs limit 0 error -
132 behind enqueue unit 1 queue 0 priority 5 by - payload "a"
192 behind commit unit 1
behind it 2 frames are right in themselves, the first at 132; 45 bytes fit nothing
"""
OBJECTS_BEHIND = """\
{"offset":132,"behind":true,"kind":"enqueue","unit":1,"queue":0,"priority":5,"payload":{"hex":"61","text":"a"}}
{"behind":{"frames":2,"first":132,"unfit":45}}
"""


# Behind this front stand a COMMIT that is not lawful, the KILL of an element, a right frame that spells no record, and five zeros.
KILL, NO_RECORD = b"\x0a" + bytes(11) + b"\3", b"\0"
FIRST, COMMITTED = "40 0 define queue 0 name jobs limit 0 error -\n", "87 behind commit unit 1\n"
KILLED = {1: "132 behind no record: byte 0 of the body: no record has the kind 10\n", 2: "132 behind kill queue 0 element 3\n"}
SPELLS_NONE = "181 behind no record: byte 0 of the body: no record has the kind 0\n"
THREE_BEHIND = """\
behind it 3 frames are right in themselves, the first at 87; 5 bytes fit nothing
front ends behind 1 records, at 87 of 223 bytes, law: unit 1 is not open
"""
CHOSEN = {1: "# 13 bytes of a body at 132 have no line: byte 0 of the body: no record has the kind 10", 2: "#132 kill 0 3"}
NOT_CHOSEN = ["# 1 bytes of a body at 181 have no line: byte 0 of the body: no record has the kind 0", "# 5 bytes at 218 fit nothing"]


# What a check says of so many zeros behind a front.
ZEROS = """\
front ends behind 1 records, at 87 of {1} bytes, length: a body of 0 bytes is stated, and one has 1 to 268435456
behind it no frame is right in itself; {0} bytes fit nothing
"""
# The last line of a check.
WHOLE = "verdict: whole, each checkpoint is true. Next: rqlog append NAME\n"
UNTRUE = "verdict: whole, but not each checkpoint is true. Next: rqlog restart NAME\n"
TORN = "verdict: a torn end, as a crash leaves it. Next: rqlog recover NAME\n"
DAMAGED = "verdict: damaged. Next: rqlook mend NAME NEW, or rqlook salvage NAME SCRIPT\n"


ROWS = [
    # which records a dump shows, and where it says that the front ends
    Row("rqlook dump LOG", ONE_ELEMENT, whole, 0, ALL),
    Row("rqlook dump LOG --kind enqueue --json", ONE_ELEMENT, whole, 0, OBJECTS),
    Row("rqlook dump LOG --limit 0", ONE_ELEMENT, lambda log: log[:-1], 0, CUT),
    Row("rqlook dump LOG --limit 0", "define jobs 0 -\ncommit 1\n", whole, 0, LAW),
    Row("rqlook dump LOG --limit 0", OPEN, whole, 0, OPEN_END),
    Row("rqlook dump LOG --unit 2", TWO_UNITS, whole, 0, BEGIN + ENQUEUE + COMMIT + END),
    Row("rqlook dump LOG --unit 2 --from 329", TWO_UNITS, whole, 0, COMMIT + END),
    Row("rqlook dump LOG --unit 2 --limit 1", TWO_UNITS, whole, 0, BEGIN + END),
    Row("rqlook dump LOG --queue 1", TWO_UNITS, whole, 0, DEFINE + REGISTER + ENQUEUE + END),
    Row("rqlook dump LOG --registrant ann", TWO_UNITS, whole, 0, REGISTER + ENQUEUE + END),
    # what stands behind the front
    Row("rqlook check LOG", ONE_ELEMENT, lambda log: log[:-1], 1, CUT + NOTHING_BEHIND + TORN),
    Row("rqlook check LOG", "define jobs 0 -\ncommit 1\n", whole, 1, LAW + ONE_BEHIND + DAMAGED),
    # what a check finds
    Row("rqlook check LOG", "define jobs 0 -\ncheckpoint\n", whole, 0, WHOLE),
    Row("rqlook check LOG", "define jobs 0 -\ncheckpoint-hex 00\n", whole, 1,
        "the checkpoint at 87 does not spell the state before it\n" + UNTRUE),
    # where a torn end becomes damage: one byte more than a crash leaves
    Row("rqlook check LOG", "define jobs 0 -\n", lambda log: log + bytes(1048576), 1, ZEROS.format(1048576, 1048663) + TORN),
    Row("rqlook check LOG", "define jobs 0 -\n", lambda log: log + bytes(1048577), 1, ZEROS.format(1048577, 1048664) + DAMAGED),
    # reports, scripts and stories
    Row("rqlook report LOG --queue 0", SECOND_ABORT, whole, 0, OF_ONE_QUEUE),
    Row("rqlook report LOG --queue 2", SECOND_ABORT, whole, 1, "", "NAME: no queue 2"),
    Row("rqlook script LOG", SECOND_ABORT, whole, 0, SECOND_ABORT),
    Row("rqlook story LOG 3", SECOND_ABORT, whole, 0, STORY),
    Row("rqlook unit LOG 9", SECOND_ABORT, whole, 1, "", "NAME: no unit 9"),
    # numbers
    Row("rqlook stats LOG", SECOND_ABORT, whole, 0, NUMBERS),
    Row("rqlook stats LOG", "begin 1\n", whole, 0, "front ends behind 1 records, at 85 of 85 bytes, whole: nothing follows\n"
        "begin 1 records, 45 bytes\nunits 0 committed, 0 aborted, 1 cut off\nunit 1 open for 1 records, cut off\n"),
]

# How the report of the second queue ends as JSON.
JSON_END = """\
      "number": 1,
      "name": "jobs",
      "limit": 2,
      "error": 0,
      "elements": [],
      "registrants": []
    }
  ]
}
"""

# A file whose name has each character that means something in HTML, and one that is not shown as it is; its log has an element that
# looks like HTML, too. And what stands on its page.
ODD_NAME = "a<b\x1b&\"'>"
ELEMENT_B = "define jobs 0 -\nbegin 1\nenqueue 1 0 5 - 0 3c623e\ncommit 1\n"
ON_THE_PAGE = ["<title>a&lt;b\u241b&amp;&quot;&#39;&gt;</title>", "<td>4 records, 239 of 239 bytes</td>", "<bdi class=\"text\">&lt;b&gt;</bdi>"]


def fronts_of_windows(rqlook: Program, rq: Program) -> Iterator[Question]:
    """Where the fronts of long logs end: found without a restart."""
    for name, log, (records, used, total, why) in windows(rq):
        begins = f"front ends behind {records} records, at {used} of {total} bytes, {why}:".encode()
        yield Question(f"rqlook dump of {name}", functools.partial(begins_with, rqlook, rq.file(log), begins), (0, True))


def begins_with(rqlook: Program, log: str, begins: bytes) -> tuple[int, bool]:
    status, output, _ = rqlook.run("dump", log, "--limit", 0)
    return status, output.startswith(begins)


def json_end(rqlook: Program, log: str) -> Ended:
    status, output, said = rqlook.run("report", log, "--json", "--queue", 1)
    return status, output[-len(JSON_END):], said


def counted(rqlook: Program, log: str) -> tuple[int, dict]:
    """Those numbers as JSON that stand in COUNTED."""
    status, output, _ = rqlook.run("stats", log, "--json")
    return status, {name: value for name, value in json.loads(output).items() if name in COUNTED}


def on_the_page(rqlook: Program) -> tuple[int, str, list[str], bool]:
    """How the page begins and ends, what stands on it, and whether the element does as HTML."""
    status, output, _ = rqlook.run("page", ODD_NAME, "-", cwd=rqlook.folder)
    text = output.decode()
    return status, text[:16] + text[-8:], [part for part in ON_THE_PAGE if part in text], "<b>" in text


def but_the_end(rqlook: Program, *words: str) -> tuple[int, str]:
    """What a dump shows before its last line."""
    status, output, _ = rqlook.run(*words)
    return status, "".join(output.decode().splitlines(keepends=True)[:-1])


def behind_one(rqlook: Program, rq: Program) -> Iterator[Question]:
    """What stands behind a changed byte, shown and saved."""
    log = rq.log_of(ONE_ELEMENT)
    path = rq.file(log[:99] + b"\2" + log[100:])
    yield Question("rqlook dump --behind", functools.partial(but_the_end, rqlook, "dump", path, "--behind"), (0, BEGUN_OTHERWISE))
    words = ("dump", path, "--behind", "--json", "--kind", "enqueue")
    yield Question("rqlook dump --behind --json", functools.partial(but_the_end, rqlook, *words), (0, OBJECTS_BEHIND))
    want = (0, ["define jobs 0 -", "#132 enqueue 1 0 5 - 0 61", "#192 commit 1"])
    yield Question("rqlook salvage", functools.partial(records_saved, rqlook, path), want)


def of_each_version(rqlook: Program, rq: Program) -> Iterator[Question]:
    """What stands behind a front is read by the log's version; and what spells no record is shown only if none is asked for."""
    for version in MAKE:
        log = rq.log_of("define jobs 0 -\ncommit 1\n", version)
        path = rq.file(framed(framed(log, KILL), NO_RECORD) + bytes(5))
        killed = KILLED[version] if version == 2 else ""
        asked = {"": FIRST + COMMITTED + KILLED[version] + SPELLS_NONE, " --kind commit": COMMITTED, " --kind kill": killed, " --unit 1": COMMITTED,
                 " --queue 0": FIRST + killed, " --registrant ann": ""}
        for words, lines in asked.items():
            ask = functools.partial(rqlook.run, "dump", path, "--behind", *words.split())
            yield Question(f"rqlook dump --behind{words}, version {version}", ask, told(lines + THREE_BEHIND))
        want = (0, ["#87 commit 1", CHOSEN[version], *NOT_CHOSEN])
        yield Question(f"rqlook salvage, version {version}", functools.partial(last_saved, rqlook, path, 4), want)


def last_saved(rqlook: Program, log: str, count: int) -> tuple[int, list[str]]:
    """So many of the last lines of a salvage."""
    status, output, _ = rqlook.run("salvage", log, "-")
    return status, output.decode().splitlines()[-count:]


def records_saved(rqlook: Program, log: str) -> tuple[int, list[str]]:
    """The lines of a salvage but for its words."""
    status, output, _ = rqlook.run("salvage", log, "-")
    return status, [line for line in output.decode().splitlines() if not line.startswith("# ")]


def of_one_log(rqlook: Program, rq: Program) -> Iterator[Question]:
    log = rq.file(rq.log_of(SECOND_ABORT))
    yield Question("rqlook report --json", functools.partial(json_end, rqlook, log), told(JSON_END))
    yield Question("rqlook stats --json", functools.partial(counted, rqlook, log), (0, COUNTED))
    with open(os.path.join(rqlook.folder, ODD_NAME), "wb") as file:
        file.write(rq.log_of(ELEMENT_B))
    want = (0, "<!DOCTYPE html>\n</html>\n", ON_THE_PAGE, False)
    yield Question("rqlook page", functools.partial(on_the_page, rqlook), want)

# --- each line, of one log -------------------------------------------------------------------------------------------

ONE_END = "front ends behind 4 records, at 237 of 237 bytes, whole: nothing follows\n"
ONE_STORY = """\
132 2 enqueue unit 1 queue 0 priority 5 by - payload "a": puts in element 2
192 3 commit unit 1: element 2 is free in queue 0
""" + ONE_END
ONE_REPORT = """\
queue 0 jobs limit 0 error -
e 2 from 0 priority 5 attempts 0 61
"""
ONE_NUMBERS = ONE_END + """\
define 1 records, 47 bytes
begin 1 records, 45 bytes
enqueue 1 records, 60 bytes
commit 1 records, 45 bytes
units 1 committed, 0 aborted, 0 cut off
unit 1 open for 2 records, committed
payload of 1 bytes at 132, record 2
queue 0 jobs 1 free elements
"""

# A log with a checkpoint at 192, while a unit is open.
MARKED = "define jobs 0 -\nbegin 1\nenqueue 1 0 5 - 0 61\ncheckpoint\ncommit 1\n"
CARRIED = "carried: begins with the checkpoint at 72\n"
CARRIED_STORY = "217 4 commit unit 1: element 2 is free in queue 0\n" + CARRIED + """\
front ends behind 5 records, at 262 of 262 bytes, whole: nothing follows
"""


# What the checkpoint of `MARKED` spells: four counts, the queue, unit 1, no registrant, its element and no note.
SPELLED_MARKED = ("00000000000000030000000000000001" + "0000000000000000" * 2 + "00000001" + "0000ffffffff046a6f6273" + "000000010000000000000001"
                  + "00000000" + "00000001" + "0000000000000002" + "00000000" * 2 + "05" + "0000000000000000" + "01" + "0000000000000001" + "000161"
                  + "00000000")


def carried_on(log: bytes) -> bytes:
    return carried(log, 192)


OF_ONE = [
    Row("rqlook story LOG 2 --workers 2", ONE_ELEMENT, whole, 0, ONE_STORY),
    Row("rqlook report LOG --queue 0 --workers 2", ONE_ELEMENT, whole, 0, ONE_REPORT),
    Row("rqlook script LOG --workers 2", ONE_ELEMENT, whole, 0, ONE_ELEMENT),
    Row("rqlook check LOG --workers 2", ONE_ELEMENT, whole, 0, WHOLE),
    Row("rqlook stats LOG --workers 2", ONE_ELEMENT, whole, 0, ONE_NUMBERS),
    Row("rqlook dump LOG --limit 0 --workers 2", first(9, CHECKPOINT), whole, 0,
        "front ends behind 9 records, at 679 of 679 bytes, whole: nothing follows\n"),
    Row("rqlook story LOG 2 --workers 2", MARKED, carried_on, 0, CARRIED_STORY),
    Row("rqlook check LOG --workers 2", MARKED, carried_on, 0, CARRIED + WHOLE),
    Row("rqlook script LOG --workers 2", MARKED, carried_on, 0, "checkpoint-hex " + SPELLED_MARKED + "\ncommit 1\n"),
    Row("rqlook salvage LOG - --workers 2", MARKED, carried_on, 0, "checkpoint-hex " + SPELLED_MARKED + "\ncommit 1\n"),
]


def damaged(log: bytes) -> bytes:
    """Another unit begins."""
    return changed(log, 92, b"\1")


# The log of these lines is carried on at its checkpoint. One byte is changed in that: of its body, of its length, of its digest.
GOES_ON = MARKED + "begin 2\nabort 2\n"


def in_its_body(log: bytes) -> bytes:
    return flipped(carried_on(log), 100)


def in_its_length(log: bytes) -> bytes:
    return flipped(carried_on(log), 75)


def in_its_digest(log: bytes) -> bytes:
    return flipped(carried_on(log), 190)


# What is right behind it; a record is found by its own 32 bytes, so a changed digest takes the next one along.
ALL_BEHIND = "217 behind commit unit 1\n262 behind begin unit 2\n307 behind abort unit 2\n"
ALL_COUNTED = "behind it 3 frames are right in themselves, the first at 217; 145 bytes fit nothing\n"
TWO_COUNTED = "behind it 2 frames are right in themselves, the first at 262; 190 bytes fit nothing\n"
NO_FRONT = CARRIED + "front ends behind 0 records, at 72 of 352 bytes, chain: the digest is "


class Ends(NamedTuple):
    """A row of which only the beginning and the end of what is printed are known."""
    line: str
    script: str
    damage: Callable[[bytes], bytes]
    status: int
    begins: str
    ends: str


REPORT_END = """\
      "registrants": []
    }
  ]
}
"""
# What stands behind the front of the damaged log.
FINDINGS = "behind it 2 frames are right in themselves, the first at 132; 45 bytes fit nothing\n"
BEHIND = """\
132 behind enqueue unit 1 queue 0 priority 5 by - payload "a"
192 behind commit unit 1
""" + FINDINGS + "front ends behind 1 records, at 87 of 237 bytes, chain: "
CHOICE = "# 45 bytes at 87 fit nothing\n#132 enqueue 1 0 5 - 0 61\n#192 commit 1\n"

ENDS = [
    Ends("report LOG --json --queue 0", ONE_ELEMENT, whole, 0, "{\n", REPORT_END),
    Ends("page LOG - --order depth --element 2", ONE_ELEMENT, whole, 0, "<!DOCTYPE html>\n", "</html>\n"),
    Ends("page LOG - --order depth --element 2", MARKED, carried_on, 0, "<!DOCTYPE html>\n", "</html>\n"),
    Ends("check LOG", ONE_ELEMENT, damaged, 1, "front ends behind 1 records, at 87 of 237 bytes, chain: ", "\n" + FINDINGS + DAMAGED),
    Ends("dump LOG --from 87 --behind", ONE_ELEMENT, damaged, 0, BEHIND, "\n"),
    Ends("salvage LOG -", ONE_ELEMENT, damaged, 0, "define jobs 0 -\n# front ends ", CHOICE),
    Ends("dump LOG --behind", GOES_ON, in_its_body, 0, ALL_BEHIND + ALL_COUNTED + NO_FRONT, "\n"),
    Ends("dump LOG --behind", GOES_ON, in_its_length, 0, ALL_BEHIND + ALL_COUNTED + CARRIED + "front ends behind 0 records, at 72 of ", "\n"),
    Ends("dump LOG --behind", GOES_ON, in_its_digest, 0, ALL_BEHIND[25:] + TWO_COUNTED + NO_FRONT, "\n"),
    Ends("dump LOG --behind --json --limit 0", GOES_ON, in_its_body, 0, '{"behind":', '"}}\n'),
    Ends("check LOG", GOES_ON, in_its_body, 1, NO_FRONT, "\n" + ALL_COUNTED + DAMAGED),
    Ends("check LOG", GOES_ON, in_its_digest, 1, NO_FRONT, "\n" + TWO_COUNTED + DAMAGED),
    Ends("salvage LOG -", GOES_ON, in_its_body, 0, "# front ends behind 0 records, at 72 of 352 bytes, chain: ",
         "# 145 bytes at 72 fit nothing\n#217 commit 1\n#262 begin 2\n#307 abort 2\n"),
    Ends("salvage LOG -", GOES_ON, in_its_digest, 0, "# front ends behind 0 records, at 72 of 352 bytes, chain: ",
         "# 190 bytes at 72 fit nothing\n#262 begin 2\n#307 abort 2\n"),
    Ends("page LOG -", GOES_ON, carried_on, 0, "<!DOCTYPE html>\n", "</html>\n"),
]


# Why a front ends by its law: as a sentence, and as the field of an object behind that of the word.
TOLD_RULE = re.compile(rb'law(?:: |",\s*"reason": ?")([^"<\n]+)')


def rule_told(rqlook: Program, words: list[str]) -> bytes:
    found = TOLD_RULE.search(rqlook.run(*words)[1])
    return found[1] if found else b""


def ends_of(rqlook: Program, words: list[str], begins: bytes, ends: bytes) -> tuple[int, bytes, bytes, bytes]:
    status, output, said = rqlook.run(*words)
    return status, output[:len(begins)], output[-len(ends):], said


def rules(rqlook: Program, rq: Program) -> Iterator[Question]:
    """Which rule ends a front, as each line tells it that says why."""
    for line, rule in UNLAWFUL.items():
        log = rq.file(rq.log_of(f"{START.decode()}begin 5\n{line.decode()}\n"))
        for words in ("check LOG", "dump LOG --limit 0", "dump LOG --limit 0 --json", "report LOG --json", "page LOG -"):
            ask = functools.partial(rule_told, rqlook, [log if word == "LOG" else word for word in words.split()])
            yield Question(f"rqlook {words} of {line.decode()}", ask, rule)


def ends(rqlook: Program, rq: Program) -> Iterator[Question]:
    for row in ENDS:
        log = rq.file(row.damage(rq.log_of(row.script)))
        words = [log if word == "LOG" else word for word in row.line.split()]
        begins, ends = row.begins.encode(), row.ends.replace("NAME", log).encode()
        ask = functools.partial(ends_of, rqlook, words, begins, ends)
        yield Question(f"rqlook {row.line}, its ends", ask, (row.status, begins, ends, b""))


# A checkpoint of a page's picture.
MARK = re.compile(rb"<rect class=\"(true|false)\"")


def marks(rqlook: Program, log: str) -> list[bool]:
    """Which checkpoints are true, as the page has them."""
    return [it == b"true" for it in MARK.findall(rqlook.run("page", log, "-")[1])]


def checkpoints(rqlook: Program, rq: Program) -> Iterator[Question]:
    log, points = with_points(carried_one(rq))
    want = [True] + [truth for _, truth in points]
    yield Question("rqlook page of false checkpoints", functools.partial(marks, rqlook, rq.file(log)), want)


def queues_at(rq: Program, log: bytes | None, offset: int) -> list[bytes]:
    """The lines of a restart from a checkpoint behind the first, which has numbers of bytes."""
    return rq.run("restart-at", rq.file(log or b""), offset, 1, 1)[1].splitlines()[1:]


def scripted(rqlook: Program, rq: Program) -> Iterator[Question]:
    """The log that is made of a carried file's script restarts from its checkpoint as that file does."""
    file = carried_on(rq.log_of(GOES_ON))
    def made() -> list[bytes]:
        return queues_at(rq, rq.making("make", rqlook.run("script", rq.file(file))[1])[1], 40)
    yield Question("rqlook script of a carried file, made", made, queues_at(rq, as_log(file), 72))


# --- pages -----------------------------------------------------------------------------------------------------------

# The chapters of lives, and what stands in their place.
CHAPTERS = ["elements", "units", "registrants", "records"]
MANY_RECORDS, NO_ROOM = "there are more than 10,000 records", "there is no room for them"
VERDICT = re.compile(r'<p class="(whole|bad)">([^<]*)</p>')
FOUND = re.compile(r'<tr><th scope="row">found there</th><td>(.*?)</td></tr>')
OMITTED = re.compile(r'<section id="left-out">.*?do not stand here: ([^.]*)\.', re.DOTALL)
UNSCALED = re.compile(r'<div class="plot[^"]*">(?!<span class="scale">)')


def units_of(records: int) -> str:
    """A script of so many records, some of which put elements in, for a registrant, and take them."""
    lines = ["define jobs 0 -\n", "register 0 ann\n"]
    for unit in range(1, records):
        lines += [f"begin {unit}\n", f"enqueue {unit} 0 5 ann {unit} 61\n", f"commit {unit}\n"]
    return "".join(lines[:records])


class PageRow(NamedTuple):
    """The words behind `page LOG -`, a log, how the page must be, what stands behind the front by a check, and why lives are left out."""
    words: str
    script: str
    damage: Callable[[bytes], bytes]
    verdict: str
    found: str = ""
    omitted: str = ""
    chapters: tuple[str, ...] = tuple(CHAPTERS)


PAGES = [
    PageRow("", units_of(20), whole, WHOLE),
    PageRow("", units_of(20), lambda log: log + bytes(1000), TORN, "behind it no frame is right in itself; 1000 bytes fit nothing"),
    PageRow("", ONE_ELEMENT, lambda log: log[:-1], TORN, NOTHING_BEHIND, chapters=("elements", "units", "records")),
    PageRow("", "define jobs 0 -\ncommit 1\n", whole, DAMAGED, ONE_BEHIND, chapters=("records",)),
    PageRow("", "define jobs 0 -\ncheckpoint-hex 00\n", whole, UNTRUE, chapters=("records",)),
    PageRow("", units_of(10000), whole, WHOLE, omitted=NO_ROOM, chapters=()),
    PageRow("", units_of(10001), whole, WHOLE, omitted=MANY_RECORDS, chapters=()),
    PageRow("--element 3", units_of(10001), whole, WHOLE, omitted=MANY_RECORDS, chapters=("elements", "records")),
    PageRow("--unit 2 --unit 3", units_of(10001), whole, WHOLE, omitted=MANY_RECORDS, chapters=("units", "records")),
    PageRow("", units_of(10001), lambda log: log + bytes(9), TORN, "behind it no frame is right in itself; 9 bytes fit nothing", MANY_RECORDS, ()),
]


class PageTold(NamedTuple):
    status: int
    kind: str
    verdict: str
    found: str
    omitted: str
    chapters: tuple[str, ...]
    unscaled: list[str]


def page_told(rqlook: Program, log: str, words: str) -> PageTold:
    """What a page says of these things."""
    status, output, _ = rqlook.run("page", log, "-", *words.split())
    page = output.decode()
    first, found, omitted = VERDICT.search(page), FOUND.search(page), OMITTED.search(page)
    lines = html.unescape(re.sub("</?small>", "", found[1])) if found else ""
    chapters = tuple(it for it in CHAPTERS if f'<section id="{it}">' in page)
    return PageTold(status, first[1] if first else "", html.unescape(first[2]) if first else "", lines, omitted[1] if omitted else "", chapters,
                UNSCALED.findall(page))


def pages(on: Programs) -> Iterator[Question]:
    for row in PAGES:
        log = on.rq.file(row.damage(on.rq.log_of(row.script)))
        kind = "whole" if row.verdict == WHOLE else "bad"
        want = PageTold(0, kind, row.verdict.rstrip("\n").replace("NAME", log), row.found.rstrip("\n"), row.omitted, row.chapters, [])
        ask = functools.partial(page_told, on.rqlook, log, row.words)
        yield Question(f"rqlook page {row.words} of {len(row.script.splitlines())} records", ask, want)


def questions(on: Programs) -> Iterator[Question]:
    yield from rows_of(ROWS + OF_ONE, on)
    for some in (of_one_log, behind_one, of_each_version, fronts_of_windows, rules, ends, checkpoints, scripted):
        yield from some(on.rqlook, on.rq)
    yield from pages(on)
