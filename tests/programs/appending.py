"""Quick. Tries rqlog from outside: what it appends, marks and carries on, what it refuses, and how a log goes on that was carried on.

What must stand in a log is made here, byte by byte, as docs/FORMAT.md has it; what a restart must say of it is told by rq. Of single lines
rows ask (tables/writing.py).
"""
from __future__ import annotations
import json, os, random, re
from collections.abc import Callable, Iterable
from itertools import islice

from frames import (CARRIED_AT, HEADER, START_BODIES, Frame, abort, begin, carried_bytes, carried_header_of, chained, checkpoint, commit, define,
                    enqueue, framed, frames_from, header_of, kill, read_as_log, spans_of, spelled)
from ordering import CUT
from tables import asking, lines
from tables.asking import MAKE
from tables.lines import TABLES, cases
from tables.works import SPELLED, with_points
from tables.writing import Standing, drawn_lines
from trying import (DONE, MORE, RQLOOK, START, Ended, appended, check, check_each, content, done, lines_of, plain, put, refused, rqlog, run,
                    says)

# The greatest next record numbers that a log and a carried file spell.
OF_LOGS, MOST = 2**32 - 1, 2**63 - 1

REPORT = re.compile(rb"front (\d+) records, (\d+) of (\d+) bytes, (\w+)\n(.*)", re.DOTALL)

# Words that are no line of the program.
NO_WORDS = ["", "append", "new", "new a.log b.log", "carry a.log", "close a.log", "appends a.log", "restart", "restart a.log one", "audit a.log 1 1",
            "checkpoint", "append a.log --sometimes", "restart a.log 4294967296"]
NO_PLANS = ["restart a.log 0", "restart a.log 65", "restart a.log 1 0", "restart a.log 1 1000001", "append a.log --workers 0",
            "checkpoint a.log --workers 65", "audit a.log 0", "close a.log out 65"]


def queues_of(report: bytes) -> bytes:
    """The lines of a report behind its first two."""
    return report.split(b"\n", 2)[-1]


def but_for_bytes(report: bytes) -> bytes:
    """A report without its numbers of bytes."""
    found = REPORT.fullmatch(report)
    return b"front %s records, %s\n%s" % (found[1], found[4], found[5]) if found else report


def restarted(log: str) -> bytes:
    return run("restart", log, 2, 10)[1]


def restarted_at(log: str, offset: int) -> bytes:
    return run("restart-at", log, offset, 2, 10)[1]


def words() -> None:
    """Help, version, and lines that are none."""
    status, said, error = rqlog("--help")
    check("help", (status, b"append" in said and b"carry" in said, error), (0, True, b""))
    status, said, error = rqlog("--version")
    # Which one it must be is held against the source by lint/documents.py.
    check("version", (status, bool(re.fullmatch(rb"rqlog \d+\.\d+\n", said)), error), (0, True, b""))
    for line in NO_WORDS:
        ended = rqlog(*line.split())
        check(f"words {line!r}", (ended[0], ended[1], bool(ended[2])), (2, b"", True))
    log = plain("a")
    for line in NO_PLANS:
        check(f"words {line!r}", rqlog(*line.split()), says("workers are 1 to 64, and a grain is 1 to 1000000", 2))
    check("words leave the log", content(log), chained(header_of(1), START_BODIES))


def begins() -> None:
    """A log that has no record is made, and takes records; a script of none makes the same."""
    check("new", (rqlog("new", "first.log"), content("first.log")), (DONE, header_of(2)))
    check("the log of no line", content(plain("second", b"", "make2")), header_of(2))
    check("append to it", (rqlog("append", "first.log", script=START)[0], content("first.log")), (0, chained(header_of(2), START_BODIES)))
    for name, status in {"first.log": 3, "none/first.log": 3, "/dev/null": 3, "/dev/stdout": 3}.items():
        ended = rqlog("new", name)
        check(f"new {name}", (*ended[:2], ended[2].startswith(f"rqlog: {name}: ".encode())), (status, b"", True))
    check("what is there stays", (content("first.log"), sorted(os.listdir("."))), (chained(header_of(2), START_BODIES),
          ["first.log", "second.log", "second.script"]))


def appends() -> None:
    """What is appended is read from a file, too; rows ask the rest."""
    whole, log = content(plain("whole", START + MORE)), plain("how")
    check("append by a file", (rqlog("append", log, put("more.script", MORE)), content(log)), (appended(4, len(whole)), whole))


def lawful() -> None:
    """What the judge of a log says of each line of the tables of `tables/lines.py`, behind the lawful lines before it."""
    for version, word in MAKE.items():
        for table in TABLES:
            log = plain("judged", b"", word)
            for number, (before, line, is_lawful) in enumerate(cases(table, version)):
                broken = Standing(version, before).broken(line)
                check(f"{table} {number}, version {version}, append {line!r}", judged(log, line, broken), ("", not is_lawful))


def judged(log: str, line: str, broken: list[str]) -> tuple[str, bool]:
    """What a line does to a log otherwise than it must, if these are the rules that it breaks: none, and it follows, or one of them is
    told. And whether it is refused."""
    before, told = content(log), f"rqlog: script line 1: {line}: ".encode()
    ended = rqlog("append", log, script=f"{line}\n".encode())
    after = content(log)
    if ended[0] == 0:
        return ("" if not broken and after.startswith(before) and len(after) > len(before) else "appended"), False
    rules = [told + it.encode() + b"; nothing was appended\n" for it in broken]
    return ("" if ended[0] == 1 and ended[2] in rules and after == before else repr(ended)), True


def drawn_rules() -> None:
    """The same of drawn lines: each follows if it breaks no rule, and else one is told that it breaks. All are met but one."""
    met: set[str] = set()
    for version, word in MAKE.items():
        log, standing = plain("drawn", b"", word), Standing(version, [])
        for line in islice(drawn_lines(random.Random(version)), 300):
            broken = standing.broken(line)
            check(f"version {version}, append {line!r}", judged(log, line, broken)[0], "")
            standing.take(line) if not broken else met.update(re.sub(r"\b(q?\d+|ann|bob)\b", "N", it) for it in broken)
    check("rules that are met", len(met), 10)


def kills() -> None:
    """A KILL is a record of version 2 alone: as bytes of version 1 it ends the front by its form."""
    put("killed.log", chained(header_of(1), [*START_BODIES, kill(0, 3)]))
    before = content("killed.log")
    ended = rqlog("append", "killed.log", script=MORE)
    check("append behind a kill", (is_damage(ended, "killed.log", "form"), content("killed.log")), (True, before))


def is_damage(ended: Ended, log: str, why: str) -> bool:
    """Whether nothing was written, since the front ends so. What else is said of it, recovering.py asks."""
    return ended[:2] == (1, b"") and ended[2].startswith(f"rqlog: {log}: its front ends by {why} at ".encode())


def damaged() -> None:
    """A front that ends otherwise than whole or cut is left as it is by all that write behind it."""
    log = plain("damaged", START + MORE)
    good = content(log)
    bodies = [*START_BODIES, commit(9)]
    kinds = {"length": good + bytes(9), "chain": good[:100] + bytes([good[100] ^ 1]) + good[101:], "form": chained(header_of(1),
             [*START_BODIES, bytes(9)]), "law": chained(header_of(1), bodies)}
    for why, bytes_ in kinds.items():
        put(log, bytes_)
        for line in ("append damaged.log", "append damaged.log --each", "checkpoint damaged.log", "carry damaged.log new.log"):
            check(f"{line}, {why}", (is_damage(rqlog(*line.split(), script=MORE), log, why), content(log)), (True, bytes_))
        check(f"no new file, {why}", os.path.exists("new.log"), False)
    for what, bytes_ in {"empty": b"", "script": START, "header": good[:39]}.items():
        put(log, bytes_)
        for line in ("append damaged.log", "checkpoint damaged.log", "carry damaged.log new.log", "close damaged.log out"):
            check(f"{line}, {what}", (rqlog(*line.split(), script=MORE), content(log)), (says(f"{log}: not a log: rq make makes one"), bytes_))


def cut_anywhere() -> None:
    """Each beginning of appended bytes: the report is that of the records wholly there, and the next append cuts the rest."""
    log = plain("cut")
    start = content(log)
    check("append to be cut", rqlog("append", log, script=MORE)[0], 0)
    wrong = wrong_beginnings(log, start, 5, lambda: run("restart", log, 1, 1)[1])
    check("beginnings of appended bytes", wrong, [])


def cut_behind_a_carry() -> None:
    """The same behind the checkpoint with which a log begins that was carried on, by both restarts of it; a cut log is carried on."""
    rqlog("carry", put("cut.log", content(plain("old")) + b"\0\0"), "cut.carried")
    rqlog("carry", "old.log", "new.carried")
    start = content("new.carried")
    check("carry a cut log", content("cut.carried"), start)
    check("append to be cut, carried", rqlog("append", "new.carried", script=MORE)[0], 0)
    for name, by in {"rqlog": lambda: rqlog("restart", "new.carried")[1], "rq": lambda: restarted_at(read_as_log("new.carried"), CARRIED_AT)}.items():
        put("new.carried", start)
        rqlog("append", "new.carried", script=MORE)
        check(f"beginnings behind a carry, {name}", wrong_beginnings("new.carried", start, 6, by, every=7), [])


def wrong_beginnings(log: str, start: bytes, records: int, report: Callable[[], bytes], every: int = 1) -> list[int]:
    """At which bytes behind the start, where so many records are, a cut log says anything else than it must, or is not mended."""
    whole = content(log)
    fronts = [len(start), *(end for _, end in spans_of(whole, len(start)))]
    lines = MORE.splitlines(keepends=True)
    wrong = []
    for end in {*range(len(start), len(whole) + 1, every), *fronts}:
        put(log, whole[:end])
        there = max(at for at, front in enumerate(fronts) if front <= end)
        why = b"whole" if end == fronts[there] else b"cut"
        said = REPORT.fullmatch(report())
        is_told = said and said.groups()[:4] == (b"%d" % (records + there), b"%d" % fronts[there], b"%d" % end, why)
        ended = rqlog("append", log, script=b"".join(lines[there:]))
        if not is_told or ended != appended(4 - there, len(whole)) or content(log) != whole:
            wrong.append(end)
    return wrong


def marks() -> None:
    """A checkpoint is true, and both restarts say the same; with --close each open unit ends before."""
    log = plain("marked", START + MORE.removesuffix(b"commit 2\n"))
    before, report = content(log), restarted(log)
    ended = rqlog("checkpoint", log)
    check("checkpoint", ended, (0, b"%d\n" % len(before), b""))
    check("checkpoint behind the front", content(log)[:len(before)], before)
    check("audit of it", run("audit", log, 1), (0, b"checkpoint %d true\n" % len(before), b""))
    check("restart and restart-at", restarted_at(log, len(before)), restarted(log))
    check("queues", queues_of(restarted(log)), queues_of(report))
    told = rqlog("checkpoint", log, "--close", "--json")
    offset = json.loads(told[1])["offset"]
    check("checkpoint --close", json.loads(told[1]), {"offset": offset, "bytes": os.path.getsize(log)})
    run("make", put("c.script", START + MORE.removesuffix(b"commit 2\n") + b"checkpoint\nabort 2\ncheckpoint\n"), "c.log")
    check("is what rq make writes", content(log), content("c.log"))
    check("no unit is open", b"0 cut off" in restarted(log), True)


def carries() -> None:
    """Carried twice and then appended; what a restart says is what it says of one log, but for numbers of bytes and records."""
    log = plain("old")
    link = content(log)[-32:]
    spelling = content(plain("s", START + b"checkpoint\n"))[len(content(log)) + 5:-32]
    ended = rqlog("carry", log, "new.carried")
    want = carried_bytes(1, link, [checkpoint(spelling)])
    check("carry", (ended, content("new.carried")), ((0, b"carried on behind 5 records, %d bytes\n" % len(want), b""), want))
    check("append to it", rqlog("append", "new.carried", script=MORE.removesuffix(b"commit 2\n"))[0], 0)
    told = rqlog("carry", "new.carried", "third.carried", "--json")
    check("carry twice", json.loads(told[1]), {"next": 9, "offset": CARRIED_AT, "bytes": os.path.getsize("third.carried")})
    check("link of the third", content("third.carried")[40:72], content("new.carried")[-32:])
    check("append to the third", rqlog("append", "third.carried", script=b"commit 2\nbegin 3\n")[0], 0)
    one = plain("one", START + b"checkpoint\n" + MORE.replace(b"commit 2", b"checkpoint\ncommit 2") + b"begin 3\n")
    for name, by in {"restart-at": restarted_at(read_as_log("third.carried"), CARRIED_AT), "rqlog": rqlog("restart", "third.carried")[1]}.items():
        check(f"carried, {name}", but_for_bytes(by), but_for_bytes(restarted(one)))
    check("restarts agree", rqlog("restart", "third.carried", 2, 10)[1], restarted_at(read_as_log("third.carried"), CARRIED_AT))
    check("restart of a plain log", rqlog("restart", one), (0, restarted(one), b""))
    marks_carried(one)


def marks_carried(one: str) -> None:
    """A carried file is marked, audited and closed."""
    before = os.path.getsize("third.carried")
    check("checkpoint of it", rqlog("checkpoint", "third.carried"), (0, b"%d\n" % before, b""))
    check("audit of it", rqlog("audit", "third.carried"), (0, b"checkpoint 72 carried\ncheckpoint %d true\n" % before, b""))
    check("restart-at there", restarted_at(read_as_log("third.carried"), before), restarted_at(read_as_log("third.carried"), CARRIED_AT))
    check("close of it", rqlog("close", "third.carried", "closed.carried", 1), DONE)
    run("close", one, "one.closed", 1)
    check("its report", queues_of(rqlog("restart", "closed.carried")[1]), queues_of(restarted("one.closed")))
    check("close again", (rqlog("close", "closed.carried", "again.carried"), content("again.carried")), (DONE, content("closed.carried")))
    for word in ("close", "audit", "restart"):
        line = [word, one, "out"] if word == "close" else [word, one]
        check(f"{word} of a plain log", rqlog(*line, 1), (0, run(*line, 1, *[1000] * (word == "restart"))[1], b""))
    check("its bytes", content("out"), content("one.closed"))


def without_a_beginning() -> None:
    """A file that begins as a carried log and has no checkpoint at 72, or one that spells no state: all lines refuse it."""
    rqlog("carry", plain("old"), "new.carried")
    good, link = content("new.carried"), content("old.log")[-32:]
    none, bad = (says(f"wrong.carried: {it} checkpoint: rqlook check tells what the file is") for it in ("no", "bad"))
    kinds = {end: (good[:end], none) for end in (40, 60, 72, 75, len(good) - 1)}
    kinds |= {"turned": (good[:120] + bytes([good[120] ^ 1]) + good[121:], none),
              "no state": (carried_bytes(1, link, [checkpoint(b"")]), bad),
              "another record": (carried_bytes(1, link, [begin(2), *[checkpoint(b"")] * 2]), none)}
    for kind, (bytes_, want) in kinds.items():
        put("wrong.carried", bytes_)
        for line in ("append {}", "checkpoint {}", "carry {} third", "restart {}", "audit {}", "close {} third"):
            ended = rqlog(*line.format("wrong.carried").split(), script=MORE), content("wrong.carried"), os.path.exists("third")
            check(f"{line}, {kind}", ended, (want, bytes_, False))


def by_pipes() -> None:
    """A log of either kind may be read from a pipe."""
    log = plain("piped", START + b"checkpoint\n")
    rqlog("carry", log, "piped.carried")
    for name in (log, "piped.carried"):
        for line in ("restart {}", "audit {}", "close --force {} closed.log"):
            ended = [(rqlog(*line.format(it).split(), script=content(name)), content("closed.log")) for it in (name, "/dev/stdin")]
            check(f"{line.format(name)}, by a pipe", ended[1], ended[0])


def near_the_end() -> None:
    """Numbers end at 2^63 - 1: said when a log is carried on that could pass it, and refused at it."""
    for left in (10**9, 1000, 2, 1, 0):
        state = spelled((MOST - left, 1, 1, 0), [b"jobs"], [])
        log = put("near.carried", carried_bytes(1, bytes(32), [checkpoint(state)])) if left else None
        if log is None:
            continue
        script = b"register 0 ann\n" * 3
        room = left - 1
        want = appended(3, len(content(log)) + 3 * 44) if room >= 3 else says(
            f"script line {room + 1}: register 0 ann: numbers end at 9223372036854775807: begin a new log; nothing was appended")
        check(f"append with {room} left", rqlog("append", log, script=script), want)
        put(log, carried_bytes(1, bytes(32), [checkpoint(state)]))
        ended = rqlog("carry", log, f"near.{left}")
        if room == 0:
            check("carry with none left", ended, says("numbers end at 9223372036854775807: begin a new log"))
        else:
            warned = b"rqlog: %d records more, and numbers end: begin a new log before\n" % room if room < 10**8 else b""
            check(f"carry with {room} left", (ended[0], ended[2]), (0, warned))


def numbered(next_record: int) -> bytes:
    """A carried file whose first record has this number, or nearly so: an element stands there that was put in two records before."""
    return begun_with(spelled((next_record, 1, 1, 0), [b"jobs"], [(next_record - 2, b"a")]), bytes(32))


def shown(next_record: int, size: int, units: int, elements: Iterable[tuple[int, bytes]]) -> bytes:
    """What a restart says of such a file of this size, behind so many units that were committed."""
    lines = b"".join(b"e %d from 0 priority 5 attempts 0 %s\n" % (id, payload) for id, payload in elements)
    return b"front %d records, %d of %d bytes, whole\nunits %d committed, 0 aborted, 0 cut off\nqueue 0 jobs limit 0 error -\n" % (
        next_record, size, size, units) + lines


def read_back(name: str, next_record: int, points: bytes, shows: bytes) -> None:
    """All that reads such a file agrees on it; rq takes it as a log from its checkpoint on if a log can spell that."""
    check(f"restart of {name}", rqlog("restart", name), (0, shows, b""))
    check(f"audit of {name}", rqlog("audit", name), (0, b"checkpoint 72 carried\n" + points, b""))
    looked = done(RQLOOK, "report", name)
    check(f"rqlook report of {name}", (looked[0], looked[1].endswith(shows)), (0, True))
    checked = done(RQLOOK, "check", name)
    check(f"rqlook check of {name}", (checked[0], b"whole, each checkpoint is true" in checked[1]), (0, True))
    want = (0, shows, b"") if next_record <= OF_LOGS else refused("bad checkpoint")
    check(f"restart-at of {name}, as a log", run("restart-at", read_as_log(name), CARRIED_AT, 2, 1), want)


def beyond_logs() -> None:
    """A carried file may have more records before it than a log can number: it is restarted, audited, looked at, marked, appended to,
    closed, recovered and carried on like any other."""
    for next_record in (OF_LOGS - 1, OF_LOGS, OF_LOGS + 1, 2**32 + 5, 2**40, 2**63 - 100):
        log, old = put("far.carried", numbered(next_record)), next_record - 2
        read_back(log, next_record, b"", shown(next_record + 1, len(content(log)), 1, [(old, b"61")]))
        script = b"begin 2\nenqueue 2 0 5 - 0 62\ncommit 2\n"
        whole = framed(framed(framed(content(log), begin(2)), enqueue(2, 0, payload=b"b")), commit(2))
        check(f"append behind {next_record}", (rqlog("append", log, script=script), content(log)), (appended(3, len(whole)), whole))
        both = [(old, b"61"), (next_record + 2, b"62")]
        read_back(log, next_record, b"", shown(next_record + 4, len(whole), 2, both))
        told = checkpoint(spelled((next_record + 4, 2, 2, 0), [b"jobs"], [(old, b"a"), (next_record + 2, b"b")]))
        check(f"checkpoint behind {next_record}", (rqlog("checkpoint", log), content(log)), ((0, b"%d\n" % len(whole), b""), framed(whole, told)))
        marked = content(log)
        read_back(log, next_record, b"checkpoint %d true\n" % len(whole), shown(next_record + 5, len(marked), 2, both))
        carried_again(log, next_record + 5, both)
        put(log, framed(marked, begin(3)) + b"\0\0")
        check(f"recover behind {next_record}", (rqlog("recover", log)[0], content(log)), (0, framed(framed(marked, begin(3)), abort(3))))


def carried_again(log: str, next_record: int, elements: list[tuple[int, bytes]]) -> None:
    """The file goes on in another one, and closed in a third, with the numbers going on."""
    members = [(id, bytes.fromhex(payload.decode())) for id, payload in elements]
    want = begun_with(spelled((next_record, 2, 2, 0), [b"jobs"], members), content(log)[-32:])
    told = 0, b"carried on behind %d records, %d bytes\n" % (next_record, len(want))
    check(f"carry behind {next_record}", (rqlog("carry", log, "farther.carried")[:2], content("farther.carried")), (told, want))
    read_back("farther.carried", next_record, b"", shown(next_record + 1, len(want), 2, elements))
    rqlog("append", "farther.carried", script=b"begin 3\n")
    check(f"close behind {next_record}", rqlog("close", "farther.carried", "far.closed", "--force"), DONE)
    check("its bytes", content("far.closed"), framed(framed(want, begin(3)), abort(3)))
    os.remove("farther.carried")


def beyond_all() -> None:
    """No file begins with a state of a greater next record number; one may come to it, and is restarted, but not carried on."""
    for line in ("append {}", "checkpoint {}", "carry {} third", "restart {}", "audit {}", "close {} third"):
        log = put("beyond.carried", numbered(MOST + 1))
        ended = rqlog(*line.format(log).split(), script=b"register 0 ann\n"), content(log), os.path.exists("third")
        said = says("beyond.carried: bad checkpoint: rqlook check tells what the file is")
        check(f"{line} beyond all", ended, (said, numbered(MOST + 1), False))
    log = put("beyond.carried", framed(framed(numbered(MOST), begin(2)), commit(2)))
    check("restart past all", rqlog("restart", log), (0, shown(MOST + 3, len(content(log)), 2, [(MOST - 2, b"61")]), b""))
    for line in ("carry {} third", "checkpoint {}"):
        check(f"{line} past all", rqlog(*line.format(log).split()), says("numbers end at 9223372036854775807: begin a new log"))


# --- carried files ---------------------------------------------------------------------------------------------------

ONE_ELEMENT = asking.ONE_ELEMENT.encode()
ONE_BODIES = [define(b"jobs"), begin(1), enqueue(1, 0), commit(1)]
# The lines of a restart behind its first one.
QUEUES = b"units 1 committed, 0 aborted, 0 cut off\nqueue 0 jobs limit 0 error -\ne 2 from 0 priority 5 attempts 0 61\n"
# More elements than a megabyte holds, which is read of a log at a time.
LONG = START.replace(b"commit 1\n", (b"enqueue 1 0 5 - 0 " + b"5a" * 65535 + b"\n") * 40 + b"commit 1\n")


def begun_with(told: bytes, last: bytes) -> bytes:
    """A carried file that begins with a checkpoint of these bytes, behind a log with these last bytes."""
    return carried_bytes(1, last, [checkpoint(told)])


def carried_one(next_record: int, last: bytes) -> bytes:
    """One that begins with the state of `ONE_ELEMENT` before this record."""
    return begun_with(spelled((next_record, 1, 1, 0), [b"jobs"], [(2, b"a")]), last)


def is_whole(name: str, log: str, records: int) -> None:
    """The front of a log that was carried on ends where the log does, behind so many records of all files together."""
    size = os.path.getsize(log)
    want = b"front %d records, %d of %d bytes, whole\n" % (records, size, size) + QUEUES
    check(f"restart of {name}", rqlog("restart", log), (0, want, b""))
    check(f"restart-at of {name}, read as a log", run("restart-at", read_as_log(log), CARRIED_AT, 1, 1), (0, want, b""))
    check(f"append of nothing to {name}", (rqlog("append", log), os.path.getsize(log)), (appended(0, size), size))
    check(f"audit of {name}", rqlog("audit", log), (0, b"checkpoint 72 carried\n", b""))


def goes_on() -> None:
    """A log that was carried on goes on from its checkpoint, which is a record; and so if it is carried on again."""
    first = carried_one(4, content(plain("one", ONE_ELEMENT))[-32:])
    told = 0, b"carried on behind 4 records, %d bytes\n" % len(first), b""
    check("carry", (rqlog("carry", "one.log", "first"), content("first")), (told, first))
    is_whole("a carried log", "first", 5)
    second = carried_one(5, first[-32:])
    told = 0, b"carried on behind 5 records, %d bytes\n" % len(second), b""
    check("carry again", (rqlog("carry", "first", "second"), content("second")), (told, second))
    is_whole("a log that is carried again", "second", 6)


def within_a_unit() -> None:
    """A state with an open unit, which has taken one element and put in another, is carried on twice as it is; and marked."""
    log = plain("within", asking.CHECKPOINT.removesuffix("commit 2\n").encode())
    bodies, whole = [bytes(7) + bytes([number]) + SPELLED[8:] for number in (9, 10)], content(log)
    want = begun_with(bodies[0], whole[-32:])
    check("carry within a unit", (rqlog("carry", log, "within.first")[0], content("within.first")), (0, want))
    again = begun_with(bodies[1], want[-32:])
    check("carry within it again", (rqlog("carry", "within.first", "within.second")[0], content("within.second")), (0, again))
    check("checkpoint within a unit", (rqlog("checkpoint", log)[0], content(log)), (0, framed(whole, checkpoint(bodies[0]))))


def lengths_appended() -> None:
    """Names and payloads of each kind of length are appended as `rq make` writes them."""
    for name, (script, _) in {"names": lines.names(), "payloads": lines.payloads()}.items():
        whole, log = content(plain("lengths", script.encode())), plain("grown", b"")
        ended = rqlog("append", log, script=script.encode()), content(log) == whole
        check(f"append {name} of each length", ended, (appended(script.count("\n"), len(whole)), True))


def false_checkpoints() -> None:
    """Checkpoints behind the one with which a log begins: of each it is told whether it is true."""
    log, points = with_points(carried_one(4, chained(header_of(1), ONE_BODIES)[-32:]))
    words = {True: "true", False: "false"}
    want = "checkpoint 72 carried\n" + "".join(f"checkpoint {at} {words[truth]}\n" for at, truth in points)
    put("points.log", log)
    check("audit of false checkpoints", rqlog("audit", "points.log"), (0, want.encode(), b""))
    check("append behind them", rqlog("append", "points.log"), appended(0, len(log)))


def in_pieces() -> None:
    """Records are appended to a log that is read in several pieces, each of which ends within a frame."""
    log, whole = plain("long", LONG), content(plain("longer", LONG + MORE))
    check("a log of several pieces", os.path.getsize(log) > 2 << 20, True)
    check("append to it", (rqlog("append", log, script=MORE), content(log) == whole), (appended(4, len(whole)), True))


def read_carried(file: bytes) -> tuple[int, bytes, list[Frame]]:
    """The version of a carried file, its link, and the frames of its front: FORMAT.md in code."""
    if file[:HEADER] not in map(carried_header_of, (1, 2)):
        raise ValueError("no carried file")
    return file[7], file[HEADER:CARRIED_AT], list(frames_from(file, CARRIED_AT))


def a_reader() -> None:
    """A reader that is made by FORMAT.md alone agrees with the program on what `carry` writes, of both versions, whole, cut and
    damaged; and what a writer makes by it is what `carry` writes."""
    for version, word in {1: "make", 2: "make2"}.items():
        old = plain(f"old{version}", START, word)
        rqlog("carry", old, f"read{version}.carried")
        rqlog("append", f"read{version}.carried", script=MORE)
        whole = content(f"read{version}.carried")
        found, link, frames = read_carried(whole)
        check(f"version {version}: header and link", (found, link), (version, content(old)[-32:]))
        check("its first frame, as a writer makes it", whole[:frames[1].at], carried_bytes(version, link, [frames[0].body]))
        for name, file in {"whole": whole, "cut": whole[:-40], "damaged": whole[:-50] + bytes([whole[-50] ^ 1]) + whole[-49:]}.items():
            frames = read_carried(file)[2]
            end = frames[-1].end
            said = rqlog("restart", put("read.carried", file))[1].split(b"\n")[0]
            check(f"restart of it, {name}", said.startswith(b"front %d records, %d of %d bytes, " % (4 + len(frames) + 1, end, len(file))), True)


# The lines of `rq` that read a log. Each refuses a carried file, and writes nothing.
READING = ["restart LOG WORKERS GRAIN", "restart-at LOG 72 WORKERS GRAIN", "restart-at LOG OFFSET WORKERS GRAIN", "audit LOG WORKERS",
           "close LOG MADE WORKERS", "close LOG LOG WORKERS", "upgrade LOG MADE WORKERS", "upgrade LOG LOG WORKERS"]


def no_log_to_rq() -> None:
    """To each line of `rq` a carried file is no log: it says so, and the file is as it was. So is what `rqlog` makes of one."""
    for version, word in {1: "make", 2: "make2"}.items():
        rqlog("carry", plain(f"before{version}", START + b"begin 2\n", word), f"to_rq{version}.carried")
        rqlog("append", f"to_rq{version}.carried", script=b"enqueue 2 0 8 - 0 62\n")
        check("close of it", rqlog("close", f"to_rq{version}.carried", f"closed{version}.carried"), DONE)
        for name in (f"to_rq{version}.carried", f"closed{version}.carried"):
            before = content(name)
            check_each(f"of {name}", lines_of(READING, LOG=name), refused("not a log"))
            check(f"{name} behind them", (content(name), os.path.exists("made")), (before, False))


def closed_onto_itself() -> None:
    """A carried file that is closed onto itself is one again, with an ABORT for each open unit; and so if that is done again."""
    log = plain("open", START + b"begin 2\n")
    rqlog("carry", log, "open.carried")
    before = content("open.carried")
    check("close onto itself", rqlog("close", "open.carried", "open.carried"), DONE)
    closed = framed(before, abort(2))
    check("its bytes", content("open.carried"), closed)
    check("close onto itself again", (rqlog("close", "open.carried", "open.carried"), content("open.carried")), (DONE, closed))


def closed_behind_a_rest() -> None:
    """The ABORTs of a carried file that is closed stand where its front ends, whatever a crash or damage left there: in another file,
    and onto itself."""
    rqlog("carry", plain("rest", START + b"begin 2\n"), "rest.carried")
    front = content("rest.carried")
    want, damage = framed(front, abort(2)), b"\xff" * 50
    for rest in (b"", b"\0\0", CUT, damage):
        told = b"rqlog: left out 50 bytes behind the front, with 0 right frames\n" if rest == damage else b""
        for line in ("close rest.carried other.carried --force", "close rest.carried rest.carried --drop"):
            put("rest.carried", front + rest)
            check(f"{line} behind {len(rest)} bytes", (rqlog(*line.split()), content(line.split()[2])), ((0, b"", told), want))


PARTS = [words, begins, appends, lawful, drawn_rules, kills, damaged, cut_anywhere, marks, carries, cut_behind_a_carry]
PARTS += [without_a_beginning, by_pipes, near_the_end, beyond_logs, beyond_all]
PARTS += [goes_on, within_a_unit, false_checkpoints, in_pieces, lengths_appended, a_reader, no_log_to_rq, closed_onto_itself, closed_behind_a_rest]
