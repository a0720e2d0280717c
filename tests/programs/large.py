"""Quick; by hand before a release with --everyday and with --full. Large logs: they are answered, in bounded memory, and nothing is said to
be refused for want of a number, a length or memory.

With --everyday one log of an everyday size, with nothing odd about it, is restarted, appended to, marked, audited, carried on twice, closed,
recovered and upgraded, with one worker and with four, and appended whole to a log without records. It has 4,096 queues, 1.2 million records,
100,000 elements and 300 MB, and 100 units are open at its end.
With --share it has so many of a hundred parts of all but its queues. It needs two gigabytes of memory and of disk.
A log that has room for 44 bytes more refuses a record of 45. That log is of checkpoints that are nothing but zeros, so its file has holes,
and takes little of the disk. Each run over it costs a digest over 4 GiB.
With --full the programs are taken to the limits of a log's length: a file of more than 1 GiB is read to its end, and one of more than 4 GiB
is too long; that log is appended to and carried on: what fits stands, and what does not is told.
"""
from __future__ import annotations
import argparse, os, resource, shutil, subprocess, sys, time
from collections.abc import Iterator
from hashlib import sha256

from frames import HEADER, abort, begin, checkpoint, commit, define, dequeue, enqueue, header_of, pieces_of, spelled
from logs import checkpoints_script
from trying import DONE, RQ, RQLOG, RQLOOK, Ended, check, content, done, put, run

MANY_QUEUES = [b"q%d" % queue for queue in range(1000)]
OPEN_UNITS = range(1, 1001)
# The longest payload but one.
LONG = b"\x5a" * 65534
TOLD, MORE_ELEMENTS, KEPT = 320, 1300, 2
# As a multiple of the log: a restart and an audit hold the log and little more, since its payloads are lent. To copy them
# would take more than four fifths of it once more.
MOST = 1.6


def beginning() -> Iterator[bytes]:
    """A thousand queues and a thousand open units, and elements of one unit, told by a checkpoint of more than 16 MiB."""
    yield from map(define, MANY_QUEUES)
    yield from map(begin, OPEN_UNITS)
    yield begin(1001)
    yield from (enqueue(1001, 0, payload=LONG) for _ in range(TOLD))
    yield commit(1001)
    place = len(MANY_QUEUES) + len(OPEN_UNITS)
    elements = [(place + 1 + at, LONG) for at in range(TOLD)]
    yield checkpoint(spelled((place + 2 + TOLD, 1001, 1, 0), MANY_QUEUES, elements, OPEN_UNITS))


def rest_of_it() -> Iterator[bytes]:
    """The open units enqueue, another one enqueues much more, and a third one takes all but the last two."""
    yield from (enqueue(unit, unit % 1000, payload=b"open") for unit in OPEN_UNITS)
    yield begin(1002)
    yield from (enqueue(1002, 0, payload=LONG) for _ in range(MORE_ELEMENTS))
    yield commit(1002)
    yield begin(1003)
    yield from (dequeue(1003, 0) for _ in range(TOLD + MORE_ELEMENTS - KEPT))
    yield commit(1003)


def script() -> Iterator[bytes]:
    """The script of the beginning."""
    yield from (b"define %s 0 -\n" % name for name in MANY_QUEUES)
    yield from (b"begin %d\n" % unit for unit in (*OPEN_UNITS, 1001))
    yield from [b"enqueue 1001 0 5 - 0 " + LONG.hex().encode() + b"\n"] * TOLD
    yield b"commit 1001\ncheckpoint\n"


def report(records: int, length: int) -> bytes:
    last = len(MANY_QUEUES) + len(OPEN_UNITS) + 3 + TOLD + len(OPEN_UNITS) + MORE_ELEMENTS
    lines = [b"front %d records, %d of %d bytes, whole\n" % (records, length, length)]
    lines.append(b"units 3 committed, 0 aborted, 1000 cut off\n")
    for queue, name in enumerate(MANY_QUEUES):
        lines.append(b"queue %d %s limit 0 error -\n" % (queue, name))
        if queue == 0:
            element = b"e %d from 0 priority 5 attempts 0 " + LONG.hex().encode() + b"\n"
            lines += [element % (last + 1 + at - KEPT) for at in range(KEPT)]
    return b"".join(lines)


# Runs the words, and prints the status and the KiB that the run held at most.
ASK = """import os, subprocess, sys
started = subprocess.Popen(sys.argv[1:], stdout=subprocess.DEVNULL)
_, status, usage = os.wait4(started.pid, 0)
print(os.waitstatus_to_exitcode(status), usage.ru_maxrss)"""


def peak(*words: object) -> tuple[int, int]:
    """The status of a run, and how much memory it held, in bytes. A small process asks: the system counts with a program what the
    process held that started it."""
    told = subprocess.run([sys.executable, "-c", ASK, RQ, *map(str, words)], stdout=subprocess.PIPE, check=True).stdout
    status, kibibytes = told.split()
    return int(status), int(kibibytes) * 1024


def ordinary() -> None:
    """One log of more than 100 MB, by all commands."""
    told, more = list(beginning()), list(rest_of_it())
    # the header, and then a frame for each body
    pieces = list(pieces_of(header_of(1), told + more))
    log, front = b"".join(pieces), b"".join(pieces[:1 + len(told)])
    offset = len(front) - len(pieces[len(told)])
    put("large.one", log)
    put("large.script", b"".join(script()))
    check("make a large log", (run("make", "large.script", "large.made"), content("large.made") == front), (DONE, True))
    want = report(len(told) + len(more), len(log))
    for workers in (1, 4):
        check(f"restart a large log, {workers}", told_right(run("restart", "large.one", workers, 1000), want), DONE)
        at = run("restart-at", "large.one", offset, workers, 1000)
        check(f"restart-at in a large log, {workers}", told_right(at, want), DONE)
        audit = run("audit", "large.one", workers)
        check(f"audit a large log, {workers}", audit, (0, b"checkpoint %d true\n" % offset, b""))
    # a header holds its digest behind its magic, and so stands for any digest that is chained on
    _, *tail = pieces_of(bytes(8) + log[-32:], map(abort, OPEN_UNITS))
    closed = log + b"".join(tail)
    check("close a large log", (run("close", "large.one", "large.made", 4), content("large.made") == closed), (DONE, True))
    newer = b"".join(pieces_of(header_of(2), told + more))
    check("upgrade a large log", (run("upgrade", "large.one", "large.made", 4), content("large.made") == newer), (DONE, True))
    held(len(log))


def told_right(ended: Ended, want: bytes) -> Ended:
    """How a run ended, without a report if that is the right one, and with its beginning if it is not."""
    status, wrote, complaint = ended
    return status, b"" if wrote == want else wrote[:200] or b"nothing", complaint


def held(length: int) -> None:
    """The memory that a restart and an audit of that log hold, which lend its payloads and copy none."""
    for words in (["restart", "large.one", 4, 1000], ["audit", "large.one", 4]):
        status, memory = peak(*words)
        times = memory / length
        check(f"{words[0]} of long payloads holds {times:.2f} times the log", (status, times <= MOST), (0, True))


def checkpoints() -> None:
    """Logs with 8 checkpoints and with 100: each is true, and a restart from the last one has the report of the whole."""
    for count in (8, 100):
        checkpoints_script("many.script", 1, count)
        check(f"make {count} checkpoints", run("make", "many.script", "many.log"), DONE)
        truths = run("audit", "many.log", 4)[1].decode().splitlines()
        check(f"{count} checkpoints are true", {it.split()[2] for it in truths}, {"true"})
        whole, at = run("restart", "many.log", 4, 1000), run("restart-at", "many.log", truths[-1].split()[1], 4, 1000)
        check(f"restart-at the last of {count} checkpoints", at == whole, True)


# --- every day -------------------------------------------------------------------------------------------------------

QUEUES, OPEN = 4096, 100
# Elements that stay, in units of so many, and elements that are put in and taken, each by a unit of its own.
STAYING, EACH, PASSING = 100_000, 100, 182_000
PAYLOAD = b"\xa5" * 820
# What an enqueue's number is of: where its record stands.
NAMES = [b"q%d" % number for number in range(QUEUES)]


def home(element: int) -> int:
    """The queue of the element with this number among those that stay. No other element comes there."""
    return element % (QUEUES // 2)


def everyday_bodies(staying: int, passing: int) -> Iterator[bytes]:
    yield from map(define, NAMES)
    unit = 0
    for first in range(0, staying, EACH):
        unit += 1
        yield begin(unit)
        yield from (enqueue(unit, home(it), payload=PAYLOAD) for it in range(first, first + EACH))
        yield commit(unit)
    for it in range(passing):
        queue = QUEUES // 2 + it % (QUEUES // 2)
        yield from (begin(unit + 1), enqueue(unit + 1, queue, payload=PAYLOAD), commit(unit + 1))
        yield from (begin(unit + 2), dequeue(unit + 2, queue), commit(unit + 2))
        unit += 2
    for queue in range(OPEN):
        yield from (begin(unit + 1 + queue), dequeue(unit + 1 + queue, queue))


def taken_away(path: str | bytes) -> None:
    if os.path.exists(path):
        os.remove(path)


def line_of(body: bytes) -> bytes:
    """The line of a script that tells this record."""
    if body[0] == 1:
        return b"define %s 0 -\n" % body[7:]
    unit = int.from_bytes(body[1:9], "big")
    if body[0] in (4, 7):
        return b"%s %d\n" % (b"begin" if body[0] == 4 else b"commit", unit)
    queue = int.from_bytes(body[9:13], "big")
    return b"dequeue %d %d - 0\n" % (unit, queue) if body[0] == 6 else b"enqueue %d %d 5 - 0 %s\n" % (unit, queue, body[23:].hex().encode())


def queue_lines(staying: int) -> bytes:
    """The report of the queues. What an open unit took comes back, once more tried."""
    lines: list[bytes] = []
    held = [[] for _ in range(QUEUES)]
    for it in range(staying):
        held[home(it)].append(QUEUES + it + it // EACH * 2 + 1)
    for queue, elements in enumerate(held):
        lines.append(b"queue %d %s limit 0 error -\n" % (queue, NAMES[queue]))
        for place, element in enumerate(elements):
            tried = queue < OPEN and place == 0
            lines.append(b"e %d from %d priority 5 attempts %d %s\n" % (element, queue, tried, PAYLOAD.hex().encode()))
    return b"".join(lines)


class Everyday:
    """The log, and what the programs must make of it."""

    def __init__(self, folder: str, share: int) -> None:
        self.folder = folder
        self.staying = STAYING * share // 100 // EACH * EACH
        self.passing = PASSING * share // 100
        self.units = self.staying // EACH + 2 * self.passing
        self.bodies = list(everyday_bodies(self.staying, self.passing))
        self.log = self.written("everyday.log", pieces_of(header_of(1), self.bodies))
        self.bytes = os.path.getsize(self.log)
        self.queues = queue_lines(self.staying)

    def path(self, name: str) -> str:
        return os.path.join(self.folder, name)

    def written(self, name: str, pieces: Iterator[bytes]) -> str:
        with open(self.path(name), "wb") as file:
            file.writelines(pieces)
        return self.path(name)

    def ends(self, program: str, *words: object, told: bytes = b"", script: bytes = b"") -> None:
        """A line that ends well and says just this."""
        ended = done(program, *words, input=script, timeout=None)
        check(" ".join(map(str, words)).replace(self.folder, ""), told_right(ended, told), DONE)

    def report(self, records: int, used: int, cut_off: int) -> bytes:
        """The report of the log, or of what goes on from it: so many records and bytes, and units that are undone."""
        first = b"front %d records, %d of %d bytes, whole\n" % (records, used, used)
        aborted = OPEN - cut_off
        return first + b"units %d committed, %d aborted, %d cut off\n" % (self.units, aborted, cut_off) + self.queues

    def reads(self) -> None:
        for workers in (1, 4):
            self.ends(RQ, "restart", self.log, workers, 1000, told=self.report(len(self.bodies), self.bytes, OPEN))
            self.ends(RQLOG, "restart", self.log, workers, told=self.report(len(self.bodies), self.bytes, OPEN))

    def is_made(self, name: str, pieces: Iterator[bytes]) -> None:
        """What was made has these bytes, and goes again."""
        if not check(f"{name} is made", os.path.exists(self.path(name)), True):
            return
        same = True
        with open(self.path(name), "rb") as file:
            for piece in pieces:
                same = same and file.read(len(piece)) == piece
            same = same and not file.read(1)
        check(f"{name} byte by byte", same, True)
        os.remove(self.path(name))

    def aborts(self) -> list[bytes]:
        return [abort(self.units + 1 + it) for it in range(OPEN)]

    def closes(self) -> None:
        for program in (RQ, RQLOG):
            self.ends(program, "close", self.log, self.path("closed"), 4)
            self.is_made("closed", pieces_of(header_of(1), [*self.bodies, *self.aborts()]))
        self.ends(RQ, "upgrade", self.log, self.path("upgraded"), 4)
        self.is_made("upgraded", pieces_of(header_of(2), self.bodies))

    def appends(self) -> None:
        """All of it at once, to a log without records."""
        script, log = self.written("script", map(line_of, self.bodies)), self.written("appended", iter([header_of(1)]))
        self.ends(RQLOG, "append", log, script, told=b"appended %d records, %d bytes\n" % (len(self.bodies), self.bytes))
        os.remove(script)
        self.is_made("appended", pieces_of(header_of(1), self.bodies))

    def recovers(self) -> None:
        """With a torn end."""
        log = shutil.copyfile(self.log, self.path("torn"))
        with open(log, "ab") as file:
            file.write(bytes(300))
        kept, whole = f"{log}.cut-{self.bytes}".encode(), self.bytes + 45 * OPEN
        taken_away(kept)
        told = b"cut 300 bytes at %d, kept in %s\naborted %d units\nwhole, %d bytes\n" % (self.bytes, kept, OPEN, whole)
        self.ends(RQLOG, "recover", log, told=told)
        taken_away(kept)
        self.is_made("torn", pieces_of(header_of(1), [*self.bodies, *self.aborts()]))

    def carries_on(self, carried: str, records: int) -> None:
        """The carried file is appended to, audited, marked, carried on and closed."""
        size, again = os.path.getsize(carried), carried + ".again"
        taken_away(again)
        unit = self.units + OPEN + 1
        self.ends(RQLOG, "append", carried, told=b"appended 1 records, %d bytes\n" % (size + 45), script=b"begin %d\n" % unit)
        self.ends(RQLOG, "checkpoint", carried, told=b"%d\n" % (size + 45))
        self.ends(RQLOG, "audit", carried, 4, told=b"checkpoint 72 carried\ncheckpoint %d true\n" % (size + 45))
        # the state has one unit more
        told = b"carried on behind %d records, %d bytes\n" % (records + 2, size + 8)
        self.ends(RQLOG, "carry", carried, again, told=told)
        self.ends(RQLOG, "close", again, again)
        check("its length", os.path.getsize(again), size + 8 + 45)
        taken_away(again)

    def grows(self) -> None:
        """Appended to, marked and audited; and carried on."""
        script = b"".join(b"abort %d\n" % (self.units + 1 + it) for it in range(OPEN))
        end = self.bytes + 45 * OPEN
        records = len(self.bodies) + OPEN
        self.ends(RQLOG, "append", self.log, told=b"appended %d records, %d bytes\n" % (OPEN, end), script=script)
        self.ends(RQLOG, "checkpoint", self.log, told=b"%d\n" % end)
        for program in (RQ, RQLOG):
            self.ends(program, "audit", self.log, 4, told=b"checkpoint %d true\n" % end)
        size = os.path.getsize(self.log)
        self.ends(RQ, "restart-at", self.log, end, 4, 1000, told=self.report(records + 1, size, 0))
        carried = self.path("carried")
        taken_away(carried)
        ended = done(RQLOG, "carry", self.log, carried, timeout=None)
        size = os.path.getsize(carried) if os.path.exists(carried) else 0
        check("carry", ended, (0, b"carried on behind %d records, %d bytes\n" % (records + 1, size), b""))
        self.ends(RQLOG, "restart", carried, 4, told=self.report(records + 2, size, 0))
        if size:
            self.carries_on(carried, records + 2)
        taken_away(carried)


# --- the limits ------------------------------------------------------------------------------------------------------

LONGEST_LOG = 2**32 - 1
ROOM_LEFT = 44
FULL = b"log is full: carry it on"
# The longest body of zeros behind a kind, and how much of it is digested at a time.
LONGEST_BODY, PIECE = 268_435_456, bytes(1 << 20)
# The digests of the checkpoints of that log: to make them takes longer than to look at one. With --full they are made anew.
DIGESTS = """
42714e5739331f1ebbe8a9804ae4117721a4a7dce724138bcc63f0583ef1bae7 a679e96bedf27e435b5bd47c8a1cc540a49129250dfafcb49bd9a2d52b3ae2f2
a30cffd917ec6b5bf82c7efa5d066820a7e27c1dbd7eaae487e0d99bc65d70da 3d82b267c3e09ed23c2efe4e951bbdbccd4e9130c7ff4b70e9a4b32a2fe9ba80
f0f0f276f19917eaffe92a0a10cc7b5b9ad276d3cf06ba82ff389455df1204d2 4827cf50e917979a3ce33bf08245a993d7870e42402c1f89d0126946c21a6664
dd1d00ffcb66b028fe74844f2823a159370bbbfbd6670a189e4e04ddd8b6c433 0993222eaf5c3e51f1dd3dabb4d41855e44e5d476a506608f5dc1955f945df58
d7508732209d486bd80ef9aa601a1a5f882b78de4471e43c4c6a6e27a52fc11c 428529512c46f777acac02f4e3a1ba704071c129f3c5d298adaaa4ac4d34472e
072dbc4dd1e4885afeb835ff04068898fbd5c8d1978cb34250f59c785f6bfd81 7c52be84033ba7b0a4efe4efa1d39300233c30b2c60089eed6d69184bfa38982
dc3a6d88930f4b816820914b57ad1171e7e3b841351c5476c8110d7801a130f8 944707719bacbe7cd6bcbb0cd8320676fc6ad491267c3ce5274f61e46cd77a3a
87b33dc65d2760861751bac3e2a85b7ccd583e36744194e7a401c187bcc5e015 2e0f8d7d24f0dcd0eefe309ba754940e0eb564a2ad5e21500854484b09d92a27
"""


def lengths(room: int) -> Iterator[int]:
    """The lengths of bodies whose frames fill so many bytes."""
    while room > LONGEST_BODY + 36 + 46:
        yield LONGEST_BODY
        room -= LONGEST_BODY + 36
    yield room - 36


def head_of_zeros(length: int) -> bytes:
    """What a checkpoint of zeros begins with, as a frame."""
    return length.to_bytes(4, "big") + b"\x09"


def digest_of_zeros(digest: bytes, length: int) -> bytes:
    """The digest of a checkpoint of zeros behind the frame of this digest."""
    made = sha256(digest + head_of_zeros(length))
    rest = length - 1
    for _ in range(rest // len(PIECE)):
        made.update(PIECE)
    made.update(PIECE[:rest % len(PIECE)])
    return made.digest()


def make_full(path: str, digests: list[bytes] = []) -> list[bytes]:
    """The log, which has one queue; the digests of its checkpoints, made anew where they are not given."""
    made: list[bytes] = []
    with open(path, "wb") as file:
        header = header_of(1)
        body = len(define(b"jobs")).to_bytes(4, "big") + define(b"jobs")
        digest = sha256(header[8:] + body).digest()
        file.write(header + body + digest)
        for at, length in enumerate(lengths(LONGEST_LOG - ROOM_LEFT - HEADER - len(body) - 32)):
            digest = digests[at] if digests else digest_of_zeros(digest, length)
            made.append(digest)
            file.write(head_of_zeros(length))
            file.seek(length - 1, os.SEEK_CUR)
            file.write(digest)
    return made


def sparse(path: str, length: int) -> str:
    """A file that begins as a log, and has zeros behind its header."""
    with open(path, "wb") as file:
        file.write(header_of(1))
        file.truncate(length)
    return path


def reads_all(path: str) -> None:
    """What the programs say of a file of more than 1 GiB, and of one that is longer than a log may be."""
    length = 2**30 + 4096
    read = b" 40 of %d bytes, length" % length
    for words, status in (([RQ, "restart", "LOG", "1", "1000"], 0), ([RQLOG, "restart", "LOG"], 0), ([RQLOOK, "dump", "LOG"], 0)):
        line = [sparse(path, length) if it == "LOG" else it for it in words]
        said = timed(*line)
        check(f"{' '.join(words[1:])}, more than 1 GiB", (said[0], read in said[1], said[2]), (status, True, b""))
        sparse(path, LONGEST_LOG + 1)
        status, said, error = timed(*line)
        check(f"{' '.join(words[1:])}, more than 4 GiB", (status, said, b"too long" in error), (1, b"", True))
    os.remove(path)


def timed(*words: str, script: bytes = b"") -> Ended:
    begun = time.monotonic()
    ended = done(*words, input=script, timeout=None)
    peak = resource.getrusage(resource.RUSAGE_CHILDREN).ru_maxrss // 1024
    print(f"{' '.join(words[1:3])}: {time.monotonic() - begun:.1f} s, at most {peak} MiB so far", flush=True)
    return ended


def has_no_room(log: str) -> None:
    """What rqlog says of a record of 45 bytes behind a log that has room for 44 bytes more, which stays as it was."""
    told = b"rqlog: script line 1: begin 1: " + FULL + b"; nothing was appended\n"
    check("a record of 45 bytes", (len(begin(1)) + 36, timed(RQLOG, "append", log, script=b"begin 1\n")), (45, (1, b"", told)))
    check("it is as it was", os.path.getsize(log), LONGEST_LOG - ROOM_LEFT)


def nearly_full(folder: str) -> None:
    """That alone, which costs one digest over 4 GiB."""
    log = os.path.join(folder, "full.log")
    make_full(log, [bytes.fromhex(it) for it in DIGESTS.split()])
    has_no_room(log)
    os.remove(log)


def full(folder: str) -> None:
    """A log that has room for 44 bytes more."""
    reads_all(os.path.join(folder, "sparse.log"))
    log, new = os.path.join(folder, "full.log"), os.path.join(folder, "full.carried")
    made = make_full(log)
    check("digests of zeros", [it.hex() for it in made], DIGESTS.split())
    taken_away(new)
    has_no_room(log)
    check("a checkpoint", timed(RQLOG, "checkpoint", log), (1, b"", b"rqlog: " + FULL + b"\n"))
    check("it is as it was", os.path.getsize(log), LONGEST_LOG - ROOM_LEFT)
    done = timed(RQLOG, "append", log, script=b"define a 0 -\n")
    check("a record of 44 bytes", (len(define(b"a")) + 36, done), (44, (0, b"appended 1 records, %d bytes\n" % LONGEST_LOG, b"")))
    check("it is full", timed(RQLOG, "append", log, script=b"register 0 a\n")[0], 1)
    check("carry", timed(RQLOG, "carry", log, new)[0::2], (0, b""))
    check("append to the new one", timed(RQLOG, "append", new, script=b"begin 1\nenqueue 1 1 5 - 0 61\n")[0], 0)
    report = timed(RQLOG, "restart", new)[1].split(b"\n", 1)
    want = b"units 0 committed, 0 aborted, 1 cut off\nqueue 0 jobs limit 0 error -\nqueue 1 a limit 0 error -\n"
    check("its report", report[1], want)
    os.remove(log)


def everyday(folder: str, share: int) -> None:
    log = Everyday(folder, share)
    print(f"{len(log.bodies):,} records, {log.bytes:,} bytes, {log.staying:,} elements stay", flush=True)
    log.reads()
    log.closes()
    log.appends()
    log.recovers()
    log.grows()
    os.remove(log.log)


def takes(line: argparse.ArgumentParser) -> None:
    line.add_argument("--everyday", action="store_true")
    line.add_argument("--share", type=int, default=100)
    line.add_argument("--full", action="store_true")


def main(options: argparse.Namespace) -> None:
    os.chdir(options.folder)
    if options.everyday:
        everyday(options.folder, options.share)
    if options.full:
        full(options.folder)
    if not options.everyday and not options.full:
        ordinary()
        checkpoints()
        nearly_full(options.folder)
