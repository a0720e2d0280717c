"""Quick. Tries rq from outside: its lines, files, texts and exit statuses, and the threads that it starts."""
from __future__ import annotations
import itertools, os, resource, shutil, signal, stat, subprocess, threading
from collections.abc import Callable, Iterable, Iterator

from tables import asking
from trying import (DONE, EXAMPLES, NOBODY, READ_FAULT, RESOURCES, RQ, USAGE, WRITE_FAULT, Ended, Words, check, check_each, content,
                    has_shim, lines_of, log_of, making, put, refused, run, run_into, run_told, run_within)

# A part finds the files of those before it.
IN_ONE_FOLDER = True

ONE_ELEMENT, CHECKPOINT = asking.ONE_ELEMENT.encode(), asking.CHECKPOINT.encode()
ONE_ELEMENT_REPORT = b"""front 4 records, 237 of 237 bytes, whole
units 1 committed, 0 aborted, 0 cut off
queue 0 jobs limit 0 error -
e 2 from 0 priority 5 attempts 0 61
"""
CHECKPOINT_REPORT = b"""front 10 records, 724 of 724 bytes, whole
units 2 committed, 0 aborted, 0 cut off
queue 0 jobs limit 0 error -
e 7 from 0 priority 8 attempts 0 62
r ann dequeue tag 10 element 3
"""
# The same lines without the last one, which leave a unit open.
OPEN = CHECKPOINT.removesuffix(b"commit 2\n")
# The lines of the commands, by what each does with a file; words in capitals stand for others (`lines_of`).
PRINTING = ["restart LOG WORKERS GRAIN", "restart-at LOG OFFSET WORKERS GRAIN", "audit LOG WORKERS"]
READING_LOGS = [*PRINTING, "close LOG MADE WORKERS", "upgrade LOG MADE WORKERS"]
READING = ["make LOG MADE", *READING_LOGS]

# Lines with too few words or too many, or with no command.
NO_LINES = ["", "make", "make one.script", "make one.script made 1", "restart", "restart one.log 1"]
NO_LINES += ["restart one.log 1 1 1", "restart-at two.log 447 1", "audit two.log", "audit two.log 1 1"]
NO_LINES += ["close two.log 1", "close two.log made 1 1", "upgrade two.log 1", "upgrade two.log made 1 1"]
NO_LINES += ["restarts one.log 1 1", "Restart one.log 1 1"]
# Lines with a number, and the words that are none in its place.
WITH_WORKERS = ["restart one.log WORKERS 1", "restart-at two.log 447 WORKERS 1", "audit two.log WORKERS"]
WITH_WORKERS += ["close two.log made WORKERS", "upgrade two.log made WORKERS"]
NO_WORKERS = ["0", "65", "00", "01", "+1", "-1", " 1", "1 ", "", "1.0", "0x1", "4294967297", "4294967360"]
NO_WORKERS += ["18446744073709551617", "one"]
WITH_GRAIN = ["restart one.log 1 GRAIN", "restart-at two.log 447 1 GRAIN"]
NO_GRAINS = ["0", "1000001", "01", "+1", "", "4294967297", "18446744073709551617"]
WITH_OFFSET = ["restart-at two.log OFFSET 1 1"]
NO_OFFSETS = ["0447", "+447", "", "-1", "18446744073709551616", "18446744073709552063", "4e2"]

# Offsets where `two.log` has no checkpoint.
OTHER_OFFSETS = [0, 39, 40, 387, 446, 448, 724, 447 + 2**32, 2**64 - 1]
# Paths at which no file can be made, once there is a folder.
UNWRITABLE = ["missing/made", "folder", "/dev/full"]

# Commands that start no thread with one worker.
ALONE = ["make many.script many.again", "restart long.log 1 1", "restart-at two.log 447 1 1", "audit two.log 1"]
ALONE += ["close long.log long.closed 1", "upgrade long.log long.upgraded 1"]
# The same over a log and a script with a checkpoint behind thousands of records, and before as many.
ALONE += ["make halfway.script halfway.again", "restart halfway.log 1 1", "restart-at halfway.log OFFSET 1 1"]
ALONE += ["audit halfway.log 1", "close halfway.log halfway.closed 1", "upgrade halfway.log halfway.upgraded 1"]
# In how many pieces digests are checked at a time, at most.
PIECES = 2 * len(os.sched_getaffinity(0))

def commands() -> None:
    """The logs of the parts behind this one. What each command says of logs, whole and damaged, rows ask (tables/)."""
    one = log_of(ONE_ELEMENT, "one")
    check("the log of a script", content(one), content(os.path.join(EXAMPLES, "one-element.log")))
    check("restart", run("restart", one, 64, 1000000), (0, ONE_ELEMENT_REPORT, b""))
    check("audit of none", run("audit", one, 1), DONE)
    two = log_of(CHECKPOINT, "two")
    check("restart-at", run("restart-at", two, 447, 64, 1000000), (0, CHECKPOINT_REPORT, b""))
    twice = log_of(b"checkpoint\ncheckpoint\n", "twice")
    check("audit of two", run("audit", twice, 1), (0, b"checkpoint 40 true\ncheckpoint 129 true\n", b""))


def made_of_logs() -> None:
    """Logs that are closed and upgraded in their own places, into no file, and into what is none."""
    for word, script, made in [("close", OPEN, log_of(OPEN + b"abort 2\n", "shut")), ("upgrade", CHECKPOINT, log_of(CHECKPOINT, "newer", "make2"))]:
        log, want = log_of(script, "own"), content(made)
        before = content(log)
        check(f"{word} into a file", (making("own.made", word, log, "own.made", 64), content(log)), ((DONE, want), before))
        for path in UNWRITABLE:
            check(f"{word} into {path}", run(word, log, path, 1), WRITE_FAULT)
        check(f"{word} into /dev/stdout", run(word, log, "/dev/stdout", 2), (0, want, b""))
        check(f"{word} a log in its own place", making(log, word, log, log, 2), (DONE, want))


def no_lines() -> Iterator[Words]:
    """Lines that are none, by their words or by a number."""
    yield from lines_of(NO_LINES)
    yield from [["", "one.log", "1", "1"], ["restart", "one.log", b"\xff", "1"]]
    for number in NO_WORKERS:
        yield from lines_of(WITH_WORKERS, WORKERS=number)
    for number in NO_GRAINS:
        yield from lines_of(WITH_GRAIN, GRAIN=number)
    for number in NO_OFFSETS:
        yield from lines_of(WITH_OFFSET, OFFSET=number)


def usage() -> None:
    """Lines that are none: nothing is opened, and nothing is made."""
    for line in no_lines():
        of_missing = ["missing" if word in ("one.log", "two.log") else word for word in line]
        check(f"the line {line}", run(*line), USAGE)
        check(f"the line {line} of a file that is missing", run(*of_missing), USAGE)
    check("a file made by no line", os.path.exists("made"), False)


def no_logs() -> None:
    """Files that are no logs."""
    log = content("one.log") or b""
    files = {"no byte": b"", "39 bytes": log[:39], "another version": log[:7] + b"\x02" + log[8:],
             "a text": b"no log at all, but longer than forty bytes\n"}
    for name, bytes_ in files.items():
        path = put("no.log", bytes_)
        check_each(f"of {name}", lines_of(READING_LOGS, LOG=path, WORKERS="2"), refused("not a log"))


def no_checkpoints() -> None:
    """Offsets at which there is no checkpoint, or one that spells no state."""
    for offset in OTHER_OFFSETS:
        check(f"restart-at {offset}", run("restart-at", "two.log", offset, 2, 1), refused("no checkpoint"))
    bad = log_of(CHECKPOINT.replace(b"checkpoint\n", b"checkpoint-hex 00\n"), "bad")
    check("a checkpoint that spells no state", run("restart-at", bad, 447, 2, 1), refused("bad checkpoint"))


def no_files() -> None:
    """Files that cannot be read, or that have no end."""
    check_each("of a missing file", lines_of(READING, LOG="missing"), READ_FAULT)
    check_each("of zeros without end", lines_of(READING_LOGS, LOG="/dev/zero", WORKERS="2"), refused("too long"))
    os.mkdir("folder")
    check_each("of a folder", lines_of(READING, LOG="folder"), READ_FAULT)
    check("a file made of no script", os.path.exists("made"), False)


def permissions() -> None:
    """What the permissions of files and folders forbid is a fault of reading or of writing. Root, to whom they forbid
    nothing, is nobody meanwhile."""
    os.chmod(".", 0o755)
    program = os.path.abspath(shutil.copy(RQ, "rq"))
    nobody = {"user": NOBODY, "group": NOBODY, "extra_groups": []} if os.geteuid() == 0 else {}

    def run_as_reader(*words: object) -> Ended:
        return run(*words, executable=program, **nobody)

    try:
        run_as_reader()
    except PermissionError:
        print("nobody may run no program here: permissions are not tried")
        return
    forbidden(run_as_reader)


def forbidden(run_as_reader: Callable[..., Ended]) -> None:
    """A folder that may not be written, and files that may not be read."""
    os.mkdir("shut", 0o555)
    os.mkdir("open")
    os.chmod("open", 0o777)
    closed, script = shutil.copy("one.log", "closed.to.all"), shutil.copy("one.script", "script.closed.to.all")
    into = lines_of(["make one.script MADE", "close one.log MADE 1", "upgrade one.log MADE 1"], MADE="shut/log")
    check_each("into a folder that may not be written", into, WRITE_FAULT, run_as_reader)
    os.chmod(closed, 0)
    os.chmod(script, 0)
    of = lines_of(READING_LOGS, LOG=closed, MADE="open/log")
    of += lines_of(["make LOG MADE", "make2 LOG MADE"], LOG=script, MADE="open/log")
    check_each("of a file that may not be read", of, READ_FAULT, run_as_reader)
    check("files that were not made", (os.listdir("shut"), os.listdir("open")), ([], []))


def pour(to: object, pieces: Iterable[bytes]) -> None:
    """Writes the pieces, as far as they are taken."""
    try:
        for piece in pieces:
            to.write(piece)
        to.close()
    except BrokenPipeError:
        pass


def poured(lines: Iterable[bytes], path: str) -> Ended:
    """How `make` ends, to which the lines are written while it reads them."""
    pipes = {"stdin": subprocess.PIPE, "stdout": subprocess.PIPE, "stderr": subprocess.PIPE}
    made = subprocess.Popen([RQ, "make", "/dev/stdin", path], **pipes)
    limit = threading.Timer(120, made.kill)
    limit.start()
    pour(made.stdin, lines)
    with made.stdout, made.stderr:
        told = made.stdout.read(), made.stderr.read()
    limit.cancel()
    return made.wait(60), *told


def too_large() -> None:
    """A checkpoint whose state takes more bytes to spell than a checkpoint holds, and one that just fits."""
    element = b"enqueue 1 0 5 - 0 " + b"5a" * 60000 + b"\n"
    for count, path, want in [(4472, "large.log", refused("too large")), (4471, "/dev/null", DONE)]:
        elements = itertools.repeat(element, count)
        lines = itertools.chain([b"define jobs 0 -\nbegin 1\n"], elements, [b"checkpoint\n"])
        check(f"a checkpoint of {count} long elements", poured(lines, path), want)
    check("a log of a checkpoint that is too large", os.path.exists("large.log"), False)


def outputs() -> None:
    """Outputs that take nothing, or not all."""
    for line in lines_of(PRINTING, LOG="two.log", OFFSET="447", WORKERS="2"):
        with open("/dev/full", "wb") as full:
            check(f"{line[0]} into a full device", run_into(full, *line), WRITE_FAULT)
        read_end, write_end = os.pipe()
        os.close(read_end)
        check(f"{line[0]} into a closed pipe", run_into(write_end, *line), WRITE_FAULT)
        os.close(write_end)
        with open("two.log", "rb") as unwritable:
            check(f"{line[0]} into a file that is open for reading", run_into(unwritable, *line), WRITE_FAULT)
    for path in UNWRITABLE:
        check(f"make into {path}", run("make", "one.script", path), WRITE_FAULT)


def files() -> None:
    """A file is made whole or not at all, and beside it nothing is left."""
    one, two = content("one.log"), content("two.log")
    os.mkdir("made")
    over_files(one, two)
    by_links(one)
    into_pipes(one)
    beside = ["both", "link", "log", "pipe"]
    check("what stands beside the files that were made", sorted(os.listdir("made")), beside)
    on_a_full_disk(one)
    check("what stands beside the files that were not made", sorted(os.listdir("made")), beside)


def over_files(one: bytes | None, two: bytes | None) -> None:
    """A file that is new, one that is made again, and one that is its own script."""
    check("make a file", making("made/log", "make", "one.script", "made/log"), (DONE, one))
    os.chmod("made/log", 0o640)
    check("make a file again", making("made/log", "make", "two.script", "made/log"), (DONE, two))
    check("the mode of a file that is made again", stat.S_IMODE(os.stat("made/log").st_mode), 0o640)
    bad = making("made/log", "make", put("bad.script", b"kill 0 0\n"), "made/log")
    check("a bad script over a file", bad, (refused("script line 1"), two))
    shutil.copy("one.script", "made/both")
    check("make a script its own log", making("made/both", "make", "made/both", "made/both"), (DONE, one))


def by_links(one: bytes | None) -> None:
    """A symbolic link stays one, and what it names is made."""
    for link, named, what in [("link", "log", "a file"), ("early", "later", "nothing")]:
        os.symlink(named, f"made/{link}")
        made = run("make", "one.script", f"made/{link}"), os.readlink(f"made/{link}"), content(f"made/{named}")
        check(f"make by a symbolic link that names {what}", made, (DONE, named, one))
    os.symlink("ring", "made/ring")
    ring = run("make", "one.script", "made/ring"), os.readlink("made/ring")
    check("make by a ring of symbolic links", ring, (WRITE_FAULT, "ring"))
    for name in ("early", "later", "ring"):
        os.remove(f"made/{name}")
    by_chains(one)


def by_chains(one: bytes | None) -> None:
    """As many links are followed, one behind the other, as the system follows."""
    os.mkdir("made/chain")
    for number in range(41):
        os.symlink(str(number), f"made/chain/{number + 1}")
    for links, want in [(40, (DONE, one)), (41, (WRITE_FAULT, None))]:
        check(f"make by {links} links", making("made/chain/0", "make", "one.script", f"made/chain/{links}"), want)
        if os.path.exists("made/chain/0"):
            os.remove("made/chain/0")
    shutil.rmtree("made/chain")


def into_pipes(one: bytes | None) -> None:
    """What is no file of a disk gets the bytes as they are made, and what is a file that is open behind what it holds."""
    check("make into /dev/stdout", run("make", "one.script", "/dev/stdout"), (0, one, b""))
    made = run("make", "one.script", "/dev/null"), stat.S_ISCHR(os.stat("/dev/null").st_mode)
    check("make into /dev/null", made, (DONE, True))
    for flags, how in [(0, "from its beginning"), (os.O_APPEND, "at its end")]:
        held = os.open(put("held", b"held\n"), os.O_WRONLY | flags)
        made = run_into(held, "make", "one.script", "/dev/stdout"), content("held")
        os.close(held)
        check(f"make into /dev/stdout that is a file, open {how}", made, (DONE, b"held\n" + (one or b"")))
    os.mkfifo("made/pipe")
    taken: list[bytes | None] = []
    reader = threading.Thread(target=lambda: taken.append(content("made/pipe")), daemon=True)
    reader.start()
    check("make into a pipe", run("make", "one.script", "made/pipe"), DONE)
    reader.join(10)
    check("what went into a pipe", taken, [one])


def small_files() -> None:
    """Lets a process write no file of more than 100 bytes."""
    signal.signal(signal.SIGXFSZ, signal.SIG_IGN)
    resource.setrlimit(resource.RLIMIT_FSIZE, (100, 100))


def on_a_full_disk(one: bytes | None) -> None:
    """An old file stays, and of a new one nothing is left."""
    for what, path, old in [("make", "made/log", one), ("make a new file", "made/new", None)]:
        made = making(path, "make", "two.script", path, preexec_fn=small_files)
        check(f"{what} on a full disk", made, (WRITE_FAULT, old))


def many_queues() -> tuple[bytes, bytes]:
    """A script of 96 queues with an element each, and its report."""
    payload, queues = b"5a" * 4000, range(96)
    unit = b"begin %d\nenqueue %d %d 1 - 0 %s\ncommit %d\n"
    script = b"".join(b"define q%d 0 -\n" % q for q in queues)
    script += b"".join(unit % (q + 1, q + 1, q, payload, q + 1) for q in queues)
    length = 40 + sum(43 + len(b"q%d" % q) + 45 + 59 + 4000 + 45 for q in queues)
    report = b"front 384 records, %d of %d bytes, whole\nunits 96 committed, 0 aborted, 0 cut off\n" % (length, length)
    lines = b"queue %d q%d limit 0 error -\ne %d from %d priority 1 attempts 0 %s\n"
    return script, report + b"".join(lines % (q, q, 96 + 3 * q + 1, q, payload) for q in queues)


def plans() -> None:
    """One log at every number of workers, and with little memory, which what is no log does not need."""
    script, report = many_queues()
    log = log_of(script, "many")
    for workers in range(1, 65):
        check(f"restart with {workers} workers", run("restart", log, workers, 10) == (0, report, b""), True)
    little_memory(log)


def least_memory() -> int:
    """The KiB of address space, to a half MiB, in which a small log is restarted: what the program itself takes."""
    for kibibytes in range(1 << 10, 1 << 20, 512):
        if run_within(kibibytes, "restart", "one.log", 1, 1000) == (0, ONE_ELEMENT_REPORT, b""):
            return kibibytes
    raise MemoryError("a small log is not restarted in 1 GiB")


def little_memory(log: str) -> None:
    """Room for the program and for a quarter of the file."""
    little = least_memory() + (8 << 10)

    def run_with_little(*words: object) -> Ended:
        return run_within(little, *words)

    big, none = put("big.log", (content(log) or b"") + bytes(32 << 20)), put("none.log", bytes(32 << 20))
    of_big = lines_of(READING, LOG=big, GRAIN="1000", MADE="made/big")
    check_each("with little memory", of_big, RESOURCES, run_with_little)
    check("a file made with little memory", os.path.exists("made/big"), False)
    of_none = lines_of(PRINTING, LOG=none, GRAIN="1000")
    check_each("of what is no log, with little memory", of_none, refused("not a log"), run_with_little)
    os.remove(big)
    os.remove(none)


def words() -> None:
    """Memory that is refused for the words of the line is told as such, and not as a line that is none."""
    long = ["x" * 100000] * 12
    told = {run_within(kibibytes, *long)[0] for kibibytes in range(1 << 10, 1 << 15, 128)}
    check("long words with little memory and with more", (RESOURCES[0] in told, USAGE[0] in told), (True, True))


def addresses() -> None:
    """Room for 4 GiB is asked for at first: what is left beside it, with somewhat more, decides nothing."""
    for kibibytes in range(4 << 20, (4 << 20) + (512 << 10), 8 << 10):
        told = run_within(kibibytes, "restart", "one.log", 4, 1000)
        check(f"a restart in {kibibytes} KiB of addresses", told, (0, ONE_ELEMENT_REPORT, b""))
    given_back()


def given_back() -> None:
    """If the bound just grants those 4 GiB, the room that the log does not fill is given back: what is made of the log needs
    many times what the bound leaves beside them."""
    units = b"".join(b"begin %d\nenqueue %d 0 5 - 0 -\ncommit %d\n" % (u, u, u) for u in range(1, 30001))
    log = log_of(b"define jobs 0 -\n" + units + b"checkpoint\n", "records")
    _, told, _ = run("audit", log, 1)
    lines = lines_of(["make records.script MADE"], MADE="records.made")
    for workers in ("1", "4"):
        given = {"LOG": log, "OFFSET": told.decode().split()[1], "WORKERS": workers, "GRAIN": "1000", "MADE": "records.made"}
        lines += lines_of(READING_LOGS, **given)
    little = (4 << 20) + least_memory() + (2 << 10)
    for line in lines:
        want = run(*line), content("records.made")
        ended = run_within(little, *line)
        found = want[0][0], ended[0], (ended, content("records.made")) == want
        check(f"`{' '.join(map(str, line))}` in {little} KiB of addresses", found, (0, 0, True))


def threads_of(*words: object) -> tuple[int, int]:
    """How many threads the program starts, and how many of these there are at a time."""
    _, events = run_told(*words, tells="threads")
    alive = most = 0
    for event in events:
        alive += 1 if event == ord("b") else -1
        most = max(most, alive)
    return events.count(b"b"), most


def long_log() -> str:
    """A log of so many bodies, bytes and elements that all that workers share is worth their threads."""
    script = b"".join(b"define q%d 0 -\n" % q for q in range(96))
    lines = b"begin %d\nenqueue %d %d 1 - 0 %s\ncommit %d\n"
    return log_of(script + b"".join(lines % (u, u, u % 96, b"5a" * 1200, u) for u in range(1, 4001)), "long")


def amid(told: bytes) -> bytes:
    """A script of thousands of records of many queues, with this line amid them. The payloads behind it are long: their digests
    are worth several threads."""
    defined = b"".join(b"define q%d 0 -\n" % q for q in range(96))
    lines = b"begin %d\nenqueue %d %d 1 - 0 %s\ncommit %d\n"
    units = [lines % (u, u, u % 96, b"5a" * (1 if u <= 4000 else 2000), u) for u in range(1, 6001)]
    return defined + b"".join(units[:4000]) + told + b"".join(units[4000:])


def halfway_log() -> str:
    """The offset of the one checkpoint of a log, which stands amid its records."""
    log = log_of(amid(b"checkpoint\n"), "halfway")
    _, told, _ = run("audit", log, 1)
    word, offset, truth = told.decode().split()
    check("the checkpoint of a log with many records", (word, truth), ("checkpoint", "true"))
    return offset


def told_log() -> str:
    """A short log of which most bytes are those of true checkpoints."""
    elements = b"enqueue 1 0 5 - 0 " + b"5a" * 100 + b"\n"
    units = b"".join(b"begin %d\ncommit %d\ncheckpoint\n" % (u, u) for u in range(2, 152))
    return log_of(b"define jobs 0 -\nbegin 1\n" + elements * 64 + b"commit 1\n" + units, "told")


def redone_log() -> str:
    """A log of few true checkpoints, whose states are long."""
    elements = b"enqueue 1 0 5 - 0 " + b"5a" * 6000 + b"\n"
    units = [b"begin %d\ncommit %d\n" % (u, u) for u in range(2, 422)]
    told = b"".join(b"".join(units[at:at + 60]) + b"checkpoint\n" for at in range(0, 420, 60))
    return log_of(b"define jobs 0 -\nbegin 1\n" + elements * 64 + b"commit 1\n" + told, "redone")


def threads() -> None:
    """How many threads a plan starts: none for one worker. For more so many that each has its own, and no more of them
    at a time; those that check digests, if the grain leaves several pieces, are two for each core at most."""
    if not has_shim("to count threads"):
        return
    long = long_log()
    for line in lines_of(ALONE, OFFSET=halfway_log()):
        check(f"threads of {line[0]} with one worker", threads_of(*line), (0, 0))
    threads_of_audits(long)
    for workers in [2, 3, 4, 5, 8, 16, 64]:
        threads_of_restarts(long, workers)
        threads_of_copies(long, workers)


def threads_of_audits(long: str) -> None:
    """An audit finds the front on the workers, and then goes along the records up to the last checkpoint. So it starts threads if
    the log is long, and no more than `close`, which redoes no queue. But if records before a checkpoint are many beside what
    stands, they are redone on the workers: that starts one thread for each but the first, which no audit of the same log without
    its checkpoint does. With every plan it says the same."""
    # (the same log without its checkpoint stands beside the one whose records are redone on the workers)
    untold = log_of(amid(b""), "untold")
    logs = [(told_log(), 150, False, ""), (redone_log(), 7, False, ""), (long, 0, True, ""), ("halfway.log", 1, True, untold)]
    for log, count, is_long, without in logs:
        alone = run("audit", log, 1)
        counted = alone[0], alone[1].count(b" true\n"), alone[1].count(b"\n")
        check(f"audit of {count} true checkpoints", counted, (0, count, count))
        for workers in [1, 2, 3, 4, 7]:
            started, _ = threads_of("audit", log, workers)
            other = ["audit", without] if without else ["close", log, "audited.closed"]
            more = started - threads_of(*other, workers)[0]
            told = more if without else max(0, more)
            name = f"threads of an audit of {count} checkpoints with {workers} workers"
            check(name, (started > 0, told), (is_long and workers > 1, workers - 1 if without else 0))
            same = run("audit", log, workers) == alone
            check(f"audit of {count} true checkpoints with {workers} workers", same, True)


def threads_of_restarts(long: str, workers: int) -> None:
    """Of restarts of a log of 96 queues and of a long one, in one piece and in more."""
    others = workers - 1
    # how many there are at a time the machine's load decides, up to all but the calling one
    started, most = threads_of("restart", "many.log", workers, 1000000)
    told = f"threads of a restart with {workers} workers: {most} at a time"
    check(told, (started, most <= others), (others, True))
    # decoding, where each share has about a thousand bodies; the pass over the records; the redo; the report
    started, most = threads_of("restart", long, workers, 1000000)
    told = f"threads of a long restart with {workers} workers: {most} at a time"
    check(told, (started, most <= others), (min(others, 11) + 1 + 2 * others, True))
    more, most = threads_of("restart", long, workers, 1)
    told = f"threads of a long restart with {workers} workers and more pieces than one: {more}, {most} at a time"
    some_more = started + (PIECES > 2) <= more < started + PIECES
    check(told, some_more and most <= max(others, PIECES), True)


def threads_of_copies(long: str, workers: int) -> None:
    """Of the commands that make a log of a log."""
    others = workers - 1
    for word in ["close", "upgrade"]:
        started, most = threads_of(word, long, "long.made", workers)
        told = f"threads of {word} with {workers} workers: {started}, {most} at a time"
        check(told, started <= min(others, 11) + PIECES and most <= max(others, PIECES), True)


PARTS = [commands, usage, no_logs, no_checkpoints, no_files, permissions, made_of_logs, outputs]
PARTS += [files, plans, words, addresses, threads, too_large]
