"""Quick. In which order rqlog does what it does to files: it tells what it did once that is synced, and notices what another program writes
meanwhile."""
from __future__ import annotations
import fcntl, itertools, os
from typing import NamedTuple

from trying import MORE, START, Ended, check, content, has_shim, plain, put, rqlog, run_told

OPENED = START + MORE.removesuffix(b"commit 2\n")
# What stands behind the front that a crash cut: the beginning of a frame, longer than all that is appended to it.
CUT = (1000).to_bytes(4, "big") + b"\x05" * 296
# The lines that change a file, with their log in place of LOG.
APPENDING = ["append LOG more.script", "append LOG more.script --json", "append LOG half.script --each", "checkpoint LOG",
             "checkpoint LOG --close"]
MAKING = ["carry LOG made", "carry LOG made --json", "close LOG made", "close LOG LOG", "recover LOG"]


class Call(NamedTuple):
    """A call on a file: what it does, and the numbers of the file and of its folder, as the shim tells them."""
    letter: str
    file: int
    folder: int


def calls_of(told: bytes) -> list[Call]:
    return [Call(letter, int(file), int(folder)) for letter, file, folder in (it.split() for it in told.decode().splitlines())]


def unsynced(calls: list[Call]) -> list[str]:
    """What was said, or given a name, while something was written and not synced; and what was left so at the end."""
    files: set[int] = set()
    folders: set[int] = set()
    found = []
    for call in calls:
        if call.letter in "wt":
            files.add(call.file)
        elif call.letter == "s":
            files.discard(call.file)
        elif call.letter == "d":
            folders.discard(call.file)
        elif call.letter in "ln":
            found += ["named before it was synced"] if call.file in files else []
            folders.add(call.folder)
        elif call.letter in "oe":
            found += [f"told ({call.letter}) before all was synced"] if files or folders else []
    return found + (["left unsynced"] if files or folders else [])


def told_before(calls: list[Call]) -> list[str]:
    """What was done to files behind the first that was said: a line says what it did at its end."""
    said = next((at for at, it in enumerate(calls) if it.letter in "oe"), len(calls))
    return [f"done ({it.letter}) behind what was told" for it in calls[said:] if it.letter in "wtln"]


def noted(line: str, path: str, **asked: object) -> tuple[Ended, list[Call]]:
    """How a line ends, and its calls."""
    ended, told = run_told(*line.replace("LOG", path).split(), by=rqlog, tells="order", **asked)
    return ended, calls_of(told)


def anew(log: str, before: bytes) -> None:
    put(log, before)
    for name in os.listdir("."):
        if name == "made" or name.startswith(f"{log}.cut-"):
            os.remove(name)


def put_scripts() -> None:
    """The scripts that lines append: one that is lawful, and one of which the second line is not."""
    put("more.script", b"register 0 bob\n")
    put("half.script", b"register 0 bob\ncommit 9\n")


def in_order(line: str, log: bytes, what: str) -> None:
    anew("order.log", log)
    ended, calls = noted(line, "order.log")
    told = ended[0], any(it.letter == "w" for it in calls), unsynced(calls) + told_before(calls)
    check(f"{line} {what}: synced, and then told", told, (1 if "half" in line else 0, True, []))


def order() -> None:
    """What is done is synced before it is told: a file before it gets its name, and its folder behind that."""
    if not has_shim("to see the order of calls"):
        return
    put_scripts()
    before = content(plain("order", OPENED))
    for rest in (b"", CUT):
        for line in (*APPENDING, *MAKING):
            in_order(line, before + rest, f"behind {len(rest)} bytes")
    # no unit is open: no ABORT is written behind what is written again
    in_order("recover LOG", content(plain("ended", START)) + CUT, "without an open unit")


def its_name() -> None:
    """Whoever gave the log its name may have been killed before the disk knew of it: that is told to the disk before anything is written.
    If it fails, nothing is."""
    if not has_shim("to see the order of calls"):
        return
    put_scripts()
    before, folder = content(plain("named", OPENED)), Call("d", os.stat(".").st_ino, 0)
    for line in (*APPENDING, "recover LOG"):
        put("named.log", before)
        log = os.stat("named.log").st_ino
        calls = noted(line, "named.log")[1]
        written = next((at for at, it in enumerate(calls) if it.letter in "wt" and it.file == log), 0)
        check(f"{line}: the disk knows of the name, and then it is written", folder in calls[:written], True)
        put("named.log", before)
        ended = noted(line, "named.log", fails="d")[0]
        said = ended[2].endswith(b": nothing was appended\n") or line.startswith("recover")
        check(f"{line}: the disk does not know of the name", (ended[:2], said, content("named.log") == before), ((3, b""), True, True))


def taken_back() -> None:
    """What was appended and could not be written whole is cut off, and that is synced, before it is told."""
    if not has_shim("to see the order of calls"):
        return
    put("more.script", b"".join(b"register 0 r%d\n" % it for it in range(5)))
    put("half.script", content("more.script") + b"commit 9\n")
    before = content(plain("back", OPENED))
    for rest in (b"", b"\0\0", CUT):
        for line in APPENDING:
            anew("back.log", before + rest)
            ended, calls = noted(line, "back.log", short=1)
            said = ended[0], ended[1], ended[2].endswith(b": nothing was appended\n")
            left = content("back.log")
            check(f"{line} behind {len(rest)} bytes, written in part", (said, left == before, unsynced(calls)), ((3, b"", True), True, []))


def others(line: str, does: str, before: bytes, more: bytes) -> list[int]:
    """Before which calls another program did something of which the line says nothing, or that is lost. Its last look at the log
    comes behind all that it reads of it; what is done later nobody notices."""
    wrong, theirs = [], before + more if does == "grows" else more
    for number in itertools.count(1):
        anew("other.log", before)
        log = os.stat("other.log").st_ino
        ended, calls = noted(line, "other.log", at=number, does=does, log="other.log", more=put("theirs", more))
        if len(calls) < number:
            return wrong
        if number <= last_look(calls, log) and not is_kept(ended, theirs, "--each" in line):
            wrong.append(number)


def last_look(calls: list[Call], log: int) -> int:
    """The number of the first look behind all that is read of the log; or, if it is written before that, of the first call that does."""
    read = max((at for at, it in enumerate(calls) if it.letter == "r" and it.file == log), default=0)
    found = (at + 1 for at, it in enumerate(calls) if at > read and (it.letter == "x" or it.letter in "wt" and it.file == log))
    return next(found, len(calls))


def is_kept(ended: Ended, theirs: bytes, is_each: bool) -> bool:
    """Whether what another program wrote is as it left it, and the line says that it is not done; or is done behind it."""
    left = content("other.log")
    if ended[0] == 3:
        return left == theirs
    is_done = ended[0] == (1 if is_each else 0)
    return is_done and left is not None and left.startswith(theirs) and len(left) > len(theirs)


def another_writer() -> None:
    """Another program that takes no lock grows the log, or puts another in its place, before any call: it is noticed while the log
    is read, and nothing of it is lost."""
    if not has_shim("to see the order of calls"):
        return
    put_scripts()
    before = content(plain("other", OPENED))
    # A unit is open in each, so each line makes it longer.
    grown = content(plain("grown", OPENED + b"begin 3\n"))
    for line in (*APPENDING, "close LOG LOG", "recover LOG"):
        check(f"{line}, and the log grows", others(line, "grows", before, grown[len(before):]), [])
        check(f"{line}, and another log comes", others(line, "replaces", before, grown), [])


def looked_at() -> None:
    """Once the log is held, and before it is read, it is seen that it has its name still: another program may have given that away."""
    if not has_shim("to see the order of calls"):
        return
    put_scripts()
    before = content(plain("looked", OPENED))
    for line in (*APPENDING, "carry LOG made", "close LOG LOG", "recover LOG"):
        anew("looked.log", before)
        log = os.stat("looked.log").st_ino
        calls = noted(line, "looked.log")[1]
        read = next(at for at, it in enumerate(calls) if it.letter == "r" and it.file == log)
        check(f"{line}: looked at, and then read", "".join(it.letter for it in calls[read - 3:read]), "cxx")


def read_by_another() -> None:
    """A log that another program reads under a lock is not written, nor replaced by its closed one."""
    log = plain("shared", OPENED)
    before = content(log)
    put("more.script", b"register 0 bob\n")
    with open(log, "rb") as other:
        fcntl.flock(other, fcntl.LOCK_SH)
        for line in ("append LOG more.script", "checkpoint LOG", "close LOG LOG", "recover LOG"):
            ended = rqlog(*line.replace("LOG", log).split())
            said = ended[0], ended[1], b"another program" in ended[2]
            check(f"{line}, read by another", (said, content(log)), ((3, b"", True), before))


PARTS = [order, its_name, taken_back, another_writer, looked_at, read_by_another]
