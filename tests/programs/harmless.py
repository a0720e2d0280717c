"""Quick. Nothing of a file is lost by a command: programs that begin with closed standard descriptors, and files that are there already."""
from __future__ import annotations
import os, shutil
from itertools import combinations
from typing import NamedTuple

from trying import RQ, RQLOG, RQLOOK, START, Ended, check, content, done as ended_of, put

MORE = b"begin 2\nenqueue 2 0 8 - 0 62\ncommit 2\n"
# All sets of standard descriptors.
SETS = [set(it) for count in range(4) for it in combinations(range(3), count)]


class Line(NamedTuple):
    """A line: its program, its words, whether it reads standard input, whether it writes to standard output what it did or found, and
    its status if all is open."""
    program: str
    words: str
    reads: bool = False
    tells: bool = False
    status: int = 0


LINES = [
    Line(RQ, "make more.script made"), Line(RQ, "make2 more.script made"), Line(RQ, "restart a.log 1 1", tells=True),
    Line(RQ, "restart-at a.log 276 1 1", status=1), Line(RQ, "audit marked.log 1", tells=True),
    Line(RQ, "close a.log made 1"), Line(RQ, "close a.log a.log 1"), Line(RQ, "upgrade a.log made 1"),
    Line(RQ, "make /dev/stdin made", reads=True), Line(RQ, "make more.script /dev/stdout", tells=True),
    Line(RQLOG, "new made"), Line(RQLOG, "append a.log more.script", tells=True), Line(RQLOG, "append a.log", reads=True, tells=True),
    Line(RQLOG, "append --json a.log more.script", tells=True), Line(RQLOG, "append --each a.log half.script", tells=True, status=1),
    Line(RQLOG, "append a.log bad.script", status=1), Line(RQLOG, "checkpoint a.log", tells=True),
    Line(RQLOG, "checkpoint --close a.log", tells=True), Line(RQLOG, "carry a.log made", tells=True),
    Line(RQLOG, "restart a.log", tells=True), Line(RQLOG, "close a.log made"), Line(RQLOG, "close a.log a.log"),
    Line(RQLOG, "audit marked.log", tells=True), Line(RQLOG, "--version", tells=True), Line(RQLOG, "no-command", status=2),
    *(Line(RQLOOK, f"{it} a.log", tells=True) for it in ("dump", "check", "report", "stats", "script")),
    Line(RQLOOK, "dump -", reads=True, tells=True), Line(RQLOOK, "check cut.log", tells=True, status=1),
    Line(RQLOOK, "check -q a.log"), Line(RQLOOK, "story a.log 3", tells=True), Line(RQLOOK, "unit a.log 1", tells=True),
    Line(RQLOOK, "page a.log made"), Line(RQLOOK, "page a.log -", tells=True), Line(RQLOOK, "page - made", reads=True),
    Line(RQLOOK, "salvage cut.log made"), Line(RQLOOK, "salvage cut.log -", tells=True), Line(RQLOOK, "--help", tells=True),
    Line(RQLOOK, "mend a.log made", tells=True), Line(RQLOOK, "mend cut.log -", tells=True, status=1),
    Line(RQLOOK, "mend - made", reads=True, tells=True),
]


def name_of(program: str) -> str:
    """What the program calls itself: its file may be named by its processor too."""
    return os.path.basename(program).partition("-")[0]


def done(program: str, *words: str, given: bytes = b"", closed: set[int] = frozenset()) -> Ended:
    """How a line ends, and what it prints, with these descriptors closed."""
    def close() -> None:
        for number in closed:
            os.close(number)
    return ended_of(program, *words, input=given, preexec_fn=close)


def files() -> dict[str, bytes | None]:
    return {it: content(it) for it in sorted(os.listdir("."))}


def anew() -> None:
    """The files that each line begins with, in an empty folder."""
    for name in os.listdir("."):
        os.remove(name)
    for name, script in {"start": START, "more": MORE, "half": MORE + b"commit 9\n", "bad": b"commit 9\n"}.items():
        put(f"{name}.script", script)
    done(RQ, "make", "start.script", "a.log")
    put("cut.log", (content("a.log") or b"") + b"\0\0\0")
    shutil.copy("a.log", "marked.log")
    done(RQLOG, "checkpoint", "marked.log")


def wanted(line: Line, closed: set[int], whole: tuple[int, bytes, bytes]) -> tuple[int, bytes, bytes]:
    """How the line must end with these descriptors closed, if it ends so with all open: what is not told is a fault, and what cannot be
    read, and nothing that goes elsewhere changes."""
    is_mute = line.tells and 1 in closed or line.reads and 0 in closed
    return 3 if is_mute else whole[0], b"" if 1 in closed or line.reads and 0 in closed else whole[1], whole[2]


def closed_ones() -> None:
    """Each line with each set of closed standard descriptors: its files are those that it leaves with all open, or as they were if it
    cannot read; and its status tells what it could not."""
    for line in LINES:
        words = line.words.split()
        given = (content_of_log() if line.program == RQLOOK else MORE) if line.reads else b""
        anew()
        before = files()
        whole = done(line.program, *words, given=given)
        left = files()
        name = f"{name_of(line.program)} {line.words}"
        check(f"{name}: status", whole[0], line.status)
        for closed in SETS[1:]:
            anew()
            ended = done(line.program, *words, given=given, closed=closed)
            status, printed, _ = wanted(line, closed, whole)
            unread = line.reads and 0 in closed
            is_lost = line.words.endswith("/dev/stdout") and 1 in closed
            check(f"{name}, closed {closed}", ended[:2], (status, printed))
            check(f"{name}, closed {closed}: files", files() == (before if unread or is_lost else left), True)
            says = ended[2] == whole[2] if status == whole[0] else ended[2].count(b"\n") == 1
            check(f"{name}, closed {closed}: what is said", ended[2] == b"" if 2 in closed else says, True)


def content_of_log() -> bytes:
    anew()
    return content("a.log") or b""


def done_all_the_same() -> None:
    """What could not be told is done, and that is said."""
    anew()
    ended = done(RQLOG, "append", "a.log", "more.script", closed={1})
    check("append that is not told", (ended[0], ended[2].endswith(b": it is done all the same\n")), (3, True))
    check("what was appended", done(RQ, "restart", "a.log", "1", "1")[1].split(b"\n")[0].endswith(b"whole"), True)


# What a file that is there is, and whether a page, a salvage and a closed log take its place, without --force and with it.
THERE = {
    "a text": (b"my notes\n", (False, True), (False, True), (False, True)),
    "nothing": (b"", (False, True), (False, True), (False, True)),
    "a log": (None, (False, False), (False, False), (False, True)),
    "the beginning of a log": (b"RQLOG", (False, False), (False, False), (False, True)),
    "another page": (b"<!DOCTYPE html>\n<html lang=\"en\">\n", (False, True), (False, True), (False, True)),
    "a script": (START, (False, True), (False, True), (False, True)),
    "a script with a remark": (START + b"# mine\n", (False, True), (False, True), (False, True)),
    "a page": ("page", (True, True), (False, True), (False, True)),
    "a salvage": ("salvage", (False, True), (True, True), (False, True)),
    "a log that holds a salvage": ("inside", (False, False), (False, False), (False, True)),
}
MAKING = {"page": (RQLOOK, "page a.log OUT"), "salvage": (RQLOOK, "salvage cut.log OUT"), "close": (RQLOG, "close a.log OUT")}


def there(what: bytes | str | None) -> bytes:
    """The bytes of a file that is there."""
    if isinstance(what, bytes):
        return what
    if what is None:
        return content("marked.log") or b""
    if what == "inside":
        return (content("a.log") or b"") + b"\n# front ends behind 5 records, and more\n"
    program, words = MAKING[what]
    done(program, *words.replace("OUT", "earlier").split())
    return content("earlier") or b""


def asked(words: str, out: str, is_forced: bool) -> list[str]:
    return [*words.replace("OUT", out).split(), *(["--force"] if is_forced else [])]


def replaced() -> None:
    """What is there stays, unless it is an earlier file of the kind or that is asked for; by its own name, and by a symbolic link."""
    for name, (what, *rules) in THERE.items():
        for (kind, (program, words)), rule in zip(MAKING.items(), rules):
            anew()
            made = done(program, *words.replace("OUT", "new").split())
            check(f"{kind} into a new file", (made, content("new") is not None), ((0, b"", b""), True))
            for is_forced, out in ((False, "out"), (True, "out"), (False, "link"), (True, "link")):
                before = content(put("out", there(what)))
                if not os.path.lexists("link"):
                    os.symlink("out", "link")
                ended = done(program, *asked(words, out, is_forced))
                goes = rule[is_forced]
                told = ended[0], ended[1], ended[2].startswith(f"{name_of(program)}: {out}: it is ".encode())
                check(f"{kind} {'--force ' * is_forced}into {out}, which is {name}", told, (0, b"", False) if goes else (3, b"", True))
                stands = content("out") == (content("new") if goes else before)
                check(f"{kind} {'--force ' * is_forced}into {out}, which is {name}: its bytes", stands, True)
                check(f"{kind}: the link", os.readlink("link"), "out")
            check(f"{kind}: what stands beside", [it for it in os.listdir(".") if ".rq" in it], [])


def many_logs() -> None:
    """`rqlook page *.log`, and its like, with several logs."""
    for program, words in ((RQLOOK, "page a.log marked.log"), (RQLOOK, "salvage a.log marked.log"), (RQLOOK, "mend a.log marked.log"),
                           (RQLOG, "close a.log marked.log"), (RQLOG, "carry a.log marked.log")):
        for more in ([], ["--force"]):
            if more and words.split()[0] not in ("page", "salvage"):
                continue
            anew()
            before = files()
            check(f"{words} {more}", (done(program, *words.split(), *more)[0], files() == before), (3, True))


def onto_itself() -> None:
    """`close` onto its own log needs no word more, also by a link; and what is no file is written as it is."""
    anew()
    want = content("a.log")
    os.symlink("a.log", "link")
    for out in ("a.log", "link", "./a.log"):
        check(f"close a.log {out}", (done(RQLOG, "close", "a.log", out), content("a.log")), ((0, b"", b""), want))
    check("close a.log /dev/stdout", done(RQLOG, "close", "a.log", "/dev/stdout"), (0, want, b""))
    check("page a.log /dev/stdout", done(RQLOOK, "page", "a.log", "/dev/stdout")[1][:9], b"<!DOCTYPE")


PARTS = [closed_ones, done_all_the_same, replaced, many_logs, onto_itself]
