"""Quick. Tries rq-many over small logs, with rqlog and with programs that stand in its place: what it tells, skips, refuses and leaves. With
--wrong it tries wrong versions of rq-many: the parts that are named for one must find it. With --draw it tries so many of them, drawn by the sum
of the clone's files."""
from __future__ import annotations
import argparse, hashlib, importlib.machinery, importlib.util, json, os, pty, random, re, resource, shutil, signal, socket, stat
import subprocess, sys, tempfile, time
from collections.abc import Iterator
from concurrent.futures import ThreadPoolExecutor
from contextlib import contextmanager, suppress
from typing import Any, Callable, Dict, List, NamedTuple, Optional

from trying import EXAMPLES, HERE, TOP, check, drawn, program_of
import trying

# The report that README shows of this log.
CRASHED = b"""front 8 records, 438 of 458 bytes, cut
units 1 committed, 0 aborted, 1 cut off
queue 0 dead limit 0 error -
queue 1 jobs limit 3 error 0
e 4 from 1 priority 5 attempts 1 7061792037
r ann enqueue tag 1 element 4
"""
# Two lines with which a report begins.
HEAD = "front 1 records, 40 of 40 bytes, whole\nunits 0 committed, 0 aborted, 0 cut off\n"
BOTH = ["crashed.log", "one.log"]
FILES = ["crashed.log.json", "crashed.log.report", "one.log.json", "one.log.report"]
# A line that takes so many seconds goes on without end.
LONGEST = 120


class Ended:
    """How a line ended, and what it printed."""

    def __init__(self, done: "subprocess.CompletedProcess[bytes]") -> None:
        self.status, self.out, self.said = done.returncode, done.stdout, done.stderr.decode(errors="replace")


class Room:
    """A folder with logs, and one for what is told of them."""
    rqlog = program = ""

    def __init__(self, folder: str) -> None:
        self.folder = folder
        self.logs, self.out = (os.path.join(folder, name) for name in ("logs", "out"))
        self.add("one.log", "one-element.log")
        self.add("crashed.log", "crashed.log")

    def add(self, name: str, example: str) -> str:
        path = os.path.join(self.logs, name)
        os.makedirs(os.path.dirname(path), exist_ok=True)
        shutil.copy(os.path.join(EXAMPLES, example), path)
        return path

    def at(self, name: str) -> str:
        return os.path.join(self.folder, name)

    def told_at(self, name: str) -> str:
        return os.path.join(self.out, name)

    def env(self, rqlog: Optional[str]) -> Dict[str, str]:
        return {**os.environ, "RQLOG": rqlog or self.rqlog}

    def line(self, *words: str, rqlog: Optional[str] = None, **more: Any) -> Ended:
        pipes = {"stdin": subprocess.DEVNULL, "stdout": subprocess.PIPE, "stderr": subprocess.PIPE, "env": self.env(rqlog), **more}
        return Ended(subprocess.run([self.program, *words], timeout=LONGEST, **pipes))

    def run(self, *words: str, **more: Any) -> Ended:
        return self.line("run", self.logs, self.out, *words, **more)

    def begun(self, *words: str, rqlog: Optional[str] = None) -> "subprocess.Popen[bytes]":
        words = (self.program, "run", self.logs, self.out, *words)
        none = {"stdin": subprocess.DEVNULL, "stdout": subprocess.DEVNULL, "stderr": subprocess.DEVNULL}
        return subprocess.Popen(words, env=self.env(rqlog), **none)

    def collect(self, *words: str) -> Ended:
        return self.line("collect", *words, self.logs, self.out)

    def told(self, name: str) -> Dict[str, Any]:
        with open(self.told_at(name + ".json"), encoding="utf-8") as file:
            return json.load(file)

    def report(self, name: str) -> bytes:
        with open(self.told_at(name + ".report"), "rb") as file:
            return file.read()

    def left(self) -> List[str]:
        """The files below OUT."""
        return sorted(os.path.relpath(os.path.join(at, name), self.out) for at, _, names in os.walk(self.out) for name in names)

    def fake(self, script: str, version: str = "rqlog 1.0", name: str = "fake") -> str:
        """A program in the place of rqlog."""
        path = self.at(name)
        with open(path, "w", encoding="utf-8") as file:
            file.write(f"#!/bin/sh\n[ \"$1\" != --version ] || {{ echo '{version}'; exit; }}\n{script}\n")
        os.chmod(path, 0o755)
        return path

    def listed(self) -> str:
        path = self.at("logs.list")
        with open(path, "wb") as file:
            file.write(self.line("list", self.logs).out)
        return path


def change(path: str, offset: int) -> None:
    """Turns a byte."""
    with open(path, "r+b") as file:
        file.seek(offset, os.SEEK_END if offset < 0 else os.SEEK_SET)
        byte = file.read(1)
        file.seek(-1, os.SEEK_CUR)
        file.write(bytes([byte[0] ^ 255]))


def until(what: Callable[[], bool], seconds: float = LONGEST) -> bool:
    """Waits until it is so, or for so long."""
    end = time.monotonic() + seconds
    while not what():
        if time.monotonic() > end:
            return False
        time.sleep(0.01)
    return True


def has_open(pid: int, path: str) -> bool:
    """Whether the process has the file open, by the name that it had."""
    folder = f"/proc/{pid}/fd"
    try:
        return any(os.readlink(os.path.join(folder, it)).startswith(path) for it in os.listdir(folder))
    except OSError:
        return False


# --- what is told --------------------------------------------------------------------------------------------------

def whole_and_cut(room: Room) -> None:
    """All that is told of two logs, by their documents and by sums that are taken here."""
    check("a run", room.run(*BOTH).status, 0)
    check("a report", room.report("crashed.log"), CRASHED)
    told = room.told("crashed.log")
    with open(os.path.join(room.logs, "crashed.log"), "rb") as file:
        end = hashlib.sha256(file.read()).hexdigest()
    check("its front", [told[it] for it in ("name", "status", "why", "records", "bytes")], ["crashed.log", "done", "cut", 8, 438])
    check("its units", told["units"], {"committed": 1, "aborted": 0, "cut_off": 1})
    check("its log", [told["log"][it] for it in ("size", "end_sha256")], [458, end])
    check("its report", told["report"], {"size": len(CRASHED), "sha256": hashlib.sha256(CRASHED).hexdigest()})
    check("who told it", [told[it] for it in ("host", "program", "workers", "attempts", "job")],
          [socket.gethostname(), subprocess.run([room.rqlog, "--version"], stdout=subprocess.PIPE).stdout.decode().strip(), 1, 1, None])
    check("what it took", [0 <= told["cpu_seconds"] < 10, 0 <= told["seconds"] < 60, told["peak_kib"] > 1000], [True] * 3)
    check("when", re.fullmatch(r"\d{4}-\d\d-\d\dT\d\d:\d\d:\d\d\+00:00", told["begun"]) is not None, True)
    answer = room.collect("--verify")
    check("a table", (answer.status, answer.said), (0, "2 logs: 1 cut, 1 whole\n"))
    rows = [it.split("\t") for it in answer.out.decode().splitlines()]
    check("its head", rows[0][:7], ["name", "status", "why", "records", "bytes", "size", "cut_off"])
    check("its rows", [it[:7] for it in rows[1:]],
          [["crashed.log", "done", "cut", "8", "438", "458", "1"], ["one.log", "done", "whole", "4", "237", "237", "0"]])
    check("all that is left", room.left(), FILES)
    check("who may read it", stat.S_IMODE(os.stat(room.told_at("one.log.json")).st_mode), 0o666 & ~umask())


def umask() -> int:
    mask = os.umask(0)
    os.umask(mask)
    return mask


def damage(room: Room) -> None:
    change(room.add("a/bad.log", "one-element.log"), 60)
    check("a damaged log is settled", room.run("a/bad.log", *BOTH).status, 0)
    answer = room.collect()
    check("it needs a person", (answer.status, "needs a person: a/bad.log: its front ends by " in answer.said), (1, True))
    check("and is shown alone", [it.split(b"\t")[0] for it in room.collect("--person").out.splitlines()], [b"name", b"a/bad.log"])


def no_log(room: Room) -> None:
    room.add("text.log", "one-element.script")
    check("no log is settled", room.run("text.log", *BOTH).status, 0)
    told = room.told("text.log")
    check("what is told of it", (told["status"], "not a log" in told["message"], "why" in told), ("refused", True, False))
    check("it has no report", room.left(), sorted([*FILES, "text.log.json"]))
    answer = room.collect()
    check("it needs a person", (answer.status, "needs a person: text.log: rqlog: " in answer.said), (1, True))
    check("it is not run again", room.run("text.log", rqlog=room.fake("exit 4")).status, 0)


def carried(room: Room) -> None:
    """A log that goes on in another file is restarted as what it is."""
    new = os.path.join(room.logs, "two.carried")
    subprocess.run([room.rqlog, "carry", os.path.join(room.logs, "one.log"), new], check=True, stdout=subprocess.DEVNULL)
    check("a carried log", (room.run("two.carried").status, room.told("two.carried")["why"]), (0, "whole"))


# --- what is skipped -----------------------------------------------------------------------------------------------

def done_is_skipped(room: Room) -> None:
    room.run("one.log")
    before = os.stat(room.told_at("one.log.json")).st_ino
    check("done", room.run("one.log", rqlog=room.fake("exit 3")).status, 0)
    check("is skipped", os.stat(room.told_at("one.log.json")).st_ino, before)
    check("--again skips nothing", room.run("--again", "one.log", rqlog=room.fake("echo no >&2; exit 3")).status, 75)
    check("the report of before is gone", room.left(), ["one.log.json"])
    check("and the line counts", (room.told("one.log")["attempts"], room.told("one.log")["message"]), (2, "no"))


def other_log_or_report(room: Room) -> None:
    """What is there has to be what the line says."""
    room.run(*BOTH)
    with open(os.path.join(room.logs, "one.log"), "ab") as file:
        file.write(b"\0")
    with open(room.told_at("crashed.log.report"), "ab") as file:
        file.write(b"r more none\n")
    answer = room.collect()
    check("a longer log, a longer report", (answer.status, answer.said.count(": stale: ")), (75, 2))
    check("both are done anew", (room.run(*BOTH).status, room.told("one.log")["why"], room.report("crashed.log")), (0, "cut", CRASHED))
    before = os.stat(os.path.join(room.logs, "one.log")).st_mtime_ns
    change(os.path.join(room.logs, "one.log"), -1)
    os.utime(os.path.join(room.logs, "one.log"), ns=(before, before))
    os.utime(room.told_at("crashed.log.report"))
    check("another end of a log", (room.run(*BOTH).status, room.told("one.log")["attempts"]), (0, 3))
    for name, second in (("one.log", 1), ("crashed.log", 2)):
        os.utime(os.path.join(room.logs, name), (second, second))
    check("another time of a log", [room.collect().status, room.run(*BOTH).status, room.told("crashed.log")["attempts"]], [75, 0, 3])
    os.utime(os.path.join(room.logs, "one.log"), ns=(10**9 + 5, 10**9 + 5))
    check("a time that was cut to seconds", room.collect().status, 0)
    os.remove(room.told_at("one.log.report"))
    check("no report", (room.collect().status, room.run(*BOTH).status, room.collect().status), (75, 0, 0))
    change(room.told_at("crashed.log.report"), 10)
    check("another front line", (room.collect().status, room.run(*BOTH).status, room.collect().status), (75, 0, 0))
    change(room.told_at("crashed.log.report"), -2)
    check("another byte of a report, which --verify looks for", (room.collect().status, room.collect("--verify").status), (0, 75))


def faults(room: Room) -> None:
    """What is not settled: it is told, and run again."""
    room.run("one.log", rqlog=room.fake('echo "rqlog: $2: it is gone" >&2; exit 3'))
    check("the log is named", room.told("one.log")["message"], f"rqlog: {room.logs}/one.log: it is gone")
    for script, status in (("echo 'rqlog: resources' >&2; exit 4", "failed"), ("kill -9 $$", "killed"), ("exit 0", "failed"),
                           ("echo front 1 records; exit 0", "failed"), (f"printf '{HEAD}'; exit 3", "failed")):
        check(f"after {script}", (room.run("one.log", rqlog=room.fake(script)).status, room.told("one.log")["status"]), (75, status))
        check(f"what is left after {script}", room.left(), ["one.log.json"])
        answer = room.collect()
        check(f"the table after {script}", (answer.status, f"run again: one.log: {status}: " in answer.said), (75, True))
    check("attempts", [room.told("one.log")["attempts"], room.run(*BOTH).status, room.told("one.log")["attempts"]], [6, 0, 7])
    check("a long word why", room.run("--again", "one.log", rqlog=room.fake("head -c 1000000 /dev/zero >&2; exit 4")).status, 75)
    check("the others go on", (room.run("gone.log", *BOTH).status, room.told("crashed.log")["attempts"]), (75, 1))


def unread(room: Room) -> None:
    os.mkdir(os.path.join(room.logs, "folder.log"))
    os.symlink("nowhere", os.path.join(room.logs, "link.log"))
    os.mkfifo(os.path.join(room.logs, "pipe.log"))
    names = ["folder", "link", "gone", "pipe"]
    if os.geteuid():
        os.chmod(room.add("closed.log", "crashed.log"), 0)
        names.append("closed")
    check("what can't be read", room.run(*(f"{it}.log" for it in names)).status, 75)
    check("what is told of it", {room.told(f"{it}.log")["message"] for it in names[:4]}, {"no regular file", "No such file or directory"})
    check("its status", {room.told(f"{it}.log")["status"] for it in names}, {"unread"})
    room.run(*BOTH)
    before = (room.report("one.log"), room.told("one.log"))
    os.rename(os.path.join(room.logs, "one.log"), room.at("aside"))
    answer = room.run("one.log")
    check("a log that is gone", (answer.status, "one.log: unread: No such file or directory: its report stays" in answer.said), (75, True))
    check("its report stays", (room.report("one.log"), room.told("one.log")), before)
    with open(room.at("list"), "w", encoding="utf-8") as file:
        file.write("one.log\n")
    answer = room.line("collect", room.logs, room.out, "--list", room.at("list"))
    check("and the table says so", (answer.status, "run again: one.log: stale: the log can't be read now" in answer.said), (75, True))
    os.rename(room.at("aside"), os.path.join(room.logs, "one.log"))
    check("a log that is there again is done", (room.run("one.log").status, room.told("one.log")), (0, before[1]))
    check("a list has a link that leads nowhere, and no pipe", b"link.log" in room.line("list", room.logs).out, True)
    check("a list has no pipe", b"pipe.log" in room.line("list", room.logs).out, False)


def written_to(room: Room) -> None:
    log = os.path.join(room.logs, "one.log")
    for how in (f"echo >> {log}", f"cp {log} {log}.2; mv {log}.2 {log}"):
        script = f"{how}; exec {room.rqlog} restart {EXAMPLES}/one-element.log"
        check(f"a log after {how}", (room.run("--again", "one.log", rqlog=room.fake(script)).status, room.told("one.log")["status"]),
              (75, "changed"))
        check(f"no report after {how}", room.left(), ["one.log.json"])


# --- names and words -----------------------------------------------------------------------------------------------

def names(room: Room) -> None:
    odd = ["-x y.log", "it's $HOME \"q\".log", "über/a.log", "b/a.log", "tab\tand\x1b[31m.log"]
    for name in odd:
        room.add(name, "one-element.log")
    shutil.copy(os.path.join(EXAMPLES, "one-element.log"), os.path.join(os.fsencode(room.logs), b"\xff.log"))
    for locale in ("C", "C.UTF-8"):
        env = {**room.env(None), "LC_ALL": locale}
        list_ = room.at("list")
        with open(list_, "wb") as file:
            file.write(room.line("list", room.logs, env=env).out)
        check(f"odd names, {locale}", room.run("--list", list_, "--again", env=env).status, 0)
        answer = room.line("collect", room.logs, room.out, "--list", list_, env=env)
        check(f"their table, {locale}", (answer.status, answer.out.count(b"\n"), b"\x1b" in answer.out), (0, 9, False))
    check("behind --", room.run("--", *odd).status, 0)
    check("each report", len([it for it in room.left() if it.endswith(".report")]), 8)


def bad_names(room: Room) -> None:
    """A name that leads out of ROOT, or has several lines: its word, and nothing is written."""
    for bad in ("../one.log", "/etc/passwd", "a//b", "a\nb", "", ".", "a/../../b"):
        answer = room.run(bad)
        check(f"the name {bad!r}", (answer.status, "no name of a log below ROOT" in answer.said), (2, True))
    for text, word in (("one.log\n../crashed.log\n", "no name of a log"), ("one.log\none.log\n", "names a log twice"),
                       ("one.log\n/etc/passwd", "no name of a log")):
        path = room.at("list")
        with open(path, "w", encoding="utf-8") as file:
            file.write(text)
        for line in (room.run("--list", path), room.line("collect", room.logs, room.out, "--list", path)):
            check(f"a list of {text!r}", (line.status, word in line.said, line.out), (2, True, b""))
    check("no list", room.run("--list", room.at("none")).status, 2)
    check("nothing was written", os.path.exists(room.out), False)
    room.add("two\nlines.log", "one-element.log")
    answer = room.line("list", room.logs)
    check("a list beside a name of two lines", (answer.status, answer.out, answer.said),
          (1, b"crashed.log\none.log\n", "not listed: two\\x0alines.log: a name of several lines\n"))
    check("all others are run", (room.run().status, room.collect().status, room.left()), (0, 1, FILES))


def below(room: Room) -> None:
    """What stands below ROOT: deep folders, closed ones, links."""
    here = os.getcwd()
    os.chdir(room.logs)
    for _ in range(1200):
        os.mkdir("d")
        os.chdir("d")
    os.chdir(here)
    os.symlink(room.logs, os.path.join(room.logs, "ring"))
    answer = room.line("list", room.logs)
    check("deep folders, and a link to a folder", (answer.status, answer.out, answer.said),
          (0, b"crashed.log\none.log\n", "not listed: ring: a link to a folder\n"))
    os.mkdir(os.path.join(room.logs, "closed"))
    os.chmod(os.path.join(room.logs, "closed"), 0)
    if os.geteuid():
        answer = room.line("list", room.logs)
        check("a closed folder", (answer.status, "not listed: closed: Permission denied" in answer.said), (1, True))
    os.chmod(os.path.join(room.logs, "closed"), 0o755)
    shutil.rmtree(os.path.join(room.logs, "closed"))
    subprocess.run(["rm", "-r", os.path.join(room.logs, "d")], check=True)


def parts(room: Room) -> None:
    for number in range(7):
        room.add(f"{number}.log", "one-element.log")
    list_ = room.listed()
    with open(list_, encoding="utf-8") as file:
        all_of_them = file.read().split()
    check("the largest first", all_of_them, ["crashed.log", *(f"{it}.log" for it in range(7)), "one.log"])
    for index in (1, 2, 3):
        check(f"part {index}", room.run("--list", list_, "--part", f"{index}/3").status, 0)
        told = [it for at, it in enumerate(all_of_them) if at % 3 < index]
        check(f"what is told after part {index}", [it[:-5] for it in room.left() if it.endswith(".json")], sorted(told))
    check("all parts", room.collect("--list", list_).status, 0)
    check("an empty part", room.run("--list", list_, "--part", "12/12").status, 0)
    check("no part", room.run("--list", list_, "--part", "0/3").status, 2)


def words(room: Room) -> None:
    for line in ((), ("go",), ("run",), ("run", "a"), ("list",), ("collect", "a"), ("run", "--workers", "0", "a", "b", "c"),
                 ("run", "--workers", "65", "a", "b"), ("list", "--part", "1/1", "a"), ("run", "a", "b", "--part", "2/1", "--list", "c"),
                 ("run", "a", "b", "--part", "1/1"), ("run", "a", "b", "--list"), ("run", "a", "b", "c", "--list", "d"),
                 ("collect", "a", "b", "c"), ("run", "--verify", "a", "b")):
        answer = room.line(*line)
        check(f"the words {line}", (answer.status, answer.out, answer.said.startswith("rq-many: ")), (2, b"", True))
    check("help", (room.line("--help").status, b"usage: rq-many list ROOT" in room.line("--help").out), (0, True))
    check("nothing was made", os.path.exists(room.out), False)


def folders(room: Room) -> None:
    file = room.add("file", "one-element.log")
    for root, out, status, word in ((room.logs, file, 2, "is no folder"), (file, room.out, 2, "is no folder"),
                                    (room.logs, os.path.join(room.logs, "out"), 2, "name a folder beside it"),
                                    (room.logs, room.logs, 2, "name a folder beside it"),
                                    (room.at("none"), room.out, 75, "No such file"), (room.logs, "/proc/none", 75, "No such file")):
        answer = room.line("run", root, out)
        check(f"run {root} {out}", (answer.status, word in answer.said), (status, True))
    check("nothing was made", (os.path.exists(room.out), os.path.exists(os.path.join(room.logs, "out"))), (False, False))
    os.mkdir(room.out)
    with open(room.told_at("a"), "w", encoding="utf-8"):
        pass
    room.add("a/b.log", "one-element.log")
    answer = room.run("a/b.log", *BOTH)
    check("a file in the place of a folder of OUT", (answer.status, "a/b.log: " in answer.said, room.left()), (75, True, sorted(["a", *FILES])))


def no_program(room: Room) -> None:
    for rqlog in ("/nowhere", "/etc/passwd", "/bin/false"):
        answer = room.run("one.log", rqlog=rqlog)
        check(f"rqlog is {rqlog}", (answer.status, rqlog in answer.said), (70, True))
    env = {key: value for key, value in os.environ.items() if key != "RQLOG"}
    alone = room.at("alone")
    for folder in ("alone", "beside", "path"):
        os.mkdir(room.at(folder))
    shutil.copy(room.program, alone)

    def run(folder: str, *path: str) -> Ended:
        words = [os.path.join(room.at(folder), "rq-many"), "run", room.logs, room.out, "one.log"]
        pipes = {"stdout": subprocess.PIPE, "stderr": subprocess.PIPE}
        return Ended(subprocess.run(words, env={**env, "PATH": ":".join([*path, os.path.dirname(sys.executable)])}, **pipes))

    answer = run("alone")
    check("no rqlog", (answer.status, "no rqlog is found" in answer.said), (70, True))
    check("nothing was made", os.path.exists(room.out), False)
    os.symlink(room.rqlog, room.at("path/rqlog"))
    check("rqlog on PATH", run("alone", room.at("path")).status, 0)
    shutil.rmtree(room.out)
    shutil.copy(room.program, room.at("beside"))
    os.symlink(room.rqlog, room.at("beside/rqlog"))
    check("rqlog beside rq-many", run("beside").status, 0)


# --- two runs at once ----------------------------------------------------------------------------------------------

def many_at_once(room: Room) -> None:
    """Twelve over the same logs: each log is restarted once, and the rest wait and skip."""
    count, gate = room.at("count"), room.at("gate")
    rqlog = room.fake(f"echo >> {count}; while [ ! -e {gate} ]; do sleep 0.02; done; exec {room.rqlog} \"$@\"")
    runs = [room.begun(*BOTH, rqlog=rqlog) for _ in range(12)]
    check("all are at a log, or wait for one", until(lambda: all(has_open(it.pid, room.out) for it in runs)), True)
    open(gate, "w").close()
    check("how they end", {it.wait(LONGEST) for it in runs}, {0})
    with open(count, encoding="utf-8") as file:
        check("restarts", len(file.readlines()), 2)
    check("what stands there", (room.collect("--verify").status, room.left()), (0, FILES))


def lock_without_a_name(room: Room) -> None:
    """One holds the lock, a second waits for it; the first takes the file away and ends. A third that comes then makes the file anew.
    The second must not go on with the lock of a file that nobody finds: two would be at the log at once."""
    os.makedirs(room.out)
    lock, doing, twice = room.told_at("one.log.lock"), room.at("doing"), room.at("twice")
    gates = [room.at(f"gate{it}") for it in (1, 2, 3)]

    def fake(gate: str) -> str:
        script = f"mkdir {doing} || touch {twice}; while [ ! -e {gate} ]; do sleep 0.02; done; rmdir {doing}; exec {room.rqlog} \"$@\""
        return room.fake(script, name=os.path.basename(gate) + ".fake")

    first = room.begun("--again", "one.log", rqlog=fake(gates[0]))
    check("the first is at it", until(lambda: os.path.exists(doing)), True)
    second = room.begun("--again", "one.log", rqlog=fake(gates[1]))
    check("the second waits", until(lambda: has_open(second.pid, lock)), True)
    time.sleep(0.3)
    open(gates[0], "w").close()
    check("the first ends", first.wait(LONGEST), 0)
    check("the second is at it", until(lambda: os.path.exists(doing)), True)
    third = room.begun("--again", "one.log", rqlog=fake(gates[2]))
    open(gates[2], "w").close()
    check("the third is there", until(lambda: has_open(third.pid, lock)), True)
    check("and does not go on beside it", until(lambda: third.poll() is not None or os.path.exists(twice), 2), False)
    open(gates[1], "w").close()
    check("both end", (second.wait(LONGEST), third.wait(LONGEST)), (0, 0))
    check("never two at once", os.path.exists(twice), False)
    check("what stands there", (room.told("one.log")["attempts"], room.left()), (3, FILES[2:]))


def lock_that_is_a_link(room: Room) -> None:
    os.makedirs(room.out)
    aim = room.at("aim")
    with open(aim, "w", encoding="utf-8") as file:
        file.write("as it was")
    for name in ("one.log.lock", "one.log.json", "one.log.report"):
        os.symlink(aim, room.told_at(name))
    answer = room.run(*BOTH)
    check("a link in the place of a lock", (answer.status, "one.log.lock: " in answer.said), (75, True))
    os.remove(room.told_at("one.log.lock"))
    check("links in the places of a report and a line", (room.run(*BOTH).status, room.left()), (0, FILES))
    with open(aim, encoding="utf-8") as file:
        check("the file that they named", file.read(), "as it was")


# --- what stands there at any time ---------------------------------------------------------------------------------

def whole_at_any_time(room: Room) -> None:
    """The report and the line are whole while they are written anew."""
    report = HEAD.encode() + b"queue\n" * 500_000
    with open(room.at("report"), "wb") as file:
        file.write(report)
    rqlog = room.fake(f"cat {room.at('report')}")
    check("a long report", room.run("one.log", rqlog=rqlog).status, 0)
    script = f"for i in 1 2 3 4 5; do {room.program} run --again {room.logs} {room.out} one.log || exit; done"
    runs = subprocess.Popen(["sh", "-c", script], env=room.env(rqlog))
    seen = set()
    while runs.poll() is None:
        try:
            seen.add((os.stat(room.told_at("one.log.report")).st_size, room.told("one.log")["status"]))
        except (OSError, ValueError) as fault:
            seen.add(repr(fault))
    check("what is seen meanwhile", (runs.returncode, seen), (0, {(len(report), "done")}))


def killed_at_any_time(room: Room) -> None:
    """Whenever it is ended, by whatever signal: what stands there is whole, and the next run ends the work."""
    chance = random.Random(1)
    for turn in range(25):
        ended = room.begun("--again", *BOTH)
        time.sleep(chance.random() * 0.15)
        ended.send_signal(chance.choice([signal.SIGKILL, signal.SIGTERM, signal.SIGINT]))
        ended.wait(LONGEST)
        answer = room.collect("--verify")
        check(f"a table after end {turn}", answer.status in (0, 75) and "Traceback" not in answer.said, True)
        told = [room.told(it[:-5])["status"] for it in room.left() if it.endswith(".json")]
        check(f"what is told after end {turn}", set(told) <= {"done"}, True)
    check("the next run", room.run(*BOTH).status, 0)
    check("and what is left", (room.collect("--verify", "--clean").status, room.left()), (0, FILES))


def stopped(room: Room) -> None:
    """Who is asked to end ends what it began, and leaves nothing."""
    for what, wanted in ((signal.SIGTERM, 75), (signal.SIGINT, 75), (signal.SIGHUP, 75)):
        going = room.begun("one.log", rqlog=room.fake(f"echo $$ > {room.at('pid')}; exec sleep 60"))
        check(f"begun before {what.name}", until(lambda: os.path.exists(room.at("pid")) and os.path.getsize(room.at("pid")) > 0), True)
        going.send_signal(what)
        check(f"ended by {what.name}", going.wait(LONGEST), wanted)
        with open(room.at("pid"), encoding="utf-8") as file:
            check(f"its program after {what.name}", os.path.exists(f"/proc/{int(file.read())}"), False)
        os.remove(room.at("pid"))
        check(f"what is left after {what.name}", room.left(), [])


def cleaning(room: Room) -> None:
    """What killed runs left goes, and what a run holds stays."""
    os.makedirs(room.out)
    for name in (".rq-many-old", "gone.log.lock"):
        open(room.told_at(name), "w").close()
    gate = room.at("gate")
    going = room.begun("one.log", rqlog=room.fake(f"while [ ! -e {gate} ]; do sleep 0.02; done; exec {room.rqlog} \"$@\""))
    check("a run goes on", until(lambda: sum(it.startswith(".rq-many-") for it in room.left()) == 2), True)
    check("four files are told", "4 files are of runs" in room.collect().said, True)
    check("two of them are in use", "2 files are of runs that go on" in room.collect("--clean").said, True)
    check("they stay", [it for it in room.left() if it in (".rq-many-old", "gone.log.lock")] + [str(len(room.left()))], ["2"])
    open(gate, "w").close()
    check("the run ends well", (going.wait(LONGEST), room.left()), (0, FILES[2:]))


def no_room(room: Room) -> None:
    """Neither a full disk nor a bound on a file's size leaves half a file."""
    def bound() -> None:
        resource.setrlimit(resource.RLIMIT_FSIZE, (40, 40))

    answer = room.run(*BOTH, preexec_fn=bound)
    check("files of 40 bytes at most", (answer.status, "File too large" in answer.said, room.left()), (75, True, []))
    os.makedirs(room.out, exist_ok=True)
    apart = ["unshare", "--map-root-user", "--mount"] if os.geteuid() else ["unshare", "--mount"]
    if subprocess.run([*apart, "mount", "-t", "tmpfs", "none", room.out], stderr=subprocess.DEVNULL).returncode:
        print("left out: for a full disk no file system may be mounted here")
        return
    script = f"""mount -t tmpfs -o size=64k none {room.out} && cd {room.folder}
        cat /dev/zero > {room.out}/filling 2> /dev/null; {room.program} run {room.logs} {room.out} {' '.join(BOTH)}
        echo $?; ls -A {room.out} | grep -v filling; rm {room.out}/filling
        {room.program} run {room.logs} {room.out} {' '.join(BOTH)}; echo $?; ls -A {room.out}"""
    rqlog = room.fake(f"printf '{HEAD}'; head -c 8000 /dev/zero; exec 2>&1; exit 0")
    ended = Ended(subprocess.run([*apart, "sh", "-c", script], env=room.env(rqlog), stdout=subprocess.PIPE, stderr=subprocess.PIPE))
    check("a full disk, and with room again", ended.out.decode().split(), ["75", "0", *FILES])
    check("its word", "No space left on device" in ended.said, True)


def unwritten(room: Room) -> None:
    room.run(*BOTH)
    with open("/dev/full", "wb") as full:
        for line in (("list", room.logs), ("collect", room.logs, room.out)):
            answer = Ended(subprocess.run([room.program, *line], stdout=full, stderr=subprocess.PIPE))
            check(f"{line[0]} onto a full device", (answer.status, answer.said), (3, "rq-many: standard output: No space left on device\n"))
    reads, writes = os.pipe()
    os.close(reads)
    answer = Ended(subprocess.run([room.program, "list", room.logs], stdout=writes, stderr=subprocess.PIPE))
    check("a reader that went away", (answer.status, answer.said), (3, "rq-many: standard output: Broken pipe\n"))


def bad_lines(room: Room) -> None:
    """Lines that rq-many never wrote are none."""
    room.run(*BOTH)
    good = room.told("one.log")
    for bad in ("", "{", "[]", "7", "null", '{"status": "done"}', json.dumps({**good, "units": 7}), json.dumps({**good, "attempts": "x"}),
                json.dumps({**good, "report": []}), "[" * 50_000, json.dumps({**good, "log": None}), json.dumps({**good, "why": "law"})):
        with open(room.told_at("one.log.json"), "w", encoding="utf-8") as file:
            file.write(bad)
        answer = room.collect()
        check(f"the line {bad[:30]}", (answer.status, "Traceback" in answer.said), (75, False))
        check(f"a run after {bad[:30]}", (room.run(*BOTH).status, room.collect().status), (0, 0))


# --- beside the logs -----------------------------------------------------------------------------------------------

def two_versions(room: Room) -> None:
    room.run(*BOTH)
    script = f"exec {room.rqlog} \"$@\""
    check("another version, one log", room.run("--again", "one.log", rqlog=room.fake(script, "rqlog 9.9")).status, 0)
    answer = room.collect()
    check("two versions are told", (answer.status, "reports are by 2 versions: " in answer.said, "rqlog 9.9" in answer.said), (0, True, True))


@contextmanager
def clock_that_jumps() -> Iterator[None]:
    """The clock of the day goes back by an hour at each look."""
    real, at = time.time, [2e9]

    def back() -> float:
        at[0] -= 3600
        return at[0]

    time.time = back
    try:
        yield
    finally:
        time.time = real


def clock(room: Room) -> None:
    """A time in the future, and a clock that jumps back, change neither what is skipped nor how long it took."""
    for name in BOTH:
        os.utime(os.path.join(room.logs, name), (5e9, 5e9))
    check("logs of the future", (room.run(*BOTH).status, room.run(*BOTH, rqlog=room.fake("exit 3")).status, room.collect().status), (0, 0, 0))
    loader = importlib.machinery.SourceFileLoader("rq_many", room.program)
    spec = importlib.util.spec_from_loader("rq_many", loader)
    many = importlib.util.module_from_spec(spec)
    loader.exec_module(many)
    real = many.datetime.datetime

    class Back(real):
        @classmethod
        def now(cls, tz: Any = None) -> Any:
            return real.fromtimestamp(time.time(), tz)

    many.datetime = type("datetime", (), {"datetime": Back, "timezone": many.datetime.timezone})
    with clock_that_jumps():
        options = many.Options(room.logs, room.out, again=True)
        check("by a clock that jumps", many.settle(options, many.Program(room.rqlog, "rqlog 1.0"), "one.log", False), (True, True))
    check("how long it took", 0 <= room.told("one.log")["seconds"] < 60, True)


def progress(room: Room) -> None:
    """On a terminal, and nowhere else."""
    reads, writes = pty.openpty()
    rqlog = room.fake(f"sleep 1.3; exec {room.rqlog} \"$@\"")
    answer = subprocess.run([room.program, "run", room.logs, room.out, *BOTH, "gone.log"], stderr=writes, env=room.env(rqlog))
    os.close(writes)
    said = b""
    while True:
        try:
            piece = os.read(reads, 65536)
        except OSError:
            break
        if not piece:
            break
        said += piece
    os.close(reads)
    lines = said.decode().replace("\r\n", "\n").split("\r\x1b[K")
    check("a terminal", (answer.returncode, "0 of 3 logs, 1 KiB to go: crashed.log" in lines), (75, True))
    check("how long it takes still", any(re.fullmatch(r"1 of 3 logs, 0 KiB to go, 1 s left: one.log", it) for it in lines), True)
    check("a word in its place", any(it.startswith("rq-many: gone.log: unread: ") for it in lines), True)
    check("it goes at the end", said.endswith(b"\r\x1b[K"), True)
    check("no terminal", (room.run("--again", *BOTH).said, room.run(*BOTH).said), ("", ""))


PARTS: List[Callable[[Room], None]] = [
    whole_and_cut, damage, no_log, carried, done_is_skipped, other_log_or_report, faults, unread, written_to, names, bad_names, below,
    parts, words, folders, no_program, many_at_once, lock_without_a_name, lock_that_is_a_link, whole_at_any_time, killed_at_any_time,
    stopped, cleaning, no_room, unwritten, bad_lines, two_versions, clock, progress,
]


def try_part(part: Callable[[Room], None]) -> None:
    folder = tempfile.mkdtemp(prefix="rq-many-test-")
    try:
        part(Room(folder))
    except Exception as fault:
        check(part.__name__, repr(fault), "")
    finally:
        shutil.rmtree(folder, ignore_errors=True)


# --- wrong versions --------------------------------------------------------------------------------------------------

class Wrong(NamedTuple):
    """A wrong version: the sin, a text that stands once in the program, what takes its place, and who finds it."""
    sin: str
    old: str
    new: str
    parts: List[str]


WRONG = [
    Wrong("the lock of a file that nobody finds is taken for one", "if has_name(fd, path):\n            return fd", "return fd",
          ["lock_without_a_name"]),
    Wrong("there is no lock", "fcntl.flock(fd, fcntl.LOCK_EX if wait else fcntl.LOCK_EX | fcntl.LOCK_NB)", "pass", ["many_at_once"]),
    Wrong("who comes second does not wait", "raise Busy from None", "return os.open(os.devnull, os.O_RDONLY)", ["many_at_once"]),
    Wrong("a lock follows a link", "os.O_CREAT | os.O_NOFOLLOW", "os.O_CREAT", ["lock_that_is_a_link"]),
    Wrong("a report is written in its place", 'fd, new = tempfile.mkstemp(prefix=BESIDE, dir=folder)',
          'new = path; fd = os.open(path, os.O_RDWR | os.O_CREAT | os.O_TRUNC, 0o666)', ["whole_at_any_time"]),
    Wrong("a file beside stays after a signal", "    finally:\n        with contextlib.suppress(OSError):\n            os.unlink(new)",
          "    finally:\n        pass", ["stopped"]),
    Wrong("a program goes on after a signal", "            child.kill()\n", "            os._exit(75)\n", ["stopped"]),
    Wrong("another log of the name is taken for the one that was done", "if not is_stamp(told.get(\"log\"), stamp(file)):", "if False:",
          ["other_log_or_report"]),
    Wrong("the end of a log is not looked at", 'END = 4096', 'END = 0', ["other_log_or_report"]),
    Wrong("the time of a log is not looked at", "return times[0] == times[1] and ", "return ", ["other_log_or_report"]),
    Wrong("a time in whole seconds is another one", "if any(it % 10**9 == 0 for it in times):", "if False:", ["other_log_or_report"]),
    Wrong("a report that is gone is done", '    except OSError:\n        return "there is no report"', '    except OSError:\n        return None',
          ["other_log_or_report"]),
    Wrong("a report of another length is done", 'if os.fstat(file.fileno()).st_size != told["report"].get("size"):', "if False:",
          ["other_log_or_report"]),
    Wrong("a report that says something else is done", "if not front or any(told[key] != front[key] for key in front):", "if False:",
          ["other_log_or_report"]),
    Wrong("--verify takes no sum", 'if verify and sum_of(file) != told["report"].get("sha256"):', "if False:", ["other_log_or_report"]),
    Wrong("a program's fault is settled", 'SETTLED = STATUSES[:2]', 'SETTLED = STATUSES[:4]', ["faults"]),
    Wrong("a status of 0 without a report is done", "if front and ended.status == 0:", "if ended.status == 0:", ["faults"]),
    Wrong("a report with another status is done", "if front and ended.status == 0:", "if front:", ["faults"]),
    Wrong("a program that says much is waited for without end", "            while child.stderr.read(4096):\n                pass\n", "",
          ["faults"]),
    Wrong("one fault ends all", "                if error.errno in OF_ALL:\n                    raise\n", "                raise\n", ["folders"]),
    Wrong("the report of a log that was there before stays", 'os.unlink(f"{place}.report")', "pass", ["done_is_skipped"]),
    Wrong("a log that is gone takes its report along", 'if told["status"] == "unread" and before and before["status"] == "done":', "if False:",
          ["unread"]),
    Wrong("a log that is written to meanwhile is done", "    if is_changed:\n", "    if False:\n", ["written_to"]),
    Wrong("a pipe is waited for", "os.O_RDONLY | os.O_NONBLOCK | os.O_CLOEXEC", "os.O_RDONLY | os.O_CLOEXEC", ["unread"]),
    Wrong("a name leads out of ROOT", 'any(part in ("", ".", "..") for part in name.split("/"))', "False", ["bad_names"]),
    Wrong("a list is read as far as it is good", "names = [check_name(line.rstrip(\"\\n\")) for line in file if line != \"\\n\"]",
          "names = [line.rstrip(\"\\n\") for line in file if \"..\" not in line and line[0] != \"/\"]", ["bad_names"]),
    Wrong("a name of two lines is listed as two", 'elif "\\n" in name:', "elif False:", ["bad_names"]),
    Wrong("a link to a folder is followed", "if entry.is_dir(follow_symlinks=False):", "if entry.is_dir():", ["below"]),
    Wrong("parts are counted from 0", "found.names[index - 1::count]", "found.names[index::count]", ["parts"]),
    Wrong("the smallest come first", "sorted((-size, name)", "sorted((size, name)", ["parts"]),
    Wrong("damage needs nobody", 'CALM = ("whole", "cut")', 'CALM = ("whole", "cut", "chain", "length", "form")', ["damage"]),
    Wrong("no log needs nobody", 'return row["status"] == "refused" or ', "return ", ["no_log"]),
    Wrong("--clean takes what is in use", "        fcntl.flock(fd, fcntl.LOCK_EX | fcntl.LOCK_NB)\n        if has_name(fd, path):",
          "        if has_name(fd, path):", ["cleaning"]),
    Wrong("the clock of the day tells how long it took", "time.monotonic() - clock", "time.time() - clock", ["clock"]),
    Wrong("a program that does not run is one", "    if done.returncode:\n", "    if False:\n", ["no_program"]),
    Wrong("two versions are told as one", "    if len(programs) > 1:\n", "    if len(programs) > 2:\n", ["two_versions"]),
    Wrong("OUT may stand in ROOT", "        if out.startswith(root):\n", "        if False:\n", ["folders"]),
    Wrong("a line of another shape is a line", "is_line = all(isinstance(told.get(key), kind) for key, kind in REPORTED.items())", "pass",
          ["bad_lines"]),
    Wrong("progress goes into a file", "self.is_on = os.isatty(2)", "self.is_on = True", ["progress"]),
    Wrong("a full device is no fault", '        raise Unwritten(f"standard output: {error.strerror}") from None', "        pass", ["unwritten"]),
]
# The last number of its last line: what failed.
FAILED = re.compile(r"(\d+) passed, (\d+) failed")


def end_all(folder: str) -> None:
    """Ends each process that was begun with a name in the folder, whatever session it has."""
    for pid in filter(str.isdigit, os.listdir("/proc")):
        with suppress(OSError):
            with open(f"/proc/{pid}/cmdline", "rb") as words:
                is_of_it = os.fsencode(f"{folder}/") in words.read()
            if is_of_it:
                os.kill(int(pid), signal.SIGKILL)


def is_found(rqlog: str, program: str, parts: List[str]) -> bool:
    """Whether the parts count a failure. A wrong version may leave what goes on without end: all that was begun is ended."""
    words = [sys.executable, HERE, "many", "--write", rqlog, "--program", program, *parts]
    pipes = {"stdout": subprocess.PIPE, "stderr": subprocess.DEVNULL, "universal_newlines": True, "start_new_session": True}
    with subprocess.Popen(words, env={**os.environ, "TMPDIR": os.path.dirname(program)}, **pipes) as tests:
        try:
            out = tests.stdout.read()
        finally:
            with suppress(ProcessLookupError):
                os.killpg(tests.pid, signal.SIGKILL)
            end_all(os.path.dirname(program))
    counted = FAILED.fullmatch(out.rstrip("\n").rsplit("\n", 1)[-1])
    return counted is not None and int(counted[2]) > 0


def try_one(rqlog: str, text: str, wrong: Wrong, folder: str) -> bool:
    """Whether the wrong version is found, of a copy in the folder."""
    copy = os.path.join(folder, "rq-many")
    with open(copy, "w", encoding="utf-8") as file:
        file.write(text.replace(wrong.old, wrong.new))
    os.chmod(copy, 0o755)
    return is_found(rqlog, copy, wrong.parts)


def try_some(rqlog: str, program: str, some: List[Wrong]) -> None:
    """Tries some of the wrong versions; all of them still are versions of the program."""
    with open(program, encoding="utf-8") as file:
        text = file.read()
    for wrong in WRONG:
        check(f"{wrong.sin}: its text stands once", text.count(wrong.old), 1)
    with tempfile.TemporaryDirectory(prefix="rq-many-wrong-") as folder, ThreadPoolExecutor(len(os.sched_getaffinity(0))) as pool:
        begun = []
        for at, wrong in enumerate(some):
            place = os.path.join(folder, str(at))
            os.mkdir(place)
            begun.append(pool.submit(try_one, rqlog, text, wrong, place))
        for wrong, found in zip(some, begun):
            check(f"found: {wrong.sin}", found.result(), True)


def takes(line: argparse.ArgumentParser) -> None:
    line.add_argument("--program", default=os.path.join(TOP, "rq-many"))
    line.add_argument("--wrong", action="store_true")
    line.add_argument("--draw", type=int, default=len(WRONG), help="of the wrong versions so many, by the sum of the clone's files")
    line.add_argument("parts", nargs="*", metavar="PART")


def main(options: argparse.Namespace) -> None:
    known = {it.__name__: it for it in PARTS}
    Room.rqlog, Room.program = trying.RQLOG or program_of("rqlog"), os.path.abspath(options.program)
    if options.wrong:
        try_some(Room.rqlog, Room.program, drawn(WRONG, options.draw))
    else:
        for name in options.parts or known:
            try_part(known[name])
