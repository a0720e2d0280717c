"""Quick. What rq and rqlog leave of files: in folders that others may write, where links, folders, pipes and devices stand, if a file can't
be opened or written, if a call on it fails or is the last, and if another program writes too."""
from __future__ import annotations
import fcntl, os, re, resource, shutil, signal, stat, subprocess, threading, time
from collections.abc import Callable
from itertools import product
from typing import NamedTuple

from frames import START_BODIES, begin, chained, commit, enqueue, header_of
from ordering import CUT
from trying import (DONE, MORE, NOBODY, RQ, RQLOG, START, WRITE_FAULT, Ended, check, content, faulty, has_shim, log_of, plain, put, rqlog, run,
                    run_told, says, sweep)

TRIES = 100
# The calls that end the work on a file: it is synced, it gets its name, its folder is synced.
CALLS = "snd"
OLD, SECRET = b"the file of before\n", b"another file\n"


def log_of_bytes(kib: int, name: str) -> tuple[str, bytes]:
    """A closed log of about so many KiB, and its bytes."""
    element = b"enqueue 1 0 5 - 0 " + b"5a" * 65534 + b"\n"
    log = log_of(b"define jobs 0 -\nbegin 1\n" + element * (kib // 64) + b"commit 1\n", name)
    return log, content(log) or b""


def put_links(told: int) -> None:
    """As nobody, in a folder of his: puts a link under the name that is written under, whenever a file has it."""
    os.setgroups([])
    os.setgid(NOBODY)
    os.setuid(NOBODY)
    os.symlink("../secret", "link")
    while True:
        try:
            if stat.S_ISREG(os.lstat("out.rq0").st_mode):
                os.rename("link", "out.rq0")
                os.write(told, b"!")
                os.symlink("../secret", "link")
        except FileNotFoundError:
            pass


def attacker(folder: str) -> tuple[int, int]:
    """The process that does so there, and the descriptor on which it tells each time."""
    seen, told = os.pipe()
    child = os.fork()
    if child == 0:
        try:
            os.chdir(folder)
            put_links(told)
        finally:
            os._exit(1)
    os.close(told)
    return child, seen


def does_no_harm(making: Callable[[], bool]) -> bool:
    """Whether what makes `out` in that folder leaves the other file alone, and says of what it makes what is so."""
    for name in ("theirs/out", "theirs/out.rq0"):
        if os.path.lexists(name):
            os.remove(name)
    told, secret = making(), os.stat("secret")
    return told and (secret.st_uid, stat.S_IMODE(secret.st_mode), content("secret")) == (0, 0o600, SECRET)


def attack(what: str, tries: int, making: Callable[[], bool]) -> None:
    """Root makes a file in a folder of somebody else, who puts a link in the place of what is written."""
    if os.geteuid() != 0:
        print("not root: nobody else's folder is tried")
        return
    os.mkdir("theirs")
    os.chown("theirs", NOBODY, NOBODY)
    os.chmod(put("secret", SECRET), 0o600)
    child, seen = attacker("theirs")
    try:
        withstood = sum(does_no_harm(making) for _ in range(tries))
    finally:
        os.kill(child, signal.SIGKILL)
        os.waitpid(child, 0)
    with os.fdopen(seen, "rb") as file:
        met = len(file.read())
    check(f"{what} into a folder where somebody puts links that do no harm", withstood, tries)
    if met == 0:
        print("whoever puts links was too slow each time: this says nothing")


def is_made(bytes_: bytes) -> bool:
    return content("theirs/out") == bytes_ and not os.path.islink("theirs/out")


def attacks_on_rq() -> None:
    """A log is closed over a file in such a folder."""
    log, closed = log_of_bytes(1024, "attacked")

    def making() -> bool:
        os.chown(put("theirs/out", OLD), NOBODY, NOBODY)
        ended = run("close", log, "theirs/out", 1)
        return ended == WRITE_FAULT or ended == DONE and is_made(closed)

    attack("closes", TRIES, making)


def one_script() -> str:
    return put("one.script", START)


def one_log() -> str:
    run("make", one_script(), "one.log")
    return "one.log"


def put_anew(old: bytes | None) -> None:
    """An empty folder but for the old file, if there is one."""
    shutil.rmtree("judged", ignore_errors=True)
    os.mkdir("judged")
    if old is not None:
        put("judged/out", old)


def left() -> dict[str, bytes | None]:
    return {name: content(f"judged/{name}") for name in os.listdir("judged")}


def ending(*words: object, **asked: object) -> tuple[Ended, str]:
    """How a line ends, and its calls that end the work on a file."""
    ended, told = run_told(*words, tells="order", **asked)
    return ended, "".join(it[0] for it in told.decode().splitlines() if it[0] in CALLS)


def calls() -> None:
    """What is done with a file before it is told to be made: if one of it fails, or if the file is exchanged."""
    if not has_shim("to see the calls that end the work on a file"):
        return
    log, closed = log_of_bytes(64, "closed")
    for line in [["make", "closed.script", "judged/out"], ["close", log, "judged/out", 1], ["upgrade", log, "judged/out", 1]]:
        for old in (None, OLD):
            put_anew(old)
            check(f"the calls of {line[0]}", ending(*line), (DONE, CALLS))
            new = content("judged/out")
            kept = {} if old is None else {"out": old}
            for at, letter in enumerate(CALLS):
                put_anew(old)
                ended = ending(*line, fails=letter), left()
                want = (WRITE_FAULT, CALLS[:at + 1]), {"out": new} if letter == "d" else kept
                check(f"{line[0]} if call {letter} fails", ended, want)
    exchanged(log)


def exchanged(log: str) -> None:
    """Somebody exchanges the file while it is written, or once it has its name: no more than that is his, and it is told."""
    for at, name, want in [("s", "out.rq0", {"out": OLD, "out.rq0": SECRET}), ("N", "out", {"out": SECRET})]:
        put_anew(OLD)
        ended, _ = ending("close", log, "judged/out", 1, at=at, does="replaces", more=put("theirs.file", SECRET), log=f"judged/{name}")
        check(f"close if {name} is exchanged", (ended, left()), (WRITE_FAULT, want))


def modes() -> None:
    """A new file has the mode that the umask leaves, and one that is made again its old one, but for what lets a program
    run as its owner."""
    for umask in (0o000, 0o022, 0o027, 0o077):
        put_anew(None)
        ended = run("make", one_script(), "judged/out", preexec_fn=lambda: os.umask(umask))
        mode = stat.S_IMODE(os.stat("judged/out").st_mode)
        check(f"a file that is made with the umask {umask:o}", (ended, mode), (DONE, 0o666 & ~umask))
    for old, new in ((0o604, 0o604), (0o6755, 0o755)):
        os.chmod("judged/out", old)
        ended = run("make", one_script(), "judged/out")
        mode = stat.S_IMODE(os.stat("judged/out").st_mode)
        check(f"a file of the mode {old:o} that is made again", (ended, mode), (DONE, new))


def die_in_writing() -> None:
    """Lets a process write no file of more than 100 bytes: it is killed when it writes on, and leaves no core file. Its files
    get the modes that it asks for, since nothing is masked."""
    os.umask(0)
    resource.setrlimit(resource.RLIMIT_CORE, (0, 0))
    resource.setrlimit(resource.RLIMIT_FSIZE, (100, 100))


def modes_meanwhile() -> None:
    """A file that is to take another's place may be read by nobody else while it is written, whoever may read that. A new
    one has its own mode from the beginning. A run that is killed midway shows both."""
    log, _ = log_of_bytes(64, "written")
    killed = -signal.SIGXFSZ, b"", b""
    for line in [["make", "written.script", "judged/out"], ["close", log, "judged/out", 1], ["upgrade", log, "judged/out", 1]]:
        for old, want in ((None, 0o666), (0o604, 0o600), (0o666, 0o600)):
            put_anew(None if old is None else OLD)
            if old is not None:
                os.chmod("judged/out", old)
            ended = run(*line, preexec_fn=die_in_writing)
            found = {name: stat.S_IMODE(os.stat(f"judged/{name}").st_mode) for name in os.listdir("judged")}
            kept = {} if old is None else {"out": old}
            told = "a new file" if old is None else f"one of the mode {old:o}"
            check(f"the modes while {line[0]} writes {told}", (ended, found), (killed, {**kept, "out.rq0": want}))


def taken_names() -> None:
    """What stands under a name beside a file stays, and another name is used; of a hundred none is left."""
    put_anew(None)
    for number in range(100):
        put(f"judged/out.rq{number}", b"%d" % number)
        if number in (0, 1, 98):
            check(f"make beside {number + 1} files", run("make", one_script(), "judged/out"), DONE)
            os.remove("judged/out")
    os.symlink("nowhere", "judged/other.rq0")
    check("make beside a hundred files", run("make", one_script(), "judged/out"), WRITE_FAULT)
    check("make beside a link", run("make", one_script(), "judged/other"), DONE)
    want = {f"out.rq{number}": b"%d" % number for number in range(100)}
    check("what stands beside files", left(), {**want, "other": content(one_log()), "other.rq0": None})


def by_process_paths() -> None:
    """A path through `/proc` that leads elsewhere is that of a file, and one that leads to what is open is not."""
    one = content(one_log()) or b""
    put_anew(OLD)
    here = os.path.realpath("judged")
    os.symlink("/proc/self/fd", "judged/open")
    for path in (f"/proc/..{here}/out", f"/proc/self/root{here}/out", "/proc/self/cwd/judged/out"):
        ended = [run("close", one_log(), path, 1) for _ in range(2)], content("judged/out")
        check(f"close twice into {path}", ended, ([DONE, DONE], one))
    os.remove("judged/out")
    for path in ("/dev/fd/{0}", "/proc/self/fd/{0}", "judged/open/{0}"):
        held = os.open(put("held", OLD), os.O_WRONLY | os.O_APPEND)
        ended = run("close", one_log(), path.format(held), 1, pass_fds=[held]), content("held")
        os.close(held)
        check(f"close into {path}", ended, (DONE, OLD + one))
    check("make into what is not open", run("make", one_script(), "/dev/fd/99"), WRITE_FAULT)


def run_into_slow_pipe(*words: object) -> Ended:
    """How the program ends if its standard output does not block, and is read after a while, bit by bit."""
    seen, told = os.pipe()
    os.set_blocking(told, False)
    with subprocess.Popen([RQ, *map(str, words)], stdout=told, stderr=subprocess.PIPE) as started:
        os.close(told)
        limit = threading.Timer(60, started.kill)
        limit.start()
        time.sleep(0.2)
        with os.fdopen(seen, "rb") as file:
            first = file.read(70000)
            time.sleep(0.1)
            wrote = first + file.read()
        complaint = started.stderr.read()
        limit.cancel()
    return started.returncode, wrote, complaint


def slow_readers() -> None:
    """A report that is read slowly is whole, also if the output does not block."""
    log, _ = log_of_bytes(128, "slow")
    check("a report into a pipe that does not block", run_into_slow_pipe("restart", log, 1, 1), run("restart", log, 1, 1))


# --- rqlog --------------------------------------------------------------------------------------------------------

FRONT = re.compile(rb"front (\d+) records, \d+ of \d+ bytes, (\w+)\n")
# Lines that write, with their log, and lines that read alone.
WRITING = ["append LOG", "checkpoint LOG", "carry LOG new"]
READING = ["restart LOG", "audit LOG", "close LOG out"]
ATTACKS = 40


def asked(line: str, log: str, **options: object) -> Ended:
    """How a line ends of which this is the log, with a script on standard input."""
    return rqlog(*line.replace("LOG", log).split(), script=MORE, **options)


def is_there(new: str) -> Ended:
    """The refusal of a new log under a name that something has."""
    return says(f"{new}: it is there already: name a file that is not", 3)


def is_held(log: str) -> Ended:
    """The refusal of a log that another program writes."""
    return says(f"{log}: another program writes it: try again", 3)


def front_of(log: str) -> tuple[bytes, ...]:
    """How many records `rq restart` finds, and why the front ends."""
    return FRONT.match(run("restart", log, 1, 1)[1]).groups()


def faults() -> None:
    """Files that are not there, and what is none: nothing waits for it, and nothing is written to it."""
    os.mkdir("folder")
    os.mkfifo("pipe")
    for name, lines in {"none.log": [*WRITING, *READING], "folder": [*WRITING, *READING], "pipe": WRITING, "/dev/null": WRITING}.items():
        for line in lines:
            check(f"{line}, {name}", faulty(asked(line, name), name), True)
    log = plain("fault")
    check("no script", faulty(rqlog("append", log, "none.script"), "none.script"), True)
    for name in ("missing/new", "fault.log/new"):
        check(f"carry into {name}", faulty(rqlog("carry", log, name), name), True)
        check(f"close into {name}", faulty(rqlog("close", log, name), name), True)
    check("close into a folder", faulty(rqlog("close", log, "folder"), "folder"), True)
    check("no new file", (os.path.exists("new"), os.path.exists("out"), os.listdir("folder")), (False, False, []))


def not_over() -> None:
    """A new log takes nobody's place: no file's, and nothing's that a link leads to, no folder's, pipe's or device's."""
    log, other = plain("over"), plain("other", b"")
    before, kept = content(log), content(other)
    os.mkdir("folder")
    os.symlink("other.log", "link")
    os.symlink("nowhere", "loose")
    os.mkfifo("pipe")
    for new in (log, other, "link", "loose", "folder", "pipe", "/dev/null", "/dev/stdout"):
        ended = rqlog("carry", log, new), content(log), content(other)
        check(f"carry onto {new}", ended, (is_there(new), before, kept))
        check(f"new onto {new}", (rqlog("new", new), content(log), content(other)), (is_there(new), before, kept))
    check("what links lead to", (os.path.islink("link"), os.path.lexists("nowhere"), os.listdir("folder")), (True, False, []))
    check("what stays", sorted(it for it in os.listdir(".") if not it.endswith((".log", ".script"))), ["folder", "link", "loose", "pipe"])


def links_to_logs() -> None:
    """A symbolic link to the log is followed, and stays."""
    log = plain("real")
    os.symlink("real.log", "link.log")
    ended = rqlog("append", "link.log", script=MORE)
    check("append by a link", (ended[0], os.path.islink("link.log"), content(log)), (0, True, content(plain("whole", START + MORE))))
    os.symlink("ring.log", "ring.log")
    check("append by a ring", faulty(rqlog("append", "ring.log", script=MORE), "ring.log"), True)
    told = says("ring.log: filesystem loop or indirection limit (e.g. symlink loop)", 3)
    check("close by a ring", (rqlog("close", log, "ring.log"), os.readlink("ring.log")), (told, "ring.log"))
    check("close by a link", (rqlog("close", log, "link.log"), os.path.islink("link.log")), ((0, b"", b""), True))
    for path in ("/dev/null", "new.log"):
        check(f"close into {path}", rqlog("close", log, path), (0, b"", b""))
    check("what a device is, and what a new file", (stat.S_ISCHR(os.stat("/dev/null").st_mode), content("new.log")), (True, content(log)))
    check("what stands beside them", [it for it in os.listdir(".") if ".rq" in it], [])
    ended = rqlog("close", log, "link.log"), os.path.islink("link.log"), content(log)
    check("close over itself by a link", ended, ((0, b"", b""), True, content("whole.log")))


def read_only() -> None:
    """A log that may not be written, and a folder in which no file may be made, as nobody, whom permissions bind."""
    log = plain("kept")
    os.chmod(".", 0o755)
    os.chmod(log, 0o444)
    os.mkdir("shut", 0o555)
    program = os.path.abspath(shutil.copy(RQLOG, "rqlog"))
    nobody = {"user": NOBODY, "group": NOBODY, "extra_groups": []} if os.geteuid() == 0 else {}
    before = content(log)
    try:
        rqlog(executable=program, **nobody)
    except PermissionError:
        print("nobody may run no program here: permissions are not tried")
        return
    for line in ("append kept.log", "checkpoint kept.log"):
        check(f"{line}, read-only", (faulty(asked(line, log, executable=program, **nobody), log), content(log)), (True, before))
    for line, which in {"carry kept.log shut/new": "shut/new", "close kept.log shut/out": "shut/out"}.items():
        check(line, faulty(asked(line, log, executable=program, **nobody), which), True)
    check("what was not made", os.listdir("shut"), [])


def two_writers() -> None:
    """While another program holds the log's lock nothing is written, and it is said; to read it no lock is wanted."""
    log = plain("held")
    before = content(log)
    with open(log, "rb") as other:
        fcntl.flock(other, fcntl.LOCK_EX)
        for line in WRITING:
            check(f"{line}, held", (asked(line, log), content(log)), (is_held(log), before))
        for line in READING:
            check(f"{line}, held", asked(line, log)[0], 0)
        check("close over itself, held", (rqlog("close", log, log), content(log)), (is_held(log), before))
        fcntl.flock(other, fcntl.LOCK_SH)
        for line, want in zip(WRITING, (3, 3, 0)):
            check(f"{line}, read by another", asked(line, log)[0], want)
    check("append, free again", rqlog("append", log, script=MORE)[0], 0)
    race()


def race() -> None:
    """Many at once: each appends its own, or is told that another writes."""
    log = plain("race")
    pipes = {"stdin": subprocess.PIPE, "stdout": subprocess.DEVNULL, "stderr": subprocess.PIPE}
    units = [subprocess.Popen([RQLOG, "append", log], **pipes) for _ in range(8)]
    ends = [it.communicate(b"register 0 r%d\n" % at)[1] for at, it in enumerate(units)]
    done = sum(it.returncode == 0 for it in units)
    others = {(it.returncode, b"", end) for it, end in zip(units, ends) if it.returncode}
    check("a race", (front_of(log), others <= {is_held(log)}, done > 0), ((b"%d" % (5 + done), b"whole"), True, True))


def small_files() -> None:
    """No file may pass a length: a write past it fails, as on a full disk."""
    signal.signal(signal.SIGXFSZ, signal.SIG_IGN)
    resource.setrlimit(resource.RLIMIT_FSIZE, (700, 700))


def on_a_full_disk() -> None:
    """What was written of the frames is taken back; no new file stays."""
    log = plain("full")
    before = content(log)
    script = b"begin 2\n" + b"enqueue 2 0 5 - 0 61\n" * 20
    ended = rqlog("append", log, script=script, preexec_fn=small_files)
    told = faulty(ended, log), ended[2].endswith(b": nothing was appended\n")
    check("append on a full disk", (told, content(log)), ((True, True), before))
    big = plain("big", START + b"begin 2\n" + b"enqueue 2 0 5 - 0 61\n" * 40)
    ended = rqlog("carry", big, "big.carried", preexec_fn=small_files)
    left = [it for it in os.listdir(".") if it.startswith("big.carried")]
    check("carry on a full disk", (faulty(ended, "big.carried"), left), (True, []))


def nobody_listens() -> None:
    """What was appended or made stands there, though it can't be said."""
    log = plain("unsaid")
    whole = content(plain("whole", START + MORE))
    for line, path, want in [("append LOG", log, whole), ("carry LOG unsaid.carried", "unsaid.carried", None)]:
        with open("/dev/full", "wb") as full:
            words = [RQLOG, *line.replace("LOG", log).split()]
            done = subprocess.run(words, input=MORE, stdout=full, stderr=subprocess.PIPE)
        told = done.stderr.startswith(b"rqlog: standard output: "), done.stderr.endswith(b": it is done all the same\n")
        check(f"{line} > /dev/full", (done.returncode, told), (3, (True, True)))
        check(f"{path} > /dev/full", content(path) == want if want else os.path.exists(path), True)


def killed_at_any_moment() -> None:
    """A run that is killed leaves the log as before, or with whole frames more and at most a part of one."""
    log = plain("killed")
    before, numbers = content(log), range(2, 20002)
    script = put("long.script", b"".join(b"begin %d\nenqueue %d 0 5 - 0 61\ncommit %d\n" % (n, n, n) for n in numbers))
    whole = chained(header_of(1), [*START_BODIES, *(body for n in numbers for body in (begin(n), enqueue(n, 0), commit(n)))])
    wrong = []
    for tries in range(24):
        put(log, before)
        going = subprocess.Popen([RQLOG, "append", log, script], stdout=subprocess.DEVNULL, stderr=subprocess.DEVNULL)
        time.sleep(tries * 0.012)
        going.kill()
        going.wait()
        left = content(log)
        if not whole.startswith(left) or len(left) < len(before):
            wrong.append(tries)
    check("killed at any moment", wrong, [])


class Growth(NamedTuple):
    """A line that writes behind a front, what a crash left there before, and what stands there then."""
    line: list[str]
    front: bytes
    rest: bytes
    whole: bytes

    def is_right(self, ended: Ended, left: bytes, before: bytes) -> bool:
        """Whether the log is as it was, or its front, or has a beginning of what was appended behind it."""
        if ended[0] == 0:
            return left == self.whole
        if ended[2].endswith(b"nothing was appended\n"):
            return left in (before, self.front)
        return left == before or left.startswith(self.front) and self.whole.startswith(left)

    def wrong(self, log: str, how: str) -> tuple[list[tuple[int, Ended]], int]:
        """What goes wrong, over all calls, and how many there are; the next run finds the front."""
        found, number, before = [], 0, self.front + self.rest

        def anew(*words: object, **options: object) -> Ended:
            put(log, before)
            return rqlog(*words, **options)

        for number, ended in sweep(*self.line, sort="call", how=how, by=anew):
            right = self.is_right(ended, content(log), before)
            again = rqlog("append", log)[0], front_of(log)[1]
            if not right or again != (0, b"whole"):
                found.append((number, ended))
        return found, number


def at_every_call() -> None:
    """Each call on a file fails in turn, or is the last one before the run is killed."""
    if not has_shim("to let calls on files fail"):
        return
    log = "called.log"
    put("more.script", MORE)
    opened = START + MORE.removesuffix(b"commit 2\n")
    growths = [(["append", log, "more.script"], START, MORE), (["checkpoint", log, "--close"], opened, b"abort 2\ncheckpoint\n")]
    for line, begins, goes_on in growths:
        for rest, how in product((b"\0\0", CUT), ("fails", "kills")):
            growth = Growth(line, content(plain("begins", begins)), rest, content(plain("whole", begins + goes_on)))
            found, number = growth.wrong(log, how)
            check(f"{line[0]} behind {len(rest)} bytes if a call {how}", (found, number > 5), ([], True))


def attacks_on_rqlog() -> None:
    """A log is carried on into a folder of somebody else."""
    log = plain("attacked", b"define jobs 0 -\nbegin 1\n" + (b"enqueue 1 0 5 - 0 " + b"5a" * 65534 + b"\n") * 16)
    check("carry before", rqlog("carry", log, "attacked.carried")[0], 0)
    carried = content("attacked.carried")

    def making() -> bool:
        ended = rqlog("carry", log, "theirs/out")
        return faulty(ended, "theirs/out") or ended[0] == 0 and is_made(carried)

    attack("carries", ATTACKS, making)


PARTS = [attacks_on_rq, calls, modes, modes_meanwhile, taken_names, by_process_paths, slow_readers, faults, not_over, links_to_logs, read_only]
PARTS += [two_writers, on_a_full_disk, nobody_listens, at_every_call, attacks_on_rqlog, killed_at_any_moment]
