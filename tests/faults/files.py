"""Quick. Ends `rq make`, `rq close`, `rq upgrade`, `rqlook page`, `rqlog close`, `new` and `carry` at every place where a file can fail, and
counts what they leave otherwise than they must. What is appended to in place, folders.py tries.

The file that is made must be there as it was before, or whole and new; new wherever the program says that all went well, with
the mode that it had and, for root, its owner and group, and beside it nothing may be left. Only a run that was killed may leave
the file that it was writing, `LOG.rq0`, which others may not read who may not read the old one, and then the next run must do
its work all the same; but `new` and `carry` never make a file that is there. A symbolic link stays one, also if it named nothing. No call on a file
that is met is wrong, too. What passes is a run that left all as it must be.
"""
from __future__ import annotations
import argparse, os, resource, shutil, signal, stat, subprocess, sys
from typing import NamedTuple

import trying
from trying import EXAMPLES, NOBODY, RQ, RQLOG, RQLOOK, Ended, check, content, done, has_shim, run, sweep

# The bytes of the last frame of the log of `checkpoint.script`, a COMMIT.
COMMIT_FRAME = 45
OLD_MODE = 0o640
OWN_MODE = 0o600

class Work(NamedTuple):
    """A command with `{log}` for the file that it makes, and what it makes."""
    name: str
    words: list[str]
    new: bytes
    # Whether it is refused if the file is there.
    is_once: bool = False


def told(case: str, what: str) -> None:
    check(case, what, "as it must be")


class Room:
    """A folder with the file that is to be made, or without it, and perhaps a symbolic link to it."""

    def __init__(self, program: str, folder: str, work: Work, old: bytes | None, name: str):
        self.program, self.work, self.old, self.name = program, work, old, name
        self.folder = os.path.join(folder, "room")
        self.log = os.path.join(self.folder, "log")
        self.case = f"{work.name}, {'a file' if old is not None else 'no file'} before, by {name}"

    def anew(self) -> None:
        if os.path.isdir(self.folder):
            os.chmod(self.folder, 0o755)
            shutil.rmtree(self.folder)
        os.mkdir(self.folder)
        if self.old is not None:
            with open(self.log, "wb") as file:
                file.write(self.old)
            if os.geteuid() == 0:
                os.chown(self.log, NOBODY, NOBODY)
            os.chmod(self.log, OLD_MODE)
        if self.name != "log":
            os.symlink("log", os.path.join(self.folder, self.name))

    def run(self, **options: object) -> int:
        words = [word.format(log=os.path.join(self.folder, self.name)) for word in self.work.words]
        return done(self.program, *words, **options)[0]

    def look(self, what: str, status: int, left: set[str] = set()) -> None:
        """What stands in the folder after a run that ended with this status."""
        case, before = f"{self.case}, {what}", trying.failed
        has, new = content(self.log), self.work.new
        if has not in (self.old, new):
            told(case, f"the file has {len(has or b'')} bytes, neither the {len(self.old or b'')} old ones nor the {len(new)} new ones")
        if status == 0 and has != new:
            told(case, "status 0, and the file is not the new one")
        if status not in (0, 3, -signal.SIGKILL):
            told(case, f"status {status}")
        if self.old is not None and has is not None and stat.S_IMODE(os.stat(self.log).st_mode) != OLD_MODE:
            told(case, "another mode")
        others = set(os.listdir(self.folder)) - {"log", self.name} - left
        if others:
            told(case, f"left in the folder: {sorted(others)}")
        for name in left & set(os.listdir(self.folder)):
            self.look_at_left(case, os.path.join(self.folder, name))
        if self.name != "log" and not os.path.islink(os.path.join(self.folder, self.name)):
            told(case, "the symbolic link is gone")
        trying.passed += trying.failed == before

    def look_at_left(self, case: str, path: str) -> None:
        """A file that a killed run was writing is its owner's alone, until it is given to the owner of the old one."""
        found = os.stat(path)
        mode = stat.S_IMODE(found.st_mode)
        given = os.geteuid() != 0 or (found.st_uid, found.st_gid) == (NOBODY, NOBODY)
        if self.old is not None and mode != OWN_MODE and not (mode == OLD_MODE and given):
            told(case, f"{os.path.basename(path)} has the mode {mode:o}")

    def whole(self) -> None:
        """A run that nothing disturbs."""
        self.anew()
        status = self.run()
        self.look("undisturbed", status)
        if status != 0:
            sys.exit(f"{self.case}: ends with {status}")
        found = os.stat(self.log)
        if self.old is not None and os.geteuid() == 0 and (found.st_uid, found.st_gid) != (NOBODY, NOBODY):
            told(self.case, "another owner or group")

    def short_files(self) -> int:
        """A limit on the size of files, at every eleventh byte of the log."""
        for limit in range(0, len(self.work.new) + 11, 11):

            def small() -> None:
                signal.signal(signal.SIGXFSZ, signal.SIG_IGN)
                resource.setrlimit(resource.RLIMIT_FSIZE, (limit, limit))

            self.anew()
            status = self.run(preexec_fn=small)
            self.look(f"files of {limit} bytes", status)
            if (status == 0) != (len(self.work.new) <= limit):
                told(f"{self.case}, files of {limit} bytes", f"status {status}")
        return len(self.work.new) // 11 + 1

    def faults(self, how: str) -> int:
        """Each call that has to do with files fails in turn, or is the last one before the process is killed."""
        def anew(**options: object) -> Ended:
            self.anew()
            return self.run(**options), b"", b""

        number = 0
        for number, (status, _, _) in sweep(sort="call", how=how, by=anew):
            what = f"call {number} {how}"
            self.look(what, status, {"log.rq0"} if how == "kills" else set())
            if how == "kills":
                if status != -signal.SIGKILL:
                    told(f"{self.case}, {what}", f"status {status}")
                want = 3 if self.work.is_once and os.path.exists(self.log) else 0
                again = self.run()
                self.look(what + ", and again", again, {"log.rq0"})
                if again != want:
                    told(f"{self.case}, {what}", f"the next run ends with {again}")
        return number

    def forbidden(self) -> int:
        """A folder in which no file may be made."""
        self.anew()

        def as_nobody() -> None:
            if os.geteuid() == 0:
                os.setgroups([])
                os.setgid(NOBODY)
                os.setuid(NOBODY)

        os.chmod(self.folder, 0o555)
        status = self.run(preexec_fn=as_nobody)
        self.look("a folder without permission", status)
        if status != 3:
            told(f"{self.case}, a folder without permission", f"status {status}")
        os.chmod(self.folder, 0o755)
        return 1


def made(program: str, words: list[str], path: str) -> bytes:
    """What a command puts into a file."""
    subprocess.run([program, *(word.format(log=path) for word in words)], check=True, stdout=subprocess.DEVNULL)
    new = content(path)
    os.remove(path)
    return new


def rooms(folder: str) -> list[Room]:
    """Each command, over a file and over none, by its name and by a link; what may not be there, over none alone."""
    script = os.path.join(EXAMPLES, "error-queue.script")
    opened, out = os.path.join(folder, "open.log"), os.path.join(folder, "made.log")
    log = made(RQ, ["make", os.path.join(EXAMPLES, "checkpoint.script"), "{log}"], out)[:-COMMIT_FRAME]
    with open(opened, "wb") as file:
        file.write(log)
    lines = [["make", script, "{log}"], ["close", opened, "{log}", "2"], ["upgrade", opened, "{log}", "2"]]
    works = [(RQ, Work(line[0], line, made(RQ, line, out))) for line in lines]
    again = [(its, Work(f"{work.name} over itself", [work.name, "{log}", "{log}", "2"], work.new)) for its, work in works[1:]]
    page, old = ["page", "--force", opened, "{log}"], b"the file of before\n" * 200
    works.append((RQLOOK, Work("page", page, made(RQLOOK, page, out))))
    close, carry = ["close", "--force", opened, "{log}", "2"], ["carry", "--workers", "2", opened, "{log}"]
    works.append((RQLOG, Work("rqlog close", close, made(RQLOG, close, out))))
    again.append((RQLOG, Work("rqlog close over itself", ["close", "{log}", "{log}", "2"], works[-1][1].new)))
    found = [Room(RQLOG, folder, Work(f"rqlog {it[0]}", it, made(RQLOG, it, out), True), None, "log") for it in (["new", "{log}"], carry)]
    found += [Room(its, folder, work, before, name) for its, work in works for before in (old, None) for name in ("log", "link")]
    return found + [Room(its, folder, work, log, name) for its, work in again for name in ("log", "link")]


def main(options: argparse.Namespace) -> None:
    if not has_shim("to let calls on files fail"):
        return
    os.umask(0o022)
    for room in rooms(options.folder):
        room.whole()
        refused = room.short_files() + room.forbidden()
        fails, kills = room.faults("fails"), room.faults("kills")
        if not fails or not kills:
            told(room.case, "no call on a file was met: is it the built program itself?")
        print(f"{room.case}: {refused} limits, {fails} calls that fail, {kills} kills", flush=True)
    full = run("make", os.path.join(EXAMPLES, "error-queue.script"), "/dev/full")
    if full != (3, b"", b"rq: write fault\n"):
        told("/dev/full", f"status {full[0]}")
