#!/usr/bin/env python3
"""Shared. Stands in for `rqlog serve`: the model as a process. `python3 tests/serve/standin.py [serve] [--create] [--carry-at BYTES] LOG`. It is what clients and
tests are tried with where no program is, and what wrong programs are made of."""
from __future__ import annotations
import argparse, errno, fcntl, os, stat, sys

HERE = os.path.dirname(os.path.abspath(__file__))
if __name__ == "__main__":
    sys.path[:0] = [HERE, *(os.path.join(os.path.dirname(HERE), it) for it in ("", "others", "live"))]

from frames import CARRIED_AT, HEADER, header_of  # noqa: E402
from model import CARRY_AT, LONGEST_LINE, WINDOW, Answer, Model, Refusal, Start  # noqa: E402

# Why a process ends.
DAMAGE, FILES, MEMORY = 1, 3, 4
# So many bytes of a new log, to the length of its frame, are on the disk before any other: a start then knows what a crash left of it.
BEGUN = CARRIED_AT + 4
# So much is read at once.
PIECE = 65_536


class Ends(Exception):
    """The process ends: its status, and what it says of it."""


def put_whole(path: str, content: bytes) -> None:
    """A file that is there whole, and synced, or not at all."""
    folder = os.path.dirname(os.path.abspath(path))
    made = f"{path}.made"
    file = os.open(made, os.O_WRONLY | os.O_CREAT | os.O_TRUNC, 0o666)
    write_all(file, content)
    os.fsync(file)
    os.close(file)
    try:
        os.link(made, path)
    finally:
        os.unlink(made)
    sync_names(folder)


def sync_names(folder: str) -> None:
    names = os.open(folder, os.O_RDONLY | os.O_DIRECTORY)
    try:
        os.fsync(names)
    finally:
        os.close(names)


def write_all(file: int, content: bytes) -> None:
    while content:
        content = content[os.write(file, content):]


def is_left(path: str, new: bytes) -> bool:
    """Whether a crash can have left a file of the new log: nothing of it yet, or its header with at most one frame behind it."""
    with open(path, "rb") as file:
        begins, size = file.read(BEGUN), os.fstat(file.fileno()).st_size
    length = int.from_bytes(begins[CARRIED_AT:], "big")
    is_small = size <= BEGUN or not length or size <= BEGUN + length + 32
    return is_small and (new.startswith(begins[:HEADER]) or size <= BEGUN and not any(begins))


class StandIn:
    """A log that is held, and the lines that are asked of it."""

    # Whether all its lives go on in new files: what is wrong is hardly seen in others.
    carries = False

    def __init__(self, path: str, creates: bool, carry_at: int = CARRY_AT) -> None:
        self.path, self.carry_at = path, carry_at
        if creates and not os.path.lexists(path):
            put_whole(path, header_of(2))
        self.file = os.open(path, os.O_RDWR)
        try:
            fcntl.flock(self.file, fcntl.LOCK_EX | fcntl.LOCK_NB)
        except BlockingIOError:
            raise Ends(FILES, "another program holds the log") from None
        self.real = os.path.realpath(path)
        self.model, self.written, self.synced = self.opened(), 0, 0
        self.model.put_on = self.put_on

    # --- the file --------------------------------------------------------------------------------------------------

    def content(self) -> bytes:
        found = bytearray()
        while piece := os.read(self.file, 1 << 20):
            found += piece
        return bytes(found)

    def opened(self) -> Model:
        """Makes the log whole, and says so once that is safe."""
        self.start = Start(self.content())
        if self.start.model is None:
            raise Ends(DAMAGE, f"its front ends by {self.start.why}: no crash left this")
        self.keep()
        self.cut()
        self.secure()
        self.keep_name()
        return self.start.model.carries_at(self.carry_at)

    def keep(self) -> None:
        """Keeps what a crash left, if it is more than the beginning of a frame."""
        kept, beside = self.start.kept(), f"{self.path}.cut-{len(self.start.front)}"
        if kept and not os.path.lexists(beside):
            put_whole(beside, kept)

    def cut(self) -> None:
        if self.start.cut:
            os.ftruncate(self.file, len(self.start.front))
            os.fsync(self.file)

    def secure(self) -> None:
        """Writes the end of the front again in its place, since after a failed sync the disk may not have it; then the ABORTs."""
        front, at = self.start.front, max(0, len(self.start.front) - WINDOW)
        os.lseek(self.file, at, os.SEEK_SET)
        write_all(self.file, front[at:])
        os.fdatasync(self.file)
        if len(self.start.model.log) > len(front):
            write_all(self.file, bytes(self.start.model.log[len(front):]))
            os.fdatasync(self.file)

    def write(self) -> None:
        """Writes what is pending, and never leaves more than the window unsynced."""
        while self.written < len(self.model.log):
            if self.written - self.synced == WINDOW:
                self.sync()
            piece = bytes(self.model.log[self.written:self.synced + WINDOW])
            self.written += os.write(self.file, piece)

    def sync(self) -> None:
        os.fdatasync(self.file)
        self.synced = self.written

    # --- a new log -------------------------------------------------------------------------------------------------

    def put_on(self, records: int, new: bytes) -> None:
        """Goes on in a new file. All before is safe then. If it can't be made, it goes on in the old one."""
        self.settle_old()
        made, kept = f"{self.real}.next", f"{self.real}.{records}"
        try:
            file = self.made_next(made, kept, new)
        except OSError as fault:
            print(f"rqlog: {made}: {fault.strerror}", file=sys.stderr)
            raise Refusal("carry", "the file of the new log could not be made") from None
        self.sync_names()
        os.close(self.file)
        self.file, self.written, self.synced = file, len(new), len(new)

    def settle_old(self) -> None:
        self.write()
        self.sync()

    def made_next(self, made: str, kept: str, new: bytes) -> int:
        """The file of the new log, which has the log's name; the old one has another."""
        self.expect_ours(self.real)
        if os.path.lexists(kept):
            self.expect_ours(kept)
        self.remove_left(made, new)
        file = os.open(made, os.O_RDWR | os.O_CREAT | os.O_EXCL, 0o600)
        try:
            fcntl.flock(file, fcntl.LOCK_EX | fcntl.LOCK_NB)
            self.fill(file, new)
            os.fchmod(file, os.fstat(self.file).st_mode & 0o777)
            self.name_old(kept)
            try:
                os.rename(made, self.real)
            except OSError:
                os.unlink(kept)
                raise
        except OSError:
            os.unlink(made)
            os.close(file)
            raise
        return file

    def fill(self, file: int, new: bytes) -> None:
        write_all(file, new[:BEGUN])
        os.fsync(file)
        write_all(file, new[BEGUN:])
        os.fsync(file)

    def name_old(self, kept: str) -> None:
        """Gives the old log the name that it keeps."""
        if not os.path.lexists(kept):
            os.link(self.real, kept)
        self.sync_names()

    def sync_names(self) -> None:
        sync_names(os.path.dirname(self.real))

    def keep_name(self) -> None:
        """A process that was killed may have given the log its name, and not told the disk; or another name, before a new log had its own."""
        kept = f"{self.real}.{self.start.model.machine.place - len(self.start.aborted)}"
        if os.path.lexists(kept) and os.path.samestat(os.lstat(kept), os.fstat(self.file)):
            os.unlink(kept)
        self.sync_names()

    def expect_ours(self, name: str) -> None:
        if not os.path.samestat(os.lstat(name), os.fstat(self.file)):
            raise FileExistsError(errno.EEXIST, "somebody else put another file there")

    def remove_left(self, made: str, new: bytes) -> None:
        """Removes what a crash can have left of a new log."""
        if not os.path.lexists(made):
            return
        found = os.lstat(made)
        is_log = os.path.samestat(found, os.fstat(self.file))
        if not is_log and (not stat.S_ISREG(found.st_mode) or not is_left(made, new)):
            raise FileExistsError(errno.EEXIST, "something else stands there")
        os.unlink(made)

    # --- the lines -------------------------------------------------------------------------------------------------

    def say(self, text: str) -> None:
        try:
            write_all(1, text.encode())
        except OSError:
            raise Ends(FILES, "nobody reads the answers") from None

    def serve(self) -> None:
        """Does lines as they come, to the end of input or a `close`."""
        self.written = self.synced = len(self.model.log)
        self.say(self.start.greeting() + "\n")
        held = b""
        while not self.model.is_closed and (piece := os.read(0, PIECE)):
            *lines, held = (held + piece).split(b"\n")
            # Of a line that is too long already, no more is kept than shows that.
            held = held[:LONGEST_LINE + 1]
            self.do(lines)
        if not self.model.is_closed:
            self.model.close()
            self.settle([])

    def do(self, lines: list[bytes]) -> None:
        """Does lines, and answers them all once what they say is true; before a log is carried on by itself those so far."""
        answers: list[Answer] = []
        try:
            for line in lines:
                answers.append(self.model.answered(line))
                if self.model.is_due():
                    self.tell(answers)
                    answers = []
                    self.model.carry_by_itself()
                if self.model.is_closed:
                    break
        except OSError as fault:
            self.spend(answers, fault)
        self.tell(answers)

    def tell(self, answers: list[Answer]) -> None:
        self.settle(answers)
        self.say("".join(f"{it.text}\n" for it in answers))

    def settle(self, answers: list[Answer]) -> None:
        """Writes what was done, so that it stands if the process dies; and syncs, if an answer says that something is safe. If it can't, those
        answers are given that are true, and it ends."""
        true: list[Answer] = []
        try:
            self.write()
            true = answers[:next((at for at, it in enumerate(answers) if it.is_safe), len(answers))]
            if self.model.is_closed or len(true) < len(answers):
                self.sync()
        except OSError as fault:
            self.spend(true, fault, bool(answers))

    def spend(self, true: list[Answer], fault: OSError, says_so: bool = True) -> None:
        """It can't go on: gives the answers that are true, and ends."""
        self.take_back()
        self.say("".join(f"{it.text}\n" for it in true) + f"spent: {fault.strerror}\n" * says_so)
        raise Ends(FILES, str(fault)) from None

    def take_back(self) -> None:
        try:
            os.ftruncate(self.file, self.synced)
        except OSError:
            pass


def main(made: type[StandIn], words: list[str]) -> int:
    line = argparse.ArgumentParser("serve")
    line.add_argument("--create", action="store_true")
    line.add_argument("--carry-at", type=int, default=CARRY_AT)
    line.add_argument("LOG")
    it = line.parse_args(words[1:] if words[:1] == ["serve"] else words)
    try:
        made(it.LOG, it.create, it.carry_at).serve()
    except Ends as ends:
        print(f"rqlog: {ends.args[1]}", file=sys.stderr)
        return ends.args[0]
    except OSError as fault:
        print(f"rqlog: {it.LOG}: {fault.strerror}", file=sys.stderr)
        return FILES
    except MemoryError:
        return MEMORY
    return 0


if __name__ == "__main__":
    sys.exit(main(StandIn, sys.argv[1:]))
