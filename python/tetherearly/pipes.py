"""The process at the other end of two pipes: lines go there, and answers come back in their order, to whichever thread asked."""
from __future__ import annotations
import os, subprocess, tempfile, threading, time
from collections import deque
from typing import IO, Optional, Sequence

from .errors import Lost

# So many bytes of requests are unanswered at most, or one longer line: else both pipes may be full, and nothing moves.
UNANSWERED = 32_768
PIECE = 65_536
# Who waits for others looks so often, in seconds, whether the process is there.
LOOKS = 0.5


class Asked:
    """A line that was sent, until it is answered."""

    def __init__(self, size: int) -> None:
        self.size = size
        self.answer: Optional[str] = None


class Pipes:
    """A process, shared by threads. Whoever waits for an answer while nobody reads does so for all."""

    def __init__(self, words: Sequence[str]) -> None:
        self._said: IO[bytes] = tempfile.TemporaryFile()
        # A group of its own: a key that interrupts this program does not end the manager as well.
        self.process = subprocess.Popen(words, stdin=subprocess.PIPE, stdout=subprocess.PIPE, stderr=self._said, bufsize=0, start_new_session=True)
        assert self.process.stdin is not None and self.process.stdout is not None
        self._to, self._from = self.process.stdin.fileno(), self.process.stdout.fileno()
        self._state = threading.Condition()
        self._waiting: deque[Asked] = deque()
        self._unanswered = 0
        self._is_read = False
        self._fault: Optional[str] = None
        # What was read and is no whole answer yet.
        self._rest = b""
        self._lines: list[str] = []
        # How often a unit ended: what no element was free for may be free then.
        self.ended = 0

    def first_line(self) -> str:
        """The line that comes before any is asked for, or what came in place of it."""
        while b"\n" not in self._rest:
            piece = os.read(self._from, PIECE)
            if not piece:
                return self._rest.decode(errors="replace")
            self._rest += piece
        line, _, self._rest = self._rest.partition(b"\n")
        return line.decode(errors="replace")

    def said(self) -> str:
        """What it said on standard error."""
        self._said.seek(0)
        return self._said.read().decode(errors="replace").strip()

    # --- asking ------------------------------------------------------------------------------------------------------

    def ask(self, lines: Sequence[str]) -> list[str]:
        """Sends lines in one write, or in as many as the pipes need, and returns their answers."""
        asked: list[Asked] = []
        try:
            with self._state:
                while len(asked) < len(lines):
                    self._send_some(lines, asked)
                while asked and asked[-1].answer is None:
                    self._wait()
        except Lost as lost:
            lost.answers = given(asked)
            raise
        return given(asked)

    def _send_some(self, lines: Sequence[str], asked: list[Asked]) -> None:
        """Sends as many of the lines that were not sent yet as the pipes have room for."""
        at = len(asked)
        end = self._fitting(lines, at)
        if end == at:
            self._wait()
        else:
            self._send(lines[at:end], asked)

    def _fitting(self, lines: Sequence[str], at: int) -> int:
        """How far lines may be sent now; a line that is longer than all that may be unanswered goes alone."""
        size, end = self._unanswered, at
        while end < len(lines) and (size == 0 or size + len(lines[end]) + 1 <= UNANSWERED):
            size += len(lines[end]) + 1
            end += 1
        return end

    def _send(self, lines: Sequence[str], asked: list[Asked]) -> None:
        self._check()
        sent = [Asked(len(it) + 1) for it in lines]
        asked += sent
        self._waiting.extend(sent)
        self._unanswered += sum(it.size for it in sent)
        text = memoryview("".join(f"{it}\n" for it in lines).encode("ascii"))
        try:
            while text:
                text = text[os.write(self._to, text):]
        except OSError:
            # It is gone. What it said before is still to be read.
            pass
        except BaseException:
            self._fault = "a request was sent in part"
            raise

    def _check(self) -> None:
        if self._fault is not None:
            raise Lost(self._fault)

    def _wait(self) -> None:
        """Waits until more answers are there. The lock is held before and after."""
        self._check()
        if self._is_read:
            self._state.wait()
            return
        self._is_read = True
        self._state.release()
        try:
            piece: Optional[bytes] = None
            piece = os.read(self._from, PIECE)
        finally:
            self._state.acquire()
            self._is_read = False
            if piece is not None:
                self._take(piece)
            self._state.notify_all()

    def _take(self, piece: bytes) -> None:
        """Gives what was read to those that wait for it."""
        *lines, self._rest = (self._rest + piece).split(b"\n")
        for line in lines:
            self._lines.append(line.decode("ascii", "replace"))
            if len(self._lines) == lines_of(self._lines[0]):
                self._give("\n".join(self._lines))
                self._lines = []
        if not piece and self._fault is None:
            self._fault = self.said() or "the manager is gone"

    def _give(self, answer: str) -> None:
        if answer.startswith("spent: "):
            self._fault = answer
        if self._fault is None and self._waiting:
            it = self._waiting.popleft()
            it.answer = answer
            self._unanswered -= it.size

    # --- what others did ---------------------------------------------------------------------------------------------

    def unit_ended(self) -> None:
        with self._state:
            self.ended += 1
            self._state.notify_all()

    def wait_for_end_of_unit(self, since: int, seconds: float) -> None:
        """Waits until a unit ended, or so long, or until the process did."""
        until = time.monotonic() + seconds
        with self._state:
            while self.ended == since and (left := until - time.monotonic()) > 0:
                self._check()
                if self.process.poll() is not None:
                    raise Lost(self.said() or "the manager is gone")
                self._state.wait(min(left, LOOKS))

    # --- the end -----------------------------------------------------------------------------------------------------

    def end(self) -> int:
        """Closes the pipes and waits for the process; its status."""
        assert self.process.stdin is not None and self.process.stdout is not None
        with self._state:
            self.process.stdin.close()
            # Who reads comes to the end of what the process says.
            while self._is_read:
                self._state.wait()
            self.process.stdout.close()
            self._fault = self._fault or "the manager is closed"
            self._state.notify_all()
        status = self.process.wait()
        self._said.close()
        return status


def given(asked: Sequence[Asked]) -> list[str]:
    return [it.answer for it in asked if it.answer is not None]


def lines_of(first: str) -> int:
    """How many lines an answer has that begins with this one."""
    return 1 + int(first.split()[1]) if first.startswith("lines ") else 1
