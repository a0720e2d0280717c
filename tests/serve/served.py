"""Shared. A served log: the process of `rqlog serve`, its lines and its answers."""
from __future__ import annotations
import os, subprocess, tempfile
from collections.abc import Iterable

import trying

# So many bytes of requests are unanswered at most.
UNANSWERED = 32_768


class Gone(Exception):
    """The process says no more: the answers that came before."""


class Served:
    """A process that serves a log, and what it said first: nothing, if it did not greet."""

    def __init__(self, log: str, *words: str, **options: object) -> None:
        self.said = tempfile.TemporaryFile()
        self.process = subprocess.Popen([trying.RQLOG, "serve", *words, log], stdin=subprocess.PIPE, stdout=subprocess.PIPE, stderr=self.said,
                                        bufsize=0, **options)
        self.rest = b""
        self.greeting = self.line() or ""

    def line(self) -> str | None:
        """The next line of output; none at its end."""
        while b"\n" not in self.rest:
            piece = os.read(self.process.stdout.fileno(), 1 << 16)
            if not piece:
                return None
            self.rest += piece
        line, _, self.rest = self.rest.partition(b"\n")
        return line.decode("ascii", "replace")

    def answer(self) -> str | None:
        """The next answer, of several lines, too."""
        first = self.line()
        if first is None or not first.startswith("lines "):
            return first
        more = [self.line() for _ in range(int(first.split()[1]))]
        return None if None in more else "\n".join([first, *more])

    def send(self, text: bytes) -> None:
        """Writes to it, as far as it reads."""
        try:
            while text:
                text = text[os.write(self.process.stdin.fileno(), text):]
        except BrokenPipeError:
            pass

    def ask(self, lines: Iterable[str | bytes]) -> list[str]:
        """The answers of lines that are sent in one write, of at most 32,768 bytes."""
        whole = [it if isinstance(it, bytes) else it.encode() for it in lines]
        self.send(b"".join(it + b"\n" for it in whole))
        found = []
        for _ in whole:
            answer = self.answer()
            if answer is None:
                raise Gone(found)
            found.append(answer)
        return found

    def end(self) -> tuple[int, list[str], str]:
        """Ends its input: its status, the answers that still come, and what it said on standard error."""
        self.process.stdin.close()
        rest = []
        while (answer := self.answer()) is not None:
            rest.append(answer)
        return self.ended(), rest, self.errors()

    def killed(self) -> None:
        self.process.kill()
        self.process.stdin.close()
        self.ended()

    def ended(self) -> int:
        self.process.stdout.close()
        return self.process.wait(trying.HANGS)

    def errors(self) -> str:
        self.said.seek(0)
        return self.said.read().decode(errors="replace")


def first_words(answer: str) -> str:
    """A refusal and an error without their text, which must be there."""
    head, _, text = answer.partition(": ")
    is_no = head == "error" or head.startswith("refused ")
    return head if is_no and text else answer


def session_of(log: str, lines: Iterable[str | bytes], *words: str, one_by_one: bool = False) -> tuple[list[str], int]:
    """What is answered to lines, in one write or one after the other, and the status at the end of input."""
    it = Served(log, *words)
    lines = list(lines)
    answers = [it.greeting]
    for some in ([[line] for line in lines] if one_by_one else [lines]):
        answers += it.ask(some)
    status, rest, _ = it.end()
    return [*answers, *rest], status
