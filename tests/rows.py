"""Quick. Asks the programs what their lines answer to given bytes: the worked rows, and logs that are damaged at each place.

The tables stand in `tables/`, a file for each theme: a log or a script, what becomes of it, a line, what that prints and how it ends, and
what is left. They hold what the documents promise, and nothing that a program told.
"""
from __future__ import annotations
import argparse, os
from collections.abc import Callable, Iterator
from concurrent.futures import ThreadPoolExecutor

from tables import damages, lines, looking, reports, works, writing
from tables.asking import Program, Programs, Question
import trying

Theme = Callable[[Programs], Iterator[Question]]

THEMES: dict[str, Theme] = {it.__name__.rpartition(".")[2]: it.questions for it in (reports, damages, works, lines, looking, writing)}
# So many questions are asked side by side.
AT_A_TIME = 2 * (os.cpu_count() or 1)


def answer(question: Question) -> object:
    try:
        return question.ask()
    except Exception as fault:
        return fault


def ask(name: str, on: Programs, pool: ThreadPoolExecutor) -> None:
    """Asks the questions of a theme. One that cannot even be asked is not answered as it must be."""
    asked = []
    try:
        for question in THEMES[name](on):
            asked.append((question, pool.submit(answer, question)))
    except Exception as fault:
        trying.check(name, repr(fault), "questions")
    for question, got in asked:
        trying.check(question.name, got.result(), question.want)


def takes(line: argparse.ArgumentParser) -> None:
    line.add_argument("themes", nargs="*", metavar="THEME", help=", ".join(THEMES))


def main(options: argparse.Namespace) -> None:
    on = Programs(*(Program(it, options.folder) for it in (trying.RQ, trying.RQLOOK, trying.RQLOG)))
    with ThreadPoolExecutor(AT_A_TIME) as pool:
        for name in options.themes or THEMES:
            ask(name, on, pool)
