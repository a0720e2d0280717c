#!/usr/bin/env python3
"""Breaks the lines of proofs that are longer than 120 columns, at spaces, as near the top of the term as may be.

usage: columns.py [FILE ..]        all proofs of the repository, if none is named
Then `rt fmt` in the crate's folder, and once more: it writes a record that is broken with a line for each field. What it
gives is a proposal, and means the same; a proof that reads better otherwise is broken by hand. Comments stay.
"""
from __future__ import annotations
import glob, os, re, sys

TOP = os.path.dirname(os.path.dirname(os.path.abspath(__file__)))
WIDTH = 120
OPEN, CLOSE = "([{", ")]}"
# What a line is broken before, and at which price.
OPERATORS = {"→": 1, "∙": 2, "≡": 2, "×": 3, "⊎": 3, "≤": 3, "<": 3, "↔": 3, "++": 4, "∷": 4, "+": 4, "&&": 4, "||": 4, "==": 4,
             "*": 5, "-": 5}
KEEP_NEXT = {"λ", ":", "let", "pub", "where", "record", "use"}


def price_of(before: str, ahead: str, is_head: bool) -> int | None:
    """What it costs to break between these, or None if no line is broken."""
    behind = before.rsplit(" ", 1)[-1]
    bare = behind.lstrip(OPEN)
    in_binders = re.search(r"λ [^.]*$", before) and not bare.endswith(".")
    if ahead in ("=", ":", "in") or bare in KEEP_NEXT or in_binders:
        return None
    if bare in ("=", "in") or bare.endswith(";"):
        return 0
    if ahead in OPERATORS:
        return OPERATORS[ahead]
    if bare in OPERATORS:
        return 14
    if bare.endswith(","):
        return 1
    if bare.endswith(".") and "λ" in before:
        return 7
    # between a function and its first argument
    if is_head or behind != bare:
        return 12
    return 5 if ahead.startswith("(") else 6


def places(line: str, start: int) -> list[tuple[int, int]]:
    """The spaces where the line may be broken, each with its price: ten more for each bracket that it is in."""
    depth, heads, found = 0, [True], []
    for at, letter in enumerate(line):
        if letter in OPEN:
            depth += 1
            heads.append(True)
        elif letter in CLOSE:
            depth -= 1
            heads = heads[:-1] if len(heads) > 1 else heads
            heads[-1] = False
        elif letter == " " and at > start and line[at + 1:at + 2] != " ":
            behind = line[:at].rsplit(" ", 1)[-1]
            price = price_of(line[:at], line[at + 1:].split(" ", 1)[0], heads[-1])
            heads[-1] = behind.endswith(("=", ".", ";", ",")) or behind in OPERATORS or behind == "in"
            if price is not None:
                found.append((at, depth * 10 + price))
    return found


def broken(line: str, deeper: int) -> list[str]:
    """The line in pieces, of which those behind the first are as deep as is said."""
    if len(line) <= WIDTH:
        return [line]
    indent = len(line) - len(line.lstrip(" "))
    found = [it for it in places(line, indent + 1) if max(indent + 12, deeper - 2) < it[0] <= WIDTH]
    if not found:
        return [line]
    # not too near the line's beginning, and else the last of equals
    at, price = min(found, key=lambda it: it[1] + max(0, 45 - (it[0] - indent)) * 0.35 - it[0] * 0.01)
    # a chain of arrows stands under its first one
    is_chain = price == 1 and line[at + 1] == "→" and line.lstrip().startswith("→")
    under = indent if is_chain else deeper
    return [line[:at]] + broken(" " * under + line[at + 1:], max(under, deeper))


def imports(line: str) -> list[str]:
    """An import in several, each as long as may be."""
    whole = re.match(r"(use [^{]*)\{(.*)\}$", line)
    if not whole:
        return [line]
    head, made, taken = whole[1], [], []
    for name in whole[2].split(", "):
        if taken and len(f"{head}{{{', '.join([*taken, name])}}}") > WIDTH:
            made.append(f"{head}{{{', '.join(taken)}}}")
            taken = []
        taken.append(name)
    return [*made, f"{head}{{{', '.join(taken)}}}"]


def within(line: str) -> list[str]:
    if len(line) <= WIDTH or line.lstrip().startswith("--"):
        return [line]
    if line.startswith("use "):
        return imports(line)
    return broken(line, len(re.match(r" *(let |where |in )?", line)[0]) + 4)


def main() -> None:
    for path in sys.argv[1:] or glob.glob(f"{TOP}/crates/*/proofs/**/*.antt", recursive=True):
        with open(path, encoding="utf-8") as it:
            lines = it.read().split("\n")
        with open(path, "w", encoding="utf-8") as it:
            it.write("\n".join(piece for line in lines for piece in within(line)))


if __name__ == "__main__":
    main()
