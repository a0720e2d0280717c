#!/usr/bin/env python3
"""Tells which functions of a crate were dear to check, in seconds, the dearest first.

usage: dear.py CRATE [COUNT]        as many as are named, else 30
Run `rt check --jobs 1` in the crate's folder before, with --test for a crate of tests, and from nothing: remove its out/
first. The check writes each of its parts when that is checked, one behind the other, so a part took as long as it was
written after the one before. Beside a function's time stands that of its borrows (`Lts`): it grows with the ways out of
the function, by `?` or to its end, times the values that it has to drop there. Hand a part of such a function on to
another one.
"""
from __future__ import annotations
import collections, os, re, sys

TOP = os.path.dirname(os.path.dirname(os.path.abspath(__file__)))
# What a function's proof is made of.
PARTS = "Answers|Carried|Code|Given|Goals|Invariants|Kinds|Layout|Lts|Met|Named|Pair|Paired|Proof|Reads|Statement|Tie"
# A part of it: the function, and which part.
PART = re.compile(rf"Rattle-\w+?-proofs\.(.+?)\.({PARTS})[-\d]*(?:\.\w+)*\.oantt$")


def written(folder: str) -> list[tuple[int, str]]:
    """When each part was written, in nanoseconds, and its name, in this order."""
    files = [(at, name) for at, _, names in os.walk(folder) for name in names if name.endswith(".oantt")]
    return sorted((os.stat(os.path.join(at, name)).st_mtime_ns, name) for at, name in files)


def main(crate: str, count: str = "30") -> None:
    whole: collections.Counter[str] = collections.Counter()
    borrows: collections.Counter[str] = collections.Counter()
    parts = written(os.path.join(TOP, "crates", crate, "out", "incremental"))
    for (before, _), (now, name) in zip(parts, parts[1:]):
        if part := PART.match(name):
            whole[part[1]] += now - before
            borrows[part[1]] += (now - before) * (part[2] == "Lts")
    for name, time in whole.most_common(int(count)):
        print(f"{time / 1e9:7.1f} {borrows[name] / 1e9:7.1f} {name}")


if __name__ == "__main__":
    main(*sys.argv[1:])
