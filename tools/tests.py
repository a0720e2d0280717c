#!/usr/bin/env python3
"""Runs the tests of a crate in memory, or a program for tests, without proving them, by `rt try`: built of the sources, also of all crates
below, with checks of each access, overflow and index. It needs no library that is proved.

usage: tests.py [CRATE [SECONDS [CASES]]]      rq_tests, and 600 for each test, if nothing else is named
With CASES, a folder, the crate is a program: it is run for each file there, as its standard input. For each it prints `== FILE`, what the
program printed, and `case=FILE run=ended status=STATUS ..`; no program may print more than a MiB. Else the last line is
`N passed, M failed`. The status is 0 if nothing failed. If the crate or one below it does not compile, no line says so.
"""
from __future__ import annotations
import os, re, shutil, subprocess, sys

sys.dont_write_bytecode = True
from place import TOP, rtlib

# The line that counts.
RESULT = re.compile(r"^test result: \w+\. (\d+) passed; (\d+) failed;", re.M)
# What is asked of rt, in a process of its own: it ends as the tests do.
TRIES = "tries"
# A program is compiled, and not interpreted too: that would take longer than all else.
COMPILED_ALONE = ["--steps", "1"]


def tries(name: str, seconds: str, cases: str = "") -> int:
    """Does what `rt try` does in the crate's folder."""
    module = rtlib()
    crate = next(it for it in module.crates_below(TOP) if it.name == name)
    os.chdir(crate.folder)
    # (`rt ci` looks at the layout of crates that it proves)
    if cases and module.fmt(crate.folder, "--check", sys.stderr):
        return 1
    # Beside the tests rt has a whole front end look for names that a proof will refuse. It takes as long as the tests do.
    module.RATTLE = shutil.which("true")
    words = ["--cases", cases, *COMPILED_ALONE] if cases else ["--test"]
    return crate.try_unproved([*words, "--seconds", seconds], [])


def main(crate: str = "rq_tests", seconds: str = "600", cases: str = "") -> int:
    words = [sys.executable, os.path.abspath(__file__), TRIES, crate, seconds, *([os.path.abspath(cases)] if cases else [])]
    if cases:
        return subprocess.run(words, stdin=subprocess.DEVNULL, stderr=subprocess.STDOUT).returncode
    ran = subprocess.run(words, stdin=subprocess.DEVNULL, stdout=subprocess.PIPE, stderr=subprocess.STDOUT, text=True, errors="replace")
    print(ran.stdout, end="")
    counted = RESULT.search(ran.stdout)
    if counted:
        print(f"{counted[1]} passed, {counted[2]} failed")
    return ran.returncode


if __name__ == "__main__":
    sys.exit(tries(*sys.argv[2:]) if sys.argv[1:2] == [TRIES] else main(*sys.argv[1:]))
