"""Shared. What all tests share: what is counted, how the programs are run, what they answer, the shim, and the parts of a test."""
from __future__ import annotations
import atexit, functools, hashlib, itertools, os, random, shutil, subprocess, tempfile
from collections.abc import Callable, Iterable, Iterator, Sequence
from typing import TypeVar

It = TypeVar("It")

HERE = os.path.dirname(os.path.abspath(__file__))
TOP = os.path.dirname(HERE)
EXAMPLES = os.path.join(TOP, "examples")
# The programs that are asked. `python3 tests` sets them before it takes up a test.
RQ = RQLOOK = RQLOG = ""

USAGE = (2, b"", b"rq: usage\n")
DONE = (0, b"", b"")
READ_FAULT = (3, b"", b"rq: read fault\n")
WRITE_FAULT = (3, b"", b"rq: write fault\n")
RESOURCES = (4, b"", b"rq: resources\n")
NOBODY = 65534

# What these words stand for, if nothing else is said.
USUAL = {"OFFSET": "40", "WORKERS": "1", "GRAIN": "1", "MADE": "made"}
# Lines of a script, and those that may follow them.
START = b"define jobs 0 -\nregister 0 ann\nbegin 1\nenqueue 1 0 5 - 0 61\ncommit 1\n"
MORE = b"begin 2\ndequeue 2 0 ann 10\nenqueue 2 0 8 - 0 62\ncommit 2\n"

Words = list[object]
# A run that takes so many seconds is said to hang: on a loaded host a sound one may take minutes.
HANGS = 600
# The status, standard output and standard error of a run.
Ended = tuple[int, bytes, bytes]

passed = failed = 0


# --- what is counted -----------------------------------------------------------------------------------------------

def short(value: object) -> str:
    text = repr(value)
    return text if len(text) <= 400 else f"{text[:400]}.. ({len(text)} characters)"


def check(name: str, got: object, want: object) -> bool:
    """Counts what is as it must be and what is not, and says the latter."""
    global passed, failed
    if got == want:
        passed += 1
    else:
        failed += 1
        print(f"{name}: {short(got)} in place of {short(want)}", flush=True)
    return got == want


def counted() -> int:
    """Prints the last line, of all that was checked; the exit status."""
    print(f"{passed} passed, {failed} failed")
    return 1 if failed or not passed else 0


# --- what is drawn -------------------------------------------------------------------------------------------------

def sum_of_clone() -> bytes:
    """A sum of all files of the clone, but of what was built, and of their names."""
    total = hashlib.sha256()
    for at, folders, names in os.walk(TOP):
        folders[:] = sorted(it for it in folders if it not in ("out", "build", "__pycache__", ".git"))
        for path in (os.path.join(at, it) for it in sorted(names)):
            if os.path.isfile(path):
                total.update(f"{os.path.relpath(path, TOP)} {sum_of(path)}\n".encode())
    return total.digest()


def drawn(every: Sequence[It], count: int) -> list[It]:
    """So many of these, in an order: of the same files of the clone the same, of others other ones, so that each gets its turn."""
    return random.Random(sum_of_clone()).sample(every, min(count, len(every)))


# --- files ---------------------------------------------------------------------------------------------------------

def put(path: str, content: bytes) -> str:
    with open(path, "wb") as file:
        file.write(content)
    return path


def content(path: str) -> bytes | None:
    try:
        with open(path, "rb") as file:
            return file.read()
    except FileNotFoundError:
        return None


def sum_of(path: str) -> str:
    with open(path, "rb") as file:
        return hashlib.sha256(file.read()).hexdigest()


def text_in(path: str) -> str:
    with open(path, encoding="utf-8") as file:
        return file.read()


# --- the programs --------------------------------------------------------------------------------------------------

def program_of(name: str) -> str:
    """The program of these sources for this machine, or nothing."""
    line = 'here=$1; . "$1/tools/sources.sh"; program_of "$2" "$(target)" "$(made_of "$2")"'
    done = subprocess.run(["sh", "-c", line, "sh", TOP, name], stdout=subprocess.PIPE, universal_newlines=True)
    return done.stdout.strip()


def done(program: str, *words: object, **options: object) -> Ended:
    """How a program ends, and what it prints."""
    line = [program, *(word if isinstance(word, bytes) else str(word) for word in words)]
    ended = subprocess.run(line, capture_output=True, **{"timeout": HANGS, **options})
    return ended.returncode, ended.stdout, ended.stderr


def run(*words: object, **options: object) -> Ended:
    return done(RQ, *words, **options)


def rqlog(*words: object, script: bytes = b"", **options: object) -> Ended:
    """The same of rqlog, with the script on its standard input."""
    return done(RQLOG, *words, input=script, **options)


def run_into(output: object, *words: object) -> Ended:
    """How rq ends with another standard output, of which nothing is seen."""
    ended = subprocess.run([RQ, *map(str, words)], stdout=output, stderr=subprocess.PIPE, timeout=HANGS)
    return ended.returncode, b"", ended.stderr


def run_within(kibibytes: int, *words: object) -> Ended:
    """The same with so much address space: a shell sets the limit, which Python itself would not outlive."""
    return done("sh", "-c", f'ulimit -v {kibibytes}; exec "$@"', "sh", RQ, *words)


def refused(text: str, status: int = 1) -> Ended:
    return status, b"", f"rq: {text}\n".encode()


def says(text: str | bytes, status: int = 1, printed: bytes = b"") -> Ended:
    """What rqlog says of why it is not done."""
    text = text.encode() if isinstance(text, str) else text
    return status, printed, b"rqlog: " + text + b"\n"


def appended(count: int, length: int) -> Ended:
    return 0, b"appended %d records, %d bytes\n" % (count, length), b""


def faulty(ended: Ended, which: str) -> bool:
    """Whether a run of rqlog ended since this file can't be opened, read or written."""
    return ended[0] == 3 and ended[1] == b"" and ended[2].startswith(f"rqlog: {which}: ".encode())


def lines_of(forms: Iterable[str], **given: str) -> list[Words]:
    """The words of each line, with what is given in place of those in capitals."""
    words = {**USUAL, **given}
    return [[words.get(word, word) for word in form.split()] for form in forms]


def check_each(what: str, lines: Iterable[Words], want: object, by: Callable[..., Ended] = run) -> None:
    """Checks that each of the lines ends so."""
    for line in lines:
        check(f"{line[0]} {what}", by(*line), want)


def log_of(script: bytes, name: str, word: str = "make") -> str:
    log = name + ".log"
    check(f"{word} {name}", run(word, put(name + ".script", script), log), DONE)
    return log


def plain(name: str, script: bytes = START, word: str = "make") -> str:
    return log_of(script, name, word)


def making(path: str, *words: object, **options: object) -> tuple[Ended, bytes | None]:
    """How a command that makes a file ends, and what stands in the file then."""
    return run(*words, **options), content(path)


# --- the shim ------------------------------------------------------------------------------------------------------

@functools.lru_cache(None)
def built_shim(source: str) -> str | None:
    """The library of a C file of the tests, to be loaded before the C library; none if there is no C compiler."""
    compiler = next((path for path in map(shutil.which, ("cc", "gcc", "clang")) if path), None)
    if compiler is None:
        return None
    folder = tempfile.mkdtemp(prefix="rq-shim-")
    atexit.register(shutil.rmtree, folder, True)
    library = os.path.join(folder, "shim.so")
    words = [compiler, "-O2", "-shared", "-fPIC", os.path.join(HERE, source), "-o", library, "-ldl", "-lpthread"]
    subprocess.run(words, check=True)
    return library


def shim() -> str | None:
    """The library of shim.c."""
    return built_shim("shim.c")


@functools.lru_cache(None)
def has_shim(what: str) -> bool:
    """Whether there is one; else it says once that this is left out."""
    if shim() is None:
        print(f"left out: {what} needs a C compiler")
    return shim() is not None


def run_told(*words: object, by: Callable[..., Ended] = run, **asked: object) -> tuple[Ended, bytes]:
    """How a program ends with the shim, which is asked this, and what that tells."""
    seen, told = os.pipe()
    variables = {f"SHIM_{name.upper()}": str(value) for name, value in {**asked, "told": told}.items()}
    ended = by(*words, env={**os.environ, "LD_PRELOAD": shim(), **variables}, pass_fds=[told])
    os.close(told)
    with os.fdopen(seen, "rb") as file:
        return ended, file.read()


def sweep(*words: object, sort: str, how: str = "fails", step: int = 1, by: Callable[..., Ended] = run) -> Iterator[tuple[int, Ended]]:
    """Ends one call, allocation or thread of a program otherwise than well, the first, then the next, as far as there are any: its
    number, and how the program ends. Every `step`th is enough where they are many."""
    for number in itertools.count(step, step):
        ended, met = run_told(*words, by=by, sort=sort, number=number, how=how)
        if not met:
            return
        yield number, ended


# --- the parts of a test -------------------------------------------------------------------------------------------

def run_part(part: Callable[[], None]) -> None:
    """A part that breaks off has failed."""
    try:
        part()
    except Exception as fault:
        check(part.__name__, repr(fault), "no exception")


def run_parts(parts: Iterable[Callable[[], None]], in_one_folder: bool) -> None:
    """Runs the parts of a test, each in an empty folder, or all in one."""
    parts = list(parts)
    for some in [parts] if in_one_folder else [[it] for it in parts]:
        with tempfile.TemporaryDirectory(prefix="rq-test-") as folder:
            os.chdir(folder)
            for part in some:
                run_part(part)
            os.chdir(TOP)
