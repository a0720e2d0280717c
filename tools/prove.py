#!/usr/bin/env python3
"""Proves and builds programs from nothing, over a copy of what they are made of, and tells how far it is.

usage: prove.py [--over-proved] FOLDER PROGRAM-CPU ..
Run at the top of the clone. Leaves each program, for that processor, as FOLDER/PROGRAM-CPU, and what was said as FOLDER/log. Ends
with 70 if a crate was not proved or a program not built. With --over-proved it takes the libraries that `rt` or the gate proved in
this clone, if all of them were proved of the files as they stand.

`rt ci`, as proofs.py runs it, proves the libraries: crates side by side, each over the statements of those below it, without their
wrong bodies. A kit whose rt keeps what it passed, as that of rattle-kit-13f does, proves of them later only what has changed since,
and the crates above that: here, in another clone on this machine, or in the gate. rt builds programs for one processor alone, so each
program is proved and compiled by rattle itself, over the same statements.
"""
from __future__ import annotations
import os, re, shutil, signal, subprocess, sys, tempfile, time

sys.dont_write_bytecode = True
from place import is_of_the_gate, rtlib

TRIPLE = "x86_64-unknown-linux-gnu"
# What no proof of a crate and no program reads.
LEFT_OUT = shutil.ignore_patterns("out", "must-fail", "wrong-bodies")
# Processor seconds for a line of code, for one of definitions and proofs, and for a line of code that a program compiles.
LINE, PROOF_LINE, COMPILED_LINE = 0.12, 0.005, 0.012
# The part of that time which a crate takes that all others wait for, since rt gives it what is idle.
WAITED_FOR = 0.65
# So many seconds of the estimate count as seen, so that the first crates do not move it far.
EXPECTED = 120.0
# Bytes of memory that the build of a program takes.
MEMORY = 3_500_000_000


def lines_by_crate() -> dict[str, str]:
    """The line of crates.txt of each crate."""
    with open("crates.txt", encoding="utf-8") as lines:
        return {line.split()[0].rstrip(":"): line for line in lines if ":" in line.partition("#")[0]}


def named(lines: dict[str, str], name: str) -> list[str]:
    """The libraries that a crate names, those of the kit too."""
    return lines[name].partition("#")[0].partition(":")[2].split()


def below(lines: dict[str, str], *names: str) -> list[str]:
    """All crates of this repository that these stand on, each behind those that it stands on."""
    found: list[str] = []
    for name in names:
        for it in named(lines, name):
            found += [lower for lower in (*below(lines, it), it) if lower not in found] if it in lines else []
    return found


def copy(place: str, lines: dict[str, str], libraries: list[str], programs: list[str]) -> None:
    """A repository of the libraries, and the programs beside it, where rt does not see them."""
    top = os.path.join(place, "libraries")
    # by this rt sees the top of a repository
    os.makedirs(os.path.join(top, ".git"))
    shutil.copy("HANDLES", top)
    with open(os.path.join(top, "crates.txt"), "w", encoding="utf-8") as to:
        to.writelines(lines[it] for it in libraries)
    for it in libraries:
        shutil.copytree(os.path.join("crates", it), os.path.join(top, "crates", it), ignore=LEFT_OUT)
    for it in programs:
        shutil.copytree(os.path.join("crates", it), os.path.join(place, "programs", it), ignore=LEFT_OUT)


def side_by_side(builds: int) -> int:
    """How many programs are built side by side: one on each processor, if their memory is free."""
    with open("/proc/meminfo", encoding="ascii") as told:
        free = next(int(line.split()[1]) << 10 for line in told if line.startswith("MemAvailable:"))
    return max(1, min(builds, len(os.sched_getaffinity(0)), free // MEMORY))


def count(name: str, ending: str) -> int:
    """The lines of the crate's files with this ending."""
    found = 0
    for at, folders, files in os.walk(os.path.join("crates", name)):
        folders[:] = [it for it in folders if it != "out"]
        for file in files:
            if file.endswith(ending):
                with open(os.path.join(at, file), "rb") as text:
                    found += sum(1 for _ in text)
    return found


class Estimate:
    """How long the rest takes: what each crate takes by its lines, held against what those that ended took."""

    def __init__(self, lines: dict[str, str], builds: dict[str, str]):
        self.below = {it: [lower for lower in named(lines, it) if lower in lines] for it in below(lines, *builds.values())}
        self.costs = {it: LINE * count(it, ".rt") + PROOF_LINE * count(it, ".antt") for it in self.below}
        for build, program in builds.items():
            self.below[build] = below(lines, program)
            self.costs[build] = LINE * count(program, ".rt") + COMPILED_LINE * sum(count(it, ".rt") for it in self.below[build])
        self.left, self.behind = set(self.costs), 0.0

    def rest(self) -> float:
        """Seconds for what is left: the longest chain, or what the processors share, which is more."""
        chains: dict[str, float] = {}
        for name in (it for it in self.costs if it in self.left):
            chains[name] = WAITED_FOR * self.costs[name] + max((chains[it] for it in self.below[name] if it in chains), default=0.0)
        shared = sum(self.costs[it] for it in self.left) / len(os.sched_getaffinity(0))
        return max([shared, *chains.values()])

    def end(self, name: str, was_kept: bool) -> None:
        before = self.rest()
        self.left.discard(name)
        self.behind += 0 if was_kept else before - self.rest()

    def minutes(self, seconds: float, since: float) -> int:
        """Minutes from now, if so many seconds have gone, and these of them since something ended."""
        pace = (seconds - since + EXPECTED) / (self.behind + EXPECTED)
        return max(1, round((self.rest() * pace - since) / 60))


class Telling:
    """How far it is, on standard error: one line that changes on a terminal, else a line for each crate."""

    def __init__(self, estimate: Estimate, builds: list[str]):
        self.begun = self.last = time.monotonic()
        self.estimate, self.number = estimate, len(estimate.costs)
        self.head = builds[0] if len(builds) == 1 else f"{len(builds)} programs"
        self.is_terminal = sys.stderr.isatty()
        self.done = self.kept = 0

    def width(self) -> int:
        try:
            return int(os.environ.get("COLUMNS") or 0) or os.get_terminal_size(2).columns or 80
        except (OSError, ValueError):
            return 80

    def hear(self, line: str) -> None:
        """A line of rt may tell that a crate is proved."""
        ended = re.match(r"rt: (\w+) (proved$|is kept: )", line)
        if ended and ended[1] in self.estimate.left:
            self.end(ended[1], "proved" if ended[2] == "proved" else "was proved before")

    def end(self, name: str, how: str) -> None:
        """One more is done."""
        self.done, self.kept, self.last = self.done + 1, self.kept + (how == "was proved before"), time.monotonic()
        self.estimate.end(name, how == "was proved before")
        if not self.is_terminal:
            self.write(f"{name} {how}; ", "\n")

    def write(self, what: str, end: str) -> None:
        now = time.monotonic()
        words = f"{self.head}: {what}{self.done} of {self.number} done, {int(now - self.begun)} s"
        if self.estimate.left:
            words += f", about {self.estimate.minutes(now - self.begun, now - self.last)} min more"
        start = "\r\033[K" if self.is_terminal else ""
        sys.stderr.write(start + (words[:self.width() - 1] if self.is_terminal else words) + end)
        sys.stderr.flush()

    def tick(self) -> None:
        if self.is_terminal:
            self.write("", "")

    def clear(self) -> None:
        if self.is_terminal:
            sys.stderr.write("\r\033[K")
            sys.stderr.flush()


class Builds:
    """Programs that are built in one place."""

    def __init__(self, place: str, folder: str, builds: dict[str, str], over_proved: bool):
        self.place, self.folder, self.builds, self.lines = place, folder, builds, lines_by_crate()
        self.over_proved = over_proved
        self.log = os.path.join(folder, "log")
        self.kit = os.path.dirname(subprocess.run(["rt", "doc"], capture_output=True, check=True, text=True).stdout.strip())
        self.telling = Telling(Estimate(self.lines, builds), list(builds))

    def start(self, words: list[str], at: str) -> subprocess.Popen:
        with open(self.log, "ab") as out:
            return subprocess.Popen(words, cwd=at, stdin=subprocess.DEVNULL, stdout=out, stderr=out)

    def follow(self, runs: dict[str, subprocess.Popen]) -> bool:
        """Whether all of them end well; tells how far they are until then."""
        rest, going = b"", dict(runs)
        try:
            with open(self.log, "rb") as said:
                while going:
                    time.sleep(0.5)
                    ended = [it for it, run in going.items() if run.poll() is not None]
                    *lines, rest = (rest + said.read()).split(b"\n")
                    for line in lines:
                        self.telling.hear(line.decode(errors="replace"))
                    for it in ended:
                        if going.pop(it).returncode == 0 and it in self.builds:
                            self.telling.end(it, "built")
                    self.telling.tick()
        finally:
            for run in going.values():
                run.terminate()
                run.wait()
            self.telling.clear()
        return all(run.returncode == 0 for run in runs.values())

    def take(self, libraries: list[str]) -> bool:
        """Takes the libraries that were proved in this clone; answers whether all were, of the files as they stand."""
        if not all(os.path.isdir(os.path.join("crates", it, "out", "rlib")) for it in libraries):
            return False
        crates = {it.name: it for it in rtlib().crates_below(os.getcwd())}
        if not all(crates[it].is_built() or is_of_the_gate(crates[it]) for it in libraries):
            return False
        for it in libraries:
            shutil.copytree(crates[it].rlib, self.library(it))
            self.telling.end(it, "was proved before")
        return True

    def prove(self) -> bool:
        """Whether the libraries are proved."""
        libraries, programs = below(self.lines, *self.builds.values()), sorted(set(self.builds.values()))
        copy(self.place, self.lines, libraries, programs)
        if self.over_proved and self.take(libraries):
            return True
        words = [sys.executable, os.path.join(os.path.dirname(os.path.abspath(__file__)), "proofs.py")]
        return self.follow({"libraries": self.start(words, os.path.join(self.place, "libraries"))})

    def library(self, name: str) -> str:
        return os.path.join(self.place, "libraries", "crates", name, "out", "rlib", name + ".rlib")

    def words(self, build: str, jobs: int) -> list[str]:
        """What makes the object file of a program, by so many jobs."""
        program, kit = self.builds[build], self.kit
        words = [f"{kit}/bin/rattle", "build", "--crate-name", program, "src/main.rt"]
        for it in ["std", *named(self.lines, program)]:
            words += ["--extern", f"{it}={self.library(it) if it in self.lines else f'{kit}/rlibs/{it}.rlib'}"]
        for at in [f"{kit}/rlibs", *(os.path.dirname(self.library(it)) for it in below(self.lines, program))]:
            words += ["-L", f"dependency={at}"]
        words += ["--antt-project", f"{kit}/rattle/logic/antt-project.json", "--logic-built", f"{kit}/logic_built"]
        words += ["--links", f"{program}=", "--toolchain", f"{kit}/toolchain", "--backend", "llvm", "--jobs", str(jobs)]
        return [*words, f"--cpu={build[len(program) + 1:]}", "-o", os.path.join(self.place, build + ".o")]

    def compile(self) -> bool:
        """Whether the programs, over the libraries, are proved and made object files of."""
        inside = {it: os.path.join(self.place, "programs", program) for it, program in self.builds.items()}
        builds, width = list(self.builds), side_by_side(len(self.builds))
        jobs = len(os.sched_getaffinity(0)) // width
        batches = (builds[at:at + width] for at in range(0, len(builds), width))
        return all(self.follow({it: self.start(self.words(it, jobs), inside[it]) for it in batch}) for batch in batches)

    def link(self, build: str) -> bool:
        """Links a program, and puts it into the folder whole."""
        kit, made = self.kit, os.path.join(self.place, build)
        words = [f"{kit}/bin/rattle-link", "--target", TRIPLE, "--toolchain", f"{kit}/toolchain", "-o", made, made + ".o"]
        if self.start([*words, f"{kit}/c/libos_c.a", f"{kit}/c/liblibc_c.a"], self.place).wait():
            return False
        to = os.path.join(self.folder, build)
        shutil.copyfile(made, to + ".new")
        os.chmod(to + ".new", 0o755)
        os.replace(to + ".new", to)
        return True

    def run(self) -> int:
        """The exit status."""
        open(self.log, "wb").close()
        told = self.telling
        if not (self.prove() and self.compile() and all(map(self.link, self.builds))):
            print(f"{told.head}: not proved or not built; {self.log} says why", file=sys.stderr)
            return 70
        before = f" ({told.kept} of the libraries by an earlier run on this machine)" if told.kept else ""
        print(f"{told.head}: proved and built{before}", file=sys.stderr)
        return 0


def keeps() -> bool:
    """Whether rt keeps what it proved."""
    said = subprocess.run(["rt", "help"], stdout=subprocess.PIPE, stderr=subprocess.STDOUT).stdout
    return b"is kept beside the kit" in said


def main() -> int:
    words = sys.argv[1:]
    over_proved = words[:1] == ["--over-proved"]
    folder, *builds = words[over_proved:]
    if not shutil.which("rt"):
        print("the toolchain is not there: no rt is found on the PATH", file=sys.stderr)
        return 70
    for it in (signal.SIGTERM, signal.SIGHUP):
        signal.signal(it, lambda number, _: sys.exit(128 + number))
    os.makedirs(folder, exist_ok=True)
    try:
        with tempfile.TemporaryDirectory(prefix="rq-build-") as place:
            return Builds(place, os.path.abspath(folder), {it: it.partition("-")[0] for it in builds}, over_proved).run()
    except KeyboardInterrupt:
        what = "proved libraries are kept: the same line goes on from there" if keeps() else "this kit keeps nothing"
        print(f"{' and '.join(builds)}: stopped; {what}", file=sys.stderr)
        return 130


if __name__ == "__main__":
    sys.exit(main())
