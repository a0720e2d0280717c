"""Quick. Tries ./rq, ./rqlook, ./rqlog, tools/ship, tools/install and tools/release in a small clone, with programs and a toolchain that only tell
how they were called: which program is run, when one is built, what is refused and installed. And tries in what order tools/proofs.py lets checks
begin; and the completions of all programs in bash, and in zsh and fish if they are there.

The commands and words that are completed are read from the sources of rqlook and rqlog, those of rq from OPERATING's table. So a command that the
help does not tell of, or of which a shell offers nothing, is found.
"""
from __future__ import annotations
import argparse, fcntl, glob, os, pty, re, shutil, struct, subprocess, sys, tempfile, termios
from contextlib import contextmanager, nullcontext
from datetime import date
from types import SimpleNamespace
from typing import Any, Callable, Dict, Iterator, List, Tuple

from trying import NOBODY, RQLOG, RQLOOK, TOP, check, text_in as content

sys.path.insert(0, os.path.join(TOP, "tools"))
import proofs  # noqa: E402

PROCESSORS = ["x86-64-v2", "x86-64-v3"]
# No folder that has a toolchain.
PATH = os.pathsep.join(it for it in os.get_exec_path() if not os.path.exists(os.path.join(it, "rt")))
LINE = ["restart", "a log", "1", "1"]
# A line of each program.
LINES = {"rq": LINE, "rqlook": ["dump", "a log"], "rqlog": ["append", "a log"]}
SOURCES = ["crates/low/src/lib.rt", "crates/low/specs/Lib.antt", "crates/low/proofs/Lib.antt", "crates/rq/src/main.rt"]
SOURCES += ["crates/rqlook/src/main.rt", "crates/rqlog/src/main.rt"]
# What is beside them, or is nothing of rq.
OTHERS = ["crates/low/src/.lib.rt.swp", "crates/low/src/lib.rt~", "crates/low/out/x.rt", "crates/rqlook/src/main.rt", "docs/rq.1"]
# Words that are no line of any program; others the program judges, if there is one.
NO_LINES = {"rq": [[], ["restart"], ["restart", "--help"]], "rqlook": [[], ["--help"], ["dump"], ["dump", "--help"]],
            "rqlog": [[], ["--help"], ["append"], ["append", "a", "--help"]]}
# What stands for the toolchain: `rt ci` proves, `rattle build` makes what the program is to be, `rattle-link` leaves it.
TOOLS = {
    "bin/rt": 'case $1 in doc) echo "$KIT/START";; version) echo kit;; ci) echo "rt: low proved"; [ -z "$REFUSE" ];; esac',
    "bin/rattle": 'for it in "$@"; do case $it in --cpu=*) cpu=${it#--cpu=};; *.o) to=$it;; esac; done; '
                  'printf \'#!/bin/sh\\necho %s "$GLIBC_TUNABLES" "$@" ${COLUMNS:+columns "$COLUMNS"}\\n\' "$3-$cpu" > "$to"',
    "bin/rattle-link": 'cp "$7" "$6"',
}
SETTINGS = "glibc.malloc.hugetlb=1:glibc.malloc.mmap_threshold=524288:glibc.malloc.trim_threshold=16777216"
NO_TOOLCHAIN = "the toolchain is not there"
INSTALLED = ["bin/rq", "bin/rq-many", "bin/rqlog", "bin/rqlook"]
INSTALLED += ["libexec/rq/installed", "libexec/rq/rq", "libexec/rq/rqlog", "libexec/rq/rqlook"]
INSTALLED += ["share/man/man1/rq-many.1", "share/man/man1/rq.1", "share/man/man1/rqlog.1", "share/man/man1/rqlook.1"]


def put(path: str, text: str, mode: int = 0o644) -> None:
    os.makedirs(os.path.dirname(path), exist_ok=True)
    with open(path, "w", encoding="utf-8") as file:
        file.write(text)
    os.chmod(path, mode)


def ended(words: List[str], env: Dict[str, str]) -> Tuple[int, str, str]:
    """How a command ends, and what it prints."""
    pipes = {"stdin": subprocess.DEVNULL, "stdout": subprocess.PIPE, "stderr": subprocess.PIPE}
    done = subprocess.run(words, env=env, cwd="/", universal_newlines=True, **pipes)
    return done.returncode, done.stdout, done.stderr


def on_terminal(words: List[str], env: Dict[str, str], columns: int) -> str:
    """The last words that a command prints on a terminal of so many columns."""
    reads, writes = pty.openpty()
    fcntl.ioctl(writes, termios.TIOCSWINSZ, struct.pack("HHHH", 24, columns, 0, 0))
    subprocess.run(words, env=env, cwd="/", stdin=subprocess.DEVNULL, stdout=writes, stderr=subprocess.DEVNULL)
    os.close(writes)
    printed = os.read(reads, 65536).decode()
    os.close(reads)
    return " ".join(printed.split()[-2:])


class Clone:
    """A small clone, in a folder beside which the toolchain stands."""

    def __init__(self, folder: str) -> None:
        self.folder, self.kit = os.path.join(folder, "a clone"), os.path.join(folder, "kit")
        for name in ("tools", "docs"):
            shutil.copytree(os.path.join(TOP, name), self.at(name), ignore=shutil.ignore_patterns("measured", "__pycache__"))
        for name in ("rq", "rqlook", "rqlog", "rq-many", "HANDLES"):
            shutil.copy(os.path.join(TOP, name), self.at(name))
        put(self.at("crates.txt"), "low: byteorder\nrq: low\nrqlook: low\nrqlog: low\n")
        for name in SOURCES:
            put(self.at(name), name)
        for name, text in TOOLS.items():
            put(os.path.join(self.kit, name), f"#!/bin/sh\n{text}\n", 0o755)

    def at(self, name: str) -> str:
        return os.path.join(self.folder, name)

    def run(self, *words: str, kit: bool = False, **more: str) -> Tuple[int, str, str]:
        """How a script ends, and what it prints; with the toolchain, or without one."""
        path = os.path.join(self.kit, "bin") + os.pathsep + PATH if kit else PATH
        env = {"PATH": path, "KIT": self.kit, "HOME": "/nowhere", **more}
        return ended([self.at(words[0]), *words[1:]], env)

    def refuses(self, what: str, reason: str) -> None:
        """A line of the program is refused if there is no toolchain, and wrong words need none."""
        status, out, said = self.run("rq", *LINE)
        check(f"{what}: a line", (status, out, reason in said, NO_TOOLCHAIN in said), (70, "", True, True))
        check(f"{what}: wrong words", self.run("rq", "restart")[0], 2)


def is_of(clone: Clone, name: str) -> str:
    """Which program was run, by what it tells."""
    return clone.run(name, *LINES[name])[1].split(" ")[0].rsplit("-x86", 1)[0]


def words(clone: Clone) -> None:
    """Before anything is built."""
    check("no programs", clone.run("rq", *LINE)[0], 70)
    for name, lines in NO_LINES.items():
        for line in lines:
            check(f"{name} {line} before a build", clone.run(name, *line, kit=True), (2, "", f"{name}: usage\n"))
        check(f"{name}: a line that only it can judge", clone.run(name, "show", "a")[0], 70)
    answers("before a build", clone.run)
    check("nothing was built", os.path.exists(clone.at("build")), False)


def answers(what: str, run: Callable[..., Tuple[int, str, str]]) -> None:
    """What the script of rq answers by itself: its help by the manual, and the version."""
    lines = re.findall(r"^\.B (rq [\w\\-]+)\n\.I (.*)$", content(os.path.join(TOP, "docs", "rq.1")), re.M)
    wanted = [f"{command} {words}".replace("\\", "") for command, words in lines]
    for word in ("--help", "-h"):
        status, out, said = run("rq", word)
        check(f"rq {word} {what}", (status, [it[7:] for it in out.splitlines() if "rq " in it], said), (0, wanted, ""))
    version = re.search(r'"(rq [\d.]+)"', content(os.path.join(TOP, "docs", "rq.1")))[1]
    for word in ("--version", "-V"):
        check(f"rq {word} {what}", run("rq", word), (0, f"{version}\n", ""))


def shipping(clone: Clone) -> None:
    check("a check without programs", clone.run("tools/ship", "--check")[0], 1)
    refused = clone.run("tools/ship", kit=True, REFUSE="yes")[0]
    check("a refused proof ships nothing", (refused, os.path.exists(clone.at("dist/receipt"))), (70, False))
    status, out, _ = clone.run("tools/ship", kit=True)
    check("shipping", (status, out.count("new"), sorted(os.listdir(clone.at("dist")))),
          (0, 6, ["receipt", *(f"{name}-{cpu}" for name in ("rq", "rqlog", "rqlook") for cpu in PROCESSORS)]))
    check("a check", clone.run("tools/ship", "--check")[0::2], (0, ""))
    status, out, said = clone.run("rq", *LINE)
    check("a shipped program", (status, out.split(" ", 1)[1], said), (0, f"{SETTINGS} {' '.join(LINE)}\n", ""))
    check("each shipped program", [is_of(clone, it) for it in LINES], list(LINES))
    check("with other settings", clone.run("rq", *LINE, GLIBC_TUNABLES="a=1")[1].split(" ")[1], "a=1")
    check("wrong words", clone.run("rq", "no-line")[1].split(" ", 1)[1], f"{SETTINGS} no-line\n")
    answers("beside a program", clone.run)
    check("its proof", clone.run("rq", "--prove", kit=True)[1].splitlines()[-1].endswith("has the same bytes"), True)
    shutil.rmtree(clone.at("build"))


@contextmanager
def changed(path: str, by: Callable[[str], str]) -> Iterator[None]:
    """The file holds something else for a while, or is there for a while."""
    was_there = os.path.exists(path)
    before = content(path) if was_there else ""
    put(path, by(before))
    yield
    if was_there:
        put(path, before)
    else:
        os.remove(path)


def more_libraries(lines: str) -> str:
    return lines.replace("byteorder", "byteorder sha2")


def widths(what: str, look: str, other: str) -> None:
    """Scripts that run rqlook and another program: the first is told how many columns the terminal has, if its output is one."""
    line, env = [look, "dump", "log"], {"PATH": PATH}
    for columns in (71, 0):
        check(f"{what} on a terminal of {columns} columns", on_terminal(line, env, columns), f"columns {columns}")
    check(f"{what} on a terminal, by its variable", on_terminal(line, {**env, "COLUMNS": "50"}, 71), "columns 50")
    check(f"{what}, another program", on_terminal([other, *LINE[:1], "a", "1", "1"], env, 71), "1 1")
    check(f"{what} into a pipe", ended(line, env)[1].split()[-2:], ["dump", "log"])


def terminals(clone: Clone) -> None:
    widths("in the clone", clone.at("rqlook"), clone.at("rq"))


def changes(clone: Clone) -> None:
    """Each source that counts, and some that do not."""
    for name in [*SOURCES[:4], "HANDLES", "crates.txt", "crates/low/src/more.rt"]:
        with changed(clone.at(name), more_libraries if name == "crates.txt" else lambda it: it + " "):
            clone.refuses(f"{name} changed", "the sources are not those")
            check(f"{name} changed: a check", clone.run("tools/ship", "--check")[0], 1)
    for name in OTHERS:
        with changed(clone.at(name), lambda it: it + " "):
            check(f"{name} is nothing of rq", is_of(clone, "rq"), "rq")


def bytes_changed(clone: Clone) -> None:
    for cpu in PROCESSORS:
        with open(clone.at(f"dist/rq-{cpu}"), "a", encoding="utf-8") as file:
            file.write("x")
    clone.refuses("a program changed", "is not the program that dist/receipt names: it is not run")
    check("a program changed: a check", clone.run("tools/ship", "--check")[0], 1)
    for what, kit in (("it is built anew", True), ("what was built is run", False)):
        status, out, said = clone.run("rq", *LINE, kit=kit)
        check(what, (status, out[:3], "is not run" in said, "proving and building" in said), (0, "rq-", True, kit))
    check("its proof tells it", clone.run("rq", "--prove", kit=True)[0], 1)
    check("shipped again", clone.run("tools/ship", kit=True)[0], 0)


def building(clone: Clone) -> None:
    put(clone.at("crates/low/src/lib.rt"), "changed")
    check("a refused proof", (clone.run("rq", *LINE, kit=True, REFUSE="yes")[0::2][0], is_of(clone, "rq")), (70, ""))
    check("a proved change", clone.run("rq", *LINE, kit=True)[0], 0)
    check("what was built is run", is_of(clone, "rq"), "rq")
    check("the other program is built apart", clone.run("rqlook", "dump", "a")[0], 70)
    built = next(it for it in os.listdir(clone.at("build")) if it.startswith("rq-") and it[-2:] in ("v2", "v3"))
    with open(clone.at(f"build/{built}"), "a", encoding="utf-8") as file:
        file.write("x")
    check("what was built and changed is not run", clone.run("rq", *LINE)[0], 70)
    put(clone.at("crates/low/src/lib.rt"), SOURCES[0])
    shutil.rmtree(clone.at("build"))
    check("the shipped one again", is_of(clone, "rq"), "rq")


def read_only(clone: Clone) -> None:
    """From elsewhere, by a link, and for root as nobody, who can't write there."""
    link = os.path.join(os.path.dirname(clone.folder), "link")
    os.symlink(clone.at("rq"), link)
    drop = ["setpriv", f"--reuid={NOBODY}", f"--regid={NOBODY}", "--clear-groups"] if os.geteuid() == 0 else []
    status, out, said = ended([*drop, link, *LINE], {"PATH": PATH})
    check("a clone that can't be written", (status, out[:3], said), (0, "rq-", ""))


def files_below(folder: str) -> List[str]:
    return sorted(os.path.relpath(os.path.join(at, name), folder) for at, _, names in os.walk(folder) for name in names)


def installing(clone: Clone) -> None:
    prefix = os.path.join(os.path.dirname(clone.folder), "it's here")
    check("nothing to take away, and no folder", (clone.run("tools/install", "--uninstall", prefix)[0], os.path.exists(prefix)), (1, False))
    new = os.path.join(os.path.dirname(prefix), "not", "there")
    check("folders that are not there", (clone.run("tools/install", new)[0], files_below(new)), (0, INSTALLED))
    no_names(clone, prefix)
    check("no words", (clone.run("tools/install")[0], clone.run("tools/install", "--uninstall")[0]), (2, 2))
    os.mkdir(prefix)
    check("nothing to take away", clone.run("tools/install", "--uninstall", prefix)[0], 1)
    for _ in range(2):
        check("installing", (clone.run("tools/install", prefix)[0], files_below(prefix)), (0, INSTALLED))
    for name in LINES:
        status, out, _ = ended([os.path.join(prefix, "bin", name), "a b"], {"PATH": PATH})
        check(f"{name}, installed", (status, out.startswith(f"{name}-x86"), out.split(" ", 1)[1:]), (0, True, [f"{SETTINGS} a b\n"]))
    answers("installed", lambda name, *line: ended([os.path.join(prefix, "bin", name), *line], {"PATH": PATH}))
    widths("installed", *(os.path.join(prefix, "bin", name) for name in ("rqlook", "rq")))
    put(os.path.join(prefix, "bin", "rq"), "another")
    check("over a file of another", (clone.run("tools/install", prefix)[0], files_below(prefix)), (1, INSTALLED))
    check("taking away", (clone.run("tools/install", "--uninstall", prefix)[0], files_below(prefix)), (0, ["bin/rq"]))
    check("beside a file of another", (clone.run("tools/install", prefix)[0], files_below(prefix)), (1, ["bin/rq"]))
    other_names(clone, prefix)
    links(clone, prefix)


def no_names(clone: Clone, prefix: str) -> None:
    """Folders whose names no list can hold, or by which no program would run: nothing is left there."""
    for what, name in (("a line feed", f"{prefix}\nfolder"), ("bytes that are no text", f"{prefix}\udcff")):
        for made in (False, True):
            if made:
                os.mkdir(name)
            told = clone.run("tools/install", name)[0], os.path.exists(name) and files_below(name)
            check(f"a folder with {what}, {'there' if made else 'not there'}", told, (1, [] if made else False))
        told = clone.run("tools/install", "/usr", DESTDIR=name)[0], files_below(name)
        check(f"below a folder with {what}", told, (1, []))


def other_names(clone: Clone, prefix: str) -> None:
    """Beside a program of the name rq, ours has another one; and back again."""
    status, _, said = clone.run("tools/install", prefix)
    check("how ours is named", (status, "--rq NAME installs our rq under another name" in said), (1, True))
    ours = sorted("bin/rq-ours" if it == "bin/rq" else "share/man/man1/rq-ours.1" if it.endswith("/rq.1") else it for it in INSTALLED)
    check("by another name", (clone.run("tools/install", "--rq", "rq-ours", prefix)[0], files_below(prefix)), (0, sorted(["bin/rq", *ours])))
    check("what it runs", ended([os.path.join(prefix, "bin", "rq-ours")], {"PATH": PATH})[1].startswith("rq-x86"), True)
    check("its manual", content(os.path.join(prefix, "share/man/man1/rq-ours.1")), content(clone.at("docs/rq.1")))
    check("the other program", content(os.path.join(prefix, "bin", "rq")), "another")
    check("a third name", (clone.run("tools/install", "--rq", "rq-3", prefix)[0], os.path.exists(os.path.join(prefix, "bin/rq-ours"))), (0, False))
    for line in (["--rq", "rqlog", prefix], ["--rq", "a/b", prefix], ["--rq", "", prefix], ["--rq", "x"], ["--rq", "x", "--uninstall", prefix]):
        check(f"the words {line[:2]}", clone.run("tools/install", *line)[0], 2)
    check("away", (clone.run("tools/install", "--uninstall", prefix)[0], files_below(prefix)), (0, ["bin/rq"]))
    beside = os.path.join(os.path.dirname(prefix), "beside")
    os.mkdir(beside)
    said = clone.run("tools/install", beside, PATH=os.path.join(prefix, "bin") + os.pathsep + PATH)
    check("another rq on PATH that can't be run", (said[0], "is another program" in said[2]), (0, False))
    os.chmod(os.path.join(prefix, "bin", "rq"), 0o755)
    said = clone.run("tools/install", beside, PATH=os.path.join(prefix, "bin") + os.pathsep + PATH)
    check("another rq on PATH is told", (said[0], f"{prefix}/bin/rq is another program" in said[2]), (0, True))


def links(clone: Clone, prefix: str) -> None:
    """A link is a file of another, and what it names stays."""
    aim, name = os.path.join(prefix, "aim"), os.path.join(prefix, "bin", "rq")
    put(aim, "as it was")
    os.remove(name)
    os.symlink(aim, name)
    status = clone.run("tools/install", prefix)[0]
    check("over a link", (status, content(aim), files_below(prefix)), (1, "as it was", ["aim", "bin/rq"]))
    below = os.path.join(prefix, "below", "that")
    usr = os.path.join(below, "usr")
    check("below DESTDIR", (clone.run("tools/install", "/usr", DESTDIR=below)[0], files_below(usr)), (0, INSTALLED))
    check("its program", "exec '/usr/libexec/rq/rq'" in content(os.path.join(usr, "bin", "rq")), True)
    check("away from there", (clone.run("tools/install", "--uninstall", "/usr", DESTDIR=below)[0], files_below(below)), (0, []))
    told = clone.run("tools/install", "usr", DESTDIR=below)
    check("below DESTDIR, a name that does not begin with /", (told[0], os.path.exists(f"{below}usr")), (1, False))


# The steps of a release that are commands: the file of each, which says its words, and fails if it is to.
STEPS = {"tests/__main__.py": "tests", "tools/ship": "dist", "test": "test", "tools/deb": "package", "tools/image": "image"}
STEP = """#!/usr/bin/env python3
import os, sys
print("{name}", *(it for it in sys.argv[1:] if it[0] != "/"))
if "{name}" == "package":
    open(os.path.join(sys.argv[1], "a_1.0_amd64.deb"), "w").close()
if "{name}" == "image":
    os.makedirs(sys.argv[2])
    open(os.path.join(sys.argv[2], "index.json"), "w").close()
sys.exit("{name}" in os.environ.get("FAILING", ""))
"""
CHANGES = "# What is new\n\n## Not released\n\n- Much.\n\n## 1.0, 2026-11-27\n\nThe first.\n"


def releasing(clone: Clone) -> None:
    """The steps of a release, in their order, with stand-ins; and the next version, in each place."""
    if not shutil.which("git"):
        print("left out: a release needs git")
        return
    put(clone.at("crates/rq_file/src/version.rt"), '/// The version.\npub const VERSION: &str = "1.0";\n')
    put(clone.at("CHANGELOG.md"), CHANGES)
    for path, name in STEPS.items():
        put(clone.at(path), STEP.format(name=name), 0o755)
    git = ["git", "-C", clone.folder, "-c", "user.name=a", "-c", "user.email=a@b"]
    for words in (["init", "-q"], ["add", "-A"], ["commit", "-qm", "all"]):
        subprocess.run([*git, *words], check=True)
    folder = os.path.join(os.path.dirname(clone.folder), "release")
    status, out, _ = clone.run("tools/release", folder)
    check("what is not released", (status, "not done: changes: " in out, "1 steps are not done" in out), (1, True, True))
    check("the steps", [it[3:] for it in out.splitlines() if it.startswith("== ")][:-1],
          ["tree", "versions", "changes", "dist", "test", "wrong programs", "wrong versions", "driven", "shipped", "package", "image",
           "packages"])
    check("their commands", [it for it in out.splitlines() if it.split(" ")[0] in STEPS.values()],
          ["tests documents versions", "dist --check", "test", "tests torture --wrong", "tests many --wrong", "tests driven", "test --shipped",
           "package", "image", "tests packages"])
    check("what is left to people", [it for it in out.splitlines() if it.startswith("left to you")],
          ["left to you: a licence: package and image say that they are not licensed for distribution", "left to you: the tag: git tag v1.0"])
    check("what it leaves", files_below(folder), ["SHA256SUMS", "a_1.0_amd64.deb", "a_1.0_amd64.oci.tar"])
    check("over it", clone.run("tools/release", folder)[0], 1)
    shutil.rmtree(folder)
    status, out, _ = clone.run("tools/release", "--without", "shipped", folder, FAILING="test package")
    check("steps that fail", (status, [it.split(":")[1][1:] for it in out.splitlines() if it.startswith("not done")]),
          (1, ["changes", "test", "shipped", "package"]))
    shutil.rmtree(folder)
    next_version(clone, folder)


def next_version(clone: Clone, folder: str) -> None:
    for words in (["1.0"], ["0.9"], ["2"], ["1.1.1"], ["1.1", "x"]):
        check(f"the next version is {words}", clone.run("tools/release", "--next", *words)[0] in (1, 2), True)
    check("the next version", clone.run("tools/release", "--next", "1.10")[0], 0)
    told = [content(clone.at(it)).count("1.10") for it in ("crates/rq_file/src/version.rt", "rq-many", "CHANGELOG.md", "docs/rq.1", "docs/rq-many.1")]
    check("each place", told, [1] * 5)
    head = content(clone.at("docs/rq-many.1")).partition("\n")[0]
    check("a manual's head", head, f'.TH RQ\\-MANY 1 "{date.today()}" "rq\\-many 1.10" "User Commands"')
    check("the changes", f"## 1.10, {date.today()}\n\n- Much.\n\n## 1.0, " in content(clone.at("CHANGELOG.md")), True)
    check("none is left", clone.run("tools/release", "--next", "1.11")[0], 1)
    status, out, _ = clone.run("tools/release", folder)
    check("now it is not committed", (status, "not done: tree: " in out, "not done: changes: " in out), (1, True, False))
    subprocess.run(["git", "-C", clone.folder, "-c", "user.name=a", "-c", "user.email=a@b", "commit", "-qam", "next"], check=True)
    shutil.rmtree(folder)
    check("all is done", clone.run("tools/release", folder)[0::2], (0, ""))


# Checks of a crate, of one above it, of one beside them, of a program over the first two, and two wrong bodies of the first: for each,
# those that it waits for, and its lines.
LOW, HIGH, SIDE, PROGRAM = ((it, "proof") for it in ("low", "high", "side", "program"))
WRONG, WRONG_TOO = ("low", "edits", 0), ("low", "edits", 1)
CHECKS: Dict[Any, Tuple[List[Any], int]] = {LOW: ([], 100), SIDE: ([], 150), WRONG: ([], 300), HIGH: ([LOW], 100), PROGRAM: ([LOW, HIGH], 10)}
CHECKS[WRONG_TOO] = CHECKS[WRONG]


def order(_: Clone) -> None:
    """The longest chain comes first, with what is compiled for a program, and wrong bodies come last."""
    tasks = {key: proofs.Task(waits, lines, 2, lambda given, jobs: True) for key, (waits, lines) in CHECKS.items()}
    ranks = proofs.ranks(tasks)
    check("order of checks", sorted(ranks, key=ranks.get, reverse=True), [LOW, SIDE, HIGH, PROGRAM, WRONG, WRONG_TOO])
    check("chain of a program", ranks[PROGRAM], (True, 30.0))

    def jobs(processors: int, memory: float, is_fixed: bool, *keys: Any, is_sparing: bool = False) -> List[int]:
        shares = proofs.Shares(processors, memory, is_fixed, ranks, is_sparing)
        return [shares.begin(it, 2, False) for it in keys]

    check("on two processors", jobs(2, 100, False, LOW, SIDE, WRONG), [1, 1, 0])
    check("on four", jobs(4, 100, False, SIDE, WRONG, LOW), [3, 2, 3])
    check("of one rank", jobs(4, 100, False, WRONG, WRONG_TOO), [3, 2])
    check("alone", [proofs.Shares(4, 100, False, ranks, it).begin(PROGRAM, 2, True) for it in (False, True)], [4, 1])
    check("sparing", jobs(2, 100, False, SIDE, PROGRAM, WRONG, LOW, is_sparing=True), [1, 1, 0, 1])
    check("with little memory", jobs(4, 4, False, LOW, SIDE, WRONG), [2, 0, 0])
    check("with less, of so many processors", jobs(2, 1, True, LOW, SIDE, WRONG), [1, 1, 0])


@contextmanager
def set_to(name: str, value: str) -> Iterator[None]:
    """A variable of the environment, for a while."""
    before = os.environ.get(name)
    os.environ[name] = value
    try:
        yield
    finally:
        del os.environ[name]
        if before is not None:
            os.environ[name] = before


def side_by_side(_: Clone) -> None:
    """All checks run once, each once those that it waits for have ended."""
    begun: List[Any] = []

    def task(key: Any) -> Tuple[Any, ...]:
        waits, lines = CHECKS[key]

        def call(given: Dict[Any, Any], jobs: int) -> Any:
            begun.append((key, all(it in given for it in waits)))
            return key

        return waits, lines, 2, call

    rt = SimpleNamespace(processors=lambda: 2, free=lambda: 100, ending=nullcontext)
    for number in ("", "0", "1", "4"):
        begun.clear()
        with set_to("RT_JOBS", number):
            given = proofs.side_by_side(rt, {it: task(it) for it in CHECKS}, number == "1")
        check(f"what checks gave, of RT_JOBS={number}", given, {it: it for it in CHECKS})
        check(f"checks that began, of RT_JOBS={number}", sorted(begun, key=str), sorted(((it, True) for it in CHECKS), key=str))


# --- completions -----------------------------------------------------------------------------------------------------

TABLES = {"rqlook": "crates/rqlook/src/command_table.rt", "rqlog": "crates/rqlog/src/words.rt"}
SHARED = "crates/rq_words/src"
# A word of a table that begins with two dashes: its name is in lower case.
WORD = re.compile(r'Word\(\s*"([a-z-]+)"')
MANY = {"list": [], "run": ["again", "list", "part", "workers"], "collect": ["clean", "list", "person", "verify"]}


def words_of(name: str) -> Dict[str, List[str]]:
    """The commands of a program, each with its options, as its source has them."""
    text = content(os.path.join(TOP, TABLES[name]))
    shared = text + "".join(map(content, glob.glob(os.path.join(TOP, SHARED, "*.rt"))))
    constants = {it: found for it, found in re.findall(r'const (\w+): Word = Word\(\s*"([\w-]+)"', shared)}
    commands = {}
    for command, inside in re.findall(r'name: "([\w-]+)",.*?words: &\[(.*?)\],?\s*\}', text, re.S):
        named = [constants[it] for it in re.findall(r"^\s*([A-Z_]+),|\b([A-Z_]+)(?=[,\]]|$)", inside, re.M) for it in it if it in constants]
        commands[command] = sorted({it for it in [*WORD.findall(inside), *named] if it.islower()} | {"help"})
    return commands


def commands_of_rq() -> List[str]:
    return sorted(set(re.findall(r"`rq ([\w-]+) [A-Z]", content(os.path.join(TOP, "docs/OPERATING.md")).partition("## Which command")[2].partition("\n## ")[0])))


def bash(path: str, name: str, line: List[str]) -> List[str]:
    script = f'source {path}; COMP_WORDS=("$@"); COMP_CWORD=$(($# - 1)); _{name.replace("-", "_")}; printf "%s\\n" "${{COMPREPLY[@]}}"'
    return offered(["bash", "--norc", "-c", script, "bash", name, *line])


def fish(path: str, name: str, line: List[str]) -> List[str]:
    found = offered(["fish", "--no-config", "-c", f"source {path}; complete -C '{' '.join([name, *line])}'"])
    return [it.split("\t")[0] for it in found]


def zsh(path: str, name: str, line: List[str]) -> List[str]:
    """What the function hands to the calls that complete."""
    stubs = '_describe() { print -rl -- "${(@)commands%%:*}" }; _arguments() { print -rl -- "$@" }'
    script = f'{stubs}; f() {{ source {path} }}; words=("$@"); CURRENT=$#; f'
    return [re.sub(r"^(?:\([^)]*\))?\*?(--?[\w-]+)\[.*", r"\1", it) for it in offered(["zsh", "-f", "-c", script, "zsh", name, *line])]


def offered(words: List[str]) -> List[str]:
    done = subprocess.run(words, stdin=subprocess.DEVNULL, stdout=subprocess.PIPE, stderr=subprocess.PIPE, universal_newlines=True)
    check(f"{words[0]} says nothing", done.stderr, "")
    return [it for it in done.stdout.splitlines() if it]


SHELLS = {"bash": (bash, "bash/{}"), "zsh": (zsh, "zsh/_{}"), "fish": (fish, "fish/{}.fish")}


def try_shell(shell: str, folder: str) -> None:
    complete, place = SHELLS[shell]
    tables = {**{name: words_of(name) for name in TABLES}, "rq-many": MANY, "rq": {it: [] for it in commands_of_rq()}}
    for name, commands in tables.items():
        path = os.path.join(folder, place.format(name))
        check(f"{shell}: commands of {name}", sorted(it for it in complete(path, name, [""]) if it[0] != "-"), sorted(commands))
        for command, options in commands.items():
            found = {it[2:] for it in complete(path, name, [command, "--"]) if it.startswith("--")}
            check(f"{shell}: options of {name} {command}", sorted(found), options)
    at = os.path.join(folder, place.format("rqlook"))
    if shell != "zsh":
        check(f"{shell}: what stands behind an option", sorted(complete(at, "rqlook", ["page", "--order", ""])), ["depth", "name", "number"])
        check(f"{shell}: a file", f"{folder}/a.log" in complete(at, "rqlook", ["dump", f"{folder}/a."]), True)
        many = os.path.join(folder, place.format("rq-many"))
        found = complete(many, "rq-many", ["run", "--list", f"{folder}/a."])
        check(f"{shell}: a file behind an option", f"{folder}/a.log" in found, True)


def completions(folder: str) -> None:
    tables = {name: words_of(name) for name in TABLES}
    check("the tables have commands and words", all(len(it) > 4 and all(it.values()) for it in tables.values()), True)
    check("and rq has seven", len(commands_of_rq()), 7)
    put(os.path.join(folder, "a.log"), "")
    subprocess.run([sys.executable, os.path.join(TOP, "tools", "completions.py"), folder, "--look", RQLOOK, "--write", RQLOG], check=True)
    for shell in SHELLS:
        if shutil.which(shell):
            try_shell(shell, folder)
        else:
            print(f"left out: there is no {shell}")


def main(options: argparse.Namespace) -> None:
    folder = tempfile.mkdtemp(prefix="rq-scripts-")
    os.chmod(folder, 0o755)
    try:
        clone = Clone(folder)
        for part in (words, shipping, terminals, changes, bytes_changed, building, read_only, installing, order, side_by_side, releasing):
            try:
                part(clone)
            except Exception as fault:
                check(part.__name__, repr(fault), "")
    finally:
        shutil.rmtree(folder)
    completions(options.folder)
