"""Quick. Holds the documents against what they show and what CONTRIBUTING asks of them, and what tells the version against the source.

`sessions`: a document shows a terminal session at the top of the clone: a fenced block marked `sh`, in which a line that begins with `$ ` is a
command, lines that begin with `> ` go on with it, and the lines below, up to the next command or the end of the block, are all that it prints, on
standard output and standard error. Each session that names `./rq` is run. The sessions of one document are run in turn in one folder, which has
`rq`, `rqlook`, `rqlog`, `rq-many`, `examples`, `bench` and `tests` of the clone and starts without any other file; `./rq` is then a link to the
program that is named, or to the root script, which proves and builds one if dist/ has none of these sources. A fenced block that names `./rq`
and is no such session fails. Other blocks are not run.

`callers`: a caller is a fenced block marked `rust`, in crates/*/CALLING.md. The paragraph before it names, in backquotes, the file that has these
lines, and the test that runs them: `crates/NAME/src/FILE.rt` and `the_name_of_the_test`. The block passes if its lines stand in that file, one
after the other, as they are but for how far all of them are indented; if the gate proves the file's crate, which stands in `crates.txt`; and if a
test of that name stands in some crate of `crates.txt`. A page without a caller fails.

`prose`: a sentence has at most 30 words. A command, a name or a number in backquotes is one word, and of a link its text counts. Headings, tables,
fenced blocks and quotations (`>`) are no sentences. Over all documents *if* stands at least as often as *where*, tables included: `if` is for
conditions, `where` for places. A link to a file of the repository finds that file, and the heading that it names. With --words it prints a line
for each document: its words, sentences that are too long, *if* and *where*.

`versions`: the source is the constant VERSION of crates/rq_file. The head of each manual, docs/*.1, must have it, the newest part of CHANGELOG.md
and what the programs answer to --version that are named, and rq-many; and with --package a package, its programs and its list of what changed. If
the clone has a tag of a version, as v1.0 (`git describe --tags`), the commit of that tag must have it, and no commit behind it may have a lower
one.
"""
from __future__ import annotations
import argparse, glob, gzip, os, re, subprocess, tempfile, textwrap
from typing import NamedTuple

from trying import RQ, RQLOG, RQLOOK, TOP, check, text_in

# --- sessions --------------------------------------------------------------------------------------------------------

class Command:
    """A command of a document, and what the document says it prints."""

    def __init__(self, line: int, words: str):
        self.line, self.words, self.wanted = line, words, ""


def blocks(path: str) -> list[tuple[int, str, list[str]]]:
    """The fenced blocks of a document: the line of the fence, its mark, the lines inside."""
    found, inside = [], None
    for number, line in enumerate(text_in(path).splitlines(keepends=True), 1):
        fence = line.strip()
        if not fence.startswith("```"):
            if inside:
                inside[2].append(line)
        elif inside:
            found.append(inside)
            inside = None
        else:
            inside = (number, fence[3:].strip(), [])
    return found


def commands_of(first: int, lines: list[str]) -> list[Command]:
    """The commands of a session, each with what it prints."""
    found: list[Command] = []
    for number, line in enumerate(lines, first + 1):
        if line.startswith("$ "):
            found.append(Command(number, line[2:]))
        elif found and line.startswith("> ") and not found[-1].wanted:
            found[-1].words += line[2:]
        elif found:
            found[-1].wanted += line
    return found


def is_session(mark: str, lines: list[str]) -> bool:
    return mark == "sh" and bool(lines) and lines[0].startswith("$ ")


def fill(folder: str, programs: dict[str, str]):
    """Makes the folder look like the clone to whoever runs a session there."""
    for name, program in programs.items():
        os.symlink(os.path.abspath(program), os.path.join(folder, name))
    for name in ("rq-many", "examples", "bench", "tests"):
        os.symlink(os.path.join(TOP, name), os.path.join(folder, name))


def run_in(folder: str, command: Command) -> str:
    done = subprocess.run(["sh", "-c", command.words], cwd=folder, stdin=subprocess.DEVNULL, stdout=subprocess.PIPE, stderr=subprocess.STDOUT)
    return done.stdout.decode("utf-8", "replace")


def sessions(paths: list[str], programs: dict[str, str]) -> None:
    """The sessions of each document are run in turn in one folder."""
    for path in paths:
        with tempfile.TemporaryDirectory(prefix="rq-docs-") as folder:
            fill(folder, programs)
            for first, mark, lines in blocks(path):
                if "./rq" not in "".join(lines):
                    continue
                if not is_session(mark, lines):
                    check(f"{path}:{first}: names ./rq", "no session", "a session")
                    continue
                for command in commands_of(first, lines):
                    printed = run_in(folder, command)
                    if not check(f"{path}:{command.line}", printed == command.wanted, True):
                        print(f"$ {command.words}--- the document\n{command.wanted}--- printed\n{printed}---")


# --- callers ---------------------------------------------------------------------------------------------------------

FILE = re.compile(r"`(crates/(\w+)/src/[\w/]+\.rt)`")
WORD = re.compile(r"`(\w+)`")
TEST = re.compile(r"#\[test\]\s+fn (\w+)\(")


class Caller(NamedTuple):
    """A block of a page: the line of its fence, what the paragraph before says, and its lines."""

    line: int
    before: str
    code: list[str]


# The crate whose tests the gate runs and does not prove.
ONLY_RUN = "rq_tests"


def all_crates() -> set[str]:
    lines = (it.partition("#")[0] for it in text_in(os.path.join(TOP, "crates.txt")).split("\n"))
    return {it.replace(":", " ").split()[0] for it in lines if ":" in it}


def tests_of(crates: set[str]) -> set[str]:
    """The names of all tests of these crates."""
    paths = [path for it in crates for path in glob.glob(os.path.join(TOP, "crates", it, "src", "**", "*.rt"), recursive=True)]
    return {name for path in paths for name in TEST.findall(text_in(path))}


def paragraph_before(page: list[str], fence: int) -> str:
    """The text right before a fence, whose line is counted from 1."""
    text = "\n".join(page[:fence - 1]).rstrip()
    return " ".join(text[text.rfind("\n\n") + 1:].split())


def callers(path: str) -> list[Caller]:
    page = text_in(path).split("\n")
    return [Caller(line, paragraph_before(page, line), [it.rstrip("\n") for it in code])
            for line, mark, code in blocks(path) if mark == "rust"]


def flush(lines: list[str]) -> str:
    """The lines, moved left together until one begins at the margin."""
    return textwrap.dedent("\n".join(lines))


def stands_in(code: list[str], file: list[str]) -> bool:
    wanted = flush(code)
    starts = (i for i, line in enumerate(file) if line.strip() == code[0].strip())
    return any(flush(file[i:i + len(code)]) == wanted for i in starts)


def trouble(caller: Caller, crates: set[str], tests: set[str]) -> str | None:
    """Why a caller does not pass; none if it does."""
    named = FILE.search(caller.before)
    if not named:
        return "names no file crates/NAME/src/FILE.rt before it"
    path, crate = named.groups()
    if crate not in crates or crate == ONLY_RUN:
        return f"{crate} is no crate of crates.txt that the gate proves"
    if not os.path.isfile(os.path.join(TOP, path)):
        return f"there is no {path}"
    if not any(line.strip() for line in caller.code):
        return "has no lines"
    if not stands_in(caller.code, text_in(os.path.join(TOP, path)).split("\n")):
        return f"does not stand so in {path}"
    if not tests & set(WORD.findall(caller.before)):
        return "names no test before it that runs it"
    return None


def shown_callers(paths: list[str]) -> None:
    crates = all_crates()
    tests = tests_of(crates)
    for path in paths:
        name, found = os.path.relpath(path, TOP), callers(path)
        for line, why in [(it.line, trouble(it, crates, tests)) for it in found] or [(1, "shows no caller")]:
            check(f"{name}:{line}", why, None)


# --- prose -----------------------------------------------------------------------------------------------------------

LONGEST = 30
CODE = re.compile(r"``[^`]+``|`[^`]+`")
LINK = re.compile(r"\[([^\]]*)\]\(([^)\s]*)\)")
ITEM = re.compile(r"^\s*(?:[-*]|\d+\.)\s+")
# A full stop in these ends no sentence.
SHORT = re.compile(r"\.\.|\b(?:e\.g|i\.e|etc|vs)\.|(?<=\d)\.(?=\d)|\b[A-Z]\.(?= [A-Z])")
END = re.compile(r"[.?!](?:[)\"'*_]*)(?=\s|$)")


class Sentence(NamedTuple):
    line: int
    text: str

    def words(self) -> int:
        return sum(1 for it in self.text.split() if re.search(r"\w", it))


class Document(NamedTuple):
    path: str
    # Each line that is text, with its number; a fenced block and a heading are no lines.
    lines: list[tuple[int, str]]
    headings: list[str]


def read(path: str) -> Document:
    lines, headings, fenced = [], [], False
    for number, line in enumerate(text_in(path).splitlines(), 1):
        if line.lstrip().startswith("```"):
            fenced = not fenced
            lines.append((number, ""))
        elif line.startswith("#") and not fenced:
            headings.append(line.lstrip("#").strip())
            lines.append((number, ""))
        elif not fenced:
            lines.append((number, line))
    return Document(path, lines, headings)


def plain(text: str) -> str:
    """What counts as words: of a link its text, of code one word."""
    return CODE.sub("code", LINK.sub(r"\1", text))


def paragraphs(document: Document) -> list[list[tuple[int, str]]]:
    """The lines that belong together: a list's item is a paragraph, a table is none."""
    found: list[list[tuple[int, str]]] = [[]]
    for number, line in document.lines:
        if not line.strip() or line.lstrip().startswith(("|", ">")):
            found.append([])
        elif ITEM.match(line):
            found.append([(number, ITEM.sub("", line))])
        else:
            found[-1].append((number, line.strip()))
    return [it for it in found if it]


def sentences(paragraph: list[tuple[int, str]]) -> list[Sentence]:
    """The sentences of a paragraph, each with the line where it begins."""
    text, starts = "", []
    for number, line in paragraph:
        starts.append((len(text), number))
        text += line + " "
    # Code and links may go on over a line's end, and their words must not change where a sentence stands.
    text = LINK.sub(lambda it: it.group(1).ljust(len(it.group())), text)
    text = CODE.sub(lambda it: "code".ljust(len(it.group())), text)
    text = SHORT.sub(lambda it: "_" * len(it.group()), text)
    found, begin = [], 0
    for end in [it.end() for it in END.finditer(text)] + [len(text)]:
        part = text[begin:end]
        if part.strip():
            at = begin + len(part) - len(part.lstrip())
            found.append(Sentence(max(line for start, line in starts if start <= at), " ".join(part.split())))
        begin = end
    return found


def count(word: str, document: Document) -> int:
    return sum(len(re.findall(rf"\b{word}\b", plain(line), re.I)) for _, line in document.lines)


def anchor(heading: str) -> str:
    """The name by which a link finds a heading."""
    return re.sub(r"[^\w\- ]", "", LINK.sub(r"\1", heading).replace("`", "").lower()).replace(" ", "-")


def lost_links(document: Document) -> list[str]:
    lost = []
    text = " ".join(line for _, line in document.lines)
    for target in (it.group(2) for it in LINK.finditer(text)):
        file, _, heading = target.partition("#")
        if "://" in target:
            continue
        path = os.path.normpath(os.path.join(os.path.dirname(document.path), file)) if file else document.path
        if not os.path.exists(path):
            lost.append(f"the link {target} finds no file")
        elif heading and heading not in map(anchor, read(path).headings):
            lost.append(f"the link {target} finds no heading")
    return lost


def prose(paths: list[str], shows_words: bool) -> None:
    ifs = wheres = 0
    for document in map(read, paths):
        name = os.path.relpath(document.path, TOP)
        long = [it for block in paragraphs(document) for it in sentences(block) if it.words() > LONGEST]
        check(f"{name}: sentences that are too long, and lost links", [f"{it.line}: {it.words()} words: {it.text}" for it in long] + lost_links(document), [])
        of_if, of_where = count("if", document), count("where", document)
        ifs, wheres = ifs + of_if, wheres + of_where
        if shows_words:
            print(f"{name}: {len(text_in(document.path).split())} words, {len(long)} too long, if {of_if}, where {of_where}")
    check(f"where stands {wheres} times and if {ifs} times", wheres <= ifs, True)


# --- versions --------------------------------------------------------------------------------------------------------

SOURCE = re.compile(r'^pub const VERSION: &str = "(\d+\.\d+)";$', re.M)
# The head of a manual: its name, its section, its day, the program with its version, and the book that it belongs to.
HEAD = re.compile(r'\.TH ([\w-]+) 1 "\d{4}-\d\d-\d\d" "([\w-]+) ([^"]+)" "User Commands"')
# The head of a version's part in the list of what changed; what is not released yet has no number.
PART = re.compile(r"^## (\d+\.\d+), \d{4}-\d\d-\d\d$", re.M)
# A tag of a version, and how many commits behind it this one is.
TAG = re.compile(r"v?(\d+\.\d+)(?:-(\d+)-g[0-9a-f]+)?")


def version_in_source() -> str | None:
    found = SOURCE.findall(text_in(os.path.join(TOP, "crates", "rq_file", "src", "version.rt")))
    return found[0] if len(found) == 1 else None


def numbers(version: str) -> list[int]:
    return [int(it) for it in version.split(".")]


def told(program: str) -> tuple[int, bytes]:
    done = subprocess.run([program, "--version"], stdout=subprocess.PIPE)
    return done.returncode, done.stdout


def tag() -> tuple[str, int] | None:
    """The version of the nearest tag of one, and how many commits behind it this one is; none if there is no such tag."""
    words = ["git", "-C", TOP, "describe", "--tags", "--match", "v[0-9]*", "--match", "[0-9]*"]
    try:
        said = subprocess.run(words, stdout=subprocess.PIPE, stderr=subprocess.DEVNULL, universal_newlines=True).stdout
    except OSError:
        return None
    found = TAG.fullmatch(said.strip())
    return (found[1], int(found[2] or 0)) if found else None


def same_tag(version: str) -> None:
    found = tag()
    if not found:
        print("the clone has no tag of a version")
    elif found[1] == 0:
        check("the tag's version", found[0], version)
    else:
        check(f"a version behind that of the tag, {found[0]}", numbers(version) >= numbers(found[0]), True)


def same_package(path: str, version: str | None) -> None:
    """A package tells the version in its head, and so do the programs and the list of changes in it."""
    field = subprocess.run(["dpkg-deb", "--field", path, "Version"], stdout=subprocess.PIPE, universal_newlines=True).stdout.strip()
    check("what the package tells", field, version)
    with tempfile.TemporaryDirectory(prefix="rq-versions-") as folder:
        subprocess.run(["dpkg-deb", "--extract", path, folder], check=True)
        for name in ("rqlook", "rqlog"):
            program = os.path.join(folder, "usr/lib/tetherearly/libexec/rq", name)
            check(f"what the package's {name} tells", told(program), (0, f"{name} {version}\n".encode()))
        check("what the package's rq-many tells", told(os.path.join(folder, "usr/bin/rq-many")), (0, f"rq-many {version}\n".encode()))
        with gzip.open(os.path.join(folder, "usr/share/doc/tetherearly/CHANGELOG.md.gz"), "rt", encoding="utf-8") as file:
            check("the newest version of the package's CHANGELOG.md", PART.findall(file.read())[:1], [version])


def versions(package: str | None) -> None:
    version = version_in_source()
    check("the source has one version, of two numbers", version is not None, True)
    for path in sorted(glob.glob(os.path.join(TOP, "docs", "*.1"))):
        name = os.path.basename(path)[:-2]
        head = HEAD.fullmatch(text_in(path).partition("\n")[0].replace("\\-", "-"))
        check(f"the head of {name}'s manual", head and head.groups(), (name.upper(), name, version))
    parts = PART.findall(text_in(os.path.join(TOP, "CHANGELOG.md")))
    check("the newest version of CHANGELOG.md", parts[:1], [version])
    check("its versions fall", parts, sorted(set(parts), key=numbers, reverse=True))
    for name, program in (("rq-many", os.path.join(TOP, "rq-many")), ("rqlook", RQLOOK), ("rqlog", RQLOG)):
        if program:
            check(f"what {name} tells", told(program), (0, f"{name} {version}\n".encode()))
    if package:
        same_package(package, version)
    same_tag(version or "0.0")


PAGES = {
    "sessions": ["README.md", "docs/*.md"],
    "callers": ["crates/*/CALLING.md"],
    "prose": ["README.md", "CHANGELOG.md", "docs/*.md", "docs/measured/*.md", "bench/README.md", "tests/README.md", "python/README.md", "crates/*/*.md",
              "examples/many/*/README.md"],
    "versions": [],
}


def takes(line: argparse.ArgumentParser) -> None:
    line.add_argument("--words", action="store_true")
    line.add_argument("--package", metavar="FILE.deb")
    line.add_argument("parts", nargs="*", metavar="PART or FILE.md", help=", ".join(PAGES))


def main(options: argparse.Namespace) -> None:
    files = [it for it in options.parts if it.endswith(".md")]
    parts = [it for it in options.parts if it not in files] or list(PAGES)
    paths = {name: files or [path for it in places for path in sorted(glob.glob(os.path.join(TOP, it)))] for name, places in PAGES.items()}
    programs = {name: its or os.path.join(TOP, name) for name, its in (("rq", RQ), ("rqlook", RQLOOK), ("rqlog", RQLOG))}
    for name, part in {"sessions": lambda: sessions(paths["sessions"], programs), "callers": lambda: shown_callers(paths["callers"]),
                       "prose": lambda: prose(paths["prose"], options.words), "versions": lambda: versions(options.package)}.items():
        if name in parts:
            part()
