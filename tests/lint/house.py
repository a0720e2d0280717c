"""Quick. Lists what the house rules do not want: definitions that nothing reaches, names that stand for two things, and forwarders.

- A definition or lemma of `specs/` or `proofs/` is reached if a contract, an answer to a goal or a ghost member names it, or
  a definition that is reached. Names are told apart by the crate and not by the file: so this can take one for reached that is
  not, and never the other way round.
- A name stands for two things if the definitions of two crates have it and say different things, if two crates have a
  type of that name, if two files have a free function of that name for others to call, or if types of two crates have
  such a method. Tests are left out, and so are types without fields: they only name a function of clauses. What
  `ONE_THING` lists is one thing that is said of two, methods of `PLAIN` mean what their types make of them, and those of
  `STAYING` are known to callers.
- Files are nouns: the name of a file or folder of code that ends with *ing* is no thing, unless a type has that name.
- Each file of code begins with a sentence (`//!`) that says what it decides: it has three words at least, it ends, and no
  other file of the folder has the same, but for the one that a crate begins with. A file that only lists modules decides
  nothing. With --files these sentences are printed as a table, of all crates or of those named, and nothing is counted.
- ARCHITECTURE's table of crates has a row for each crate, tests too.
- The wrong bodies that `PINNED` lists are there, as edits that each gate tries, and there are `LEAST` in all. Who takes one away takes it
  from there too.
- A function only forwards if it is private, has one caller, and its body is one call with its own parameters.
- tests/README has a row for each test, for the timers, and for each tool, which says who runs it and when; and ./test runs what is quick.
What passes is a rule that holds, and what fails is what breaks one.
With --untested it lists the public calls of the libraries that no test reaches. A public call is a function that a library's `lib.rt` exports,
or a public method of a type that it exports; a law, which takes and answers nothing, is none. A test reaches what it names, and what the
functions name that it reaches. So do the programs, whose lines are asked from outside. With --direct a call is reached if a test in memory names
it itself. Functions are told apart by their names and, if they belong to one, by their types: so this can take a call for reached that shares its
name with another one, and never the other way round.
With --tests-alone it lists the public calls that no program and no other library names: tests at most. Only what stands on a library can name its
calls. It is a table to look at, and the same holds of shared names. What a page of the library offers to callers may stand there, and so may what
the contracts of the statement ask for.
"""
from __future__ import annotations
import argparse, glob, os, re
from typing import Callable, NamedTuple

import trying
from __main__ import files, first_line, tests
from trying import TOP, text_in

CRATES = os.path.join(TOP, "crates")
# The wrong bodies without which the program would be worth nothing, and how many there are at least of all.
PINNED, LEAST = os.path.join(TOP, "tests", "lint", "pinned.txt"), 700
TESTS, PROGRAMS = {"rq_rows", "rq_tests", "rq_scarce", "rqdrive"}, {"rq", "rqlook", "rqlog"}
# The head of a definition, or of a module with parameters, in which some stand.
HEAD = re.compile(r"^(?:abbrev |unfolding |unfoldable |pub |record |data )*(?!use |open |infix|ruleset |pub mod |mod )([^\s(){}:]+)(?= [^=\n]*(?::|where)| :)", re.M)
INNER = re.compile(r"^  (?:abbrev |unfolding |pub |record |data )*([^\s(){}:]+)(?: [^=\n]*?)? :", re.M)
TOKEN = re.compile(r"[^\s(){}\[\],;.`λ→↔×]+")
# Files whose names are asked for by the prover: a goal, an invariant, a variant.
ASKED = ("Answers.antt", "Invariants.antt", "Variants.antt")
# A head of a function, with what its line is behind and whether others can call it.
HEADED = re.compile(r"^( *)(pub(?:\([a-z]+\))? )?(?:const )?fn (\w+)", re.M)
# A block of methods, and the type that it is of; where one ends, and at a trait's, no type.
BLOCK = re.compile(r"^(?:impl(?:<[^{]*?>)? (?:[^{\n]* for )?&?(\w+)|(?:pub(?:\([a-z]+\))? )?trait \w+|\})", re.M)
# A type that has fields, variants or members.
TYPE = re.compile(r"^(?:pub(?:\([a-z]+\))? )?(?:struct|enum|trait) (\w+)(?!\w)(?!;)", re.M)
# A sentence, and the lines of a file that only list its modules.
SENTENCE = re.compile(r".+?\.(?=\s|$)")
MODULES = re.compile(r"^(?:pub(?:\([a-z]+\))? )?mod \w+;$", re.M)
# A list of lemmas that tactics are given, on one line or several.
RULES = re.compile(r"^(?:pub )?ruleset \S+ = \([^()]*\)", re.M)
# Methods whose names say nothing without their type: what makes a value (`none` and `blank`: an empty one), what std's traits
# and containers call so, and what a type of its kind is for: to be opened and closed, or begun and ended, and to take in or
# put out what its argument or its type names, a number of so many bits too.
PLAIN = {
    "new", "of", "none", "blank", "open", "close", "begin", "end", "finish",
    "len", "is_empty", "next", "fmt", "get", "insert", "remove", "push", "append", "take", "put",
    "u8", "u16", "u32", "u64",
}
# Names that say one thing of two: of these crates, and which thing. In a further crate such a name is looked at again.
ONE_THING = {
    "Record": ("rq_model rq_record", "a record as data; in rq_record, the same kinds with the same fields as contracts see them in code"),
    "act": ("rq_tool rqlog rqlook", "does what the words of a program's line ask"),
    "append_frame": ("rq_journal rq_restart", "appends the frame of a body behind 32 bytes"),
    "errors_of": ("rq_catalog rq_exchange", "the error queue of each queue"),
    "name": ("rq_queue rq_record rq_state", "the name of a registrant or a queue, that is kept or of who is kept"),
    "open_units_of": ("rq_catalog rq_standing", "the open units of a state"),
    "program": ("rqlog rqlook", "the words of a program, for clap"),
    "report": ("rq_look rq_report", "the report of a log"),
    "listing": ("rq_queue rq_standing", "the free elements of a queue, in the order in which they would be taken"),
    "state": ("rq_restart rq_standing", "the state in which a value stands, or that an answer has"),
    "front_of": ("rq_judged rqlog", "the front of a log"),
    "end_of": ("rq_found rq_judged", "where the front of a log ends"),
    "abort": ("rq_catalog rq_found rq_live rq_queue", "aborts a unit, in the catalogue or in the queues"),
    "commit": ("rq_live rq_queue", "commits a unit, in the manager or in the queues"),
    "dequeue": ("rq_live rq_queue", "takes the best element of a queue"),
    "kill": ("rq_live rq_queue", "takes a free element out of a queue"),
    "settle": ("rq_file rq_live", "ends the work on what was written, so that it stays"),
    "aborted": ("rq_catalog rq_restart rq_state", "how many units were aborted"),
    "definitions": ("rq_catalog rq_live rq_standing rq_state", "the definitions of all queues, by number"),
    "Request": ("rq_serve rqlook", "what is asked of a service or of a program"),
    "word": ("rq_judged rq_serve", "the word by which a value is told"),
    "greatest": ("rq_catalog rq_live rq_standing rq_state", "the greatest unit that began"),
    "committed": ("rq_catalog rq_restart rq_state", "how many units were committed"),
    "broken": ("rq_catalog rq_journal rq_lawful rq_standing", "a rule that the record breaks: an appender asks its judge"),
    "bytes": ("rq_device rq_record rq_writer", "the bytes of a value"),
    "compare": ("rq_queue rq_standing rq_state", "the value's spelling is to come next in the bytes"),
    "count": ("rq_queue rq_standing", "how many members there are"),
    "lent": ("rq_queue rq_record rq_state", "the same value, lent"),
    "registrant_count": ("rq_queue rq_state", "how many registrants there are"),
    "copied": ("rq_record rq_state", "the same value again"),
    "register": ("rq_catalog rq_live rq_queue", "registers a name with a queue"),
    "deregister": ("rq_catalog rq_live rq_queue", "ends a registration"),
    "empty": ("rq_standing rq_state", "the state before the first record"),
    "engage": ("rq_catalog rq_standing", "a unit engages a queue"),
    "first": ("rq_live rq_queue rq_standing", "the element of a queue that the next DEQUEUE takes"),
    "first_elements": ("rq_live rq_queue", "the first free elements of a queue, in the order in which they would be taken"),
    "file": ("rq_file rq_log_file rqlog", "the file that is held"),
    "hear": ("rq_queue rq_state", "hears of an operation that is committed"),
    "is_by": ("rq_queue rq_state", "whether a note is of the unit"),
    "is_of": ("rq_queue rq_state", "whether a note is of the registrant"),
    "key": ("rq_queue rq_state", "what a member is in order by"),
    "marked_by": ("rq_queue rq_standing", "what a unit put in or took of a queue"),
    "note": ("rq_queue rq_state", "the note of an operation"),
    "into_file": ("rq_file rq_log_file", "the open file of a value, which is let go"),
    "open_count": ("rq_live rq_standing", "how many units are open"),
    "open_units": ("rq_catalog rq_found rq_live rq_standing", "the units that are open"),
    "place": ("rq_queue rq_state", "the record's number in the log"),
    "queue": ("rq_found rq_queue rq_state", "the queue that a value is of"),
    "record": ("rq_look rq_queue rq_record", "the record that a value holds or spells"),
    "tell": ("rqlog rqlook", "says on standard error why a program ends"),
    "version": ("rq_catalog rq_journal rq_standing rqlog", "the version by whose rules records are judged"),
}
# Public calls that say another thing elsewhere and keep their names, since callers know them: of a closed countdown.
STAYING = {"home", "last"}
# Words that end with *ing* and are things.
THINGS = {"beginning", "listing"}


class Definition(NamedTuple):
    crate: str
    file: str
    # One, or those of a module with parameters.
    names: tuple[str, ...]
    text: str

    def title(self) -> str:
        return f"{self.crate}/{self.file}: {', '.join(self.names)}"

    def words(self) -> set[str]:
        """What it is called by: an operator `◌≡◌` by `≡` alone."""
        return {part for name in self.names for part in (name.split("◌") if "◌" in name else [name]) if part}


def without_comments(text: str) -> str:
    return re.sub(r"--.*", "", text)


def blocks(text: str) -> list[tuple[tuple[str, ...], str]]:
    """The definitions of a file in their order, each with its names and its text; equations belong to the head before them."""
    text = re.sub(r"^use .*$", "", without_comments(text), flags=re.M)
    heads: list[tuple[str, int]] = []
    for it in HEAD.finditer(text):
        name = it.group(1)
        if name == "module" or not heads or name != heads[-1][0]:
            heads.append((name, it.start()))
    ends = [start for _, start in heads[1:]] + [len(text)]
    found = []
    for (name, start), end in zip(heads, ends):
        inside = text[start:end]
        found.append((tuple(INNER.findall(inside)) if name == "module" else (name,), inside))
    return found


def files_of(crate: str, pattern: str) -> list[str]:
    return sorted(glob.glob(os.path.join(CRATES, crate, pattern), recursive=True))


def antt_files(crate: str) -> list[str]:
    return files_of(crate, "specs/**/*.antt") + files_of(crate, "proofs/**/*.antt")


def tokens(text: str) -> set[str]:
    return set(TOKEN.findall(text))


def used_in_code(crate: str) -> set[str]:
    """The words of the crate's code behind its imports, where clauses and ghost members name definitions."""
    words: set[str] = set()
    for path in files_of(crate, "src/**/*.rt"):
        text = re.sub(r"ghost use [^;]*;", "", text_in(path))
        words |= tokens(text.replace("::", " "))
    return words


def is_asked(path: str) -> bool:
    return path.endswith(ASKED) or path.endswith("Lib.antt")


def unreached(crates: list[str]) -> list[Definition]:
    """The definitions that no clause and no answer reaches."""
    left: list[Definition] = []
    live: set[str] = set()
    for crate in crates:
        live |= used_in_code(crate)
        for path in antt_files(crate):
            text = text_in(path)
            if is_asked(path):
                live |= tokens(without_comments(re.sub(r"^use .*$", "", text, flags=re.M)))
            else:
                live |= tokens(" ".join(RULES.findall(text)))
                left += [Definition(crate, os.path.relpath(path, os.path.join(CRATES, crate)), *it) for it in blocks(text)]
    while True:
        reached = [it for it in left if it.words() & live]
        if not reached:
            return left
        left = [it for it in left if it not in reached]
        for it in reached:
            live |= tokens(it.text)


def doubled(crates: list[str]) -> list[str]:
    """The names of definitions of two crates that say different things."""
    said: dict[str, dict[str, str]] = {}
    for crate in crates:
        for path in files_of(crate, "specs/**/*.antt"):
            for names, text in blocks(text_in(path)):
                for name in names:
                    said.setdefault(name, {})[crate] = " ".join(text.split())
    return [f"{name}: {', '.join(by)}" for name, by in sorted(said.items()) if len(set(by.values())) > 1]


def types_of(crate: str) -> set[str]:
    return {name for path in files_of(crate, "src/**/*.rt") for name in TYPE.findall(text_in(path))}


def types_of_two(crates: list[str]) -> list[str]:
    """The names of types of two crates."""
    having: dict[str, list[str]] = {}
    for crate in crates:
        for name in types_of(crate):
            having.setdefault(name, []).append(crate)
    return [f"{name}: {', '.join(by)}" for name, by in sorted(having.items()) if len(by) > 1]


class Called(NamedTuple):
    crate: str
    file: str
    # The type that it belongs to; empty for a function.
    owner: str
    name: str


def called_of(crate: str) -> list[Called]:
    """What others can call of a crate, methods that traits ask for aside."""
    found = []
    for path in files_of(crate, "src/**/*.rt"):
        text = text_in(path)
        blocks = list(BLOCK.finditer(text))
        for head in HEADED.finditer(text):
            block = next((it for it in reversed(blocks) if it.start() < head.start()), None)
            owner = (block.group(1) or "") if block and head.group(1) else ""
            if head.group(2) and bool(owner) == bool(head.group(1)):
                found.append(Called(crate, os.path.relpath(path, os.path.join(CRATES, crate, "src")), owner, head.group(3)))
    return found


def named_twice(calls: list[Called], is_apart: Callable[[Called], str]) -> list[str]:
    """The names of calls that stand in two of what tells them apart."""
    having: dict[str, list[Called]] = {}
    for it in calls:
        having.setdefault(it.name, []).append(it)
    return [f"{name}: {', '.join(f'{it.crate}/{it.file}' for it in by)}" for name, by in sorted(having.items())
            if len({is_apart(it) for it in by}) > 1]


def functions_of_two(calls: list[Called]) -> list[str]:
    return named_twice([it for it in calls if not it.owner], lambda it: f"{it.crate}/{it.file}")


def methods_of_two(calls: list[Called]) -> list[str]:
    return named_twice([it for it in calls if it.owner and it.name not in PLAIN | STAYING], lambda it: it.crate)


def no_things(crate: str) -> list[str]:
    """The files and folders of code that are named for what is done and not for a thing."""
    things = {name.lower() for name in types_of(crate)} | THINGS
    paths = [os.path.relpath(it, os.path.join(CRATES, crate, "src"))[:-3] for it in files_of(crate, "src/**/*.rt")]
    return [f"{crate}/{it}.rt" for it in paths
            if os.path.basename(it).endswith("ing") and os.path.basename(it).replace("_", "") not in things]


def first_sentence(text: str) -> str:
    """The sentence with which a file says what it decides; empty, if it says nothing or does not end the sentence."""
    said = []
    for line in text.splitlines():
        if not line.startswith("//! "):
            break
        said.append(line[4:].strip())
    found = SENTENCE.match(" ".join(said))
    return found.group() if found else ""


def told_files(crate: str) -> list[tuple[str, str]]:
    """The files of a crate that hold code, each with its first sentence."""
    top = os.path.join(CRATES, crate, "src")
    texts = [(os.path.relpath(it, top), text_in(it)) for it in files_of(crate, "src/**/*.rt")]
    return [(name, first_sentence(text)) for name, text in texts if MODULES.sub("", text).strip()]


def untold(crate: str) -> list[str]:
    """The files of a crate that do not say first what they decide, or say what another file of their folder says."""
    files = told_files(crate)
    said = [(os.path.dirname(name), sentence) for name, sentence in files if name not in ("lib.rt", "main.rt")]
    return [f"{crate}/{name}" for name, sentence in files
            if len(sentence.split()) < 3 or said.count((os.path.dirname(name), sentence)) > 1]


def rowless(crates: list[str]) -> list[str]:
    """The crates that ARCHITECTURE's table does not have, or has twice."""
    cells = re.findall(r"^\| (`[^|]*`) \| [^|]+ \|$", text_in(os.path.join(TOP, "docs", "ARCHITECTURE.md")), re.M)
    rows = [name for cell in cells for name in re.findall(r"`([^`]*)`", cell)]
    return [it for it in crates if it not in rows]


def of_two(found: list[str]) -> list[str]:
    """Without those that are one thing."""
    return [it for it in found if not is_one_thing(*it.split(": "))]


def is_one_thing(name: str, places: str) -> bool:
    """Whether all that has the name is of crates in which it says one thing."""
    crates, _ = ONE_THING.get(name, ("", ""))
    return {it.split("/")[0] for it in places.split(", ")} <= set(crates.split())


FUNCTION = re.compile(r"^ *fn (\w+)(?:<[^>]*>)?\(([^)]*)\)[^{;]*?\n(?: +(?:requires|ensures)[^\n]*\n)*\s*\{\n([^{}]*)\}", re.M)


def forwarders(crate: str) -> list[str]:
    """Private functions with one caller whose body is one call with their own parameters."""
    texts = {path: text_in(path) for path in files_of(crate, "src/**/*.rt")}
    everything = "\n".join(texts.values())
    found = []
    for path, text in texts.items():
        for name, parameters, body in FUNCTION.findall(text):
            names = [it.split(":")[0].replace("mut ", "").strip("& ") for it in parameters.split(",") if it.strip()]
            call = re.fullmatch(r"\s*(?:[\w:.]+)\(([^()]*)\)\??;?\s*", body)
            given = [it.strip("& \n") for it in call.group(1).split(",") if it.strip()] if call else None
            callers = len(re.findall(rf"\b{name}\(", everything)) - len(re.findall(rf"fn {name}\b", everything))
            if given is not None and given == [it for it in names if it != "self"] and given and callers == 1:
                found.append(f"{crate}/{os.path.relpath(path, os.path.join(CRATES, crate))}: {name}")
    return found


def counted(crates: list[str]) -> dict[str, list[str]]:
    """What the house does not want, by kind."""
    untried = [it for it in crates if it not in TESTS]
    calls = [it for crate in untried for it in called_of(crate)]
    return {
        "definitions that nothing reaches": [it.title() for it in unreached(crates)],
        "definitions that stand for two things": of_two(doubled(crates)),
        "types that stand for two things": of_two(types_of_two(untried)),
        "functions that stand for two things": of_two(functions_of_two(calls)),
        "methods that stand for two things": of_two(methods_of_two(calls)),
        "files that are no things": [it for crate in untried for it in no_things(crate)],
        "files that do not say what they decide": [it for crate in crates for it in untold(crate)],
        "crates of which no row tells": rowless(crates),
        "functions that only forward": [it for crate in crates for it in forwarders(crate)],
        "wrong bodies that are missed": missed(),
        "scripts of which no row tells": told_by_no_row(),
    }


def missed() -> list[str]:
    """The wrong bodies that have to be there and are not, those where nobody looks for them, and how many are too few."""
    with open(PINNED, encoding="utf-8") as lines:
        pinned = [line.split()[0] for line in lines if line.strip() and not line.startswith("#")]
    found = [it for it in pinned if not os.path.isfile(os.path.join(CRATES, *it.replace("/", "/wrong-bodies/each-time/", 1).split("/")) + ".edit")]
    every = glob.glob(os.path.join(CRATES, "*", "wrong-bodies", "**", "*.edit"), recursive=True)
    astray = [os.path.relpath(it, CRATES) for it in every if os.path.basename(os.path.dirname(it)) not in ("wrong-bodies", "each-time")]
    return found + astray + [f"{len(every)} in all, and not {LEAST}"] * (len(every) < LEAST)


def scripts() -> list[str]:
    """The tests, the timers and the tools, as tests/README names them."""
    found = ["bench", *(f"tests {name}" for name in tests())]
    found += [os.path.relpath(it, TOP) for it in glob.glob(os.path.join(TOP, "tools", "*")) if os.path.isfile(it) and not it.endswith(".sh")]
    return sorted(found)


def told_by_no_row() -> list[str]:
    """The scripts of which the table in tests/README does not say who runs them, and the rows of scripts that are not there. A file of tests
    begins with when it is run, and what runs without words is a part of ./test."""
    rows = set(re.findall(r"^\| `(tests \w+|bench|tools/\w[^`]*)` \|", text_in(os.path.join(TOP, "tests", "README.md")), re.M))
    quick = [name for name, path in tests().items() if first_line(path).startswith("Quick")]
    test = text_in(os.path.join(TOP, "test"))
    untold = [name for name, path in files().items() if not first_line(path).startswith(("Quick", "By hand", "Shared."))]
    return sorted(rows ^ set(scripts())) + [f"{it} is quick, and ./test does not run it" for it in quick if f'"{it}"' not in test] + untold


def print_files(crates: list[str]):
    """Prints which file decides what."""
    print("| Crate | File | What it decides |\n|---|---|---|")
    for crate in crates:
        for name, sentence in told_files(crate):
            print(f"| `{crate}` | `{name}` | {sentence} |")


# --- calls that no test reaches ---------------------------------------------------------------------------------------

CALL_HEAD = re.compile(r"^( *)(pub(?:\([a-z]+\))? )?(?:const )?fn (\w+)", re.M)
ALIAS = re.compile(r"^pub type (\w+)(?:<[^=]*>)? = (\w+)", re.M)
CALL_BLOCK = re.compile(r"^impl(?:<[^{]*?>)? (?:[\w:<>, ]+ for )?&?(\w+)", re.M)


# The other names of a type.
ALIASES: dict[str, list[str]] = {}


class Call(NamedTuple):
    crate: str
    # The type that it belongs to; empty for a function.
    owner: str
    name: str
    has_self: bool

    def title(self) -> str:
        return f"{self.crate}::{self.owner + '::' if self.owner else ''}{self.name}"

    def is_named_in(self, text: str) -> bool:
        """Whether the text calls it, or hands it on by its name."""
        if self.has_self and re.search(rf"\.{self.name}\b", text):
            return True
        if self.owner:
            owners = "|".join([self.owner, *ALIASES.get(self.owner, [])])
            return re.search(rf"\b(?:(?:{owners})(?:::<[^>]*>)?|Self)::{self.name}\b", text) is not None
        return re.search(rf"(?:(?<![.\w:])|\b[a-z]\w*::){self.name}(?:::<[^>]*>)?\s*\(", text) is not None


class Function(NamedTuple):
    call: Call
    is_public: bool
    # What follows its name.
    body: str

    def is_law(self) -> bool:
        return re.match(r"\(\)(?! ->)", self.body) is not None


def code_of(path: str) -> str:
    """The text of a file without comments and clauses."""
    return re.sub(r"//.*|^ *(?:ghost|requires|ensures)\b.*", "", text_in(path), flags=re.M)


def functions_of(crate: str) -> list[Function]:
    """All functions of a crate. A body ends where the next function begins."""
    found = []
    for path in sorted(glob.glob(os.path.join(CRATES, crate, "src", "**", "*.rt"), recursive=True)):
        text = code_of(path)
        for name, owner in ALIAS.findall(text):
            ALIASES.setdefault(owner, []).append(name)
        heads = list(CALL_HEAD.finditer(text))
        blocks = list(CALL_BLOCK.finditer(text))
        for head, after in zip(heads, [*heads[1:], None]):
            owner = ""
            if head.group(1):
                owner = next((block.group(1) for block in reversed(blocks) if block.start() < head.start()), "")
            body = text[head.end():after.start() if after else len(text)]
            has_self = re.match(r"(?:<[^(]*>)?\s*\(\s*(?:&(?:'\w+ )?)?(?:mut )?self\b", body) is not None
            found.append(Function(Call(crate, owner, head.group(3), has_self), head.group(2) == "pub ", body))
    return found


def exported(crate: str) -> set[str]:
    """The names that a library exports."""
    names: set[str] = set()
    text = code_of(os.path.join(CRATES, crate, "src", "lib.rt"))
    for uses in re.findall(r"pub use [\w:]*?(?:::)?(\{[^}]*\}|\w+);", text):
        names |= set(re.findall(r"\w+", uses))
    return names | set(re.findall(r"^pub (?:fn|struct|enum|trait) (\w+)", text, re.M))


def named(functions: list[Function], texts: list[str]) -> list[Function]:
    """Those of the functions that the texts name."""
    text = "\n".join(texts)
    return [function for function in functions if function.call.is_named_in(text)]


def reached(functions: list[Function], texts: list[str]) -> set[Call]:
    """What the texts name, and what the functions name that are reached."""
    known: set[Call] = set()
    while texts:
        more = named([function for function in functions if function.call not in known], texts)
        known |= {function.call for function in more}
        texts = [function.body for function in more]
    return known


def print_unreached(crates: list[str], direct: bool) -> int:
    libraries = [crate for crate in crates if crate not in TESTS | PROGRAMS]
    functions = [function for crate in libraries for function in functions_of(crate)]
    tests = [function.body for crate in sorted(TESTS) for function in functions_of(crate)]
    tests += [code_of(path) for path in glob.glob(os.path.join(CRATES, "*", "src", "tests.rt")) if path.split(os.sep)[-3] not in TESTS]
    if direct:
        seen = {function.call for function in named(functions, tests)}
    else:
        seen = reached(functions, tests + [function.body for crate in sorted(PROGRAMS) for function in functions_of(crate)])
    public = public_calls(libraries, functions)
    missing = [call for call in public if call not in seen]
    for call in missing:
        print(call.title())
    print(f"{len(public)} public calls, {len(missing)} that no test {'names' if direct else 'reaches'}")
    return bool(missing)


def stands_on() -> dict[str, set[str]]:
    """What each crate stands on, and what that stands on."""
    rows = (line.partition(":") for line in text_in(os.path.join(TOP, "crates.txt")).splitlines() if ":" in line and not line.startswith("#"))
    found: dict[str, set[str]] = {}
    for head, _, below in rows:
        direct = set(below.split())
        found[head.split()[0]] = direct.union(*(found.get(it, set()) for it in direct))
    return found


def public_calls(libraries: list[str], functions: list[Function]) -> list[Call]:
    """What the libraries export, laws aside."""
    names = {crate: exported(crate) for crate in libraries}
    return [it.call for it in functions if it.is_public and not it.is_law() and (it.call.owner or it.call.name) in names[it.call.crate]]


def print_tests_alone(crates: list[str]) -> None:
    """Prints the public calls that no program and no other library names."""
    libraries, below = [it for it in crates if it not in TESTS | PROGRAMS], stands_on()
    functions = [function for crate in libraries for function in functions_of(crate)]
    texts = {crate: "\n".join(it.body for it in functions_of(crate)) for crate in crates if crate not in TESTS}
    alone = [call for call in public_calls(libraries, functions)
             if not any(call.is_named_in(text) for crate, text in texts.items() if call.crate in below.get(crate, set()))]
    for call in alone:
        inside = "its own library" if call.is_named_in(texts[call.crate]) else "no library"
        print(f"{call.title()}: {inside}")
    print(f"{len(alone)} public calls that no program and no other library names")


def takes(line: argparse.ArgumentParser) -> None:
    line.add_argument("--files", nargs="*", metavar="CRATE")
    line.add_argument("--untested", action="store_true")
    line.add_argument("--direct", action="store_true")
    line.add_argument("--tests-alone", action="store_true")


def main(options: argparse.Namespace) -> int | None:
    crates = sorted(os.path.basename(os.path.dirname(it)) for it in glob.glob(os.path.join(CRATES, "*", "src")))
    if options.files is not None:
        print_files(options.files or crates)
        return 0
    if options.tests_alone:
        print_tests_alone(crates)
        return 0
    if options.untested:
        return print_unreached(crates, options.direct)
    for title, found in counted(crates).items():
        print("".join(f"{title}: {it}\n" for it in found), end="")
        trying.passed, trying.failed = trying.passed + (not found), trying.failed + len(found)
    return None
