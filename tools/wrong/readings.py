"""What the verdict on a wrong body rests on: what a check of the functions that it changes reads.

Such a check reads all of these functions and of their proof files. Of all else, in this crate and in those below, it reads
statements: of code the heads with their contracts, the types and the constants, of `.antt` files the signatures, the records and what
unfolds elsewhere (`abbrev`, `unfoldable`). The body of another function or of a lemma is read by its own check alone. A statement
counts if it is named, or if one that counts names it. Names are resolved as the files import them, and words of code by the word
alone, so rather too much is taken for read than too little.
"""
from __future__ import annotations
import collections, re, textwrap
from typing import Dict, FrozenSet, Iterable, Iterator, List, NamedTuple, Set, Tuple

from wrong.edits import Edit, Function, Texts, functions_of, holder_of

# --- declarations: what others read of each, and by which names -------------------------------------------------------

# Where a text stands: its crate, and its path in that.
Place = Tuple[str, str]
# What goes on at the margin with what stands above it.
CODE_GOES_ON, GOES_ON = re.compile(r"[})\]{]|where\b"), re.compile(r"[})\]]")
# The beginning of a signature: its modifiers, and its names before its type.
SIGNATURE = re.compile(r"((?:(?:pub|abbrev|unfoldable) )*)(\S*◌\S*|[^\s(){}=:|]+(?: [^\s(){}=:|]+)*)(?: \{[^}]*\})? :(?=\s|$)")
GROUP = re.compile(r"(?:pub )?(data|record|ruleset|module|axiom) (\S+)")
CONSTRUCTOR = re.compile(r"^ +([^\s(){}=:|]+(?: [^\s(){}=:|]+)*) :(?=\s|$)", re.M)
FOR_ALL = re.compile(r"infix|(?:abbrev )?mutual")
IMPORTS = re.compile(r"^ *((?:pub )?(?:ghost )?use Rattle\.[^{\n]*(?:\{[^}]*\})?[^\n]*)", re.M)
USE = re.compile(r"(?:pub )?(?:ghost )?use ([^\s{}]+?)(?:\.\{([^}]*)\})?(?: as (\w+))?;?$")
ATTRIBUTES = re.compile(r"\A(?:#\[[^\n]*\n(?:(?: [^\n]*|[)\]]+)\n)*)*")
IMPL = re.compile(r"(?:unsafe )?impl\b[^{;]*\{")
TYPE = re.compile(r"(?:pub(?:\([^)]*\))? )?(?:unsafe )?(struct|enum|trait|type|const|static|union)(?! fn| unsafe) (?:mut )?(\w+)")
WORD = re.compile(r"[A-Za-z_]\w*")
# What of a text of code may have a quotation mark though no string is open there.
CLOSED = re.compile(r"'(?:\\.|[^'\\\n])'|\"(?:\\.|[^\"\\])*\"|//[^\n]*", re.S)


class Item(NamedTuple):
    """A declaration: its file, the names that it is found by, the types that it is a method of, what others read of it, and all of
    it. Of a method the type has to be named too."""

    place: Place
    names: Tuple[str, ...]
    holders: FrozenSet[str]
    said: str
    whole: str


class Text(NamedTuple):
    """A file without its comments: what it declares, what it imports by which name (what modules declare, and modules), and what holds
    for all of it."""

    place: Place
    whole: str
    items: List[Item]
    imports: Dict[str, List[Tuple[str, str]]]
    aliases: Dict[str, List[str]]
    top: str


def without_comments(text: str) -> str:
    """The text without lines that are empty, or comments."""
    return "".join(f"{it}\n" for it in text.split("\n") if it.strip() and not re.match(r" *(?://|--(?: |$))", it))


def is_attribute(block: str) -> bool:
    return block.startswith("#[") and not block[ATTRIBUTES.match(block).end() :]  # type: ignore[union-attr]


def is_open(text: str) -> bool:
    """Whether a string of the code is not closed."""
    return '"' in CLOSED.sub("", text)


def blocks(text: str, goes_on: "re.Pattern[str]") -> List[str]:
    """The text in pieces: a line at the margin, with those behind it that go on with it. Attributes belong to what they stand over."""
    found: List[List[str]] = []
    for line in text.split("\n")[:-1]:
        last = "".join(found[-1]) if found else ""
        if last and (line.startswith(" ") or goes_on.match(line) or is_attribute(last) or (goes_on is CODE_GOES_ON and is_open(last))):
            found[-1].append(line + "\n")
        else:
            found.append([line + "\n"])
    return ["".join(it) for it in found]


def imported(text: str) -> Tuple[Dict[str, List[Tuple[str, str]]], Dict[str, List[str]]]:
    """What the file imports, by the names that it has there: what modules declare, and modules."""
    names: Dict[str, List[Tuple[str, str]]] = {}
    modules: Dict[str, List[str]] = {}
    for line in IMPORTS.findall(text):
        use = USE.match(" ".join(line.split()))
        if not use:
            raise ValueError(f"this import is not understood: {line}")
        for one in (it.strip() for it in (use[2] or "").split(",") if it.strip()):
            name, _, local = one.partition(" as ")
            names.setdefault((local or name).strip(), []).append((use[1], name.strip()))
        if use[2] is None:
            modules.setdefault(use[3] or use[1].rpartition(".")[2], []).append(use[1])
    return names, modules


def grouped(place: Place, kind: str, name: str, block: str, head: str) -> Tuple[List[Item], str]:
    """What a block of several lines declares: of a module each declaration in it, behind its head."""
    if kind == "module":
        first, _, inner = block.partition("where\n")
        return stated(place, textwrap.dedent(inner), f"{head}{first}\n")
    inner = CONSTRUCTOR.findall(block) if kind == "data" else []
    names = (name, *(it for line in inner for it in line.split()))
    return [Item(place, names, frozenset(), head + block, head + block)], ""


def stated(place: Place, text: str, head: str = "") -> Tuple[List[Item], str]:
    """What a file of definitions or proofs declares, behind the head of the module around it, and what holds for all of it. Others read
    the signature, and of what unfolds for them all."""
    found: List[Item] = []
    top, is_open = "", False
    for block in blocks(text, GOES_ON):
        group, signature = GROUP.match(block), SIGNATURE.match(block)
        if group:
            more, beside = grouped(place, group[1], group[2], block, head)
            found, top, is_open = found + more, top + beside, True
        elif signature:
            is_open = "abbrev" in signature[1] or "unfoldable" in signature[1]
            found.append(Item(place, tuple(signature[2].split()), frozenset(), head + block, head + block))
        elif FOR_ALL.match(block):
            top += block
        elif not re.match(r"(?:pub )?(?:use|mod|open)\b", block):
            # a body, or what is unfolded in it
            last = found[-1]
            found[-1] = last._replace(whole=last.whole + block, said=last.said + block * is_open)
    return found, top


def types_in(text: str) -> List[str]:
    """The types, traits and constants that a file of code declares."""
    found = (TYPE.match(it[ATTRIBUTES.match(it).end() :]) for it in blocks(text, CODE_GOES_ON))  # type: ignore[union-attr]
    return [it[2] for it in found if it]


def holders_of(head: str, types: Set[str]) -> FrozenSet[str]:
    """What has to be named so that an impl is read: its type, or its trait if the type is not of these crates."""
    of, _, trait = holder_of(head).partition(" ")
    return frozenset([of] if of in types else [trait] if trait in types else WORD.findall(head))


def coded(place: Place, text: str, types: Set[str]) -> Iterator[Item]:
    """What a file of code declares. Others read heads with contracts, and all of types, traits and constants."""
    spans, at = functions_of(place[1], text), 0
    for block in blocks(text, CODE_GOES_ON):
        begin, at = at, at + len(block)
        here = [it for it in spans if begin <= it.begin < at]
        bare = block[ATTRIBUTES.match(block).end() :]  # type: ignore[union-attr]
        impl, other = IMPL.match(bare), TYPE.match(bare)
        if other:
            yield Item(place, (other[2],), frozenset(), block, block)
            continue
        ends = [begin, *(it.end for it in here)]
        shell = "".join(text[one:other] for one, other in zip(ends, [*(it.begin for it in here), at]))
        heads = [text[it.begin : it.body] for it in here]
        if not impl:
            yield from (Item(place, (it.function.name,), frozenset(), shell + head, block) for it, head in zip(here, heads))
            continue
        holders, is_of_trait = holders_of(impl[0], types), " " in holder_of(impl[0])
        yield Item(place, tuple(sorted(holders)), frozenset(), shell + "".join(heads) * is_of_trait, block)
        for it, head in zip(here, heads):
            yield Item(place, (it.function.name,), holders, head, text[it.begin : it.end])


def attributes_of(text: str) -> str:
    """What holds for all of a file of code, and for the modules that it names."""
    return "".join(re.findall(r"^#!\[.*\n", text, re.M) + re.findall(r"^#\[.*\n(?:pub )?mod .*\n", text, re.M))


class Crate:
    """The files of a crate by their paths, and its code by the words that name it and by the types of methods."""

    def __init__(self, name: str, texts: Texts, types: Set[str]):
        self.files: Dict[str, Text] = {}
        self.coded: Dict[str, List[Item]] = {}
        self.methods: Dict[str, List[Item]] = {}
        for path, text in sorted(texts.items()):
            place, is_code = (name, path), path.endswith(".rt")
            items, top = (list(coded(place, text, types)), attributes_of(text)) if is_code else stated(place, text)
            self.files[path] = Text(place, text, items, *imported(text), top)
            for item in items if is_code else ():
                for word in item.names:
                    self.coded.setdefault(word, []).append(item)
                for word in item.holders:
                    self.methods.setdefault(word, []).append(item)

    def module(self, path: List[str]) -> Tuple[str, List[str]]:
        """The file that has a module, and what its name goes on with in that; none, if the toolchain makes the module of code."""
        for cut in range(len(path), 1, -1):
            at = "/".join(path[:cut]) + ".antt"
            if at in self.files:
                return at, path[cut:]
        return "", path


def crates_of(texts: Dict[str, Texts]) -> Dict[str, Crate]:
    """The crates of these texts."""
    bare = {name: {path: without_comments(text) for path, text in files.items()} for name, files in texts.items()}
    types = {it for files in bare.values() for path, text in files.items() if path.endswith(".rt") for it in types_in(text)}
    return {name: Crate(name, files, types) for name, files in bare.items()}


# What the toolchain adds to the heads of a library: names of impls, what an impl was read as, impls that macros write, and the
# numbers that constants come to.
ADDED = re.compile(r"^(?:# \[ read_as = \"\w+\" \] )?# \[ automatically_derived \] impl\b.*?^\}|# \[ read_as = \"\w+\" \]| as [A-Z]\w*(?= \{)"
                   r"|(?<= = )\( \d+_\w+ \)(?= ;)", re.M | re.S)
# What stands in no declaration: imports, names of modules, attributes of the whole, and what closes a list of types.
IN_NONE = re.compile(r"^(?: *ghost )?(?:pub(?:\([^)]*\))? )?(?:use|mod) [^;]*;|^#!?\[.*|^>.*", re.M)
PIECE = re.compile(r'"(?:\\.|[^"\\])*"|\w+|[^\s\w,;]', re.S)


def not_taken(text: Text, heads: str) -> List[str]:
    """What the heads of a built library have of this file of code that no declaration of it says: what a reading would miss."""
    here = collections.Counter(it for item in text.items for it in PIECE.findall(item.said))
    here.update(PIECE.findall("".join(IN_NONE.findall(text.whole))))
    return sorted((collections.Counter(PIECE.findall(ADDED.sub("", heads))) - here).elements())


# --- what a check reads ----------------------------------------------------------------------------------------------

OPENED = re.compile(r"\bunfold(?:ing)? ([^\n]*)")
BY_PATH = re.compile(r"\b(\w+)::((?:specs|proofs)(?:::\w+)*)::(\w+)")
APART = re.compile(r"[\s(){}\[\],;]+")


class Named(NamedTuple):
    """What a text names: declarations, and words that name code."""

    items: Tuple[Item, ...]
    words: FrozenSet[str]


def is_in(name: str, tokens: Set[str], text: str) -> bool:
    """Whether the name is in the text, as far as it can tell: one that stands around what it takes may be there in pieces."""
    return any(it in tokens or not WORD.fullmatch(it) and it in text for it in name.split("◌") if it)


class Readings:
    """What is read of the crates; what each text names is looked for once."""

    def __init__(self, texts: Dict[str, Texts], below: Dict[str, List[str]]):
        self.crates, self.below = crates_of(texts), below
        self.known: Dict[Tuple[Tuple[str, str], str], Named] = {}
        self.by_word: Dict[str, Dict[str, List[Item]]] = {}

    def file(self, item: Item) -> Text:
        return self.crates[item.place[0]].files[item.place[1]]

    def found(self, module: str, name: str) -> Named:
        """What a module has by this name, wherever it takes it from; all of the file if there seems to be none. A module that the
        toolchain makes is of code."""
        _, crate, *path = [*module.split("."), ""][:-1]
        if crate not in self.crates:
            return Named((), frozenset())
        at, rest = self.crates[crate].module(path)
        if not at:
            return Named((), frozenset([*path, name]))
        text = self.crates[crate].files[at]
        own = tuple(it for it in text.items if name in it.names or any(part in it.names for part in rest))
        if own or name not in text.imports:
            return Named(own or tuple(text.items), frozenset())
        return joined(self.found(*further) for further in text.imports[name])

    def named(self, text: Text, said: str) -> Named:
        """What a text of this file names."""
        key = (text.place, said)
        if key not in self.known:
            self.known[key] = joined([*self.by_imports(text, said), *self.by_paths(text, said), self.own(text, said)])
        return self.known[key]

    def by_imports(self, text: Text, said: str) -> List[Named]:
        tokens = {part for token in APART.split(said) for part in (token, *token.split("."))}
        names = [self.found(*target) for local, targets in text.imports.items() if is_in(local, tokens, said) for target in targets]
        for local, modules in text.aliases.items():
            parts = set(re.findall(rf"(?<![\w.]){re.escape(local)}\.([^\s(){{}}\[\],;.]+)", said)) if local in tokens else ()
            names += [self.found(module, part) for module in modules for part in sorted(parts)]
        return names

    def by_paths(self, text: Text, said: str) -> List[Named]:
        """What attributes of code name."""
        found = [(text.place[0] if crate == "crate" else crate, path, name) for crate, path, name in BY_PATH.findall(said)]
        return [self.found(".".join(["Rattle", crate, *path.split("::")]), name) for crate, path, name in found]

    def own(self, text: Text, said: str) -> Named:
        """What it names that is declared in its own file; of code, its words."""
        if text.place[1].endswith(".rt"):
            return Named((), frozenset(WORD.findall(said)))
        tokens = {part for token in APART.split(said) for part in (token, *token.split("."))}
        return Named(tuple(it for it in text.items if any(is_in(name, tokens, said) for name in it.names)), frozenset())

    def code(self, crate: str) -> Dict[str, List[Item]]:
        """The code that a check of the crate sees, by each word that names it or the type of a method."""
        if crate not in self.by_word:
            seen = self.by_word.setdefault(crate, {})
            for it in (self.crates[name] for name in (crate, *self.below[crate])):
                for word, items in (*it.coded.items(), *it.methods.items()):
                    seen.setdefault(word, []).extend(items)
        return self.by_word[crate]

    def opened(self, text: Text) -> List[Item]:
        """The declarations of the file that it unfolds, which it may do to its own whatever they are."""
        names = {name for line in OPENED.findall(text.whole) for name in APART.split(line)}
        return [it for it in text.items if names & set(it.names)]

    def of(self, edit: Edit, functions: Iterable[Function]) -> List[Tuple[str, str, str]]:
        """What is read by a check of these functions with the edit: each text with its place."""
        files, names = self.crates[edit.crate].files, {it.name for it in functions}
        reading = Reading(self, edit.crate)
        for path, text in files.items():
            if path.startswith("proofs/") and names & set(path.split("/")[1:-1]):
                reading.take_text(text, text.whole)
            elif path.endswith(".rt"):
                reading.take_text(text, text.top)
        for item in (it for function in functions for it in files[function.path].items if function.name in it.names):
            reading.say({*item.holders})
            reading.take_text(files[item.place[1]], item.whole)
        for path, _, new in edit.pairs:
            reading.left.append((files[path], new))
        return reading.closed()


def joined(found: Iterable[Named]) -> Named:
    every = list(found)
    return Named(tuple({it: None for one in every for it in one.items}), frozenset().union(*(it.words for it in every)))


class Reading:
    """What one check reads."""

    def __init__(self, readings: Readings, crate: str):
        self.readings, self.code = readings, readings.code(crate)
        self.read: Set[Tuple[str, str, str]] = set()
        self.taken: Set[int] = set()
        self.words: Set[str] = set()
        self.left: List[Tuple[Text, str]] = []

    def take_text(self, text: Text, said: str) -> None:
        """Takes a text of this file, once."""
        if (*text.place, said) not in self.read:
            self.read.add((*text.place, said))
            self.left.append((text, said))
            for item in self.readings.opened(text) if said == text.whole else ():
                self.take_text(text, item.whole)

    def take(self, item: Item) -> None:
        """Takes what others read of the declaration, and what holds for all of its file."""
        if id(item) not in self.taken:
            self.taken.add(id(item))
            text = self.readings.file(item)
            self.take_text(text, item.said)
            self.take_text(text, text.top)

    def say(self, words: Iterable[str]) -> None:
        """Takes the code that these words name. Of a method its type has to be named too."""
        new = {it for it in words if it not in self.words and it in self.code}
        self.words |= new
        for word in new:
            for item in self.code[word]:
                if not item.holders or item.holders & self.words and self.words.issuperset(item.names):
                    self.take(item)

    def closed(self) -> List[Tuple[str, str, str]]:
        """All that is read, once nothing is named that is not."""
        while self.left:
            named = self.readings.named(*self.left.pop())
            for item in named.items:
                self.take(item)
            self.say(named.words)
        return sorted(self.read)
