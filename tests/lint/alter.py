"""By hand, in some hours. Alters every numeral, operator, constructor and text of the definitions in crates/rq_model/specs, one at a time, in a
copy of the crate, and says which alterations the prover accepts.

Each alteration is first held against the worked facts, or, in a chapter of laws, against the function that has the law
(`rt check --only`, some 4 seconds), and against the whole crate (some 9 seconds) only if these let it through. There
are about 850 alterations, a third of them of statements of laws. What is known is kept in FILE (one JSON object a line)
and is not tried again, so a run can be broken off and taken up. `no definition` means that the altered chapter itself is
ill typed, `no answer` that the prover came to no end. `--only` takes those whose place has the word, `--share K/N` the
Kth of N shares (each process wants a DIR of its own; FILE may be the same), `--backwards` begins at the last chapter,
`--seconds` ends after so many, `--list` tries nothing, `--accepted` prints what was accepted so far.

The chapters of worked facts are left alone, and so are `use` lines, comments and the names of what is declared.
"""
import json, os, pathlib, re, shutil, signal, subprocess, sys, time

ROOT = pathlib.Path(__file__).resolve().parents[2]
CRATE = "rq_model"
BELOW = ("rq_bytes",)  # what it stands on
SPECS = ROOT / "crates" / CRATE / "specs"
LIB = ROOT / "crates" / CRATE / "src" / "lib.rt"

# A check that takes more seconds has come to no end.
PATIENCE = 120

# what stands in place of what; a numeral is made one greater, and a text begins with another letter
WORDS = {
    "nat_lt": "nat_le", "nat_le": "nat_lt", "list_any": "list_all", "list_all": "list_any", "true": "false", "false": "true",
    "w16": "w32", "w32": "w64", "w64": "w32", "One": "Two", "Two": "One", "Fresh": "Held", "Held": "Fresh",
    "Enqueued": "Dequeued", "Dequeued": "Enqueued", "Committed": "Aborted", "Aborted": "Committed", "Commit": "Abort",
    "Abort": "Commit", "Register": "Deregister", "Deregister": "Register", "Whole": "Cut", "Cut": "Length", "Length": "Digest",
    "Digest": "Whole", "Form": "Law", "Law": "Form", "take": "drop", "drop": "take",
}
SIGNS = {"+": "-", "-": "+", "/": "%", "%": "/", "<": "≤", "≤": "<", "≡": "≢", "≢": "≡", "&&": "||", "||": "&&", "×": "⊎", "⊎": "×", "↔": "×"}
TOKEN = re.compile(r'"(?:[^"\\]|\\.)*"|0x[0-9a-f]+|[A-Za-z_][A-Za-z0-9_\'-]*|\d+|&&|\|\||==|\+\+|[-+/%<≤≡≢×⊎↔]')
LAWS = ("Laws", "LogLaws", "Redo", "Closing", "Upgrading")
HOMES = {
    "Rattle.std.specs.List": ("list_any", "list_all"), "Rattle.std.specs.Int": ("w16", "w32", "w64"),
    "Rattle.rq_model.specs.Records": ("One", "Two", "Commit", "Abort", "Register", "Deregister"),
    "Rattle.rq_model.specs.States": ("Fresh", "Held", "Enqueued", "Dequeued"), "Rattle.rq_model.specs.Frames": ("Whole", "Cut", "Length", "Digest"),
    "Rattle.rq_model.specs.Machine": ("Committed", "Aborted"), "Rattle.rq_model.specs.Fronts": ("Form", "Law"),
}


def other(token):
    if token.startswith('"'):
        return '"' + ("x" if token[1] != "x" else "y") + token[2:] if len(token) > 2 else None
    if token.startswith("0x"):
        return hex(int(token, 16) + 1)
    if token.isdigit():
        return str(int(token) + 1)
    return WORDS.get(token) or SIGNS.get(token)


def altered(text, name, start, stop, new):
    """The chapter with the alteration, and with what it has to import for it."""
    text = text[:start] + new + text[stop:]
    if new[0] in '"0123456789':
        return text
    word = new if new[0].isalpha() else f"◌{new}◌"
    home = next((home for home, words in HOMES.items() if new in words), "Rattle.std.specs.Prelude")
    uses = "\n".join(line for line in text.split("\n") if line.startswith("use "))
    if home.endswith(f".{name.split('.')[0]}") or new == "×" or re.search(rf"[{{ ]{re.escape(word)}[,}}]", uses):
        return text
    first, rest = text.split("\n", 1)
    return f"{first}\nuse {home}.{{{word}}}\n{rest}"


def alterations():
    """(place, file, start, end, new) of each alteration, in the order of the chapters."""
    for line in (SPECS / "Lib.antt").read_text().split("\n"):
        name = line.removeprefix("pub mod ").strip()
        if not name or name.startswith("Worked"):
            continue
        path, at = SPECS / f"{name}.antt", 0
        for number, line in enumerate(path.read_text().split("\n"), 1):
            code = line.split("--")[0] if not line.startswith("use ") else ""
            for match in TOKEN.finditer(code):
                # a name that is declared, a field, or a universe
                before = code[: match.start()].strip()
                if before in ("pub", "pub data", "data", "abbrev pub", "pub record") or before.endswith("Type"):
                    continue
                new = other(match.group())
                if new is not None and match.group() != "==":
                    place = f"{name}.antt:{number}:{match.start() + 1} {match.group()} -> {new}"
                    yield place, path.name, at + match.start(), at + match.end(), new
            at += len(line) + 1


def prepare(copy):
    """A repository of this crate and those below it, with what is proved already."""
    crate = copy / "crates" / CRATE
    if not crate.exists():
        crate.parent.mkdir(parents=True, exist_ok=True)
        for name in (CRATE, *BELOW):
            shutil.copytree(ROOT / "crates" / name, copy / "crates" / name)
        lines = (ROOT / "crates.txt").read_text().split("\n")
        (copy / "crates.txt").write_text("\n".join(line for line in lines if line.partition(":")[0] in (CRATE, *BELOW)) + "\n")
        shutil.copy(ROOT / "HANDLES", copy / "HANDLES")
    for part in ("specs", "proofs", "src"):
        shutil.copytree(ROOT / "crates" / CRATE / part, crate / part, dirs_exist_ok=True)
    return crate


def proves(crate, only=None):
    """Whether the crate is proved, or one function of it, and what the prover said; None if it came to no end."""
    command = ["rt", "check", "--jobs", "1"] + (["--only", only] if only else [])
    run = subprocess.Popen(command, cwd=crate, stdout=subprocess.PIPE, stderr=subprocess.STDOUT, text=True, start_new_session=True)
    try:
        text = run.communicate(timeout=PATIENCE)[0]
    except subprocess.TimeoutExpired:
        os.killpg(run.pid, signal.SIGKILL)
        return None, run.communicate()[0]
    return {0: True, 1: False}.get(run.returncode), text


def function_of(name, line):
    """The function whose contract has the law that is declared above this line, if one has."""
    declared = re.findall(r"^(?:pub (?:data|record)|abbrev pub) (\w+)", "\n".join((SPECS / name).read_text().split("\n")[:line]), re.M)
    found = re.search(rf"^pub fn (\w+)\(\)(?:(?!\n{{}}).)*\b{declared[-1]}\b", LIB.read_text(), re.M | re.S) if declared else None
    return found and found.group(1)


def is_no_definition(text, name):
    """The chapter itself is refused: what it says is ill typed."""
    return f"./specs/{name}:" in text


def refused_by(crate, name, line):
    """What refuses the crate as it stands, or None."""
    first = ["worked_machine", "worked_formats"]
    if name.split(".")[0] in ("Records", "Spelling", "Frames", "WellFormed", "StateSpelling", "Fronts", "Reports"):
        first.reverse()
    if name.split(".")[0] in LAWS:
        first = [law for law in [function_of(name, line)] if law]
    for function in first:
        proved, text = proves(crate, function)
        if proved is False:
            return "no definition" if is_no_definition(text, name) else function
    proved, text = proves(crate)
    if proved:
        return None
    if proved is None:
        return "no answer"
    if is_no_definition(text, name):
        return "no definition"
    lost = re.findall(r"^fn \w+::(\w+): not proved", text, re.M)
    return "laws: " + " ".join(lost[:3])


def takes(line):
    line.add_argument("--copy", type=pathlib.Path, default=pathlib.Path("/tmp/alter"))
    line.add_argument("--results", type=pathlib.Path, default=pathlib.Path("/tmp/alter.jsonl"))
    line.add_argument("--only", default="")
    line.add_argument("--share", default="1/1")
    line.add_argument("--backwards", action="store_true")
    line.add_argument("--seconds", type=int, default=10**9)
    line.add_argument("--list", action="store_true")
    line.add_argument("--accepted", action="store_true")


def main(args):
    known = {}
    if args.results.exists():
        known = {item["place"]: item["by"] for item in map(json.loads, args.results.read_text().splitlines())}
    if args.accepted:
        print("\n".join(place for place, by in known.items() if by is None))
        return 0
    share, shares = map(int, args.share.split("/"))
    wanted = [item for item in alterations() if args.only in item[0]][share - 1 :: shares]
    if args.backwards:
        wanted.reverse()
    if args.list:
        print("\n".join(item[0] for item in wanted))
        return 0
    crate, end = prepare(args.copy), time.time() + args.seconds
    if not proves(crate)[0]:
        sys.exit("the crate is not proved as it stands")
    for place, name, start, stop, new in wanted:
        if place in known or time.time() > end:
            continue
        text = (SPECS / name).read_text()
        (crate / "specs" / name).write_text(altered(text, name, start, stop, new))
        began = time.time()
        by = refused_by(crate, name, int(place.split(":")[1]))
        (crate / "specs" / name).write_text(text)
        with args.results.open("a") as out:
            out.write(json.dumps({"place": place, "by": by, "seconds": round(time.time() - began)}) + "\n")
        print(f"{'ACCEPTED' if by is None else by}: {place}", flush=True)
    return 0
