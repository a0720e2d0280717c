"""Receipts: by which goal each wrong body of a crate was refused, and the sums of what that rests on."""
from __future__ import annotations
import hashlib, os
from typing import Dict, List, NamedTuple, Optional

from place import KIT
from wrong.checks import Verdict
from wrong.edits import Edit, Texts, applied, texts_in
from wrong.readings import Readings

HEAD = """# By which goal each wrong body of this crate was refused. `tools/wrong_bodies.py --write` makes this file.
# logic: the toolchain's logic. Then of each wrong body its name, the sum of its file, the sum of what its check reads in this crate and
# those below (wrong/readings.py), the function that sins and what is not proved of it.
"""


class Line(NamedTuple):
    """What a receipt says of a wrong body: the sums of its file and of what its check reads, and by what it was refused."""

    sum: str
    read: str
    function: str
    goal: str


class Receipt(NamedTuple):
    """The toolchain's logic, and a line for each wrong body, by its name."""

    logic: str
    lines: Dict[str, Line]


def sum_of(*parts: object) -> str:
    return hashlib.sha256(repr(parts).encode()).hexdigest()


def bytes_of(path: str) -> bytes:
    with open(path, "rb") as file:
        return file.read()


def logic() -> str:
    """The sum of the toolchain's logic, as `rt version` and the last line of each check name it: it does not tell kits apart."""
    return bytes_of(os.path.join(KIT, "KIT-ID")).decode().split()[-1]


def edit_sum(edit: Edit) -> str:
    return sum_of(bytes_of(edit.file))[:32]


class Sums:
    """The texts of the crates, each read once, and the sums of what checks read of them."""

    def __init__(self, top: str):
        self.top, self.texts_of, self.sums = top, {}, {}  # type: str, Dict[str, Texts], Dict[str, str]
        self.lines: Dict[str, List[str]] = {}
        self.known: Optional[Readings] = None
        with open(os.path.join(top, "crates.txt"), encoding="utf-8") as lines:
            for line in lines:
                words = line.partition("#")[0].replace(":", " : ").split()
                if ":" in words:
                    self.lines[words[0]] = words

    def texts(self, crate: str) -> Texts:
        if crate not in self.texts_of:
            self.texts_of[crate] = texts_in(os.path.join(self.top, "crates", crate))
        return self.texts_of[crate]

    def below(self, crate: str) -> List[str]:
        """The crates of this repository that the crate stands on."""
        words = self.lines[crate]
        lower = [it for it in words[words.index(":") :] if it in self.lines]
        return list(dict.fromkeys(it for one in lower for it in (one, *self.below(one))))

    def readings(self) -> Readings:
        if self.known is None:
            self.known = Readings({it: self.texts(it) for it in self.lines}, {it: self.below(it) for it in self.lines})
        return self.known

    def read(self, edit: Edit) -> str:
        """The sum of what the check of a wrong body reads. ValueError says why it does not apply."""
        read = self.readings().of(edit, applied(edit, self.texts(edit.crate)).changed)
        return sum_of(*((*place, self.sum(text)) for *place, text in read))[:32]

    def sum(self, text: str) -> str:
        if text not in self.sums:
            self.sums[text] = sum_of(text)
        return self.sums[text]


def path_of(top: str, crate: str) -> str:
    return os.path.join(top, "crates", crate, "wrong-bodies", "receipt")


def text_of(receipt: Receipt) -> str:
    rows = [f"{name} {it.sum} {it.read} {it.function} {it.goal}\n" for name, it in sorted(receipt.lines.items())]
    return f"{HEAD}logic {receipt.logic}\n" + "".join(rows)


def written(top: str, crate: str, receipt: Receipt) -> None:
    """Writes the crate's receipt, whole or not at all."""
    path = path_of(top, crate)
    os.makedirs(os.path.dirname(path), exist_ok=True)
    with open(path + ".new", "w", encoding="utf-8") as file:
        file.write(text_of(receipt))
    os.replace(path + ".new", path)


def receipt_of(top: str, crate: str) -> Receipt:
    """The crate's receipt as it stands; an empty one, if there is none or it cannot be read."""
    of_logic = ""
    lines: Dict[str, Line] = {}
    try:
        rows = bytes_of(path_of(top, crate)).decode().split("\n")
    except (OSError, UnicodeDecodeError):
        rows = []
    for row in rows:
        words = row.split(" ", 4)
        if len(words) == 2 and words[0] == "logic":
            of_logic = words[1]
        elif len(words) == 5 and not row.startswith("#"):
            lines[words[0]] = Line(*words[1:])
    return Receipt(of_logic, lines)


def made_of(sums: Sums, verdicts: Dict[Edit, Verdict]) -> Receipt:
    """The receipt that these verdicts on wrong bodies of a crate come to."""
    lines = {it.name: Line(edit_sum(it), sums.read(it), verdict.function, verdict.told) for it, verdict in verdicts.items()}
    return Receipt(logic(), lines)


def beside(sums: Sums, crate: str, others: List[Edit], made: Receipt) -> Receipt:
    """The receipt, and what the one that stands tells of these other wrong bodies, as far as that holds."""
    stands, why = receipt_of(sums.top, crate), held(sums, crate, others)
    return made._replace(lines={**{it.name: stands.lines[it.name] for it in others if it.name not in why}, **made.lines})


def held(sums: Sums, crate: str, edits: List[Edit]) -> Dict[str, str]:
    """Why the receipt does not hold for some of these wrong bodies, by their names."""
    receipt, wrong = receipt_of(sums.top, crate), {}
    for edit in edits:
        line = receipt.lines.get(edit.name)
        try:
            read = sums.read(edit)
        except ValueError as error:
            wrong[edit.name] = f"it no longer applies: {error}"
            continue
        if line is None:
            wrong[edit.name] = "no receipt tells of it"
        elif line.sum != edit_sum(edit):
            wrong[edit.name] = "it is not the text that its receipt is of"
        elif receipt.logic != logic():
            wrong[edit.name] = "the toolchain's logic is not what its receipt is of"
        elif line.read != read:
            wrong[edit.name] = "what its check reads is not what its receipt is of"
    return wrong


def gone(sums: Sums, crate: str, edits: List[Edit]) -> List[str]:
    """The wrong bodies that the receipt tells of and that are no longer there."""
    return sorted(set(receipt_of(sums.top, crate).lines) - {it.name for it in edits})
