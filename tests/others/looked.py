"""Shared. What `rqlook` must show of a log, made of the log's bytes alone: its records, as JSON and as lines, its stories, and the rows of its page;
what stands on a page, read; and whether a value of JSON meets a schema: those words of JSON Schema that `docs/report.schema.json` uses."""
from __future__ import annotations
import bisect, json, os, re, unicodedata
from collections import Counter
from collections.abc import Iterator
from html.parser import HTMLParser
from itertools import accumulate

from frames import HEADER, NO_QUEUE, bodies_of
from trying import TOP, text_in

SHOWN = 32
# What nobody sees, or what changes how the text around it is shown: controls, format characters, separators of lines and paragraphs.
HIDDEN = {"Cc", "Cf", "Zl", "Zp"}
# What belongs to a text and is no character that is seen.
ESCAPES = {"\n": "\\n", "\r": "\\r", "\t": "\\t"}
KINDS = ["", "define", "register", "deregister", "begin", "enqueue", "dequeue", "commit", "abort", "checkpoint", "kill"]


def number(data: bytes) -> int:
    return int.from_bytes(data, "big")


def who(rest: bytes) -> tuple[dict, bytes]:
    """The registrant and the tag at the front of the bytes, and what follows."""
    size = rest[0]
    name, tag, behind = rest[1:1 + size], number(rest[1 + size:9 + size]), rest[9 + size:]
    return ({"registrant": name.decode(), "tag": tag} if size else {}), behind


def text_of(data: bytes) -> str | None:
    try:
        return data.decode()
    except UnicodeDecodeError:
        return None


def payload_of(data: bytes) -> dict:
    it, text = {"hex": data.hex()}, text_of(data)
    return it if text is None else it | {"text": text}


def fields_of(body: bytes, queues: int) -> dict:
    """The fields of a record that follows so many queues' definitions."""
    kind, rest = KINDS[body[0]], body[1:]
    if kind == "define":
        error = number(rest[2:6])
        it = {"queue": queues, "name": rest[6:].decode(), "limit": number(rest[:2])}
        return it if error == NO_QUEUE else it | {"error": error}
    if kind in ("register", "deregister"):
        return {"queue": number(rest[:4]), "registrant": rest[4:].decode()}
    if kind == "enqueue":
        by, payload = who(rest[13:])
        return {"unit": number(rest[:8]), "queue": number(rest[8:12]), "priority": rest[12]} | by | {"payload": payload_of(payload)}
    if kind == "dequeue":
        return {"unit": number(rest[:8]), "queue": number(rest[8:12])} | who(rest[12:])[0]
    if kind == "kill":
        return {"queue": number(rest[:4]), "element": number(rest[4:])}
    return {"bytes": {"hex": rest.hex()}} if kind == "checkpoint" else {"unit": number(rest)}


def records_of(bodies: list[bytes]) -> list[dict]:
    """The records as a dump shows them as JSON."""
    records, at, queues = [], HEADER, 0
    for place, body in enumerate(bodies):
        records.append({"offset": at, "record": place, "kind": KINDS[body[0]]} | fields_of(body, queues))
        at += 36 + len(body)
        queues += body[0] == 1
    return records


def is_hidden(c: str) -> bool:
    return unicodedata.category(c) in HIDDEN


def shown(it: dict, full: bool) -> str:
    """Bytes as a line shows them."""
    data = bytes.fromhex(it["hex"])
    text = text_of(data)
    if not data:
        return "-"
    if text is not None and not any(is_hidden(c) and c not in ESCAPES for c in text):
        part = text if full else text[:SHOWN]
        spelled, size = '"' + "".join(ESCAPES.get(c, c) for c in part.replace("\\", "\\\\").replace('"', '\\"')) + '"', len(part.encode())
    else:
        part = data if full else data[:SHOWN]
        spelled, size = "hex " + part.hex(), len(part)
    return spelled if size == len(data) else f"{spelled}.. {len(data)} bytes"


def columns_of(c: str) -> int:
    """How many columns of a terminal a character takes that is not hidden: none if it stands over another, two if it is wide."""
    return 0 if unicodedata.category(c) in ("Mn", "Me") else 2 if unicodedata.east_asian_width(c) in "WF" else 1


def cut_to(columns: int, line: str) -> str:
    """The line as it fits so many columns; its mark says how many characters it has more."""
    if sum(map(columns_of, line)) <= columns:
        return line
    room, shown = columns - len(f".. {len(line)} more"), 0
    while (room := room - columns_of(line[shown])) >= 0:
        shown += 1
    return f"{line[:shown]}.. {len(line) - shown} more"


def by_of(it: dict) -> str:
    return f"by {it['registrant']} tag {it['tag']}" if "tag" in it else "by -"


def line_of(it: dict, full: bool = False) -> str:
    """The record as a dump shows it as text."""
    kind = it["kind"]
    words = [str(it["offset"]), str(it["record"]), kind]
    words += [f"{field} {it[field]}" for field in ("unit", "queue") if field in it]
    if kind == "define":
        words.append(f"name {it['name']} limit {it['limit']} error {it.get('error', '-')}")
    elif kind in ("register", "deregister"):
        words.append(f"name {it['registrant']}")
    elif kind == "enqueue":
        words.append(f"priority {it['priority']} {by_of(it)} payload {shown(it['payload'], full)}")
    elif kind == "dequeue":
        words.append(by_of(it))
    elif kind == "checkpoint":
        words.append(f"bytes {shown(it['bytes'], full)}")
    elif kind == "kill":
        words.append(f"element {it['element']}")
    return " ".join(words)


def spelled(c: str) -> str:
    """A character as JSON spells it by its units of UTF-16."""
    return "".join(f"\\u{unit:04x}" for unit in memoryview(c.encode("utf-16-le")).cast("H"))


def compact(it: dict) -> str:
    text = json.dumps(it, separators=(",", ":"), ensure_ascii=False)
    return "".join(spelled(c) if is_hidden(c) else c for c in text) if not text.isascii() or "\x7f" in text else text


class Machine:
    """What becomes of elements, record by record: a second writing of the rules, for the stories."""

    def __init__(self) -> None:
        self.queues: list[tuple[int, int | None]] = []
        self.free: list[list[tuple[int, int]]] = []
        self.elements: dict[int, list[int]] = {}
        self.open: dict[int, list[tuple[int, bool]]] = {}

    def release(self, element: int) -> None:
        home, priority, _ = self.elements[element]
        bisect.insort(self.free[home], (-priority, element))

    def returned(self, element: int) -> str:
        home, priority, attempts = self.elements[element]
        limit, error = self.queues[home]
        attempts += 1
        moves = limit == attempts
        self.elements[element] = [error, priority, 0] if moves else [home, priority, attempts]
        self.release(element)
        return f"element {element} moves to queue {error}" if moves else f"element {element} is back in queue {home}, attempts {attempts}"

    def end(self, unit: int, commits: bool) -> list[tuple[int | None, str]]:
        events = []
        for element, fresh in sorted(self.open.pop(unit)):
            if fresh and commits:
                self.release(element)
                events.append((element, f"element {element} is free in queue {self.elements[element][0]}"))
            elif fresh or commits:
                del self.elements[element]
                events.append((element, f"element {element} was not put in" if fresh else f"element {element} is gone"))
            else:
                events.append((element, self.returned(element)))
        return events

    def take(self, it: dict) -> tuple[int | None, str]:
        free = self.free[it["queue"]]
        if not free:
            return None, "finds no element"
        _, element = free.pop(0)
        self.open[it["unit"]].append((element, False))
        return element, f"takes element {element}"

    def kill(self, queue: int, element: int) -> list[tuple[int | None, str]]:
        home, priority, _ = self.elements.get(element, (None, 0, 0))
        if home != queue or (-priority, element) not in self.free[queue]:
            return []
        self.free[queue].remove((-priority, element))
        del self.elements[element]
        return [(element, f"element {element} is gone")]

    def step(self, it: dict) -> list[tuple[int | None, str]]:
        """What happens at the record: to which element, and in words."""
        kind = it["kind"]
        if kind == "define":
            self.queues.append((it["limit"], it.get("error")))
            self.free.append([])
        elif kind == "begin":
            self.open[it["unit"]] = []
        elif kind == "enqueue":
            element = it["record"]
            self.elements[element] = [it["queue"], it["priority"], 0]
            self.open[it["unit"]].append((element, True))
            return [(element, f"puts in element {element}")]
        elif kind == "dequeue":
            return [self.take(it)]
        elif kind == "kill":
            return self.kill(it["queue"], it["element"])
        elif kind in ("commit", "abort"):
            return self.end(it["unit"], kind == "commit")
        return []


class Stories:
    """The lines of the story of each element and of each unit of a whole log."""

    def __init__(self, records: list[dict], size: int) -> None:
        self.elements: dict[int, list[str]] = {}
        self.units: dict[int, list[str]] = {}
        self.closing = f"front ends behind {len(records)} records, at {size} of {size} bytes, whole: nothing follows"
        self.last: dict[tuple[str, int], list[str]] = {}
        machine = Machine()
        for it in records:
            events, line = machine.step(it), line_of(it)
            for element, said in events:
                if element is not None:
                    self.elements.setdefault(element, []).append(f"{line}: {said}")
            if "unit" in it:
                self.units.setdefault(it["unit"], []).extend([f"{line}: {said}" for _, said in events] or [line])
        for unit in sorted(machine.open):
            self.cut_off(unit, machine.end(unit, False))

    def cut_off(self, unit: int, events: list[tuple[int | None, str]]) -> None:
        aborts = f"the restart aborts unit {unit}"
        self.last["unit", unit] = [f"{aborts}: {said}" for _, said in events] or [aborts]
        for element, said in events:
            self.last.setdefault(("element", element), []).append(f"{aborts}: {said}")

    def of(self, subject: str, number: int) -> str:
        told = (self.units if subject == "unit" else self.elements)[number]
        return "\n".join(told + [self.closing] + self.last.get((subject, number), [])) + "\n"


# --- schemas ---------------------------------------------------------------------------------------------------------

TYPES = {"object": dict, "array": list, "string": str, "integer": int, "null": type(None)}
# Words that say nothing of a value.
SILENT = {"$schema", "$defs", "title", "description"}


def misfits(value: object, schema: dict, whole: dict, place: str = "") -> list[str]:
    """Each way in which the value does not meet the schema, with its place."""
    found: list[str] = []
    for word, asked in schema.items():
        if word == "$ref":
            found += misfits(value, whole["$defs"][asked.rsplit("/", 1)[1]], whole, place)
        elif word == "anyOf":
            each = [misfits(value, one, whole, place) for one in asked]
            found += [] if [] in each else min(each, key=len)
        elif word == "properties":
            for name in set(value) & set(asked) if isinstance(value, dict) else ():
                found += misfits(value[name], asked[name], whole, f"{place}/{name}")
        elif word == "items":
            for at, item in enumerate(value if isinstance(value, list) else ()):
                found += misfits(item, asked, whole, f"{place}/{at}")
        elif not meets(value, word, asked, schema):
            found.append(f"{place}: {word} {asked}")
    return found


def meets(value: object, word: str, asked: object, schema: dict) -> bool:
    """Whether the value meets one word that names no other schema."""
    if word == "type":
        return isinstance(value, TYPES[asked]) and not isinstance(value, bool)
    if word == "enum":
        return value in asked
    if word in ("minimum", "maximum"):
        return isinstance(value, int) and (asked <= value if word == "minimum" else value <= asked)
    if word == "pattern":
        return isinstance(value, str) and re.fullmatch(asked.strip("^$"), value) is not None
    if word == "maxItems":
        return isinstance(value, list) and len(value) <= asked
    if word == "required":
        return isinstance(value, dict) and set(asked) <= set(value)
    if word == "additionalProperties":
        return isinstance(value, dict) and set(value) <= set(schema["properties"])
    return word in SILENT


def report_misfits(report: object) -> list[str]:
    """Each way in which a report does not meet the schema of reports."""
    schema = json.loads(text_in(os.path.join(TOP, "docs", "report.schema.json")))
    return misfits(report, schema, schema)


# --- pages -----------------------------------------------------------------------------------------------------------

TAGS = {"html", "head", "meta", "title", "style", "body", "header", "main", "nav", "section", "h1", "h2", "p", "a", "b", "strong", "i", "small", "code", "bdi",
        "table", "caption", "tr", "th", "td", "svg", "g", "rect", "path", "div", "span", "ul", "ol", "li", "dl", "dt", "dd", "details", "summary"}
WORDS = {"lang", "charset", "http-equiv", "content", "name", "class", "id", "href", "scope", "colspan", "viewbox", "preserveaspectratio", "role",
         "aria-label", "x", "y", "width", "height", "d"}
EMPTY = {"meta", "rect", "path"}
# What must stand first in a picture and in a table, so that each has a name.
NAMES = {"svg": "title", "table": "caption"}
# The lives of all are shown of so many records, and more if they fit; as many elements of a queue are; as many characters of a payload are
# at once.
ALL, LISTED, FIRST = 1500, 1000, 80
# An element's payload can be folded out if it begins before this byte of what stands behind the page's first lines, up to these words.
WHOLE, COUNTED = 500_000, b"style-src 'sha256-"
QUEUES = re.compile(rb'<section id="queues">.*?</section>', re.DOTALL)
# The first of a payload that is not all of it, and whether all of it can be folded out.
PAYLOAD = re.compile(rb'<bdi class="text(?: hex)?">[^<]*</bdi>(?:(<details>)|<i>\.\. )')


class Page(HTMLParser):
    """What a page is made of, and the texts of its tables' cells, row by row, by the row's id and class."""

    def __init__(self) -> None:
        super().__init__()
        self.text = ""
        self.tags: set[str] = set()
        self.words: set[str] = set()
        self.open: list[str] = []
        self.ids: list[str] = []
        self.links: set[str] = set()
        self.nameless: list[str] = []
        self.wrong: list[str] = []
        self.wanted: str | None = None
        self.policy, self.style = "", ""
        self.rows: list[tuple[str, list[str]]] = []
        self.going: list[list[str]] = []

    def feed(self, text: str) -> None:
        self.text += text
        super().feed(text)

    def wrongly_cut(self) -> list[int]:
        """Where elements' payloads begin of which all can be folded out and must not, or must and cannot."""
        page = self.text.encode()
        queues, counted = QUEUES.search(page), page.index(COUNTED) + len(COUNTED)
        found = PAYLOAD.finditer(queues[0]) if queues else ()
        return [at for at, is_whole in ((queues.start() + it.start(), it[1] is not None) for it in found) if is_whole != (at - counted < WHOLE)]

    def handle_starttag(self, tag: str, attrs: list[tuple[str, str | None]]) -> None:
        words = dict(attrs)
        self.tags.add(tag)
        self.words.update(words)
        if self.wanted not in (None, tag):
            self.nameless.append(f"{tag} in place of {self.wanted}")
        self.wanted = NAMES.get(tag)
        if "id" in words:
            self.ids.append(words["id"] or "")
        if "href" in words:
            self.links.add(words["href"] or "")
        if tag == "th" and words.get("scope") not in ("row", "col"):
            self.nameless.append("th without scope")
        if words.get("http-equiv") == "Content-Security-Policy":
            self.policy = words["content"] or ""
        if tag == "tr":
            self.rows.append((words.get("id") or words.get("class") or "", []))
            self.going.append(self.rows[-1][1])
        if tag in ("th", "td") and self.going:
            self.going[-1].append("")
        if tag not in EMPTY:
            self.open.append(tag)

    def handle_startendtag(self, tag: str, attrs: list[tuple[str, str | None]]) -> None:
        self.handle_starttag(tag, attrs)
        if tag not in EMPTY:
            self.open.pop()

    def handle_endtag(self, tag: str) -> None:
        # a rectangle with a title is closed by its own tag
        if tag not in EMPTY and (not self.open or self.open.pop() != tag):
            self.wrong.append(f"</{tag}>")
        if tag == "tr":
            self.going.pop()
        if tag == "li" and self.going and self.going[-1]:
            self.going[-1][-1] += "|"

    def handle_data(self, data: str) -> None:
        if self.open and self.open[-1] == "style":
            self.style += data
        elif self.going and self.going[-1] and "svg" not in self.open:
            self.going[-1][-1] += data


def seen(c: str) -> str:
    """How a page shows a character of a text."""
    pictures = {"\b": "\u2408", "\t": "\u2409", "\n": "\u240a", "\r": "\u240d", "\x1b": "\u241b", "\x7f": "\u2421", "\0": "\u2400"}
    return pictures.get(c, "\ufffd") if is_hidden(c) else c


def kept(c: str) -> str:
    """How it shows one of a payload."""
    return {"\n": "\u21b5\n", "\t": "\u21e5\t"}.get(c) or seen(c)


def payload(it: dict, whole: bool = True) -> str:
    """How a page shows a payload."""
    data = bytes.fromhex(it["hex"])
    text = text_of(data)
    if not data:
        return "no bytes"
    all_of_it = "".join(map(kept, text)) if text is not None else data.hex()
    first = "".join(map(kept, text[:FIRST])) if text is not None else data[:FIRST].hex()
    if first == all_of_it:
        return first
    return f"{first}all {len(data):,} bytes{all_of_it}" if whole else f"{first}.. {len(data):,} bytes"


class Told:
    """The rows of lives and of records that the page of a whole log has."""

    def __init__(self, records: list[dict], stories: Stories, names: list[str]) -> None:
        self.names, self.records, self.stories = names, records, stories
        machine = Machine()
        self.events = {it["record"]: self.told(it, machine.step(it)) for it in records}

    @staticmethod
    def told(it: dict, events: list[tuple[int | None, str]]) -> list[tuple[int | None, str]]:
        """What happens at a record; a KILL without effect is told as one."""
        return events or ([(None, "finds no element")] if it["kind"] == "kill" else [])

    def queue(self, number: int) -> str:
        return f"{number} {self.names[number]}"

    def happens(self, said: str) -> tuple[str, str]:
        """What a story says of an element: before the element, and behind it."""
        words = said.split()
        if words[0] in ("puts", "takes"):
            return ("put in" if words[0] == "puts" else "taken"), ""
        if said.endswith("is gone"):
            return "gone", ""
        if said.endswith("was not put in"):
            return "not put in after all", ""
        attempts = said.partition(", ")[2]
        number = int(words[words.index("queue") + 1].rstrip(","))
        before = {"free": "free in", "back": "back in", "to": "moved to"}[words[3]]
        return before, f" queue {self.queue(number)}" + (f", {attempts}" if attempts else "")

    def step(self, line: str) -> str:
        """A line of the story of an element as a step of its life."""
        told, _, said = line.rpartition(": ")
        words = told.split()
        number = "at the restart" if words[0] == "the" else words[1]
        unit = words[words.index("unit") + 1] if "unit" in words else None
        before, behind = self.happens(said)
        return f"{number} {before}{behind}" + (f", unit {unit}" if unit else "") + "|"

    def event(self, event: tuple[int | None, str]) -> str:
        """What happens at a record, as a step of its row."""
        element, said = event
        return "finds no element|" if element is None else f"element {element} {''.join(self.happens(said))}|"

    def elements(self) -> dict[str, list[str]]:
        """The row of each element, by its id."""
        rows = {}
        for number, lines in self.stories.elements.items():
            steps = map(self.step, lines + self.stories.last.get(("element", number), []))
            rows[f"e{number}"] = [str(number), "".join(steps)]
        return rows

    def record(self, it: dict, whole: bool = True) -> str:
        """What a record says, with all of its payload or the first of it."""
        words = [it["kind"]]
        if "unit" in it:
            words.append(f"unit {it['unit']}")
        if "queue" in it:
            words.append(f"queue {self.queue(it['queue'])}")
        if it["kind"] == "define":
            words.append(f"limit {it['limit']} error queue {self.queue(it['error']) if 'error' in it else '-'}")
        elif it["kind"] in ("register", "deregister"):
            words.append(f"name {it['registrant']}")
        elif it["kind"] == "kill":
            words.append(f"element {it['element']}")
        if it["kind"] == "enqueue":
            words.append(f"priority {it['priority']}")
        if "tag" in it:
            words.append(f"by {it['registrant']} tag {it['tag']}")
        if "payload" in it:
            words.append(f"payload {payload(it['payload'], whole)}")
        return " ".join(words)

    def rows(self, whole: bool = True) -> dict[str, list[str]]:
        """The row of each record, by its id."""
        return {f"r{it['record']}": [str(it["record"]), str(it["offset"]), self.record(it, whole), "".join(map(self.event, self.events[it["record"]]))]
                for it in self.records if it["kind"] != "checkpoint"}

    def behind(self, first: int, whole: bool = True) -> dict[str, list[str]]:
        """The rows of the records from this one on, and of the elements that these have to do with, by their ids."""
        rows = {name: cells for name, cells in self.rows(whole).items() if int(name[1:]) >= first}
        for name, (element, life) in self.elements().items():
            steps = [it for it in life.split("|")[:-1] if it.startswith("at the restart") or int(it.split()[0]) >= first]
            if steps:
                rows[name] = [element, "".join(f"{it}|" for it in steps)]
        return rows


# --- the first chapter, and the rows of checkpoints ------------------------------------------------------------------

BADGE = re.compile(r'<span class="badge \w+">([^<]*)</span>')
TILE = re.compile(r"<div><dt>(\w+)</dt><dd>([\d,]+)</dd></div>")
MARK = re.compile(r'<rect class="(true|false)" ')
# By whether it is good news, why the front ends; how many units are open at most, and at its end; how many records of each kind there are; and
# how many bytes the picture shows behind the front.
REASON = re.compile(r'behind it</th><td><span class="(\w+)">')
OPEN = re.compile(r"<p>At most ([\d,]+) at once, ([\d,]+) where the front ends\.</p>")
LEGEND = re.compile(r'<li class="(\w+)">([\d,]+) \w+</li>')
DAMAGE = re.compile(r'<rect class="damage"[^>]*><title>([\d,]+) bytes behind the front</title>')


def told_of(page: Page, report: dict) -> dict[str, object]:
    """What the page tells of the front, by the names of its rows."""
    rows = {cells[0]: cells[1] for _, cells in page.rows if len(cells) == 2}
    names = [name for name, _ in wanted_of(report, b"", [])]
    found = {name: form.findall(page.text) for name, form in (("badge", BADGE), ("reason", REASON), ("open", OPEN), ("damage", DAMAGE))}
    return {**{it: rows.get(it) for it in names}, **found, "tiles": dict(TILE.findall(page.text)), "kinds": dict(LEGEND.findall(page.text))}


def wanted_of(report: dict, log: bytes, audit: list[str]) -> Iterator[tuple[str, object]]:
    """What it must tell, by the report of the log and its audit."""
    front, units, queues = report["front"], report["units"], report["queues"]
    elements, registrants = (sum(len(it[name]) for it in queues) for name in ("elements", "registrants"))
    wrong = sum(1 for it in audit if it.endswith(" false"))
    yield "front", f"{front['records']:,} records, {front['used']:,} of {front['total']:,} bytes"
    yield "behind it", f"{front['why']}: {front['reason']}"
    yield "digest of its last frame" if front["records"] else "end of its header", log[:front["used"]][-32:].hex()
    yield "units", f"{units['committed']:,} committed, {units['aborted']:,} aborted, {units['cut_off']:,} cut off"
    yield "after the restart", f"{len(queues):,} queues, {elements:,} elements, {registrants:,} registrants"
    yield "checkpoints", f"{len(audit):,}" + (f", of which {wrong:,} do not spell the state before them" if wrong else "")
    counts = zip(("bytes", "records", "queues", "elements", "registrants"), (front["total"], front["records"], len(queues), elements, registrants))
    yield "tiles", {name: f"{count:,}" for name, count in counts}
    yield "badge", ["whole" if front["why"] == "whole" else "not whole"]
    yield "reason", ["whole" if front["why"] == "whole" else "bad"]
    behind = front["total"] - front["used"]
    yield "damage", [f"{behind:,}"] if behind else []
    kinds = [KINDS[body[0]] for body in bodies_of(log[:front["used"]])]
    yield "kinds", {kind: f"{count:,}" for kind, count in Counter(kinds).items()}
    open_units = accumulate({"begin": 1, "commit": -1, "abort": -1}.get(it, 0) for it in kinds)
    yield "open", [(f"{max(open_units, default=0):,}", f"{units['cut_off']:,}")]


def marks_of(page: Page) -> list[str]:
    """The checkpoints in the picture of the log: true ones, and false ones."""
    return sorted(MARK.findall(page.text))


def wanted_marks(audit: list[str], size: int) -> list[str]:
    """What the picture must have: one mark for each of 200 parts of the log with a checkpoint, a true one if all of them are."""
    parts: dict[int, list[str]] = {}
    for _, offset, truth in map(str.split, audit):
        parts.setdefault(int(offset) * 200 // size, []).append(truth)
    return sorted(min(it) for it in parts.values())


def checkpoint_rows(records: list[dict], bodies: list[bytes], audit: list[str]) -> dict[str, list[str]]:
    """The rows of checkpoints among the records, by their ids."""
    truth = {int(line.split()[1]): line.split()[2] for line in audit}
    said = {"true": "true", "false": "does not spell the state before it"}
    return {f"r{it['record']}": [str(it["record"]), str(it["offset"]), f"checkpoint of {len(body) - 1:,} bytes, {said[truth[it['offset']]]}", ""]
            for it, body in zip(records, bodies) if it["kind"] == "checkpoint"}
