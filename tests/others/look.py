"""Quick, of logs of its own; by hand of the peer's with --peer. Holds what `rqlook` shows against what rq says and what the log's bytes are, over many
logs.

Of each log: the report as JSON is held against its schema, told as text again, and compared with `rq restart`; the lines of each queue alone
with those of the whole; the script is made a log again by `rq make`, and compared byte by byte; each line of a dump, whole and by each option,
as text and as JSON, with what is made of the log's bytes (looked.py); so are the stories of some elements and units; `check` is compared with
`rq audit`, and the page with the report. Then a small log is damaged in each of the six ways, and what the dump says of its end is compared;
odd payloads are shown, whole and in so many columns, on a terminal too; a script ends before a record that no line tells; and wrong words, a
missing file, a closed output and refused memory are tried. The logs are those of the scripts in examples/, and one of units on many queues with
checkpoints. Each with a true checkpoint is carried on there into a file of its own, too: what is shown of it must be what is shown of the whole
log from there on, at its offsets. With --peer the logs are the peer's, some for each shape and seed. With --scripts, so many more are made, told
as scripts and made again.
"""
from __future__ import annotations
import argparse, glob, json, os, pty, random, re, resource, shutil, subprocess, tty

from frames import (CARRIED_AT, HEADER, begin, bodies_of, carried as carried_file, chained, checkpoint, commit, define, enqueue, header_of, read_as_log,
                    register, write_log)
from logs import COMPARED, NO_RECORD, UNLAWFUL, built_peer, checkpoints_script, log_of
from looked import (ALL, LISTED, TAGS, WORDS, Page, Stories, Told, checkpoint_rows, columns_of, compact, cut_to, is_hidden, line_of, marks_of,
                    payload, records_of, report_misfits, told_of, wanted_marks, wanted_of)
from trying import EXAMPLES, RQ, RQLOOK, check, content, done, put


def told(*words: str) -> tuple[int, str]:
    status, printed, _ = done(*words)
    return status, printed.decode()


def on_terminal(*words: str, **env: str) -> tuple[int, str]:
    """How a command ends, and what it prints on a terminal that changes no byte; the environment has these variables more."""
    reads, writes = pty.openpty()
    tty.setraw(writes)
    with subprocess.Popen(words, stdin=subprocess.DEVNULL, stdout=writes, stderr=subprocess.DEVNULL, env={**without_columns(), **env}) as going:
        os.close(writes)
        printed = b""
        try:
            while piece := os.read(reads, 1 << 16):
                printed += piece
        except OSError:
            # nobody can write any more
            pass
    os.close(reads)
    return going.returncode, printed.decode()


def without_columns() -> dict[str, str]:
    return {name: value for name, value in os.environ.items() if name != "COLUMNS"}


def or_dash(value: object) -> str:
    return "-" if value is None else str(value)


def text_of(report: dict) -> str:
    """The report's text, from its JSON."""
    front, units = report["front"], report["units"]
    lines = [f"front {front['records']} records, {front['used']} of {front['total']} bytes, {front['why']}",
             f"units {units['committed']} committed, {units['aborted']} aborted, {units['cut_off']} cut off"]
    for queue in report["queues"]:
        lines.append(f"queue {queue['number']} {queue['name']} limit {queue['limit']} error {or_dash(queue['error'])}")
        for e in queue["elements"]:
            lines.append(f"e {e['id']} from {e['from']} priority {e['priority']} attempts {e['attempts']} {e['payload']['hex'] or '-'}")
            if "text" in e["payload"]:
                check("a payload's text", e["payload"]["text"].encode().hex(), e["payload"]["hex"])
        for r in queue["registrants"]:
            last = r["last"]
            lines.append(f"r {r['name']} " + (f"{last['kind']} tag {last['tag']} element {or_dash(last['element'])}" if last else "none"))
    return "\n".join(lines) + "\n"


def by_queue(text: str) -> list[str]:
    """The lines of each queue of a report."""
    queues: list[str] = []
    for line in text.splitlines(keepends=True)[2:]:
        if line.startswith("queue "):
            queues.append("")
        queues[-1] += line
    return queues


def same_reports(log: str, draw: random.Random) -> None:
    _, want = told(RQ, "restart", log, "4", "1000")
    check(f"{log} as text", told(RQLOOK, "report", log), (0, want))
    report = json.loads(told(RQLOOK, "report", log, "--json")[1])
    check(f"{log} as JSON", text_of(report), want)
    check(f"{log} as JSON by its schema", report_misfits(report), [])
    queues = by_queue(want)
    # the last one is always among them: behind its lines no other's begin
    for number in {*draw.sample(range(len(queues)), min(3, len(queues))), len(queues) - 1}:
        check(f"{log}, queue {number}", told(RQLOOK, "report", log, "--queue", str(number))[1], queues[number])
        one = json.loads(told(RQLOOK, "report", log, "--json", "--queue", str(number))[1])
        check(f"{log}, queue {number} as JSON", by_queue(text_of(one)), [queues[number]])


def same_script(log: str, folder: str) -> None:
    script, made = os.path.join(folder, "look.script"), os.path.join(folder, "look.log")
    with open(script, "wb") as to:
        check(f"{log}'s script", subprocess.run([RQLOOK, "script", log], stdout=to).returncode, 0)
    want = content(log)
    subprocess.run([RQ, "make2" if want[7] == 2 else "make", script, made], check=True)
    check(f"{log} of its script", content(made) == want, True)


def wanted_by(draw: random.Random, records: list[dict]) -> list[tuple[list[str], list[dict]]]:
    """Each option of a dump with a value that some record has, two of them together, and the records that fit."""
    chosen = {field: draw.choice([it for it in records if field in it])[field]
              for field in ("unit", "queue", "registrant", "kind") if any(field in it for it in records)}
    found = [([f"--{field}", str(value)], [it for it in records if it.get(field) == value]) for field, value in chosen.items()]
    start = draw.choice(records)["offset"] - draw.randrange(2)
    behind = [it for it in records if it["offset"] >= start]
    found.append((["--from", str(start)], behind))
    found.append((["--limit", "3"], records[:3]))
    both = [it for it in behind if it["kind"] == "enqueue"]
    found.append((["--from", str(start), "--kind", "enqueue", "--limit", "2"], both[:2]))
    return found


def same_lines(log: str, words: list[str], records: list[dict], closing: tuple[str, dict]) -> None:
    """A dump with these options as JSON, as text and as text in full."""
    as_json = [compact(it) for it in records] + [compact(closing[1])]
    check(f"{log} {words} as JSON", told(RQLOOK, "dump", log, "--json", *words), (0, "\n".join(as_json) + "\n"))
    for full in ([], ["--full"]):
        want = [line_of(it, bool(full)) for it in records] + [closing[0]]
        check(f"{log} {words} {full}", told(RQLOOK, "dump", log, *words, *full), (0, "\n".join(want) + "\n"))


def same_dump(log: str, records: list[dict], draw: random.Random) -> None:
    """Compares each line of the dump, of all records and of those that an option asks for."""
    size, count = os.path.getsize(log), len(records)
    line = f"front ends behind {count} records, at {size} of {size} bytes, whole: nothing follows"
    front = {"records": count, "used": size, "total": size, "why": "whole", "reason": "nothing follows"}
    for words, wanted in [([], records)] + wanted_by(draw, records):
        same_lines(log, words, wanted, (line, {"front": front}))


def same_check(log: str) -> None:
    false = [line.split()[1] for line in told(RQ, "audit", log, "4")[1].splitlines() if line.endswith("false")]
    whole = told(RQ, "restart", log, "4", "1000")[1].split("\n", 1)[0].endswith("whole")
    status, text = told(RQLOOK, "check", log)
    check(f"{log}'s findings", (status, text.count("the checkpoint at"), text.count("front ends")),
          (0 if whole and not false else 1, len(false), 0 if whole else 1))
    check(f"{log}'s findings, not said", told(RQLOOK, "check", log, "-q"), (status, ""))
    behind = "\nbehind it no frame is right in itself; " in text and "\nthe search gave up" not in text
    is_torn = behind and not re.search(r" bytes, (form|law): ", text) and os.path.getsize(log) - int(text.split(" at ", 1)[1].split()[0]) <= 1 << 20
    word = ("whole, but not" if false else "whole, each") if whole else "a torn end" if is_torn else "damaged"
    check(f"{log}'s verdict", text.split("\n")[-2].startswith(f"verdict: {word}"), True)


def same_stories(log: str, records: list[dict], count: int, draw: random.Random) -> None:
    """The stories of some elements and some units, among them the last ones, which may be open."""
    stories = Stories(records, os.path.getsize(log))
    for subject, word, told_of in (("element", "story", stories.elements), ("unit", "unit", stories.units)):
        numbers = sorted(told_of)
        for it in draw.sample(numbers, min(count, len(numbers))) + numbers[-3:]:
            check(f"{log}, the story of {subject} {it}", told(RQLOOK, word, log, str(it)), (0, stories.of(subject, it)))
    check(f"{log}, the story of no element", told(RQLOOK, "story", log, str(len(records))), (1, ""))


def page_of(log: str, *words: str) -> Page:
    status, text = told(RQLOOK, "page", log, "-", *words)
    page = Page()
    page.feed(text)
    check(f"{log}'s page has other parts", (status, page.tags - TAGS, page.words - WORDS, page.wrong), (0, set(), set(), []))
    check(f"{log}'s page has links that lead nowhere", [it for it in page.links if it[1:] not in set(page.ids)][:5], [])
    return page


ORDERS = {"depth": lambda it: (-len(it["elements"]), it["number"]), "number": lambda it: it["number"], "name": lambda it: it["name"]}


def queue_rows(queues: list[dict], order: str, whole: bool = True) -> list[list[str]]:
    """The rows of the page's queues, elements and registrants, of a report's queues; with all of each payload, if it is whole."""
    names = [f"{it['number']} {it['name']}" for it in queues]
    want = []
    for queue in sorted(queues, key=ORDERS[order]):
        error = "-" if queue["error"] is None else names[queue["error"]]
        want.append([f"{names[queue['number']]}limit {queue['limit']}, error queue {error}", f"{len(queue['elements']):,}"])
        want += [[str(e["id"]), names[e["from"]], str(e["priority"]), f"{e['attempts']:,}", payload(e["payload"], whole)] for e in queue["elements"][:LISTED]]
        want += [[r["name"]] + ([r["last"]["kind"], str(r["last"]["tag"]), or_dash(r["last"]["element"])] if r["last"] else ["-", "", ""])
                 for r in queue["registrants"]]
    return want


def shown_rows(page: Page) -> list[list[str]]:
    """The same as the page has them."""
    found = []
    for name, cells in page.rows:
        if name[:1] == "q" and name[1:].isdecimal():
            found.append(cells[:2])
        elif name == "" and len(cells) in (4, 5) and cells[0] not in ("element", "registrant", "queue", "record"):
            found.append(cells)
    return found


def same_queues(log: str) -> tuple[list[str], Page]:
    """The rows of the page's queues, elements and registrants against the report. Answers the names of the queues, and a page."""
    report = json.loads(told(RQLOOK, "report", log, "--json")[1])
    for order in ORDERS:
        page = page_of(log, "--order", order)
        shown, whole, short = shown_rows(page), queue_rows(report["queues"], order), queue_rows(report["queues"], order, False)
        # From some row on, the page has only the first of each payload: from the bound on, which is looked for in its bytes.
        check(f"{log}'s page by {order}, payloads cut", page.wrongly_cut()[:5], [])
        cut = next((at for at, (row, both) in enumerate(zip(shown, zip(whole, short))) if row == both[1] != both[0]), len(whole))
        check(f"{log}'s page by {order}", shown, whole[:cut] + short[cut:])
    return [it["name"] for it in report["queues"]], page


def same_front(path: str) -> None:
    """The first chapter of a log's page, its picture's checkpoints, and the rows of these, if it has rows of records."""
    report = json.loads(told(RQLOOK, "report", path, "--json")[1])
    audit = told(RQ, "audit", path, "1")[1].splitlines()
    log, page = content(path), page_of(path)
    check(f"{path}'s page, its first chapter", told_of(page, report), dict(wanted_of(report, log, audit)))
    check(f"{path}'s page, checkpoints in its picture", marks_of(page), wanted_marks(audit, len(log)))
    rows, bodies = dict(page.rows), bodies_of(log[:report["front"]["used"]])
    for name, want in checkpoint_rows(records_of(bodies), bodies, audit).items():
        if "r0" in rows:
            check(f"{path}'s page, {name}", rows.get(name), want)


def false_checkpoints(folder: str) -> None:
    """The page of a log with true and with false checkpoints; one part of its picture has both."""
    path = os.path.join(folder, "look.false")
    bodies = [define(b"jobs"), checkpoint(b"no state"), begin(1)]
    bodies += [it for unit in range(2, 402) for it in (begin(unit), commit(unit))]
    write_log(path, header_of(1), [*bodies, checkpoint(b""), commit(1)])
    subprocess.run([RQ, "make", os.path.join(EXAMPLES, "checkpoint.script"), path + ".true"], check=True)
    both = bodies_of(content(path + ".true"))
    write_log(path + ".both", header_of(1), [*both[:9], checkpoint(b"\0" * 52), *both[9:]])
    for it in (path, path + ".both"):
        same_front(it)


def in_any_order(rows: dict[str, list[str]]) -> dict[str, list[str]]:
    """The rows, with what happens at each put in order."""
    return {name: [*cells[:-1], "|".join(sorted(cells[-1].split("|")))] for name, cells in rows.items() if cells}


def same_rows(path: str, rows: dict[str, list[str]], whole: dict[str, list[str]], short: dict[str, list[str]]) -> None:
    """A page's rows of records and elements: all of each payload, and from some row on only the first of each."""
    is_whole = True
    for name, want in whole.items():
        is_whole = is_whole and (want == short[name] or rows.get(name) != short[name])
        check(f"{path}'s page, {name}", rows.get(name), want if is_whole else short[name])


def same_page(log: str, records: list[dict], draw: random.Random) -> None:
    """The rows of the page's queues against the report, and those of lives and records against the log."""
    names, page = same_queues(log)
    lives = Told(records, Stories(records, os.path.getsize(log)), names)
    rows = dict(page.rows)
    if "r0" not in rows and len(records) > ALL:
        some_lives(log, lives, draw)
        return
    check(f"{log}'s page, elements", {name: cells for name, cells in rows.items() if name[:1] == "e" and name[1:].isdecimal()}, lives.elements())
    same_rows(log, rows, lives.rows(), lives.rows(whole=False))


def some_lives(log: str, lives: Told, draw: random.Random) -> None:
    """Those of two elements that are asked for, and of a unit, of a log too long for all."""
    elements = lives.elements()
    asked, unit = draw.sample(sorted(elements), min(2, len(elements))), draw.choice(sorted(lives.stories.units))
    words = [word for name in asked for word in ("--element", name[1:])]
    rows = dict(page_of(log, *words, "--unit", str(unit)).rows)
    for name in asked:
        check(f"{log}'s page, {name} alone", rows.get(name), elements[name])
    wanted = {it["record"] for it in lives.records if it.get("unit") == unit}
    check(f"{log}'s page, unit {unit} alone", {name for name in (f"r{it}" for it in wanted) if name not in rows} | {f"u{unit}"} - set(rows), set())


def damages(log: bytes) -> list[tuple[str, str, bytes]]:
    """A log damaged in each of the six ways, the first being none, with what the dump must say of its end."""
    bodies, end = bodies_of(log), len(log)
    last = end - 36 - len(bodies[-1])
    behind = chained(log[:HEADER], bodies + [UNLAWFUL])
    return [
        ("whole", f"{end} of {end} bytes, whole: nothing follows", log),
        ("cut", f"{last} of {end - 1} bytes, cut: {end - 1 - last} bytes follow, and the frame has {end - last}", log[:-1]),
        ("length", f"{end} of {end + 4} bytes, length: a body of 0 bytes is stated, and one has 1 to 268435456", log + bytes(4)),
        ("chain", f"{last} of {end} bytes, chain: the digest is {log[-32:-1].hex()}{log[-1] ^ 1:02x}, and that of the bytes {log[-32:].hex()}",
         log[:-1] + bytes([log[-1] ^ 1])),
        ("form", f"{end} of {end + 45} bytes, form: byte 0 of the body: no record has the kind 0", chained(log[:HEADER], bodies + [NO_RECORD])),
        ("law", f"{end} of {end + 45} bytes, law: unit {2**64 - 1} is not open", behind),
    ]


def reasons(log: str, folder: str) -> None:
    path = os.path.join(folder, "look.damaged")
    whole = content(log)
    lines = [line_of(it, False) for it in records_of(bodies_of(whole))]
    for why, want, text in damages(whole):
        put(path, text)
        front = lines[:-1] if why in ("cut", "chain") else lines
        end = f"front ends behind {len(front)} records, at {want}"
        check(f"the lines of a log that ends by {why}", told(RQLOOK, "dump", path)[1].splitlines(), [*front, end])
        said = told(RQLOOK, "dump", path, "--limit", "0")[1]
        check(f"what ends a log by {why}", said.split(" records, at ", 1)[1], want + "\n")
        front = json.loads(told(RQLOOK, "dump", path, "--limit", "0", "--json")[1])["front"]
        check(f"the same as JSON, {why}", (front["why"], front["reason"]), (why, want.split(": ", 1)[1]))
        check(f"a report's end as JSON, {why}", json.loads(told(RQLOOK, "report", path, "--json")[1])["front"], front)
        check(f"a page's end, {why}", ["behind it", f"{why}: {front['reason']}"] in [cells for _, cells in page_of(path).rows], True)
        check(f"a report's front by {why}", told(RQ, "restart", path, "4", "1000")[1].split("\n", 1)[0],
              f"front {front['records']} records, {front['used']} of {front['total']} bytes, {why}")
        same_front(path)
        same_check(path)
        if why == "chain":
            widths(path)


ODD = ["<script>alert(1)</script>", "</td></table>", "&amp; \" ' \\", "\u202egnp.exe", "\u4e2d" * 20, "\u4e2d" * 32, "\u4e2d" * 33, "x" * 32, "x" * 33,
       "a\tb", "a\nb", "\x1b[2J", "\x7f", "\x9b2J", "", "e\u0301", "\u05d0\u05d1", "\U0001f600", *(f"a{c}b" for c in
       "\u00ad\u061c\u200b\u200c\u200d\u200e\u200f\u2028\u2029\u202a\u202d\u2060\u2066\u2069\u206f\ufeff\ufff9\U0001d173\U000e0041")]


def unseen(log: str) -> None:
    """No line shows a character that is hidden, and JSON tells each by its number."""
    for words in (["dump", log], ["dump", log, "--full"], ["dump", log, "--json"], ["report", log], ["report", log, "--json"], ["unit", log, "1"],
                  ["script", log], ["page", log, "-"]):
        status, text = told(RQLOOK, *words)
        # a page has a mark before each tab that it keeps
        text = text.replace("\u21e5\t", "") if words[0] == "page" else text
        check(f"what {words} shows", (status, [c for c in text if c != "\n" and is_hidden(c)]), (0, []))


def fitted(text: str, columns: int) -> str:
    return "".join(f"{cut_to(columns, line)}\n" for line in text.split("\n")[:-1])


def widths(log: str) -> None:
    """Lines that must fit so many columns, by an option, or since they are for a terminal that has no more; and what is never cut."""
    for words in (["dump", log], ["dump", log, "--full"], ["report", log], ["stats", log], ["unit", log, "1"], ["check", log]):
        status, whole = told(RQLOOK, *words)
        for columns in (20, 33, 80, 120):
            want = fitted(whole, columns)
            check(f"{words} in {columns} columns", told(RQLOOK, *words, "--width", str(columns)), (status, want))
            check(f"{words} in {columns} columns, its widest line", max(sum(map(columns_of, it)) for it in want.split("\n")) <= columns, True)
        check(f"{words} in 7 columns", told(RQLOOK, *words, "--width", "7"), (status, fitted(whole, 20)))
        check(f"{words} of any width", told(RQLOOK, *words, "--width", "0"), (status, whole))
        full = "--full" in words
        check(f"{words} on a terminal", on_terminal(RQLOOK, *words, COLUMNS="33"), (status, whole if full else fitted(whole, 33)))
        check(f"{words} on a terminal, of another width", on_terminal(RQLOOK, *words, "--width", "50", COLUMNS="33"), (status, fitted(whole, 50)))
        check(f"{words} on a terminal, of any width", on_terminal(RQLOOK, *words, "--width", "0", COLUMNS="33"), (status, whole))
        for told_columns in ({}, {"COLUMNS": "0"}, {"COLUMNS": "wide"}, {"COLUMNS": ""}):
            check(f"{words} on a terminal that tells {told_columns}", on_terminal(RQLOOK, *words, **told_columns), (status, whole))
        done = subprocess.run([RQLOOK, *words], stdout=subprocess.PIPE, env={**without_columns(), "COLUMNS": "33"})
        check(f"{words} into a pipe", (done.returncode, done.stdout.decode()), (status, whole))
    for words in (["dump", log, "--json"], ["report", log, "--json"], ["stats", log, "--json"], ["script", log], ["page", log, "-"], ["salvage", log, "-"]):
        check(f"{words} on a terminal", on_terminal(RQLOOK, *words, COLUMNS="33"), told(RQLOOK, *words))
    for words in (["dump", log, "--json"], ["report", log, "--json"], ["stats", log, "--json"]):
        check(f"{words} in 33 columns", told(RQLOOK, *words, "--width", "33"), told(RQLOOK, *words))
    check("a width that is no number", said(RQLOOK, "dump", log, "--width", "wide")[0], 2)
    check("a script of a width", said(RQLOOK, "script", log, "--width", "33")[0], 2)


def made_log(path: str, command: str, lines: list[str]) -> tuple[str, list[dict]]:
    """The log of a script of these lines, as a file beside it, and its records."""
    log = f"{path}.log"
    subprocess.run([RQ, command, put(f"{path}.script", ("\n".join(lines) + "\n").encode()), log], check=True)
    return log, records_of(bodies_of(content(log)))


def odd_payloads(folder: str) -> None:
    """Payloads that look like HTML, that have characters of many bytes, or that are no text."""
    payloads = [text.encode() for text in ODD] + [b"\xff" * 32, b"\xff" * 33]
    lines = ["define jobs 0 -", "begin 1"] + [f"enqueue 1 0 5 - 0 {payload.hex() or '-'}" for payload in payloads] + ["commit 1"]
    log, records = made_log(os.path.join(folder, "odd"), "make", lines)
    same_dump(log, records, random.Random(2))
    same_reports(log, random.Random(2))
    same_stories(log, records, 20, random.Random(3))
    same_page(log, records, random.Random(5))
    unseen(log)
    widths(log)


def kills(folder: str) -> None:
    """KILLs of elements that are of another queue, held by a unit, not free yet, or free, and of none."""
    # elements 3 to 5, and 12 of a unit that stays open
    lines = ["define jobs 0 -", "define others 0 -", "begin 1", "enqueue 1 0 5 - 0 61", "enqueue 1 0 5 - 0 62", "enqueue 1 0 5 - 0 63"]
    lines += ["kill 0 3", "commit 1", "kill 1 3", "kill 1 4", "begin 2", "dequeue 2 0 - 0", "enqueue 2 1 5 - 0 64", "kill 0 3"]
    lines += ["kill 0 4", "kill 0 4", "kill 1 5", "kill 0 99"]
    log, records = made_log(os.path.join(folder, "kills"), "make2", lines)
    same_dump(log, records, random.Random(4))
    same_reports(log, random.Random(4))
    same_stories(log, records, 20, random.Random(4))


def many_records(folder: str) -> None:
    """The page of a log of more than 10,000 records: what it tells of all, and the lives of elements that are asked for, which end late. Queues
    and registrants are of other numbers than elements."""
    lines = ["define jobs 0 -", "define others 0 -", "register 0 ann", "register 0 bob", "register 1 ann", "begin 1", *["enqueue 1 0 5 - 0 61"] * 5005, "commit 1",
             "begin 2", *["dequeue 2 0 - 0"] * 5001, "commit 2", "begin 3", "dequeue 3 0 - 0", "abort 3"]
    log, records = made_log(os.path.join(folder, "many"), "make", lines)
    same_front(log)
    some_lives(log, Told(records, Stories(records, os.path.getsize(log)), ["jobs", "others"]), random.Random(6))


def untold(folder: str) -> None:
    """A script of a log in which the registrant `-` does something: the lines before that, and which record it is."""
    log = os.path.join(folder, "untold.log")
    for count in (0, 1, 3000, 20000):
        bodies = [define(b"jobs"), register(0, b"-"), begin(1), *[enqueue(1, 0)] * count, enqueue(1, 0, b"-", 1), commit(1)]
        write_log(log, header_of(1), bodies)
        done = subprocess.run([RQLOOK, "script", log], stdout=subprocess.PIPE, stderr=subprocess.PIPE)
        lines = ["define jobs 0 -", "register 0 -", "begin 1"] + ["enqueue 1 0 5 - 0 61"] * count
        check(f"a script up to record {len(lines)}", (done.returncode, done.stdout.decode().splitlines(), done.stderr.decode()),
              (1, lines, f"rqlook: {log}: no script tells record {len(lines)}\n"))


def said(*words: str | bytes, **how: object) -> tuple[int, str]:
    done = subprocess.run(words, stdout=subprocess.DEVNULL, stderr=subprocess.PIPE, **how)
    return done.returncode, done.stderr.decode(errors="replace")


def unread(*words: str) -> tuple[int, str]:
    """With an output whose reader has gone before a byte is written."""
    read_end, write_end = os.pipe()
    os.close(read_end)
    done = subprocess.run(words, stdout=write_end, stderr=subprocess.PIPE)
    os.close(write_end)
    return done.returncode, done.stderr.decode(errors="replace")


def cut_off(log: str, folder: str) -> str:
    """A log whose last byte is missing."""
    return put(os.path.join(folder, "look.cut"), content(log)[:-1])


def refusals(log: str, folder: str) -> None:
    """What ends the program before it is done: its status, and what it says."""
    check("words that are no text", said(RQLOOK, "dump", b"\xff")[0], 2)
    check("no command", said(RQLOOK, "show", log)[0], 2)
    check("65 workers", said(RQLOOK, "check", log, "--workers", "65"), (2, "rqlook: workers are 1 to 64\n"))
    check("no file", said(RQLOOK, "dump", "/no/such"), (3, "rqlook: /no/such: No such file or directory (os error 2)\n"))
    check("a name that hides", said(RQLOOK, "dump", "/no/\x1b[2J\u202e"),
          (3, "rqlook: /no/\\u{1b}[2J\\u{202e}: No such file or directory (os error 2)\n"))
    check("no log", said(RQLOOK, "dump", RQLOOK), (1, f"rqlook: {RQLOOK}: not a log\n"))
    check("a page nowhere", said(RQLOOK, "page", log, "/no/such"), (3, "rqlook: /no/such: No such file or directory (os error 2)\n"))
    check("a page over its log", said(RQLOOK, "page", log, os.path.join(folder, ".", os.path.basename(log)))[0], 2)
    with open(log, "rb") as source:
        check("a page over standard input's file", said(RQLOOK, "page", "-", log, stdin=source)[0], 2)
    aside = os.path.join(folder, "look.aside")
    os.makedirs(aside, exist_ok=True)
    shutil.copy(log, os.path.join(aside, "-"))
    check("a page of a file that is named -", said(RQLOOK, "page", "./-", "-", cwd=aside)[0], 0)
    check("the version", told(RQLOOK, "--version")[0], 0)
    little = lambda: resource.setrlimit(resource.RLIMIT_AS, (48 << 20, 48 << 20))
    big = os.path.join(folder, "look.big")
    with open(big, "wb") as to:
        to.truncate(64 << 20)
    check("a log that memory does not hold", said(RQLOOK, "dump", big, preexec_fn=little), (4, f"rqlook: {big}: resources\n"))
    reader = subprocess.Popen([RQLOOK, "dump", log], stdout=subprocess.PIPE, stderr=subprocess.PIPE)
    reader.stdout.readline()
    reader.stdout.close()
    check("a closed output", (reader.wait(), reader.stderr.read()), (0, b""))
    check("findings that nobody reads", unread(RQLOOK, "check", cut_off(log, folder)), (1, ""))
    check("a dump that nobody reads", unread(RQLOOK, "dump", log), (0, ""))
    check("a name that begins with a hyphen", said(RQLOOK, "dump", log, "--registrant", "-x"), (0, ""))


def more_scripts(peer: str, folder: str, count: int) -> None:
    """So many logs, told as scripts and made again; none is kept."""
    path = os.path.join(folder, "look.once")
    for seed in range(1000, 1000 + count):
        subprocess.run([peer, "gen", path, COMPARED[seed % len(COMPARED)], str(seed), "1"], check=True, stderr=subprocess.DEVNULL)
        same_script(path, folder)


def moved(line: str, by: int) -> str:
    """A line of a record, so many bytes behind where it stood."""
    offset, rest = line.split(" ", 1)
    return f"{int(offset) + by} {rest}"


def story_behind(story: str, at: int, end: list[str]) -> list[str]:
    """The lines of a story from an offset on, where it is carried to, and the lines of its end."""
    lines = story.splitlines()
    last = next(place for place, line in enumerate(lines) if line.startswith("front ends"))
    kept = [moved(line, CARRIED_AT - at) for line in lines[:last] if int(line.split(" ", 1)[0]) >= at]
    return kept + end + lines[last + 1:] if kept else []


def carried_stories(path: str, stories: Stories, at: int, end: list[str], draw: random.Random) -> None:
    """What an open unit put in or took is told by number when it ends: so lines are compared without their order."""
    for subject, word, told_of in (("element", "story", stories.elements), ("unit", "unit", stories.units)):
        for it in draw.sample(sorted(told_of), min(10, len(told_of))) + sorted(told_of)[-3:]:
            want = story_behind(stories.of(subject, it), at, end)
            status, text = told(RQLOOK, word, path, str(it))
            check(f"{path}, the story of {subject} {it}", (status, sorted(text.splitlines())), (0 if want else 1, sorted(want)))


def carried_page(path: str, records: list[dict], stories: Stories, first: int) -> None:
    """The page of a log that was carried on against the lives of the whole log from this record on; again without an order."""
    names, page = same_queues(path)
    begun = ["carried", "begins with the checkpoint at 72, which is taken at its word"]
    check(f"where {path}'s page begins", begun in [cells for _, cells in page.rows], True)
    rows = dict(page.rows)
    if f"r{first}" not in rows and len(records) - first > ALL:
        return
    lives = Told(records, stories, names)
    same_rows(path, *map(in_any_order, (rows, lives.behind(first), lives.behind(first, whole=False))))


def carried(log: str, folder: str, draw: random.Random) -> None:
    """The log from a true checkpoint on, in a file of its own."""
    audit = {int(line.split()[1]): line.endswith("true") for line in told(RQ, "audit", log, "4")[1].splitlines()}
    true = [it for it, is_true in audit.items() if is_true]
    if not true:
        return
    at, path = draw.choice(true), os.path.join(folder, "look.carried")
    false = [it + CARRIED_AT - at for it, is_true in audit.items() if it > at and not is_true]
    whole = content(log)
    put(path, carried_file(whole, at))
    records, size = records_of(bodies_of(whole)), len(whole) + CARRIED_AT - at
    shown_here = [it | {"offset": it["offset"] + CARRIED_AT - at} for it in records if it["offset"] >= at]
    end = ["carried: begins with the checkpoint at 72", f"front ends behind {len(records)} records, at {size} of {size} bytes, whole: nothing follows"]
    front = {"carried_at": CARRIED_AT, "records": len(records), "used": size, "total": size, "why": "whole", "reason": "nothing follows"}
    for words, wanted in [([], shown_here)] + wanted_by(draw, shown_here):
        same_lines(path, words, wanted, ("\n".join(end), {"front": front}))
    found = [end[0], *(f"the checkpoint at {it} does not spell the state before it" for it in false),
             f"verdict: whole, {'but not ' if false else ''}each checkpoint is true. Next: rqlog {'restart' if false else 'append'} {path}\n"]
    check(f"{path}'s findings", told(RQLOOK, "check", path), (1 if false else 0, "\n".join(found)))
    _, want = told(RQ, "restart-at", read_as_log(path), str(CARRIED_AT), "4", "1000")
    check(f"{path} as text", told(RQLOOK, "report", path), (0, f"{end[0]}\n{want}"))
    report = json.loads(told(RQLOOK, "report", path, "--json")[1])
    check(f"{path} as JSON", (text_of(report), report["front"]), (want, front))
    check(f"{path}, queue 0", told(RQLOOK, "report", path, "--queue", "0"), (0, by_queue(want)[0]))
    carried_stories(path, Stories(records, len(whole)), at, end, draw)
    placed_here = [it | {"offset": it["offset"] + CARRIED_AT - at} for it in records]
    carried_page(path, placed_here, Stories(records, len(whole)), shown_here[0]["record"])
    status, script = told(RQLOOK, "script", path)
    check(f"{path}'s script", (status, script.startswith("checkpoint-hex ")), (0, True))


def own_logs(folder: str) -> list[str]:
    """The logs of the scripts in examples/ that are whole, and at last one of units on many queues."""
    many, logs = os.path.join(folder, "many.script"), []
    checkpoints_script(many, 1, 4)
    for script in [*sorted(glob.glob(os.path.join(EXAMPLES, "**", "*.script"), recursive=True)), many]:
        log = os.path.join(folder, f"own.{len(logs)}")
        subprocess.run([RQ, "make2" if b"\nkill " in content(script) else "make", script, log], check=True)
        if told(RQ, "restart", log, "1", "1000")[1].split("\n", 1)[0].endswith("whole"):
            logs.append(log)
    return logs


def look_at(options: argparse.Namespace, log: str, draw: random.Random) -> None:
    """All that a whole log is shown as."""
    records = records_of(bodies_of(content(log)))
    same_reports(log, draw)
    same_script(log, options.folder)
    same_dump(log, records, draw)
    same_check(log)
    same_stories(log, records, options.stories, draw)
    same_front(log)
    same_page(log, records, draw)


def takes(line: argparse.ArgumentParser) -> None:
    line.add_argument("--peer", action="store_true")
    line.add_argument("--draw", type=int, default=1)
    line.add_argument("--seeds", type=int, default=3)
    line.add_argument("--stories", type=int, default=10)
    line.add_argument("--mib", type=int, default=1)
    line.add_argument("--scripts", type=int, default=0)


def main(options: argparse.Namespace) -> None:
    folder, draw = options.folder, random.Random(options.draw)
    peer = built_peer(folder) if options.peer else ""
    logs = [log_of(peer, folder, shape, options.mib, seed) for shape in COMPARED for seed in range(2, 2 + options.seeds)] if peer else own_logs(folder)
    small = log_of(peer, folder, "small", options.mib, 2) if peer else logs[-1]
    for log in logs:
        look_at(options, log, draw)
        if not peer:
            carried(log, folder, draw)
    reasons(small, folder)
    false_checkpoints(folder)
    odd_payloads(folder)
    kills(folder)
    many_records(folder)
    untold(folder)
    refusals(small, folder)
    if peer:
        more_scripts(peer, folder, options.scripts)
