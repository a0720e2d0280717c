"""Quick. `rqlog serve` from outside: sessions of docs/SERVE.md, one line at a time and all at once; lines that are long, halved or none; how it
starts, with what a crash leaves and what no crash leaves; how it ends; who else holds the log; and what is synced before it is told. The log that it
writes is that of the model, byte by byte. With --all what takes 4 GB and some minutes."""
from __future__ import annotations
import argparse, fcntl, functools, itertools, os, signal, subprocess, time

import trying
from frames import (CARRIED_AT, HEADER, abort, begin, chained, checkpoint, commit, define, dequeue, enqueue, flipped, framed, header_of, register, spans_of,
                    write_log)
from model import LONGEST_LINE, WINDOW, Start, new_model
from ordering import calls_of, unsynced
from served import Gone, Served, first_words, session_of
from sessions import GREATEST, SESSIONS, Session, questions_of
from trying import check, content, has_shim, put, run_parts, run_told

NEW = "ready 1 unit 0 records 0 bytes 40 aborted 0 cut 0"


def is_program() -> bool:
    """Whether it is rqlog that is asked, and not the stand-in, which only serves and begins with many calls of its own."""
    return not trying.RQLOG.endswith(".py")


# --- sessions ------------------------------------------------------------------------------------------------------

def session(name: str, given: Session, one_by_one: bool) -> None:
    """A row for each request; one of the end; one of the log."""
    questions, model = questions_of(given.text), new_model(given.version)
    log = f"{len(os.listdir('.'))}.log"
    if given.version == 1:
        put(log, header_of(1))
    answers, status = session_of(log, (it for it, _ in questions), "--create", one_by_one=one_by_one)
    check(f"{name}: the greeting", answers[0], NEW)
    for (request, want), answer in zip(questions, [*answers[1:], *["nothing"] * len(questions)]):
        check(f"{name}: {request[:80]}", first_words(answer), want)
        model.answer(request.encode())
    if not model.is_closed:
        model.abort_all()
    check(f"{name}: its end", (status, len(answers) - 1), (0, len(questions)))
    check(f"{name}: its log", content(log), bytes(model.log))
    kept = {it: content(it) for it in os.listdir(".") if it.startswith(f"{log}.")}
    check(f"{name}: the logs before it", kept, {f"{log}.{records}": it for records, it in model.past})


def sessions() -> None:
    """Each session in one write."""
    for name, given in SESSIONS.items():
        session(name, given, False)


def line_by_line() -> None:
    """Each session again, where no line is sent before the last one was answered."""
    for name, given in SESSIONS.items():
        session(f"{name}, line by line", given, True)


# --- lines ---------------------------------------------------------------------------------------------------------

def long_lines() -> None:
    """The longest enqueue fits, and a line that is longer is one error."""
    name, most = "q" * 64, "ab" * 65_535
    longest = f"enqueue {GREATEST} {name} 255 {name} {GREATEST} {most}"
    check("the longest line", len(longest), LONGEST_LINE)
    it = Served("long.log", "--create")
    it.ask([f"define {name} 0 -", f"register {name} {name}", f"begin {GREATEST}"])
    check("the longest enqueue", it.ask([longest]), ["element 3"])
    check("it commits", it.ask([f"commit {GREATEST}"]), ["ok"])
    for more in (1, 2, 65_536, 1_000_000):
        check(f"{more} bytes more", first_words(it.ask([longest + "c" * more])[0]), "error")
    check("a payload of one byte too many", first_words(it.ask([f"enqueue 1 {name} 5 - 0 {most}ab"])[0]), "error")
    check("a long line of no request", first_words(it.ask(["x" * LONGEST_LINE])[0]), "error")
    check("what it is behind these", it.ask([f"queue {name} 9"])[0].split("\n")[0], "lines 2")
    check("the end", it.end(), (0, [], ""))


def digits() -> None:
    """A payload is pairs of digits in lower case, whatever byte stands at any place of a short or a long one."""
    for size, place in ((2, 0), (2, 1), (130, 0), (130, 1), (130, 63), (130, 64), (130, 129)):
        lines, want, right = ["define jobs 0 -"], ["queue"], []
        for unit, byte in enumerate((it for it in range(256) if it != 10), 1):
            text = bytearray(b"7e" * (size // 2))
            text[place] = byte
            is_right = byte in b"0123456789abcdef"
            lines += [f"begin {unit}", b"enqueue %d jobs 5 - 0 %s" % (unit, text), f"commit {unit}" if is_right else f"abort {unit}"]
            want += ["unit", "element" if is_right else "error:", "ok"]
            right += [text.decode()] if is_right else []
        answers, status = session_of(f"digits{size}.{place}.log", [*lines, "queue jobs 99"], "--create")
        check(f"digits, place {place} of {size}", ([it.split(" ")[0] for it in answers[1:-1]], status), (want, 0))
        check(f"payloads, place {place} of {size}", [it.split(" ")[-1] for it in answers[-1].split("\n")[1:]], right)
    odd = session_of("odd.log", ["define jobs 0 -", "begin 1", *(f"enqueue 1 jobs 5 - 0 {'a' * size}" for size in (1, 3, 129))], "--create")[0]
    check("a digit that is left over", [it.split(" ")[0] for it in odd[3:]], ["error:"] * 3)


def strange_bytes() -> None:
    """Bytes that are no text are no request."""
    lines = [b"begin\0", b"\0", b"\xff\xfe", b"define jo\0bs 0 -", "define jöbs 0 -".encode("latin-1"), b"begin\x0b", b"\tbegin"]
    answers, status = session_of("strange.log", [*lines, b"queues"], "--create")
    for line, answer in zip(lines, answers[1:]):
        check(f"{line!r}", first_words(answer), "error")
    check("strange bytes, and what is behind them", (answers[-1], status, len(content("strange.log"))), ("lines 0", 0, HEADER))


def halves() -> None:
    """What stands behind the last LF is never done, however much of a line it is."""
    for number, half in enumerate((b"b", b"begin", b"commit 1", b"commit 1 later", b"define more 0 -", b"close", b"enqueue 1 jobs 5 - 0 61")):
        log = f"half{number}.log"
        it = Served(log, "--create")
        it.ask(["define jobs 0 -", "begin"])
        it.send(half)
        model = new_model()
        for line in (b"define jobs 0 -", b"begin"):
            model.answer(line)
        model.abort_all()
        check(f"half a line: {half!r}", (it.end()[:2], content(log)), ((0, []), bytes(model.log)))


def in_pieces() -> None:
    """A line may come in many pieces."""
    it = Served("pieces.log", "--create")
    for piece in (b"def", b"ine jo", b"bs 0 -", b"\nbeg", b"in\n", b"queu"):
        it.send(piece)
        time.sleep(0.01)
    check("lines in pieces", [it.answer(), it.answer()], ["queue 0", "unit 1"])
    it.send(b"es\n")
    check("and the last one", it.answer(), "lines 1\nqueue 0 jobs limit 0 error - free 0 fresh 0 held 0")
    check("lines in pieces: the end", it.end(), (0, [], ""))


def noted(log: str, script: bytes) -> tuple[trying.Ended, bytes]:
    """How a process ends that gets these lines, and its calls on files."""
    return run_told("serve", log, by=functools.partial(trying.rqlog, script=script), tells="order")


def many_at_once() -> None:
    """Many units in one write cost one sync; the log is the same as if each had come alone."""
    lines = [line for unit in range(1, 101) for line in (f"begin {unit}", f"enqueue {unit} jobs 5 - 0 {unit:04x}", f"commit {unit}")]
    script = "\n".join(["define jobs 0 -", *lines, ""]).encode()
    if has_shim("to count syncs"):
        put("many.log", header_of(2))
        ended, told = noted("many.log", script)
        calls = calls_of(told)
        first = next(at for at, it in enumerate(calls) if it.letter == "o")
        check("100 units in one write: its status", ended[0], 0)
        # One for all of them, and perhaps one at the end.
        check("100 units in one write: syncs behind the greeting", sum(it.letter == "s" for it in calls[first:]) in (1, 2), True)
        check("100 units in one write: synced, and then told", unsynced(calls), [])
    answers, status = session_of("many.log.2", ["define jobs 0 -", *lines], "--create", one_by_one=True)
    check("100 units, line by line", (status, answers[-1], len(answers)), (0, "ok", 302))
    check("both logs", content("many.log"), content("many.log.2"))


def syncs() -> None:
    """Which answers come behind a sync: those that say that all before them is safe."""
    if not has_shim("to see the order of calls"):
        return
    safe = ["carry", "define more 0 -", "define jobs 0 -", "register jobs bob", "register jobs ann", "deregister jobs ann", "commit 1", "settle", "kill jobs 9",
            "kill jobs 3", "checkpoint", "close"]
    for line in safe:
        put("syncs.log", chained(header_of(2), [define(b"jobs"), register(0, b"ann"), begin(1), enqueue(1, 0), commit(1)]))
        # What is committed later is safe once this is answered.
        script = f"begin 7\nenqueue 7 jobs 5 - 0 61\ncommit 7 later\nbegin 8\n{line.replace('commit 1', 'commit 8')}\n".encode()
        ended, told = noted("syncs.log", script)
        check(f"{line}: synced, and then told", (ended[0], unsynced(calls_of(told))), (0, []))
        if line == "carry":
            check("carry: each log is there", sorted(os.listdir(".")), ["syncs.log", "syncs.log.9"])


# --- starts --------------------------------------------------------------------------------------------------------

SMALL = [define(b"dead"), define(b"jobs", 2, 0), register(1, b"ann"), begin(1), enqueue(1, 1, b"ann", 4, b"abc"), commit(1)]
OPEN = [*SMALL, begin(2), dequeue(2, 1, b"ann", 5), begin(7), enqueue(7, 1, payload=b"x" * 300)]
WHOLE = {version: chained(header_of(version), SMALL) for version in (1, 2)}
CUT_OFF = {version: chained(header_of(version), OPEN) for version in (1, 2)}


def left_behind(log: bytes, body: bytes) -> dict[str, bytes]:
    """What a crash may leave of a log, and of a record behind it."""
    frame = framed(log, body)[len(log):]
    torn = {f"{size} bytes of a frame": log + frame[:size] for size in (1, 3, 4, 5, 13, 44)}
    behind = {"zeros": bytes(40), "a zero": bytes(4), "a page of zeros": bytes(4096), "garbage": b"\xa5" * 77, "a length that is too large": b"\x10\0\0\1",
              "a frame that is not chained": chained(header_of(1), [body])[HEADER:], "a flipped bit": flipped(frame, 9),
              "a length and less": b"\0\0\x10\0" + b"a" * 300}
    written = log + bytes(500) + chained(frame, [abort(2), abort(7)])
    first = CARRIED_AT if log[5] else HEADER
    ends = {f"{number} frames": log[:end] for number, end in enumerate([first, *(end for _, end in spans_of(log, first))])}
    return {**torn, **{name: log + it for name, it in behind.items()}, **ends, "right frames behind a hole": written,
            "a record that was changed": flipped(log, len(log) - 50), "right frames behind a length that was changed": longer(log)}


def longer(log: bytes) -> bytes:
    """The log with a length in its third record that is greater than the rest of the log, so that the front ends by `cut` there."""
    at = [end for _, end in spans_of(log, CARRIED_AT if log[5] else HEADER)][1]
    return log[:at] + bytes([log[at] | 8]) + log[at + 1:]


def start(name: str, left: bytes) -> None:
    """A start from what is left: the greeting, the log, what is kept, and what the start after it says."""
    log = "left.log"
    put(log, left)
    want = Start(left)
    beside = f"{log}.cut-{len(want.front)}"
    it = Served(log)
    check(f"{name}: the greeting", it.greeting, want.greeting())
    check(f"{name}: the log, when it greets", content(log), bytes(want.model.log))
    check(f"{name}: what is kept", content(beside) or b"", want.kept())
    check(f"{name}: its end", it.end()[:2], (0, []))
    again = Start(bytes(want.model.log))
    answers, status = session_of(log, ["queues"])
    check(f"{name}: the next start", (answers, status), ([again.greeting(), again.model.queues().text], 0))
    for it in os.listdir("."):
        os.remove(it)


def starts() -> None:
    """What a crash leaves is made whole: cut, kept, aborted, told."""
    for version in (1, 2):
        start(f"version {version}, whole", WHOLE[version])
        start(f"version {version}, only a header", header_of(version))
        for name, left in left_behind(CUT_OFF[version], commit(2)).items():
            start(f"version {version}, {name}", left)


def long_starts() -> None:
    """As much as a crash can leave, and a longer record that was cut short."""
    log = CUT_OFF[2]
    start("1,048,576 bytes of zeros", log + bytes(WINDOW))
    start("1,048,576 bytes of garbage", log + b"\0\0\1\0" + b"\xa5" * (WINDOW - 4))
    start("a long record that was cut short", framed(log, checkpoint(bytes(3 * WINDOW)))[:len(log) + 2 * WINDOW])
    start("3 MiB of records", framed(framed(log, checkpoint(bytes(3 * WINDOW))), abort(2)))


def refused_whole(none: dict[str, bytes]) -> None:
    """A start refuses each of these files with status 1, and leaves it as it is."""
    for name, bytes_ in none.items():
        put("none.log", bytes_)
        it = Served("none.log")
        status, rest, said = it.end()
        check(f"{name}: refused", (it.greeting, status, rest, said.startswith("rqlog: ")), ("", 1, [], True))
        check(f"{name}: what is left", (content("none.log"), os.listdir(".")), (bytes_, ["none.log"]))


def no_crash() -> None:
    """What no crash leaves is refused with status 1, and stays as it is."""
    log = CUT_OFF[2]
    none = {"an empty file": b"", "a byte": b"R", "39 bytes": log[:39], "a text": b"hello\n" * 20, "a changed header": flipped(log, 3),
            "a changed digest of the header": flipped(log, 20), "version 3": header_of(3) + log[HEADER:], "a body that is no record": framed(log, b"\xee"),
            "a record that is not lawful": framed(log, commit(99)), "an unlawful record, and more": framed(framed(log, commit(99)), commit(2)),
            "a KILL in version 1": framed(CUT_OFF[1], b"\x0a" + bytes(12)),
            "zeros, and one byte more than a crash leaves": log + bytes(WINDOW + 1), "garbage of more": log + b"\xa5" * (WINDOW + 1),
            "a change in an early record": flipped(framed(log, checkpoint(bytes(WINDOW))), 60),
            "a change in an early length": longer(framed(log, checkpoint(bytes(WINDOW))))}
    refused_whole(none)


def kept_before() -> None:
    """What is kept already by a start that was killed is kept once."""
    left = CUT_OFF[2] + bytes(40)
    put("kept.log", left)
    put(f"kept.log.cut-{len(CUT_OFF[2])}", bytes(40))
    it = Served("kept.log")
    check("kept before", (it.greeting, it.end()[0]), (Start(left).greeting(), 0))


def killed_starts() -> None:
    """A start that is killed before any of its calls, and the start after it: nothing is lost, and what was cut is kept."""
    if not is_program() or not has_shim("to kill a start"):
        return
    left = CUT_OFF[2] + b"\0\0\x01\0" + bytes(200) + b"\xa5" * 300
    want, wrong = Start(left), []
    for number in itertools.count(1):
        put("killed.log", left)
        ended, _ = run_told("serve", "killed.log", by=trying.rqlog, tells="order", at=number, does="dies")
        answers, status = session_of("killed.log", [])
        found = (status, content("killed.log"), content(f"killed.log.cut-{len(want.front)}"))
        if found != (0, bytes(want.model.log), want.kept()):
            wrong.append((number, answers, status))
        for it in os.listdir("."):
            os.remove(it)
        if ended[0] == 0:
            break
    check("a start that is killed", wrong, [])


def creations() -> None:
    """A new log is made only if it is asked for, and no log is made anew."""
    it = Served("new.log")
    check("no log, and none is asked for", (it.greeting, it.end()[0], os.listdir(".")), ("", 3, []))
    answers, status = session_of("new.log", [], "--create")
    check("a new log", (answers, status, content("new.log"), os.listdir(".")), ([NEW], 0, header_of(2), ["new.log"]))
    put("new.log", WHOLE[1])
    answers, status = session_of("new.log", [], "--create")
    check("one that is there", (answers[0], status, content("new.log")), (Start(WHOLE[1]).greeting(), 0, WHOLE[1]))
    for bytes_ in (b"", b"no log"):
        put("new.log", bytes_)
        it = Served("new.log", "--create")
        check(f"no log is there: {bytes_!r}", (it.greeting, it.end()[0], content("new.log")), ("", 1, bytes_))
    os.mkdir("folder")
    for path in ("folder", "nowhere/new.log", "new.log/x"):
        it = Served(path, "--create")
        check(f"{path} can't be made", (it.greeting, it.end()[0]), ("", 3))
    put("real.log", WHOLE[2])
    os.symlink("real.log", "link.log")
    answers, status = session_of("link.log", ["define more 0 -"])
    check("a link to a log", (answers[1], status, os.path.islink("link.log"), len(content("real.log"))), ("queue 2", 0, True, len(WHOLE[2]) + 47))


def killed_creations() -> None:
    """A new log is whole or not there, before whatever call its maker is killed."""
    if not is_program() or not has_shim("to kill a creation"):
        return
    wrong = []
    for number in itertools.count(1):
        ended, _ = run_told("serve", "--create", "new.log", by=trying.rqlog, tells="order", at=number, does="dies")
        left = content("new.log")
        again = session_of("new.log", [], "--create")
        if left not in (None, header_of(2)) or again != ([NEW], 0):
            wrong.append((number, left, again))
        for it in os.listdir("."):
            os.remove(it)
        if ended[0] == 0:
            break
    check("a creation that is killed", wrong, [])
    check("and one that is not", (ended[0], left), (0, header_of(2)))


def words() -> None:
    """Words that are no command."""
    for line in ([], ["a", "b"], ["--frob", "a"], ["--create"], ["--create", "a", "b"]):
        done = subprocess.run([trying.RQLOG, "serve", *line], stdin=subprocess.DEVNULL, capture_output=True)
        check(f"serve {line}", (done.returncode, done.stdout, os.listdir(".")), (2, b"", []))


# --- ends ----------------------------------------------------------------------------------------------------------

def open_one() -> Served:
    """A log with an element that unit 2 holds, and one that unit 3 put in."""
    it = Served("ends.log", "--create")
    it.ask(["define jobs 0 -", "begin", "enqueue 1 jobs 5 - 0 61", "commit 1", "begin", "dequeue 2 jobs - 0", "begin", "enqueue 3 jobs 5 - 0 62"])
    return it


def attempts_at_next() -> list[str]:
    answers, _ = session_of("ends.log", ["queue jobs 9"])
    return answers


def ends() -> None:
    """An end of input and a close abort what is open; a signal is a crash, and the next start aborts."""
    element = "lines 1\ne 2 from 0 priority 5 attempts 1 61"
    check("the end of input", open_one().end(), (0, [], ""))
    check("what is behind it", attempts_at_next(), ["ready 1 unit 3 records 10 bytes 535 aborted 0 cut 0", element])
    os.remove("ends.log")
    it = open_one()
    check("a close", (it.ask(["close"]), it.end()), (["closed 535"], (0, [], "")))
    check("behind a close", attempts_at_next(), ["ready 1 unit 3 records 10 bytes 535 aborted 0 cut 0", element])
    for number in (signal.SIGKILL, signal.SIGTERM, signal.SIGINT, signal.SIGHUP):
        if number != signal.SIGKILL:
            # What runs behind nohup ignores some, and so does all that it starts.
            signal.signal(number, signal.SIG_DFL)
        os.remove("ends.log")
        it = open_one()
        it.ask(["settle"])
        it.process.send_signal(number)
        check(f"signal {number}", (it.process.wait(60), it.line()), (-number, None))
        it.process.stdin.close()
        check(f"behind signal {number}", attempts_at_next(), ["ready 1 unit 3 records 10 bytes 535 aborted 2 cut 0", element])


def behind_a_close() -> None:
    """Lines behind a close are not answered, nor done."""
    it = Served("close.log", "--create")
    try:
        answers = it.ask(["define jobs 0 -", "close", "define more 0 -", "queues"])
    except Gone as gone:
        answers = gone.args[0]
    check("lines behind a close", (answers, it.end()[:2], len(content("close.log"))), (["queue 0", "closed 87"], (0, []), 87))


def nobody_reads() -> None:
    """If nobody reads the answers it ends with status 3, and what it answered before stands."""
    it = open_one()
    it.process.stdout.close()
    it.send(b"queues\n")
    it.process.stdin.close()
    check("nobody reads", it.process.wait(60), 3)
    check("what is behind that", attempts_at_next()[1:], ["lines 1\ne 2 from 0 priority 5 attempts 1 61"])


# --- others --------------------------------------------------------------------------------------------------------

def refused_another(what: str, before: bytes) -> None:
    other = Served("held.log", "--create")
    status, rest, said = other.end()
    check(f"{what}: refused", (other.greeting, status, rest, "another program" in said), ("", 3, [], True))
    check(f"{what}: the log stays", content("held.log"), before)


def locks() -> None:
    """One program holds a log at a time; who reads it does not mind."""
    it = Served("held.log", "--create")
    it.ask(["define jobs 0 -"])
    refused_another("a second serve", content("held.log"))
    check("the first goes on", it.ask(["define more 0 -"]), ["queue 1"])
    check("a reader", trying.done(trying.RQLOG, "restart", "held.log")[0] if is_program() else 0, 0)
    check("the first ends", it.end(), (0, [], ""))
    answers, status = session_of("held.log", ["queues"])
    check("the next holds it", (answers[1].split("\n")[0], status), ("lines 2", 0))
    with open("held.log", "rb") as other:
        fcntl.flock(other, fcntl.LOCK_SH)
        refused_another("read under a lock", content("held.log"))
    it = Served("held.log")
    it.killed()
    answers, status = session_of("held.log", [])
    check("behind one that was killed", status, 0)


# --- bounds --------------------------------------------------------------------------------------------------------

def bounds() -> None:
    """As many queues as there may be; and many elements in a listing."""
    it = Served("bounds.log", "--create")
    answers = [answer for first in range(0, 4096, 512) for answer in it.ask(f"define q{number} 0 -" for number in range(first, first + 512))]
    check("4,096 queues", answers, [f"queue {number}" for number in range(4096)])
    check("one more", first_words(it.ask(["define more 0 -"])[0]), "refused queues")
    check("one that is there", it.ask(["define q17 0 -"]), ["queue 17"])
    check("all queues", it.ask(["queues"])[0].split("\n")[0], "lines 4096")
    it.ask(["begin"])
    for _ in range(4):
        it.ask(["enqueue 1 q3 5 - 0 61"] * 500)
    check("2,000 elements", it.ask(["commit 1", "queue q3 5000"])[1].split("\n")[0], "lines 2000")
    check("bounds: the end", it.end(), (0, [], ""))


def large_state() -> None:
    """A state that no checkpoint may have: it is refused, and nothing is written."""
    payload = bytes(65_535)
    count = 268_435_455 // 65_535 + 1
    write_log("large.log", header_of(2), [define(b"jobs"), begin(1), *(enqueue(1, 0, payload=payload) for _ in range(count)), commit(1)])
    size = os.path.getsize("large.log")
    answers, status = session_of("large.log", ["checkpoint", "queues", "kill jobs 2", "kill jobs 3", "checkpoint"])
    check("a large state", ([first_words(it) for it in answers[1:5]], status),
          (["refused large", f"lines 1\nqueue 0 jobs limit 0 error - free {count} fresh 0 held 0", "ok", "ok"], 0))
    check("and a smaller one", answers[5], f"checkpoint {size + 2 * 49}")


def full_log() -> None:
    """A log with no room: what is refused, and that ends always fit."""
    most, body = 2**32 - 1, 2**28 - 1
    with open("full.log", "wb") as file:
        file.write(header_of(2))
        log = chained(header_of(2), [define(b"jobs")])
        file.write(log[HEADER:])
        link, size = log[-32:], len(log)
        while size < most:
            left = most - size - 36 - 1
            # So much is left at last: a BEGIN and its end fit, and a byte more, which no further record does.
            length = min(body, left - 91)
            if length < 0:
                break
            frame = chained(link, [checkpoint(bytes(length))])[32:]
            file.write(frame)
            link, size = frame[-32:], size + len(frame)
    lines = ["begin", "enqueue 1 jobs 5 - 0 -", "begin", "define more 0 -", "checkpoint", "register jobs ann", "commit 1", "abort 1", "begin", "close"]
    answers, status = session_of("full.log", lines)
    want = ["unit 1", "refused full", "refused full", "refused full", "refused full", "refused full", "refused doomed", "ok", "refused full", f"closed {size + 90}"]
    check("a full log", ([first_words(it) for it in answers[1:]], status), (want, 0))


PARTS = [sessions, line_by_line, long_lines, digits, strange_bytes, halves, in_pieces, many_at_once, syncs, starts, long_starts, no_crash, kept_before,
         killed_starts, creations, killed_creations, words, ends, behind_a_close, nobody_reads, locks, bounds]
LONG = [large_state, full_log]


def takes(line: argparse.ArgumentParser) -> None:
    line.add_argument("--all", action="store_true")
    line.add_argument("parts", nargs="*", metavar="PART", help=", ".join(it.__name__ for it in PARTS + LONG))


def main(options: argparse.Namespace) -> None:
    every = PARTS + (LONG if options.all or options.parts else [])
    run_parts([it for it in every if not options.parts or it.__name__ in options.parts], False)
