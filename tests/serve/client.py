"""Quick. The Python package over `rqlog serve`: its page, what it raises, threads that share a manager, waiting, a manager that is lost, requests that
fill pipes; the order desk while its manager is killed. If mypy and pip are there, its types, and what is installed."""
from __future__ import annotations
import doctest, os, re, shutil, subprocess, sys, threading, time
from collections.abc import Callable

import trying
from trying import TOP, check, text_in

PACKAGE = os.path.join(TOP, "python")
sys.path.insert(0, PACKAGE)
import tetherearly  # noqa: E402
from tetherearly import Lost, Manager, Queue, Refused  # noqa: E402
from tetherearly.errors import REFUSALS  # noqa: E402

# So many threads share a manager, and each does so many units.
THREADS, UNITS = 8, 25
PYTHON = re.compile(r"^```python\n(.*?)^```", re.M | re.S)
DESK = os.path.join(TOP, "examples", "desk", "desk.py")


def raised(do: Callable[[], object]) -> str:
    """The name of the exception that comes, or what comes in its place."""
    try:
        return f"nothing: {do()!r}"
    except Exception as fault:
        return type(fault).__name__


def page() -> None:
    """What the page shows happens so."""
    text = "\n".join(PYTHON.findall(text_in(os.path.join(PACKAGE, "README.md"))))
    found = doctest.DocTestRunner(verbose=False).run(doctest.DocTestParser().get_doctest(text, {}, "README.md", None, 0))
    check("the page's examples", (found.failed, found.attempted > 20), (0, True))


def first_screen() -> None:
    """The lines that the repository's first page shows do what they say."""
    lines = PYTHON.findall(text_in(os.path.join(TOP, "README.md")))[0]
    done = subprocess.run([sys.executable, "-c", lines], env={**os.environ, "PYTHONPATH": PACKAGE}, capture_output=True, text=True)
    check("the first page's lines", (done.returncode, done.stdout, done.stderr, len(lines.split("\n")) < 13), (0, "b'pack 7 boxes'\n", "", True))


def started() -> tuple[Manager, Queue]:
    m = Manager("client.log")
    return m, m.define("jobs", 3, m.define("dead"))


def refusals() -> None:
    """Each word of the protocol is an exception, and the manager goes on behind it."""
    table = text_in(os.path.join(TOP, "docs", "SERVE.md")).partition("| WORD | If |")[2].partition("\n\n")[0]
    check("each word of the protocol", set(REFUSALS), set(re.findall(r"^\| `([a-z-]+)` \|", table, re.M)))
    m, jobs = started()
    ann = jobs.register("ann")
    nowhere = m.queue("nowhere")
    open_unit = m.unit()
    for do, name in [(lambda: nowhere.register("ann"), "NoQueue"), (lambda: m.define("jobs"), "DefinedOtherwise"), (lambda: m.define("more", 3), "BadLimit"),
                     (lambda: m.define("more", 1001, jobs), "BadLimit"), (lambda: jobs.last("bob"), "NoRegistrant"),
                     (lambda: m.ask("begin 0"), "UnitNotGreater"), (lambda: m.ask("commit 99"), "NoUnit"), (lambda: jobs.deregister("bob"), "NoRegistrant"),
                     (lambda: m.ask("frob"), "BadRequest"), (open_unit.commit, "Doomed"), (open_unit.abort, "NoUnit"),
                     (lambda: m.define("Jobs"), "ValueError"), (lambda: jobs.register(""), "ValueError"), (lambda: m.ask("queues\nclose"), "ValueError"),
                     (lambda: m.unit().enqueue(jobs, bytes(65_536)), "ValueError"), (lambda: m.unit().enqueue(jobs, b"", 256), "ValueError"),
                     (lambda: m.unit().enqueue(jobs, b"", by=ann.tag(2**64)), "ValueError"), (lambda: jobs.kill(-1), "ValueError")]:
        check(f"{name}", raised(do), name)
    check("it goes on", (m.settle(), jobs.kill(99), ann.last), (None, False, None))
    m.close()
    check("behind a close", raised(m.settle), "Lost")


def units() -> None:
    """What a unit does stands as a whole, or not at all; a unit that ended by itself is not ended again."""
    m, jobs = started()
    ann = jobs.register("ann")
    with m.unit() as u:
        first = u.enqueue(jobs, b"", 7, ann.next())
    with m.unit(later=True) as u:
        u.enqueue(jobs, bytes(range(256)))
        u.abort()
    try:
        with m.unit() as u:
            u.enqueue(jobs, b"never")
            raise KeyError
    except KeyError:
        pass
    check("what stands", [(it.id, it.origin, it.priority, it.attempts, it.payload) for it in jobs.free()], [(first, "jobs", 7, 0, b"")])
    check("how far", (jobs.last("ann"), ann.next().number), (("enqueue", 1, first), 2))
    with m.unit() as u:
        check("all of a queue", [it.payload for it in u.take_all(jobs, ann.tag(9))], [b""])
        check("its depth", jobs.depth()[4:], (0, 0, 1))
    check("who took it", jobs.register("ann").last, ("dequeue", 9, first))
    try:
        with m.unit() as u:
            u.enqueue(jobs, b"x")
            raised(lambda: u.enqueue(m.queue("nowhere"), b"y"))
    except Refused as refused:
        check("a refusal that was caught within", refused.word, "doomed")
    check("nothing of it stands", (jobs.depth()[4:], m.checkpoint() > 40), ((0, 0, 0), True))
    m.close()


def carries() -> None:
    """A log goes on in a new one, with the units that are open; by itself, too."""
    m, jobs = started()
    ann = jobs.register("ann")
    open_unit = m.unit()
    element = open_unit.enqueue(jobs, b"a", by=ann.next())
    check("it is carried on", (m.carry(), os.path.exists("client.log.5")), (5, True))
    open_unit.commit()
    check("what stands", ([it.id for it in jobs.free()], jobs.last("ann")), ([element], ("enqueue", 1, element)))
    trying.put("client.log.7", b"another file")
    check("a name that is taken", (raised(m.carry), jobs.depth().free), ("NotCarried", 1))
    m.close()
    m = Manager("client.log", carry_at=500)
    jobs = m.queue("jobs")
    for number in range(40):
        with m.unit(later=True) as u:
            u.enqueue(jobs, b"x" * 20)
            u.dequeue(jobs)
    m.settle()
    check("by itself", (len(os.listdir(".")) > 4, jobs.depth().free), (True, 1))
    check("no such length", raised(lambda: Manager("client.log", carry_at=2**32)), "ValueError")
    m.close()


def threads() -> None:
    """Threads share a manager: each element is taken once, by a thread that waited for it."""
    m, jobs = started()
    taken: list[bytes] = []

    def takes() -> None:
        while True:
            with m.unit() as u:
                it = u.dequeue(jobs, wait=20)
                if it.payload == b"end":
                    return
                taken.append(it.payload)

    def puts(number: int) -> None:
        for it in range(UNITS):
            with m.unit() as u:
                u.enqueue(jobs, b"%d %d" % (number, it), 1)

    takers = [threading.Thread(target=takes) for _ in range(THREADS)]
    putters = [threading.Thread(target=puts, args=(it,)) for it in range(THREADS)]
    for it in takers + putters:
        it.start()
    for it in putters:
        it.join()
    for _ in takers:
        with m.unit() as u:
            u.enqueue(jobs, b"end", 0)
    for it in takers:
        it.join()
    check("each was taken once", sorted(taken), sorted(b"%d %d" % (number, it) for number in range(THREADS) for it in range(UNITS)))
    began = time.monotonic()
    with m.unit() as u:
        check("none comes", (u.dequeue(jobs, wait=0.2), 0.15 < time.monotonic() - began < 20), (None, True))
    m.close()


def pipes() -> None:
    """More requests, and more answers, than pipes hold, from several threads."""
    m, jobs = started()
    payload = "ab" * 20_000
    lines = ["begin 1000", *[f"enqueue 1000 jobs 0 - 0 {payload}"] * 20, "commit 1000"]
    check("long lines", m.ask_all(lines)[-1], "ok")
    shown: list[int] = []
    readers = [threading.Thread(target=lambda: shown.extend(len(it) for it in m.ask_all(["queue jobs 20"] * 10))) for _ in range(4)]
    for it in readers:
        it.start()
    check("many short lines", m.ask_all(["begin", "settle"] * 4000)[-1], "ok")
    for it in readers:
        it.join()
    check("long answers", (len(shown), min(shown) > 800_000), (40, True))
    check("a refusal among many", [it.split(":")[0] for it in m.ask_all(["settle", "frob", "commit 1", "settle"])],
          ["ok", "error", "refused no-unit", "ok"])
    m.close()


def lost() -> None:
    """A manager that is killed, while threads ask and wait: each is told, and the next start goes on."""
    m, jobs = started()
    ann = jobs.register("ann")
    faults: list[str] = []

    def asks() -> None:
        def forever() -> None:
            while True:
                with m.unit() as u:
                    u.enqueue(jobs, b"x", by=None)
        faults.append(raised(forever))

    def waits() -> None:
        with m.unit() as u:
            u.dequeue(m.queue("dead"), wait=600)

    both = [threading.Thread(target=asks), threading.Thread(target=lambda: faults.append(raised(waits)))]
    for it in both:
        it.start()
    with m.unit() as u:
        u.enqueue(jobs, b"safe", 9, ann.tag(1))
    time.sleep(0.1)
    m.kill()
    for it in both:
        it.join()
    check("each is told", faults, ["Lost", "Lost"])
    check("and whoever asks later", (raised(m.settle), raised(m.unit)), ("Lost", "Lost"))
    m.close()
    m, jobs = started()
    check("the next start", (jobs.register("ann").last.tag, jobs.free(1)[0].payload, m.greeting.aborted > 0), (1, b"safe", True))
    try:
        m.ask_all(["queues", "close", "queues"])
    except Lost as gone:
        check("what was answered before", [it.split(" ")[0] for it in gone.answers], ["lines", "closed"])
    m.close()


def opening() -> None:
    """What is no log, what is not there, and what another holds."""
    m, _ = started()
    check("another holds it", raised(lambda: Manager("client.log", patience=0.2)), "CannotOpen")
    threading.Timer(0.5, m.close).start()
    Manager("client.log", patience=60).close()
    check("another held it", m.greeting.bytes, 40)
    check("it is not there", raised(lambda: Manager("none.log", create=False)), "CannotOpen")
    trying.put("text.log", b"hello")
    for log, status in (("text.log", 1), ("nowhere/a.log", 3)):
        try:
            Manager(log)
        except tetherearly.CannotOpen as fault:
            check(f"{log}: its status", (fault.status, fault.said != ""), (status, True))
    check("no such program", raised(lambda: Manager("a.log", program=["./nothing"])), "CannotOpen")
    check("a program that says other things", raised(lambda: Manager("a.log", program=["echo"])), "NotServed")


def desk() -> None:
    """The order desk, while its manager is killed: each order is packed or refunded once."""
    done = subprocess.run([sys.executable, DESK, "desk.log", "--orders", "40", "--kills", "20"], capture_output=True, text=True)
    check("the order desk", (done.returncode, done.stdout.splitlines()[-1:]), (0, ["20 kills, 80 orders, 80 done"]))


def types() -> None:
    """The package has types, and they are right."""
    checker = shutil.which("mypy", path=f"{os.environ['PATH']}:/usr/bin")
    if checker is None:
        print("left out: the types of the Python package need mypy")
        return
    done = subprocess.run([checker, "--strict", "--cache-dir", os.path.abspath("cache"), "tetherearly", "wheel_of.py", DESK], cwd=PACKAGE,
                          env={**os.environ, "MYPYPATH": PACKAGE}, capture_output=True, text=True)
    check("types", (done.returncode, done.stdout), (0, "Success: no issues found in 7 source files\n"))


def installed() -> None:
    """pip installs it without network, and it is found there."""
    words = [sys.executable, "-m", "pip", "install", "--quiet", "--no-index", "--target", os.path.abspath("site"), PACKAGE]
    if subprocess.run([sys.executable, "-m", "pip", "--version"], capture_output=True).returncode != 0:
        print("left out: to install the Python package needs pip")
        return
    done = subprocess.run(words, capture_output=True, text=True)
    check("pip", done.returncode, 0) or print(done.stderr)
    line = "import tetherearly, os; print(sorted(os.listdir(os.path.dirname(tetherearly.__file__))))"
    found = subprocess.run([sys.executable, "-c", line], env={**os.environ, "PYTHONPATH": "site", "PYTHONDONTWRITEBYTECODE": "1"}, capture_output=True, text=True)
    files = [it for it in os.listdir(os.path.join(PACKAGE, "tetherearly")) if it != "__pycache__"]
    check("what is installed", sorted(set(eval(found.stdout)) - {"__pycache__"}), sorted(files))


PARTS = [page, first_screen, refusals, units, carries, threads, pipes, lost, opening, desk, types, installed]


def main(options: object) -> None:
    os.environ["RQLOG"] = trying.RQLOG
    trying.run_parts([it for it in PARTS if not options.parts or it.__name__ in options.parts], False)


def takes(line: object) -> None:
    line.add_argument("parts", nargs="*", metavar="PART", help=", ".join(it.__name__ for it in PARTS))
