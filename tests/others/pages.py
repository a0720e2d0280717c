"""Quick; by hand with --shots, to look at. Holds the pages of `rqlook page` against what a page must be: valid HTML without parts outside, whose
links lead somewhere, whose texts are only text, that can be read in light and dark, and whose length is bounded.

Makes logs, hostile ones among them and such as a manager of queues writes in a day, and a page of each. Where there are `tidy`, html5lib (Python)
or Chromium, the pages are held against them too; what is left out is said. In Chromium no request may be made but that of the page, nothing of a
log may be more than text; and it is told how long the page of a log of 100,000 records takes to be shown, and held against the seconds that are
given. With --shots OUT pictures of pages are taken, of the logs that are named or of three of its own: in light, in dark, and as narrow as a
telephone, OUT/NAME.LOOK.png. That needs Chromium.
"""
from __future__ import annotations
import argparse, base64, hashlib, json, os, random, re, select, shutil, subprocess, sys, tempfile, time

from frames import abort, begin, checkpoint, commit, define, dequeue, enqueue, header_of, kill, register, write_log
from looked import FIRST, TAGS, WORDS, Page
from trying import RQLOOK, check, done

LOOKS = {"light": (1200, False), "dark": (1200, True), "narrow": (390, False)}
MIB = 1 << 20
# The most bytes of the page of each log.
MOST = {"long": 2 * MIB, "free": 2 * MIB, "queues": 3 * MIB, "dear": 5 * MIB}


def page_of(log: str, *words: str) -> str:
    status, page, said = done(RQLOOK, "page", log, "-", *words)
    check(f"{log}: a page", (status, said), (0, b""))
    return page.decode()


def same_parts(name: str, text: str) -> Page:
    """The page's tags and attributes, its links, and the names of its tables and pictures."""
    page = Page()
    page.feed(text)
    check(f"{name}: tags and attributes", (page.tags - TAGS, page.words - WORDS, page.wrong, page.open), (set(), set(), [], []))
    check(f"{name}: ids", len(page.ids) - len(set(page.ids)), 0)
    check(f"{name}: links that lead nowhere", sorted(it for it in page.links if not it.startswith("#") or it[1:] not in set(page.ids))[:5], [])
    check(f"{name}: without a name", page.nameless[:5], [])
    check(f"{name}: parts", {"main", "header", "nav", "h1", "table"} <= page.tags, True)
    check(f"{name}: language and window", text.count('<html lang="en">') + text.count('<meta name="viewport"'), 2)
    sum_of_style = base64.b64encode(hashlib.sha256(page.style.encode()).digest()).decode()
    check(f"{name}: policy", page.policy, f"default-src 'none'; style-src 'sha256-{sum_of_style}'; base-uri 'none'; form-action 'none'")
    return page


def tidied(name: str, path: str) -> None:
    said = done("tidy", "-q", "-e", "-utf8", path)[2].decode(errors="replace")
    errors = [line for line in said.splitlines() if "Error:" in line]
    check(f"{name}: tidy", errors[:3], [])


def strict_errors(path: str) -> list[str] | None:
    """What html5lib finds wrong, by the Python that has it; None where none has."""
    words = "import html5lib,sys; p=html5lib.HTMLParser(); p.parse(open(sys.argv[1],'rb'),transport_encoding='utf-8'); print(*p.errors[:3])"
    for python in (sys.executable, "/usr/bin/python3"):
        ended = subprocess.run([python, "-c", words, path], capture_output=True) if shutil.which(python) else None
        if ended and ended.returncode == 0:
            return ended.stdout.decode().split("\n")[:-1]
    return None


def light_of(colour: str) -> float:
    """How bright a colour is, from 0 to 1, as WCAG 2 has it."""
    parts = [int(colour[at:at + 2], 16) / 255 for at in (1, 3, 5)]
    red, green, blue = [it / 12.92 if it <= 0.04045 else ((it + 0.055) / 1.055) ** 2.4 for it in parts]
    return 0.2126 * red + 0.7152 * green + 0.0722 * blue


def contrast(one: str, other: str) -> float:
    bright, dim = sorted((light_of(one), light_of(other)), reverse=True)
    return (bright + 0.05) / (dim + 0.05)


def themes_of(style: str) -> dict[str, tuple[dict[str, str], list[str]]]:
    """The page's colours by name, and those of its pictures, in light and in dark."""
    light, _, rest = style.partition("@media screen and (prefers-color-scheme: dark) {")
    dark = rest.split("\n}", 1)[0]
    return {name: (dict(re.findall(r"--(\w+): (#[0-9a-f]{6})", part)), re.findall(r"--k: (#[0-9a-f]{6})", part)) for name, part in (("light", light), ("dark", dark))}


def readable(style: str) -> None:
    """Text stands out by 4.5, and what is drawn by 3, as WCAG 2 wants it (AA)."""
    for theme, (colours, kinds) in themes_of(style).items():
        grounds = [colours[it] for it in ("paper", "card", "soft", "hit")]
        for name in ("ink", "faint", "link", "bad", "good"):
            least = min(contrast(colours[name], ground) for ground in grounds)
            check(f"{theme}: {name} is read", (round(least, 2), least >= 4.5), (round(least, 2), True))
        for kind in [*kinds, colours["mark"]]:
            least = min(contrast(kind, ground) for ground in grounds[:3])
            check(f"{theme}: {kind} is seen", (round(least, 2), least >= 3), (round(least, 2), True))
        check(f"{theme}: kinds", len(kinds), len(themes_of(style)["light"][1]))


def shown_as(payload: bytes) -> str | None:
    """What a reader sees of the first characters of a payload that is text."""
    try:
        text = payload.decode()
    except UnicodeDecodeError:
        return None
    return text[:FIRST] if all(c.isprintable() for c in text[:FIRST]) else None


def browsed(paths: dict[str, str], seconds: float) -> None:
    """In a browser: nothing is asked for, nothing runs, and what a log holds is text."""
    with Browser() as browser:
        for name, path in paths.items():
            for width, dark in ((1200, False), (390, True)):
                browser.look(width, 900, dark)
                took = browser.open(path)
                check(f"{name} in a browser, {width} wide: requests", [it.rsplit("/", 1)[-1] for it in browser.requests()], [os.path.basename(path)])
                check(f"{name} in a browser, {width} wide: complaints", browser.complaints(), [])
                check(f"{name} in a browser, {width} wide: title", browser.tell("document.title"), path[:-5])
                check(f"{name} in a browser, {width} wide: scripts", browser.tell("document.scripts.length"), 0)
                wide = browser.tell("document.documentElement.scrollWidth")
                check(f"{name} in a browser, {width} wide: its own width", wide <= width, True)
                if name == "long" and width == 1200:
                    check(f"{name}: is shown in {seconds} s, and took {took:.2f}", took <= seconds, True)
                    print(f"the page of 100,000 records is shown in {took:.2f} s", flush=True)
        browser.open(paths["hostile"])
        said = str(browser.tell("document.body.innerText"))
        for payload in PAYLOADS:
            text = shown_as(payload)
            if text and text.strip() == text:
                check(f"{text} is text", text in said, True)
        check("markup of the log", browser.tell("document.querySelectorAll('main h1, img, base, iframe, object, form').length"), 0)


# --- logs ------------------------------------------------------------------------------------------------------------

# What looks like markup, what hides or turns text, and what only spaces keep apart.
PAYLOADS = [b"<script>document.title = 'ran'</script>", b"</bdi></td></table></main><h1>owned</h1>", b"<img src=x onerror=document.title='ran'>",
            b"<style>*{display:none}</style>", b"<base href=https://example.org/>", b"<meta http-equiv=refresh content='0;url=https://example.org'>",
            b"<svg onload=document.title='ran'>", b"&lt;b&gt; &amp; &#60;i&#62; &quot", b"\" onmouseover=\"document.title='ran'", b"' '' '\"'",
            b"--><![CDATA[ ]]><!--", b"<a href=javascript:document.title='ran'>x</a>", b"a   b    c", b"  two before, two behind  ",
            b"line one\nline two\r\n\tand a tab\ttoo\n", "\u202egnp.exe\u202c".encode(), "a\u200bb\u00adc\ufeff".encode(), b"\x00\x01\x1b[31mred\x07",
            "\u4e2d\u6587 \u05d0\u05d1 e\u0301 \U0001f600 \U0001f469\u200d\U0001f4bb".encode(), b"\xff\xfe no text", b"", b"x" * 32, b"y" * 33,
            b"<i>" * 200, bytes(range(256)), b"<" * 65535]


def hostile(path: str) -> list[bytes]:
    """Each payload in an element of its own, some of them taken and given back, and bytes behind the front that are no record."""
    bodies = [define(b"dead"), define(b"jobs", 2, 0), register(1, b"a.b-c_d"), begin(1)]
    bodies += [enqueue(1, 1, b"a.b-c_d", place + 1, payload) for place, payload in enumerate(PAYLOADS)]
    bodies += [commit(1), begin(2), dequeue(2, 1, b"a.b-c_d", 99), dequeue(2, 0), abort(2), begin(3), dequeue(3, 1), checkpoint(b"<b>no state</b>")]
    write_log(path, header_of(2), bodies)
    with open(path, "ab") as log:
        log.write(b"\0\0\0\x03<b>" + bytes(32))
    return PAYLOADS


def busy(path: str, records: int, queues: int = 12, seed: int = 1) -> None:
    """What clerks and workers do in a shop: units that put in and take, some of which abort; names, tags, priorities, a KILL at times."""
    draw = random.Random(seed)
    names = [name.encode() for name in ("orders", "payments", "invoices", "parcels", "mail", "returns", "stock", "audit", "alerts", "reports", "prices")]
    bodies = [define(b"dead-letters")]
    bodies += [define(names[(at - 1) % len(names)] + (b"" if at <= len(names) else b"-%d" % (at // len(names))), 3, 0) for at in range(1, queues)]
    who = [b"clerk.%d" % at for at in range(1, 5)]
    bodies += [register(queue, name) for queue in range(1, min(queues, 9)) for name in who]
    unit, tags, open_units = 0, 0, []
    while len(bodies) < records:
        unit += 1
        bodies.append(begin(unit))
        for _ in range(draw.randrange(1, 5)):
            queue = min(draw.randrange(1, queues), draw.randrange(1, queues))
            named = queue < 9 and draw.random() < 0.6
            by = (draw.choice(who), tags := tags + 1) if named else (b"", 0)
            if draw.random() < 0.55 + 0.3 * (len(bodies) < records / 2):
                payload = b'{"id": %d, "item": "%s", "note": "%s"}' % (len(bodies), draw.choice(names), b"as agreed" * draw.randrange(4))
                bodies.append(enqueue(unit, queue, *by, payload, draw.randrange(10)))
            else:
                bodies.append(dequeue(unit, queue, *by))
        if draw.random() < 0.02:
            open_units.append(unit)
        else:
            bodies.append(abort(unit) if draw.random() < 0.15 else commit(unit))
        if draw.random() < 0.01:
            bodies.append(kill(draw.randrange(1, queues), draw.randrange(len(bodies))))
        if open_units and draw.random() < 0.1:
            bodies.append(commit(open_units.pop(0)))
    write_log(path, header_of(2), bodies[:records])


def many_queues(path: str, queues: int, each: int) -> None:
    """So many queues with elements in each, among them long names."""
    bodies = [define((b"queue-%d" % at).ljust(64 if at % 10 == 0 else 1, b"x")) for at in range(queues)]
    for unit in range(1, each + 1):
        bodies += [begin(unit), *[enqueue(unit, queue, payload=b"element %d of %d" % (unit, queue)) for queue in range(queues)], commit(unit)]
    write_log(path, header_of(1), bodies)


def all_free(path: str, elements: int, payload: bytes) -> None:
    """So many elements that all stay in a few queues."""
    bodies = [define(b"q%d" % at) for at in range(50)] + [begin(1)]
    bodies += [enqueue(1, at % 50, payload=payload) for at in range(elements)] + [commit(1)]
    write_log(path, header_of(1), bodies)


def dear(path: str, records: int) -> None:
    """The most that a page can show of so few records: long names, payloads that are all markup, and units of many operations."""
    long = b"n" * 64
    bodies = [define(b"m" * 64), define(long, 1000, 0), register(1, long)]
    unit, tag = 0, 0
    while len(bodies) < records - 60:
        unit += 1
        bodies.append(begin(unit))
        for _ in range(25):
            tag += 1
            bodies.append(enqueue(unit, 1, long, tag, b"\"" * 40))
        for _ in range(25):
            tag += 1
            bodies.append(dequeue(unit, 1, long, tag))
        bodies.append(abort(unit) if unit % 2 else commit(unit))
    write_log(path, header_of(1), bodies)


def open_units(path: str, units: int) -> None:
    """So many units that are open where the front ends, of which the first begins early."""
    bodies = [define(b"jobs")] + [it for unit in range(1, units + 1) for it in (begin(unit), enqueue(unit, 0, payload=b"held"))]
    write_log(path, header_of(1), bodies)


def made(folder: str) -> dict[str, str]:
    """All of these as files, by name."""
    paths = {name: os.path.join(folder, f"page.{name}") for name in ("hostile", "busy", "long", "queues", "free", "big", "dear", "open", "empty")}
    hostile(paths["hostile"])
    busy(paths["busy"], 900)
    busy(paths["long"], 100_000, 40)
    many_queues(paths["queues"], 1000, 5)
    all_free(paths["free"], 100_000, b"one of a hundred thousand")
    all_free(paths["big"], 400, b"\"" * 65535)
    dear(paths["dear"], 4000)
    open_units(paths["open"], 1800)
    write_log(paths["empty"], header_of(1), [])
    return paths


# --- a browser -------------------------------------------------------------------------------------------------------

NAMES = ("chromium", "chromium-browser", "google-chrome")


def found() -> str | None:
    """The browser's program, if there is one."""
    return next((path for path in map(shutil.which, NAMES) if path), None)


class Browser:
    """One browser with one tab. It is told what to do by Chromium's DevTools protocol, a line of JSON each way with a zero behind."""

    def __init__(self) -> None:
        self.profile = tempfile.mkdtemp(prefix="rq-browser-")
        to_it, self.out = os.pipe()
        self.into, from_it = os.pipe()
        words = [found(), "--headless=new", "--no-sandbox", "--disable-gpu", "--hide-scrollbars", "--remote-debugging-pipe",
                 "--disable-background-networking", "--no-first-run", f"--user-data-dir={self.profile}", "about:blank"]
        # the browser reads what it is told from 3, and answers to 4
        line = f"exec 3<&{to_it} 4>&{from_it}; exec \"$@\""
        self.going = subprocess.Popen(["sh", "-c", line, "sh", *words], pass_fds=(to_it, from_it), stdin=subprocess.DEVNULL,
                                      stdout=subprocess.DEVNULL, stderr=subprocess.DEVNULL)
        os.close(to_it)
        os.close(from_it)
        self.rest, self.count, self.events, self.tab = b"", 0, [], None
        target = next(it for it in self.ask("Target.getTargets")["targetInfos"] if it["type"] == "page")
        self.tab = self.ask("Target.attachToTarget", targetId=target["targetId"], flatten=True)["sessionId"]
        for part in ("Page", "Network", "Runtime", "Log"):
            self.ask(f"{part}.enable")

    def __enter__(self) -> Browser:
        return self

    def __exit__(self, *_: object) -> None:
        self.going.terminate()
        self.going.wait()
        os.close(self.out)
        os.close(self.into)
        shutil.rmtree(self.profile, ignore_errors=True)

    def next(self, seconds: float) -> dict:
        """What the browser says next."""
        until = time.monotonic() + seconds
        while b"\0" not in self.rest:
            ready, _, _ = select.select([self.into], [], [], max(0.0, until - time.monotonic()))
            more = os.read(self.into, 1 << 20) if ready else b""
            if not more:
                raise TimeoutError("the browser says nothing")
            self.rest += more
        said, _, self.rest = self.rest.partition(b"\0")
        return json.loads(said)

    def ask(self, what: str, **how: object) -> dict:
        """Has the browser do something, and answers what it says of it."""
        self.count += 1
        words = {"id": self.count, "method": what, "params": how} | ({"sessionId": self.tab} if self.tab else {})
        os.write(self.out, json.dumps(words).encode() + b"\0")
        while True:
            said = self.next(240)
            if said.get("id") == self.count:
                if "error" in said:
                    raise RuntimeError(f"{what}: {said['error']}")
                return said["result"]
            self.events.append(said)

    def look(self, width: int, height: int, dark: bool) -> None:
        """Has the window this size, and the reader this taste."""
        self.ask("Emulation.setDeviceMetricsOverride", width=width, height=height, deviceScaleFactor=1, mobile=width < 600)
        features = [{"name": "prefers-color-scheme", "value": "dark" if dark else "light"}]
        self.ask("Emulation.setEmulatedMedia", features=features)

    def open(self, path: str) -> float:
        """Opens a file, and answers in how many seconds it was shown."""
        self.events, begun = [], time.monotonic()
        self.ask("Page.navigate", url="file://" + os.path.abspath(path))
        while not any(it.get("method") == "Page.loadEventFired" for it in self.events):
            self.events.append(self.next(240))
        # shown, not only read: two frames are drawn
        self.tell("new Promise(done => requestAnimationFrame(() => requestAnimationFrame(() => done(1))))")
        return time.monotonic() - begun

    def tell(self, expression: str) -> object:
        """The value of an expression in the page."""
        said = self.ask("Runtime.evaluate", expression=expression, awaitPromise=True, returnByValue=True)
        return said["result"].get("value")

    def requests(self) -> list[str]:
        """What the page was made of: each address that was asked for."""
        return [it["params"]["request"]["url"] for it in self.events if it.get("method") == "Network.requestWillBeSent"]

    def complaints(self) -> list[str]:
        """What the browser says is wrong with the page."""
        return [it["params"]["entry"]["text"] for it in self.events if it.get("method") == "Log.entryAdded"]

    def shoot(self, path: str, most: int = 2400) -> None:
        """The page from its top, as far as it goes, as a file of PNG."""
        size = self.ask("Page.getLayoutMetrics")["cssContentSize"]
        clip = {"x": 0, "y": 0, "width": size["width"], "height": min(size["height"], most), "scale": 1}
        shot = self.ask("Page.captureScreenshot", format="png", captureBeyondViewport=True, clip=clip)
        with open(path, "wb") as to:
            to.write(base64.b64decode(shot["data"]))


# --- pictures --------------------------------------------------------------------------------------------------------

def shots(out: str, logs: list[str]) -> None:
    os.makedirs(out, exist_ok=True)
    with Browser() as browser:
        for log in logs:
            name = os.path.basename(log)
            page = os.path.join(out, f"{name}.html")
            subprocess.run([RQLOOK, "page", log, page], check=True)
            for look, (width, dark) in LOOKS.items():
                browser.look(width, 900, dark)
                browser.open(page)
                browser.shoot(os.path.join(out, f"{name}.{look}.png"))
                print(os.path.join(out, f"{name}.{look}.png"), flush=True)


def takes(line: argparse.ArgumentParser) -> None:
    line.add_argument("--seconds", type=float, default=float("inf"))
    line.add_argument("--shots", metavar="OUT")
    line.add_argument("logs", nargs="*")


def main(options: argparse.Namespace) -> int | None:
    if options.shots:
        own = {} if options.logs else made(options.folder)
        if found():
            shots(options.shots, options.logs or [own[name] for name in ("busy", "hostile", "queues")])
        else:
            print("left out: there is no chromium")
        return 0
    paths = {}
    for name, log in made(options.folder).items():
        text = page_of(log)
        paths[name] = f"{log}.html"
        with open(paths[name], "w", encoding="utf-8") as to:
            to.write(text)
        page = same_parts(name, text)
        check(f"{name}: {len(text.encode())} bytes", len(text.encode()) <= MOST.get(name, 5 * MIB), True)
        print(f"{name}: {len(text.encode()):,} bytes", flush=True)
    readable(page.style)
    for tool, is_there in (("tidy", shutil.which("tidy")), ("html5lib", strict_errors(paths["empty"]) is not None), ("chromium", found())):
        if not is_there:
            print(f"left out: there is no {tool}", flush=True)
        elif tool == "tidy":
            for name, path in paths.items():
                tidied(name, path)
        elif tool == "html5lib":
            for name in ("hostile", "busy", "empty", "open", "queues"):
                check(f"{name}: html5lib", strict_errors(paths[name]), [""])
        else:
            browsed(paths, options.seconds)
    return None
