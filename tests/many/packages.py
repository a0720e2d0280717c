"""By hand, and by tools/release. Tries what an operator installs: the Debian package, the image and the unit for systemd.

It makes package and image twice and compares their bytes; installs the package in a bare Debian beside another program rq, runs it there
without toolchain and Python, removes it, and looks what is left; runs the image's programs with nothing but the image; and lets systemd's
own tool judge the unit. What it lacks for a part it says: then the part is left out. With --bare the bare Debian stays
in FOLDER, and is taken from there if it is there.
"""
from __future__ import annotations
import argparse, json, os, re, shutil, subprocess, sys, tarfile, tempfile, time
from typing import NamedTuple

from trying import HERE, TOP, check, sum_of, text_in

UNIT = os.path.join(TOP, "examples", "many", "systemd", "rq-many@.service")
CRASHED = os.path.join(TOP, "examples", "crashed.log")
# The report that README shows of this log.
REPORT = re.search(r"```sh\n\$ \./rq restart examples/crashed\.log 4 1000\n(.*?)```", text_in(os.path.join(TOP, "README.md")), re.S)[1]
# What every run of dpkg changes.
OF_DPKG = ("/var/lib/dpkg", "/var/log", "/var/cache", "/proc", "/sys", "/dev", "/run", "/tmp", "/etc/ld.so.cache")
SUITE = "bookworm"


class Said(NamedTuple):
    status: int
    out: str
    said: str


def run(*words: str, **more: object) -> Said:
    done = subprocess.run(words, stdin=subprocess.DEVNULL, stdout=subprocess.PIPE, stderr=subprocess.PIPE, universal_newlines=True, **more)
    return Said(done.returncode, done.stdout, done.stderr)


def is_there(what: str, *programs: str, by: str) -> bool:
    """Whether the programs are there; else it says that a part is left out."""
    gone = [it for it in programs if not shutil.which(it, path=f"{os.environ['PATH']}:/usr/sbin")]
    if gone:
        print(f"{what}: left out: needs {', '.join(gone)}: {by}")
    return not gone


def made(folder: str) -> str:
    """The package, made twice."""
    paths = []
    for name in ("first", "second"):
        os.mkdir(os.path.join(folder, name))
        done = run(os.path.join(TOP, "tools", "deb"), os.path.join(folder, name))
        check(f"the {name} package is made", (done.status, done.said), (0, ""))
        paths.append(done.out.strip())
    check("its bytes are the same twice", sum_of(paths[0]), sum_of(paths[1]))
    return paths[0]


def package(path: str, folder: str) -> None:
    versions = run(sys.executable, HERE, "documents", "versions", "--package", path)
    check("all tell one version", (versions.status, versions.out.splitlines()[-1].endswith(" 0 failed")), (0, True))
    wanted = {"Package": "tetherearly", "Architecture": "amd64", "Depends": "libc6 (>= 2.34)", "Conflicts": "", "Replaces": ""}
    check("its fields", {it: run("dpkg-deb", "--field", path, it).out.strip() for it in wanted}, wanted)
    names = [it.split()[5] for it in run("dpkg-deb", "--contents", path).out.splitlines()]
    check("it has no /usr/bin/rq", [it for it in ("./usr/bin/rq", "./usr/share/man/man1/rq.1.gz") if it in names], [])
    for name in ("rq", "rqlook", "rqlog"):
        check(f"its {name} is the one in dist/", installed(path, folder, f"usr/lib/tetherearly/libexec/rq/{name}"),
              sum_of(os.path.join(TOP, "dist", f"{name}-x86-64-v2")))
    if is_there("Debian's rules", "lintian", by="apt-get install lintian"):
        told = run("lintian", "--tag-display-limit", "0", path)
        check("Debian's rules", [it for it in told.out.splitlines() if it[:2] in ("E:", "W:")], [])


def installed(path: str, folder: str, name: str) -> str:
    """The sum of a file of the package."""
    place = os.path.join(folder, "unpacked")
    if not os.path.exists(place):
        subprocess.run(["dpkg-deb", "--extract", path, place], check=True)
    return sum_of(os.path.join(place, name))


def files_below(folder: str) -> list[str]:
    """All that stands there but for what every run of dpkg changes."""
    found = []
    for at, folders, files in os.walk(folder):
        inside = at[len(folder):]
        folders[:] = [it for it in folders if not f"{inside}/{it}".startswith(OF_DPKG)]
        found += [f"{inside}/{it}" for it in [*folders, *files] if not f"{inside}/{it}".startswith(OF_DPKG)]
    return sorted(found)


def other_rq(folder: str) -> str:
    """A package that has a program /usr/bin/rq, as python3-rq has."""
    root = os.path.join(folder, "other")
    os.makedirs(os.path.join(root, "DEBIAN"))
    os.makedirs(os.path.join(root, "usr", "bin"))
    with open(os.path.join(root, "DEBIAN", "control"), "w", encoding="utf-8") as file:
        file.write("Package: other-rq\nVersion: 1\nArchitecture: all\nMaintainer: nobody <nobody@localhost>\nDescription: another rq\n")
    with open(os.path.join(root, "usr", "bin", "rq"), "w", encoding="utf-8") as file:
        file.write("#!/bin/sh\necho another\n")
    os.chmod(os.path.join(root, "usr", "bin", "rq"), 0o755)
    package = os.path.join(folder, "other.deb")
    subprocess.run(["dpkg-deb", "--root-owner-group", "--build", root, package], check=True, stdout=subprocess.DEVNULL)
    return package


def has_bare(bare: str) -> bool:
    """Makes a bare Debian in the folder if it is not there; else it says why not."""
    if os.geteuid():
        print("a bare Debian: left out: needs root")
        return False
    if os.path.exists(bare):
        return True
    if not is_there("a bare Debian", "debootstrap", by="apt-get install debootstrap"):
        return False
    done = run("debootstrap", "--variant=minbase", SUITE, f"{bare}.new")
    if done.status:
        print(f"a bare Debian: left out: debootstrap ends with {done.status}: {(done.out + done.said).splitlines()[-1]}")
        return False
    os.rename(f"{bare}.new", bare)
    return True


def bare_system(path: str, folder: str, kept: str | None) -> None:
    """Installed in a bare Debian, run there and removed again."""
    bare = os.path.abspath(kept) if kept else os.path.join(folder, "bare")
    if not has_bare(bare):
        return
    before = files_below(bare)
    for name, source in (("other.deb", other_rq(folder)), ("ours.deb", path), ("crashed.log", CRASHED)):
        shutil.copy(source, os.path.join(bare, "tmp", name))

    def inside(text: str) -> Said:
        return run("chroot", bare, "/bin/sh", "-c", text, env={"PATH": "/usr/bin:/usr/sbin:/bin:/sbin", "HOME": "/root"})

    check("neither Python nor a toolchain is there", inside("command -v python3 rt cc").status != 0, True)
    check("it is installed beside another rq", [inside(f"dpkg -i /tmp/{it}.deb").status for it in ("other", "ours")], [0, 0])
    check("the other rq", inside("rq").out, "another\n")
    check("rqlog", inside("rqlog restart /tmp/crashed.log")[:2], (0, REPORT))
    check("rqlook", inside("rqlook report /tmp/crashed.log")[:2], (0, REPORT))
    check("rq", inside("PATH=/usr/lib/tetherearly/bin:$PATH; rq restart /tmp/crashed.log 4 1000")[:2], (0, REPORT))
    check("rq-many wants Python", inside("rq-many --version").status in (126, 127), True)
    check("its files are as they were", inside("dpkg --verify tetherearly")[:2], (0, ""))
    check("it is removed", [inside(f"dpkg --purge {it}").status for it in ("tetherearly", "other-rq")], [0, 0])
    check("what is left", files_below(bare), before)


def image(path: str, folder: str) -> None:
    layouts = [os.path.join(folder, it) for it in ("layout", "again")]
    told = [run(os.path.join(TOP, "tools", "image"), path, it) for it in layouts]
    check("the image is made, of the same digest twice", [(it.status, it.out) for it in told], [(0, told[0].out)] * 2)
    root = unpacked(layouts[0], os.path.join(folder, "root"))
    shutil.copy(CRASHED, os.path.join(root, "logs", "crashed.log"))
    apart = ["unshare", "--map-root-user", "chroot", root]
    if run(*apart, "/usr/bin/rqlook", "--version").status and run("unshare", "--map-root-user", "true").status:
        print("the image's programs: left out: no namespace may be made here")
    else:
        for name, word, *more in (("rq", "restart", "4", "1000"), ("rqlog", "restart"), ("rqlook", "report")):
            done = run(*apart, f"/usr/bin/{name}", word, "/logs/crashed.log", *more)
            check(f"{name} with nothing but the image", done[:2], (0, REPORT))
    if is_there("the image, unpacked by another program", "umoci", by="apt-get install umoci"):
        version = run("dpkg-deb", "--field", path, "Version").out.strip()
        bundle = os.path.join(folder, "bundle")
        check("umoci unpacks it", run("umoci", "unpack", "--rootless", "--image", f"{layouts[0]}:{version}", bundle).status, 0)
        os.remove(os.path.join(root, "logs", "crashed.log"))
        check("to the same files", files_below(os.path.join(bundle, "rootfs")), files_below(root))


def unpacked(layout: str, root: str) -> str:
    """The files of an image, found by its sums."""
    def blob(told: dict) -> str:
        path = os.path.join(layout, "blobs", *told["digest"].split(":"))
        check(f"a blob's sum, {told['mediaType']}", (sum_of(path), os.path.getsize(path)), (told["digest"].split(":")[1], told["size"]))
        return path

    manifest = json.loads(text_in(blob(json.loads(text_in(os.path.join(layout, "index.json")))["manifests"][0])))
    about = json.loads(text_in(blob(manifest["config"])))
    check("what it runs as", about["config"]["User"], "65534:65534")
    with tarfile.open(blob(manifest["layers"][0])) as archive:
        archive.extractall(root)
    return root


def unit(path: str, folder: str) -> None:
    """systemd's own tool judges the unit; and its line runs, as it would be handed to the shell."""
    if is_there("the unit", "systemd-analyze", by="apt-get install systemd"):
        said = [it for it in run("systemd-analyze", "verify", UNIT).said.splitlines() if "'man rq-many(1)'" not in it]
        check("systemd finds no fault", said, [])
        told = run("systemd-analyze", "security", "--offline=yes", UNIT).out.splitlines()[-1]
        print(f"the unit: {told.strip('→ ')}")
        score = re.search(r"service: ([\d.]+) ", told)
        check("its exposure is at most 1.0 of 10", score is not None and float(score[1]) <= 1, True)
    os.makedirs(os.path.join(folder, "srv", "logs"))
    shutil.copy(CRASHED, os.path.join(folder, "srv", "logs"))
    line = re.search(r"^ExecStart=/bin/sh -c '((?:.|\n)*?)' %f$", text_in(UNIT), re.M)[1].replace("\\\n", " ").replace("$$", "$")
    place = os.path.join(folder, "unpacked")
    env = {**os.environ, "PATH": f"{place}/usr/bin:{os.environ['PATH']}", "RQLOG": f"{place}/usr/lib/tetherearly/libexec/rq/rqlog"}
    state = os.path.join(folder, "srv")
    check("its line", run("/bin/sh", "-c", line, os.path.join(state, "logs"), cwd=state, env=env).status, 0)
    check("its report", text_in(os.path.join(state, "out", "crashed.log.report")), REPORT)
    check("its table", text_in(os.path.join(state, "table.tsv")).count("\n"), 2)
    check("without a program", run("/bin/sh", "-c", line, state, cwd=state, env={**env, "RQLOG": "/nowhere"}).status, 70)
    print("the unit under systemd itself: left out: this needs it as the first process" if not os.path.isdir("/run/systemd/system") else
          "the unit under systemd itself: not tried: systemctl start does it")


def takes(line: argparse.ArgumentParser) -> None:
    line.add_argument("--bare", metavar="FOLDER")


def main(options: argparse.Namespace) -> None:
    if not is_there("all", "dpkg-deb", by="a Debian has it"):
        check("dpkg-deb is there", False, True)
        return
    with tempfile.TemporaryDirectory(prefix="rq-packages-") as folder:
        os.chmod(folder, 0o755)
        path = made(folder)
        for name, part in (("package", package), ("image", image), ("unit", unit), ("bare system", lambda *its: bare_system(*its, options.bare))):
            begun = time.monotonic()
            part(path, folder)
            print(f"{name}: {time.monotonic() - begun:.0f} s", flush=True)
