"""By hand, before a release. Runs 200 logs by engines for real, on the loopback of this machine, as examples/many says: by GNU parallel over two
ssh servers, and by an array of Slurm with a controller and two nodes.

The logs are of mixed size, and some are not as they should be. By `parallel` a program is ended midway, then the job around one; a node goes
away; logs stand on each node's own disk; and no files are shared. By `slurm` a program is ended midway, and a node with all that runs on it. In
the end there are the same table and the same reports, and nothing was done twice. Needs an ordinary user, and Debian's packages parallel,
openssh-server and rsync, or slurm-wlm and munge, but neither systemd nor cgroups; it says what it lacks. Each takes some minutes. By `cluster`
Slurm's small one is set up where it is run, and waits for a line on standard input.
"""
from __future__ import annotations
import argparse, csv, getpass, hashlib, os, random, shutil, signal, socket, subprocess, sys, tempfile, threading, time
from collections.abc import Callable, Iterator
from contextlib import contextmanager

from trying import TOP, check, program_of, sum_of

# Columns of a table that are the same whoever made it: name, status, why, records, bytes, size, units cut off.
SAME = 7
# What an engine's programs are called, and Debian's package of each.
SYSTEM = "/usr/sbin"


def lacking(packages: dict[str, str]) -> bool:
    """Says which programs are not there and who has them; as root, that it is the wrong user."""
    path = os.environ["PATH"] + os.pathsep + SYSTEM
    gone = [it for it in packages if not shutil.which(it, path=path)]
    if gone:
        print(f"needs {', '.join(gone)}: apt-get install {' '.join(sorted({packages[it] for it in gone}))}")
    if os.geteuid() == 0:
        print("needs an ordinary user: root can read every log")
    if gone or os.geteuid() == 0:
        check("what it needs is there", False, True)
    return bool(gone) or os.geteuid() == 0


def program(name: str) -> str:
    """The program of these sources for this machine."""
    return program_of(name) or sys.exit(f"no {name} is made of these sources: ./{name} --prove builds it")


def until(what: Callable[[], object], seconds: float) -> bool:
    """Waits until it is so, for so long at most."""
    end = time.monotonic() + seconds
    while not what():
        if time.monotonic() > end:
            return False
        time.sleep(0.05)
    return True


class Room:
    """A folder with the logs, the programs on a path of its own, and a note of each restart."""

    def __init__(self, folder: str, delay: float = 0) -> None:
        self.folder, self.logs, self.bin, self.notes = (os.path.join(folder, it) for it in ("", "logs", "bin", "restarts"))
        self.rqlog = program("rqlog")
        os.makedirs(self.logs)
        os.makedirs(self.bin)
        open(self.notes, "w").close()
        script = f"""#!/bin/sh
[ "$1" != restart ] || {{ readlink /proc/self/fd/0 >> '{self.notes}'; sleep {delay}; }}
exec {self.rqlog} "$@"
"""
        with open(os.path.join(self.bin, "rqlog"), "w", encoding="utf-8") as file:
            file.write(script)
        os.chmod(os.path.join(self.bin, "rqlog"), 0o755)
        os.symlink(os.path.join(TOP, "rq-many"), os.path.join(self.bin, "rq-many"))
        os.environ["PATH"] = os.pathsep.join((self.bin, os.environ["PATH"], SYSTEM))
        os.chdir(folder)
        Logs(self.logs, program("rq"), self.rqlog).make_all()
        self.run("rq-many list logs > logs.list")
        self.wanted = {name: self.report(name) for name in self.names() if name not in (UNREAD, "b/no-log.log")}

    def run(self, text: str) -> int:
        return subprocess.run(["bash", "-c", text], stdin=subprocess.DEVNULL).returncode

    def names(self) -> list[str]:
        with open("logs.list", encoding="utf-8") as file:
            return file.read().splitlines()

    def report(self, name: str) -> str:
        """The sum of the report, as the program prints it by itself."""
        words = [self.rqlog, "restart", os.path.join(self.logs, name), "2"]
        return hashlib.sha256(subprocess.run(words, check=True, stdout=subprocess.PIPE).stdout).hexdigest()

    def restarts(self) -> list[str]:
        """The logs that were restarted, each time that one was."""
        with open(self.notes, encoding="utf-8") as file:
            return [os.path.relpath(it, self.logs) for it in file.read().splitlines()]

    def forget(self) -> None:
        open(self.notes, "w").close()

    def check_all(self, what: str, out: str, logs: str = "logs") -> None:
        """The table and the reports are those of all logs, whoever made them and whatever happened meanwhile."""
        words = ["rq-many", "collect", "--verify", "--clean", logs, out, "--list", "logs.list"]
        done = subprocess.run(words, stdout=subprocess.PIPE, stderr=subprocess.PIPE, universal_newlines=True)
        said = done.stderr.splitlines()
        check(f"{what}: the table's status", done.returncode, 75)
        check(f"{what}: all", said[:1], [f"200 logs: {WORDS}"])
        check(f"{what}: who needs a person", sorted(it.split(": ")[1] for it in said if it.startswith("needs a person")), PERSONS)
        check(f"{what}: what is to be run again", [it.split(": ")[1:3] for it in said if it.startswith("run again")], [[UNREAD, "unread"]])
        rows = [it.split("\t") for it in done.stdout.splitlines()[1:]]
        check(f"{what}: a row for each", [it[0] for it in rows], self.names())
        check(f"{what}: each report", {name: sum_of(os.path.join(out, f"{name}.report")) for name in self.wanted}, self.wanted)
        left = [it for _, _, files in os.walk(out) for it in files if not it.endswith((".report", ".json"))]
        check(f"{what}: nothing else is left", left, [])
        check(f"{what}: so many files", sum(len(files) for _, _, files in os.walk(out)), 198 + 200)
        self.check_table(what, [it[:SAME] for it in rows])

    def check_table(self, what: str, rows: list[list[str]]) -> None:
        if not hasattr(self, "table"):
            self.table = rows
        check(f"{what}: the same table", rows, self.table)

    def check_once(self, what: str, ended: int) -> None:
        """No log was restarted twice, but for so many that were ended."""
        seen = self.restarts()
        check(f"{what}: each log was restarted", set(seen) | {UNREAD}, set(self.names()))
        check(f"{what}: {len(seen) - len(set(seen))} of them twice, and {ended} may be", len(seen) - len(set(seen)) <= ended, True)
        self.forget()


def restarting(log: str) -> int:
    """The program that restarts the log now, or 0."""
    for pid in filter(str.isdigit, os.listdir("/proc")):
        try:
            if os.readlink(f"/proc/{pid}/fd/0") == log and "rqlog-x86" in os.readlink(f"/proc/{pid}/exe"):
                return int(pid)
        except OSError:
            pass
    return 0


def parent_of(pid: int) -> int:
    with open(f"/proc/{pid}/stat", encoding="utf-8") as file:
        return int(file.read().rpartition(")")[2].split()[1])


@contextmanager
def ended_midway(what: str, log: str, with_job: bool = False) -> Iterator[None]:
    """While the rest goes on, waits until a restart of the log does, and ends the program; or the job around it too."""
    ended: list[int] = []
    over = threading.Event()

    def end() -> None:
        while not ended and not over.is_set():
            pid = restarting(os.path.realpath(log))
            if pid:
                for it in ([parent_of(pid)] if with_job else []) + [pid]:
                    os.kill(it, signal.SIGKILL)
                ended.append(pid)
            time.sleep(0.005)

    thread = threading.Thread(target=end)
    thread.start()
    try:
        yield
    finally:
        over.set()
        thread.join()
    check(f"{what}: it was ended midway", len(ended), 1)


@contextmanager
def room(delay: float = 0) -> Iterator[Room]:
    folder = tempfile.mkdtemp(prefix="rq-many-")
    # munged takes no socket in a folder into which others can't look.
    os.chmod(folder, 0o755)
    begun = time.monotonic()
    try:
        here = Room(folder, delay)
        print(f"200 logs: {time.monotonic() - begun:.0f} s", flush=True)
        yield here
    finally:
        os.chdir("/")
        shutil.rmtree(folder, ignore_errors=True)


# --- logs ------------------------------------------------------------------------------------------------------------

QUEUES = 16
# How many logs there are of a kind: their folder and name, the size of each in KiB, and of a payload in bytes.
KINDS = [("a/queue", 74, 64, 40), ("b/queue", 72, 96, 300), ("a/middle", 34, 768, 1000), ("b/large", 9, 4096, 20_000)]
HUGE = [("b/huge-1.log", 12 << 10, 200), ("b/huge-2.log", 32 << 10, 12)]
# Names that are hard on a shell.
ODD = ["odd names/it's $HOME \"quoted\".log", "odd names/-dash über.log"]
LATE = "define jobs 0 -\nbegin 1\ncommit 1\nenqueue 1 0 5 - 0 61\nbegin 2\ncommit 2\n"
# What the table says of all: a word and how many logs it is of.
WORDS = "1 chain, 1 cut, 1 law, 1 length, 1 refused, 1 unread, 194 whole"
# The three that are damaged, with that which is no log and that which can't be read.
PERSONS = ["a/damaged-chain.log", "a/damaged-law.log", "b/damaged-length.log", "b/no-log.log"]
UNREAD = "b/unreadable.log"
# One that takes a second, to be ended meanwhile.
LONG = "b/huge-2.log"


def lines(kib: int, payload: int, draw: random.Random) -> Iterator[str]:
    """A script of units that enqueue and dequeue, until the log has so many bytes."""
    yield from (f"define work{queue} 0 -\n" for queue in range(QUEUES))
    size = unit = 0
    text = "5a" * payload
    while size < kib << 10:
        unit += 1
        yield f"begin {unit}\n"
        for _ in range(4):
            yield f"enqueue {unit} {draw.randrange(QUEUES)} {draw.randrange(8)} - 0 {text}\n"
        yield f"commit {unit}\nbegin {unit + 1}\n"
        unit += 1
        for _ in range(2):
            yield f"dequeue {unit} {draw.randrange(QUEUES)} - 0\n"
        yield f"commit {unit}\n" if draw.randrange(4) else f"abort {unit}\n"
        size += 4 * 45 + 4 * (59 + payload) + 2 * 58


class Logs:
    """A folder of logs, made by rq and rqlog."""

    def __init__(self, folder: str, rq: str, rqlog: str) -> None:
        self.folder, self.rq, self.rqlog = folder, rq, rqlog
        self.draw = random.Random(1)

    def at(self, name: str) -> str:
        return os.path.join(self.folder, name)

    def write(self, name: str, text: str) -> None:
        with open(self.at(name), "w", encoding="ascii") as file:
            file.write(text)

    def make(self, name: str, kib: int, payload: int) -> None:
        script = os.path.join(self.folder, "script")
        with open(script, "w", encoding="ascii") as file:
            file.writelines(lines(kib, payload, self.draw))
        subprocess.run([self.rq, "make", script, self.at(name)], check=True)
        os.remove(script)

    def turn(self, name: str, offset: int) -> None:
        """Turns all bits of a byte."""
        with open(self.at(name), "r+b") as file:
            file.seek(offset)
            byte = file.read(1)[0]
            file.seek(offset)
            file.write(bytes([byte ^ 255]))

    def make_odd(self) -> None:
        """Damaged: a changed byte of a body, a changed length, a record that is not lawful. Cut in mid-write. Carried on. No log. And
        one that nobody may read."""
        self.make("a/damaged-chain.log", 512, 200)
        self.turn("a/damaged-chain.log", 200_000)
        self.make("b/damaged-length.log", 64, 200)
        self.turn("b/damaged-length.log", 40)
        self.write("b/no-log.log", LATE)
        subprocess.run([self.rq, "make", self.at("b/no-log.log"), self.at("a/damaged-law.log")], check=True)
        self.make("a/cut.log", 64, 200)
        os.truncate(self.at("a/cut.log"), os.path.getsize(self.at("a/cut.log")) - 17)
        self.make("before", 64, 200)
        subprocess.run([self.rqlog, "carry", self.at("before"), self.at("b/carried.log")], check=True, stdout=subprocess.DEVNULL)
        os.remove(self.at("before"))
        self.make(UNREAD, 64, 200)
        os.chmod(self.at(UNREAD), 0)

    def make_all(self) -> None:
        for folder in ("a", "b", "odd names"):
            os.makedirs(self.at(folder))
        for name, count, kib, payload in KINDS:
            for number in range(1, count + 1):
                self.make(f"{name}-{number}.log", kib, payload)
        for name, kib, payload in HUGE:
            self.make(name, kib, payload)
        for name in ODD:
            self.make(name, 64, 100)
        self.make_odd()


# --- GNU parallel -----------------------------------------------------------------------------------------------------

OF_PARALLEL = {"parallel": "parallel", "ssh": "openssh-client", "ssh-keygen": "openssh-client", "sshd": "openssh-server", "rsync": "rsync"}
SERVERS = {"node1": 22201, "node2": 22202}
# Each node has a disk of its own, by the name that its server tells in QUEUES and RESERVERS.
SERVER = """ListenAddress 127.0.0.1
Port {port}
HostKey {folder}/ssh/host_key
AuthorizedKeysFile {folder}/ssh/user_key.pub
PidFile {folder}/ssh/{node}.pid
PasswordAuthentication no
KbdInteractiveAuthentication no
UsePAM no
StrictModes no
MaxStartups 100
MaxSessions 100
AcceptEnv LANG LC_*
SetEnv PATH={path} QUEUES={folder}/disks/{node}/logs RESERVERS={folder}/disks/{node}/out
"""
CLIENT = """Host {node}
    HostName 127.0.0.1
    Port {port}
    User {user}
    IdentityFile {folder}/ssh/user_key
    IdentitiesOnly yes
    UserKnownHostsFile {folder}/ssh/known_hosts
    StrictHostKeyChecking accept-new
    LogLevel ERROR
"""


def pid_of(node: str) -> int:
    with open(f"ssh/{node}.pid", encoding="ascii") as file:
        return int(file.read())


@contextmanager
def two_servers(here: Room) -> Iterator[None]:
    os.mkdir("ssh", 0o700)
    for name in ("host_key", "user_key"):
        subprocess.run(["ssh-keygen", "-q", "-t", "ed25519", "-N", "", "-f", f"ssh/{name}"], check=True)
    with open("ssh/config", "w", encoding="utf-8") as client:
        for node, port in SERVERS.items():
            parts = {"folder": os.getcwd(), "node": node, "port": port, "path": os.environ["PATH"], "user": getpass.getuser()}
            client.write(CLIENT.format(**parts))
            with open(f"ssh/{node}.config", "w", encoding="utf-8") as file:
                file.write(SERVER.format(**parts))
            files = (os.path.abspath(f"ssh/{node}.{it}") for it in ("config", "log"))
            subprocess.run(["/usr/sbin/sshd", "-f", next(files), "-E", next(files)], check=True)
    try:
        yield
    finally:
        for node in SERVERS:
            end_server(node)


def end_server(node: str) -> None:
    """Nobody logs in any more; who is logged in goes on."""
    try:
        os.kill(pid_of(node), 15)
    except (OSError, ValueError):
        pass


def parallel(here: Room, words: str) -> int:
    """Its status: how many jobs failed."""
    return here.run(f"parallel --will-cite --ssh 'ssh -F {os.getcwd()}/ssh/config' {words} 2>> said")


def jobs(path: str) -> list[str]:
    """The status of each job, the last one that stands there."""
    with open(path, encoding="utf-8", newline="") as file:
        return list({it["Seq"]: it["Exitval"] for it in csv.DictReader(file, delimiter="\t")}.values())


SHARED = '--sshlogin 2/node1,2/node2 --workdir "$PWD" -n 10 -a logs.list'


def program_ended(here: Room) -> None:
    with ended_midway("a program", os.path.join(here.logs, LONG)):
        failed = parallel(here, f"{SHARED} --joblog jobs.tsv rq-many run logs out1 -- {{}}")
    check("a program is ended: two jobs are to be run again", (failed, jobs("jobs.tsv").count("75")), (2, 2))
    check("again: one is left", parallel(here, f"{SHARED} --joblog jobs.tsv --resume-failed rq-many run logs out1 -- {{}}"), 1)
    here.check_all("a program is ended", "out1")
    here.check_once("a program is ended", 1)


def job_ended(here: Room) -> None:
    with ended_midway("a job", os.path.join(here.logs, LONG), with_job=True):
        failed = parallel(here, f"{SHARED} --joblog jobs2.tsv rq-many run logs out2 -- {{}}")
    check("a job is ended: two are to be run again", failed, 2)
    check("again: one is left", parallel(here, f"{SHARED} --joblog jobs2.tsv --resume-failed rq-many run logs out2 -- {{}}"), 1)
    here.check_all("a job is ended", "out2")
    here.check_once("a job is ended", 1)


def own_disks(here: Room) -> None:
    """Each node has half of the logs, and reports of its own; the tables are put together."""
    for at, node in enumerate(SERVERS):
        os.makedirs(f"disks/{node}")
        here.run(f"awk 'NR % 2 == {at}' logs.list | grep -v unreadable > half; rsync -a --files-from=half logs/ disks/{node}/logs/")
    nodes = "--nonall --tag --sshlogin node1,node2"
    listed = "rq-many list $QUEUES > $RESERVERS.list; rq-many run $QUEUES $RESERVERS --list $RESERVERS.list"
    check("own disks", parallel(here, f"{nodes} '{listed}'"), 0)
    parallel(here, f"{nodes} 'rq-many collect $QUEUES $RESERVERS --list $RESERVERS.list' > tables")
    with open("tables", encoding="utf-8") as file:
        rows = sorted(it.split("\t")[1:8] for it in file.read().splitlines() if not it.split("\t")[1] == "name")
    check("own disks: the same rows", rows, sorted(it for it in here.table if it[1] != "unread"))
    here.forget()


def nothing_shared(here: Room) -> None:
    """Logs are sent, and reports are fetched."""
    here.run("mkdir apart; cp -a logs apart/queues 2>> said; touch -r logs/b/unreadable.log apart/queues/b/unreadable.log 2>> said")
    os.chdir("apart")
    here.run("cp ../logs.list . && cp -r ../ssh .")
    os.environ.update(PARALLEL_RSYNC_OPTS="-rlDzRt", RSYNC_OLD_ARGS="1")
    words = f"--sshlogin 2/node1,2/node2 --workdir {here.folder}far --cleanup --transferfile queues/{{}} --return out/{{}}.json " \
            "--return out/{}.report --joblog jobs.tsv -a some.list rq-many run queues out -- {}"
    names = [it for it in here.names() if "unreadable" not in it and "no-log" not in it][5::20]
    with open("some.list", "w", encoding="utf-8") as file:
        file.write("".join(f"{it}\n" for it in names))
    check("nothing shared", parallel(here, words), 0)
    here.run("rq-many collect --verify queues out --list some.list > table 2>> said")
    with open("table", encoding="utf-8") as file:
        rows = [it.split("\t")[:7] for it in file.read().splitlines()[1:]]
    check("nothing shared: the same rows", rows, [it for it in here.table if it[0] in names])
    check("nothing shared: nothing is left there", [files for _, _, files in os.walk(f"{here.folder}far") if files], [])
    os.chdir(here.folder)
    here.forget()


def hosts() -> list[str]:
    """On which node each job ended."""
    try:
        with open("jobs3.tsv", encoding="utf-8") as file:
            return [it.split("\t")[1] for it in file.read().splitlines()[1:]]
    except OSError:
        return []


def node_goes(here: Room) -> None:
    """Nobody logs in to a node any more; its jobs are tried elsewhere."""
    def end_once_used() -> None:
        until(lambda: "node2" in hosts(), 300)
        end_server("node2")

    thread = threading.Thread(target=end_once_used)
    thread.start()
    check("a node goes: one is left", parallel(here, f"{SHARED} --joblog jobs3.tsv --retries 3 rq-many run logs out3 -- {{}}"), 1)
    thread.join()
    here.check_all("a node goes", "out3")
    check("a node goes: both had jobs, the other one the most", 0 < hosts().count("node2") < hosts().count("node1"), True)
    here.check_once("a node goes", 0)

def by_parallel() -> None:
    if not lacking(OF_PARALLEL):
        with room() as here, two_servers(here):
            for part in (program_ended, job_ended, own_disks, nothing_shared, node_goes):
                begun = time.monotonic()
                part(here)
                print(f"{part.__name__.replace('_', ' ')}: {time.monotonic() - begun:.0f} s", flush=True)


# --- Slurm -----------------------------------------------------------------------------------------------------------

OF_SLURM = {"sbatch": "slurm-wlm", "slurmctld": "slurm-wlm", "slurmd": "slurm-wlm", "munged": "munge"}
NODES = {"node1": 22211, "node2": 22212}
PARTS = 8
# A node has so many cores and MiB, as it tells the controller.
CORES, MIB = 2, 4000
# Without cgroups processes are found by their session, and memory by looking now and then. A node that says nothing for a while is down,
# and its jobs are begun again elsewhere.
CONF = """ClusterName=small
SlurmctldHost={host}(127.0.0.1)
SlurmUser={user}
SlurmdUser={user}
AuthType=auth/munge
AuthInfo=socket={folder}/munge.socket
CredType=cred/munge
SlurmctldPort=22210
StateSaveLocation={folder}/state
SlurmdSpoolDir={folder}/spool/%n
SlurmctldPidFile={folder}/slurmctld.pid
SlurmdPidFile={folder}/slurmd.%n.pid
SlurmctldLogFile={folder}/slurmctld.log
SlurmdLogFile={folder}/slurmd.%n.log
ProctrackType=proctrack/linuxproc
TaskPlugin=task/none
JobAcctGatherType=jobacct_gather/linux
JobAcctGatherFrequency=5
SelectType=select/cons_tres
SelectTypeParameters=CR_CPU_Memory
SchedulerParameters=batch_sched_delay=0,sched_min_interval=100000,sched_interval=5,bf_interval=5
MaxArraySize=10001
MaxJobCount=20000
SlurmdTimeout=30
JobRequeue=1
MailProg=/bin/true
ReturnToService=2
MinJobAge=3600
"""
NODE = "NodeName={node} NodeHostname={host} NodeAddr=127.0.0.1 Port={port} CPUs={cores} RealMemory={mib}\n"


def said(*words: str) -> str:
    return subprocess.run(words, stdout=subprocess.PIPE, stderr=subprocess.DEVNULL, universal_newlines=True).stdout.strip()


def write_conf(folder: str) -> None:
    host = socket.gethostname().partition(".")[0]
    with open(os.path.join(folder, "slurm.conf"), "w", encoding="utf-8") as file:
        file.write(CONF.format(folder=folder, host=host, user=getpass.getuser()))
        file.writelines(NODE.format(node=node, host=host, port=port, cores=CORES, mib=MIB) for node, port in NODES.items())
        file.write("PartitionName=all Nodes=ALL Default=YES MaxTime=INFINITE State=UP\n")


@contextmanager
def small_cluster() -> Iterator[None]:
    folder = os.path.abspath("slurm")
    os.makedirs(os.path.join(folder, "state"))
    os.makedirs(os.path.join(folder, "spool"))
    # munged wants that nobody else may write the folders of its files.
    os.chmod(folder, 0o755)
    with open(os.open(f"{folder}/munge.key", os.O_WRONLY | os.O_CREAT, 0o600), "wb") as key:
        key.write(os.urandom(1024))
    write_conf(folder)
    os.environ["SLURM_CONF"] = f"{folder}/slurm.conf"
    begin = [["munged", "--key-file", f"{folder}/munge.key", "--socket", f"{folder}/munge.socket", "--pid-file", f"{folder}/munged.pid",
              "--log-file", f"{folder}/munged.log", "--seed-file", f"{folder}/munge.seed"], ["slurmctld", "-c"]]
    try:
        for words in [*begin, *(["slurmd", "-N", node] for node in NODES)]:
            subprocess.run(words, check=True)
        check("both nodes are up", until(lambda: said("sinfo", "-h", "-t", "idle", "-o", "%D") == "2", 60), True)
        yield
    finally:
        for name in (*(f"slurmd.{node}" for node in NODES), "slurmctld", "munged"):
            end(f"{folder}/{name}.pid")


def end(path: str) -> None:
    """Ends the daemon of a file of its number, and waits for it."""
    try:
        with open(path, encoding="ascii") as file:
            pid = int(file.read())
        os.kill(pid, signal.SIGTERM)
        until(lambda: not os.path.exists(f"/proc/{pid}"), 10)
    except (OSError, ValueError):
        pass


def of_node(node: str) -> list[int]:
    """What runs on a node: the jobs' processes, and before them the daemons of their steps, so that these tell nobody how they end."""
    found: list[int] = []
    for pid in map(int, filter(str.isdigit, os.listdir("/proc"))):
        try:
            with open(f"/proc/{pid}/environ", "rb") as file:
                if f"SLURMD_NODENAME={node}".encode() not in file.read().split(b"\0"):
                    continue
            parent = parent_of(pid)
            with open(f"/proc/{parent}/comm", encoding="utf-8") as file:
                found = [*([parent] if file.read().strip() == "slurmstepd" else []), *found, pid]
        except OSError:
            pass
    return found


def end_node(node: str) -> bool:
    """Ends a node as a power cut would, if a job runs on it: its daemon, and all that runs there."""
    pids = of_node(node)
    if not pids:
        return False
    with open(f"slurm/slurmd.{node}.pid", encoding="ascii") as file:
        pids = [int(file.read()), *pids]
    for pid in pids:
        try:
            os.kill(pid, signal.SIGKILL)
        except OSError:
            pass
    return True


def hurry(last: str) -> bool:
    """What Slurm would begin in two minutes begins now. Not in the second in which it was ended: Slurm says "Job credential revoked"
    then, and takes it for failed. Whether the last job has ended."""
    waiting = [line.split()[0] for line in said("squeue", "-h", "-r", "-t", "PD", "-o", "%i %r").splitlines() if "BeginTime" in line]
    time.sleep(3)
    for job in waiting:
        said("scontrol", "update", f"JobId={job}", "StartTime=now")
    return bool(said("squeue", "-h", "-j", last, "-t", "CD,F", "-o", "%T"))


def array(here: Room) -> None:
    part = os.path.join(TOP, "examples", "many", "slurm", "part.sbatch")
    with ended_midway("a program", os.path.join(here.logs, LONG)):
        job = said("sbatch", "--parsable", f"--array=1-{PARTS}", "--mem=1000", part, "logs", "out", "logs.list")
        last = said("sbatch", "--parsable", f"--dependency=afterany:{job}", "--mem=100", "--output=collect.log",
                    "--wrap", "rq-many collect --clean logs out --list logs.list > table.tsv")
        check("a node is ended with what runs on it", until(lambda: end_node("node2"), 60), True)
        check("the last job ends", until(lambda: hurry(last), 900), True)
    with open("collect.log", encoding="utf-8") as file:
        check("what it says", file.readline().startswith("200 logs: 1 chain, 1 cut, 1 law, 1 length, 1 refused, 1 unread, 194 whole"), True)
    with open("table.tsv", encoding="utf-8") as file:
        check("its table", len(file.readlines()), 201)
    with open("slurm/slurmctld.log", encoding="utf-8") as file:
        check("Slurm began again what the node had", "due to failure of node node2" in file.read(), True)
    states = said("squeue", "-h", "-r", "-j", job, "-t", "all", "-o", "%T").splitlines()
    check("the part with the log that can't be read failed, at last", (states.count("FAILED"), states.count("COMPLETED")), (1, PARTS - 1))
    here.check_all("an array", "out")
    # The program that was ended, and what ran on the cores of the node.
    here.check_once("an array", 1 + CORES)

def by_slurm() -> None:
    if not lacking(OF_SLURM):
        # A log takes a little longer, so that a part still runs when its node is ended.
        with room(delay=0.1) as here, small_cluster():
            begun = time.monotonic()
            array(here)
            print(f"an array of {PARTS} parts: {time.monotonic() - begun:.0f} s", flush=True)


def kept_cluster() -> None:
    os.environ["PATH"] += os.pathsep + SYSTEM
    os.makedirs("slurm")
    with small_cluster():
        print(f"export SLURM_CONF={os.environ['SLURM_CONF']}", flush=True)
        sys.stdin.readline()


ENGINES = {"parallel": by_parallel, "slurm": by_slurm, "cluster": kept_cluster}


def takes(line: argparse.ArgumentParser) -> None:
    line.add_argument("engine", choices=list(ENGINES))


def main(options: argparse.Namespace) -> None:
    ENGINES[options.engine]()
