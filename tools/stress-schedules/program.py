"""The built program under a scheduler: where it is, its atomic instructions, and one run by a plan."""

import atexit
import hashlib
import os
import platform
import re
import shutil
import subprocess
import tempfile
from typing import NamedTuple

HERE = os.path.dirname(os.path.abspath(__file__))
TOP = os.path.dirname(os.path.dirname(HERE))
SOURCES = ("scheduler.c", "breakpoints.c", "scheduler.h")
FUNCTION = re.compile(r"^[0-9a-f]+ <(.*)>:$")
INSTRUCTION = re.compile(r"^\s*([0-9a-f]+):\t((?:[0-9a-f]{2} )+)\s*\t(.*)$")
ATOMIC = re.compile(r"lock |xchg\s+.*\[")
# A count of references that goes down: what it guards is one thread's by then.
COUNT_DOWN = re.compile(r"lock dec ")
# Functions of the sanitizers, of which an unproved build may have some.
FOREIGN = re.compile(r"sanitizer|asan|lsan|interceptor|ubsan|_Zdl|_Znw")
SECONDS = 20
# A plan by which the threads run as they will.
FREE = "free"


class Refused(Exception):
    """Why the tool can't go on."""

    def __init__(self, why, status=3):
        super().__init__(why)
        self.status = status


class Site(NamedTuple):
    """An atomic instruction: its offset in the file, its bytes, whether it is a compare and exchange, and where it stands."""

    offset: int
    length: int
    kind: str
    where: str


class Switch(NamedTuple):
    """A switch: after this step of one worker the next one goes on."""

    who: int
    step: int
    next: int


class Step(NamedTuple):
    """A step of a run: whose, which, what kind, where, whether its exchange missed, who else could go on, and who did."""

    who: int
    step: int
    kind: str
    site: int
    missed: bool
    others: int
    next: int


class Run(NamedTuple):
    """What came of one run."""

    status: int
    report: bytes
    switches: int
    schedule: tuple
    steps: list
    missed: tuple  # (worker, number of the site) of each compare and exchange that changed nothing
    unused: int
    reason: str


def spell(schedule):
    """A schedule as a word."""
    return ",".join(f"{it.who}:{it.step}:{it.next}" for it in schedule)


def read_schedule(text):
    """A schedule from its word."""
    if not re.fullmatch(r"(\d+:\d+:\d+(,\d+:\d+:\d+)*)?", text):
        raise Refused(f"`{text}` isn't a schedule: WORKER:STEP:NEXT, parted by commas", 2)
    return tuple(Switch(*map(int, part.split(":"))) for part in text.split(",") if part)


def find_program(path):
    """The path of the program that is given, or of the built one."""
    if path:
        if not os.access(path, os.X_OK) or os.path.isdir(path):
            raise Refused(f"{path} isn't a program", 2)
        return os.path.abspath(path)
    done = subprocess.run([os.path.join(TOP, "shrinkers"), "--built"], capture_output=True, text=True, check=False)
    if done.returncode:
        raise Refused(f"{done.stderr.strip()}; or name one by --program PATH")
    return done.stdout.strip()


def sum_of(*parts):
    return hashlib.sha256(b"\0".join(parts)).hexdigest()[:16]


def read(path):
    try:
        with open(path, "rb") as file:
            return file.read()
    except OSError as error:
        raise Refused(f"{path}: {error.strerror}", 2) from None


def cache_folder():
    """A folder that stays from call to call; a temporary one if none can be made."""
    home = os.environ.get("XDG_CACHE_HOME") or os.path.join(os.environ.get("HOME") or "/nowhere", ".cache")
    folder = os.path.join(home, "shrinkers-stress")
    try:
        os.makedirs(folder, exist_ok=True)
        if os.access(folder, os.W_OK):
            return folder
    except OSError:
        pass
    folder = tempfile.mkdtemp(prefix="shrinkers-stress-")
    atexit.register(shutil.rmtree, folder, True)
    return folder


def is_site(words, where):
    """Whether an instruction is one to switch at. One whose address is told from where it stands can't be moved."""
    return bool(ATOMIC.match(words)) and not (COUNT_DOWN.match(words) or "[rip" in words or FOREIGN.search(where))


def find_sites(path):
    """The atomic instructions of a program, by objdump."""
    done = subprocess.run(
        ["objdump", "-d", "-M", "intel", "-w", path], capture_output=True, text=True, errors="replace", check=False
    )
    if done.returncode:
        raise Refused(f"objdump can't read {path}: {done.stderr.strip()}")
    sites, where = [], ""
    for line in done.stdout.splitlines():
        if found := FUNCTION.match(line):
            where = found[1]
        elif (found := INSTRUCTION.match(line)) and is_site(found[3], where):
            kind = "c" if "cmpxchg" in found[3] else "s"
            sites.append(Site(int(found[1], 16), len(found[2].split()), kind, where.replace(" ", "_") or "-"))
    if not sites:
        raise Refused(f"{path} has no atomic instruction to switch at")
    return sorted(sites)


class Program:
    """A built program, with what a scheduled run of it needs."""

    def __init__(self, path, seconds=SECONDS):
        if platform.machine() not in ("x86_64", "AMD64") or not os.path.exists("/proc/self"):
            raise Refused("schedules need Linux on x86-64")
        for tool in ("gcc", "objdump"):
            if not shutil.which(tool):
                raise Refused(f"{tool} is wanted, and isn't here")
        self.path = path
        self.seconds = seconds
        self.sum = sum_of(read(path))
        self.folder = cache_folder()
        self.library = self.kept("scheduler-" + sum_of(*(read(os.path.join(HERE, it)) for it in SOURCES)) + ".so", self.build)
        self.sites_file = self.kept(f"atomics-{self.sum}", self.write_sites)
        self.names = [line.split(" ")[-1] for line in read(self.sites_file).decode().splitlines()]

    def kept(self, name, make):
        """A file of the cache, made first if it isn't there. It appears whole or not at all."""
        path = os.path.join(self.folder, name)
        if not os.path.exists(path):
            part = f"{path}.{os.getpid()}"
            make(part)
            os.replace(part, path)
        return path

    def build(self, path):
        words = ["gcc", "-shared", "-fPIC", "-O2", "-o", path, *(os.path.join(HERE, it) for it in SOURCES[:2]), "-ldl", "-lpthread"]
        done = subprocess.run(words, capture_output=True, text=True, check=False)
        if done.returncode:
            raise Refused(f"gcc can't build the scheduler: {done.stderr.strip()}")

    def write_sites(self, path):
        sites = find_sites(self.path)
        with open(path, "w", encoding="utf-8") as file:
            file.write("".join(f"{it.offset:x} {it.length} {it.kind} {it.where}\n" for it in sites))

    def run(self, script, plan, traced=False):
        """One run of a script by a plan: a seed, a schedule, or FREE for threads that run as they will."""
        added = {}
        if plan != FREE:
            added = {
                "LD_PRELOAD": self.library, "SHRINKERS_SITES": self.sites_file, "SHRINKERS_SECONDS": str(self.seconds),
                "SHRINKERS_WORKERS": str(max(1, script.count(b"\nworker\n"))),
            }
            added.update({"SHRINKERS_SEED": str(plan)} if isinstance(plan, int) else {"SHRINKERS_SCHEDULE": spell(plan)})
            added.update({"SHRINKERS_TRACE": "1"} if traced else {})
        try:
            done = subprocess.run(
                [self.path, "run"], input=script, capture_output=True, timeout=self.seconds + 10,
                env={**os.environ, **added}, check=False,
            )
        except subprocess.TimeoutExpired:
            return Run(97, b"", 0, (), [], (), 0, f"no end in {self.seconds + 10} seconds")
        return self.told(done, plan)

    @staticmethod
    def told(done, plan):
        """A run from what the program and the scheduler told."""
        said = done.stderr.decode(errors="replace").splitlines()
        counts, schedule, steps, missed, reason = {}, (), [], [], ""
        for line in said:
            words = line.split(" ")
            if line.startswith("scheduler steps "):
                counts = dict(zip(words[1::2], map(int, words[2::2])))
            elif line.startswith("scheduler schedule "):
                schedule = read_schedule(words[2])
            elif line.startswith("t ") and len(words) == 8:
                who, step, kind, site, has_missed, others, after = words[1:]
                steps.append(Step(int(who), int(step), kind, int(site), has_missed == "1", int(others, 16), int(after)))
            elif line.startswith("missed ") and len(words) == 3:
                missed.append((int(words[1]), int(words[2])))
            elif line.startswith("scheduler: "):
                reason = line[len("scheduler: "):]
        if done.returncode and not reason:
            told = done.stdout.decode(errors="replace").splitlines()[:1] or [line for line in said[:1] if not counts]
            reason = f"the program ended with status {done.returncode}" + "".join(f": {line}" for line in told)
        if plan != FREE and not counts and not reason:
            reason = "the scheduler wasn't loaded into the program"
        switches, unused = counts.get("switches", 0), counts.get("unused", 0)
        return Run(done.returncode, done.stdout, switches, schedule, steps, tuple(missed), unused, reason)

    def audit(self, script, report):
        """What the program's own auditor says of a report."""
        done = subprocess.run([self.path, "audit"], input=script + report, capture_output=True, timeout=120, check=False)
        return done.stdout.decode(errors="replace").strip() or f"status {done.returncode}"

    def where(self, site):
        """Where an atomic instruction stands: the last part of its function's name."""
        name = self.names[site] if 0 <= site < len(self.names) else ""
        return re.sub(r"::<.*|::h[0-9a-f]{16}$", "", name)
