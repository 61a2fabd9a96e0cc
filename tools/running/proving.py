"""The proved program: `rt run` proves each crate that it stands on, and builds it."""

import os
import re

from running.cases import TOP
from running.children import Failed, started
from running.progress import Progress, spell
from running.translating import kit, program_of

CRATE = f"{TOP}/crates/shrinkers"
PROGRAM = f"{CRATE}/out/shrinkers"
LOG = f"{CRATE}/out/prove.log"


def weight_of(folder):
    """The bytes of a crate's sources, definitions and proofs, by which its time is guessed."""
    parts = [at for part in ("src", "specs", "proofs") for at in os.walk(f"{folder}/{part}")]
    return sum(os.path.getsize(f"{at}/{name}") for at, _, names in parts for name in names)


def crates_in_work():
    """The crates of this checkout in whose folders the prover runs now."""
    names = set()
    for number in filter(str.isdigit, os.listdir("/proc")):
        try:
            folder = os.readlink(f"/proc/{number}/cwd")
            with open(f"/proc/{number}/comm", encoding="utf-8") as file:
                is_prover = file.read().strip() == "rattle"
        except OSError:
            continue
        if is_prover and os.path.dirname(folder) == f"{TOP}/crates":
            names.add(os.path.basename(folder))
    return sorted(names)


class Work:
    """How much is proved, by the lines that `rt run` writes."""

    def __init__(self, weights):
        self.weights = weights
        self.left = dict(weights)
        self.name = None
        self.proved = 0

    def read(self, line):
        found = re.match(r"crate ([a-z0-9_]+)", line)
        if found:
            self.name = found[1]
        elif line.startswith("logic=proved"):
            self.proved += 1
            self.left.pop(self.name, None)

    def tell(self, seconds):
        """What is in work, and how long the rest takes if it goes on like this."""
        text = f"proved {self.proved} of {len(self.weights)} crates"
        names = crates_in_work()
        if names:
            text += f", in work: {', '.join(names)}"
        whole, left = sum(self.weights.values()), sum(self.left.values())
        if self.proved and seconds > 30 and left < whole:
            text += f", about {spell(seconds * left / (whole - left))} left"
        return text


def build_proved():
    _, module = kit()
    program = program_of(module)
    work = Work({it.name: weight_of(it.folder) for it in [*program.below(), program]})
    os.makedirs(f"{CRATE}/out", exist_ok=True)
    with Progress("shrinkers") as progress, open(LOG, "w", encoding="utf-8") as log:
        progress.say(f"proves {len(work.weights)} crates, which takes an hour or more if nothing is kept; {LOG} has what rt says")
        progress.ask(lambda: work.tell(progress.elapsed()))
        with started(["rt", "run"], stdout=-1, stderr=-2, text=True, errors="replace") as child:
            for line in child.stdout:
                log.write(line)
                log.flush()
                work.read(line)
            child.wait()
    if not os.access(PROGRAM, os.X_OK):
        raise Failed(f"not proved; {LOG} tells why")
    return 0
