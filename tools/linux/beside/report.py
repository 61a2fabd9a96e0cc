"""Reports of any number of workers, as far as they are checked."""

from dataclasses import dataclass, field

from beside.fault import FORMLESS, Fault

TOLD = (
    "held", "gone", "set", "clear", "root", "skip", "ran", "empty", "cleared", "restored", "through", "stop", "noroom",
    "worn", "lookups", "list", "charges",
)  # fmt: skip
ENTRIES = ("add", "look", "drop", "pin", "unpin", "scan", "moved", "closed", "drained")
ENTRIES_OF_POOLS = {"release": 4, "grab": 4, "reclaim": 5}  # with the number of their words
TOTALS = {"item": 3, "reply": 4, "walk": 5}  # the word of the last line but one that counts the lines of a kind


@dataclass
class Attempt:
    """An attempt of a walk, with the worker and the words of the walk."""

    line: int
    worker: str
    walk: list
    id: int
    words: list  # after the word try

    def place(self):
        """The list that was counted."""
        return self.id, int(self.walk[3]), int(self.walk[2])

    def run(self):
        """The words of its pass, or None."""
        return self.words[self.words.index("ran") + 1 :] if "ran" in self.words else None


@dataclass
class Listed:
    """A list: its journal, as lines with their numbers, and its items."""

    line: int = 0
    entries: list = field(default_factory=list)
    items: list = field(default_factory=list)


@dataclass
class Units:
    """The units of a pool on a node: what is free at the end, and the journal, as lines with their numbers."""

    line: int
    free: int
    entries: list = field(default_factory=list)


@dataclass
class Report:
    """What is checked of a report."""

    lines: list
    # by id, each registration's first lookup, the one after its last, and its cache
    registered: dict = field(default_factory=dict)
    attempts: list = field(default_factory=list)
    lists: dict = field(default_factory=dict)
    # the isolations: number of the line, worker, and words
    isolations: list = field(default_factory=list)
    # the tries of walks of the pools, whose ids are pools, and the units by pool and node
    of_pools: list = field(default_factory=list)
    units: dict = field(default_factory=dict)
    # the printed bits by node, group and unit of 64 ids: number of the line, and the word
    bits: dict = field(default_factory=dict)


def read_report(path, text, script):
    """The report that a text spells, or a fault where it isn't whole or isn't one of this script."""
    if text.startswith("refused "):
        raise Fault(f"{path}: no report, its script was refused: {text.strip()[:60]}")
    if not text.startswith(f"report {script.version}\n"):
        begins = text.partition(chr(10))[0][:40]
        raise Fault(f"{path}: not a report of version {script.version}, it begins with `{begins}`")
    if not text.endswith("\nend\n"):
        raise Fault(f"{path}: not a whole report, its last line isn't `end`")
    lines = text.split("\n")[:-1]
    check_head(path, lines, script)
    report, walk, at, worker = Report(lines), None, None, None
    for number, line in enumerate(lines, 1):
        words = line.split(" ")
        try:
            if words[0] == "reply":
                worker = words[1]
            elif words[0] == "isolation":
                report.isolations.append((number, worker, words))
            elif words[0] == "walk":
                walk = [worker] + words[1:]
            elif words[0] == "plain":
                walk = [worker, words[1], "0", *words[2:4], "fs"]  # as a walk of the root
            elif words[0] == "list":
                at = report.lists.setdefault(tuple(map(int, words[1:4])), Listed(number))
            elif words[0] == "units":
                at = report.units.setdefault((int(words[1]), int(words[2])), Units(number, int(words[3])))
            else:
                read_line(report, number, words, walk, at)
        except FORMLESS:
            raise Fault(f"{path}, line {number}: `{line[:60]}` is no line of a report of this script") from None
    check_totals(path, lines)
    check_replies(path, lines, script)
    return report


def read_line(report, number, words, walk, at):
    """Takes one line that isn't the first of a walk or of a list."""
    if words[0] == "pool" and len(words) > 3:  # else it names a pool of units
        read_registration(report, words)
    elif words[0] == "try":
        report.attempts.append(read_attempt(number, words[1:], walk))
    elif words[0] == "pass":
        report.of_pools.append(read_attempt(number, [words[1], "0", "held", *words[2:]], walk))
    elif words[0] in ENTRIES:
        at.entries.append((number, words))
    elif words[0] in ENTRIES_OF_POOLS:
        at.entries.append((number, words[: ENTRIES_OF_POOLS[words[0]]]))
    elif words[0] == "bit":
        node, group, unit = int(words[1]), int(words[2]), int(words[3]) if len(words) == 5 else 0
        report.bits[(node, group, unit)] = number, int(words[-1], 16)
    elif words[0] == "item":
        at.items.append(f"{words[3]}:{words[4]}:{words[6]}:{words[7]}")


def read_attempt(number, words, walk):
    """An attempt, whose numbers are numbers."""
    for word in words:
        if word not in TOLD:
            int(word)
    return Attempt(number, walk[0], walk, int(words[0]), words)


def read_registration(report, words):
    """Takes an entry of the journal of registrations."""
    if words[2] == "registered":
        report.registered.setdefault(int(words[4]), []).append([int(words[5]), None, int(words[3])])
    elif words[2] == "unregistered":
        report.registered[int(words[4])][-1][1] = int(words[5])


def check_head(path, lines, script):
    """Faults where the report is another script's."""
    head = [f"size {script.nodes} {script.ids}"]
    head += [f"group {number} {name}" for number, name in enumerate(script.paths)]
    head += [f"cache {number} {cache.name}" for number, cache in enumerate(script.caches)]
    head += [f"pool {number} {pool.name}" for number, pool in enumerate(script.pools)]
    if lines[1 : len(head) + 1] != head:
        raise Fault(f"{path}: its sizes, groups, caches and pools aren't those of the script")


def check_totals(path, lines):
    """Faults where lines are missing amid a report."""
    total = lines[-2].split(" ")
    for kind, wanted in TOTALS.items():
        count = sum(line.startswith(f"{kind} ") for line in lines)
        if total[0] != "total" or len(total) != 6 or total[wanted] != str(count):
            raise Fault(f"{path}: not a whole report, `{lines[-2][:60]}` isn't the total of its {count} {kind} lines")


def check_replies(path, lines, script):
    """Faults where the answers aren't those to the commands of the script."""
    wanted = [f"{worker} {command}" for worker, words in enumerate(script.workers) for command in range(len(words))]
    if [" ".join(line.split(" ")[1:3]) for line in lines if line.startswith("reply ")] != wanted:
        raise Fault(f"{path}: its answers aren't those to the commands of the script")
