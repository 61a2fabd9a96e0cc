"""A script and its report, with what the laws look up: answers by their serials, journals, operations, registrations."""

from collections import Counter, defaultdict, namedtuple
from functools import cached_property

from explaining.lists import Journals
from explaining.registrations import Registrations
from explaining.report import TENANT, Place

# Where a law is broken: its field, a sentence, and the lines of the report that show it, the first of which is the place.
Break = namedtuple("Break", "field told lines")
FIRST_ISOLATION = 2**63


class Case:
    """A script and its report."""

    def __init__(self, script, report):
        self.script, self.report = script, report
        self.parents = [group.parent for group in script.groups]
        self.journals = Journals(report, self.parents)
        self.walks = [walk for part in report.workers for walk in part.walks]
        self.carries = [carry for part in report.workers for carry in part.carries]
        self.pool_walks = [walk for part in report.workers for walk in part.plain]
        self.on = [number for number, cache in enumerate(script.caches) if cache.on]
        self.of_command = {}
        for part in report.workers:
            for name in ("walks", "carries", "plain", "isolations"):
                for row in getattr(part, name):
                    self.of_command.setdefault((name, row.by), []).append(row)
        self.registrations = Registrations(report)
        self.units = {}
        for found in report.units:
            self.units.setdefault(found.place, found)
        self.scans_of, self.drained, self.free_units = {}, {}, {}
        for place, number, entry in self.each_entry():
            if entry.kind == "scan":
                self.scans_of.setdefault((place, entry.walk), []).append((number, entry))
            elif entry.kind == "drained":
                self.drained.setdefault(entry.by, []).append((place, entry))
        self.uses_of, self.uses_by = defaultdict(list), defaultdict(list)
        for use in report.uses:
            self.uses_of[use.group].append(use)
            self.uses_by[use.by, use.group].append(use)

    # ---- commands and answers

    def commands(self, worker):
        return self.script.workers[worker] if worker < len(self.script.workers) else []

    def command(self, by):
        commands = self.commands(by[0])
        return commands[by[1]] if by[1] < len(commands) else None

    def answer(self, by):
        answers = self.report.part(by[0]).answers
        return answers[by[1]] if by[1] < len(answers) else None

    def each_answer(self):
        """Each command that has an answer, with its serial."""
        for worker, part in enumerate(self.report.workers):
            for number, (command, answer) in enumerate(zip(self.commands(worker), part.answers)):
                yield (worker, number), command, answer

    def rows_of(self, name, by):
        """The walks, the carries, the walks of the pools or the isolations of a command."""
        return self.of_command.get((name, by), [])

    # ---- groups

    def path(self, group):
        """A group, its parent, and so on to the root."""
        found = [group]
        while group:
            group = self.parents[group] if group < len(self.parents) else 0
            found.append(group)
        return found

    def is_at_or_above(self, group, below):
        return group in self.path(below)

    def children(self, group):
        return [child for child in range(1, len(self.parents)) if self.parents[child] == group]

    def preorder(self, group):
        found = [group]
        for child in self.children(group):
            found += self.preorder(child)
        return found

    def is_later(self, group):
        return group < len(self.script.groups) and self.script.groups[group].later

    def limit(self, group):
        return self.script.groups[group].limit if group < len(self.script.groups) else None

    def is_there(self, place):
        return place.id < self.script.ids and place.node < self.script.nodes and place.group < len(self.parents)

    # ---- entries

    def each_entry(self):
        """Each entry of each list that is found by its place, with its place and number."""
        for place, found in self.journals.lists.items():
            for number, entry in enumerate(found.entries):
                yield place, number, entry

    def scanner(self, entry):
        """The walk or the isolation of a Scan entry, or None."""
        worker, number = entry.walk
        part = self.report.part(worker)
        rows, number = (part.walks, number) if number < FIRST_ISOLATION else (part.isolations, number - FIRST_ISOLATION)
        return rows[number] if number < len(rows) else None

    def entry_by(self, entry):
        """The command of an entry; that of a Scan is its walk's or its isolation's."""
        if entry.kind == "scan":
            found = self.scanner(entry)
            return found.by if found else None
        return entry.by if entry.kind in TENANT or entry.kind == "drained" else None

    # ---- what answers have as their cause

    @cached_property
    def puts(self):
        """How many commands are puts."""
        return sum(command.verb == "put" for commands in self.script.workers for command in commands)

    def worker_uses(self, worker):
        """How many charges and uncharges a worker made."""
        ways = [use.up for use in self.report.uses if use.by[0] == worker]
        return ways.count(True), ways.count(False)

    @cached_property
    def all_offlines(self):
        found = defaultdict(list)
        for by, command, answer in self.each_answer():
            if command.verb == "offline":
                found[command.words["group"]].append((by, answer.kind))
        return found

    def offlines(self, group, kinds):
        """The serials of the `offline` commands of a group that are answered so."""
        return [by for by, kind in self.all_offlines.get(group, ()) if kind in kinds]

    @cached_property
    def moved_from(self):
        """How many objects were moved in from the lists of each group."""
        counts = Counter()
        for _, _, entry in self.each_entry():
            if entry.kind == "moved":
                counts[entry.birth] += entry.objects
        return counts

    def units_entries(self, place):
        """The journal of a pool on a node."""
        return self.units[place].entries if place in self.units else []

    def free_at(self, place, count):
        """How many units were free after so many entries."""
        if place not in self.free_units:
            free = self.free_units[place] = [0]
            for entry in self.units_entries(place):
                free.append(free_after(free[-1], entry))
        return self.free_units[place][min(count, len(self.units_entries(place)))]

    # ---- words for people

    def lookups_line(self, of_id):
        return self.report.lines["total"] - self.report.ids + of_id

    def group(self, group):
        path = self.script.groups[group].path.decode() if group < len(self.script.groups) else "not there"
        return f"group {group} ({path})"

    def place(self, place):
        return f"id {place.id}, node {place.node}, {self.group(place.group)}"

    def told_command(self, by):
        command = self.command(by)
        told = f"`{command.verb}`, line {command.line} of the script" if command else "not in the script"
        return f"command {by[1]} of worker {by[0]} ({told})"

    def line_of(self, place):
        found = self.journals.lists.get(place)
        return found.line if found else None


def free_after(free, entry):
    """How many units of a pool are free after an entry."""
    if entry.kind == "release":
        return free + entry.number
    return max(free - (entry.number if entry.kind == "grab" else entry.freed), 0)


def group_named(command):
    return command.words.get("group")


def decl_named(command):
    return command.words.get("cache")


def is_pool_verb(command):
    return command.verb in ("release", "grab")


def home(script, pool, node):
    """The place of a pool on a node: a flat pool keeps all at node 0."""
    flat = pool < len(script.pools) and script.pools[pool].flat
    return Place(pool, 0 if flat else node, 0)


def first_apart(left, right):
    """Where two lists first differ."""
    return next((at for at, pair in enumerate(zip(left, right)) if pair[0] != pair[1]), min(len(left), len(right)))
