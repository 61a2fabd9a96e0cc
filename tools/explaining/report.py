"""The parts of a report, each with the line that it stands on."""

from collections import namedtuple

Place = namedtuple("Place", "id node group")
# A counter that is used up: `lookups` with an id and a number, `list` with a place, entries and items, `charges` with two counts.
Spent = namedtuple("Spent", "kind place first second")
Found = namedtuple("Found", "id number entry line")
Pass = namedtuple("Pass", "len version nr asks closed scanned freed next ending spent")
Map = namedtuple("Map", "unit bits line")
Carry = namedtuple("Carry", "by place amount line")
Isolation = namedtuple("Isolation", "by place budget visits freed ending spent line")
Item = namedtuple("Item", "by birth key value marked pinned")
Registration = namedtuple("Registration", "kind decl id number line")
TreeEntry = namedtuple("TreeEntry", "kind group line")
Use = namedtuple("Use", "group operation up found by line")
Amount = namedtuple("Amount", "place amount line")
Bits = namedtuple("Bits", "node group unit bits line")
# An entry of a pool's journal: `release` with units, `grab` with got, `reclaim` with its walk, what it asked and freed.
UnitsEntry = namedtuple("UnitsEntry", "kind by number asked freed line")
Try = namedtuple("Try", "kind len version run line")

TENANT = ("add", "look", "drop", "pin", "unpin")


class Answer:
    """The answer to a command: its kind, its numbers, and the cache that was found."""

    __slots__ = ("kind", "values", "value", "spent", "found", "line")

    def __init__(self, kind, values, line, value=None, spent=None):
        self.kind, self.values, self.line, self.value, self.spent = kind, values, line, value, spent
        self.found = None

    @property
    def cited(self):
        """The place and the number of the entry that it cites, or None."""
        return (Place(*self.values[:3]), self.values[3]) if self.kind in CITING else None

    @property
    def units_cited(self):
        """The same of an entry of a pool's journal."""
        return (Place(self.values[0], self.values[1], 0), self.values[2]) if self.kind in CITING_UNITS else None


CITING = ("added", "exists", "hit", "miss", "dropped", "pinned", "done")
CITING_UNITS = ("released", "grabbed", "bare")


class Attempt:
    """An attempt of a walk at an id: its outcome's kind, its lookup, its counts and its pass."""

    __slots__ = ("id", "kind", "number", "then", "seen", "counts", "run", "line")

    def __init__(self, of_id, kind, line, number=None, **parts):
        self.id, self.kind, self.line, self.number = of_id, kind, line, number
        self.then, self.seen, self.counts, self.run = (parts.get(name) for name in ("then", "seen", "counts", "run"))
        self.counts = self.counts or []

    @property
    def is_held(self):
        return self.kind not in ("worn", "gone")

    @property
    def is_clearing(self):
        return self.kind in ("cleared", "restoredskip", "restoredran") or (self.kind == "gone" and self.then != "root")


class Walk:
    """A walk of one group on one node."""

    __slots__ = ("by", "number", "group", "node", "priority", "nofs", "answer", "told", "maps", "attempts", "line")

    def __init__(self, by, words, line):
        self.by, self.line, self.maps, self.attempts = by, line, [], []
        self.number, self.group, self.node, self.priority, self.nofs, self.answer, self.told = words

    @property
    def freed_told(self):
        return 0 if self.answer == "offline" else self.told

    @property
    def is_cut(self):
        return self.answer == "memory"

    def place(self, of_id):
        return Place(of_id, self.node, self.group)


class PoolWalk:
    """A walk of the pools of units on one node."""

    __slots__ = ("by", "number", "node", "priority", "answer", "told", "tries", "line")

    def __init__(self, by, words, line):
        self.by, self.line, self.tries = by, line, []
        self.number, self.node, self.priority, self.answer, self.told = words


class Entry:
    """An entry of a list's journal."""

    __slots__ = (
        ("kind", "by", "birth", "key", "value", "outcome", "walk", "asked", "policy", "visits", "freed", "objects", "line")
    )

    def __init__(self, kind, line, **parts):
        self.kind, self.line = kind, line
        for name in self.__slots__[1:-1]:
            setattr(self, name, parts.get(name))


class List:
    """A list that is printed: its journal and its items."""

    __slots__ = ("place", "entries", "items", "item_lines", "line")

    def __init__(self, place, line):
        self.place, self.line = place, line
        self.entries, self.items, self.item_lines = [], [], []


class Units:
    """The journal of a pool on a node."""

    __slots__ = ("place", "free", "entries", "line")

    def __init__(self, place, free, line):
        self.place, self.free, self.line, self.entries = place, free, line, []


class Part:
    """What one worker did."""

    __slots__ = ("answers", "walks", "carries", "plain", "isolations")

    def __init__(self):
        self.answers, self.walks, self.carries, self.plain, self.isolations = [], [], [], [], []


class Report:
    """All of it."""

    def __init__(self):
        self.version = self.nodes = self.ids = 0
        self.groups, self.caches, self.pools = [], [], []
        self.pool, self.tree, self.workers, self.lists, self.units = [], [], [], [], []
        self.bits, self.deferred, self.pool_deferred, self.uses, self.lookups = [], [], [], [], []
        self.added = self.freed = self.listed = 0
        # The lines of sections without a row of their own.
        self.lines = {}

    def part(self, worker):
        return self.workers[worker] if worker < len(self.workers) else Part()
