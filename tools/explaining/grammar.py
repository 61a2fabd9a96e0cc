"""Reads a script: the lines that may stand where, and the first bad one."""

from collections import namedtuple

from explaining.words import (
    AWARE, BATCH, BUDGET, CACHES, CACHE_KIND, FLOOR, GROUPS, KEYS, KIND, LATER_GROUPS, NAMES, PATHS, POLICY, POOLS,
    PRIORITY, SEEKS, START, UNITS, VALUES, Fault, Limit, Listed, Number,
)

LONGEST = 4_194_304
MOST_CACHES, MOST_POOLS, MOST_WORKERS, MOST_COMMANDS = 250, 64, 64, 20_000
VERBS = (
    b"put", b"get", b"del", b"pin", b"unpin", b"shrink", b"balance", b"offline", b"mkgroup", b"register", b"unregister",
    b"isolate", b"release", b"grab",
)
DECLARATIONS = (b"group", b"later", b"cache", b"pool")
KINDS = (b"shrinkers", b"size", *DECLARATIONS, b"worker", b"sweep", b"end", *VERBS)
OF_VERSION_2 = (b"pool", b"release", b"grab", b"isolate", b"sweep")

Group = namedtuple("Group", "path parent limit later line")
Cache = namedtuple("Cache", "name policy seeks batch floor fs on line")
Pool = namedtuple("Pool", "name seeks batch floor flat line")
# A command's verb, the values of its words by their names, and its line.
Command = namedtuple("Command", "verb words line")
Sweep = namedtuple("Sweep", "priority nofs line")


class Script:
    """What the lines so far have said."""

    def __init__(self):
        self.phase = "start"
        self.version = self.nodes = self.ids = 0
        self.groups = [Group(b"/", 0, None, False, 0)]
        self.caches, self.pools, self.workers = [], [], []
        self.sweep = None
        self.on = self.commands = 0
        self.group_of, self.cache_of, self.pool_of = {b"/": 0}, {}, {}
        self.later = [False]
        self.ended = 0

    @property
    def most_ids(self):
        return 256 if self.version == 2 else 64

    @property
    def most_groups(self):
        return 256 if self.version == 2 else 64


def parent_path(path):
    return path.rpartition(b"/")[0] or b"/"


def words_of_objects(script):
    group = Listed(GROUPS, "UnknownGroup", script.group_of)
    return (group, node_of(script), Listed(CACHES, "UnknownCache", script.cache_of))


def node_of(script):
    return Number("NODE", 0, script.nodes - 1)


def classes_of(script, kind):
    """The classes of a line's words behind the first."""
    return FORMS[kind](script)


FORMS = {
    b"shrinkers": lambda s: (Number("VERSION", 1, 2),),
    b"size": lambda s: (Number("NODES", 1, 4), Number("IDS", 1, s.most_ids)),
    b"group": lambda s: (PATHS, Limit()),
    b"later": lambda s: (PATHS, Limit()),
    b"cache": lambda s: (NAMES, POLICY, SEEKS, BATCH, FLOOR, CACHE_KIND, START),
    b"pool": lambda s: (NAMES, SEEKS, BATCH, FLOOR, AWARE),
    b"worker": lambda s: (),
    b"sweep": lambda s: (PRIORITY, KIND),
    b"end": lambda s: (),
    b"put": lambda s: (*words_of_objects(s), KEYS, VALUES),
    b"get": lambda s: (*words_of_objects(s), KEYS),
    b"del": lambda s: (*words_of_objects(s), KEYS),
    b"pin": lambda s: (*words_of_objects(s), KEYS),
    b"unpin": lambda s: (*words_of_objects(s), KEYS),
    b"shrink": lambda s: (Listed(GROUPS, "UnknownGroup", s.group_of), node_of(s), PRIORITY, KIND),
    b"balance": lambda s: (node_of(s), PRIORITY, KIND),
    b"offline": lambda s: (Listed(GROUPS, "UnknownGroup", s.group_of),),
    b"mkgroup": lambda s: (Listed(LATER_GROUPS, "UnknownGroup", s.group_of, s.later),),
    b"register": lambda s: (Listed(CACHES, "UnknownCache", s.cache_of),),
    b"unregister": lambda s: (Listed(CACHES, "UnknownCache", s.cache_of),),
    b"isolate": lambda s: (*words_of_objects(s), BUDGET),
    b"release": lambda s: (node_of(s), Listed(POOLS, "UnknownCache", s.pool_of), UNITS),
    b"grab": lambda s: (node_of(s), Listed(POOLS, "UnknownCache", s.pool_of)),
}


def misplaced(phase, kind):
    """Why a line of a kind may not stand here, or None."""
    if phase == "start":
        return None if kind == b"shrinkers" else "BadHeader"
    if phase == "size":
        return None if kind == b"size" else "BadHeader"
    if phase == "swept":
        return None if kind == b"end" else "UnknownWord"
    if phase == "workers":
        return None if kind in (b"worker", b"sweep", b"end", *VERBS) else "UnknownWord"
    if kind in (b"cache", b"pool", b"worker", b"end"):
        return "UnknownWord" if phase == "pools" and kind == b"cache" else None
    if kind in (b"group", b"later"):
        return None if phase == "groups" else "UnknownWord"
    return "UnknownWord" if kind in (b"shrinkers", b"size") else "NoWorker"


def allowed(script):
    """The first words that may stand here, in the order of a script."""
    return [
        kind for kind in KINDS
        if misplaced(script.phase, kind) is None and (script.version == 2 or kind not in OF_VERSION_2)
    ]


def kind_at(script, word):
    """The kind of a line by its first word."""
    unknown = "BadHeader" if script.phase in ("start", "size") else "UnknownWord"
    if word not in KINDS or (word in OF_VERSION_2 and script.version != 2):
        raise Fault(unknown)
    code = misplaced(script.phase, word)
    if code:
        raise Fault(code)
    return word


def values_of(classes, words):
    """The values of the words behind the first, or the first fault."""
    values = []
    for at, word_class in enumerate(classes, 1):
        if at >= len(words):
            raise Fault("Missing", at, word_class)
        try:
            values.append(word_class.take(words[at]))
        except Fault as fault:
            raise Fault(fault.code, at, word_class) from None
    if len(words) > len(classes) + 1:
        raise Fault("Trailing", len(classes) + 1)
    return values


def refuse(bad, code, at):
    if bad:
        raise Fault(code, at)


def add_group(script, kind, values, line):
    path, limit = values
    late, parent = kind == b"later", script.group_of.get(parent_path(path))
    lost = path != b"/" and (parent is None or (script.later[parent] and not late))
    refuse(lost, "NoParent", 1)
    refuse(path in script.group_of, "Exists", 1)
    refuse(len(script.groups) >= script.most_groups, "TooMany", 0)
    script.group_of[path] = len(script.groups)
    script.groups.append(Group(path, parent, limit, late, line))
    script.later.append(late)


def add_cache(script, values, line):
    name, policy, seeks, batch, floor, fs, on = values
    refuse(name in script.cache_of, "Exists", 1)
    refuse(len(script.caches) >= MOST_CACHES, "TooMany", 0)
    refuse(script.on + on > script.ids, "TooMany", 7)
    script.phase = "caches"
    script.on += on
    script.cache_of[name] = len(script.caches)
    script.caches.append(Cache(name, POLICY.words[policy].decode(), seeks, batch, floor, fs == 1, on == 1, line))


def add_pool(script, values, line):
    name, seeks, batch, floor, flat = values
    refuse(name in script.pool_of, "Exists", 1)
    refuse(len(script.pools) >= MOST_POOLS, "TooMany", 0)
    script.phase = "pools"
    script.pool_of[name] = len(script.pools)
    script.pools.append(Pool(name, seeks, batch, floor, flat == 1, line))


def add_worker(script):
    refuse(len(script.workers) >= MOST_WORKERS, "TooMany", 0)
    script.phase = "workers"
    script.workers.append([])


def add_command(script, kind, classes, values, line):
    refuse(script.commands >= MOST_COMMANDS, "TooMany", 0)
    script.commands += 1
    names = [word_class.name.lower() for word_class in classes]
    script.workers[-1].append(Command(kind.decode(), dict(zip(names, values)), line))


def add_line(script, words, line):
    """Takes one line, or raises its fault."""
    kind = kind_at(script, words[0])
    classes = classes_of(script, kind)
    values = values_of(classes, words)
    if kind == b"shrinkers":
        script.version, script.phase = values[0], "size"
    elif kind == b"size":
        (script.nodes, script.ids), script.phase = values, "groups"
    elif kind in (b"group", b"later"):
        add_group(script, kind, values, line)
    elif kind == b"cache":
        add_cache(script, values, line)
    elif kind == b"pool":
        add_pool(script, values, line)
    elif kind == b"worker":
        add_worker(script)
    elif kind == b"sweep":
        script.sweep, script.phase = Sweep(*values, line), "swept"
    elif kind == b"end":
        script.phase, script.ended = "done", line
    else:
        add_command(script, kind, classes, values, line)


def read_script(data, script=None):
    """The script that bytes spell; raises the fault of the first bad line.

    With `script` given it is filled, so that whoever takes the fault knows what the lines before it said.
    """
    script = script or Script()
    parts = data.split(b"\n")
    for line, part in enumerate(parts, 1):
        try:
            if script.phase == "done":
                refuse(line < len(parts) or part != b"", "Trailing", 0)
                return script
            refuse(line == len(parts), "NoEnd", 0)
            add_line(script, part.split(b" "), line)
        except Fault as fault:
            fault.line = line
            if line == 1 and fault.code != "NoEnd":
                fault.code = "BadHeader"
            raise
    raise AssertionError("the last part has no line feed, so it was judged above")
