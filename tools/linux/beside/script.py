"""Scripts, as far as they are compared."""

from dataclasses import dataclass, field

from beside.fault import Fault

# each command with the number of its words
COMMANDS = {
    "put": 6, "get": 5, "del": 5, "pin": 5, "unpin": 5, "shrink": 5, "balance": 4, "offline": 2, "mkgroup": 2,
    "register": 2, "unregister": 2, "release": 4, "grab": 3, "isolate": 5,
}  # fmt: skip
TENANT = ("put", "get", "del", "pin", "unpin", "isolate")
DECLARATIONS = {"group": 3, "later": 3, "cache": 8, "pool": 6, "worker": 1}
OF_POOLS = ("pool", "release", "grab")
VERSIONS = {"shrinkers 1": 1, "shrinkers 2": 2}


@dataclass
class Cache:
    """A cache that a script declares."""

    name: str
    policy: str
    seeks: int
    batch: int
    floor: int
    fs: bool
    on: bool


@dataclass
class Pool:
    """A pool of units that a script declares."""

    name: str
    seeks: int
    batch: int
    floor: int
    flat: bool
    fs = False  # a pool has units to give whatever may not be entered


@dataclass
class Script:
    """A script: groups, caches and pools by number, and the words of each worker's commands."""

    version: int = 1
    nodes: int = 0
    ids: int = 0
    paths: list = field(default_factory=lambda: ["/"])
    parents: list = field(default_factory=lambda: [0])
    limits: list = field(default_factory=lambda: [None])
    later: list = field(default_factory=lambda: [False])
    caches: list = field(default_factory=list)
    pools: list = field(default_factory=list)
    workers: list = field(default_factory=list)

    def group(self, path):
        """The number of a group."""
        return self.paths.index(path)

    def cache(self, name):
        """The number of a cache."""
        return next(number for number, cache in enumerate(self.caches) if cache.name == name)

    def pool(self, name):
        """The number of a pool."""
        return next(number for number, pool in enumerate(self.pools) if pool.name == name)

    def units(self):
        """How many words of 64 bits the ids take."""
        return (self.ids + 63) // 64

    def subtree(self, top):
        """A group and those below it."""
        return set(self.preorder(top))

    def busy(self):
        """The workers that have commands."""
        return [number for number, commands in enumerate(self.workers) if commands]

    def preorder(self, top):
        """A group and those below it, children in rising order."""
        below = [group for group in range(1, len(self.paths)) if self.parents[group] == top]
        return [top] + [group for child in below for group in self.preorder(child)]


def read_script(path, text):
    """The script that a text spells, or a fault that names the line."""
    lines = text.split("\n")
    script = Script()
    if lines[0] not in VERSIONS:
        raise Fault(f"{path}: begins with `{lines[0][:40]}`; `shrinkers 1` and `shrinkers 2` are what is compared")
    script.version = VERSIONS[lines[0]]
    for number, line in enumerate(lines[1:-1], 2):
        words = line.split(" ")
        try:
            if line == "end":
                break
            read_line(script, number, words)
        except (ValueError, StopIteration, IndexError) as error:
            said = error if isinstance(error, SayingError) else f"`{line[:60]}` is no line of a script"
            raise Fault(f"{path}, line {number}: {said}") from None
    else:
        raise Fault(f"{path}: not a whole script, its last line isn't `end`")
    return script


class SayingError(ValueError):
    """A fault of a line that says what it is."""


def read_line(script, number, words):
    """Takes one line into the script."""
    first = words[0]
    if number == 2:
        if first != "size":
            raise SayingError("`size NODES IDS` is wanted")
        script.nodes, script.ids = int(words[1]), int(words[2])
        return
    if (first in OF_POOLS or first == "isolate") and script.version == 1:
        raise SayingError(f"`{first}` isn't compared in version 1")
    wanted = COMMANDS.get(first) or DECLARATIONS.get(first)
    if wanted is None:
        known = ", ".join(list(DECLARATIONS) + list(COMMANDS))
        raise SayingError(f"`{first[:40]}` isn't compared; these are: {known}")
    if len(words) != wanted:
        raise SayingError(f"`{first}` has {wanted} words in what is compared, and here {len(words)}")
    if first in ("group", "later"):
        script.parents.append(script.group(words[1].rsplit("/", 1)[0] or "/"))
        script.paths.append(words[1])
        script.limits.append(None if words[2] == "max" else int(words[2]))
        script.later.append(first == "later")
    elif first == "cache":
        read_cache(script, words)
    elif first == "pool":
        script.pools.append(Pool(words[1], *map(int, words[2:5]), flat=words[5] == "flat"))
    elif first == "worker":
        script.workers.append([])
    else:
        read_command(script, words)


def read_cache(script, words):
    """Takes the line of a cache."""
    if words[2] not in ("plain", "clock", "halt"):
        raise SayingError(f"the policy `{words[2][:40]}` isn't compared; plain, clock and halt are")
    numbers = [int(word) for word in words[3:6]]
    script.caches.append(Cache(words[1], words[2], *numbers, fs=words[6] == "fs", on=words[7] == "on"))


def read_command(script, words):
    """Takes a command of the last worker; the group, the cache or the pool that it names must be there."""
    first = words[0]
    if first in TENANT:
        script.group(words[1]), int(words[2]), script.cache(words[3])
        if first == "isolate":
            int(words[4])
    elif first == "shrink":
        script.group(words[1]), int(words[2]), int(words[3])
    elif first == "balance":
        int(words[1]), int(words[2])
    elif first in ("offline", "mkgroup"):
        script.group(words[1])
    elif first in OF_POOLS:
        script.pool(words[2]), [int(word) for word in (words[1], *words[3:])]
    else:
        script.cache(words[1])
    script.workers[-1].append(words)
