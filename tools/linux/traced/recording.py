"""What the events of a trace tell: walks with their passes, bits that are set, groups that go away."""

import re

from traced.arithmetic import Row
from traced.lines import unreadable
from traced.observer import Observer

EMPTY = -2  # SHRINK_EMPTY, as a signed number
NUMA_AWARE, MEMCG_AWARE = 4, 8

START = re.compile(
    r"(?P<function>.+?) (?P<pointer>\S+): nid: (?P<node>-?\d+) objects to shrink (?P<nr>-?\d+) gfp_flags (?P<gfp>.+?)"
    r" cache items (?P<count>\d+) delta (?P<delta>\d+) total_scan (?P<total>-?\d+) priority (?P<priority>-?\d+)"
)
END = re.compile(
    r"(?P<function>.+?) (?P<pointer>\S+): nid: (?P<node>-?\d+) unused scan count (?P<nr>-?\d+)"
    r" new scan count (?P<new>-?\d+) total_scan (?P<left>-?\d+) last shrinker return val (?P<freed>-?\d+)"
)
PAIRS = re.compile(r"(\w+)=(\S+)")
# what each probe must have
PROBES = {
    "pass": ("shrinker", "count", "id", "seeks", "batch", "flags", "nid", "memcg", "group", "priority"),
    "passed": ("ret",),
    "walk": ("nid", "memcg", "group", "priority"),
    "walked": ("ret",),
    "splice": ("memcg", "group", "parent", "above"),
    "carry": ("memcg", "group"),
    "carried": (),
    "setbit": ("memcg", "group", "nid", "id", "kid", "own"),
    "registered": ("shrinker", "id"),
    "freed": ("shrinker", "id"),
}
# the names of flags that let a walk enter a file system
WITH_FS = frozenset(
    "GFP_KERNEL GFP_KERNEL_ACCOUNT GFP_USER GFP_HIGHUSER GFP_HIGHUSER_MOVABLE GFP_TRANSHUGE GFP_TRANSHUGE_LIGHT"
    " __GFP_FS".split()
)


class Pass:
    """A call of do_shrink_slab: by the probe, by the two tracepoints, or by both."""

    def __init__(self, event, probe):
        self.line, self.time, self.task = event.line, event.time, event.task
        self.has_probe = probe is not None
        self.start = self.end = self.row = self.nr = self.new = self.freed = self.returned = None
        self.gfp = self.pointer = ""
        self.seeks = self.batch = self.id = None
        # of a second count in a walk, the pass that counted first and said EMPTY
        self.first = None
        self.memcg, self.group, self.function = "0x0", None, ""
        if probe:
            self.id, self.seeks, self.batch = int(probe["id"]), int(probe["seeks"]), int(probe["batch"])
            self.flags, self.node, self.priority = int(probe["flags"], 16), int(probe["nid"]), int(probe["priority"])
            self.memcg, self.group, self.shrinker = probe["memcg"], probe["group"], probe["shrinker"]
            self.function = kind_of(probe["count"])
            self.of_group = bool(self.flags & MEMCG_AWARE) and not is_null(self.memcg)

    def begin(self, event, found):
        """Takes over what mm_shrink_slab_start says."""
        self.start, self.pointer, self.gfp = event.line, found["pointer"], found["gfp"]
        self.function = kind_of(found["function"])
        self.nr, self.count, self.delta, self.total = (int(found[it]) for it in ("nr", "count", "delta", "total"))
        if not self.has_probe:
            self.node, self.priority = int(found["node"]), int(found["priority"])

    def finish(self, event, found):
        """Takes over what mm_shrink_slab_end says."""
        self.end, self.new, self.left, self.freed = event.line, int(found["new"]), int(found["left"]), int(found["freed"])
        numbers = (self.count, self.nr, self.priority, self.seeks, self.batch, self.delta, self.total, self.left)
        self.row = Row(*numbers, self.new)

    @property
    def word(self):
        """Which deferred word it takes and gives back."""
        if not self.has_probe:
            return self.pointer, self.node
        node = self.node if self.flags & NUMA_AWARE else 0
        return (self.id, node, self.memcg) if self.of_group else (self.shrinker, node)

    @property
    def name(self):
        """Which row of the table it belongs to: the kind, the id and the group."""
        return (self.function, self.id if self.has_probe and self.of_group else self.pointer_of(), self.group)

    def pointer_of(self):
        return self.shrinker if self.has_probe else self.pointer


class Walk:
    """A call of shrink_slab."""

    def __init__(self, event, probe):
        self.line, self.time, self.task = event.line, event.time, event.task
        self.node, self.priority = int(probe["nid"]), int(probe["priority"])
        self.memcg, self.group = probe["memcg"], probe["group"]
        self.passes, self.end, self.returned = [], None, None

    @property
    def of_group(self):
        """Whether it goes by the bits of a group; the root's, group 1, goes over all shrinkers."""
        return self.group not in ("0", "1") and not is_null(self.memcg)


def is_null(pointer):
    """Whether a pointer is NULL. What a probe reads behind it then is anything."""
    return not pointer.strip("0x")


def kind_of(function):
    """The kind of a shrinker by a function of its, as super_cache of super_cache_scan+0x0/0x1c0."""
    name = re.split(r"[+ ]", function, maxsplit=1)[0]
    return re.sub(r"_(shrink_)?(scan|count)$", "", name) or name


def is_nofs(gfp):
    """Whether a walk with these flags may not enter a file system: GFP_NOFS, GFP_NOIO."""
    return WITH_FS.isdisjoint(gfp.split("|"))


def heard_by(observers, name):
    """The calls of those observers that want to hear of something."""
    for observer in observers:
        if getattr(type(observer), name) is not getattr(Observer, name):
            yield getattr(observer, name)


class Recording:
    """Puts the events of a trace together, task by task."""

    def __init__(self, path, observers):
        self.path = path
        self.stacks, self.carries, self.parents = {}, {}, {}
        self.events = self.missed = self.unmatched = 0
        self.heard = {name: list(heard_by(observers, name)) for name in vars(Observer) if not name.startswith("_")}
        self.calls = {name: getattr(self, f"on_{name}") for name in PROBES}
        self.calls |= {"mm_shrink_slab_start": self.on_start, "mm_shrink_slab_end": self.on_end}
        self.calls |= {"mark_victim": self.on_victim, "tracing_mark_write": self.on_mark, "LOST": self.on_lost}

    def hear(self, events):
        for event in events:
            self.events += 1
            call = self.calls.get(event.name)
            if call:
                try:
                    call(event)
                except ValueError:
                    wanted = f"numbers where an event {event.name} has them"
                    raise unreadable(self.path, event.line, event.text, wanted) from None

    def tell(self, name, *words):
        for call in self.heard[name]:
            call(*words)

    def probe_of(self, event):
        """The named values of a probe's event."""
        found = dict(PAIRS.findall(event.text))
        lacking = [name for name in PROBES[event.name] if name not in found]
        if lacking:
            wanted = f"an event {event.name} of tools/linux/guest/probes, which has {', '.join(lacking)}"
            raise unreadable(self.path, event.line, event.text, wanted)
        return found

    def return_of(self, event):
        """The value of a probe that shows a return."""
        text = event.text.rpartition("ret=")[2]
        return int(text) if text.lstrip("-").isdigit() else int(self.probe_of(event)["ret"])

    def top(self, task, kind):
        """What a task is in the middle of, if it is of a kind."""
        stack = self.stacks.get(task)
        return stack[-1] if stack and isinstance(stack[-1], kind) else None

    def drop_pass(self, task, line):
        """Ends a pass whose return no event shows."""
        made = self.top(task, Pass)
        if made:
            self.stacks[task].pop()
            if made.has_probe:
                self.missed += 1
                self.tell("returned", made, line)

    def on_walk(self, event):
        self.drop_pass(event.task, event.line)
        left = self.top(event.task, Walk)
        if left:
            self.missed += 1
            self.tell("left", left)
        walk = Walk(event, self.probe_of(event))
        self.stacks[event.task] = [walk]
        self.tell("entered", walk)

    def on_walked(self, event):
        self.drop_pass(event.task, event.line)
        walk = self.top(event.task, Walk)
        if walk is None:
            self.unmatched += 1
            return
        self.stacks[event.task].pop()
        walk.end, walk.returned = event.line, self.return_of(event)
        self.tell("walked", walk)

    def on_pass(self, event):
        self.drop_pass(event.task, event.line)
        made, walk = Pass(event, self.probe_of(event)), self.top(event.task, Walk)
        if walk:
            last = walk.passes[-1] if walk.passes else None
            if last and walk.of_group and last.id == made.id and last.returned == EMPTY and last.first is None:
                made.first = last
            walk.passes.append(made)
        self.stacks.setdefault(event.task, []).append(made)
        self.tell("called", made)

    def on_passed(self, event):
        made = self.top(event.task, Pass)
        if made is None or not made.has_probe:
            self.unmatched += 1
            self.tell("forgot", event)
            return
        self.stacks[event.task].pop()
        made.returned = self.return_of(event)
        self.tell("returned", made, event.line)

    def on_start(self, event):
        found = START.match(event.text)
        if not found:
            raise unreadable(self.path, event.line, event.text, "what mm_shrink_slab_start prints")
        made = self.top(event.task, Pass)
        if made is None or made.start:
            self.drop_pass(event.task, event.line)
            made = Pass(event, None)
            self.stacks.setdefault(event.task, []).append(made)
        made.begin(event, found)
        made.traced_node, made.traced_priority = int(found["node"]), int(found["priority"])
        self.tell("started", made)

    def on_end(self, event):
        found = END.match(event.text)
        if not found:
            raise unreadable(self.path, event.line, event.text, "what mm_shrink_slab_end prints")
        made = self.top(event.task, Pass)
        if made is None or not made.start or made.end:
            self.unmatched += 1
            self.tell("forgot", event)
            return
        made.finish(event, found)
        made.unused, made.end_pointer = int(found["nr"]), found["pointer"]
        self.tell("ended", made)
        if not made.has_probe:
            self.stacks[event.task].pop()
            self.tell("returned", made, event.line)

    def on_setbit(self, event):
        self.tell("set_bit", event, self.probe_of(event))

    def on_splice(self, event):
        probe = self.probe_of(event)
        self.parents[probe["memcg"]] = probe["parent"]
        self.tell("handed", event, probe)

    def on_carry(self, event):
        self.carries[event.task] = self.probe_of(event)

    def on_carried(self, event):
        probe = self.carries.pop(event.task, None)
        if probe and probe["memcg"] in self.parents:
            self.tell("carried", event, probe | {"parent": self.parents[probe["memcg"]]})
        else:
            self.tell("forgot", event)

    def on_registered(self, event):
        self.tell("came", event, self.probe_of(event))

    def on_freed(self, event):
        self.tell("went", event, self.probe_of(event))

    def on_victim(self, event):
        self.tell("killed", event)

    def on_mark(self, event):
        self.tell("marked", event)
        if event.text.strip() == "gap":
            self.on_lost(event)

    def on_lost(self, event):
        self.stacks.clear()
        self.carries.clear()
        self.tell("forgot", event)
