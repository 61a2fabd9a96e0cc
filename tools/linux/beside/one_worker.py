"""Runs a script of one busy worker on the kernel's code, and writes the whole report.

What the kernel's code decides: where an object is added and found again after offlining, what a scan visits, frees,
rotates and leaves, every number of a pass, which bits are set and cleared, what a walk tries, whether the second count
sets the bit again, the id that a registration gets, splicing, the parent's deferred words, charges and the group that
refuses. With one worker there is one lawful report, want of memory aside.
"""

from itertools import product

from beside.notes import Notes
from beside.pools import Pools
from beside.script import TENANT
from beside.walks import Walk

# the driver's word for a command of a tenant, and that of a journal
DRIVER_WORD = {"put": "add", "get": "look", "del": "drop", "pin": "pin", "unpin": "unpin"}


class Run:
    """A run of a script."""

    def __init__(self, kernel, script, choices):
        self.kernel, self.script, self.choices = kernel, script, choices
        busy = script.busy()
        self.worker = busy[0] if busy else 0
        self.notes, self.pools = Notes(script, self.worker), Pools(self)
        self.id_of, self.cache_at, self.since = {}, {}, {}
        self.closed = set()  # the groups whose lists were handed over
        self.command = self.isolations = 0
        self.lines, self.found = [], None  # of the command at hand

    def report(self):
        """The lines of the whole report."""
        self.open()
        body = []
        for self.command, words in enumerate(self.script.workers[self.worker] if self.script.workers else []):
            self.lines, self.found = [], None
            reply = self.reply(words)
            self.notes.replies += 1
            body.append(f"reply {self.worker} {self.command} {reply}")
            body += [self.found] if self.found else []
            body += self.lines
            if self.script.pools and (words[0] == "balance" or words[:2] == ["shrink", "/"]):
                body += self.pools.tell(*words[-3:-1])
        return self.head() + body + self.lists() + self.pools.units() + self.words() + self.ends()

    def open(self):
        """Makes the groups, and registers the caches that are on."""
        self.kernel.ask(f"reset {self.script.nodes}", *(f"group {parent}" for parent in self.script.parents[1:]))
        limits = ("max" if limit is None else limit for limit in self.script.limits)
        self.kernel.ask(*(f"limit {group} {limit}" for group, limit in enumerate(limits)))
        for number, cache in enumerate(self.script.caches):
            if cache.on:
                self.register(number)
        self.pools.open()

    def reply(self, words):
        """Makes one command; its answer."""
        verb = words[0]
        if verb in TENANT:
            return self.tenant(verb, self.script.group(words[1]), int(words[2]), self.script.cache(words[3]), words[4:])
        if verb == "shrink":
            freed = self.walk(self.script.group(words[1]), words[2], words[3], words[4])
            return f"walked {freed}" if freed is not None else self.lines[-1].split(" ", 6)[-1]
        if verb == "balance":
            freed = [self.walk(group, words[1], words[2], words[3]) for group in self.script.preorder(0)]
            return f"walked {sum(count or 0 for count in freed)}"
        if verb in ("offline", "mkgroup"):
            group = self.script.group(words[1])
            return self.offline(group) if verb == "offline" else self.make(group)
        if verb in ("release", "grab"):
            return self.pools.reply(words)
        cache = self.script.cache(words[1])
        return self.register(cache) if verb == "register" else self.unregister(cache)

    def walk(self, group, node, priority, kind):
        """Walks a group; how many objects it freed, None where the group is offline."""
        walk = Walk(self, (group, int(node), int(priority), kind))
        lines, freed = walk.tell()
        self.lines += lines
        for birth in walk.births:
            self.uncharge(birth)
        return freed

    def uncharge(self, birth):
        """An object less."""
        self.kernel.ask(f"uncharge {birth}")
        self.notes.uncharge(birth, self.command)

    def charge(self, group):
        """An object more; None, or the refusing group with the operation and the usage that it found."""
        said = self.kernel.say(f"charge {group}").split(" ")
        charged = []
        for level in self.notes.upwards(group):
            usage = self.notes.usage[level]
            operation = self.notes.operate(level, "+", self.command)
            charged.append(level)
            if said[0] == "refused" and int(said[1]) == level:
                for taken in charged:
                    self.notes.operate(taken, "-", self.command)
                return level, operation, usage
        assert said == ["charged"], said
        return None

    def admit(self, group):
        """Charges a group, with rounds of reclaim where it is refused."""
        refused = self.charge(group)
        for priority in range(12, -1, -1):
            if not refused:
                return None
            self.choices.apply("rounds")
            for node in range(self.script.nodes):
                for below in self.script.preorder(refused[0]):
                    self.walk(below, node, priority, "fs")
            refused = self.charge(group)
        return refused

    def tenant(self, verb, group, node, cache, rest):
        """A tenant's command; its answer."""
        if not self.notes.is_made(group):
            self.choices.apply("made before")
            return f"notmade {group}"
        if group in self.notes.begun:
            self.choices.apply("begun first")
            return f"offline {self.notes.begun[group]}"
        if verb == "put":
            refused = self.admit(group)
            if refused:
                return "over {} {} {}".format(*refused)
        if cache not in self.id_of:
            if verb == "put":
                self.uncharge(group)
            return f"nocache {len(self.notes.pool)}"
        number = self.id_of[cache]
        self.found = f"find {number} {self.notes.look_up(number)} {len(self.notes.pool)}"
        if verb == "isolate":
            return self.isolate((number, node, group), cache, int(rest[0]))
        said = self.kernel.say(f"{DRIVER_WORD[verb]} {cache} {group} {node} {rest[0]}")
        place = (number, node, self.notes.open_group(group))
        who = f"{DRIVER_WORD[verb]} {self.worker} {self.command} {group} {' '.join(rest)}"
        cited = self.notes.enter(place, f"{who} {said}")
        return self.answer(said, (cache, group, node, rest[0]), rest[1:], cited)

    def answer(self, said, of, value, cited):
        """A tenant's answer, once its call on the list was answered."""
        if said == "added":
            self.notes.added += 1
            self.notes.puts[of] = (self.command, value[0])
        elif said == "exists":
            self.uncharge(of[1])
        elif said == "dropped":
            self.notes.drop(*of)
            self.uncharge(of[1])
        elif said == "hit":
            return f"hit {cited} {self.notes.puts[of][1]}"
        return f"{said} {cited}"

    def isolate(self, place, cache, budget):
        """Visits the head of a list as often as the budget lets; the answer."""
        _, node, group = place
        number, visits, freed, end = 2**63 + self.isolations, 0, 0, ""
        self.isolations += 1
        while not end and visits < budget:
            _, visited, gone, ending, *objects = self.kernel.say(f"visit {cache} {group} {node}").split(" ")
            policy = self.script.caches[cache].policy
            self.notes.enter(place, f"scan {self.worker} {number} 1 {policy} {visited} {gone} {ending}")
            visits, freed = visits + int(visited), freed + int(gone)
            for birth, key in (named.split(":", 1) for named in objects):
                self.notes.drop(cache, int(birth), node, key)
                self.uncharge(int(birth))
            end = "bare" if visited == "0" else "stop" if ending == "stopped" else ""
        self.choices.apply("head again", visits)
        told = f"{visits} {freed} {end or 'spent'}"
        self.lines.append(f"isolation {' '.join(map(str, place))} {budget} {told}")
        return f"isolated {told}"

    def register(self, cache):
        """Registers a cache; the answer."""
        pool = self.notes.pool
        if cache in self.id_of:
            return f"alreadyregistered {len(pool)}"
        if len(self.id_of) == self.script.ids:
            return f"noid {len(pool)}"
        of = self.script.caches[cache]
        kind = "fs" if of.fs else "any"
        number = int(self.kernel.say(f"cache {cache} {of.policy} {of.seeks} {of.batch} {of.floor} {kind}").split(" ")[1])
        self.id_of[cache], self.cache_at[number] = number, cache
        self.since[cache] = self.notes.lookups[number]
        pool.append(f"registered {cache} {number} {self.since[cache]}")
        return f"registered {number} {len(pool) - 1}"

    def unregister(self, cache):
        """Unregisters a cache, whose lists are emptied; the answer."""
        pool = self.notes.pool
        if cache not in self.id_of:
            return f"nocache {len(pool)}"
        number = self.id_of[cache]
        held = {place: items for place, items in self.items().items() if place[0] == number}
        drained = sum(map(len, held.values()))
        for (_, node, group), items in sorted(held.items()):
            self.notes.enter((number, node, group), f"drained {self.worker} {self.command} {len(items)}")
            for birth, key, _, _ in items:
                self.notes.drop(cache, birth, node, key)
                self.uncharge(birth)
        said = self.kernel.say(f"unregister {cache}")
        assert said == f"drained {drained}", said
        self.choices.apply("drained")
        del self.id_of[cache], self.cache_at[number]
        until = self.notes.lookups[number]
        pool += [f"unregistered {cache} {number} {until}", f"idle {number}"]
        return f"freed {number} {len(pool) - 2} {self.since[cache]} {until} {drained}"

    def make(self, group):
        """Makes a group that is later; the answer."""
        notes, parent = self.notes, self.script.parents[group]
        if group in notes.made:
            return f"alreadymade {notes.made[group]}"
        if not notes.is_made(parent):
            return f"notmade {parent}"
        if parent in notes.begun:
            return f"offline {notes.begun[parent]}"
        return f"made {notes.note_tree('made', group, notes.made)}"

    def offline(self, group):
        """Takes a group offline; the answer."""
        notes = self.notes
        if group == 0:
            return "root"
        if group in notes.done:
            return f"alreadydone {notes.done[group]}"
        if not notes.is_made(group):
            return f"notmade {group}"
        for child in range(1, len(self.script.paths)):
            if self.script.parents[child] == group and notes.is_made(child) and child not in notes.done:
                return f"haschildren {child} {len(notes.tree)}"
        notes.note_tree("begin", group, notes.begun)
        moved = self.note_splices(group)
        before = self.deferred()
        self.kernel.ask(f"offline {group}")
        carried = self.note_carries(group, before, self.deferred())
        return f"done {notes.note_tree('done', group, notes.done)} {moved} {carried}"

    def note_splices(self, group):
        """Notes that each open list of a group and those below is handed to its parent's; how many objects of the group that
        moves. A group below that wasn't made has a list still, on which nothing stands."""
        held, moved = self.items(), 0
        closing = sorted((below for below in self.script.subtree(group) if below not in self.closed), reverse=True)
        self.closed.update(closing)
        for number in range(self.script.ids):
            for node in range(self.script.nodes):
                for below in closing:
                    count = len(held.get((number, node, below), ()))
                    assert below == group or count == 0, (below, count)
                    moved += count
                    self.notes.enter((number, node, self.script.parents[below]), f"moved {below} {count}")
                    self.notes.enter((number, node, below), "closed")
        return moved

    def note_carries(self, group, before, after):
        """Notes the deferred words that the kernel's code added to the parent's; their sum."""
        carried = 0
        for (number, node, of), amount in sorted(before.items()):
            if of != group:
                continue
            parent = (number, node, self.script.parents[group])
            gained = (after.get(parent, 0) - before.get(parent, 0)) % 2**64
            self.lines.append(f"carry {number} {node} {group} {gained}")
            carried = (carried + gained) % 2**64
            self.kernel.ask(f"defer {number} {node} {group} 0")
            self.choices.apply("words zeroed")
            assert after.get((number, node, group)) == amount
        return carried

    def items(self):
        """The items of the kernel's lists, from the head, by place."""
        lists = {}
        for line in self.kernel.ask("lists"):
            _, cache, node, group, count, *items = line.split(" ")
            assert len(items) == int(count), line
            place = (self.id_of[int(cache)], int(node), int(group))
            lists[place] = []
            for item in items:
                birth, rest = item.split(":", 1)
                lists[place].append((int(birth), *rest.rsplit(":", 2)))
        return lists

    def deferred(self):
        """The kernel's deferred words that aren't 0, by place."""
        said = (line.split(" ") for line in self.kernel.ask("words") if line.startswith("deferred "))
        return {(int(number), int(node), int(group)): int(amount) for _, number, node, group, amount in said}

    def head(self):
        """The first lines of the report."""
        script, notes = self.script, self.notes
        lines = [f"report {script.version}", f"size {script.nodes} {script.ids}"]
        lines += [f"group {number} {path}" for number, path in enumerate(script.paths)]
        lines += [f"cache {number} {cache.name}" for number, cache in enumerate(script.caches)]
        lines += [f"pool {number} {pool.name}" for number, pool in enumerate(script.pools)]
        lines += [f"pool {number} {entry}" for number, entry in enumerate(notes.pool)]
        return lines + [f"tree {number} {entry}" for number, entry in enumerate(notes.tree)]

    def lists(self):
        """The journals, and the items of the kernel's lists."""
        lines, held = [], self.items()
        for place in sorted(self.notes.journals):
            lines.append("list {} {} {}".format(*place))
            lines += self.notes.journals[place]
            for birth, key, mark, pin in held.pop(place, ()):
                command, value = self.notes.puts[self.cache_at[place[0]], birth, place[1], key]
                lines.append(f"item {self.worker} {command} {birth} {key} {value} {mark} {pin}")
        assert not held, held
        return lines

    def words(self):
        """The kernel's bits and deferred words."""
        said = (line.split(" ") for line in self.kernel.ask("words") if line.startswith("bit "))
        bits = {(int(node), int(group), int(unit)): word for _, node, group, unit, word in said}
        groups, units = range(1, len(self.script.paths)), range(self.script.units())
        lines = []
        for place in product(range(self.script.nodes), groups, units):
            told = place if self.script.version == 2 else place[:2]
            lines.append(f"bit {' '.join(map(str, told))} {bits.get(place, f'{0:016x}')}")
        lines += ["deferred {} {} {} {}".format(*at, amount) for at, amount in sorted(self.deferred().items())]
        return lines + self.pools.deferred()

    def ends(self):
        """The charges, the lookups and the totals; the usages are those of the kernel's counters."""
        notes = self.notes
        for line in self.kernel.ask("usage"):
            _, group, usage = line.split(" ")
            assert notes.usage[int(group)] == int(usage), line
        lines = [step for steps in notes.operations for step in steps]
        lines += [f"lookups {number} {count}" for number, count in enumerate(notes.lookups)]
        total = f"total {notes.added} {notes.freed} {len(notes.puts)} {notes.replies} {notes.walks}"
        return lines + [total, "end"]
