"""Pools of units on the kernel's code: shrinkers that know no groups, which a walk of the root meets, and no other.

A pool's owner counts its free units and takes them back; what a pass is asked, how often, and what it defers is the
kernel's do_shrink_slab to say.
"""

MOST = 20000  # free units


class Pools:
    """The pools of a run, with their journals."""

    def __init__(self, run):
        self.run, self.kernel, self.script = run, run.kernel, run.script
        self.journals = {}  # by pool and node
        self.walks = 0
        self.events = []  # of the last walk of the root

    def open(self):
        """Makes the pools."""
        for number, pool in enumerate(self.script.pools):
            aware = "flat" if pool.flat else "nodes"
            said = self.kernel.say(f"pool {pool.seeks} {pool.batch} {pool.floor} {aware}")
            assert said == f"pool {number}", said

    def home(self, pool, node):
        """The place where a pool has the units of a node."""
        return pool, 0 if self.script.pools[pool].flat else int(node)

    def enter(self, place, entry):
        """Adds an entry to a place's journal; the place and the entry's number, as an answer cites them."""
        journal = self.journals.setdefault(place, [])
        journal.append(entry)
        return "{} {} {}".format(*place, len(journal) - 1)

    def reply(self, words):
        """Makes a command; its answer."""
        place = self.home(self.script.pool(words[2]), words[1])
        by = f"{self.run.worker} {self.run.command}"
        if words[0] == "grab":
            said = self.kernel.say("grab {} {}".format(*place))
            return f"{said} {self.enter(place, f'grab {by} ' + ('got' if said == 'grabbed' else said))}"
        said = self.kernel.say("release {} {} {} {}".format(*place, words[3], MOST)).split(" ")
        if said[0] == "full":
            return "full {} {} {} {}".format(*place, len(self.journals.get(place, ())), said[1])
        return f"released {self.enter(place, f'release {by} {words[3]}')}"

    def tell(self, node, priority):
        """The lines of a walk of the pools, of what the walk of the root met."""
        lines, freed, events = [], 0, iter(self.events)
        for number in range(len(self.script.pools)):
            told, more = self.one_pass(number, self.home(number, node), events)
            lines.append(f"pass {number} {told}")
            freed += more
        assert next(events, None) is None
        self.run.choices.apply("pools last")
        head = f"plain {self.walks} {node} {priority} ran {freed}"
        self.walks += 1
        return [head] + lines

    def one_pass(self, number, place, events):
        """What one do_shrink_slab did, and how many units it freed."""
        version = len(self.journals.get(place, ()))
        word, of, length = next(events)
        assert (word, int(of)) == ("count", number), (word, of)
        if length == "0":
            return f"empty {version}", 0
        if int(length) <= self.script.pools[number].floor:
            return f"skip {length} {version}", 0
        start = next(events)
        assert start[:2] == ["start", of] and start[3] == length, start
        asks, event = 0, next(events)
        while event[0] == "scan":
            self.enter(place, f"reclaim {self.run.worker} {self.walks} {event[2]} {event[3]}")
            asks, event = asks + 1, next(events)
        word, _, scanned, freed, after = event
        assert word == "end", event
        return f"ran {length} {version} {start[2]} {asks} 0 {scanned} {freed} {after} through", int(freed)

    def said(self):
        """What the kernel's code has left that isn't 0: free units and deferred words, by word and place."""
        lines = (line.split(" ") for line in self.kernel.ask("pools"))
        return {(word, int(number), int(node)): amount for word, number, node, amount in lines}

    def units(self):
        """The journals, with the free units that are left."""
        lines, said = [], self.said()
        for place in sorted(self.journals):
            lines.append("units {} {} {}".format(*place, said.get(("units", *place), 0)))
            lines += self.journals[place]
        return lines

    def deferred(self):
        """The deferred words."""
        said = self.said().items()
        return [f"pooldeferred {number} {node} {amount}" for (word, number, node), amount in said if word == "deferred"]
