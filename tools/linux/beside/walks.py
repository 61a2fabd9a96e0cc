"""One walk of the kernel's code, told in the words of a report."""


class Walk:
    """A walk: `lines` as the report has them, and the births of the objects that it freed."""

    def __init__(self, run, asked):
        self.run, self.notes = run, run.notes
        self.group, self.node, self.priority, self.kind = asked
        self.number = self.notes.walks
        self.notes.walks += 1
        self.attempts, self.births = [], []
        said = run.kernel.ask("shrink {} {} {} {}".format(*asked))
        events = [line.split(" ") for line in said]
        self.events = [event for event in events if event[0] != "pool"]
        self.of_pools = [event[1:] for event in events if event[0] == "pool"]
        self.at = 0
        self.head = "walk {} {} {} {} {} ".format(self.number, *asked)

    def event(self, *first):
        """The next event, which begins with these words."""
        event = self.events[self.at]
        assert event[: len(first)] == [str(word) for word in first], (event, first)
        self.at += 1
        return event

    def is_next(self, first):
        """Whether the next event begins with this word."""
        return self.events[self.at][0] == first

    def tell(self):
        """The lines of the walk and how many objects it freed."""
        begun = self.notes.begun.get(self.group)
        if begun is not None:
            self.event("walked", 0)
            self.run.choices.apply("begun first")
            return [f"{self.head}offline {begun}"], None
        lines = self.units() if self.group else self.root()
        freed = int(self.event("walked")[1]) - self.hand_on_pools()
        assert freed == len(self.births), (freed, self.births)
        return [f"{self.head}ran {freed}"] + lines, freed

    def hand_on_pools(self):
        """Hands on what the walk did with the pools, which is told by itself; how many units it freed."""
        assert self.group == 0 or not self.of_pools
        if self.group == 0:
            self.run.pools.events = self.of_pools
        return sum(int(event[3]) for event in self.of_pools if event[0] == "end")

    def root(self):
        """The lines of a walk of the root."""
        while not self.is_next("walked"):
            self.attempt_of_root()
        self.put_in_order()
        return self.tried()

    def units(self):
        """The lines of another walk: the map of each unit, and the attempts by its bits."""
        maps = [self.map_line(unit) for unit in range(self.run.script.units())]
        while not self.is_next("walked"):
            self.attempt_of_group()
        lines, tried = [], self.tried()
        for unit, line in enumerate(maps):
            lines += [line] + [attempt for attempt in tried if int(attempt.split(" ")[1]) // 64 == unit]
        return lines

    def tried(self):
        """The lines of the attempts."""
        return [f"try {number} {told}" for number, told in self.attempts]

    def map_line(self, unit):
        """The map of a unit that the walk goes by; the driver says them all before the walk."""
        if self.is_next("map"):
            _, number, bits = self.event("map", unit)
            return f"map {number} {bits}"
        self.run.choices.apply("no unit")
        return f"map {unit} {0:016x}"

    def put_in_order(self):
        """Brings a walk of the root into the order of ids, with the ids that no shrinker has."""
        met = [number for number, _ in self.attempts]
        self.run.choices.apply("root order", met != sorted(met))
        idle = [number for number in range(self.run.script.ids) if number not in met]
        self.run.choices.apply("root idle", bool(idle))
        self.attempts += [(number, f"{self.notes.look_up(number)} gone root") for number in idle]
        self.attempts.sort()

    def attempt_of_root(self):
        """An attempt of a walk of the root: one pass, and no bit."""
        number = int(self.events[self.at][1])
        lookup = self.notes.look_up(number)
        told, version = self.one_pass(number)
        self.attempts.append((number, f"{lookup} held {told or f'empty {version}'}"))

    def attempt_of_group(self):
        """An attempt of another walk: the bit is cleared where nothing is there, and set where there is again."""
        _, word, found = self.event("find")
        number = int(word)
        lookup = self.notes.look_up(number)
        if found == "no":
            self.event("clear", number)
            self.attempts.append((number, f"{lookup} gone clear"))
            return
        told, first = self.one_pass(number)
        if told is None:
            self.event("clear", number)
            told, second = self.one_pass(number)
            if told is None:
                told = f"cleared {first} {second}"
            else:
                self.event("set", number)
                told = f"restored {first} {told}"
        self.attempts.append((number, f"{lookup} held {told}"))

    def one_pass(self, number):
        """What one do_shrink_slab did, None where the list was empty, and the version of the list that it counted."""
        place = (number, self.node, self.group)
        cache = self.run.script.caches[self.run.cache_at[number]]
        version = self.notes.version(place)
        length = int(self.event("count", number)[2])
        if length == 0:
            return None, version
        if length <= cache.floor:
            return f"skip {length} {version}", version
        nr = self.event("start", number)[2]
        asks, end = 0, "through"
        before = len(self.births)
        while self.is_next("scan"):
            scan = self.event("scan", number)
            if scan[3] == "stop":
                end = "stop"
            else:
                asks += 1
                self.note_scan(place, cache.policy, scan)
        _, _, scanned, freed, after = self.event("end", number)
        assert int(freed) == len(self.births) - before
        return f"ran {length} {version} {nr} {asks} 0 {scanned} {freed} {after} {end}", version

    def note_scan(self, place, policy, scan):
        """Notes a scan in the list's journal, and the objects that it freed."""
        asked, visits, freed, ending = scan[2:6]
        entry = f"scan {self.notes.worker} {self.number} {asked} {policy} {visits} {freed} {ending}"
        self.notes.enter(place, entry)
        for object_freed in scan[6:]:
            birth, key = object_freed.split(":", 1)
            self.notes.drop(self.run.cache_at[place[0]], int(birth), self.node, key)
            self.births.append(int(birth))
