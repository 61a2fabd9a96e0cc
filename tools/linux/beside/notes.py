"""What a report has beside what the kernel's code did: journals, operations on usage, lookups, and who put an object."""


class Notes:
    """The notes of a run of one worker."""

    def __init__(self, script, worker):
        self.script, self.worker = script, worker
        groups = len(script.paths)
        self.journals = {}  # by place
        self.pool, self.tree = [], []
        self.made, self.begun, self.done = {}, {}, {}  # the entry of each group in the tree's journal
        self.lookups = [0] * script.ids
        self.puts = {}  # the command and the value by cache, birth, node and key
        self.usage = [0] * groups
        self.operations = [[] for _ in range(groups)]
        self.added = self.freed = self.replies = self.walks = 0

    def version(self, place):
        """How many entries a place's journal has."""
        return len(self.journals.get(place, ()))

    def enter(self, place, entry):
        """Adds an entry to a place's journal; the place and the entry's number, as an answer cites them."""
        journal = self.journals.setdefault(place, [])
        journal.append(entry)
        return "{} {} {} {}".format(*place, len(journal) - 1)

    def look_up(self, number):
        """The number of a lookup of an id."""
        self.lookups[number] += 1
        return self.lookups[number] - 1

    def operate(self, group, sign, command):
        """Notes one more or one less of a group's usage; the operation's number."""
        steps = self.operations[group]
        steps.append(f"use {group} {len(steps)} {sign} {self.usage[group]} {self.worker} {command}")
        self.usage[group] += 1 if sign == "+" else -1
        return len(steps) - 1

    def upwards(self, group):
        """A group and those above it, to the root."""
        while group:
            yield group
            group = self.script.parents[group]
        yield 0

    def uncharge(self, birth, command):
        """Notes an object less, on each level."""
        for group in self.upwards(birth):
            self.operate(group, "-", command)

    def is_made(self, group):
        """Whether a group is there."""
        return not self.script.later[group] or group in self.made

    def note_tree(self, word, group, entries):
        """Adds an entry to the tree's journal; its number."""
        entries[group] = len(self.tree)
        self.tree.append(f"{word} {group}")
        return entries[group]

    def open_group(self, birth):
        """The group where a birth's objects are listed: the first from it up that isn't done going offline."""
        return next(group for group in self.upwards(birth) if group not in self.done)

    def drop(self, cache, birth, node, key):
        """Notes that an object was freed."""
        del self.puts[cache, birth, node, key]
        self.freed += 1
