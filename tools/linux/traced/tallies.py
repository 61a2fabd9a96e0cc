"""What the table and the sentences count: passes by shrinker and group, hand-overs, marks and ends of processes."""

from collections import defaultdict
from functools import lru_cache

from traced.arithmetic import SHRINK_BATCH, is_stopped, next_of
from traced.observer import Observer
from traced.recording import is_nofs

nofs = lru_cache(maxsize=None)(is_nofs)


class Span:
    """How often something was so, and on which lines first and last."""

    def __init__(self):
        self.count = self.first = self.last = 0

    def add(self, line):
        self.count += 1
        self.first = self.first or line
        self.last = line

    def __str__(self):
        return f"line {self.first:,}" if self.count == 1 else f"lines {self.first:,} to {self.last:,}"


class Tally:
    """The passes of one shrinker for one group."""

    def __init__(self, name):
        self.name = name
        self.function, self.id, self.group = name
        self.is_numbered = isinstance(self.id, int)
        self.freed = self.scanned = self.most_deferred = self.batch = 0
        self.most = Span()
        self.most.objects = 0
        self.passes, self.nothing, self.stopped, self.capped = Span(), Span(), Span(), Span()
        self.nofs, self.nofs_nothing, self.over, self.freed_nothing = Span(), Span(), Span(), Span()
        # the last count and the last deferred word of each node
        self.counts, self.words = {}, {}

    def add(self, made):
        row, line = made.row, made.start
        self.passes.add(line)
        self.freed += made.freed
        self.scanned += row.scanned
        if row.count > self.most.objects:
            self.most.objects, self.most.first = row.count, line
        deferred = next_of(row.nr, row.delta, row.scanned, row.count)
        self.most_deferred = max(self.most_deferred, deferred)
        self.counts[made.node], self.words[made.node] = row.count, made.new
        if row.batch is not None:
            self.batch = row.batch or SHRINK_BATCH
        halted, is_without_fs = is_stopped(row), nofs(made.gfp)
        if halted:
            self.stopped.add(line)
        elif row.scanned == 0:
            self.nothing.add(line)
        if deferred == 2 * row.count:
            self.capped.add(line)
        if is_without_fs:
            self.nofs.add(line)
        if made.freed == 0:
            self.freed_nothing.add(line)
            if is_without_fs:
                self.nofs_nothing.add(line)
        if made.freed > row.scanned:
            self.over.add(line)


class Killed:
    """An OOM-killed process, with the last walk of the task that had it killed."""

    def __init__(self, event, group, objects):
        words = dict(word.split("=", 1) for word in event.text.split() if "=" in word)
        self.line, self.group, self.objects = event.line, group, objects
        self.pid, self.comm = words.get("pid", "?"), words.get("comm", "a process")


class Tallies(Observer):
    """Counts."""

    def __init__(self):
        self.tallies = {}
        self.groups, self.shrinkers, self.phases = {"1": "/"}, {}, []
        self.walks, self.hands, self.killed_ones, self.lost, self.gaps = 0, [], [], Span(), Span()
        self.last_walks, self.lost_events = {}, 0
        self.first_time = self.last_time = None
        self.of_group = defaultdict(list)

    def entered(self, walk):
        self.walks += 1
        self.last_walks[walk.task] = walk.group

    def ended(self, made):
        name = made.name
        tally = self.tallies.get(name)
        if tally is None:
            tally = self.tallies[name] = Tally(name)
            self.of_group[tally.group].append(tally)
        tally.add(made)

    def handed(self, event, probe):
        self.hands.append((event.line, probe["group"], probe["above"]))

    def killed(self, event):
        group = self.last_walks.get(event.task)
        objects = sum(sum(tally.counts.values()) for tally in self.of_group.get(group, ())) if group else 0
        self.killed_ones.append(Killed(event, group, objects))

    def marked(self, event):
        kind, _, rest = event.text.strip().partition(" ")
        if kind == "group" and rest:
            name, _, number = rest.rpartition(" ")
            self.groups[number] = name or "/"
        elif kind == "shrinker" and rest:
            id, _, name = rest.partition(" ")
            self.shrinkers[id] = name
        elif kind == "phase":
            self.phases.append((event.time, rest))

    def forgot(self, event):
        if event.name == "LOST":
            self.lost.add(event.line)
            self.lost_events += int(event.text)
        elif event.name == "tracing_mark_write":
            self.gaps.add(event.line)

    def name_of_group(self, group):
        if group is None:
            return "groups unknown"
        return self.groups.get(group, "no group" if group == "0" else f"group {group}")

    def name_of_shrinker(self, tally):
        if not tally.is_numbered:
            return f"{tally.function} {tally.id}"
        return f"{self.shrinkers.get(str(tally.id), tally.function)} (id {tally.id})"

    def sorted(self):
        """The rows, those with the most passes first."""
        return sorted(self.tallies.values(), key=lambda tally: (-tally.passes.count, str(tally.group), str(tally.id)))
