"""Delta debugging: drops workers, commands and declarations of a script while a goal is still met."""

from goals import Seen
from plans import Bounded, seeded
from scripts import Script


class Shrinker:
    """A script that meets a goal, and the attempts to make it smaller.

    `kept` has the numbers of the commands that are left, by worker, and `head` the lines before the first worker.
    """

    def __init__(self, program, script, goal, search, say):
        self.program, self.script, self.goal, self.search, self.say = program, script, goal, search, say
        self.kept = [list(range(len(commands))) for commands in script.workers]
        self.head, self.sweep = list(script.head), script.sweep
        self.tried, self.plan, self.run = 0, None, None

    def build(self, kept, head, sweep):
        workers = [[self.script.workers[w][k] for k in commands] for w, commands in enumerate(kept) if commands]
        return Script(head, workers, sweep)

    def result(self):
        return self.build(self.kept, self.head, self.sweep)

    def holds(self, kept, head, sweep):
        """Whether a smaller script still meets the goal; then it is taken."""
        goal = self.goal.moved(kept)
        if goal is None or not any(kept):
            return False
        self.tried += 1
        self.say(f"{self.tried} scripts tried, {sum(map(len, self.kept))} commands left")
        found = self.search(self.program, self.build(kept, head, sweep), goal, self.plan)
        if not found:
            return False
        self.kept, self.head, self.sweep = kept, head, sweep
        self.plan, self.run = found
        return True

    def drop_workers(self):
        for worker in reversed(range(len(self.kept))):
            if self.kept[worker]:
                self.holds([[] if w == worker else it for w, it in enumerate(self.kept)], self.head, self.sweep)

    def drop_commands(self):
        """Drops runs of commands, of half of them at first and of one in the end."""
        size = max(1, sum(map(len, self.kept)) // 2)
        while True:
            start = 0
            while start < sum(map(len, self.kept)):
                flat = [(w, k) for w, commands in enumerate(self.kept) for k in commands]
                left = set(flat[:start] + flat[start + size:])
                smaller = [[k for k in commands if (w, k) in left] for w, commands in enumerate(self.kept)]
                if not self.holds(smaller, self.head, self.sweep):
                    start += size
            if size == 1:
                return
            size = max(1, size // 2)

    def drop_declarations(self):
        for line in reversed(self.head[2:]):
            self.holds(self.kept, [it for it in self.head if it != line], self.sweep)
        if self.sweep:
            self.holds(self.kept, self.head, None)

    def shrink(self):
        """Whether the goal is met at all; then the script is as small as these steps make it."""
        if not self.holds(self.kept, self.head, self.sweep):
            return False
        before = None
        while before != self.result().text():
            before = self.result().text()
            self.drop_workers()
            self.drop_commands()
            self.drop_declarations()
        return True


def search_by(count, bound, jobs):
    """A search of a run that meets a goal: among so many seeds, or among the schedules of at most `bound` preemptions."""

    def search(program, script, goal, hint=None):
        text = script.text()
        for plan, run in hinted(program, text, hint, runs_of(program, text, count, bound, jobs)):
            if run.status or run.reason:
                return None
            if goal.is_met(Seen(program, script, run)):
                return plan, run
        return None

    return search


def hinted(program, text, hint, runs):
    """Runs, with one by the plan that met the goal last in front of them."""
    if hint is not None:
        yield hint, program.run(text, hint)
    yield from runs


def runs_of(program, text, count, bound, jobs):
    """So many runs by seeds, or by schedules of at most `bound` preemptions."""
    if bound is None:
        yield from seeded(program, text, 0, count, jobs)
        return
    for number, found in enumerate(Bounded(program, text, bound, jobs).runs(), 1):
        yield found
        if number == count:
            return
