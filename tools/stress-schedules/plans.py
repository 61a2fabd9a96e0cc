"""Which schedules are run: seeds, or each schedule of at most so many preemptions."""

import collections
from concurrent.futures import ThreadPoolExecutor

from program import Switch

# A step at which a thread can't keep its turn, and at which any other may go on: its end, or the joining of another.
ENDS = ("e", "j")


def in_order(program, script, plans, jobs, traced=False):
    """Runs plans, some side by side, and gives each with its run, in order. It asks for a plan only when a run is wanted."""
    plans = iter(plans)
    waiting = collections.deque()
    with ThreadPoolExecutor(max_workers=jobs) as pool:
        try:
            while True:
                while len(waiting) < 2 * jobs and (plan := next(plans, None)) is not None:
                    waiting.append((plan, pool.submit(program.run, script, plan, traced)))
                if not waiting:
                    return
                plan, run = waiting.popleft()
                yield plan, run.result()
        finally:
            pool.shutdown(wait=True, cancel_futures=True)


def seeded(program, script, first, count, jobs):
    """A run for each of so many seeds."""
    yield from in_order(program, script, range(first, first + count), jobs)


def first_new(schedule, steps):
    """The place in a run's steps behind the last switch of its schedule."""
    if not schedule:
        return 0
    last = schedule[-1]
    return next(i for i, it in enumerate(steps) if (it.who, it.step) == (last.who, last.step)) + 1


def longer(schedule, steps):
    """Each schedule with one switch more, behind those that it has, with what it costs: a preemption, or nothing at an end."""
    for it in steps[first_new(schedule, steps):]:
        if it.kind == "w":
            continue
        cost = 0 if it.kind in ENDS else 1
        for other in range(64):
            if it.others >> other & 1 and other != it.next:
                yield (*schedule, Switch(it.who, it.step, other)), cost


class Bounded:
    """Each schedule of at most `bound` preemptions, those with fewer first.

    At the end of a thread, and where it joins another, any other may go on: that is no preemption. A thread that waits gives
    its turn to the next one in order.
    """

    def __init__(self, program, script, bound, jobs):
        self.program, self.script, self.bound, self.jobs = program, script, bound, jobs
        self.known = 1        # how many schedules are found so far, those that were run among them
        self.is_complete = False

    def runs(self):
        """Each schedule with its run."""
        level = [()]
        for preemptions in range(self.bound + 1):
            behind = []
            while level:
                free = []
                for plan, run in in_order(self.program, self.script, level, self.jobs, True):
                    yield plan, run
                    for plan_after, cost in longer(plan, run.steps) if run.steps else ():
                        if cost == 0:
                            free.append(plan_after)
                        elif preemptions < self.bound:
                            behind.append(plan_after)
                level = free
                self.known += len(free)
            level = behind
            self.known += len(behind)
        self.is_complete = True
