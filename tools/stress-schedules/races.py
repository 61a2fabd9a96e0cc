"""Stored races: a script, the report of one of its runs, and how to have that run again.

NAME.race has lines of two words: the `window` that the report shows, the `program` (the first digits of its checksum) with
which it was found, the `schedule`, and the `seed` if it was found by one. A schedule counts the steps of each worker. So it
holds for every program whose workers take the same atomic steps, wherever its instructions stand; a seed holds for one program.
"""

import os

from goals import Seen, goal_of
from outcomes import plan_name
from program import Refused, read, read_schedule, spell
from scripts import Script
from shrinking import runs_of

SEEDS = 3000      # how many seeds are tried where a stored schedule doesn't fit
SCHEDULES = 4000  # how many schedules of at most two preemptions after that


class Race:
    """A stored race."""

    def __init__(self, folder, name):
        self.name = name
        path = os.path.join(folder, name)
        lines = [line.split(" ", 1) for line in read(path + ".race").decode(errors="replace").splitlines()]
        told = dict(line for line in lines if len(line) == 2)
        if not {"window", "program", "schedule"} <= set(told):
            raise Refused(f"{path}.race lacks a line `window`, `program` or `schedule`", 2)
        self.goal = goal_of(told["window"])
        self.sum = told["program"]
        self.schedule = read_schedule(told["schedule"])
        self.seed = int(told["seed"]) if told.get("seed", "").isdigit() else None
        self.text = read(path + ".script")
        self.script = Script.read(self.text, path + ".script")
        self.report = read(path + ".report")

    def twice(self, program, plan):
        """The report of a plan, if two runs give the same bytes, which show the window and are lawful; else why not."""
        one, other = program.run(self.text, plan), program.run(self.text, plan)
        if one.reason or other.reason:
            return None, one.reason or other.reason
        if one.report != other.report:
            return None, "two runs of one plan gave different bytes"
        if not self.goal.is_met(Seen(program, self.script, one)):
            return None, f"the report doesn't show `{self.goal.name}`"
        verdict = program.audit(self.text, one.report)
        return (one.report, "") if verdict == "lawful" else (None, f"the report is {verdict}")

    def again(self, program):
        """Whether the race can be had again, and how, in words."""
        report, why = self.twice(program, self.schedule)
        if report == self.report:
            return self.by_seed(program)
        if program.sum == self.sum:
            return False, why or "its schedule gives another report"
        found = self.search(program)
        if found is None:
            return False, f"not found by {SEEDS:,} seeds and {SCHEDULES:,} schedules of at most two preemptions"
        report, why = self.twice(program, found)
        how = f"the stored schedule doesn't fit this program; found anew by {plan_name(found)}, twice the same bytes"
        return report is not None, why or how

    def by_seed(self, program):
        """Whether the stored seed gives the same report in the program with which it was found."""
        if program.sum != self.sum:
            return True, "made again twice by its schedule, with the stored bytes, in another program than it was found with"
        if self.seed is None:
            return True, "made again twice by its schedule, with the stored bytes"
        report, why = self.twice(program, self.seed)
        if report == self.report:
            return True, "made again twice by its schedule and by its seed, with the stored bytes"
        return False, why or "its seed gives another report"

    def search(self, program):
        """A plan that shows the window in this program."""
        for count, bound in ((SEEDS, None), (SCHEDULES, 2)):
            for plan, run in runs_of(program, self.text, count, bound, 1):
                if not run.reason and self.goal.is_met(Seen(program, self.script, run)):
                    return plan
        return None


def races_of(folder):
    """The stored races of a folder, by name."""
    if not os.path.isdir(folder):
        raise Refused(f"{folder} isn't a folder", 2)
    names = sorted(file[:-len(".race")] for file in os.listdir(folder) if file.endswith(".race"))
    if not names:
        raise Refused(f"{folder} has no file NAME.race", 2)
    return [Race(folder, name) for name in names]


def store(path, program, goal, plan, run):
    """Writes NAME.report and NAME.race beside NAME.script."""
    if not path.endswith(".script"):
        raise Refused(f"{path} isn't named NAME.script", 2)
    lines = [f"window {goal.name}", f"program {program.sum}", f"schedule {spell(run.schedule)}"]
    lines += [f"seed {plan}"] if isinstance(plan, int) else []
    base = path[:-len(".script")]
    with open(base + ".race", "w", encoding="ascii") as file:
        file.write("".join(line + "\n" for line in lines))
    with open(base + ".report", "wb") as file:
        file.write(run.report)
