"""Counts the outcomes of many runs, and prints them."""

import collections
import os
import time

from goals import Seen
from program import FREE, spell
from windows import WINDOWS

SHOWN = 12  # how many outcomes are printed
RAREST = 5  # of how many outcomes `--keep` writes a report


def plan_name(plan):
    """A plan in words."""
    if plan == FREE:
        return "a plain run"
    if isinstance(plan, int):
        return f"seed {plan}"
    return f"schedule {spell(plan)}" if plan else "no preemption"


class Best:
    """How often something came, and the run with the fewest switches that showed it."""

    def __init__(self):
        self.count, self.plan, self.run = 0, None, None

    def add(self, plan, run):
        self.count += 1
        if self.run is None or run.switches < self.run.switches:
            self.plan, self.run = plan, run

    def words(self):
        """The plan in words; a plain run has none to name."""
        return "" if self.plan == FREE else f" [{plan_name(self.plan)}, {self.run.switches} switches]"


class Tally:
    """What came of all runs of a script."""

    def __init__(self, program, script, name, is_audited=True):
        self.program, self.script, self.name, self.is_audited = program, script, name, is_audited
        self.text = script.text()
        self.began = time.monotonic()
        self.runs, self.newest = 0, 0
        self.faults = collections.OrderedDict()  # a fault in words: the plan of the first run that had it
        self.seen = {}                           # what the report and the misses say, by both
        self.outcomes = collections.defaultdict(Best)
        self.windows = collections.defaultdict(Best)
        self.reports = set()

    def add(self, plan, run):
        """Takes a run, and gives what it shows; nothing if it failed."""
        self.runs += 1
        if run.status or run.reason:
            self.faults.setdefault(run.reason, plan)
            return None
        if run.report not in self.reports:
            self.reports.add(run.report)
            self.audit(plan, run)
        key = run.report, run.missed
        if key not in self.seen:
            self.seen[key] = Seen(self.program, self.script, run)
        seen = self.seen[key]
        outcome = tuple(sorted(seen.answers.items()))
        self.newest = self.newest if outcome in self.outcomes else self.runs
        self.outcomes[outcome].add(plan, run)
        for window in seen.windows:
            self.windows[window].add(plan, run)
        return seen

    def audit(self, plan, run):
        verdict = self.program.audit(self.text, run.report) if self.is_audited else "lawful"
        if verdict != "lawful":
            self.faults.setdefault(f"the report isn't lawful: {verdict}", plan)

    def lines(self, bounded=None):
        """The summary."""
        seconds = time.monotonic() - self.began
        workers = len(self.script.workers)
        yield f"{self.name}: {counted(workers, 'worker')}, {counted(self.script.commands(), 'command')}; {counted(self.runs, 'run')} in {seconds:.1f} s"
        if bounded:
            which = f"of at most {counted(bounded.bound, 'preemption')}"
            yield f"complete: each schedule {which}" if bounded.is_complete else f"not complete: some schedules {which}"
        judged = "each lawful" if self.is_audited and not self.faults else "see below" if self.faults else "not audited"
        yield f"{counted(len(self.reports), 'distinct report')}, {judged}; {counted(len(self.outcomes), 'outcome')}, the last new one in run {self.newest:,}"
        for fault, plan in self.faults.items():
            yield f"FAULT: {fault} ({plan_name(plan)})"
        yield from self.outcome_lines()
        for window in sorted(self.windows, key=list(WINDOWS).index):
            best = self.windows[window]
            yield f"{best.count:8,}  met {window}: {WINDOWS[window][0]}{best.words()}"

    def outcome_lines(self):
        """The outcomes, those that came most often first, by the answers that aren't the same in all."""
        first, *rest = map(dict, self.outcomes) if self.outcomes else [{}]
        vary = [at for at in sorted(first) if any(other.get(at) != first[at] for other in rest)]
        ordered = sorted(self.outcomes.items(), key=lambda it: -it[1].count)
        for outcome, best in ordered[:SHOWN]:
            told = dict(outcome)
            answers = ", ".join(f"{w}.{k} {told[w, k]}" for w, k in vary) or "the only one"
            yield f"{best.count:8,}  {answers}{best.words()}"
        if len(ordered) > SHOWN:
            once = sum(best.count == 1 for _, best in ordered)
            yield f"          and {len(ordered) - SHOWN} outcomes more; {counted(once, 'outcome')} came once"

    def keep(self, folder):
        """Writes a report of each window and of the rarest outcomes, each with its script."""
        rarest = sorted(self.outcomes.values(), key=lambda it: it.count)[:RAREST]
        kept = [(f"rare-{number}", best) for number, best in enumerate(rarest, 1)]
        kept += [(window, self.windows[window]) for window in sorted(self.windows)]
        os.makedirs(folder, exist_ok=True)
        for name, best in kept:
            for kind, content in (("script", self.text), ("report", best.run.report)):
                with open(os.path.join(folder, f"{name}.{kind}"), "wb") as file:
                    file.write(content)
        return len(kept)


def counted(count, what):
    return f"{count:,} {what}" + ("" if count == 1 else "s")
