"""The command line of tools/stress."""

import argparse
import os
import sys
import time

from goals import Seen, goal_of
from outcomes import Tally, counted, plan_name
from plans import Bounded, in_order, seeded
from program import FREE, Program, Refused, find_program, read, read_schedule, spell
from races import races_of, store
from scripts import Script
from shrinking import Shrinker, runs_of, search_by
from windows import WINDOWS

ABOUT = """\
Runs a script under many schedules, each of which can be had again, and says what came of it.

  tools/stress SCRIPT [RUNS]                  schedules drawn from the seeds 0, 1, 2 ..
  tools/stress SCRIPT [RUNS] --bound D        each schedule of at most D preemptions
  tools/stress SCRIPT [RUNS] --until WINDOW   the same, up to the first run that shows a window
  tools/stress SCRIPT --seed S > REPORT       one run again
  tools/stress SCRIPT --schedule LIST > REPORT
  tools/stress SCRIPT [RUNS] --shrink WINDOW > SMALLER
                                              the smallest script that still shows a window
  tools/stress SCRIPT [RUNS] --race WINDOW    stores the simplest run that shows a window beside the script
  tools/stress --again FOLDER                 makes each stored race of a folder again
  tools/stress --windows                      lists the windows

WINDOW is a window's name, or an answer as it is printed: '1.2=walked 1'.
"""
LIMITS = """\
One thread runs at a time. The next one is chosen at atomic instructions that read and write, at the making, the joining and the
end of a thread, and at each wait. Between two of these a thread's plain loads and stores stay together: what needs a switch
between two of them isn't found. A script whose threads wait much is slow. tools/stress-schedules/README.md says more.
"""
STATUSES = "status: 0 done; 1 a report that isn't lawful, a run that failed, or nothing found; 2 other words; 3 this machine can't"


class Progress:
    """A line on standard error, if that is a terminal."""

    def __init__(self):
        self.is_on = sys.stderr.isatty()
        self.last = 0.0

    def say(self, text, is_last=False):
        if self.is_on and (is_last or time.monotonic() - self.last > 0.2):
            self.last = time.monotonic()
            print(f"\r{text:<78}"[:80], end="\n" if is_last else "", file=sys.stderr, flush=True)

    def clear(self):
        if self.is_on:
            print("\r" + " " * 79 + "\r", end="", file=sys.stderr, flush=True)


def number(text):
    if not text.isdigit():
        raise argparse.ArgumentTypeError(f"`{text}` isn't a number")
    return int(text)


def parser():
    it = argparse.ArgumentParser(
        prog="tools/stress", usage=argparse.SUPPRESS, description=ABOUT, epilog=LIMITS + "\n" + STATUSES,
        formatter_class=argparse.RawDescriptionHelpFormatter, allow_abbrev=False,
    )
    it.add_argument("script", nargs="?", metavar="SCRIPT")
    it.add_argument("runs", nargs="?", type=number, metavar="RUNS", help="how many runs at most (1,000; 300 by --shrink)")
    it.add_argument("--bound", type=number, metavar="D", help="each schedule of at most D preemptions")
    it.add_argument("--free", action="store_true", help="plain runs: the threads run as they will")
    it.add_argument("--until", metavar="WINDOW", help="stop at the first run that shows it")
    it.add_argument("--keep", metavar="FOLDER", help="write a report of each window and of the rarest outcomes")
    it.add_argument("--seed", type=number, metavar="S", help="make the run of this seed again")
    it.add_argument("--schedule", metavar="LIST", help="make the run of this schedule again: WORKER:STEP:NEXT,..")
    it.add_argument("--shrink", metavar="WINDOW", help="drop workers, commands and declarations while it is shown")
    it.add_argument("--race", metavar="WINDOW", help="write NAME.report and NAME.race beside NAME.script")
    it.add_argument("--again", metavar="FOLDER", help="make each NAME.race of a folder again")
    it.add_argument("--windows", action="store_true", help="list the windows")
    it.add_argument("--jobs", type=number, default=1, metavar="N", help="run so many schedules side by side (1)")
    it.add_argument("--seconds", type=number, default=20, metavar="N", help="the longest that a run may take (20)")
    it.add_argument("--program", metavar="PATH", help="the program; else that of ./shrinkers --built")
    return it


def checked(given):
    """Refuses words that don't go together."""
    modes = [it for it in ("free", "bound", "seed", "schedule", "again") if getattr(given, it) not in (None, False)]
    ends = [it for it in ("until", "shrink", "race", "seed", "schedule", "again") if getattr(given, it) is not None]
    if len(modes) > 1 or len(ends) > 1:
        both = modes if len(modes) > 1 else ends
        raise Refused(f"--{both[0]} and --{both[1]} don't go together", 2)
    if given.again is None and given.script is None:
        raise Refused("a script is wanted; --help says the forms", 2)
    if given.again is not None and given.script is not None:
        raise Refused("--again takes a folder and no script", 2)
    if given.free and (given.shrink or given.race):
        raise Refused("a plain run can't be had again, so --free goes with neither --shrink nor --race", 2)
    if given.jobs < 1 or given.jobs > 64 or given.seconds < 1 or given.runs == 0:
        raise Refused("RUNS and --seconds are 1 or more, --jobs is 1 to 64", 2)


def count_outcomes(given, program, script):
    """Many runs, and what came of them."""
    text, runs, progress = script.text(), given.runs or 1000, Progress()
    tally = Tally(program, script, os.path.basename(given.script))
    goal = goal_of(given.until) if given.until else None
    bounded = Bounded(program, text, given.bound, given.jobs) if given.bound is not None else None
    if bounded:
        found = bounded.runs()
        runs = given.runs
    elif given.free:
        found = in_order(program, text, (FREE for _ in range(runs)), given.jobs)
    else:
        found = seeded(program, text, 0, runs, given.jobs)
    is_found = False
    for plan, run in found:
        seen = tally.add(plan, run)
        of = f"{bounded.known:,} or more" if bounded else f"{runs:,}"
        outcomes, windows = counted(len(tally.outcomes), "outcome"), counted(len(tally.windows), "window")
        progress.say(f"{tally.runs:,} runs of {of}, {outcomes}, {windows}")
        is_found = bool(goal and seen and goal.is_met(seen))
        if is_found or tally.runs == runs:
            break
    if bounded and not is_found:
        bounded.is_complete = bounded.is_complete or next(found, None) is None
    progress.clear()
    print_tally(given, tally, bounded, program)
    if goal:
        print(f"found `{goal.name}`: {plan_name(plan)}, {run.switches} switches" if is_found else f"`{goal.name}` wasn't met")
        if is_found:
            print(f"schedule {spell(run.schedule)}")
    return 0 if not tally.faults and (is_found or not goal) else 1


def print_tally(given, tally, bounded, program):
    for line in tally.lines(bounded):
        print(line)
    if not given.free:
        count = counted(len(program.names), "atomic instruction")
        print(f"switched at {count}, at the making and the end of threads, and at waits; not between plain loads and stores")
    if given.keep:
        print(f"{counted(tally.keep(given.keep), 'report')} in {given.keep}")


def run_again(given, program, script):
    """One run by its seed or schedule: the report on standard output, and the switches in words on standard error."""
    plan = given.seed if given.seed is not None else read_schedule(given.schedule)
    run = program.run(script.text(), plan, True)
    if run.reason:
        raise Refused(f"the run failed: {run.reason}", 1)
    sys.stdout.buffer.write(run.report)
    sys.stdout.flush()
    for it in run.steps:
        if it.next != it.who:
            print(f"worker {it.who}, step {it.step}, {at_step(program, it)}: worker {it.next} goes on", file=sys.stderr)
    for worker, site in run.missed:
        print(f"worker {worker}: an exchange in {program.where(site)} missed", file=sys.stderr)
    if run.unused:
        print(f"{counted(run.unused, 'switch')} of the schedule couldn't be made", file=sys.stderr)
    print(f"schedule {spell(run.schedule)}", file=sys.stderr)
    seen = Seen(program, script, run)
    verdict = program.audit(script.text(), run.report)
    print(f"windows: {' '.join(seen.windows) or 'none'}; the auditor says: {verdict}", file=sys.stderr)
    return 1 if run.unused else 0


def at_step(program, step):
    words = {"m": "made a thread", "w": "waits", "j": "waits for a thread's end", "e": "has ended"}
    return words.get(step.kind) or f"before its atomic step in {program.where(step.site)}"


def shrink(given, program, script):
    """The smallest script that still meets a goal."""
    goal, progress = goal_of(given.shrink), Progress()
    shrinker = Shrinker(program, script, goal, search_by(given.runs or 300, given.bound, given.jobs), progress.say)
    is_met = shrinker.shrink()
    progress.clear()
    if not is_met:
        raise Refused(f"`{goal.name}` wasn't met by the script as it is; more RUNS may meet it", 1)
    smaller, last = shrinker.result(), goal.moved(shrinker.kept)
    sys.stdout.buffer.write(smaller.text())
    sys.stdout.flush()
    verdict = program.audit(smaller.text(), shrinker.run.report)
    print(
        f"{counted(smaller.commands(), 'command')} of {counted(len(smaller.workers), 'worker')} show `{last.name}` by "
        f"{plan_name(shrinker.plan)}; {script.commands()} before; {shrinker.tried} scripts tried; the report is {verdict}", file=sys.stderr,
    )
    if given.keep:
        tally = Tally(program, smaller, "shrunk", False)
        tally.add(shrinker.plan, shrinker.run)
        print(f"{counted(tally.keep(given.keep), 'report')} in {given.keep}", file=sys.stderr)
    return 0


def store_race(given, program, script):
    """The simplest run that meets a goal, written beside the script."""
    goal, best, progress, count = goal_of(given.race), None, Progress(), 0
    for plan, run in runs_of(program, script.text(), given.runs or 1000, given.bound, given.jobs):
        count += 1
        progress.say(f"{count:,} runs" + (f", the best has {best[1].switches} switches" if best else ""))
        if run.reason or best and run.switches >= best[1].switches:
            continue
        if goal.is_met(Seen(program, script, run)):
            best = plan, run
    progress.clear()
    if not best:
        raise Refused(f"`{goal.name}` wasn't met in {counted(count, 'run')}", 1)
    store(given.script, program, goal, *best)
    print(f"{goal.name}: {plan_name(best[0])}, {best[1].switches} switches, schedule {spell(best[1].schedule)}")
    return 0


def make_again(given, program):
    """Each stored race of a folder."""
    races, failed = races_of(given.again), 0
    for race in races:
        is_made, words = race.again(program)
        failed += not is_made
        print(f"{race.name}: {words}", flush=True)
    print(f"{len(races) - failed} of {len(races)} races were made again")
    return 1 if failed else 0


def work(given):
    if given.windows:
        for name, (sentence, _) in WINDOWS.items():
            print(f"{name:24}{sentence}")
        return 0
    checked(given)
    script = Script.read(read(given.script), given.script) if given.script else None
    program = Program(find_program(given.program), given.seconds)
    if given.again:
        return make_again(given, program)
    if given.seed is not None or given.schedule is not None:
        return run_again(given, program, script)
    if given.shrink:
        return shrink(given, program, script)
    return store_race(given, program, script) if given.race else count_outcomes(given, program, script)


def main():
    try:
        return work(parser().parse_intermixed_args())
    except Refused as refused:
        print(f"tools/stress: {refused}", file=sys.stderr)
        return refused.status
    except KeyboardInterrupt:
        return 130
    except BrokenPipeError:
        os.dup2(os.open(os.devnull, os.O_WRONLY), 1)
        return 1
    except OSError as error:
        print(f"tools/stress: {error}", file=sys.stderr)
        return 3
