"""Cases of several runs by the seeds of tools/stress, if the command is a built program and this machine can schedule it."""

import os
import sys

from running.cases import TOP

sys.path.append(os.path.join(TOP, "tools", "stress-schedules"))

from program import Program, Refused, find_program  # noqa: E402

# The longest that one scheduled run of a case may take.
SECONDS = 120


def scheduled(command, complain):
    """The program under the scheduler of tools/stress, or None with a line that says why not."""
    try:
        if len(command) != 1:
            raise Refused("the command isn't a program alone")
        return Program(find_program(command[0]), SECONDS)
    except Refused as why:
        complain(f"threads run as they will, because {why}")
        return None


def by_seeds(program, case, audit_fault):
    """What is wrong with a program's answers to a case of several runs, by one seed each, or None."""
    for seed in range(case.runs()):
        run = program.run(case.input, seed)
        fault = run.reason or case.fault(run.status, run.report) or audit_fault(case.input, run.report)
        if fault:
            return f"{fault} (seed {seed})"
    return None
