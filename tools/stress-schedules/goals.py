"""What is looked for: a window by its name, or an answer of one command, `WORKER.COMMAND=ANSWER`."""

import re

from program import Refused
from reports import Report
from windows import WINDOWS, met


class Seen:
    """A run's report, read: its answers, and the windows that it shows."""

    def __init__(self, program, script, run):
        missed = [(worker, program.where(site)) for worker, site in run.missed]
        try:
            self.report = Report(run.report, script.limits(), missed)
            self.answers = self.report.answers()
            self.windows = met(self.report)
        except (ValueError, IndexError, KeyError, TypeError, AttributeError):
            raise Refused("the program wrote a report that this tool can't read", 1) from None


class Window:
    """A window is met if the report shows it."""

    def __init__(self, name):
        self.name = name

    def is_met(self, seen):
        return self.name in seen.windows

    def moved(self, _kept):
        """The same goal for a script of which parts were dropped."""
        return self


class Answer:
    """An answer is met if the command has it."""

    def __init__(self, at, answer):
        self.at, self.answer = at, answer
        self.name = f"{at[0]}.{at[1]}={answer}"

    def is_met(self, seen):
        return seen.answers.get(self.at) == self.answer

    def moved(self, kept):
        """The same goal where only these commands are kept, by worker; nothing if its own command was dropped."""
        worker, command = self.at
        workers = [number for number, commands in enumerate(kept) if commands]
        if worker not in workers or command not in kept[worker]:
            return None
        return Answer((workers.index(worker), kept[worker].index(command)), self.answer)


def goal_of(text):
    if text in WINDOWS:
        return Window(text)
    found = re.fullmatch(r"(\d+)\.(\d+)=(.+)", text)
    if not found:
        raise Refused(
            f"`{text}` is neither a window nor WORKER.COMMAND=ANSWER; `tools/stress --windows` lists the windows", 2
        )
    return Answer((int(found[1]), int(found[2])), found[3])
