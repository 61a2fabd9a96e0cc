"""The files that a command is given: scripts and reports, told apart by their first lines. A script comes before its report."""

import sys
from dataclasses import dataclass

from beside.fault import Fault, text_of


@dataclass
class Pair:
    """A script's path and text, and those of its report, which are empty where there is none."""

    path: str
    text: str
    report_path: str = ""
    report: str = ""

    def name(self):
        """The path that the pair is named by."""
        return self.report_path or self.path


def pairs_of(paths):
    """The scripts, each with the report that is given behind it, and why each other path is skipped."""
    pairs, skipped, script = [], {}, None
    for path in paths:
        before, script = script, None
        try:
            text = text_of(path)
        except Fault as fault:
            skipped[path] = str(fault)[len(path) + 2 :]
            continue
        first = text.partition("\n")[0]
        if first.startswith("shrinkers "):
            script = Pair(path, text)
            pairs.append(script)
        elif not first.startswith("report "):
            skipped[path] = why_neither(text, first)
        elif before:
            before.report_path, before.report = path, text
        else:
            skipped[path] = "a report without its script; SCRIPT comes before its REPORT"
    return pairs, skipped


def why_neither(text, first):
    """Why a text is neither a script nor a report."""
    if first.startswith("refused "):
        return f"no report, its script was refused: {first[:60]}"
    if not text:
        return "the file is empty, and a script or a report is wanted"
    return f"neither a script (`shrinkers 1`) nor a report (`report 1`): its first line is `{first[:40]}`"


def say_skipped(command, done, skipped):
    """Tells why some files were not served, each by its path; a fault that names the path isn't told it twice."""
    for path, reason in skipped.items():
        if reason.startswith(path) and reason[len(path) : len(path) + 2] in (": ", ", "):
            reason = reason[len(path) + 2 :]
        print(f"{command}: {path}: not {done}: {reason}", file=sys.stderr)
