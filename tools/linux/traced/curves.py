"""The passes of each row over time, for the page."""

from collections import defaultdict
from typing import NamedTuple

from traced.arithmetic import is_stopped
from traced.observer import Observer

FREED, SCANNED, NOTHING, STOPPED = "freed some", "freed none of what it scanned", "asked for nothing", "was stopped"
OUTCOMES = (FREED, SCANNED, NOTHING, STOPPED)


class Point(NamedTuple):
    """A pass as the page draws it."""

    time: float
    line: int
    node: int
    count: int
    word: int
    outcome: str


def outcome_of(made):
    if made.freed > 0:
        return FREED
    if is_stopped(made.row):
        return STOPPED
    return SCANNED if made.row.scanned else NOTHING


class Curves(Observer):
    """Keeps a point for each pass."""

    def __init__(self):
        self.points = defaultdict(list)

    def ended(self, made):
        self.points[made.name].append(Point(made.time, made.start, made.node, made.count, made.new, outcome_of(made)))

    def times(self):
        """When the first and the last pass was."""
        all_times = [point.time for points in self.points.values() for point in (points[0], points[-1])]
        return (min(all_times), max(all_times)) if all_times else (0.0, 0.0)
