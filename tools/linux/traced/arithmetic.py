"""The arithmetic of a pass, as do_shrink_slab in mm/shrinker.c has it; trace-test holds it against the kernel's code."""

from functools import lru_cache
from typing import NamedTuple

SHRINK_BATCH = 128


class Row(NamedTuple):
    """A pass by its numbers. Without probes seeks and batch are None."""

    count: int
    nr: int
    priority: int
    seeks: int | None
    batch: int | None
    delta: int
    total: int
    left: int
    next: int

    @property
    def scanned(self):
        return self.total - self.left


def delta_of(count, priority, seeks):
    """The new work of a pass."""
    return (count >> priority) * 4 // seeks if seeks else count // 2


def total_of(count, nr, priority, delta):
    """How many objects a pass is to scan."""
    return min((nr >> priority) + delta, 2 * count)


def whole_of(total, count, batch):
    """How many objects a pass asks for that nobody stops: whole batches, and the rest if it is the count or more."""
    rest = total % batch
    return total if rest >= count else total - rest


def next_of(nr, delta, scanned, count):
    """The work that a pass defers."""
    return min(max(nr + delta - scanned, 0), 2 * count)


def is_part(scanned, whole, batch):
    """Whether a pass that was to scan `whole` may have been stopped after `scanned`."""
    return scanned == whole or 0 <= scanned < whole and scanned % batch == 0


@lru_cache(maxsize=None)
def fault_of(row):
    """What of a pass is not by the arithmetic, with what mm/shrinker.c gives, or an empty text."""
    if row.seeks is not None and row.delta != (delta := delta_of(row.count, row.priority, row.seeks)):
        of = f"{row.count} objects at priority {row.priority}"
        return f"delta is {row.delta}, and mm/shrinker.c gives {delta} for {of}"
    if row.total != (total := total_of(row.count, row.nr, row.priority, row.delta)):
        of = f"{row.nr} deferred and a delta of {row.delta}"
        return f"total_scan is {row.total}, and mm/shrinker.c gives {total} for {of}"
    if row.batch is None:
        whole = row.total
        if 0 <= row.scanned <= whole:
            return ""
    else:
        batch = row.batch or SHRINK_BATCH
        whole = whole_of(row.total, row.count, batch)
        if is_part(row.scanned, whole, batch):
            return ""
    return (
        f"{row.scanned} of {row.total} were scanned, and mm/shrinker.c scans {whole} or, if it is stopped, whole batches"
        " of them, unless a callback changes nr_scanned"
    )


@lru_cache(maxsize=None)
def is_stopped(row):
    """Whether a pass was stopped by its callback; without probes, whether it was for certain."""
    if row.batch is None:
        return row.left >= row.count
    return row.scanned < whole_of(row.total, row.count, row.batch or SHRINK_BATCH)


@lru_cache(maxsize=None)
def fitting_seeks(count, priority, delta):
    """The seeks up to 1,024 that give a delta, for a shrinker whose seeks no probe shows."""
    return frozenset(seeks for seeks in range(1025) if delta_of(count, priority, seeks) == delta)
