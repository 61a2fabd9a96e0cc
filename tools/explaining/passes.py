"""The arithmetic of a pass. Linux: do_shrink_slab in mm/shrinker.c."""


class Due:
    """What a pass over `run.len` objects is to do, by its priority, seeks and batch."""

    def __init__(self, priority, seeks, batch, run):
        self.batch = batch or 128
        freeable = run.len
        self.delta = freeable // 2 if seeks == 0 else (freeable >> priority) * 4 // seeks
        self.total = min((run.nr >> priority) + self.delta, 2 * freeable)
        if self.batch <= freeable:
            self.asks, self.size = self.total // self.batch, self.batch
        else:
            self.asks, self.size = int(freeable <= self.total), min(self.batch, self.total)
        self.scanned = min(run.asks, self.asks) * self.size
        self.next = min(max(run.nr + self.delta - run.scanned, 0), 2 * freeable)


def wrong_in(due, run):
    """What of a pass doesn't follow the arithmetic, or None."""
    whole = run.ending == "through"
    if whole and run.asks != due.asks:
        return f"it says {run.asks} asks, and {due.asks} were due: of {run.len} objects {due.total} in batches of {due.batch}"
    if not whole and run.asks >= due.asks:
        return f"it ended by `{run.ending}`, so fewer asks were made than the {due.asks} that were due, and it says {run.asks}"
    if run.scanned != due.scanned:
        return f"it says that it asked for {run.scanned} objects, and {run.asks} asks are for {due.scanned}"
    if run.next != due.next:
        return (
            f"it defers {run.next} again, and what is left is {due.next}: {run.nr} deferred before, {due.delta} new,"
            f" {run.scanned} asked"
        )
    if run.closed > run.asks:
        return f"it says that {run.closed} asks found the list closed, of {run.asks} asks"
    return None
