"""What differs from Linux by choice. It is applied to what the kernel's code did before reports are compared."""

from collections import Counter

# each with what is done, and of what the count is
CHOICES = {
    "root order": "a walk of the root goes by id; Linux's by the order of registration, which was put in order",
    "root idle": "a walk of the root looks up each id; Linux's meets registered shrinkers alone, the others were added",
    "pools last": "a walk of the pools has a line of its own behind the command's walks; Linux's walk of the root meets"
    " them among the other shrinkers",
    "head again": "`isolate` begins at the head after each visit; Linux's walks do after RETRY and REMOVED_RETRY, and here"
    " each visit is a walk of one",
    "no unit": "a map is there before any shrinker was registered; Linux has none yet, and zeros stand for it",
    "made before": "a group that is made during a run is answered so until then; in Linux it isn't there, here the"
    " driver made it first",
    "begun first": "a group that began to go offline is told so to its tenants; in Linux they don't come any more",
    "words zeroed": "an offlined group's deferred words are exchanged with 0; Linux leaves them, and they were zeroed",
    "drained": "`unregister` empties the cache's lists; in Linux its owner does, and the driver did",
    "rounds": "a refused charge reclaims in rounds, priority 12 down to 0, each over the refusing group's subtree",
    "above 2^63": "a pass computes over whole numbers; Linux in `long`, so such passes weren't compared",
    "closed": "a count or scan of a list that was handed over finds it closed; Linux's goes on over the parent's",
}  # fmt: skip

NOTES = "the numbers of journal entries, lookups, operations and walks, which are the report's own, were added"


class Choices:
    """How often each choice was applied."""

    def __init__(self):
        self.counts = Counter()

    def apply(self, name, times=1):
        """Notes that a choice was applied."""
        assert name in CHOICES
        self.counts[name] += times

    def lines(self):
        """What was applied, for the user."""
        return [f"  {self.counts[name]:7}  {said}" for name, said in CHOICES.items() if self.counts[name]]
