"""The laws of a report by their numbers, and the first one that is broken."""

from explaining import law_causes, law_charges, law_fresh, law_isolations, law_journals
from explaining import law_lookups, law_pools, law_replies, law_walks

LAWS = (
    ("replies", law_replies.TITLE, law_replies.FIELDS),
    ("journals", law_journals.TITLE, law_journals.FIELDS),
    ("the bag", law_journals.BAG_TITLE, law_journals.BAG_FIELDS),
    ("walks", law_walks.TITLE, law_walks.FIELDS),
    ("lookups", law_lookups.TITLE, law_lookups.FIELDS),
    ("charges", law_charges.TITLE, law_charges.FIELDS),
    ("deferred words", law_charges.DEFERRED_TITLE, law_charges.DEFERRED_FIELDS),
    ("bits", law_charges.BITS_TITLE, law_charges.BITS_FIELDS),
    ("causes", law_causes.TITLE, law_fresh.FIELDS),
    ("pools of units", law_pools.TITLE, law_pools.FIELDS),
    ("isolations", law_isolations.TITLE, law_isolations.FIELDS),
    ("the sweep", law_isolations.SWEEP_TITLE, law_isolations.SWEEP_FIELDS),
)


def first_broken(case):
    """The number of the first law that doesn't hold, its name and sentence, and the first place that breaks it; or None."""
    for number, (name, title, fields) in enumerate(LAWS, 1):
        for judge in fields:
            found = next(iter(judge(case)), None)
            if found:
                return number, name, title, found
    return None
