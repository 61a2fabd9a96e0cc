"""What of Linux was compared, and in how many cases."""

from collections import Counter

# each kind of cases with the functions of Linux that decide them
ALL = {
    "passes": "do_shrink_slab (mm/shrinker.c)",
    "walks of a group": "shrink_slab_memcg, set_shrinker_bit (mm/shrinker.c)",
    "walks of the root": "shrink_slab (mm/shrinker.c)",
    "registrations, and their ends": "shrinker_alloc, shrinker_register, shrinker_free (mm/shrinker.c)",
    "deferred words carried": "reparent_shrinker_deferred (mm/shrinker.c)",
    "puts on a list": "list_lru_add, memcg_list_lru_alloc (mm/list_lru.c)",
    "objects taken from a list": "list_lru_del (mm/list_lru.c)",
    "counts": "list_lru_count_one (mm/list_lru.c)",
    "scans": "list_lru_walk_one, list_lru_isolate (mm/list_lru.c)",
    "lists moved": "memcg_reparent_list_lrus (mm/list_lru.c)",
    "steps of usage": "page_counter_try_charge, _cancel, _uncharge (mm/page_counter.c)",
}
# what a report of several workers lets one make again
CHECKED = ("passes", "puts on a list", "objects taken from a list", "counts", "scans", "lists moved")
KINDS = {
    "reply": "commands", "walk": "walks", "pool": "registrations, and their ends", "carry": "deferred words carried",
    "add": "puts on a list", "scan": "scans", "moved": "lists moved", "use": "steps of usage",
}  # fmt: skip


def cases_of(lines):
    """How many cases of each kind the lines of a report have."""
    cases = Counter(lines=len(lines))
    for line in lines:
        words = line.split(" ")
        if words[0] in KINDS and (words[0] != "pool" or words[2] != "idle" and len(words) > 3):
            cases[KINDS[words[0]]] += 1
        if words[0] == "walk":
            cases["walks of the root" if words[2] == "0" else "walks of a group"] += 1
        elif words[0] == "try" and words[3] == "held":
            cases["counts"] += 2 if words[4] in ("cleared", "restored") else 1
            cases["passes"] += "ran" in words
        elif words[0] == "pass":
            cases["passes"] += words[2] == "ran"
        elif words[0] == "drop" and words[-1] == "dropped":
            cases["objects taken from a list"] += 1
        elif words[0] == "drained":
            cases["objects taken from a list"] += int(words[3])
    return cases


def table_of(cases, kinds):
    """The cases of some kinds as lines."""
    return [f"  {cases[kind]:9}  {kind}: {ALL[kind]}" for kind in kinds]
