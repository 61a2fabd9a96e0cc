"""The journals of pools of units: each entry's outcome, the counts that walks read, and the entries that passes made.

A pool's owner keeps its units, so none of this is Linux's to say; its passes are, and `passes.py` makes them again.
"""

from collections import defaultdict

from beside.pools import MOST


def check_units(script, report):
    """What differs, each as the number of a line and what is said of it."""
    wrong, free, made = [], {}, defaultdict(list)
    for place, units in report.units.items():
        free[place], faults = count_journal(units)
        wrong += faults
        for line, words in units.entries:
            if words[0] == "reclaim":
                made[place, words[1], words[2]].append((line, int(words[4])))
    for attempt in report.of_pools:
        place = attempt.id, 0 if script.pools[attempt.id].flat else int(attempt.walk[3])
        reclaims = made.pop((place, attempt.worker, attempt.walk[1]), [])
        wrong += [(attempt.line, fault) for fault in faults_of(attempt, free.get(place, [0]), reclaims)]
    return wrong + [(reclaims[0][0], "no pass made this entry") for reclaims in made.values()]


def count_journal(units):
    """How many units are free after so many entries, from none on, and what is wrong with entries."""
    free, wrong = [0], []
    for line, words in units.entries:
        outcome, more = words[3], 0
        if words[0] == "release":
            more = int(words[3])
        elif words[0] == "grab":
            outcome, more = ("got", -1) if free[-1] else ("bare", 0)
        else:
            more = -min(int(words[3]), free[-1])
            outcome = words[3] if int(words[4]) == -more else None
        if outcome != words[3] or free[-1] + more > MOST:
            wrong.append((line, f"{free[-1]} units were free before this entry"))
        free.append(free[-1] + more)
    if free[-1] != units.free:
        wrong.append((units.line, f"the journal leaves {free[-1]} units free"))
    return free, wrong


def faults_of(attempt, free, reclaims):
    """What is wrong with a try by the counts of its place's journal, and by the entries that it made there."""
    told = attempt.words[3:]
    length, version = (0, int(told[1])) if told[0] == "empty" else map(int, told[1:3])
    if version >= len(free) or free[version] != length:
        yield f"{length} units counted after {version} entries"
    asks, freed = (int(told[4]), int(told[7])) if told[0] == "ran" else (0, 0)
    if (len(reclaims), sum(count for _, count in reclaims)) != (asks, freed):
        yield f"the pool's journal has {len(reclaims)} entries of it, or they freed another number"
