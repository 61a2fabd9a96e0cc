"""Whether a report tells of workers that met: whether no order of whole workers explains it."""


def chain(workers):
    """Each two neighbours of a journal that are of two workers."""
    return {(a, b) for a, b in zip(workers, workers[1:]) if a != b}


def journals(report):
    """The workers of each journal's entries, of each id's lookups, and of each usage's operations, by number."""
    lookups = {}
    for (worker, _), find in report.finds.items():
        lookups.setdefault(find.id, {})[find.number] = worker
    for it in report.attempts:
        lookups.setdefault(it.id, {})[it.number] = it.worker
    yield from ([found[number] for number in sorted(found)] for found in lookups.values())
    for entries in report.lists.values():
        yield [int(it[1]) for it in entries if it[0] not in ("moved", "closed")]
    for entries in report.units.values():
        yield [int(it[1]) for it in entries]
    for uses in report.uses.values():
        yield [it.worker for it in uses]
    for word, place in (("registered", 2), ("made", 1), ("done", 1)):
        size = {"done": 4, "made": 2, "registered": 3}[word]
        told = {int(it[place]): at[0] for at, it in report.replies.items() if it[0] == word and len(it) == size}
        yield [told[number] for number in sorted(told)]


def versions(attempt):
    """How many entries of its list an attempt saw, at each of its counts."""
    held, words = attempt.held(), attempt.words
    if held in ("skip", "ran"):
        return [int(words[3])]
    if held == "empty":
        return [int(words[2])]
    if held == "cleared":
        return [int(words[2]), int(words[3])]
    if held == "restored":
        return [int(words[2]), int(words[5])]
    return []


def edges(report):
    """Pairs of workers of which the first did something before the second did something."""
    found = set()
    for journal in journals(report):
        found |= chain(journal)
    for it in report.attempts:
        entries = report.lists.get(it.place(), [])
        for seen in versions(it):
            for i, is_before in ((seen - 1, True), (seen, False)):
                if 0 <= i < len(entries) and entries[i][0] not in ("moved", "closed"):
                    other = int(entries[i][1])
                    found.add((other, it.worker) if is_before else (it.worker, other))
    return {(a, b) for a, b in found if a != b}


def is_mixed(report):
    """Whether these pairs have a cycle: then no order of whole workers explains the report."""
    after = {}
    for a, b in edges(report):
        after.setdefault(a, set()).add(b)
    left = set(after)
    while left:
        ends = {it for it in left if not after[it] & left}
        if not ends:
            return True
        left -= ends
    return False
