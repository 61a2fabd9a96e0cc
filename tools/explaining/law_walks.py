"""L4: each walk is lawful, each command has its walks, and a worker's walks see what it did before."""

from collections import Counter

from explaining.case import FIRST_ISOLATION, Break
from explaining.law_walk import of_each
from explaining.shown import lower

TITLE = "each walk follows from the lists that it counted, each command has its walks, and a worker sees what it did before"


def of_others(case):
    """no_others"""
    for place, number, entry in case.each_entry():
        if entry.kind != "scan" or entry.walk[1] >= FIRST_ISOLATION:
            continue
        walk = case.scanner(entry)
        if walk is None or not any(attempt.run and walk.place(attempt.id) == place for attempt in walk.attempts):
            yield Break(
                "no_others",
                f"The `scan` entry {number} of the list at {case.place(place)} is of walk {entry.walk[1]} of worker"
                f" {entry.walk[0]}, which has no pass there.",
                [entry.line],
            )


def refused_rounds(case, by):
    """How often a put was refused, by group."""
    counts = Counter()
    for group in case.uses_of:
        limit = case.limit(group)
        if limit is not None:
            counts[group] += sum(use.up and use.found >= limit for use in case.uses_by.get((by, group), ()))
    return +counts


def round_of(case, group, priority):
    return [(at, node, priority, False) for node in range(case.script.nodes) for at in case.preorder(group)]


def of_put(case, by, command, answer, made):
    """What is wrong with the rounds of a put, or None."""
    counts = refused_rounds(case, by)
    if answer.kind == "over":
        group = answer.values[0]
        if not counts[group]:
            return f"It is answered Over of {case.group(group)}, where no charge of it was refused."
        counts[group] -= 1
    rounds = sum(counts.values())
    outside = next((group for group in +counts if not case.is_at_or_above(group, command.words["group"])), None)
    if outside is not None:
        return f"It has a round over {case.group(outside)}, which isn't at or above its own group."
    if rounds > 13 or (answer.kind == "over" and rounds != 13):
        return f"By its refused charges it has {rounds} rounds. A put has at most 13, and one that is answered Over has 13."
    return of_rounds(case, counts, made, answer.kind == "memory")


def of_rounds(case, counts, made, cut):
    """Whether walks are those of rounds over these groups, in some order, from priority 12 down."""
    at, priority = 0, 12
    while at < len(made):
        group = made[at][0]
        if counts[group] <= 0:
            return f"Its walk over {case.group(group)} begins a round, and no refused charge of it asks for a round there."
        due = round_of(case, group, max(priority, 0))
        have = made[at:at + len(due)]
        if have != due[:len(have)]:
            wrong = next(number for number, pair in enumerate(zip(have, due)) if pair[0] != pair[1])
            return f"Walk {at + wrong} of it isn't the one that is due: {walk_told(case, due[wrong])}."
        if len(have) < len(due) and not cut:
            return f"Its last round lacks walks: {walk_told(case, due[len(have)])} is the next one."
        counts[group] -= 1
        at, priority = at + len(have), priority - 1
    left = next(iter(+counts), None)
    if left is not None and not cut:
        return f"A charge of it was refused at {case.group(left)}, and it has no round over that group."
    return None


def walk_told(case, job):
    group, node, priority, nofs = job
    return f"{case.group(group)} on node {node}, priority {priority}, {'nofs' if nofs else 'fs'}"


def jobs_due(case, command):
    """The walks of a command that isn't a put."""
    words = command.words
    if command.verb == "shrink":
        return [(words["group"], words["node"], words["priority"], words["kind"] == 1)]
    if command.verb == "balance":
        return [(group, words["node"], words["priority"], words["kind"] == 1) for group in case.preorder(0)]
    return []


def of_commands(case):
    """walks"""
    for by, command, answer in case.each_answer():
        walks = case.rows_of("walks", by)
        made = [(walk.group, walk.node, walk.priority, walk.nofs) for walk in walks]
        if command.verb == "put":
            told = of_put(case, by, command, answer, made)
        else:
            told = of_due(case, command, answer, made)
        if told:
            yield Break("walks", f"{case.told_command(by).capitalize()}: {lower(told)}", [answer.line])


def of_due(case, command, answer, made):
    due = jobs_due(case, command)
    cut = answer.kind in ("memory", "walkmemory")
    if made == (due[:len(made)] if cut else due):
        return None
    if not due:
        return f"A `{command.verb}` makes no walk, and it has {len(made)}."
    at = next((at for at, pair in enumerate(zip(made, due)) if pair[0] != pair[1]), min(len(made), len(due)))
    wanted = walk_told(case, due[at]) if at < len(due) else "none"
    return f"Its walk {at} is {walk_told(case, made[at]) if at < len(made) else 'missing'}, and {wanted} is due."


def of_told(case):
    """told"""
    for by, command, answer in case.each_answer():
        walks = case.rows_of("walks", by)
        if command.verb == "shrink":
            told = (walks[0].answer, walks[0].told) if walks else ("memory", 0)
        elif command.verb == "balance":
            whole = len(walks) == len(case.preorder(0)) and not any(walk.is_cut for walk in walks)
            told = ("ran" if whole else "memory", sum(walk.freed_told for walk in walks))
        else:
            continue
        wanted = ({"ran": "walked", "memory": "walkmemory", "offline": "offline"}[told[0]], (told[1],))
        if (answer.kind, answer.values) != wanted:
            word = {"ran": "walked", "memory": "memory", "offline": "offline"}[told[0]]
            yield Break(
                "told",
                f"{case.told_command(by).capitalize()} is answered otherwise than its walks say, which is `{word} {told[1]}`.",
                [answer.line],
            )


def versions_in(walk):
    """The counts of a walk: place, version and line."""
    return [(walk.place(attempt.id), version, attempt.line) for attempt in walk.attempts for _, version in attempt.counts]


def of_versions(case):
    """versions"""
    for part in case.report.workers:
        last = {}
        for walk in part.walks:
            for place, version, line in versions_in(walk):
                before = last.get(place)
                if before and version < before[0]:
                    yield Break(
                        "versions",
                        f"The attempt counts the list at {case.place(place)} after {version} entries, and an earlier count of"
                        f" its worker was after {before[0]}.",
                        [line, before[1]],
                    )
                last[place] = (version, line)


def of_later(case):
    """later"""
    for part in case.report.workers:
        cited, at = {}, 0
        for walk in part.walks:
            while at < min(walk.by[1], len(part.answers)):
                answer = part.answers[at]
                if answer.cited:
                    place, number = answer.cited
                    if number >= cited.get(place, (-1, 0))[0]:
                        cited[place] = (number, answer.line)
                at += 1
            for place, version, line in versions_in(walk):
                if place in cited and version <= cited[place][0]:
                    yield Break(
                        "later",
                        f"The attempt counts the list at {case.place(place)} after {version} entries, and an earlier answer"
                        f" of its worker cites entry {cited[place][0]} there.",
                        [line, cited[place][1]],
                    )


def of_bits(case):
    """bits"""
    cleared = {walk.place(attempt.id) for walk in case.walks for attempt in walk.attempts if attempt.is_clearing}
    for part in case.report.workers:
        filled, at = {}, 0
        for walk in part.walks:
            while at < min(walk.by[1], len(part.answers)):
                note_filled(case, filled, part.answers[at])
                at += 1
            for seen in walk.maps:
                for place, line in filled.get((walk.group, walk.node, seen.unit), ()):
                    if place not in cleared and not seen.bits >> place.id % 64 & 1:
                        yield Break(
                            "bits",
                            f"The map lacks the bit of id {place.id} in {case.group(walk.group)} on node {walk.node}. An"
                            " earlier put of this worker added the first object to that list, which sets the bit, and no"
                            " walk cleared it.",
                            [seen.line, line],
                        )


def note_filled(case, filled, answer):
    """Notes the place to whose empty list an answer added an object."""
    if answer.kind == "added":
        place, number = answer.cited
        if case.journals.length_at(place, number) == 0:
            filled.setdefault((place.group, place.node, place.id // 64), []).append((place, answer.line))


FIELDS = (of_each, of_others, of_commands, of_told, of_versions, of_later, of_bits)
