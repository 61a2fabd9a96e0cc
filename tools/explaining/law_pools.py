"""L10: each unit that was released was grabbed once, was reclaimed once, or is free."""

from collections import Counter

from explaining.case import Break, free_after, home
from explaining.passes import Due, wrong_in
from explaining.report import Place
from explaining.shown import lower

TITLE = "each unit that was released to a pool was grabbed once, was reclaimed once, or is free"


def pool_told(case, place):
    pools = case.script.pools
    name = pools[place.id].name.decode() if place.id < len(pools) else "not there"
    return f"pool {place.id} ({name}) on node {place.node}"


def of_units(case):
    """units"""
    script = case.script
    for found in case.report.units:
        place, free = found.place, 0
        if place.id >= len(script.pools) or place.node >= script.nodes:
            yield Break("units", f"There is no {pool_told(case, place)}.", [found.line])
        if home(script, place.id, place.node) != place:
            yield Break(
                "units", f"{pool_told(case, place).capitalize()} is flat, and keeps all its units at node 0.", [found.line],
            )
        for number, entry in enumerate(found.entries):
            told = of_entry(free, entry)
            if told:
                yield Break("units", f"Entry {number} of {pool_told(case, place)}: {lower(told)}", [entry.line])
            free = free_after(free, entry)
        if found.free != free:
            yield Break(
                "units", f"{found.free} units are told as free of {pool_told(case, place)}, and its journal leaves {free}.",
                [found.line],
            )


def of_entry(free, entry):
    """What is wrong with the outcome of an entry, or None."""
    if entry.kind == "release":
        return (
            f"{free} units are free before it, and with {entry.number} more there are over 20,000."
            if free + entry.number > 20_000 else None
        )
    if entry.kind == "grab":
        got = int(free > 0)
        return None if entry.number == got else f"{free} units are free before it, so it is `{'got' if got else 'bare'}`."
    right = min(entry.asked, free)
    return (
        None if entry.freed == right else
        f"{free} units are free before it and it asks for {entry.asked}, so it frees {right}, and it says {entry.freed}."
    )


def of_once(case):
    """once"""
    seen = {}
    for found in case.report.units:
        if found.place in seen:
            yield Break(
                "once", f"The journal of {pool_told(case, found.place)} is printed twice.", [found.line, seen[found.place]],
            )
        seen[found.place] = found.line


def of_replies(case):
    """replies"""
    wanted = {"released": ("release", None), "grabbed": ("grab", 1), "bare": ("grab", 0)}
    for by, command, answer in case.each_answer():
        if command.verb not in ("release", "grab"):
            continue
        at = home(case.script, command.words["pool"], command.words["node"])
        if answer.kind in (*wanted, "full") and Place(*answer.values[:2], 0) != at:
            yield Break(
                "replies", f"{case.told_command(by).capitalize()} is answered with another place than {pool_told(case, at)}.",
                [answer.line],
            )
        elif answer.kind == "full":
            told = of_full(case, at, command, answer)
            if told:
                yield Break("replies", f"{case.told_command(by).capitalize()}, answered `full`: {lower(told)}", [answer.line])
        elif answer.kind in wanted:
            entries, number, (kind, got) = case.units_entries(at), answer.values[2], wanted[answer.kind]
            entry = entries[number] if number < len(entries) else None
            value = command.words["units"] if kind == "release" else got
            if entry is None or (entry.kind, entry.by, entry.number) != (kind, by, value):
                yield Break(
                    "replies",
                    f"{case.told_command(by).capitalize()} cites entry {number} of {pool_told(case, at)}, which isn't its own.",
                    [answer.line] + ([entry.line] if entry else []),
                )


def of_full(case, at, command, answer):
    _, _, entries, free = answer.values
    if entries > len(case.units_entries(at)):
        return f"it knew {entries} entries of {pool_told(case, at)}, which has {len(case.units_entries(at))}."
    if free != case.free_at(at, entries):
        return f"it says {free} units were free after {entries} entries, and {case.free_at(at, entries)} were."
    units = command.words["units"]
    return (
        None if free + units > 20_000 else
        f"with {units} more there would be {free + units} units, and a pool is full above 20,000."
    )


def of_cited(case):
    """cited"""
    for place, found in case.units.items():
        for number, entry in enumerate(found.entries):
            answer = case.answer(entry.by) if entry.kind != "reclaim" else None
            if entry.kind != "reclaim" and (answer is None or answer.units_cited != (place, number)):
                yield Break(
                    "cited",
                    f"Entry {number} of {pool_told(case, place)} is of {case.told_command(entry.by)}, whose answer doesn't"
                    " cite it.",
                    [entry.line],
                )


def of_order(case):
    """rise, full"""
    for part in case.report.workers:
        last = {}
        for answer in part.answers:
            place = Place(*answer.values[:2], 0) if answer.kind == "full" or answer.units_cited else None
            before = last.get(place)
            if answer.units_cited:
                number = answer.units_cited[1]
                if before and before[0] >= number:
                    yield Break(
                        "rise",
                        f"The answer cites entry {number} of {pool_told(case, place)}, and an earlier answer of its worker"
                        f" cites entry {before[0]}.",
                        [answer.line, before[1]],
                    )
                last[place] = (number, answer.line)
            elif place and before and answer.values[2] <= before[0]:
                yield Break(
                    "full",
                    f"The answer knew {answer.values[2]} entries of {pool_told(case, place)}, and an earlier answer of its"
                    f" worker cites entry {before[0]}.",
                    [answer.line, before[1]],
                )


def of_walks(case):
    """walks"""
    for walk in case.pool_walks:
        for field, told, line in of_walk(case, walk):
            yield Break(
                f"walks, {field}",
                f"Walk {walk.number} of the pools by worker {walk.by[0]}, on node {walk.node}: {lower(told)}",
                [line] if line == walk.line else [line, walk.line],
            )


def of_walk(case, walk):
    pools, tries = case.script.pools, len(walk.tries)
    if tries > len(pools) or (tries < len(pools) and walk.answer == "ran"):
        yield "tries", f"it tries {tries} pools, and the script has {len(pools)}.", walk.line
    rows = [(home(case.script, number, walk.node), pool, found) for number, (pool, found) in enumerate(zip(pools, walk.tries))]
    for place, pool, found in rows:
        yield from of_try(case, place, pool, found)
    for number, (place, pool, found) in enumerate(rows):
        if found.run:
            told = of_pass(case, place, pool, walk, found.run)
            if told:
                yield "passes", f"{pool_told(case, place)}: {lower(told)}", found.line
            if found.run.ending == "noroom" and not (walk.answer == "memory" and tries == number + 1):
                yield "cut", "a pass that ended for want of room is the last try of a walk that ended by `memory`.", found.line
    freed = sum(found.run.freed for found in walk.tries if found.run)
    if walk.told != freed:
        yield "freed", f"it says that it freed {walk.told}, and its passes freed {freed}.", walk.line


def of_try(case, place, pool, found):
    if found.version > len(case.units_entries(place)):
        yield (
            "counts",
            f"it counts {pool_told(case, place)} after {found.version} entries, and its journal has"
            f" {len(case.units_entries(place))}.",
            found.line,
        )
    elif found.len != case.free_at(place, found.version):
        yield (
            "counts",
            f"it counts {found.len} units of {pool_told(case, place)} after {found.version} entries, and"
            f" {case.free_at(place, found.version)} were free.",
            found.line,
        )
    if found.kind == "skip" and not 0 < found.len <= pool.floor:
        yield (
            "kinds", f"it skips {found.len} units, and {pool_told(case, place)} skips from 1 up to its floor of {pool.floor}.",
            found.line,
        )
    if found.kind == "ran" and found.len <= pool.floor:
        yield (
            "kinds", f"it passes {found.len} units, and {pool_told(case, place)} skips up to its floor of {pool.floor}.",
            found.line,
        )


def of_pass(case, place, pool, walk, run):
    """What is wrong with a pass of a pool, or None."""
    due = Due(walk.priority, pool.seeks, pool.batch, run)
    entries = case.units_entries(place)
    told = wrong_in(due, run)
    if told:
        return f"the pass (priority {walk.priority}, seeks {pool.seeks}, batch {pool.batch}): {told}."
    if run.closed:
        return "the pass says that an ask found the list closed, and a pool has none."
    if run.ending == "stop" or (run.ending == "worn" and len(entries) != 2**31):
        return f"a pass of a pool doesn't end by `{run.ending}` here: the pool's journal has {len(entries)} entries."
    own = (walk.by[0], walk.number)
    reclaims = [(number, entry) for number, entry in enumerate(entries) if entry.kind == "reclaim" and entry.by == own]
    if len(reclaims) != run.asks or any(entry.asked != due.size for _, entry in reclaims):
        return (
            f"the pass made {run.asks} asks of {due.size} units, and its `reclaim` entries there are"
            f" {len(reclaims)}{', with other sizes' if len(reclaims) == run.asks else ''}."
        )
    if sum(entry.freed for _, entry in reclaims) != run.freed:
        return (
            f"the pass says that it freed {run.freed} units, and its `reclaim` entries freed"
            f" {sum(entry.freed for _, entry in reclaims)}."
        )
    old = next((number for number, _ in reclaims if number < run.version), None)
    return None if old is None else f"the pass counted after {run.version} entries, and its `reclaim` is entry {old}."


def due_of(case, command, answer):
    """The walks of the pools that a command has: the node and the priority of each."""
    words = command.words
    if not case.script.pools or answer.kind != "walked":
        return []
    if command.verb == "balance" or (command.verb == "shrink" and words["group"] == 0):
        return [(words["node"], words["priority"])]
    return []


def of_due(case):
    """due, commands"""
    for by, command, answer in case.each_answer():
        due = due_of(case, command, answer)
        walks = case.rows_of("plain", by)
        if [(walk.node, walk.priority) for walk in walks] != due:
            wanted = f"one walk of the pools, on node {due[0][0]} with priority {due[0][1]}" if due else "no walk of the pools"
            has = [walks[0].line] if walks else []
            yield Break(
                "due",
                f"{case.told_command(by).capitalize()} makes {wanted}, and the report has {'another' if walks else 'none'}.",
                [answer.line, *has],
            )
    for walk in case.pool_walks:
        command, answer = case.command(walk.by), case.answer(walk.by)
        if command is None or not due_of(case, command, answer):
            yield Break("commands", f"A walk of the pools of {case.told_command(walk.by)}, which has none.", [walk.line])


def of_versions(case):
    """versions, later"""
    for part in case.report.workers:
        last, cited, at = {}, {}, 0
        for walk in part.plain:
            while at < min(walk.by[1], len(part.answers)):
                if part.answers[at].units_cited:
                    place, number = part.answers[at].units_cited
                    cited[place] = (number, part.answers[at].line)
                at += 1
            for pool, found in enumerate(walk.tries):
                place = home(case.script, pool, walk.node)
                if found.version < last.get(place, (0,))[0]:
                    yield Break(
                        "versions",
                        f"The walk of the pools counts {pool_told(case, place)} after {found.version} entries, and an earlier"
                        f" count of its worker was after {last[place][0]}.",
                        [found.line, last[place][1]],
                    )
                last[place] = (found.version, found.line)
                if place in cited and found.version <= cited[place][0]:
                    yield Break(
                        "later",
                        f"The walk of the pools counts {pool_told(case, place)} after {found.version} entries, and an earlier"
                        f" answer of its worker cites entry {cited[place][0]}.",
                        [found.line, cited[place][1]],
                    )


def of_others(case):
    """no_others"""
    for place, found in case.units.items():
        for number, entry in enumerate(found.entries):
            if entry.kind != "reclaim":
                continue
            walks = case.report.part(entry.by[0]).plain
            walk = walks[entry.by[1]] if entry.by[1] < len(walks) else None
            here = walk and place.id < len(walk.tries) and home(case.script, place.id, walk.node) == place
            tried = walk.tries[place.id] if here else None
            if tried is None or not tried.run:
                yield Break(
                    "no_others",
                    f"The `reclaim` entry {number} of {pool_told(case, place)} is of walk {entry.by[1]} of the pools by"
                    f" worker {entry.by[0]}, which has no pass there.",
                    [entry.line],
                )


def of_deferred(case):
    """deferred, shown"""
    given, taken = Counter(), Counter()
    for walk in case.pool_walks:
        for pool, found in enumerate(walk.tries):
            if found.run:
                given[home(case.script, pool, walk.node)] += found.run.next
                taken[home(case.script, pool, walk.node)] += found.run.nr
    printed = {row.place: row for row in case.report.pool_deferred}
    for place in sorted({*given, *printed}):
        told, right = (printed[place].amount if place in printed else 0), (given[place] - taken[place]) % 2**64
        if told != right:
            line = printed[place].line if place in printed else None
            yield Break(
                "deferred, shown",
                f"The deferred word of {pool_told(case, place)} is {told:,}, and its passes leave {right:,}.",
                [line] if line else [],
            )


FIELDS = (of_units, of_once, of_replies, of_cited, of_order, of_walks, of_due, of_versions, of_others, of_deferred)
