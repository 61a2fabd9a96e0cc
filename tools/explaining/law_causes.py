"""L9: each answer, worn attempt and entry has in the report what it came from."""

from explaining import readings
from explaining.case import Break, decl_named, group_named, home, is_pool_verb
from explaining.law_charges import Tree
from explaining.shown import lower

TITLE = "each answer, each counter that is used up and each entry has its cause in the report, and no worker forgets what it knew"
MAY_HAVE_BEGUN = ("offlined", "alreadydone", "worn", "memory")
MAY_HAVE_SPLICED = ("alreadydone", "worn", "memory")


def spent_wrong(case, worker, spent):
    """Why a counter of the caches' tables can't have been found used up by a worker, or None."""
    if spent.kind == "lookups":
        lookups = case.registrations.lookups(spent.first)
        if not 2**32 - 256 <= spent.second <= lookups:
            return (
                f"it says that the lookups of id {spent.first} are used up at {spent.second}. They are from {2**32 - 256:,}"
                f" on, and the id has {lookups}."
            )
    elif spent.kind == "list":
        entries = len(case.journals.entries(spent.place))
        if not (spent.first > 2**31 or spent.second > 20_000) or spent.first > entries + 1 or spent.second > case.puts:
            return (
                f"it says that the list at {case.place(spent.place)} is full with {spent.first} entries and {spent.second}"
                f" items. A list is full behind 2^31 entries or 20,000 items, and it has {entries} entries."
            )
    else:
        ups, downs = case.worker_uses(worker)
        if not (spent.first >= 1_048_576 or spent.second >= 4_194_304) or spent.first > ups or spent.second > downs:
            return (
                f"it says that the charges are used up by {spent.first} charges and {spent.second} uncharges. They are so"
                f" from 1,048,576 or 4,194,304 on, and the worker made {ups} and {downs}."
            )
    return None


def pool_spent_wrong(case, place, spent):
    """The same of the journal of a pool."""
    entries = case.units_entries(place)
    full = spent.kind == "list" and spent.place == place and spent.first == 2**31 == len(entries)
    right = full and spent.second == case.free_at(place, spent.first)
    return None if right else f"it says that the journal of the pool is used up. It is by 2^31 entries, and has {len(entries)}."


def stands(case, number, kind, group):
    """What is wrong with an entry of the journal of the tree that is cited, or None."""
    tree = case.report.tree
    entry = tree[number] if number < len(tree) else None
    if entry and (entry.kind, entry.group) == (kind, group):
        return None
    has = f"is the `{entry.kind}` of {case.group(entry.group)}" if entry else "isn't there"
    return f"it cites entry {number} of the journal of the tree as the `{kind}` of {case.group(group)}, and that entry {has}."


def group_met(case, command):
    """The group that an answer calls offline or not made."""
    group = group_named(command)
    return case.parents[group] if command.verb == "mkgroup" else group


def of_offline(case, by, command, answer):
    return stands(case, answer.values[0], "begin", group_met(case, command))


def of_notmade(case, by, command, answer):
    group = group_met(case, command)
    if answer.values[0] != group:
        return f"it says that {case.group(answer.values[0])} isn't made, and it asks of {case.group(group)}."
    return None if case.is_later(group) else f"it says that {case.group(group)} isn't made, which is there from the start."


def of_made(case, by, command, answer):
    return stands(case, answer.values[0], "made", group_named(command))


def of_over(case, by, command, answer):
    group, operation, usage = answer.values
    uses, limit = case.uses_of.get(group, []), case.limit(group)
    use = uses[operation] if operation < len(uses) else None
    if use is None or (use.operation, use.up, use.found, use.by) != (operation, True, usage, by):
        return (
            f"it cites operation {operation} of {case.group(group)} as its charge that found a usage of {usage}, and that"
            " operation isn't this."
        )
    if limit is None or usage < limit:
        return (
            f"{case.group(group)} has {'no limit' if limit is None else f'a limit of {limit}'}, so a usage of {usage} refuses"
            " nothing."
        )
    if any(use.up and use.operation > operation for use in case.uses_by[by, group]):
        return f"operation {operation} of {case.group(group)} isn't its last charge there."
    tried = sum(use.up for use in case.uses_by.get((by, group_named(command)), ()))
    return None if tried == 14 else f"a put gives up after 14 tries, and it charged its own group {tried} times."


def known_wrong(case, entry):
    entries = len(case.report.pool)
    return f"it knew {entry} entries of the journal of registrations, which has {entries}." if entry > entries else None


def of_nocache(case, by, command, answer):
    decl, entry = decl_named(command), answer.values[0]
    live = case.registrations.live_id(case.script.ids, decl, entry)
    told = f"after {entry} entries of the journal of registrations its cache is live, as id {live}." if live is not None else None
    return known_wrong(case, entry) or told


def of_alreadyregistered(case, by, command, answer):
    entry = answer.values[0]
    live = case.registrations.live_id(case.script.ids, decl_named(command), entry)
    return (
        known_wrong(case, entry) or (
        f"after {entry} entries of the journal of registrations its cache isn't live." if live is None else None)
    )


def of_noid(case, by, command, answer):
    entry, ids = answer.values[0], case.script.ids
    if known_wrong(case, entry) or case.registrations.live_id(ids, decl_named(command), entry) is not None:
        return known_wrong(case, entry) or f"after {entry} entries of the journal of registrations its cache is live."
    lowest = case.registrations.lowest_idle(ids, entry)
    return None if lowest is None else f"after {entry} entries of the journal of registrations id {lowest} is idle."


def of_worn(case, by, command, answer):
    if is_pool_verb(command):
        return pool_spent_wrong(case, home(case.script, command.words["pool"], command.words["node"]), answer.spent)
    return spent_wrong(case, by[0], answer.spent)


def of_offlined(case, by, command, answer):
    group = group_named(command)
    entry, moved, deferred = answer.values
    told = stands(case, entry, "done", group)
    if told:
        return told
    carried = sum(carry.amount for carry in case.rows_of("carries", by)) % 2**64
    if deferred != carried:
        return f"it says that it carried {deferred:,}, and its lines `carry` come to {carried:,}."
    most = case.moved_from[group]
    if moved > most:
        return f"it says that it moved {moved} objects, and {most} were moved from the lists of {case.group(group)}."
    if moved < most and is_alone(case, by, group):
        return (
            f"it says that it moved {moved} objects, {most} were moved from the lists of {case.group(group)}, and nobody else"
            " can have moved them."
        )
    return None


def is_alone(case, by, group):
    """Whether nobody else can have spliced lists of the group."""
    if any(other != by for other in case.offlines(group, MAY_HAVE_SPLICED)):
        return False
    above = [at for at in case.path(group) if at != group]
    return not any(other[0] != by[0] for at in above for other in case.offlines(at, MAY_HAVE_BEGUN))


def of_alreadydone(case, by, command, answer):
    return stands(case, answer.values[0], "done", group_named(command))


def of_root(case, by, command, answer):
    return None if group_named(command) == 0 else f"{case.group(group_named(command))} isn't the root."


def of_haschildren(case, by, command, answer):
    child, entry = answer.values
    if entry > len(case.report.tree):
        return f"it knew {entry} entries of the journal of the tree, which has {len(case.report.tree)}."
    lowest = Tree(case, case.report.tree[:entry]).undone_child(group_named(command))
    if lowest == child:
        return None
    wanted = f"the lowest one is {case.group(lowest)}" if lowest is not None else "there is none"
    return (
        f"it says that {case.group(child)} is a child in the way. After {entry} entries of the journal of the tree, of the"
        f" children that are made and not done, {wanted}."
    )


def pool_entry(case, number):
    return case.report.pool[number] if number < len(case.report.pool) else None


def of_registered(case, by, command, answer):
    of_id, number = answer.values
    entry, decl = pool_entry(case, number), decl_named(command)
    if entry and (entry.kind, entry.decl, entry.id) == ("registered", decl, of_id):
        return None
    return (
        f"it cites entry {number} of the journal of registrations as the registration of cache {decl} as id {of_id}, which it"
        " isn't."
    )


def of_unregistered(case, by, command, answer):
    of_id, number, begun, ended, objects = answer.values
    entry, decl = pool_entry(case, number), decl_named(command)
    if not entry or (entry.kind, entry.decl, entry.id, entry.number) != ("unregistered", decl, of_id, ended):
        return (
            f"it cites entry {number} of the journal of registrations as the end of cache {decl} as id {of_id} at lookup"
            f" {ended}, which it isn't."
        )
    right = case.registrations.begun(of_id, number)
    if begun != right:
        return f"it says that the registration began at lookup {begun}, and it began at {right}."
    drained = case.drained.get(by, [])
    if objects != sum(found.objects for _, found in drained):
        return (
            f"it says that it drained {objects} objects, and its `drained` entries come to"
            f" {sum(found.objects for _, found in drained)}."
        )
    other = next((place for place, _ in drained if place.id != of_id), None)
    return None if other is None else f"it ended id {of_id}, and it drained a list at {case.place(other)}."


def of_freed(case, by, command, answer):
    told = of_unregistered(case, by, command, answer)
    return (
        told or (None if case.registrations.became_idle(*answer.values[:2]) else
        f"id {answer.values[0]} doesn't become idle behind entry {answer.values[1]} of the journal of registrations.")
    )


def of_half(case, by, command, answer):
    told = of_unregistered(case, by, command, answer)
    if not told and case.registrations.became_idle(*answer.values[:2]):
        told = (
            f"it stopped half way, and id {answer.values[0]} becomes idle behind entry {answer.values[1]} of the journal of"
            " registrations."
        )
    return told or (spent_wrong(case, by[0], answer.spent) if answer.spent else None)


CAUSES = {
    "offline": of_offline, "notmade": of_notmade, "made": of_made, "alreadymade": of_made, "over": of_over, "nocache": of_nocache,
    "worn": of_worn, "offlined": of_offlined, "alreadydone": of_alreadydone, "root": of_root, "haschildren": of_haschildren,
    "registered": of_registered, "alreadyregistered": of_alreadyregistered, "noid": of_noid, "freed": of_freed, "half": of_half,
}


def of_rows(case):
    """rows"""
    for by, command, answer in case.each_answer():
        judge = CAUSES.get(answer.kind)
        told = judge(case, by, command, answer) if judge else None
        if told:
            yield Break(
                "rows",
                f"{case.told_command(by).capitalize()}, answered `{answer.kind if answer.kind != 'offlined' else 'done'}`:"
                f" {lower(told)}",
                [answer.line],
            )


def of_walks(case):
    """walks, attempts, passes, plain"""
    for walk in case.walks:
        told = stands(case, walk.told, "begin", walk.group) if walk.answer == "offline" else None
        if told:
            yield Break(
                "walks", f"Walk {walk.number} of worker {walk.by[0]} found {case.group(walk.group)} offline: {lower(told)}",
                [walk.line],
            )
    for walk in case.walks:
        for attempt in walk.attempts:
            lookups = case.registrations.lookups(attempt.id)
            if attempt.kind == "worn" and not 2**32 - 256 <= attempt.seen <= lookups:
                yield Break(
                    "attempts",
                    f"The lookups of id {attempt.id} are told as used up at {attempt.seen}. They are from {2**32 - 256:,} on,"
                    f" and the id has {lookups}.",
                    [attempt.line],
                )
    for walk in case.walks:
        for attempt in walk.attempts if walk.attempts else ():
            told = of_pass(case, walk, attempt) if attempt.run else None
            if told:
                yield Break("passes", told, [attempt.line])
    yield from of_pool_passes(case)


def of_pass(case, walk, attempt):
    place, run = walk.place(attempt.id), attempt.run
    if run.closed and place not in case.journals.closed:
        return f"The pass says that {run.closed} asks found the list at {case.place(place)} closed, and it never is."
    told = spent_wrong(case, walk.by[0], run.spent) if run.ending == "worn" else None
    return f"The pass ended `worn`: {lower(told)}" if told else None


def of_pool_passes(case):
    for walk in case.pool_walks:
        for pool, found in enumerate(walk.tries[:len(case.script.pools)]):
            if found.run and found.run.ending == "worn":
                told = pool_spent_wrong(case, home(case.script, pool, walk.node), found.run.spent)
                if told:
                    yield Break("plain", f"The pass of the pool ended `worn`: {lower(told)}", [found.line])


def of_tree(case):
    """begins, dones, mades"""
    cited = {"done": {}, "made": {}}
    for part in case.report.workers:
        for answer in part.answers:
            if answer.kind in ("offlined", "made"):
                cited["done" if answer.kind == "offlined" else "made"].setdefault(answer.values[0], []).append(answer.line)
    for number, entry in enumerate(case.report.tree):
        told = f"Entry {number} of the journal of the tree, `{entry.kind}` of {case.group(entry.group)},"
        if entry.kind == "begin":
            if not case.offlines(entry.group, MAY_HAVE_BEGUN):
                yield Break(
                    "begins", f"{told} was made by no `offline` of that group whose answer says that it may have begun.",
                    [entry.line],
                )
            continue
        lines = cited[entry.kind].get(number, [])
        if not lines:
            yield Break(entry.kind + "s", f"{told} is cited by no answer as its own.", [entry.line])
        elif len(lines) > 1 and (entry.kind == "done" or readings.MADE_IS_CITED_ONCE):
            yield Break(
                entry.kind + "s", f"{told} is cited by {len(lines)} answers as their own, and one made it.",
                [lines[1], entry.line],
            )


def of_registrations(case):
    """pool"""
    made, idle = {}, {}
    for part in case.report.workers:
        for answer in part.answers:
            if answer.kind == "registered":
                made["registered", answer.values[1]] = answer
            elif answer.kind in ("freed", "half"):
                made["unregistered", answer.values[1]] = answer
            if answer.kind == "freed":
                idle.setdefault(answer.values[0], []).append(answer.values[1])
    for number, entry in enumerate(case.report.pool):
        if number < len(case.on):
            continue
        if entry.kind == "idle":
            phase = case.registrations.phase(entry.id, number)
            right = any(at < number and case.registrations.phase(entry.id, at) + 1 == phase for at in idle.get(entry.id, ()))
        else:
            right = (entry.kind, number) in made
        if not right:
            yield Break("pool", f"Entry {number} of the journal of registrations was made by no answer.", [entry.line])


def of_drained(case):
    """drained"""
    for place, number, entry in case.each_entry():
        answer = case.answer(entry.by) if entry.kind == "drained" else None
        if entry.kind == "drained" and (answer is None or answer.kind not in ("freed", "half")):
            yield Break(
                "drained",
                f"The list at {case.place(place)} was drained by {case.told_command(entry.by)}, which isn't answered as an"
                " `unregister` that drained.",
                [entry.line],
            )
