"""L4, of one walk: its maps and attempts, its counts, its passes and their scans."""

from explaining import readings
from explaining.case import Break, first_apart
from explaining.passes import Due, wrong_in
from explaining.shown import lower


def units_of(case):
    return list(range((case.script.ids + 63) // 64))


def ids_in(seen):
    return [64 * seen.unit + bit for bit in range(64) if seen.bits >> bit & 1]


def ids_seen(maps):
    return [of_id for seen in maps for of_id in ids_in(seen)]


def is_prefix(left, right):
    return right[:len(left)] == left


def of_there(case, walk):
    """there, if it is asked for here"""
    if not readings.WALKS_ARE_THERE:
        return
    if walk.group >= len(case.parents) or walk.node >= case.script.nodes:
        yield "there", "There is no such group or node.", walk.line
    for seen in walk.maps:
        if any(of_id >= case.script.ids for of_id in ids_in(seen)):
            yield "there", f"Its map has the bit of an id that isn't there: the script has {case.script.ids} ids.", seen.line
    for attempt in walk.attempts:
        if attempt.id >= case.script.ids:
            yield "there", f"It tries id {attempt.id}, which isn't there: the script has {case.script.ids} ids.", attempt.line


def of_offline(case, walk):
    """offline"""
    if walk.answer == "offline" and (walk.maps or walk.attempts):
        yield "offline", "It found its group offline, so it has no map and no attempt.", walk.line


def of_maps(case, walk):
    """mapped, root"""
    tried, ids = [attempt.id for attempt in walk.attempts], list(range(case.script.ids))
    if walk.answer == "ran" and walk.group:
        if [seen.unit for seen in walk.maps] != units_of(case):
            yield (
                "mapped",
                f"It loads the bit word of each of the {len(units_of(case))} units in order, and its maps are others.",
                walk.line,
            )
        yield from of_tried("mapped", walk, tried, ids_seen(walk.maps))
    if not walk.group and not walk.is_cut:
        yield from of_tried("root", walk, tried, ids)


def of_tried(field, walk, tried, due):
    if tried == due:
        return
    at = first_apart(tried, due)
    line = walk.attempts[at].line if at < len(tried) else walk.line
    if field == "root":
        wanted = f"attempt {at} is at id {due[at]}" if at < len(due) else f"there are {len(due)} ids"
        yield field, f"A walk of the root tries each id in order: {wanted}.", line
    elif at < len(due) and (at >= len(tried) or tried[at] > due[at]):
        yield (
            field, f"Its map has the bit of id {due[at]}, and it doesn't try that id.",
            next((seen.line for seen in walk.maps if seen.unit == due[at] // 64), line),
        )
    else:
        yield field, f"It tries id {tried[at]}, whose bit its map lacks.", line


def of_memory(case, walk):
    """memory"""
    tried = [attempt.id for attempt in walk.attempts]
    if walk.is_cut:
        yield from of_begun(case, walk, tried)
    for at, attempt in enumerate(walk.attempts):
        if attempt.run and attempt.run.ending == "noroom" and not (walk.is_cut and at + 1 == len(walk.attempts)):
            yield (
                "memory", "A pass that ended for want of room is the last attempt of a walk that ended by `memory`.",
                attempt.line,
            )


def of_begun(case, walk, tried):
    """A walk that memory cut short made the first of what was due."""
    if not is_prefix([seen.unit for seen in walk.maps], units_of(case)):
        yield "memory", "Memory cut it short, and its maps aren't the first of the units in order.", walk.line
    if walk.group and not is_prefix(tried, ids_seen(walk.maps)):
        at = first_apart(tried, ids_seen(walk.maps))
        yield (
            "memory", f"Memory cut it short, and id {tried[at]}, which it tried, isn't the next one that its maps show.",
            walk.attempts[at].line,
        )
    if walk.maps and len(ids_seen(walk.maps[:-1])) > len(tried):
        yield "memory", "It loaded a unit before it had tried the ids of the one before.", walk.maps[-1].line
    if not walk.group and not is_prefix(tried, list(range(case.script.ids))):
        yield "memory", "A walk of the root tries the ids in order from 0, also where memory cuts it short.", walk.line


def of_counts(case, walk):
    """counts"""
    for attempt in walk.attempts:
        place = walk.place(attempt.id)
        for length, version in attempt.counts:
            right = case.journals.length_at(place, version)
            if right is None:
                yield (
                    "counts",
                    f"It counts the list at {case.place(place)} after {version} entries, and its journal has"
                    f" {len(case.journals.entries(place))}.",
                    attempt.line,
                )
            elif right != length:
                yield (
                    "counts",
                    f"It counts {length} objects at {case.place(place)} after {version} entries, and there were {right}.",
                    attempt.line,
                )


def of_kinds(case, walk):
    """kinds"""
    for attempt in walk.attempts:
        if not attempt.is_held:
            continue
        cache = cache_of(case, attempt)
        if cache is None:
            yield (
                "kinds",
                f"It found a cache by lookup {attempt.number} of id {attempt.id}, and that number lies in no registration of"
                " the id.",
                attempt.line,
            )
            continue
        told = of_kind(walk, cache, attempt)
        if told:
            yield "kinds", told, attempt.line


def cache_of(case, attempt):
    """The cache in whose registration the lookup of an attempt lies, or None."""
    decl = case.registrations.met(attempt.id, attempt.number, bounded=not readings.HELD_BY_REGISTRATION_ALONE)
    return case.script.caches[decl] if decl is not None and decl < len(case.script.caches) else None


def of_kind(walk, cache, attempt):
    name = cache.name.decode()
    if attempt.kind.endswith("skip"):
        length = attempt.counts[-1][0]
        if length == 0:
            return "It skips an empty list. An empty list is found `empty` at the root, and its bit is cleared elsewhere."
        return (
            f"It skips {length} objects, and cache {name} has a floor of {cache.floor}: more than that are passed."
            if length > cache.floor else None
        )
    if attempt.run:
        if attempt.run.len <= cache.floor:
            return f"It passes {attempt.run.len} objects, and cache {name} skips up to its floor of {cache.floor}."
        wrong = wrong_in(Due(walk.priority, cache.seeks, cache.batch, attempt.run), attempt.run)
        return (
            f"The pass of cache {name} (priority {walk.priority}, seeks {cache.seeks}, batch {cache.batch}): {wrong}."
            if wrong else None
        )
    return None


def of_placed(case, walk):
    """placed"""
    for attempt in walk.attempts:
        only_root = attempt.kind == "empty" or attempt.then == "root"
        only_below = attempt.kind in ("cleared", "restoredskip", "restoredran") or attempt.then in ("set", "clear")
        if (only_root and walk.group) or (only_below and not walk.group):
            yield (
                "placed",
                f"This outcome is one of {'the root' if only_root else 'a group below the root'}, and the walk is of"
                f" {case.group(walk.group)}.",
                attempt.line,
            )
        elif only_below and len(attempt.counts) == 2 and attempt.counts[0][1] > attempt.counts[1][1]:
            yield (
                "placed",
                f"Its second count, after {attempt.counts[1][1]} entries, is older than its first, after"
                f" {attempt.counts[0][1]}.",
                attempt.line,
            )


def of_scans(case, walk):
    """scans"""
    for attempt in walk.attempts:
        cache = cache_of(case, attempt) if attempt.run else None
        if cache is None:
            continue
        place, run = walk.place(attempt.id), attempt.run
        due = Due(walk.priority, cache.seeks, cache.batch, run)
        scans = case.scans_of.get((place, (walk.by[0], walk.number)), [])
        told = of_scan(cache, run, due, scans)
        if told:
            yield "scans", told[0], told[1] or attempt.line


def of_scan(cache, run, due, scans):
    """What of a pass's Scan entries is wrong, with its line, or None."""
    made = max(run.asks - run.closed, 0)
    if len(scans) != made:
        return (
            f"the pass says {run.asks} asks, of which {run.closed} found the list closed, and the list has {len(scans)}"
            " `scan` entries of it.",
            None,
        )
    for number, entry in scans:
        if entry.asked != due.size:
            return f"the pass asks for {due.size} objects at a time, and this `scan` says {entry.asked}.", entry.line
        if entry.policy != cache.policy:
            return f"cache {cache.name.decode()} scans by `{cache.policy}`, and this `scan` says `{entry.policy}`.", entry.line
        if number < run.version:
            return f"the pass counted after {run.version} entries, and this `scan` is entry {number}.", entry.line
    freed = sum(entry.freed for _, entry in scans)
    return (
        None if freed == run.freed else (
        f"the pass says that it freed {run.freed}, and its `scan` entries freed {freed}.", None)
    )


def of_stops(case, walk):
    """stops: asked before `kinds`, whose arithmetic a wrong stop breaks too"""
    for attempt in walk.attempts:
        cache, run = (cache_of(case, attempt) if attempt.run else None), attempt.run
        if cache is None:
            continue
        due = Due(walk.priority, cache.seeks, cache.batch, run).asks > 0
        stops = cache.fs and walk.nofs and due
        if stops and run.ending != "stop":
            yield (
                "stops",
                "The cache is of kind `fs`, the walk is `nofs` and an ask was due, so the pass ends by `stop`, and this one"
                f" by `{run.ending}`.",
                attempt.line,
            )
        elif run.ending == "stop" and not stops:
            yield (
                "stops",
                "The pass ended by `stop`, and one does so only in a `nofs` walk of a cache of kind `fs` with an ask due.",
                attempt.line,
            )
        elif run.ending == "stop" and run.asks:
            yield "stops", "A pass that stops makes no ask.", attempt.line


def of_freed(case, walk):
    """freed"""
    freed = sum(attempt.run.freed for attempt in walk.attempts if attempt.run)
    if walk.freed_told != freed:
        yield "freed", f"The walk says that it freed {walk.freed_told}, and its passes freed {freed}.", walk.line


JUDGES = (of_there, of_offline, of_maps, of_memory, of_counts, of_stops, of_kinds, of_placed, of_scans, of_freed)


def of_each(case):
    """each"""
    for walk in case.walks:
        for judge in JUDGES:
            for field, told, line in judge(case, walk):
                yield Break(
                    f"each, {field}",
                    f"Walk {walk.number} of worker {walk.by[0]}, over {case.group(walk.group)} on node {walk.node}:"
                    f" {lower(told)}",
                    [line] if line == walk.line else [line, walk.line],
                )
