"""L5: registrations follow each other as they may, each lookup's number is drawn once, and it met what the journal says."""

from explaining.case import Break, decl_named
from explaining.shown import lower

TITLE = (
    "registrations follow each other, each number of an id's lookups was drawn once, and each lookup met what the"
    " registrations say"
)


def of_journal(case):
    """pool"""
    registered, ids, decls = case.registrations, case.script.ids, len(case.script.caches)
    for number, entry in enumerate(case.report.pool):
        told = of_entry(registered, ids, decls, number, entry)
        if told:
            yield Break("pool", f"Entry {number} of the journal of registrations: {lower(told)}", [entry.line])


def of_entry(registered, ids, decls, number, entry):
    """Why an entry may not follow those before it, or None."""
    phase = registered.phase(entry.id, number) % 3
    if entry.kind == "idle":
        return None if phase == 2 else f"Id {entry.id} wasn't unregistered before."
    last = registered.last(entry.id, number)
    if entry.kind == "registered":
        if entry.decl >= decls:
            return f"There is no cache {entry.decl}."
        if registered.live_id(ids, entry.decl, number) is not None:
            return f"Cache {entry.decl} is registered already, as id {registered.live_id(ids, entry.decl, number)}."
        lowest = registered.lowest_idle(ids, number)
        if lowest != entry.id:
            return f"The lowest idle id is {lowest if lowest is not None else 'none'}, and it takes id {entry.id}."
    else:
        if phase != 1:
            return f"Id {entry.id} isn't registered then."
        decl = registered.decl(entry.id, number)
        if decl != entry.decl:
            return f"Id {entry.id} is registered for cache {decl}, and it says cache {entry.decl}."
    return None if last <= entry.number else f"Its lookup {entry.number} is below {last}, where the id's last entry stands."


def of_opened(case):
    """opened"""
    for number, decl in enumerate(case.on):
        entry = case.report.pool[number] if number < len(case.report.pool) else None
        if entry is None or (entry.kind, entry.decl, entry.id, entry.number) != ("registered", decl, number, 0):
            line = entry.line if entry else None
            yield Break(
                "opened",
                f"Cache {decl} ({case.script.caches[decl].name.decode()}) is `on`, so the journal of registrations has `pool"
                f" {number} registered {decl} {number} 0`.",
                [line] if line else [],
            )


def of_last(case):
    """printed, last"""
    count = len(case.report.pool)
    for of_id in case.registrations.of_id:
        last, lookups = case.registrations.last(of_id, count), case.registrations.lookups(of_id)
        if case.registrations.is_live(of_id, count) and last > lookups:
            line = case.registrations.of_id[of_id].rows[-1][1].line
            yield Break("last", f"Id {of_id} is registered from lookup {last} on, and it has {lookups} lookups in all.", [line])


def drawn(case):
    """The numbers of each id's lookups, with their lines."""
    numbers = {}
    for part in case.report.workers:
        for answer in part.answers:
            if answer.found:
                numbers.setdefault(answer.found.id, []).append((answer.found.number, answer.found.line))
    for walk in case.walks:
        for attempt in walk.attempts:
            if attempt.number is not None:
                numbers.setdefault(attempt.id, []).append((attempt.number, attempt.line))
    return numbers


def of_numbers(case):
    """numbers"""
    numbers = drawn(case)
    for of_id in sorted({*numbers, *range(case.script.ids)}):
        rows, lookups = sorted(numbers.get(of_id, ())), case.registrations.lookups(of_id)
        for at, (number, line) in enumerate(rows):
            if at and rows[at - 1][0] == number:
                yield Break("numbers", f"Lookup {number} of id {of_id} was made twice.", [line, rows[at - 1][1]])
            elif number >= lookups:
                yield Break(
                    "numbers",
                    f"Lookup {number} of id {of_id} is told, and the id has {lookups} lookups, by its line `lookups`.", [line],
                )
            elif number != at:
                yield Break(
                    "numbers", f"Lookup {at} of id {of_id} is told by no answer and no walk, and the id has {lookups} lookups.",
                    [line],
                )
        if len(rows) < lookups:
            yield Break(
                "numbers",
                f"The line `lookups` says {lookups} lookups of id {of_id}, and {len(rows)} are told by answers and walks.",
                [case.lookups_line(of_id)],
            )


def of_met(case):
    """met"""
    for walk in case.walks:
        for attempt in walk.attempts:
            if attempt.number is None:
                continue
            lies = case.registrations.met(attempt.id, attempt.number) is not None
            if attempt.is_held != lies:
                what = (
                    "lies in a registration of the id, so it finds the cache"
                    if lies else "lies in no registration of the id, so it is `gone`"
                )
                yield Break("met", f"Lookup {attempt.number} of id {attempt.id} {what}.", [attempt.line])


def of_found(case):
    """found"""
    for by, command, answer in case.each_answer():
        decl = decl_named(command)
        if decl is None or not answer.found:
            continue
        told = of_find(case, decl, answer.found)
        if told:
            yield Break("found", f"{case.told_command(by).capitalize()}: {lower(told)}", [answer.found.line])


def of_find(case, decl, found):
    """What is wrong with a cache that was found, or None."""
    registered, entries = case.registrations, len(case.report.pool)
    if found.entry > entries:
        return f"It knew {found.entry} entries of the journal of registrations, which has {entries}."
    if not registered.is_live(found.id, found.entry):
        return f"After {found.entry} entries of the journal of registrations no cache has id {found.id}."
    if registered.decl(found.id, found.entry) != decl:
        return (
            f"It names cache {decl}, and id {found.id} was that of cache {registered.decl(found.id, found.entry)} after"
            f" {found.entry} entries."
        )
    begun, ended = registered.begun(found.id, found.entry), registered.ended(found.id, found.entry)
    if found.number < begun:
        return f"Lookup {found.number} is before the registration, which begins at {begun}."
    if ended is not None and found.number >= ended:
        return f"Lookup {found.number} is behind the end of the registration, at {ended}."
    return None


def of_idle(case):
    """idle"""
    count = len(case.report.pool)
    for place in case.journals.lists:
        if case.registrations.phase(place.id, count) % 3 == 0 and case.journals.left(place):
            yield Break(
                "idle", f"Id {place.id} is idle at the end, and its list at {case.place(place)} has objects.",
                [case.line_of(place)],
            )


FIELDS = (of_journal, of_opened, of_last, of_numbers, of_met, of_found, of_idle)
