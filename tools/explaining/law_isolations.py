"""L11: each isolation visited its list once for each scan that it made. L12: the workers' part of the sweep."""

from explaining.case import FIRST_ISOLATION, Break, decl_named
from explaining.law_causes import spent_wrong
from explaining.report import Place
from explaining.shown import lower

TITLE = "each isolation visited its list once for each scan that it made, and told what it did"
SWEEP_TITLE = "together the workers walk each group on each node at most once, and each says what its walks did"


def of_each(case):
    """each"""
    for worker, part in enumerate(case.report.workers):
        for number, found in enumerate(part.isolations):
            command = case.command(found.by)
            decl = decl_named(command) if command else None
            if decl is None:
                yield Break(
                    "each", f"{case.told_command(found.by).capitalize()} names no cache, so it isolates nothing.", [found.line],
                )
                continue
            scans = [entry for _, entry in case.scans_of.get((found.place, (worker, FIRST_ISOLATION + number)), [])]
            told = of_isolation(case.script.caches[decl], scans, found)
            if told:
                yield Break(
                    "each", f"The isolation of the list at {case.place(found.place)}: {lower(told[0])}",
                    [found.line] + ([told[1]] if told[1] else []),
                )


def of_isolation(cache, scans, found):
    """What is wrong with an isolation and its scans, with the line of one, or None."""
    for entry in scans:
        if entry.policy != cache.policy:
            return f"cache {cache.name.decode()} scans by `{cache.policy}`, and a `scan` of it says `{entry.policy}`.", entry.line
        if entry.asked != 1:
            return f"each `scan` of it asks for one object, and one asks for {entry.asked}.", entry.line
    told = of_visits(scans, found)
    if told:
        return told
    freed = sum(entry.freed for entry in scans)
    if found.freed != freed:
        return f"it says that it freed {found.freed}, and its scans freed {freed}.", None
    if found.visits > found.budget:
        return f"it says {found.visits} visits, and its budget is {found.budget}.", None
    if found.ending == "stop" and not found.visits:
        return "it ended by `stop`, and the visit that stopped it is one.", None
    if found.ending == "spent" and found.visits != found.budget:
        return f"it ended by `spent` after {found.visits} visits, and its budget is {found.budget}.", None
    return None


def of_visits(scans, found):
    """Whether each scan met one object, and the last one as the end says."""
    bare, stop = found.ending == "bare", found.ending == "stop"
    ones = max(found.visits - 1, 0) if stop else found.visits
    wanted = ones + (1 if stop or bare else 0)
    if len(scans) != wanted:
        return (
            f"it says {found.visits} visits and ended by `{found.ending}`, which is {wanted} `scan` entries, and its list has"
            f" {len(scans)}.",
            None,
        )
    for at, entry in enumerate(scans):
        last = at + 1 == wanted
        right = (0, "whole") if bare and last else (1, "stopped" if stop and last else "whole")
        if (entry.visits, entry.outcome) != right:
            return f"it ended by `{found.ending}`, so this `scan` meets {right[0]} objects and is `{right[1]}`.", entry.line
    return None


def of_closed(case):
    """closed, worn"""
    isolations = [(worker, found) for worker, part in enumerate(case.report.workers) for found in part.isolations]
    for worker, found in isolations:
        if found.ending == "closed" and found.place not in case.journals.closed:
            yield Break(
                "closed", f"The isolation ended by `closed`, and the list at {case.place(found.place)} never is.", [found.line],
            )
    for worker, found in isolations:
        told = spent_wrong(case, worker, found.spent) if found.ending == "worn" else None
        if told:
            yield Break("worn", f"The isolation ended `worn`: {lower(told)}", [found.line])


def of_scans(case):
    """scans"""
    for place, number, entry in case.each_entry():
        if entry.kind == "scan" and entry.walk[1] >= FIRST_ISOLATION:
            found = case.scanner(entry)
            if found is None or found.place != place:
                yield Break(
                    "scans",
                    f"The `scan` entry {number} of the list at {case.place(place)} is of isolation"
                    f" {entry.walk[1] - FIRST_ISOLATION} of worker {entry.walk[0]}, which isn't one of that list.",
                    [entry.line],
                )


def of_commands(case):
    """commands"""
    for by, command, answer in case.each_answer():
        made = [(row.place, row.budget, row.visits, row.freed, row.ending, row.spent) for row in case.rows_of("isolations", by)]
        told = []
        if command.verb == "isolate" and answer.kind == "isolated" and answer.found:
            place = Place(answer.found.id, command.words["node"], command.words["group"])
            told = [(place, command.words["budget"], *answer.values, answer.spent)]
        if made != told:
            wanted = (
                "one line `isolation` of its list, with its budget and what it is answered" if told else "no line `isolation`"
            )
            yield Break(
                "commands",
                f"{case.told_command(by).capitalize()} has {wanted}, and the report has"
                f" {'another' if made and told else 'none' if told else 'one'}.",
                [answer.line],
            )


FIELDS = (of_each, of_closed, of_scans, of_commands)


# ---- L12


def sweep_walks(case, worker):
    return case.rows_of("walks", (worker, len(case.commands(worker))))


def of_answers(case):
    """answers"""
    for worker in range(len(case.script.workers) if case.script.sweep else 0):
        answer = case.answer((worker, len(case.commands(worker))))
        if answer is None:
            yield Break("answers", f"Worker {worker} has no answer to the sweep behind those to its commands.", [])
            continue
        told = of_sweeper(case, answer, sweep_walks(case, worker))
        if told:
            yield Break("answers", f"Worker {worker}, in the sweep: {lower(told[0])}", [told[1] or answer.line])


def of_sweeper(case, answer, walks):
    """What is wrong with a worker's part of the sweep, with its line, or None."""
    sweep = case.script.sweep
    if answer.found:
        return "the sweep looks no cache up for its worker, and a line `find` stands here.", answer.found.line
    if answer.kind not in ("swept", "walkmemory"):
        return "a sweep is answered `swept` or `memory`.", None
    for walk in walks:
        if walk.group >= len(case.parents) or walk.node >= case.script.nodes:
            return f"there is no {case.group(walk.group)} on node {walk.node} to walk.", walk.line
        if (walk.priority, walk.nofs) != (sweep.priority, sweep.nofs == 1):
            return (
                f"the sweep has priority {sweep.priority} and kind {'nofs' if sweep.nofs else 'fs'}, and this walk another.",
                walk.line,
            )
    if answer.kind == "swept" and answer.values[0] != len(walks):
        return f"it says that it took {answer.values[0]} jobs, and it made {len(walks)} walks.", None
    freed = sum(walk.freed_told for walk in walks)
    return (
        None if answer.values[-1] == freed else (
        f"it says that it freed {answer.values[-1]}, and its walks freed {freed}.", None)
    )


def of_once(case):
    """once, all"""
    if not case.script.sweep:
        return
    swept, workers = {}, range(len(case.script.workers))
    for worker in workers:
        for walk in sweep_walks(case, worker):
            job = (walk.group, walk.node)
            if job in swept:
                yield Break(
                    "once", f"The sweep walks {case.group(walk.group)} on node {walk.node} twice.", [walk.line, swept[job]],
                )
            swept[job] = walk.line
    if all(case.answer((worker, len(case.commands(worker)))).kind == "swept" for worker in workers):
        for group in range(len(case.parents)):
            for node in range(case.script.nodes):
                if (group, node) not in swept:
                    yield Break(
                        "all", f"Each worker says that no job was left, and nobody walked {case.group(group)} on node {node}.",
                        [],
                    )


SWEEP_FIELDS = (of_answers, of_once)
