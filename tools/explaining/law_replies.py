"""L1: each command has its answer, and each entry of a tenant is cited by the answer to its command."""

from explaining import readings
from explaining.case import Break, first_apart
from explaining.report import TENANT
from explaining.shown import lower, quoted

TITLE = "each command has an answer that it may have, and each entry of a tenant's call is cited by the answer to its command"
OBJECT_VERBS = ("put", "get", "del", "pin", "unpin")
# The answers that cite an entry, by the verb: the kind and the outcome of the entry.
CITES = {
    "put": {"added": ("add", "added"), "exists": ("add", "exists")},
    "get": {"hit": ("look", "hit"), "miss": ("look", "miss")},
    "del": {"dropped": ("drop", "dropped"), "pinned": ("drop", "pinned"), "miss": ("drop", "miss")},
    "pin": {"done": ("pin", "done"), "miss": ("pin", "miss")},
    "unpin": {"done": ("unpin", "done"), "miss": ("unpin", "miss")},
}
# The other answers by the verb, and whether they stand with a cache that was found: `after`, `before`, or `free` for both.
TENANTS = {
    "offline": "before", "notmade": "before", "nocache": "before", "worn lookups": "before", "worn list": "after",
    "memory": "free",
}
WALKS = {"walked": "before", "walkmemory": "before"}
UNCITED = {
    "put": {**TENANTS, "over": "before", "worn charges": "before"},
    "get": TENANTS, "pin": TENANTS, "unpin": TENANTS,
    "del": {**TENANTS, "worn charges": "before"},
    "isolate": {
        "isolated": "after", "offline": "before", "notmade": "before", "nocache": "before", "worn lookups": "before",
        "memory": "before",
    },
    "shrink": {**WALKS, "offline": "before"}, "balance": WALKS,
    "offline": dict.fromkeys(("offlined", "alreadydone", "root", "notmade", "haschildren", "worn list", "memory"), "before"),
    "mkgroup": dict.fromkeys(("made", "alreadymade", "notmade", "offline", "memory"), "before"),
    "register": dict.fromkeys(("registered", "alreadyregistered", "noid", "memory"), "before"),
    "unregister": dict.fromkeys(("freed", "half", "nocache", "worn charges", "memory"), "before"),
    "release": dict.fromkeys(("released", "full", "worn list", "memory"), "before"),
    "grab": dict.fromkeys(("grabbed", "bare", "worn list", "memory"), "before"),
}
SWEEP_ANSWERS = ("swept", "walkmemory")
SPOKEN = {"walkmemory": "memory FREED", "offlined": "done ENTRY MOVED DEFERRED"}


def of_head(case):
    """version, nodes, ids, paths, names, pools"""
    script, report = case.script, case.report
    rows = (
        ("version", 1, report.version, script.version), ("nodes", 2, report.nodes, script.nodes),
        ("ids", 2, report.ids, script.ids),
    )
    for field, line, told, right in rows:
        if told != right:
            what = ("version {}" if field == "version" else "{} " + field).format
            yield Break(field, f"The report says {what(told)}, and the script {what(right)}.", [line])
    line = 3
    names = (
        ("paths", "group", report.groups, script.groups), ("names", "cache", report.caches, script.caches),
        ("pools", "pool", report.pools, script.pools),
    )
    for field, what, told, rows in names:
        right = [row[0] for row in rows]
        if told != right:
            at = first_apart(told, right)
            wanted, has = (f"`{row[at].decode()}`" if at < len(row) else "none" for row in (right, told))
            yield Break(field, f"The script's {what} {at} is {wanted}, and the report has {has}.", [line + at])
        line += len(told)


def of_counts(case):
    """counts, last"""
    script, report = case.script, case.report
    for worker in range(max(len(script.workers), len(report.workers))):
        answers, commands = report.part(worker).answers, case.commands(worker)
        sweeps = 1 if script.sweep and worker < len(script.workers) else 0
        if len(answers) != len(commands) + sweeps:
            what = f"{len(commands)} commands" + (" and the sweep" if sweeps else "")
            yield Break(
                "counts", f"Worker {worker} has {what} in the script, and {len(answers)} answers here.",
                [answers[-1].line] if answers else [],
            )
        if len(answers) > len(commands) and answers[len(commands)].kind not in SWEEP_ANSWERS:
            answer = answers[len(commands)]
            yield Break(
                "last", f"The last answer of worker {worker} stands behind those to its commands, and isn't one to a sweep.",
                [answer.line],
            )


def name_of(answer):
    return f"worn {answer.spent.kind}" if answer.kind == "worn" else answer.kind


def of_answer(case, by, command, answer):
    """What is wrong with an answer, or None."""
    kinds = CITES.get(command.verb, {})
    if answer.kind in kinds:
        if not answer.found:
            return (
                f"`{answer.kind}` stands without a line `find`, but a `{command.verb}` acts on a list only once it has found"
                " the cache."
            )
        return of_cited(case, by, command, answer, *kinds[answer.kind])
    row = UNCITED[command.verb].get(name_of(answer))
    if row is None:
        return f"`{SPOKEN.get(answer.kind, name_of(answer))}` is no answer to `{command.verb}`."
    if row == "before" and answer.found:
        return f"`{answer.kind}` stands with a line `find`, but a `{command.verb}` that is answered so found no cache."
    if row == "after" and not answer.found:
        return f"`{answer.kind}` stands without a line `find`, but a `{command.verb}` that is answered so found its cache."
    return None


def of_cited(case, by, command, answer, kind, outcome):
    """What is wrong with the entry that an answer cites."""
    place, number = answer.cited
    words = command.words
    if place.id != answer.found.id:
        return f"The answer cites a list of id {place.id}, and its line `find` says id {answer.found.id}."
    if place.node != words["node"]:
        return f"The answer cites a list of node {place.node}, and the command names node {words['node']}."
    entries = case.journals.entries(place)
    if number >= len(entries):
        return f"The answer cites entry {number} of the list {' '.join(map(str, place))}, which has {len(entries)} entries."
    entry, value = entries[number], words.get("value")
    wanted = (kind, by, words["group"], words["key"], value if kind == "add" else None, outcome)
    if (entry.kind, entry.by, entry.birth, entry.key, entry.value, entry.outcome) != wanted:
        return f"The answer cites entry {number} of that list (line {entry.line}). {of_entry(entry, wanted)}"
    if answer.kind == "hit":
        named = case.journals.replay(place).named[number]
        if named is None or named.value != answer.value:
            has = f"the value `{named.value.decode()}`" if named else "no such object"
            return f"The answer lends `{answer.value.decode()}`, and the list had {has} then."
    return None


def of_entry(entry, wanted):
    """What of an entry isn't as an answer says."""
    kind, by, birth, key, value, outcome = wanted
    if (entry.kind, entry.outcome) != (kind, outcome):
        return f"That is `{entry.kind} .. {entry.outcome or ''}`, and it is to be `{kind} .. {outcome}`."
    if entry.by != by:
        return f"That is of command {entry.by[1]} of worker {entry.by[0]}."
    if entry.birth != birth:
        return f"Its birth group is {entry.birth}, and the command names group {birth}."
    what = ("key", entry.key, key) if entry.key != key else ("value", entry.value, value)
    return "Its {} is {}, and that of the command is {}.".format(what[0], *map(quoted, what[1:]))


def of_cited_places(case):
    """cited places, if they are asked for here"""
    for part in case.report.workers if readings.CITED_PLACES_ARE_THERE else ():
        for answer in part.answers:
            if answer.cited and not case.is_there(answer.cited[0]):
                yield Break(
                    "there", f"The answer cites a list at {case.place(answer.cited[0])}, which isn't there.", [answer.line],
                )


def of_answers(case):
    """answered"""
    for by, command, answer in case.each_answer():
        told = of_answer(case, by, command, answer)
        if told:
            yield Break("answered", f"{case.told_command(by).capitalize()}: {lower(told)}", [answer.line])


def cited_by(case, by):
    answer = case.answer(by)
    return answer.cited if answer else None


def of_entries(case):
    """cited"""
    for place, number, entry in case.each_entry():
        if entry.kind in TENANT and cited_by(case, entry.by) != (place, number):
            yield Break(
                "cited",
                f"Entry {number} of the list at {case.place(place)} is of {case.told_command(entry.by)}, whose answer doesn't"
                " cite it.",
                [entry.line],
            )


def of_order(case):
    """rise"""
    for part in case.report.workers:
        last = {}
        for answer in part.answers:
            if not answer.cited:
                continue
            place, number = answer.cited
            before = last.get(place)
            if before and before[0] >= number:
                yield Break(
                    "rise",
                    f"The answer cites entry {number} of the list at {case.place(place)}, and an earlier answer of its worker"
                    f" cites entry {before[0]} there.",
                    [answer.line, before[1]],
                )
            last[place] = (number, answer.line)


def of_once(case):
    """once: which list an answer means must be said"""
    seen, twice = set(), {}
    for found in case.report.lists:
        if found.place in seen:
            twice[found.place] = found.line
        seen.add(found.place)
    for part in case.report.workers if twice else ():
        for answer in part.answers:
            if answer.cited and answer.cited[0] in twice:
                yield Break(
                    "once", f"The answer cites a list that is printed twice: {case.place(answer.cited[0])}.",
                    [answer.line, twice[answer.cited[0]]],
                )


FIELDS = (of_head, of_counts, of_cited_places, of_answers, of_entries, of_order, of_once)
