"""L9: what an answer knew isn't older than what its worker had known before."""

from explaining.case import Break, group_named
from explaining.law_causes import MAY_HAVE_BEGUN, of_drained, of_registrations, of_rows, of_tree, of_walks

POOL_TOLD = ("nocache", "alreadyregistered", "noid")
TREE_CITED = ("offline", "alreadydone", "offlined", "made", "alreadymade")
MAY_BE_OFFLINE = ("offline", "worn", "memory", "walkmemory")
ASKS_MADE = ("put", "get", "del", "pin", "unpin", "offline")


def pool_seen(answer):
    """How many entries of the journal of registrations an answer speaks of."""
    seen = [answer.found.entry] if answer.found else []
    return seen + ([answer.values[0]] if answer.kind in POOL_TOLD else [])


def pool_made(answer):
    """The entry of that journal that an answer made, or None."""
    return answer.values[1] if answer.kind in ("registered", "freed", "half") else None


def of_pool(case):
    """pool, pool_own"""
    for part in case.report.workers:
        most, made = (0, 0), None
        for answer in part.answers:
            for seen in pool_seen(answer):
                if seen < most[0]:
                    yield Break(
                        "fresh, pool",
                        f"The answer knew {seen} entries of the journal of registrations, and an earlier answer of its worker"
                        f" knew {most[0]}.",
                        [answer.line, most[1]],
                    )
                if made and seen <= made[0]:
                    yield Break(
                        "fresh, pool_own",
                        f"The answer knew {seen} entries of the journal of registrations, and its worker had made entry"
                        f" {made[0]} before.",
                        [answer.line, made[1]],
                    )
                most = max(most, (seen, answer.line), key=lambda row: row[0])
            own = pool_made(answer)
            if own is not None and (made is None or own > made[0]):
                made = (own, answer.line)


def of_pool_on(case):
    """pool_on"""
    for by, command, answer in case.each_answer():
        for seen in pool_seen(answer):
            if seen < len(case.on):
                yield Break(
                    "fresh, pool_on",
                    f"The answer knew {seen} entries of the journal of registrations, and {len(case.on)} caches are `on` from"
                    " the start.",
                    [answer.line],
                )


def shown(case, by):
    """The entries of the journal of the tree that the answer to a command and its walks cite."""
    answer = case.answer(by)
    cited = [answer.values[0]] if answer and answer.kind in TREE_CITED else []
    return cited + [walk.told for walk in case.rows_of("walks", by) if walk.answer == "offline"]


def of_tree_known(case):
    """tree, tree_shown"""
    for worker, part in enumerate(case.report.workers):
        known, cited = None, None
        for number, answer in enumerate(part.answers):
            if answer.kind == "haschildren":
                seen = answer.values[1]
                if known and seen < known[0]:
                    yield Break(
                        "fresh, tree",
                        f"The answer knew {seen} entries of the journal of the tree, and an earlier answer of its worker knew"
                        f" {known[0]}.",
                        [answer.line, known[1]],
                    )
                if cited and seen <= cited[0]:
                    yield Break(
                        "fresh, tree_shown",
                        f"The answer knew {seen} entries of the journal of the tree, and its worker was shown entry"
                        f" {cited[0]} before.",
                        [answer.line, cited[1]],
                    )
                known = (seen, answer.line)
            for entry in shown(case, (worker, number)):
                if cited is None or entry > cited[0]:
                    cited = (entry, answer.line)


def of_refused(case):
    """refused"""
    tree = case.report.tree
    for worker, part in enumerate(case.report.workers):
        offline = {}
        for number, answer in enumerate(part.answers):
            command = case.command((worker, number))
            asked = group_named(command) if command and command.verb not in ("offline", "mkgroup", "isolate") else None
            if asked in offline and answer.kind not in MAY_BE_OFFLINE:
                yield Break(
                    "fresh, refused",
                    f"An earlier answer or walk of the worker shows that {case.group(asked)} went offline, and this command"
                    " is answered as if it were online.",
                    [answer.line, offline[asked]],
                )
            for entry in shown(case, (worker, number)):
                if entry < len(tree) and tree[entry].kind in ("begin", "done"):
                    offline.setdefault(tree[entry].group, answer.line)


def of_first(case):
    """first"""
    tree = case.report.tree
    for worker, part in enumerate(case.report.workers):
        for number, answer in enumerate(part.answers):
            for entry in shown(case, (worker, number)):
                if entry >= len(tree) or tree[entry].kind != "begin":
                    continue
                group = tree[entry].group
                if all(by[0] == worker and number < by[1] for by in case.offlines(group, MAY_HAVE_BEGUN)):
                    yield Break(
                        "fresh, first",
                        f"The answer shows that {case.group(group)} began to go offline, and each `offline` that may have"
                        " begun it is a later command of the same worker.",
                        [answer.line],
                    )


def made_shown(command, answer):
    """The group that an answer shows to be made, or None."""
    if command.verb == "mkgroup":
        return group_named(command) if answer.kind in ("made", "alreadymade") else None
    if command.verb not in ASKS_MADE or answer.kind in ("notmade", "worn", "memory"):
        return None
    return group_named(command)


def of_made(case):
    """made"""
    for worker, part in enumerate(case.report.workers):
        made = {}
        for number, answer in enumerate(part.answers):
            if answer.kind == "notmade" and answer.values[0] in made:
                yield Break(
                    "fresh, made",
                    f"The answer says that {case.group(answer.values[0])} isn't made, and an earlier answer of its worker"
                    " shows that it is.",
                    [answer.line, made[answer.values[0]]],
                )
            command = case.command((worker, number))
            group = made_shown(command, answer) if command else None
            if group is not None:
                made.setdefault(group, answer.line)


FIELDS = (
    of_rows, of_walks, of_tree, of_registrations, of_drained, of_pool, of_pool_on, of_tree_known, of_refused, of_first, of_made,
)
