"""L2: each journal is legal, they fit together, and what they leave is printed. L3: each object added is freed or listed once."""

from explaining import readings
from explaining.case import Break, first_apart
from explaining.report import TENANT, Place
from explaining.shown import lower

TITLE = "each list's journal is legal, the journals fit together, and the items that they leave are printed"
BAG_TITLE = "each object that was added was freed once or is listed once, and the totals count them"


def of_there(case):
    """there"""
    for found in case.report.lists:
        if not case.is_there(found.place):
            yield Break(
                "there",
                f"There is no list at {case.place(found.place)}: the script has {case.script.ids} ids, {case.script.nodes}"
                f" nodes and {len(case.parents)} groups.",
                [found.line],
            )


def of_legal(case):
    """legal"""
    for place, found in case.journals.lists.items():
        moved, closed = {}, None
        for number, entry in enumerate(found.entries):
            told = (
                f"The list was closed on line {closed}, and nothing may follow."
                if closed else of_standing(case, place, moved, entry)
            )
            if told:
                yield Break("legal", f"Entry {number} of the list at {case.place(place)}: {lower(told)}", [entry.line])
            if entry.kind == "moved":
                moved[entry.birth] = entry.line
            closed = entry.line if entry.kind == "closed" else closed
        wrong = case.journals.replay(place).wrong
        if wrong:
            number, told = wrong
            yield Break(
                "legal", f"Entry {number} of the list at {case.place(place)}: {lower(told)}.", [found.entries[number].line],
            )


def of_standing(case, place, moved, entry):
    """Why an entry may not stand after those before it, or None."""
    if entry.kind in TENANT:
        return of_birth(case, place.group, moved, entry.birth)
    if entry.kind == "moved":
        if not case.journals.is_child(place.group, entry.birth):
            return f"{case.group(entry.birth)} is no child of {case.group(place.group)}."
        return (
            f"The list of {case.group(entry.birth)} was moved in before, on line {moved[entry.birth]}."
            if entry.birth in moved else None
        )
    if entry.kind == "closed":
        if place.group == 0:
            return "The root's list is never closed."
        left = [child for child in case.children(place.group) if child not in moved]
        return f"The list is closed, and that of {case.group(left[0])} wasn't moved in before." if left else None
    if entry.kind == "drained" and entry.objects == 0:
        return "A `drained` has at least one object."
    return None


def of_birth(case, group, moved, birth):
    """Why an object of this birth group may not be named in a list of this group, or None."""
    if birth >= len(case.parents):
        return f"There is no group {birth} that an object could be born in."
    path = case.path(birth)
    if group not in path:
        return f"Objects of {case.group(birth)} are never on a list of {case.group(group)}, which isn't above it."
    child = path[path.index(group) - 1] if birth != group else None
    if child is not None and child not in moved:
        return f"An object of {case.group(birth)} is named before the list of {case.group(child)} was moved in."
    return None


def of_pairs(case):
    """paired"""
    for place, found in case.journals.lists.items():
        if place in case.journals.closed and place.group:
            above = Place(place.id, place.node, case.parents[place.group])
            if not any(entry.kind == "moved" and entry.birth == place.group for entry in case.journals.entries(above)):
                yield Break(
                    "paired", f"The list at {case.place(place)} is closed, and no entry of its parent's list moves it in.",
                    [found.entries[-1].line],
                )
        for entry in found.entries:
            child = Place(place.id, place.node, entry.birth)
            if entry.kind == "moved" and child not in case.journals.closed:
                yield Break(
                    "paired",
                    f"The list at {case.place(place)} moved in that of {case.group(entry.birth)}, which isn't closed.",
                    [entry.line],
                )


def of_printed_once(case):
    """once"""
    seen = {}
    for found in case.report.lists:
        if found.place in seen:
            yield Break("once", f"The list at {case.place(found.place)} is printed twice.", [found.line, seen[found.place]])
        seen[found.place] = found.line


def of_items(case):
    """items"""
    for found in case.report.lists:
        left = case.journals.left(found.place)
        if left != found.items:
            at = first_apart(left, found.items)
            line = found.item_lines[at] if at < len(found.items) else found.line
            has, wanted = item_told(found.items, at), item_told(left, at)
            yield Break(
                "items", f"Item {at} of the list at {case.place(found.place)} is {has}, and its journal leaves {wanted} there.",
                [line],
            )


def item_told(items, at):
    if at >= len(items):
        return "none"
    item = items[at]
    return (
        f"`{item.key.decode()}` of command {item.by[1]} of worker {item.by[0]}, {'marked' if item.marked else 'clean'},"
        f" {'pinned' if item.pinned else 'loose'}"
    )


def of_begun(case):
    """begun"""
    begun = {entry.group for entry in case.report.tree if entry.kind == "begin"}
    for place in sorted(case.journals.closed):
        if not begun.intersection(case.path(place.group)):
            line = next(entry.line for entry in case.journals.entries(place) if entry.kind == "closed")
            yield Break(
                "begun", f"The list at {case.place(place)} is closed, and no group at or above its own began to go offline.",
                [line],
            )


def of_done(case):
    """done: a group that isn't there has no lists"""
    for entry in case.report.tree:
        if entry.kind == "done" and entry.group >= len(case.parents) and readings.DONE_GROUPS_ARE_THERE:
            yield Break("done", f"Group {entry.group} is done going offline, and it isn't there.", [entry.line])
        if entry.kind != "done" or entry.group >= len(case.parents):
            continue
        for of_id in range(case.script.ids):
            for node in range(case.script.nodes):
                place = Place(of_id, node, entry.group)
                if place not in case.journals.closed:
                    lines = [entry.line, case.line_of(place)]
                    yield Break(
                        "done",
                        f"{case.group(entry.group).capitalize()} is done going offline, and its list at id {of_id}, node"
                        f" {node} isn't closed.",
                        [line for line in lines if line],
                    )


FIELDS = (of_there, of_legal, of_pairs, of_printed_once, of_items, of_begun, of_done)


# ---- L3


def serials(case):
    """The serials of what was added, freed and is listed, each with its line."""
    added, freed, listed = [], [], []
    for place, found in case.journals.lists.items():
        for entry, gone in zip(found.entries, case.journals.replay(place).freed):
            if entry.kind == "add" and entry.outcome == "added":
                added.append((entry.by, entry.line))
            freed += [(item.by, entry.line) for item in gone]
        listed += [(item.by, line) for item, line in zip(found.items, found.item_lines)]
    return added, freed, listed


def of_bag(case):
    """bag"""
    added, freed, listed = serials(case)
    lines = {}
    for by, line in added:
        if by in lines:
            yield Break("bag", f"{case.told_command(by).capitalize()} added two objects.", [line, lines[by]])
        lines[by] = line
    gone = {}
    for what, rows in (("freed", freed), ("listed", listed)):
        for by, line in rows:
            if by in gone:
                yield Break(
                    "bag",
                    f"The object of {case.told_command(by)} is {gone[by][0]} and"
                    f" {what}{' again' if gone[by][0] == what else ''}.",
                    [line, gone[by][1]],
                )
            if by not in lines:
                yield Break("bag", f"An object of {case.told_command(by)} is {what}, and none was added by it.", [line])
            gone[by] = (what, line)
    for by, line in added:
        if by not in gone:
            yield Break("bag", f"The object of {case.told_command(by)} was added, and is neither freed nor listed.", [line])


def of_totals(case):
    """added, freed, listed"""
    report = case.report
    for field, told, rows in zip(("added", "freed", "listed"), (report.added, report.freed, report.listed), serials(case)):
        if told != len(rows):
            yield Break(
                field, f"The total says {told:,} {field}, and by the journals it is {len(rows):,}.", [report.lines["total"]],
            )


BAG_FIELDS = (of_bag, of_totals)
