"""L6: each group's charges are one history, and they leave what is listed. L7: deferred words. L8: bits."""

from collections import Counter

from explaining.case import Break
from explaining.report import Place
from explaining.shown import lower

TITLE = "each group's charges and uncharges are one history, they are those of the commands, and they leave what is listed"
DEFERRED_TITLE = "each deferred word is what passes and carries gave less what they took"
BITS_TITLE = "each list below the root that has objects of a registered cache has its bit set at the end"


class Tree:
    """The journal of the tree, entry by entry."""

    def __init__(self, case, entries=()):
        self.case, self.made, self.begun, self.done = case, {}, {}, {}
        for entry in entries:
            self.add(entry)

    def add(self, entry):
        rows = {"made": self.made, "begin": self.begun, "done": self.done}[entry.kind]
        rows.setdefault(entry.group, entry.line)

    def is_made(self, group):
        return not self.case.is_later(group) or group in self.made

    def undone_child(self, group):
        """The lowest child that is made and isn't done, or None."""
        return next((child for child in self.case.children(group) if self.is_made(child) and child not in self.done), None)

    def wrong(self, entry):
        """Why an entry may not follow those before it, or None."""
        case, group = self.case, entry.group
        if entry.kind == "done":
            if group not in self.begun:
                return "It never began to go offline."
            return "It is done already." if group in self.done else None
        if group >= len(case.parents):
            return "There is no such group."
        if entry.kind == "made":
            return self.wrong_made(group)
        if group == 0:
            return "The root never goes offline."
        if not self.is_made(group):
            return "It isn't made yet."
        if group in self.begun:
            return "It began before."
        child = self.undone_child(group)
        return f"Its child, {case.group(child)}, isn't done." if child is not None else None

    def wrong_made(self, group):
        parent = self.case.parents[group]
        if not self.case.is_later(group):
            return "It is no `later` group: it is there from the start."
        if group in self.made:
            return "It is made already."
        if not self.is_made(parent):
            return f"Its parent, {self.case.group(parent)}, isn't made."
        return f"Its parent, {self.case.group(parent)}, began to go offline before." if parent in self.begun else None


def of_tree(case):
    """tree"""
    tree = Tree(case)
    for number, entry in enumerate(case.report.tree):
        told = tree.wrong(entry)
        if told:
            yield Break(
                "tree",
                f"Entry {number} of the journal of the tree, `{entry.kind}` of {case.group(entry.group)}: {lower(told)}",
                [entry.line],
            )
        tree.add(entry)


def of_histories(case):
    """there, histories"""
    for use in case.report.uses:
        if use.group >= len(case.parents):
            yield Break("there", f"A charge of group {use.group}, which isn't there.", [use.line])
    for group, uses in case.uses_of.items():
        usage = 0
        for number, use in enumerate(uses):
            if use.operation != number:
                yield Break(
                    "histories", f"The operations of {case.group(group)} are numbered from 0, and this one is {number}.",
                    [use.line],
                )
            if use.found != usage:
                yield Break(
                    "histories",
                    f"Operation {number} of {case.group(group)} says that it found a usage of {use.found}, and those before"
                    f" it leave {usage}.",
                    [use.line],
                )
            usage += 1 if use.up else -1


def of_taken_back(case):
    """taken_back"""
    for (by, group), uses in case.uses_by.items():
        limit = case.limit(group)
        for at, use in enumerate(uses if limit is not None else ()):
            if use.up and use.found >= limit and (at + 1 >= len(uses) or uses[at + 1].up):
                yield Break(
                    "taken_back",
                    f"This charge of {case.group(group)} found a usage of {use.found}, its limit is {limit}, and its command"
                    " doesn't take it back by its next operation there.",
                    [use.line],
                )


def of_puts(case):
    """puts, fourteen, between"""
    for use in case.report.uses:
        command = case.command(use.by) if use.up else None
        if use.up and (command is None or command.verb != "put"):
            yield Break("puts", f"A charge by {case.told_command(use.by)}: only a put charges.", [use.line])
    for (by, group), uses in case.uses_by.items():
        ups = [use for use in uses if use.up]
        if len(ups) > 14:
            yield Break(
                "fourteen",
                f"{case.told_command(by).capitalize()} charges {case.group(group)} {len(ups)} times, and a put does so at"
                " most 14 times.",
                [ups[14].line],
            )
    for (by, group), uses in case.uses_by.items():
        for use, later in zip(uses, uses[1:]):
            if use.up and later.up:
                yield Break(
                    "between",
                    f"{case.told_command(by).capitalize()} charges {case.group(group)} twice with no uncharge between.",
                    [later.line, use.line],
                )


def nets_due(case):
    """What each command charged to each group less what it freed there."""
    due = Counter()
    for by, command, answer in case.each_answer():
        if command.verb == "put" and answer.kind == "added":
            for group in case.path(command.words["group"]):
                due[by, group] += 1
    for place, found in case.journals.lists.items():
        for entry, freed in zip(found.entries, case.journals.replay(place).freed):
            by = case.entry_by(entry) if freed else None
            for item in freed if by is not None else ():
                for group in case.path(item.birth):
                    due[by, group] -= 1
    return due


def of_nets(case):
    """nets"""
    due = nets_due(case)
    for by, group in dict.fromkeys([*case.uses_by, *due]):
        uses = case.uses_by.get((by, group), ())
        net = sum(1 if use.up else -1 for use in uses)
        if net != due[by, group]:
            lines = [uses[-1].line] if uses else [answer.line for answer in [case.answer(by)] if answer]
            yield Break(
                "nets",
                f"{case.told_command(by).capitalize()} charges {case.group(group)} by {net} in all, and what it added less"
                f" what it freed there is {due[by, group]}.",
                lines,
            )


def listed_below(case):
    """How many of the listed objects were born at or below each group."""
    counts = Counter()
    for found in case.report.lists:
        for item in found.items:
            counts.update(case.path(item.birth))
    return counts


def of_final(case):
    """final, limits"""
    listed = listed_below(case)
    for group in range(len(case.parents)):
        uses = case.uses_of.get(group, ())
        usage = sum(1 if use.up else -1 for use in uses)
        if usage != listed[group]:
            yield Break(
                "final",
                f"The charges of {case.group(group)} leave a usage of {usage}, and {listed[group]} objects are listed that"
                " were born in it or below.",
                [uses[-1].line] if uses else [],
            )
    for group in range(len(case.parents)):
        limit = case.limit(group)
        if limit is not None and listed[group] > limit:
            yield Break(
                "limits",
                f"{case.group(group).capitalize()} has a limit of {limit}, and {listed[group]} objects are listed that were"
                " born in it or below.",
                [],
            )


FIELDS = (of_tree, of_histories, of_taken_back, of_puts, of_nets, of_final)


# ---- L7


def deferred_sums(case):
    """What was given to the deferred word of each place, and what was taken from it."""
    given, taken = Counter(), Counter()
    for walk in case.walks:
        for attempt in walk.attempts:
            if attempt.run:
                given[walk.place(attempt.id)] += attempt.run.next
                taken[walk.place(attempt.id)] += attempt.run.nr
    for carry in case.carries:
        place = carry.place
        taken[place] += carry.amount
        if 0 < place.group < len(case.parents):
            given[Place(place.id, place.node, case.parents[place.group])] += carry.amount
    return given, taken


def of_words(case):
    """words"""
    given, taken = deferred_sums(case)
    printed = {row.place: row for row in case.report.deferred}
    for place in sorted({*given, *taken, *printed}):
        told, right = (printed[place].amount if place in printed else 0), (given[place] - taken[place]) % 2**64
        if told != right:
            line = printed[place].line if place in printed else next(iter(lines_of_deferring(case, place)), None)
            yield Break(
                "words",
                f"The deferred word at {case.place(place)} is {told:,}. Passes and carries gave {given[place]:,} there and"
                f" took {taken[place]:,}, which leaves {right:,}.",
                [line] if line else [],
            )


def lines_of_deferring(case, place):
    for walk in reversed(case.walks):
        yield from (attempt.line for attempt in walk.attempts if attempt.run and walk.place(attempt.id) == place)
    yield from (carry.line for carry in case.carries if carry.place == place)


def of_carries(case):
    """shown, carries, once: a text that breaks the first or the last is no report"""
    for carry in case.carries:
        command, answer = case.command(carry.by), case.answer(carry.by)
        if not case.is_there(carry.place):
            yield Break("carries", f"A carry from {case.place(carry.place)}, which isn't there.", [carry.line])
        if command is None or command.verb != "offline" or command.words["group"] != carry.place.group:
            yield Break(
                "carries",
                f"A carry from a place of {case.group(carry.place.group)} is made by an `offline` of that group, and this is"
                f" of {case.told_command(carry.by)}.",
                [carry.line],
            )
        if answer.kind not in ("offlined", "alreadydone"):
            yield Break("carries", "An `offline` that carried is answered `done` or `alreadydone`.", [carry.line, answer.line])


DEFERRED_FIELDS = (of_words, of_carries)


# ---- L8


def of_bits(case):
    """set"""
    bits = {}
    for row in case.report.bits:
        bits.setdefault((row.node, row.group, row.unit), row)
    count = len(case.report.pool)
    for place in sorted(case.journals.lists):
        left = case.journals.left(place)
        if not place.group or not left or not case.registrations.is_live(place.id, count):
            continue
        row = bits.get((place.node, place.group, place.id // 64))
        if row is None or not row.bits >> place.id % 64 & 1:
            cache = case.script.caches[case.registrations.decl(place.id, count)].name.decode()
            objects = f"{len(left)} object{'s' if len(left) > 1 else ''}"
            lines = [row.line if row else None, case.line_of(place)]
            yield Break(
                "set",
                f"The bit of id {place.id} (cache {cache}) in {case.group(place.group)} on node {place.node} is clear, and"
                f" the list there has {objects}: no walk of that group finds them.",
                [line for line in lines if line],
            )


BITS_FIELDS = (of_bits,)
