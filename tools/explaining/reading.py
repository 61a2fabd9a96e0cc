"""Reads the text of a report, section by section, and stops at the first line that is of none."""

from explaining.answers_read import read_answer
from explaining.line_words import BYTE, COUNT, ISOLATE_ENDINGS, LONG, SHORT, NotReport, Words
from explaining.report import (
    Amount, Attempt, Bits, Carry, Entry, Found, Isolation, Item, List, Map, Part, Place, PoolWalk, Registration, Report,
    TreeEntry, Try, Units, UnitsEntry, Use, Walk,
)
from explaining.shown import quoted
from explaining.words import NAME, PATH

POLICIES = (b"plain", b"clock", b"halt")
KNOWN = (
    b"report", b"size", b"group", b"cache", b"pool", b"tree", b"reply", b"find", b"isolation", b"walk", b"map", b"try", b"carry",
    b"plain", b"pass", b"list", b"add", b"look", b"drop", b"pin", b"unpin", b"scan", b"moved", b"closed", b"drained", b"item",
    b"units", b"release", b"grab", b"reclaim", b"bit", b"deferred", b"pooldeferred", b"use", b"lookups", b"total", b"end",
)


class Lines:
    """The lines of a text, taken in order."""

    def __init__(self, data):
        self.parts = data.split(b"\n")
        self.last, self.next = len(self.parts) - 1, 0

    @property
    def line(self):
        return self.next + 1

    def first(self):
        """The first word of the next line, or None behind the last line feed."""
        return self.parts[self.next].partition(b" ")[0] if self.next < self.last else None

    def take(self):
        """The next line's words behind its first."""
        self.next += 1
        words = Words(self.parts[self.next - 1], self.next)
        words.at = 1
        return words

    def take_of(self, word, what):
        if self.first() != word:
            self.fail(what)
        return self.take()

    def fail(self, what):
        if self.next >= self.last:
            left = self.parts[self.last]
            raise NotReport(self.line, f"the text ends here{' without a line feed' if left else ''}, and {what}")
        raise NotReport(self.line, f"{quoted(self.first())} can't stand here, since {what}" if self.first() in KNOWN else what)


def read_head(lines, report):
    words = lines.take_of(b"report", "a report's first line is `report 1` or `report 2`")
    report.version = int(words.choice("VERSION", (b"1", b"2")))
    words.done()
    words = lines.take_of(b"size", "the line `size NODES IDS` comes second")
    report.nodes, report.ids = words.number("NODES", BYTE), words.number("IDS", SHORT)
    words.done()
    for word, rows, pattern, what in ((b"group", report.groups, PATH, "PATH"), (b"cache", report.caches, NAME, "NAME")):
        while lines.first() == word:
            words = lines.take()
            words.numbered(word.decode(), len(rows))
            rows.append(words.pattern(what, pattern))
            words.done()
    while lines.first() == b"pool" and lines.parts[lines.next].count(b" ") == 2:
        words = lines.take()
        words.numbered("pool", len(report.pools))
        report.pools.append(words.pattern("NAME", NAME))
        words.done()


def read_registrations(lines, report):
    while lines.first() == b"pool":
        words = lines.take()
        words.numbered("the entry", len(report.pool))
        kind = words.choice("what the entry says", (b"registered", b"unregistered", b"idle"))
        decl = None if kind == "idle" else words.number("C", BYTE)
        of_id = words.number("ID", SHORT)
        number = None if kind == "idle" else words.number("the lookup", COUNT)
        words.done()
        report.pool.append(Registration(kind, decl, of_id, number, words.line))


def read_tree(lines, report):
    while lines.first() == b"tree":
        words = lines.take()
        words.numbered("the entry", len(report.tree))
        kind = words.choice("what the entry says", (b"made", b"begin", b"done"))
        report.tree.append(TreeEntry(kind, words.number("G", SHORT), words.line))
        words.done()


def read_workers(lines, report):
    """The workers' parts: replies by worker and command, each with what stands behind it."""
    while lines.first() == b"reply":
        words = lines.take()
        worker, command = words.number("W", SHORT), words.number("K", COUNT)
        if worker + 1 < len(report.workers):
            raise NotReport(words.line, f"the answers stand by worker, and those of worker {len(report.workers) - 1} came before")
        while len(report.workers) <= worker:
            report.workers.append(Part())
        part = report.workers[worker]
        if command != len(part.answers):
            raise NotReport(words.line, f"the next answer of worker {worker} is that to its command {len(part.answers)}", 2)
        answer = read_answer(words)
        words.done()
        part.answers.append(answer)
        read_command(lines, part, answer, (worker, command))


def read_command(lines, part, answer, by):
    """What stands behind an answer."""
    if lines.first() == b"find":
        words = lines.take()
        answer.found = Found(words.number("ID", SHORT), words.number("NUMBER", COUNT), words.number("ENTRY", COUNT), words.line)
        words.done()
    while lines.first() == b"isolation":
        words = lines.take()
        numbers = (words.place(), words.number("BUDGET", COUNT), words.number("VISITS", COUNT), words.number("FREED", COUNT))
        part.isolations.append(Isolation(by, *numbers, *words.ending(ISOLATE_ENDINGS), words.line))
        words.done()
    while lines.first() == b"walk":
        part.walks.append(read_walk(lines, by, len(part.walks)))
    read_carries(lines, part, by)
    while lines.first() == b"plain":
        part.plain.append(read_pool_walk(lines, by, len(part.plain)))


def read_carries(lines, part, by):
    last = None
    while lines.first() == b"carry":
        words = lines.take()
        place = words.place()
        if last is not None and place[:2] <= last:
            raise NotReport(words.line, "the carries of one command stand by id and node, each once")
        last = place[:2]
        part.carries.append(Carry(by, place, words.number("AMOUNT", LONG), words.line))
        words.done()


def read_walk(lines, by, number):
    words = lines.take()
    words.numbered("the walk", number)
    numbers = (number, words.number("G", SHORT), words.number("NODE", BYTE), words.number("PRIORITY", BYTE))
    nofs = words.choice("KIND", (b"fs", b"nofs")) == "nofs"
    answer = words.choice("how the walk ended", (b"ran", b"offline", b"memory"))
    walk = Walk(by, (*numbers, nofs, answer, words.number("its number", COUNT if answer == "offline" else LONG)), words.line)
    words.done()
    while lines.first() in (b"map", b"try"):
        if lines.first() == b"map":
            walk.maps.append(read_map(lines, walk))
        else:
            walk.attempts.append(read_attempt(lines, walk))
    return walk


def read_map(lines, walk):
    words = lines.take()
    seen = Map(words.number("UNIT", BYTE), words.hex(), words.line)
    words.done()
    if walk.group == 0:
        raise NotReport(words.line, "a walk of the root has no map")
    if walk.maps and walk.maps[-1].unit >= seen.unit:
        raise NotReport(words.line, "the units of a walk's maps rise", 1)
    return seen


def read_attempt(lines, walk):
    words = lines.take()
    of_id = words.number("ID", SHORT)
    if walk.group and (not walk.maps or walk.maps[-1].unit != of_id // 64):
        raise NotReport(words.line, f"an attempt stands behind the map of its unit, and id {of_id} is of unit {of_id // 64}", 1)
    if words.at < len(words.words) and words.words[words.at] == b"worn":
        words.at += 1
        attempt = Attempt(of_id, "worn", words.line, seen=words.number("SEEN", COUNT))
    else:
        attempt = read_outcome(words, of_id, words.number("NUMBER", COUNT))
    words.done()
    return attempt


def read_outcome(words, of_id, number):
    """What a lookup came to."""
    line = words.line
    if words.choice("what was found", (b"gone", b"held")) == "gone":
        then = words.choice("what became of the bit", (b"set", b"clear", b"root"))
        return Attempt(of_id, "gone", line, number, then=then)
    kind, counts, restored = words.choice("what was done", (b"skip", b"ran", b"empty", b"cleared", b"restored")), [], ""
    if kind == "restored":
        counts.append((0, words.number("FIRST", COUNT)))
        kind, restored = words.choice("what was done", (b"skip", b"ran")), "restored"
    if kind == "ran":
        run = words.run()
        return Attempt(of_id, restored + kind, line, number, counts=[*counts, (run.len, run.version)], run=run)
    if kind == "skip":
        counts.append((words.number("LEN", COUNT), words.number("VERSION", COUNT)))
    else:
        counts += [(0, words.number("VERSION", COUNT)) for _ in range(1 if kind == "empty" else 2)]
    return Attempt(of_id, restored + kind, line, number, counts=counts)


def read_pool_walk(lines, by, number):
    words = lines.take()
    words.numbered("the walk of the pools", number)
    numbers = (number, words.number("NODE", BYTE), words.number("PRIORITY", BYTE))
    walk = PoolWalk(by, (*numbers, words.choice("how it ended", (b"ran", b"memory")), words.number("FREED", LONG)), words.line)
    words.done()
    while lines.first() == b"pass":
        words = lines.take()
        words.numbered("P", len(walk.tries))
        kind = words.choice("what was done", (b"empty", b"skip", b"ran"))
        if kind == "ran":
            run = words.run()
            walk.tries.append(Try(kind, run.len, run.version, run, words.line))
        else:
            length = words.number("LEN", COUNT) if kind == "skip" else 0
            walk.tries.append(Try(kind, length, words.number("VERSION", COUNT), None, words.line))
        words.done()
    return walk


def read_entry(words, kind):
    """An entry of a list's journal."""
    line = words.line
    if kind == "closed":
        return Entry(kind, line)
    if kind == "moved":
        return Entry(kind, line, birth=words.number("CHILD", SHORT), objects=words.number("OBJECTS", COUNT))
    if kind == "scan":
        worker, walk, asked = words.number("W", SHORT), words.number("S", LONG), words.number("ASKED", COUNT)
        policy, visits = words.choice("POLICY", POLICIES), words.number("VISITS", COUNT)
        freed, outcome = words.number("FREED", COUNT), words.choice("how the scan ended", (b"whole", b"stopped"))
        return Entry(kind, line, walk=(worker, walk), asked=asked, policy=policy, visits=visits, freed=freed, outcome=outcome)
    by = words.serial()
    if kind == "drained":
        return Entry(kind, line, by=by, objects=words.number("OBJECTS", COUNT))
    birth, key = words.number("BIRTH", SHORT), words.key()
    value = words.value() if kind == "add" else None
    return Entry(kind, line, by=by, birth=birth, key=key, value=value, outcome=words.choice("its outcome", OUTCOMES[kind]))


OUTCOMES = {
    "add": (b"added", b"exists"), "look": (b"hit", b"miss"), "drop": (b"dropped", b"pinned", b"miss"), "pin": (b"done", b"miss"),
    "unpin": (b"done", b"miss"),
}
ENTRY_WORDS = (b"add", b"look", b"drop", b"pin", b"unpin", b"scan", b"moved", b"closed", b"drained")


def read_lists(lines, report):
    while lines.first() == b"list":
        words = lines.take()
        found = List(words.place(), words.line)
        words.done()
        if report.lists and found.place < report.lists[-1].place:
            raise NotReport(words.line, "lists stand by id, then by node, then by group", 1)
        while lines.first() in ENTRY_WORDS:
            kind = lines.first().decode()
            words = lines.take()
            found.entries.append(read_entry(words, kind))
            words.done()
        if not found.entries:
            lines.fail("a list that is printed has an entry of its journal")
        while lines.first() == b"item":
            found.items.append(read_item(lines))
            found.item_lines.append(lines.line - 1)
        report.lists.append(found)


def read_item(lines):
    words = lines.take()
    by, birth = words.serial(), words.number("BIRTH", SHORT)
    key, value = words.key(), words.value()
    marked, pinned = words.choice("MARK", (b"marked", b"clean")), words.choice("PIN", (b"pinned", b"loose"))
    words.done()
    return Item(by, birth, key, value, marked == "marked", pinned == "pinned")


def read_units(lines, report):
    while lines.first() == b"units":
        words = lines.take()
        place = Place(words.number("P", BYTE), words.number("NODE", BYTE), 0)
        found = Units(place, words.number("FREE", COUNT), words.line)
        words.done()
        if report.units and place < report.units[-1].place:
            raise NotReport(words.line, "the journals of pools stand by pool and node", 1)
        while lines.first() in (b"release", b"grab", b"reclaim"):
            found.entries.append(read_units_entry(lines, lines.first().decode()))
        if not found.entries:
            lines.fail("a pool's journal that is printed has an entry")
        report.units.append(found)


def read_units_entry(lines, kind):
    words = lines.take()
    if kind == "reclaim":
        by = (words.number("W", SHORT), words.number("S", COUNT))
        entry = UnitsEntry(kind, by, None, words.number("ASKED", COUNT), words.number("FREED", COUNT), words.line)
    else:
        by = words.serial()
        number = (
            words.number("UNITS", COUNT) if kind == "release" else int(words.choice("its outcome", (b"got", b"bare")) == "got")
        )
        entry = UnitsEntry(kind, by, number, None, None, words.line)
    words.done()
    return entry


def read_bits(lines, report):
    """A bit word for each node, group and unit."""
    units = [0] if report.version == 1 else range((report.ids + 63) // 64)
    wanted = ((node, group, unit) for node in range(report.nodes) for group in range(1, len(report.groups)) for unit in units)
    for node, group, unit in wanted:
        place = f"node {node} and group {group}" + (f", unit {unit}" if report.version == 2 else "")
        words = lines.take_of(b"bit", f"the line `bit` of {place} is missing")
        found = [words.number("NODE", BYTE), words.number("G", SHORT)]
        found.append(words.number("UNIT", BYTE) if report.version == 2 else 0)
        if found != [node, group, unit]:
            raise NotReport(words.line, f"the bit words stand by node, group and unit, and the one of {place} comes here", 1)
        report.bits.append(Bits(node, group, unit, words.hex(), words.line))
        words.done()
    if lines.first() == b"bit":
        lines.fail("all bit words stand above: each node and group but the root has its own")


def pool_place(words):
    return Place(words.number("P", SHORT), words.number("NODE", BYTE), 0)


def read_amounts(lines, rows, word, place_of):
    while lines.first() == word:
        words = lines.take()
        place, amount = place_of(words), words.number("the amount", LONG)
        words.done()
        if amount == 0:
            raise NotReport(words.line, "a deferred word of 0 isn't printed", words.at - 1)
        if rows and place <= rows[-1].place:
            raise NotReport(words.line, "deferred words stand by place, each once", 1)
        rows.append(Amount(place, amount, words.line))


def read_uses(lines, report):
    while lines.first() == b"use":
        words = lines.take()
        group, operation = words.number("G", SHORT), words.number("OPERATION", COUNT)
        up, found = words.choice("SIGN", (b"+", b"-")) == "+", words.signed("FOUND")
        use = Use(group, operation, up, found, words.serial(), words.line)
        words.done()
        if report.uses and (group, operation) <= (report.uses[-1].group, report.uses[-1].operation):
            raise NotReport(words.line, "charges stand by group and operation, each once", 1)
        report.uses.append(use)


def read_end(lines, report):
    for of_id in range(report.ids):
        words = lines.take_of(b"lookups", f"the line `lookups` of id {of_id} is missing")
        words.numbered("ID", of_id)
        report.lookups.append(words.number("N", COUNT))
        words.done()
    report.lines["total"] = lines.line
    words = lines.take_of(b"total", "the line `total ADDED FREED LISTED REPLIES WALKS` comes here")
    report.added, report.freed, report.listed = (words.number(what, LONG) for what in ("ADDED", "FREED", "LISTED"))
    counts = sum(len(part.answers) for part in report.workers), sum(len(part.walks) for part in report.workers)
    for what, count in zip(("REPLIES", "WALKS"), counts):
        if words.number(what, LONG) != count:
            words.at -= 1
            words.fail(f"{what} is {count}: so many stand above")
    words.done()
    lines.take_of(b"end", "the line `end` comes last").done()
    if lines.next < lines.last or lines.parts[lines.last]:
        raise NotReport(lines.line, "the report ends with the line `end`, and something stands behind it")


def read_report(data):
    """The report whose text these bytes are, or the first line that is of none."""
    report, lines = Report(), Lines(data)
    read_head(lines, report)
    read_registrations(lines, report)
    read_tree(lines, report)
    read_workers(lines, report)
    read_lists(lines, report)
    read_units(lines, report)
    read_bits(lines, report)
    read_amounts(lines, report.deferred, b"deferred", Words.place)
    read_amounts(lines, report.pool_deferred, b"pooldeferred", pool_place)
    read_uses(lines, report)
    read_end(lines, report)
    return report
