"""What the journal of registrations says of ids and declarations, entry by entry."""

from bisect import bisect_left


class History:
    """The entries of one id: their numbers in the journal, and what the id is after each."""

    def __init__(self, rows):
        self.rows = rows
        self.numbers = [number for number, _ in rows]
        self.decls, self.begun, self.last = [0], [0], [0]
        for _, entry in rows:
            registers = entry.kind == "registered"
            self.decls.append(entry.decl if registers else self.decls[-1])
            self.begun.append(entry.number if registers else self.begun[-1])
            self.last.append(entry.number if entry.kind != "idle" else self.last[-1])
        # Where the next Unregistered of each entry or one behind it ends the registration.
        self.ends = [None]
        for _, entry in reversed(rows):
            self.ends.append(entry.number if entry.kind == "unregistered" else self.ends[-1])
        self.ends.reverse()

    def before(self, count):
        """How many of the id's entries are among the first so many."""
        return bisect_left(self.numbers, count)

    def spans(self):
        """Each registration: its declaration, where it begins, and where it ends or None."""
        return [
            (entry.decl, entry.number, self.ends[at]) for at, (_, entry) in enumerate(self.rows) if entry.kind == "registered"
        ]


class Registrations:
    """The journal, with what each id was after so many entries."""

    def __init__(self, report):
        self.entries, self.report, rows = report.pool, report, {}
        for number, entry in enumerate(self.entries):
            rows.setdefault(entry.id, []).append((number, entry))
        self.of_id = {of_id: History(found) for of_id, found in rows.items()}
        self.spans = {of_id: history.spans() for of_id, history in self.of_id.items()}
        self.none = History([])

    def at(self, of_id, count):
        """The history of an id, and how many of its entries are among the first so many."""
        history = self.of_id.get(of_id, self.none)
        return history, history.before(count)

    def phase(self, of_id, count):
        return self.at(of_id, count)[1]

    def is_live(self, of_id, count):
        return self.phase(of_id, count) % 3 == 1

    def decl(self, of_id, count):
        history, before = self.at(of_id, count)
        return history.decls[before]

    def begun(self, of_id, count):
        """The number where the id's last registration begins."""
        history, before = self.at(of_id, count)
        return history.begun[before]

    def last(self, of_id, count):
        """The number of the id's last Registered or Unregistered."""
        history, before = self.at(of_id, count)
        return history.last[before]

    def ended(self, of_id, count):
        """The number of the id's next Unregistered, or None."""
        history, before = self.at(of_id, count)
        return history.ends[before]

    def became_idle(self, of_id, number):
        """Whether an id became idle behind an entry."""
        history, before = self.at(of_id, number + 1)
        return any(entry.kind == "idle" for _, entry in history.rows[before:])

    def live_id(self, ids, decl, count):
        """The id by which a declaration is live after so many entries, or None."""
        for of_id in self.of_id:
            if of_id < ids and self.is_live(of_id, count) and self.decl(of_id, count) == decl:
                return of_id
        return None

    def lowest_idle(self, ids, count):
        """The lowest id that can be registered, or None."""
        for of_id in range(ids):
            phase = self.phase(of_id, count)
            if phase % 3 == 0 and phase < 65533:
                return of_id
        return None

    def lookups(self, of_id):
        return self.report.lookups[of_id] if of_id < len(self.report.lookups) else 0

    def met(self, of_id, number, bounded=True):
        """The declaration in whose registration a lookup lies, or None. Bounded: it is below the printed lookups of the id."""
        if bounded and number >= self.lookups(of_id):
            return None
        for decl, begun, ended in self.spans.get(of_id, ()):
            if begun <= number and (ended is None or number < ended):
                return decl
        return None
