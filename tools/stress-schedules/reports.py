"""A report, read only as far as windows and outcomes need it. The program's auditor judges it; this reads it."""

from typing import NamedTuple

ENTRIES = ("add", "look", "drop", "pin", "unpin", "scan", "moved", "closed", "drained")
# The answers of a command on an object that end with a place and the number of an entry.
AT_PLACE = ("added", "exists", "hit", "miss", "dropped", "pinned")
COUNTED = ("walked", "isolated", "swept", "memory")


class Find(NamedTuple):
    """The lookup that found a cache: its id, its number, and how many registrations the worker knew."""

    id: int
    number: int
    known: int


class Attempt(NamedTuple):
    """A walk's attempt of an id: by which worker and command, at which place, and the words behind `try ID NUMBER`."""

    worker: int
    command: int
    id: int
    node: int
    group: int
    number: int
    words: tuple

    def place(self):
        return self.id, self.node, self.group

    def held(self):
        """What a walk that held the cache says: `skip`, `ran`, `empty`, `cleared` or `restored`; else nothing."""
        return self.words[1] if self.words[0] == "held" else ""

    def pass_words(self):
        """The words of its pass (LEN VERSION NR ASKS CLOSED SCANNED FREED NEXT END); none if there was no pass."""
        if self.held() == "ran":
            return self.words[2:]
        if self.held() == "restored" and self.words[3] == "ran":
            return self.words[4:]
        return ()


class Use(NamedTuple):
    """An operation on a group's usage."""

    number: int
    sign: str
    found: int
    worker: int
    command: int


class Report:
    """The parts of a report."""

    def __init__(self, text, limits=None, missed=()):
        self.limits = limits or {}  # group: its limit, if it has one
        self.missed = missed        # (worker, function) of each exchange that missed, which the report doesn't tell
        self.replies = {}        # (worker, command): the words of the answer
        self.finds = {}          # (worker, command): Find
        self.attempts = []       # in the order of the report: by worker, and then by time
        self.registrations = []  # the words of each entry of the journal of registrations
        self.tree = []           # the words of each entry of the journal of the tree
        self.lists = {}          # (id, node, group): the words of each entry
        self.bits = set()        # (id, node, group)
        self.uses = {}           # group: Use of each operation, by number
        self.units = {}          # (pool, node): the words of each entry
        self.carries = set()     # (worker, command)
        self.at, self.walk, self.journal, self.is_second = None, None, None, False
        for line in text.decode(errors="replace").split("\n"):
            words = line.split(" ")
            taker = getattr(self, "take_" + words[0], None)
            if taker:
                taker(words)
            elif words[0] in ENTRIES and self.journal is not None:
                self.journal.append(words)

    def take_report(self, words):
        self.is_second = words[1] == "2"

    def take_reply(self, words):
        self.at = int(words[1]), int(words[2])
        self.replies[self.at] = words[3:]

    def take_find(self, words):
        self.finds[self.at] = Find(*map(int, words[1:]))

    def take_carry(self, _words):
        self.carries.add(self.at)

    def take_walk(self, words):
        self.walk = int(words[3]), int(words[2])

    def take_try(self, words):
        if words[2] != "worn":
            number, told = int(words[2]), tuple(words[3:])
            self.attempts.append(Attempt(*self.at, int(words[1]), *self.walk, number, told))

    def take_pool(self, words):
        if len(words) > 3:
            self.registrations.append(words[2:])

    def take_tree(self, words):
        self.tree.append(words[2:])

    def take_list(self, words):
        self.journal = self.lists.setdefault(tuple(map(int, words[1:])), [])

    def take_units(self, words):
        self.journal = None
        self.pool = self.units.setdefault((int(words[1]), int(words[2])), [])

    def take_release(self, words):
        self.pool.append(words)

    take_grab = take_reclaim = take_release

    def take_bit(self, words):
        unit, word = (int(words[3]), words[4]) if self.is_second else (0, words[3])
        bits = int(word, 16)
        self.bits.update((unit * 64 + i, int(words[1]), int(words[2])) for i in range(64) if bits >> i & 1)

    def take_use(self, words):
        number, sign, *rest = words[2:]
        self.uses.setdefault(int(words[1]), []).append(Use(int(number), sign, *map(int, rest)))

    def answers(self):
        """What each command was answered, without the numbers of entries: its word, and the group of its list."""
        return {at: outcome_of(words) for at, words in self.replies.items()}

    def journal_ids(self, known):
        """The state of each id after so many entries of the journal of registrations: its last entry's words."""
        states = {}
        for words in self.registrations[:known]:
            id_word = words[2] if words[0] == "registered" else words[1]
            states[id_word] = words
        return states


def outcome_of(words):
    """An answer as a part of an outcome."""
    word = words[0]
    if word in AT_PLACE or (word == "done" and len(words) == 5):
        return f"{word} in {words[3]}"
    if word == "done":
        return f"done moved {words[2]}"
    return " ".join(words) if word in COUNTED else word
