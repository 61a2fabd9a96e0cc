"""The words of a script: each class with its test, its code, and what a person reads of it."""

import re

NUMBER = re.compile(rb"0|[1-9][0-9]*")
PATH = re.compile(rb"/|(?:/[a-z0-9_]{1,32})+")
NAME = re.compile(rb"[a-z0-9_]{1,16}")
KEY = re.compile(rb"[!-~]{1,64}")
VALUE = re.compile(rb"=[!-~]{0,255}")


class Fault(Exception):
    """The first bad line: its code, which of its words is bad, and the class that the word fails."""

    def __init__(self, code, at=0, word_class=None):
        super().__init__(code)
        self.code, self.at, self.word_class = code, at, word_class
        self.line = 0


class Number:
    """A number from `low` to `high`."""

    def __init__(self, name, low, high):
        self.name, self.low, self.high = name, low, high

    def take(self, word):
        if NUMBER.fullmatch(word) and len(word) < 8 and self.low <= int(word) <= self.high:
            return int(word)
        raise Fault("BadNumber")

    def expected(self):
        return f"a number from {self.low} to {self.high:,}" if self.low < self.high else f"the number {self.low}"


class Limit(Number):
    """A limit of a group; None is `max`."""

    def __init__(self):
        super().__init__("LIMIT", 0, 1_000_000)

    def take(self, word):
        return None if word == b"max" else super().take(word)

    def expected(self):
        return "`max`, or a number of objects from 0 to 1,000,000"


class Plain:
    """A word of a pattern."""

    def __init__(self, name, pattern, code, expected):
        self.name, self.pattern, self.code, self.told = name, pattern, code, expected

    def take(self, word):
        if self.pattern.fullmatch(word):
            return word
        raise Fault(self.code)

    def expected(self):
        return self.told


class Chosen:
    """One of some words; the place of the word among them is its value."""

    def __init__(self, name, words):
        self.name, self.words = name, words

    def take(self, word):
        if word in self.words:
            return self.words.index(word)
        raise Fault("UnknownWord")

    def expected(self):
        told = [f"`{word.decode()}`" for word in self.words]
        return ", ".join(told[:-1]) + " or " + told[-1]


class Listed:
    """A word that an earlier line declared; its value is its number."""

    def __init__(self, plain, missing, known, marks=None):
        self.plain, self.missing, self.known, self.marks = plain, missing, known, marks
        self.name = plain.name

    def take(self, word):
        self.plain.take(word)
        number = self.known.get(word)
        if number is None or (self.marks is not None and not self.marks[number]):
            raise Fault(self.missing)
        return number

    def expected(self):
        return self.plain.expected()


PATHS = Plain("PATH", PATH, "BadPath", "a path: `/`, or parts such as `/a/b`, each of 1 to 32 of a to z, 0 to 9 and `_`")
GROUPS = Plain("GROUP", PATH, "BadPath", "the path of a declared group, or `/` for the root")
LATER_GROUPS = Plain("GROUP", PATH, "BadPath", "the path of a group that a `later` line declared")
NAMES = Plain("NAME", NAME, "BadText", "a name of 1 to 16 of a to z, 0 to 9 and `_`")
CACHES = Plain("CACHE", NAME, "BadText", "the name of a declared cache")
POOLS = Plain("POOL", NAME, "BadText", "the name of a declared pool")
KEYS = Plain("KEY", KEY, "BadText", "a key of 1 to 64 visible ASCII characters")
VALUES = Plain("VALUE", VALUE, "BadText", "a value: `=` and up to 255 visible ASCII characters")
SEEKS, BATCH, FLOOR = Number("SEEKS", 0, 1000), Number("BATCH", 0, 20_000), Number("FLOOR", 0, 20_000)
POLICY = Chosen("POLICY", (b"plain", b"clock", b"halt"))
CACHE_KIND, START = Chosen("KIND", (b"any", b"fs")), Chosen("START", (b"off", b"on"))
AWARE, KIND = Chosen("AWARE", (b"nodes", b"flat")), Chosen("KIND", (b"fs", b"nofs"))
PRIORITY, UNITS, BUDGET = Number("PRIORITY", 0, 12), Number("UNITS", 1, 20_000), Number("BUDGET", 0, 20_000)
