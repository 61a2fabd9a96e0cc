"""The words of a report's line, taken one by one, each with its range."""

import re

from explaining.report import Pass, Place, Spent
from explaining.words import KEY, VALUE

NUMERAL = re.compile(rb"0|[1-9][0-9]*")
HEX = re.compile(rb"[0-9a-f]{16}")
BYTE, SHORT, COUNT, LONG = 2**8, 2**16, 2**32, 2**64
ENDINGS = (b"through", b"stop", b"noroom", b"worn")
ISOLATE_ENDINGS = (b"spent", b"bare", b"stop", b"closed", b"noroom", b"worn")


class NotReport(Exception):
    """The first line that is of no report, and why."""

    def __init__(self, line, why, at=0):
        super().__init__(why)
        self.line, self.why, self.at = line, why, at


class Words:
    """A line's words."""

    __slots__ = ("line", "words", "at")

    def __init__(self, text, line):
        self.words, self.line, self.at = text.split(b" "), line, 0

    def fail(self, why):
        raise NotReport(self.line, why, self.at)

    def word(self, what):
        if self.at >= len(self.words):
            self.fail(f"the word {what} is missing")
        self.at += 1
        return self.words[self.at - 1]

    def number(self, what, below):
        word = self.word(what)
        if not NUMERAL.fullmatch(word):
            self.at -= 1
            self.fail(f"{what} is a number without a sign or a leading zero")
        if len(word) > 20 or int(word) >= below:
            self.at -= 1
            self.fail(f"{what} is below {below:,}")
        return int(word)

    def numbered(self, what, wanted):
        """A number that counts the lines of its kind."""
        found = self.number(what, LONG)
        if found != wanted:
            self.at -= 1
            self.fail(f"{what} counts its lines from 0, and this one is {wanted}")

    def signed(self, what):
        word = self.word(what)
        digits = word[1:] if word[:1] == b"-" else word
        if not NUMERAL.fullmatch(digits) or word == b"-0" or len(word) > 20 or not -2**63 <= int(word) < 2**63:
            self.at -= 1
            self.fail(f"{what} is a number of 64 bits, with a `-` if it is below 0")
        return int(word)

    def hex(self):
        word = self.word("HEX")
        if not HEX.fullmatch(word):
            self.at -= 1
            self.fail("HEX is sixteen of 0 to 9 and a to f")
        return int(word, 16)

    def choice(self, what, words):
        word = self.word(what)
        if word not in words:
            self.at -= 1
            self.fail(f"{what} is one of {', '.join(f'`{it.decode()}`' for it in words)}")
        return word.decode()

    def key(self):
        word = self.word("KEY")
        if not KEY.fullmatch(word):
            self.at -= 1
            self.fail("KEY is 1 to 64 visible ASCII characters")
        return word

    def value(self):
        word = self.word("VALUE")
        if not VALUE.fullmatch(word):
            self.at -= 1
            self.fail("VALUE is `=` and up to 255 visible ASCII characters")
        return word

    def pattern(self, what, pattern):
        word = self.word(what)
        if not pattern.fullmatch(word):
            self.at -= 1
            self.fail(f"this is no {what.lower()}")
        return word

    def place(self):
        return Place(self.number("ID", SHORT), self.number("NODE", BYTE), self.number("G", SHORT))

    def serial(self):
        return self.number("W", SHORT), self.number("K", COUNT)

    def spent(self):
        kind = self.choice("SPENT", (b"lookups", b"list", b"charges"))
        if kind == "lookups":
            return Spent(kind, None, self.number("ID", SHORT), self.number("SEEN", COUNT))
        if kind == "list":
            return Spent(kind, self.place(), self.number("ENTRIES", COUNT), self.number("ITEMS", COUNT))
        return Spent(kind, None, self.number("CHARGES", COUNT), self.number("UNCHARGES", COUNT))

    def ending(self, words):
        kind = self.choice("END", words)
        return kind, (self.spent() if kind == "worn" else None)

    def run(self):
        """A pass."""
        numbers = (
            self.number("LEN", COUNT), self.number("VERSION", COUNT), self.number("NR", LONG), self.number("ASKS", COUNT),
            self.number("CLOSED", COUNT), self.number("SCANNED", LONG), self.number("FREED", LONG), self.number("NEXT", LONG),
        )
        return Pass(*numbers, *self.ending(ENDINGS))

    def done(self):
        if self.at < len(self.words):
            self.fail("a word stands behind the last one of the line")
