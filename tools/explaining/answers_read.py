"""Reads the answer of a `reply` line."""

from explaining.line_words import BYTE, COUNT, ISOLATE_ENDINGS, LONG, SHORT
from explaining.report import Answer

# The numbers behind the word of an answer.
ENTRY = (("ENTRY", COUNT),)
ON_POOL = (("P", BYTE), ("NODE", BYTE))
NUMBERS = {
    b"offline": ENTRY, b"nocache": ENTRY, b"alreadydone": ENTRY, b"made": ENTRY, b"alreadymade": ENTRY,
    b"alreadyregistered": ENTRY, b"noid": ENTRY, b"root": (), b"walked": (("FREED", LONG),), b"notmade": (("G", SHORT),),
    b"over": (("G", SHORT), ("OPERATION", LONG), ("USAGE", COUNT)), b"haschildren": (("G", SHORT), ("ENTRY", COUNT)),
    b"registered": (("ID", SHORT), ("ENTRY", COUNT)), b"swept": (("JOBS", COUNT), ("FREED", LONG)),
    b"freed": (("ID", SHORT), ("ENTRY", COUNT), ("FROM", COUNT), ("TO", COUNT), ("OBJECTS", COUNT)),
    b"released": (*ON_POOL, ("ENTRY", COUNT)), b"grabbed": (*ON_POOL, ("ENTRY", COUNT)), b"bare": (*ON_POOL, ("ENTRY", COUNT)),
    b"full": (*ON_POOL, ("ENTRIES", COUNT), ("FREE", COUNT)),
}
AT = (("ID", SHORT), ("NODE", BYTE), ("G", SHORT), ("ENTRY", COUNT))
OFFLINED = (("ENTRY", COUNT), ("MOVED", LONG), ("DEFERRED", LONG))
CITING = (b"added", b"exists", b"hit", b"miss", b"dropped", b"pinned")
WORDS = (*CITING, b"done", b"memory", b"worn", b"half", b"isolated", *NUMBERS)


def numbers_of(words, wanted):
    return tuple(words.number(name, below) for name, below in wanted)


def read_answer(words):
    """The answer whose words come next."""
    word, line = words.word("ANSWER"), words.line
    if word in NUMBERS:
        return Answer(word.decode(), numbers_of(words, NUMBERS[word]), line)
    if word in CITING:
        values = numbers_of(words, AT)
        return Answer(word.decode(), values, line, words.value() if word == b"hit" else None)
    if word == b"done":
        offlined = len(words.words) - words.at == 3
        return Answer("offlined" if offlined else "done", numbers_of(words, OFFLINED if offlined else AT), line)
    if word == b"memory":
        walked = words.at < len(words.words)
        return Answer("walkmemory" if walked else "memory", numbers_of(words, (("FREED", LONG),) if walked else ()), line)
    if word == b"worn":
        return Answer("worn", (), line, spent=words.spent())
    if word == b"half":
        values = numbers_of(words, NUMBERS[b"freed"])
        why = words.choice("WHY", (b"memory", b"worn"))
        return Answer("half", values, line, spent=words.spent() if why == "worn" else None)
    if word == b"isolated":
        values = numbers_of(words, (("VISITS", COUNT), ("FREED", COUNT)))
        ending, spent = words.ending(ISOLATE_ENDINGS)
        return Answer("isolated", (*values, ending), line, spent=spent)
    words.at -= 1
    return words.fail("there is no such answer")
