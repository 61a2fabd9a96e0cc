"""Shows bytes to a person: control characters and others that can't be seen are written out, and a mark stands below a word."""

import re

WIDEST = 96
NOUNS = {
    "entries": "entry", "objects": "object", "units": "unit", "asks": "ask", "lookups": "lookup", "pools": "pool",
    "answers": "answer", "commands": "command", "walks": "walk", "visits": "visit", "jobs": "job", "rounds": "round",
    "times": "time", "caches": "cache", "ids": "id", "nodes": "node", "groups": "group", "charges": "charge",
    "uncharges": "uncharge", "items": "item",
}
ESCAPES = {9: "\\t", 10: "\\n", 13: "\\r", 92: "\\"}
BLANKS = {"\ufeff": "\\ufeff", "\u00a0": "\\u00a0", "\u200b": "\\u200b", "\u2028": "\\u2028"}


def visible(data):
    """The text of bytes, each character of which can be seen."""
    try:
        text = data.decode("utf-8")
    except UnicodeDecodeError:
        return "".join(chr(byte) if 32 <= byte < 127 else ESCAPES.get(byte, f"\\x{byte:02x}") for byte in data)
    return "".join(visible_character(character) for character in text)


def visible_character(character):
    code = ord(character)
    if code in ESCAPES:
        return ESCAPES[code]
    if code < 32 or code == 127:
        return f"\\x{code:02x}"
    if character in BLANKS:
        return BLANKS[character]
    return character if character.isprintable() else f"\\u{code:04x}"


def singular(told):
    """A sentence with its nouns and verbs for one thing where the number before them is 1."""
    told = re.sub(r"(?<![\w,-])1 (%s)\b" % "|".join(NOUNS), lambda found: f"1 {NOUNS[found[1]]}", told)
    told = (
        re.sub(r"(?<![\w,-])(1(?: \w+)?) (were|are)\b", lambda found:
        f"{found[1]} {'was' if found[2] == 'were' else 'is'}", told)
    )
    return re.sub(r"\bthere were 1\b", "there was 1", told)


def lower(told):
    """A sentence behind a colon."""
    return told[:1].lower() + told[1:]


def quoted(word):
    """A word between backticks, cut short where it is long."""
    text = visible(word)
    return f"`{text[:40]}..`" if len(text) > 44 else f"`{text}`"


def marked_line(line, text, start, length):
    """A line behind its number, and below it a mark under `length` bytes from `start`."""
    before, word = visible(text[:start]), visible(text[start:start + length])
    after = visible(text[start + length:])
    if len(before) + len(word) + len(after) > WIDEST:
        before = before if len(before) <= 50 else ".." + before[-48:]
        word = word if len(word) <= 40 else word[:38] + ".."
        room = max(WIDEST - len(before) - len(word), 0)
        after = after if len(after) <= room else after[:room] + ".."
    number = f"{line:5} | "
    return [f"{number}{before}{word}{after}", " " * (len(number) - 2) + "| " + " " * len(before) + "^" * max(len(word), 1)]
