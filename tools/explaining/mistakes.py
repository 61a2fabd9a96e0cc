"""The mistakes that a whole line or a whole file has, each with a sentence of its own."""

import re

from explaining.grammar import KINDS, OF_VERSION_2, VERBS, allowed, misplaced
from explaining.nearest import nearest
from explaining.shown import quoted

SECTION = {
    b"shrinkers": "the header", b"size": "the size", b"group": "groups", b"later": "groups", b"cache": "caches",
    b"pool": "pools", b"worker": "workers", b"sweep": "the sweep", b"end": "the end",
}
PHASE = {
    "groups": "the size", "caches": "a cache line", "pools": "a pool line", "workers": "a worker line",
    "swept": "the sweep line", "done": "the end line",
}
COMMENTS = (b"#", b"//", b"--", b";", b"%", b"/*")
MARKS = (
    (b"\xff\xfe\x00\x00", "UTF-32"), (b"\xff\xfe", "UTF-16"), (b"\xfe\xff", "UTF-16"), (b"\xef\xbb\xbf", "UTF-8"),
)


class Case:
    """A refused script: all bytes, what the lines before the bad one said, the fault, and its line."""

    def __init__(self, data, script, fault):
        self.data, self.script, self.fault = data, script, fault
        parts = data.split(b"\n")
        self.text = parts[fault.line - 1]
        self.rest = parts[fault.line:]
        self.words = self.text.split(b" ")
        self.word = self.words[fault.at] if fault.at < len(self.words) else b""
        self.words_here = allowed(script)

    def span(self):
        """Where the bad word stands in its line, and how long it is."""
        if self.fault.at >= len(self.words):
            return len(self.text), 1
        return sum(len(word) + 1 for word in self.words[:self.fault.at]), len(self.word)


def of_file(case):
    """What a whole file may be that is no script."""
    data, first = case.data, case.data.split(b"\n")[0]
    if not data:
        return "The input is empty. A script has at least the lines `shrinkers 1`, `size NODES IDS` and `end`."
    if case.fault.line != 1:
        return None
    for mark, name in MARKS:
        if data.startswith(mark):
            return f"The file begins with a byte order mark of {name}. A script is plain ASCII without one: save it so."
    if b"\0" in first:
        return "The first line has zero bytes. The file is UTF-16, or no text: a script is plain ASCII."
    if case.fault.code == "NoEnd":
        return of_one_line(data)
    if first.endswith(b"\r"):
        return of_carriage_returns(data)
    return of_other_format(first) or of_header(case, first)


def of_one_line(data):
    if b"\r" in data:
        return "The lines end by carriage returns alone. Each line of a script ends with one line feed."
    if data == b"end":
        return "The file has one line, and that lacks its line feed. A script begins with `shrinkers 1`."
    return "The file has no line feed. Each line of a script ends with one, the last one too."


def of_carriage_returns(data):
    count = data.count(b"\r\n")
    others = f", as do {count:,} lines of the file" if count > 1 else ""
    return (
        f"The line ends with a carriage return before its line feed (`\\r`){others}."
        " Save the file with Unix line ends, or take them out by `tr -d '\\r'`."
    )


def of_other_format(first):
    """A first line of another kind of file."""
    if first.startswith(b"---") or re.match(rb"[A-Za-z_-]+:( |$)", first):
        return "This is YAML. A script has a form of its own, whose first line is `shrinkers 1` or `shrinkers 2`."
    if first[:1] in (b"{", b"["):
        return "This is JSON. A script has a form of its own, whose first line is `shrinkers 1` or `shrinkers 2`."
    if first.startswith(b"#!"):
        return "This is a script of another program, by its `#!`. A script's first line is `shrinkers 1` or `shrinkers 2`."
    if first.startswith(b"<"):
        return "This is XML or HTML. A script's first line is `shrinkers 1` or `shrinkers 2`."
    if first.startswith(b"report "):
        return "This is a report. The script is given first, and the report behind it: SCRIPT REPORT."
    if first.startswith(b"refused "):
        return "This is what `run` writes of a refused script. Give the script itself."
    return None


def of_header(case, first):
    """A first line that is nearly a header."""
    words = first.split()
    if words[:1] == [b"shrinkers"] and len(words) == 1:
        return "The version is missing: the first line is `shrinkers 1` or `shrinkers 2`."
    if re.fullmatch(rb"shrinkers [0-9.v]+", first):
        return f"There is no version {quoted(first[10:])}. The versions are 1 and 2."
    if first and first.split()[:1] and first.split()[0] in KINDS and first.split()[0] != b"shrinkers":
        return "The header is missing: the first line is `shrinkers 1` or `shrinkers 2`, and this one comes behind it."
    return of_blanks(case) or of_comment(case) or of_spelling(case)


def of_blanks(case):
    """Empty lines, blanks at the ends of a line and between words."""
    text = case.text
    if case.fault.code in ("NoEnd", "TooMany") or (case.script.phase == "done" and text):
        return None
    if not text.strip():
        what = "is empty" if not text else "has nothing but blanks"
        return f"The line {what}. A script has no empty lines: take it out."
    if text[:1] in (b" ", b"\t"):
        what = "a space" if text[:1] == b" " else "a tab"
        return f"The line begins with {what}. Lines of a script aren't indented: the first word begins the line."
    if text.endswith(b"\r") and case.fault.at >= len(case.words) - 1:
        return of_carriage_returns(case.data)
    if b"\t" in case.word:
        return "A tab stands between words. Words are parted by one space."
    for blank, name in ((b"\xc2\xa0", "A space that doesn't break (U+00A0)"), (b"\xe2\x80\x8b", "A space of no width (U+200B)")):
        if blank in case.word:
            return f"{name} stands in the word. Words are parted by plain spaces."
    if case.fault.at and not case.word and case.fault.at < len(case.words):
        ends = not text[case.span()[0]:].strip()
        what = "The line ends with a space" if ends else "Two spaces stand between two words"
        return f"{what}, which makes an empty word. One space parts two words, and none ends a line."
    return None


def of_comment(case):
    word = case.word
    if not word.startswith(COMMENTS) or (case.fault.at and case.fault.code != "Trailing"):
        return None
    return (
        "A script has no comments. Take the line out." if not case.fault.at else
        "A script has no comments, also at the end of a line."
    )


def of_spelling(case):
    """A first word of other letters, or one that is nearly a known one."""
    if case.fault.at:
        return None
    word, lower = case.word, case.word.lower()
    if lower in KINDS and lower != word:
        return f"Words are of lower case letters: {quoted(lower)}."
    if word in KINDS:
        return None
    if word == b"report":
        return "A report begins here, and the line `end`, with which the script ends, is missing before it."
    near = nearest(word, case.words_here) or nearest(word, KINDS)
    return f"There is no line that begins with {quoted(word)}. Is {quoted(near)} meant?" if near else None


def of_end(case):
    """An end that is missing, or that isn't the end."""
    script, text = case.script, case.text
    if case.fault.code == "NoEnd":
        if text == b"end":
            return "The last line, `end`, lacks its line feed. Each line ends with one."
        if text:
            return f"The input ends within line {case.fault.line}, which has no line feed, and no line `end` came before it."
        return f"The input ends without the line `end`, which is the last one of each script, behind line {case.fault.line - 1}."
    if script.phase != "done":
        return None
    if text.startswith(b"report "):
        return "A report stands behind the script's `end`. `run` takes a script alone, and `audit` takes both."
    if text.startswith(b"shrinkers "):
        return f"A second script begins behind the `end` of line {script.ended}. A script has one `end`."
    if not text.strip():
        return f"A line without words stands behind the `end` of line {script.ended}. Nothing may come behind `end`."
    return f"The script ends with the `end` of line {script.ended}, and nothing may come behind it."


def of_version(case):
    """A word of version 2 in a script of version 1."""
    if case.fault.at or case.word not in OF_VERSION_2 or case.script.version != 1:
        return None
    return f"{quoted(case.word)} is a word of version 2, and the first line says version 1: write `shrinkers 2` there."


def of_order(case):
    """A known line where it may not stand."""
    word, script = case.word, case.script
    if case.fault.at or word not in KINDS or misplaced(script.phase, word) is None or script.phase == "done":
        return None
    if script.phase == "size":
        return "The second line is `size NODES IDS`, before all others."
    if case.fault.code == "NoWorker":
        return (
            f"A line `worker` is missing before the {'command' if word in VERBS else 'sweep'}: it begins each worker's"
            " commands."
        )
    if word in (b"shrinkers", b"size"):
        return f"{SECTION[word].capitalize()} has its line already. Each script has one."
    if script.phase == "swept":
        return f"The sweep of line {script.sweep.line} comes behind the last worker, and `end` alone behind it."
    wanted = "groups, then caches, then pools, then workers" if script.version == 2 else "groups, then caches, then workers"
    behind = PHASE[script.phase]
    last = last_declared(script)
    return f"{SECTION[word].capitalize()} can't be declared behind {behind}{last}: {wanted}. Move the line up."


def last_declared(script):
    rows = {"caches": script.caches, "pools": script.pools}.get(script.phase)
    return f" (line {rows[-1].line})" if rows else ""


WHOLE = (of_file, of_end, of_blanks, of_comment, of_version, of_order, of_spelling)


def of_whole(case):
    """The sentence of the first mistake that the line or the file shows as a whole, or None."""
    for judge in WHOLE:
        told = judge(case)
        if told:
            return told
    return None
