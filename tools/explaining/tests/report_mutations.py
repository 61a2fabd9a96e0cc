"""Lawful reports with one change put in, by a seed; where it can be, the text stays that of a report."""

import re

CHOICES = (
    (b"added", b"exists"), (b"hit", b"miss"), (b"dropped", b"pinned", b"miss"), (b"done", b"miss"), (b"marked", b"clean"),
    (b"pinned", b"loose"), (b"whole", b"stopped"), (b"plain", b"clock", b"halt"), (b"got", b"bare"), (b"+", b"-"),
    (b"fs", b"nofs"), (b"grabbed", b"bare"), (b"registered", b"unregistered"),
    (b"ran", b"memory", b"offline"), (b"through", b"stop", b"noroom"), (b"set", b"clear", b"root"), (b"begin", b"done", b"made"),
    (b"walked", b"memory"), (b"made", b"alreadymade"), (b"offline", b"alreadydone", b"notmade"), (b"nocache", b"noid"),
    (b"spent", b"bare", b"stop", b"closed", b"noroom"), (b"skip", b"cleared"),
)
NUMBERED = (b"pool", b"tree")


def of_number(random, lines):
    """A number by one more or less, or another small one."""
    at, words, places = chosen_line(random, lines, rb"[0-9]+")
    if not places:
        return
    place = random.choice(places)
    number = int(words[place])
    words[place] = b"%d" % max(0, random.choice((number + 1, number - 1, number - 1, 0, 1, 2, number * 2, number + 7)))
    lines[at] = b" ".join(words)


def chosen_line(random, lines, pattern):
    at = random.randrange(len(lines))
    words = lines[at].split(b" ")
    return at, words, [place for place in range(1, len(words)) if re.fullmatch(pattern, words[place])]


def of_word(random, lines):
    """Another word of those that may stand in its place."""
    at, words, places = chosen_line(random, lines, rb"[a-z+-]+")
    rows = [(place, row) for place in places for row in CHOICES if words[place] in row]
    if not rows:
        return of_number(random, lines)
    place, row = random.choice(rows)
    words[place] = random.choice([word for word in row if word != words[place]])
    lines[at] = b" ".join(words)


def of_bits(random, lines):
    """A bit of a bit word, of the end or of a walk."""
    rows = [at for at, line in enumerate(lines) if line.startswith((b"bit ", b"map "))]
    if not rows:
        return of_number(random, lines)
    at = random.choice(rows)
    head, _, word = lines[at].rpartition(b" ")
    lines[at] = head + b" %016x" % (int(word, 16) ^ 1 << random.choice((0, 0, 0, 1, 1, 2, 3, 5, 63)))


def of_removal(random, lines):
    del lines[random.randrange(2, len(lines) - 2)]


def of_doubling(random, lines):
    at = random.randrange(2, len(lines) - 2)
    lines.insert(at, lines[at])


def of_neighbours(random, lines):
    """Two lines of one kind that stand side by side, swapped."""
    at = random.randrange(2, len(lines) - 3)
    lines[at], lines[at + 1] = lines[at + 1], lines[at]


def of_same_kind(random, lines):
    """A line's words in place of those of another line of its kind."""
    at = random.randrange(2, len(lines) - 2)
    rows = [it for it, line in enumerate(lines) if line.split(b" ")[0] == lines[at].split(b" ")[0] and it != at]
    if not rows:
        return of_number(random, lines)
    words, other = lines[at].split(b" "), lines[random.choice(rows)].split(b" ")
    place = random.randrange(1, max(len(words), 2))
    words[place:place + 1] = other[place:place + 1]
    lines[at] = b" ".join(words)


def renumbered(lines):
    """Numbers what is numbered by its place, and counts answers and walks anew."""
    counts, entries, worker = {}, 0, None
    for at, line in enumerate(lines):
        words = line.split(b" ")
        kind = words[0]
        if kind == b"pool" and len(words) > 3:
            words[1], entries = b"%d" % entries, entries + 1
        elif kind == b"tree" and len(words) > 1:
            words[1] = b"%d" % counts.get(b"tree", 0)
        elif kind == b"reply" and len(words) > 1 and words[1] != worker:
            worker = words[1]
            counts[b"in walk"] = counts[b"in plain"] = 0
        elif kind in (b"walk", b"plain") and len(words) > 1:
            words[1] = b"%d" % counts.get(b"in " + kind, 0)
            counts[b"in " + kind] = counts.get(b"in " + kind, 0) + 1
        elif kind == b"total" and len(words) == 6:
            words[4:] = [b"%d" % counts.get(b"reply", 0), b"%d" % counts.get(b"walk", 0)]
        counts[kind] = counts.get(kind, 0) + 1
        lines[at] = b" ".join(words)


def with_total(random, lines):
    """A list's item left out or put elsewhere, with its total, so that other laws are asked."""
    items = [at for at, line in enumerate(lines) if line.startswith(b"item ")]
    if not items:
        return of_number(random, lines)
    at = random.choice(items)
    item = lines.pop(at)
    if random.random() < 0.5:
        lines.insert(random.choice([it for it in items if it < len(lines)] or [at]), item)


KINDS = (of_number, of_number, of_number, of_word, of_bits, of_removal, of_doubling, of_neighbours, of_same_kind, with_total)


def mutated(random, report):
    """A report with one change, and now and then with two."""
    lines = report.split(b"\n")[:-1]
    for _ in range(random.choice((1, 1, 1, 2))):
        if len(lines) > 6:
            random.choice(KINDS)(random, lines)
    if random.random() < 0.8:
        renumbered(lines)
    return b"".join(line + b"\n" for line in lines)


def mutated_script(random, script):
    """A script with one number or choice changed, under a report that stays."""
    lines = script.split(b"\n")[:-1]
    (of_number if random.random() < 0.8 else of_word)(random, lines)
    return b"".join(line + b"\n" for line in lines)
