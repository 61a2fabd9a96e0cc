"""The cases of suite/, the examples, and what is wrong with an answer to one of them."""

import os

TOP = os.path.dirname(os.path.dirname(os.path.dirname(os.path.abspath(__file__))))
SUITE = os.path.join(TOP, "suite")
EXAMPLES = os.path.join(TOP, "examples")
STATUS = {"report": 0, "refused": 5, "usage": 2, "unlawful": 8, "holds": 0}


class Odd(Exception):
    """A fault of the folder of cases itself."""


def read(path):
    with open(path, "rb") as file:
        return file.read()


class Case:
    """A case: its name, what it is given, and what must come."""

    def __init__(self, folder, name, kind):
        path = os.path.join(folder, name)
        self.name = name
        self.kind = kind
        self.input = read(path + ".script") if os.path.exists(path + ".script") else b""
        self.words = read(path + ".args").decode().split() if os.path.exists(path + ".args") else ["run"]
        self.wanted = read(path + "." + kind)

    def runs(self):
        """How often it is run."""
        rules = self.wanted.decode().splitlines() if self.kind == "holds" else []
        return next((int(rule[5:]) for rule in rules if rule.startswith("runs ")), 1)

    def fault(self, status, output):
        """What is wrong with an answer, or None."""
        if status != STATUS[self.kind]:
            return f"status {status}, and the case wants {STATUS[self.kind]}"
        if self.kind == "holds":
            return broken_rule(self.wanted.decode(), output.decode(errors="replace"))
        return first_difference(self.wanted, output)


def first_difference(wanted, output):
    """The first line that differs, or None."""
    if wanted == output:
        return None
    ours, theirs = output.split(b"\n"), wanted.split(b"\n")
    at = next((i for i, (a, b) in enumerate(zip(ours, theirs)) if a != b), min(len(ours), len(theirs)))
    shown = [lines[at].decode(errors="replace") if at < len(lines) else "nothing" for lines in (ours, theirs)]
    return f"line {at + 1} is `{shown[0]}`, and the case wants `{shown[1]}`"


def broken_rule(rules, report):
    """The first rule that a report breaks, or None."""
    lines = [line.split(" ") for line in report.splitlines()]
    replies = [line[3:] for line in lines if line[0] == "reply"]
    for rule in rules.splitlines():
        word, *rest = rule.split(" ")
        if word == "replies" and int(rest[0]) != sum(is_of(rest[1:], reply) for reply in replies):
            return f"`{rule}` does not hold"
        if word == "walks" and int(rest[0]) != sum(line[0] == "walk" for line in lines):
            return f"`{rule}` does not hold"
    return broken_total(lines, replies) or lost_bit(lines)


def broken_total(lines, replies):
    """What is wrong with the last two lines, or None."""
    counted = [
        sum(reply[0] == "added" for reply in replies),
        sum(line[0] == "item" for line in lines),
        len(replies),
        sum(line[0] == "walk" for line in lines),
    ]
    if len(lines) < 2 or lines[-1] != ["end"] or lines[-2][0] != "total":
        return "no total, or no end"
    added, freed, listed, answered, walks = map(int, lines[-2][1:])
    if added != freed + listed:
        return "the number of added objects differs from that of freed and listed ones"
    if [added, listed, answered, walks] != counted:
        return "the totals differ from the lines"
    return None


def is_of(words, reply):
    """Whether a reply has one of these words; any reply if there are none."""
    return not words or not set(words).isdisjoint(reply)


def lost_bit(lines):
    """A list below the root that has objects and no bit, or None."""
    # version 1 has unit 0 alone, and doesn't name it
    words = (line if len(line) > 4 else line[:3] + ["0"] + line[3:] for line in lines if line[0] == "bit")
    bits = {(node, group, int(unit)): int(word, 16) for _, node, group, unit, word in words}
    place = None
    for line in lines:
        if line[0] == "list":
            place = line[1:]
        if line[0] == "item" and place[2] != "0" and not has_bit(bits, int(place[0]), *place[1:]):
            return f"list {' '.join(place)} has objects and no bit"
    return None


def has_bit(bits, id, node, group):
    return bits[node, group, id // 64] >> id % 64 & 1


def cases_of(folder):
    """The cases of a folder, by name."""
    files = (file.rpartition(".") for file in sorted(os.listdir(folder)))
    return [Case(folder, name, kind) for name, _, kind in files if kind in STATUS]


def names_in(file):
    """The names that a file of suite/ lists, one a line; a colon ends a name."""
    lines = read(os.path.join(SUITE, file)).decode().splitlines()
    return [line.partition(":")[0] for line in lines if line]


def all_cases():
    """The suite's cases, and the examples of one worker: those of several have more than one lawful report."""
    examples = [case for case in cases_of(EXAMPLES) if case.input.count(b"\nworker\n") < 2]
    for case in examples:
        case.name = "example-" + case.name
    found = {case.name: case for case in cases_of(SUITE)}
    named = names_in("cases")
    odd = sorted(set(named) ^ set(found)) or sorted({name for name in named if named.count(name) > 1})
    if odd:
        raise Odd(f"suite/cases and the files beside it differ in {', '.join(odd)}")
    return examples + [found[name] for name in named]


def few_cases():
    """Those that suite/few lists."""
    found = {case.name: case for case in all_cases()}
    named = names_in("few")
    odd = [name for name in named if name not in found]
    if odd:
        raise Odd(f"suite/few lists {', '.join(odd)}, and there is no such case")
    return [found[name] for name in named]
