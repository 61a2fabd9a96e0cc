"""Each list's journal, run again on the kernel's lists: each entry's outcome, the counts that walks read, the items left."""

from collections import defaultdict

CALLS = {"add": "add", "look": "look", "drop": "drop", "pin": "pin", "unpin": "unpin"}


def counts_of(report):
    """What walks counted: by place and number of entries, the length with the line that says it."""
    counts = defaultdict(list)
    for attempt in report.attempts:
        words = attempt.words
        if words[2] != "held":
            continue
        told, place = words[3:], attempt.place()
        if told[0] == "cleared":
            pairs = [("0", told[1]), ("0", told[2])]
        elif told[0] == "empty":
            pairs = [("0", told[1])]
        else:
            pairs = [("0", told[1])] if told[0] == "restored" else []
            at = 3 if told[0] == "restored" else 1
            pairs.append((told[at], told[at + 1]))
        for length, version in pairs:
            counts[place + (int(version),)].append((attempt.line, length))
    return counts


class Replay:
    """Commands for the driver, each with the answer that the report has and the line where it stands."""

    def __init__(self, script, report, choices):
        self.script, self.report, self.choices = script, report, choices
        self.counts = counts_of(report)
        self.asked, self.wanted, self.wrong = [], [], []
        self.entries = self.counted = self.items = 0

    def ask(self, command, line, *wanted):
        """Adds a command, with the lines that it must be answered by."""
        self.asked.append(command)
        self.wanted += [(line, answer) for answer in wanted]

    def replay_node(self, number, node):
        """Runs the journals of an id on a node: those of groups below come first, and whole, as their lists go up whole."""
        self.ask("reset 1", 0)
        for group, parent in enumerate(self.script.parents[1:], 1):
            self.ask(f"group {parent}", 0, f"group {group}")
        self.ask("cache 0 plain 2 0 0 any", 0, "cache 0")
        for group in reversed(range(len(self.script.parents))):
            self.replay_list((number, node, group))
        shown = []
        for group in range(len(self.script.parents)):
            listed = self.report.lists.get((number, node, group))
            if listed and listed.items:
                self.items += len(listed.items)
                line = listed.entries[-1][0] if listed.entries else 0
                shown.append((line, f"list 0 0 {group} {len(listed.items)} {' '.join(listed.items)}"))
        self.ask("lists", 0)
        self.wanted += shown

    def replay_list(self, place):
        """Runs the journal of one list, with the counts that walks read of it."""
        entries = self.report.lists[place].entries if place in self.report.lists else []
        closed = False
        self.count(place, 0, closed)
        for version, (line, words) in enumerate(entries, 1):
            closed = closed or words[0] == "closed"
            self.replay_entry(place[2], line, words)
            self.count(place, version, closed)
        self.entries += len(entries)
        for (number, node, group, version), said in self.counts.items():
            if (number, node, group) == place and version > len(entries):
                self.wrong += [(line, f"counted after {version} entries, of {len(entries)}") for line, _ in said]

    def count(self, place, version, closed):
        """Counts where a walk did after so many entries."""
        for line, length in self.counts.get(place + (version,), ()):
            self.counted += 1
            if closed:
                self.choices.apply("closed")
                if length != "0":
                    self.wrong.append((line, f"{length} objects counted on a list that was handed over"))
            else:
                self.ask(f"count 0 {place[2]} 0", line, f"count {length}")

    def replay_entry(self, group, line, words):
        """Runs one entry of a journal."""
        if words[0] in CALLS:
            self.ask(f"{CALLS[words[0]]} 0 {words[3]} 0 {words[4]}", line, words[-1])
        elif words[0] == "scan":
            self.ask(f"policy 0 {words[4]}", line)
            self.ask(f"scan 0 {group} 0 {words[3]}", line, f"scan {words[5]} {words[5]} {words[6]} {words[7]}")
        elif words[0] == "moved":
            self.ask(f"count 0 {words[1]} 0", line, f"count {words[2]}")
            self.ask(f"splice {words[1]}", line, "spliced")
        elif words[0] == "drained":
            self.ask(f"drain 0 {group} 0", line, f"drained {words[3]}")


def check_journals(kernel, script, report, choices):
    """The journals, run again: what differs, each as the number of a line and what is said of it, and what was run."""
    replay = Replay(script, report, choices)
    places = set(report.lists) | {place[:3] for place in replay.counts}
    for number, node in sorted({place[:2] for place in places}):
        replay.replay_node(number, node)
    said = kernel.ask(*replay.asked)
    for at, (line, wanted) in enumerate(replay.wanted):
        if at >= len(said) or said[at] != wanted:
            linux = said[at] if at < len(said) else "nothing"
            replay.wrong.append((line, f"the report has `{wanted}`; Linux's lists, run so far, `{linux}`"))
            return replay
    if len(said) > len(replay.wanted):
        replay.wrong.append((0, f"Linux's lists hold more: `{said[len(replay.wanted)]}`"))
    return replay
