"""Where passes, walks, bits and deferred words of a trace depart from what mm/shrinker.c does."""

from collections import Counter, defaultdict

from traced.arithmetic import fault_of, fitting_seeks, next_of
from traced.observer import Observer
from traced.recording import EMPTY

SHOWN = 6
# A bit is set some time after its event. What lies nearer together, in seconds, is left open.
NEAR = 0.02


class Departures:
    """What was found, by kind."""

    def __init__(self):
        self.counts, self.told = Counter(), []

    def note(self, kind, line, text):
        self.counts[kind] += 1
        if self.counts[kind] <= SHOWN:
            self.told.append((line, f"line {line}: {kind}: {text}"))

    def lines(self):
        """The first ones of each kind, and how many there are."""
        lines = [text for _, text in sorted(self.told)]
        return lines + [f"{count} departures of the kind `{kind}`" for kind, count in self.counts.items() if count > SHOWN]


class Arithmetic(Observer):
    """Holds each pass against the arithmetic, and its events against one another."""

    def __init__(self, departures):
        self.note = departures.note
        # by shrinker: the seeks that fit its passes, if no probe shows them; its id
        self.seeks, self.ids, self.has_tracepoints = {}, {}, False

    def called(self, made):
        known = self.ids.setdefault(made.shrinker, (made.id, made.line))
        if known[0] != made.id:
            self.note("event", made.line, f"shrinker {made.shrinker} has id {made.id}, and line {known[1]} says {known[0]}")

    def went(self, event, probe):
        self.ids.pop(probe["shrinker"], None)

    def forgot(self, event):
        self.ids.clear()

    def started(self, made):
        self.has_tracepoints = True
        if made.has_probe:
            for name, traced, called in (
                ("priority", made.traced_priority, made.priority),
                ("node", made.traced_node, made.node),
            ):
                if traced != called:
                    self.note("event", made.start, f"{name} {traced}, and the call at line {made.line} has {called}")
            return
        fitting = self.seeks.get(made.pointer)
        fits = fitting_seeks(made.count, made.priority, made.delta)
        fitting = fits if fitting is None else fitting & fits
        if not fitting:
            deltas = f"the delta {made.delta} and those of this shrinker's earlier passes"
            self.note("arithmetic", made.start, f"no seeks gives {deltas}")
            fitting = None
        self.seeks[made.pointer] = fitting

    def ended(self, made):
        fault = fault_of(made.row)
        if fault:
            self.note("arithmetic", made.end, f"pass from line {made.start}: {fault}")
        if made.unused != made.nr:
            self.note("event", made.end, f"unused scan count {made.unused}, and line {made.start} says {made.nr}")
        if made.end_pointer != made.pointer:
            self.note("event", made.end, f"shrinker {made.end_pointer}, and line {made.start} says {made.pointer}")

    def returned(self, made, line):
        if made.returned is None:
            return
        if self.has_tracepoints and made.start is None and made.returned not in (0, EMPTY):
            self.note("event", line, f"{made.returned} freed, and no pass was made since line {made.line}")
        if made.end is not None and made.freed != made.returned:
            self.note("event", line, f"{made.returned} freed, and line {made.end} says {made.freed}")

    def walked(self, walk):
        for made in walk.passes:
            if (made.node, made.memcg, made.priority) != (walk.node, walk.memcg, walk.priority):
                of_pass, of_walk = (f"node {it.node}, group {it.group} and priority {it.priority}" for it in (made, walk))
                self.note("event", made.line, f"{of_pass}, and the walk from line {walk.line} has {of_walk}")
        freed = sum(made.returned for made in walk.passes if made.returned not in (None, EMPTY))
        if walk.returned != freed and all(made.returned is not None for made in walk.passes):
            self.note("sum", walk.end, f"the walk from line {walk.line} freed {walk.returned}, and its passes {freed}")


class Word:
    """A deferred word: its value if it is known, and the passes that have it in hand."""

    def __init__(self):
        self.value = None
        self.clear()

    def clear(self):
        self.open = self.most = self.took = self.gave = 0

    @property
    def is_shared(self):
        return self.most > 1


class Words(Observer):
    """Holds each deferred word against what is taken from it and given back."""

    def __init__(self, departures):
        self.note = departures.note
        self.words = defaultdict(Word)
        self.takes = self.hands = self.work = 0

    def called(self, made):
        word = self.words[made.word]
        word.open += 1
        word.most = max(word.most, word.open)

    def started(self, made):
        if not made.has_probe:
            self.called(made)
        word = self.words[made.word]
        made.was_alone = not word.is_shared
        if made.has_probe and made.was_alone and word.value is not None:
            self.takes += 1
            if word.value != made.nr:
                self.note("balance", made.start, f"{made.nr} deferred were taken, and the word held {word.value}")
        if made.was_alone:
            word.value = made.nr
        word.took += made.nr

    def ended(self, made):
        word = self.words[made.word]
        due = next_of(made.nr, made.delta, made.row.scanned, made.count)
        is_alone = not word.is_shared and word.open == 1
        if made.new < due or made.new > due and is_alone and made.has_probe:
            given = f"after the pass from line {made.start}, which gives {due}"
            self.note("balance", made.end, f"the word is {made.new} {given}")
        word.gave += due

    def returned(self, made, line):
        word = self.words[made.word]
        word.open -= 1
        if word.open > 0:
            return
        if word.open < 0:
            word.value = None
        elif made.has_probe and made.end is not None and not word.is_shared:
            word.value = made.new
        elif word.value is not None:
            word.value += word.gave - word.took
            if word.value < 0:
                self.note("balance", line, f"more was taken from the word than was given, by {-word.value}")
                word.value = None
        word.clear()

    def carried(self, event, probe):
        for key in [key for key in self.words if len(key) == 3 and key[2] == probe["memcg"]]:
            below, above = self.words.pop(key), self.words[(key[0], key[1], probe["parent"])]
            if below.value:
                self.hands += 1
                self.work += below.value
            if below.value is None or above.value is None:
                above.value = None
            elif above.open:
                above.most, above.gave = 2, above.gave + below.value
            else:
                above.value += below.value

    def went(self, event, probe):
        for node in range(1024):
            if self.words.pop((probe["shrinker"], node), None) is None:
                break

    def forgot(self, event):
        self.words.clear()
