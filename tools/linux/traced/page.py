"""One page that needs nothing else: each shrinker and group of a trace over time."""

import os
import re
from collections import Counter, defaultdict
from html import escape

from traced.curves import FREED, NOTHING, OUTCOMES, SCANNED, STOPPED

HERE = os.path.dirname(os.path.abspath(__file__))
# the drawing's own units: as wide as the page, whatever that is
WIDTH, HIGH, BARS = 1000, 90, 118
SLICES = 160
MOST_ROWS, SENTENCES = 40, 10
CLASSES = {FREED: "freed", SCANNED: "scanned", NOTHING: "nothing", STOPPED: "stopped"}


def text_of(name):
    with open(os.path.join(HERE, name), encoding="utf-8") as file:
        return file.read()


class Scale:
    """Where a time is on the drawing."""

    def __init__(self, times):
        self.first, last = times
        self.length = max(last - self.first, 1e-6)

    def x(self, time):
        return (time - self.first) / self.length * WIDTH

    def slice(self, time):
        return min(int((time - self.first) / self.length * SLICES), SLICES - 1)


def path_of(points, value, scale, most):
    """A line with a step at each value that differs; of many values in one slice the first, the highest and the last."""
    by_slice = defaultdict(list)
    for point in points:
        by_slice[scale.slice(point.time) * 4 + int(scale.x(point.time) * SLICES * 4 / WIDTH) % 4].append(point)
    kept = []
    for some in by_slice.values():
        chosen = {some[0], max(some, key=lambda it: getattr(it, value)), some[-1]}
        kept += sorted(chosen)
    words, last = [], None
    for point in kept:
        x, y = f"{scale.x(point.time):.1f}", f"{HIGH - getattr(point, value) / most * (HIGH - 4):.1f}"
        if y != last:
            words.append(f"H{x}V{y}" if words else f"M{x},{y}")
            last = y
    words.append(f"H{scale.x(kept[-1].time) + 0.5:.1f}")
    return "".join(words)


def paths_of(points, scale, most):
    """The counts and the deferred words, by node."""
    nodes = defaultdict(list)
    for point in points:
        nodes[point.node].append(point)
    for node, some in sorted(nodes.items()):
        for value in ("count", "word"):
            other = " other" if node else ""
            path = path_of(some, value, scale, most)
            yield f'<path class="{value}{other}" d="{path}"><title>{value} on node {node}</title></path>'


def bars_of(points, scale):
    """The passes of each slice by what came of them, and over each a field that says so."""
    slices = defaultdict(list)
    for point in points:
        slices[scale.slice(point.time)].append(point)
    most = max(len(some) for some in slices.values())
    width = WIDTH / SLICES
    for at, some in sorted(slices.items()):
        counts, y, x = Counter(point.outcome for point in some), float(BARS), at * width
        for outcome in OUTCOMES:
            if counts[outcome]:
                high = counts[outcome] / most * (BARS - HIGH - 4)
                y -= high
                yield f'<rect class="{CLASSES[outcome]}" x="{x:.2f}" y="{y:.2f}" width="{width:.2f}" height="{high:.2f}"/>'
        title = f"<title>{title_of(some, counts)}</title>"
        yield f'<rect class="slice" x="{x:.2f}" y="0" width="{width:.2f}" height="{BARS}">{title}</rect>'


def title_of(some, counts):
    said = ", ".join(f"{counts[outcome]:,} {outcome}" for outcome in OUTCOMES if counts[outcome])
    last = some[-1]
    return (
        f"{some[0].time:.2f} to {last.time:.2f} s, lines {some[0].line:,} to {last.line:,}: of {len(some):,} passes {said};"
        f" at the end count {last.count:,}, deferred {last.word:,} on node {last.node}"
    )


def figure_of(tallies, tally, points, scale):
    """One shrinker for one group."""
    most = max(max(point.count for point in points), max(point.word for point in points), 1)
    name = escape(f"{tallies.name_of_group(tally.group)}, {tallies.name_of_shrinker(tally)}")
    numbers = (
        f"{tally.passes.count:,} passes", f"{tally.freed:,} freed", f"largest count {tally.most.objects:,}",
        f"asked for nothing {tally.nothing.count:,}", f"stopped {tally.stopped.count:,}", f"at the cap {tally.capped.count:,}",
        f"GFP_NOFS {tally.nofs.count:,}",
    )  # fmt: skip
    at_phases = (f'x1="{x:.1f}" x2="{x:.1f}"' for x in phases_at(tallies, scale))
    phases = "".join(f'<line class="phase" {at} y1="0" y2="{BARS}"/>' for at in at_phases)
    drawn = "".join(paths_of(points, scale, most)) + "".join(bars_of(points, scale))
    return (
        f'<figure><figcaption><h3>{name}</h3><span class="dim">{" · ".join(numbers)}</span></figcaption><div class="plot">'
        f'<svg viewBox="0 0 {WIDTH} {BARS}" preserveAspectRatio="none" role="img" aria-label="{name}: {", ".join(numbers)}">'
        f'{phases}{drawn}</svg><span class="most">{most:,}</span></div></figure>'
    )


def phases_at(tallies, scale):
    return [x for x in (scale.x(time) for time, _ in tallies.phases) if 0 <= x <= WIDTH]


def timeline_of(tallies, scale):
    """The seconds, and the numbers of the phases."""
    words = []
    for quarter in range(5):
        end = ' class="end"' if quarter == 4 else ""
        words.append(f'<span{end} style="left:{quarter * 25}%">{scale.first + scale.length * quarter / 4:.1f} s</span>')
    for number, (time, _) in enumerate(tallies.phases, 1):
        if 0 <= scale.x(time) <= WIDTH:
            words.append(f'<b style="left:{scale.x(time) / WIDTH * 100:.2f}%">{number}</b>')
    return f'<div id="time">{"".join(words)}</div>'


def legend():
    lines = [("--count", "count", "stroke"), ("--word", "deferred word", "stroke")]
    lines.append(("--dim", "another node than 0", "stroke dash"))
    lines += [(f"--{name}", f"passes: {outcome}", "") for outcome, name in CLASSES.items()]
    return "".join(f'<span><i class="{kind}" style="--of:var({colour})"></i>{text}</span>' for colour, text, kind in lines)


def said_of(trace):
    departures = trace.departures.lines() or ["No pass, bit or word departs from mm/shrinker.c."]
    lines = [*trace.sentences(SENTENCES), *departures]
    return "<ul>" + "".join(f"<li>{escape(line)}</li>" for line in lines) + "</ul>"


def page_of(path, trace, curves):
    """The page of a trace."""
    tallies, scale = trace.tallies, Scale(curves.times())
    rows = tallies.sorted()
    figures = [figure_of(tallies, tally, curves.points[tally.name], scale) for tally in rows[:MOST_ROWS]]
    if len(rows) > MOST_ROWS:
        figures.append(f"<p>and {len(rows) - MOST_ROWS:,} more rows with fewer passes</p>")
    phases = ", ".join(f"{number} {escape(name)}" for number, (_, name) in enumerate(tallies.phases, 1))
    parts = {
        "NAME": escape("standard input" if path == "-" else os.path.basename(path)),
        "STYLE": text_of("page.css"),
        "SUMMARY": escape(trace.summary()),
        "LEGEND": legend(),
        "SAID": said_of(trace),
        "PHASES": f'<p class="dim">Phases: {phases}.</p>' if phases else "",
        "TIMELINE": timeline_of(tallies, scale) if figures else "<p>There is no pass in this trace.</p>",
        "ROWS": "\n".join(figures),
    }
    return re.sub(r"\{\{([A-Z]+)\}\}", lambda found: parts[found[1]], text_of("page.html"))
