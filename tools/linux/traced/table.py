"""The table of a trace: a line for each shrinker and group."""

HEAD = ("shrinker", "group", "passes", "freed", "largest count", "asked for nothing", "stopped", "at the cap", "GFP_NOFS")


def cells_of(tallies, tally):
    numbers = (
        tally.passes.count, tally.freed, tally.most.objects, tally.nothing.count, tally.stopped.count, tally.capped.count,
        tally.nofs.count,
    )  # fmt: skip
    return [tallies.name_of_shrinker(tally), tallies.name_of_group(tally.group), *(f"{number:,}" for number in numbers)]


def table_of(tallies, most=None):
    """The rows of the table with most passes first, and how many are left out."""
    found = tallies.sorted()
    shown = found if most is None else found[:most]
    rows = [list(HEAD), *(cells_of(tallies, tally) for tally in shown)]
    widths = [max(len(row[column]) for row in rows) for column in range(len(HEAD))]
    lines = []
    for row in rows:
        left = [text.ljust(width) for text, width in zip(row[:2], widths)]
        right = [text.rjust(width) for text, width in zip(row[2:], widths[2:])]
        lines.append("  ".join(left + right).rstrip())
    if len(found) > len(shown):
        lines.append(f"and {len(found) - len(shown):,} more rows, which --all shows")
    return lines
