"""What a person with a trace wants to be told, the worst first."""

# A row is told of if so many of its passes, and at least half of them, are so.
LEAST = 10


def lines_of(lines):
    """The first and the last of some lines, in words."""
    ends = list(dict.fromkeys((lines[0], lines[-1])))
    return f"line{'s' * (len(ends) > 1)} {' to '.join(f'{line:,}' for line in ends)}"


def plural(count, thing, things=None):
    return f"{count:,} {thing if count == 1 else things or thing + 's'}"


def of_lost_bits(tallies, lost_bits):
    """A bit that was set for a group whose lists were handed over: the list above has an object and may have no bit."""
    found = []
    for lost in lost_bits.lost:
        name = tallies.shrinkers.get(str(lost.id))
        above = tallies.name_of_group(lost.above) if lost.above else "the parent"
        place = f"id {lost.id}{f' ({name})' if name else ''} of {above} on node {lost.node}"
        rank, became = what_became(lost, place)
        head = f"{above}: a bit was set for a child whose lists were handed over (line {lost.line:,})"
        found.append((rank, -len(lost.unasked), f"{head}{became}"))
    return [text for _, _, text in sorted(found, key=lambda it: it[:2])]


def what_became(lost, place):
    """How bad a bit of a child is for the list above, 0 being the worst, and what is known of it."""
    if lost.set_before:
        return 2, f", and {place} has its bit since line {lost.set_before:,}, so its list is walked."
    if lost.asked_again or lost.set_again:
        what, line = ("a walk asked", lost.asked_again) if lost.asked_again else ("a bit was set for", lost.set_again)
        return 2, f"; {what} {place} again at line {line:,}."
    if lost.unasked:
        since = f"{plural(len(lost.unasked), 'walk')} since did not ask it ({lines_of(lost.unasked)})"
        return 0, f": {place} is not walked until its list is emptied. {since}."
    return 1, f": {place} may not be walked until its list is emptied. No walk of it was recorded since."


def of_killed(tallies):
    for killed in tallies.killed_ones:
        who = f"{killed.comm} (pid {killed.pid}) was OOM-killed (line {killed.line:,})"
        if killed.group:
            group = tallies.name_of_group(killed.group)
            held = f"whose lists held {plural(killed.objects, 'object')} then"
            yield f"{group}: {who}; its task had walked {group} last, {held}."
        else:
            yield f"{who}; no walk of its task was recorded before."


def of_row(tally, names):
    """What there is to say of one row: how bad it is, and the text."""
    count, head = tally.passes.count, ", ".join(names)
    passes = plural(count, "pass", "passes")
    if is_many(tally.nofs_nothing, count):
        span = tally.nofs_nothing
        yield 3, span.count, (
            f"{head}: {span.count:,} of {passes} came with GFP_NOFS or GFP_NOIO and freed nothing ({span})."
            f" The callback stopped {tally.stopped.count:,}, {tally.nothing.count:,} asked for nothing, and the deferred"
            f" work stood at the cap in {tally.capped.count:,}."
            f" Up to {plural(tally.most.objects, 'object was', 'objects were')} counted (line {tally.most.first:,})."
        )
        return
    if is_many(tally.stopped, count):
        yield 2, tally.stopped.count, f"{head}: the callback stopped {tally.stopped.count:,} of {passes} ({tally.stopped})."
    if is_many(tally.nothing, count):
        capped = f" The deferred work stood at the cap in {tally.capped.count:,}." if tally.capped.count else ""
        why = "scanned nothing: less than a batch was due, or the callback stopped them"
        if tally.batch:
            why = f"asked for nothing, since less than a batch of {tally.batch:,} and less than the count was due"
        yield 1, tally.nothing.count, f"{head}: {tally.nothing.count:,} of {passes} {why} ({tally.nothing}).{capped}"
    if tally.over.count:
        over = plural(tally.over.count, "pass", "passes")
        yield 0, tally.over.count, f"{head}: {over} freed more than they scanned ({tally.over})."


def is_many(span, count):
    return span.count >= LEAST and 2 * span.count >= count


def of_rows(tallies, most):
    """The sentences of the rows, the worst first, and how many are left out."""
    found = []
    for tally in tallies.sorted():
        names = (tallies.name_of_group(tally.group), tallies.name_of_shrinker(tally))
        found += of_row(tally, names)
    found.sort(key=lambda it: (-it[0], -it[1]))
    yield from (text for _, _, text in found[:most])
    if most is not None and len(found) > most:
        yield f"and {len(found) - most:,} more of the rows, which --all shows."


def of_recording(tallies, words, recording):
    """What the whole recording says, and what it lacks."""
    if tallies.hands:
        spans = lines_of([line for line, _, _ in tallies.hands])
        yield (
            f"The lists of {plural(len(tallies.hands), 'group')} were handed over ({spans}). Of their deferred words"
            f" {words.hands:,} were known and not 0: {words.work:,} objects together."
        )
    if tallies.lost.count:
        unknown = "words and bits are unknown from there until they are seen again"
        yield f"{plural(tallies.lost_events, 'event')} are lost ({tallies.lost}): {unknown}."
    if recording.missed:
        helps = "a larger maxactive of the probes helps"
        yield f"{plural(recording.missed, 'return')} of a probed function made no event; {helps}."
    if recording.unmatched:
        why = "it lay before the recording or was lost"
        yield f"{plural(recording.unmatched, 'end')} of a pass or walk came without its begin: {why}."


def sentences(tallies, words, lost_bits, recording, most):
    """All of it; of the rows `most` sentences, or all if it is None."""
    return [
        *of_lost_bits(tallies, lost_bits),
        *of_killed(tallies),
        *of_rows(tallies, most),
        *of_recording(tallies, words, recording),
    ]
