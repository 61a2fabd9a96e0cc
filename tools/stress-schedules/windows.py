"""Windows: what a report shows if threads met in a certain way. Each is a name, a sentence, and a test of a report."""

from mixed import is_mixed


def clears(report):
    """Each attempt that cleared a bit and left it, with the number of entries that its second count saw."""
    return [(it, int(it.words[3])) for it in report.attempts if it.held() == "cleared"]


def adds_of(report, place):
    """The adds of a list: each number of an entry with its words."""
    return [(i, it) for i, it in enumerate(report.lists.get(place, [])) if it[0] == "add" and it[-1] == "added"]


def bit_set_again(report):
    return any(it.held() == "restored" for it in report.attempts)


def add_behind_clear(report):
    """An add behind the clear of another worker, by a put that had looked the cache up before it; the bit is set in the end."""
    for it, seen in clears(report):
        for i, add in adds_of(report, it.place()):
            find = report.finds.get((int(add[1]), int(add[2])))
            if i >= seen and int(add[1]) != it.worker and find and find.number < it.number and it.place() in report.bits:
                return True
    return False


def late_puts(report):
    """Each add to an ancestor's list: the place, the entry's number and its words."""
    return [(place, i, it) for place in report.lists for i, it in adds_of(report, place) if int(it[3]) != place[2]]


def late_put(report):
    return bool(late_puts(report))


def late_put_behind_clear(report):
    """A late put to a list whose bit another worker cleared after the child's list was closed into it."""
    return any(
        it.place() == place and it.worker != int(add[1]) and i >= seen and place in report.bits
        and any(entry[0] == "moved" and entry[1] == add[3] for entry in report.lists[place][:seen])
        for place, i, add in late_puts(report)
        for it, seen in clears(report)
    )


def dying_finds(report):
    """Each command that was answered `nocache` while an id was being unregistered, with the ids."""
    found = []
    for at, words in report.replies.items():
        if words[0] == "nocache":
            states = report.journal_ids(int(words[1]))
            dying = [id_word for id_word, entry in states.items() if entry[0] == "unregistered"]
            if dying:
                found.append((at, dying))
    return found


def find_while_dying(report):
    """A find met an id that was dying, and the unregistering worker drained an object of a put before."""
    drained = any(entry[0] == "drained" and entry[3] != "0" for it in report.lists.values() for entry in it)
    return drained and bool(dying_finds(report))


def found_anew(report):
    """The workers that found one id in two registrations, of which another worker made the second."""
    makers = {int(words[2]): at[0] for at, words in report.replies.items() if words[0] == "registered"}
    met_before, found = {}, set()
    for (worker, command), find in sorted(report.finds.items()):
        if report.replies[worker, command][0] == "registered":
            continue
        known = met_before.get((worker, find.id), find.known)
        anew = [
            number for number, words in enumerate(report.registrations[:find.known])
            if number >= known and words[0] == "registered" and int(words[2]) == find.id and makers.get(number, worker) != worker
        ]
        found |= {worker} if anew else set()
        met_before[worker, find.id] = find.known
    return found


def find_missed(report):
    """The same, and an exchange of such a worker missed in a find. The run says so, and the report doesn't."""
    return any(worker in found_anew(report) for worker, where in report.missed if "find" in where)


def moved_at(report, place, child):
    """The number of the entry by which a child's list was moved into this one, and how many objects; or nothing."""
    for i, entry in enumerate(report.lists.get(place, [])):
        if entry[0] == "moved" and int(entry[1]) == child:
            return i, int(entry[2])
    return None


def count_of(attempt):
    """The length and the version that a pass or a skip of an attempt counted first; nothing if it counted nothing."""
    if attempt.held() == "skip":
        return int(attempt.words[2]), int(attempt.words[3])
    told = attempt.pass_words()
    return (int(told[0]), int(told[1])) if told else None


def lookups_behind(report, attempt):
    """The lowest number of an id's lookups that the attempt's worker made behind it, by its later walks."""
    mine = [it for it in report.attempts if (it.worker, it.id) == (attempt.worker, attempt.id)]
    return min((it.number for it in mine[mine.index(attempt) + 1:]), default=None)


def counted_twice(report):
    """A count of the parent's list behind the move, and then one of the child's list as if nothing had been moved.

    That the second comes later shows by the lookups: one that the first worker made after its count has a lower number.
    """
    for later in report.attempts:
        child, seen = report.lists.get(later.place(), []), count_of(later)
        if not child or child[-1][0] != "closed" or not seen or not seen[0] or seen[1] >= len(child):
            continue
        for it in report.attempts:
            moved, counted = moved_at(report, it.place(), later.group), count_of(it)
            if it.id == later.id and moved and moved[1] and counted and counted[1] > moved[0]:
                behind = lookups_behind(report, it)
                if behind is not None and behind < later.number:
                    return True
    return False


def moved_while_dying(report):
    """A worker met a dying id, then moved objects of it by an offline, and another worker drained them from the parent's list."""
    for (worker, command), ids in dying_finds(report):
        moves = any(
            at[0] == worker and at[1] > command and words[0] == "done" and len(words) == 4 and int(words[2])
            for at, words in report.replies.items()
        )
        for place, entries in report.lists.items():
            words = [entry[0] for entry in entries if entry[0] == "moved" and entry[2] != "0" or entry[0] == "drained"]
            if moves and str(place[0]) in ids and "drained" in words and "moved" in words[:words.index("drained")]:
                return True
    return False


def refused_beside_refused(report):
    """A charge found a group's limit reached only because of charges that were refused themselves and not taken back yet."""
    for group, limit in report.limits.items():
        open_refusals = set()
        for it in report.uses.get(group, []):
            who = it.worker, it.command
            if it.sign == "-":
                open_refusals.discard(who)
            elif it.found >= limit:
                if it.found - len(open_refusals) < limit:
                    return True
                open_refusals.add(who)
    return False


def closed_before_scan(report):
    return any(it.pass_words() and it.pass_words()[4] != "0" for it in report.attempts)


def stale_count(report):
    """A scan of a pass behind an entry that its count hadn't seen."""
    for it in report.attempts:
        told = it.pass_words()
        if not told or told[3] == "0":
            continue
        entries = report.lists.get(it.place(), [])
        seen = int(told[1])
        for i, entry in enumerate(entries):
            if entry[0] == "scan" and int(entry[1]) == it.worker and i >= seen:
                if i > seen and any(int(other[1]) != it.worker for other in entries[seen:i] if other[0] not in ("moved", "closed")):
                    return True
                break
    return False


def cleared_while_changed(report):
    return any(it.words[2] != it.words[3] for it, _ in clears(report))


def gone_id(report):
    return any(it.words[:2] == ("gone", "set") for it in report.attempts)


def offline_shared(report):
    """An offline whose lists another worker moved in part: the answer counts fewer objects than were moved."""
    for words in report.replies.values():
        if words[0] != "done" or len(words) != 4:
            continue
        entry = report.tree[int(words[1])]
        moved = sum(int(it[2]) for found in report.lists.values() for it in found if it[0] == "moved" and it[1] == entry[1])
        if moved != int(words[2]):
            return True
    return False


def carried_for_another(report):
    return any(report.replies[at][0] != "done" for at in report.carries)


def made_later(report):
    made = {words[1] for words in report.tree if words[0] == "made"}
    return any(words[0] == "notmade" and words[1] in made for words in report.replies.values())


def isolation_closed(report):
    return any(words[0] == "isolated" and words[3] == "closed" for words in report.replies.values())


def sweep_shared(report):
    return sum(words[0] == "swept" and words[1] != "0" for words in report.replies.values()) > 1


def reclaim_short(report):
    return any(it[0] == "reclaim" and it[3] != it[4] for entries in report.units.values() for it in entries)


def was_answered(*words):
    return lambda report: any(it[0] in words for it in report.replies.values())


# The races of docs/CONCURRENCY.md come first.
WINDOWS = {
    "bit-set-again": ("a walk cleared a bit, counted again, and set the bit again since an object came in between", bit_set_again),
    "add-behind-clear": ("a put had found its cache, another worker cleared the bit, and then the put added, and set the bit", add_behind_clear),
    "late-put": ("a put found its group's list handed over, and added to an ancestor's list", late_put),
    "late-put-behind-clear": ("the same, after a walk had cleared the bit of the ancestor's list", late_put_behind_clear),
    "find-while-dying": ("a find met a cache that was being unregistered, which drained an earlier put's object", find_while_dying),
    "find-missed": ("a find's exchange missed, since the cache was unregistered and registered anew meanwhile", find_missed),
    "found-anew": ("a worker found a cache again that another worker had registered anew", found_anew),
    "counted-twice": ("objects were counted on the parent's list, and later on the child's list, from which they were being moved", counted_twice),
    "moved-while-dying": ("an offline moved objects of an unregistered cache, which were drained from the parent's list", moved_while_dying),
    "refused-beside-refused": ("a charge was refused only because of another that was refused itself", refused_beside_refused),
    "closed-before-scan": ("a scan found closed the list that its pass had counted", closed_before_scan),
    "stale-count": ("a scan came after another worker's change of the list that its pass had counted", stale_count),
    "cleared-while-changed": ("a list changed between the two counts around the clearing of its bit", cleared_while_changed),
    "gone-id": ("a walk found the bit of an id that was nobody's", gone_id),
    "offline-shared": ("two workers took one group offline, and each moved some of its lists", offline_shared),
    "carried-for-another": ("a worker carried deferred work of a group that another took offline", carried_for_another),
    "made-later": ("a command came before its group was made", made_later),
    "isolation-closed": ("an isolation ended since its list was closed", isolation_closed),
    "sweep-shared": ("more than one helper walked jobs of the sweep", sweep_shared),
    "reclaim-short": ("a pass over a pool freed less than it asked for", reclaim_short),
    "mixed": ("no order of whole workers explains the report", is_mixed),
    "over": ("a put was refused by a limit", was_answered("over")),
    "offline": ("a command came after its group had gone offline", was_answered("offline")),
    "too-late": ("an offline came after another's of the same group", was_answered("alreadydone")),
    "has-children": ("an offline was stopped by a child", was_answered("haschildren")),
    "no-cache": ("a command's cache wasn't registered", was_answered("nocache")),
}


def met(report):
    """The names of the windows that a report shows."""
    return [name for name, (_, test) in WINDOWS.items() if test(report)]
