"""Each pass of a report, made again by the kernel's do_shrink_slab."""

from collections import Counter


def cache_of(report, script, attempt):
    """The cache that the id of an attempt had at its lookup number, or None."""
    number = int(attempt.words[1])
    held = report.registered.get(attempt.id, ())
    found = [cache for begin, end, cache in held if begin <= number and (end is None or number < end)]
    return script.caches[found[0]] if len(found) == 1 else None


def passes_of(report, script):
    """The passes, each with its cache, which is None where no registration has its lookup, or with its pool."""
    for attempt in report.attempts:
        if attempt.run():
            yield attempt, cache_of(report, script, attempt)
    for attempt in report.of_pools:
        if attempt.run():
            yield attempt, script.pools[attempt.id]


def asked_of(cache, attempt, calls):
    """The driver's command for a pass whose scans are answered so often."""
    words = attempt.run()
    return f"pass {words[0]} {words[2]} {attempt.walk[4]} {cache.seeks} {cache.batch} {calls}"


def is_in_long(words, cache, priority):
    """Whether the kernel's `long` holds the sums of a pass."""
    length, nr = int(words[0]), int(words[2])
    delta = (length >> priority) * 4 // cache.seeks if cache.seeks else length // 2
    return nr + delta < 2**63


def check_passes(kernel, script, report, choices):
    """What differs, each as the number of a line and what is said of it; and how many passes were made again."""
    wrong, made = [], []
    for attempt, cache in passes_of(report, script):
        words = attempt.run()
        if cache is None:
            wrong.append((attempt.line, "no registration has this lookup"))
        elif not is_in_long(words, cache, int(attempt.walk[4])):
            choices.apply("above 2^63")
        else:
            wrong += [(attempt.line, fault) for fault in faults_of(words, cache, attempt.walk[5])]
            made.append((attempt, cache))
    asked = [asked_of(cache, attempt, calls_of(attempt)) for attempt, cache in made]
    whole = [asked_of(cache, attempt, "all") for attempt, cache in made]
    said = kernel.ask("reset 1", "group 0", "told", *asked, *whole)[1:]
    for (attempt, _), again, through in zip(made, said, said[len(made) :]):
        wrong += [(attempt.line, fault) for fault in against(attempt.run(), again.split(" "), through.split(" "))]
    return wrong, len(made)


def calls_of(attempt):
    """How many scans of a pass are answered before one is told to stop."""
    words = attempt.run()
    return "all" if words[8] == "through" else words[3]


def faults_of(words, cache, kind):
    """What is wrong with a pass by the cache's declaration alone."""
    if int(words[0]) <= cache.floor:
        yield f"a pass of {words[0]} objects, and the floor is {cache.floor}"
    if words[8] == "stop" and not (cache.fs and kind == "nofs"):
        yield "a scan said stop, and the cache isn't `fs` in a walk of `nofs`"


def against(words, again, through):
    """Where a pass differs from the kernel's, as it was stopped and as it would have gone on."""
    if again[0] != "pass":
        yield f"Linux makes no pass: {' '.join(again)}"
        return
    _, delta, total, asks, scanned, after = again
    ours, linux = (words[3], words[5], words[7]), (asks, scanned, after)
    if ours != linux:
        yield (
            f"asks, scanned and next are {' '.join(ours)}; Linux {' '.join(linux)}, of delta {delta} and total {total}"
        )
    elif words[8] != "through" and int(through[3]) <= int(words[3]):
        yield f"the pass ended by {words[8]}, and Linux asks no more than {through[3]} times"


def check_scans(report):
    """Where the scans in the journals aren't those that the passes and the isolations say they made."""
    scans = {}
    for place, listed in report.lists.items():
        for line, words in listed.entries:
            if words[0] == "scan":
                scans.setdefault((place, words[1], words[2]), []).append((line, int(words[6])))
    wrong = []
    for attempt in report.attempts:
        words = attempt.run()
        made = scans.pop((attempt.place(), attempt.worker, attempt.walk[1]), []) if words else []
        if words and (len(made), sum(freed for _, freed in made)) != (int(words[3]) - int(words[4]), int(words[6])):
            wrong.append((attempt.line, f"the list's journal has {len(made)} scans of it, or they freed another number"))
    for number, (line, worker, words) in numbered(report.isolations):
        made = scans.pop((tuple(map(int, words[1:4])), worker, number), [])
        visits = int(words[5]) + (words[7] == "bare")
        if (len(made), sum(freed for _, freed in made)) != (visits, int(words[6])):
            wrong.append((line, f"the list's journal has {len(made)} scans of it, or they freed another number"))
    return wrong + [(made[0][0], "no pass made this scan") for made in scans.values()]


def numbered(isolations):
    """The isolations with what their scans have as the number of a walk: 2^63 more than how many the worker made before."""
    made = Counter()
    for isolation in isolations:
        yield str(2**63 + made[isolation[1]]), isolation
        made[isolation[1]] += 1
