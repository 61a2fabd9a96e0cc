"""The bits of lists at the end: none is clear below the root that a registered cache's objects wait for."""


def live_caches(script, report):
    """The name of the cache that each id has at the end, by id."""
    return {id: script.caches[turns[-1][2]].name for id, turns in report.registered.items() if turns[-1][1] is None}


def check_bits(script, report):
    """The lists that lost their bits, each as the number of its line and what is said of it."""
    caches, wrong = live_caches(script, report), []
    for (id, node, group), listed in report.lists.items():
        if group == 0 or not listed.items or id not in caches:
            continue
        line, bits = report.bits.get((node, group, id // 64), (0, 0))
        if bits >> (id % 64) & 1:
            continue
        seen = f"is clear in line {line}, `{report.lines[line - 1]}`" if line else "has no line"
        objects = f"{len(listed.items)} object{'s' * (len(listed.items) != 1)} of the cache {caches[id]}"
        wrong.append((listed.line, f"a lost bit: this list of {script.paths[group]} holds {objects}, and its bit {seen}"))
    return wrong
