"""The mistakes that one word of a line has, each with a sentence of its own."""

import re
from itertools import combinations

from explaining.grammar import Fault, classes_of, parent_path, values_of
from explaining.nearest import nearest
from explaining.shown import quoted
from explaining.words import Limit

UNIT = re.compile(rb"[0-9]+(\.[0-9]+)?[ _]?([kKmMgGtT]i?[bB]?|[bB]|%|[smhd]|ms)")
NO_LIMIT = (b"none", b"unlimited", b"inf", b"infinity", b"no", b"off", b"-1", b"MAX", b"Max", b"-", b"*")


def of_missing(case):
    fault = case.fault
    form = form_of(case)
    told = f"The word {fault.word_class.name} is missing: the line is `{form}`."
    if fault.word_class.name == "VALUE":
        return told + " The empty value is `=`."
    return told


def form_of(case):
    """The words of a line of this kind."""
    names = [word_class.name for word_class in classes_of(case.script, case.words[0])]
    return " ".join([case.words[0].decode(), *names])


def of_trailing(case):
    words, form = case.words, form_of(case)
    if words[0] == b"put" and len(words) > 6:
        return f"A word stands behind the value: `{form}`. A value has no spaces."
    if words[0] in (b"worker", b"end"):
        return f"The line `{form}` has no further word. Workers have no names: they are numbered from 0."
    return f"A word stands behind the last one of the form: `{form}`."


def of_swap(case):
    """Whether the line is good with two of its words swapped."""
    if case.fault.word_class is None or len(case.words) > 12:
        return None
    classes = classes_of(case.script, case.words[0])
    for left, right in combinations(range(1, len(case.words)), 2):
        words = list(case.words)
        words[left], words[right] = words[right], words[left]
        try:
            values_of(classes, words)
        except Fault:
            continue
        return f"Two words have changed places: the form is `{form_of(case)}`, so {quoted(b' '.join(words))}."
    return of_rotation(case, classes)


def of_rotation(case, classes):
    """Whether the line is good with one of its words moved."""
    for start in range(1, len(case.words)):
        for to in range(1, len(case.words)):
            words = list(case.words)
            words.insert(to, words.pop(start))
            try:
                values_of(classes, words)
            except Fault:
                continue
            return f"A word stands at another place: the form is `{form_of(case)}`, so {quoted(b' '.join(words))}."
    return None


def of_number(case):
    word, told = case.word, case.fault.word_class
    expected = told.expected()
    if isinstance(told, Limit) and word in NO_LIMIT:
        return "No limit is written `max`."
    if word[:1] in (b"-", b"+"):
        return f"A number has no sign. It is {expected}."
    if UNIT.fullmatch(word):
        return f"A number has no unit: {told.name} is {expected}, in digits." + (
            " Limits count objects, not bytes." if isinstance(told, Limit) else "")
    if re.fullmatch(rb"0[xX][0-9a-fA-F]+", word):
        return f"A number is decimal: {told.name} is {expected}."
    if re.fullmatch(rb"0[0-9]+", word):
        return f"A number has no leading zero: {quoted(word.lstrip(b'0') or b'0')}."
    if re.fullmatch(rb"[0-9]+[,_.'][0-9,_.']*", word):
        return f"A number has digits alone, no point, comma or bar: {told.name} is {expected}."
    if not word.isdigit():
        return f"{told.name} is {expected}, and {quoted(word)} is no number."
    return of_range(case, told, word, expected)


def of_range(case, told, word, expected):
    script = case.script
    if told.name == "NODE":
        nodes = "1 node, numbered 0" if script.nodes == 1 else f"{script.nodes} nodes, numbered 0 to {script.nodes - 1}"
        swapped = of_swap(case)
        return f"There is no node {word.decode()[:20]}: line 2 says {nodes}.{' Or: ' + swapped if swapped else ''}"
    if told.name == "IDS" and script.version == 1 and word.isdigit() and len(word) < 4 and 64 < int(word) <= 256:
        return "Version 1 has at most 64 ids. Version 2, whose first line is `shrinkers 2`, has up to 256."
    return f"{told.name} is out of range: it is {expected}."


def of_path(case):
    word = case.word
    if not word.startswith(b"/"):
        return f"A path begins with `/`: {quoted(b'/' + word)}."
    if len(word) > 1 and word.endswith(b"/"):
        return f"A path doesn't end with `/`: {quoted(word.rstrip(b'/') or b'/')}."
    if b"//" in word:
        return "A part of a path has at least one letter: two `/` stand side by side."
    if re.search(rb"[A-Z]", word):
        return f"A path has no upper case letters: {quoted(word.lower())}."
    if max(map(len, word.split(b"/"))) > 32:
        return "A part of a path has at most 32 letters."
    return f"A part of a path is of a to z, 0 to 9 and `_`, so {bad_letters(rb'[a-z0-9_/]', word)} can't be in it."


def bad_letters(good, word):
    return quoted(bytes(byte for byte in dict.fromkeys(word) if not re.match(good, bytes([byte]))))


def of_text(case):
    """A name, a key or a value."""
    word, told = case.word, case.fault.word_class
    if told.name == "VALUE" and not word.startswith(b"="):
        return f"A value begins with `=`: {quoted(b'=' + word)}."
    most = {"VALUE": 256, "KEY": 64}.get(told.name, 16)
    if len(word) > most:
        return f"{told.name} is too long: {len(word)} bytes, {most} at most."
    if told.name in ("VALUE", "KEY"):
        return f"{told.name} has visible ASCII characters alone, so {bad_letters(rb'[!-~]', word)} can't be in it."
    if re.search(rb"[A-Z]", word):
        return f"A name has no upper case letters: {quoted(word.lower())}."
    if word.startswith(b"/"):
        return f"{told.name} is a name, without `/`, and {quoted(word)} is a path."
    return f"A name is of a to z, 0 to 9 and `_`, so {bad_letters(rb'[a-z0-9_]', word)} can't be in it."


def of_group(case):
    word, script = case.word, case.script
    if word in script.group_of:
        group = script.groups[script.group_of[word]]
        where = f" (line {group.line})" if group.line else ""
        return f"`mkgroup` makes a group of a `later` line, and {quoted(word)} is there from the start{where}."
    known = [group.path for group in script.groups[1:]]
    same = (path for path in known if path.rpartition(b"/")[2] == word.rpartition(b"/")[2])
    near = next(same, None) or nearest(word, known)
    told = f" The nearest is {quoted(near)}, of line {script.groups[script.group_of[near]].line}." if near else ""
    return (
        f"No group {quoted(word)} is"
        f" declared.{told or f' A line `group {word.decode()[:40]} max` before the caches declares it.'}"
    )


def of_cache(case):
    word, script = case.word, case.script
    pool = case.fault.word_class.name == "POOL"
    own, other = (script.pool_of, script.cache_of) if pool else (script.cache_of, script.pool_of)
    kind, other_kind = ("pool", "cache") if pool else ("cache", "pool")
    if word in other:
        return f"{quoted(word)} is a {other_kind}, and a {kind} is wanted here."
    near = nearest(word, own)
    rows = script.pools if pool else script.caches
    told = f" The nearest is {quoted(near)}, of line {rows[own[near]].line}." if near else ""
    if not told:
        told = f" Declared are {', '.join(quoted(it) for it in list(own)[:6])}." if own else f" No {kind} is declared at all."
    return f"No {kind} {quoted(word)} is declared.{told}"


def of_choice(case):
    word, told = case.word, case.fault.word_class
    if word.lower() in told.words:
        return f"Words are of lower case letters: {quoted(word.lower())}."
    near = nearest(word, told.words)
    more = f" Is {quoted(near)} meant?" if near else ""
    return f"{told.name} is {told.expected()}, and {quoted(word)} is none of them.{more}"


def of_parent(case):
    path = case.word
    parent = parent_path(path)
    if parent in case.script.group_of:
        return f"The parent {quoted(parent)} is `later`, so this group is, too: `later` in place of `group`."
    for ahead, text in enumerate(case.rest, 1):
        if text.split(b" ")[1:2] == [parent] and text.split(b" ")[0] in (b"group", b"later"):
            return f"The parent {quoted(parent)} is declared on line {case.fault.line + ahead}, and must stand before its child."
    near = nearest(parent, list(case.script.group_of)[1:])
    more = f" The nearest is {quoted(near)}." if near else f" A line `group {parent.decode()[:40]} max` before it declares it."
    return f"The parent {quoted(parent)} isn't declared.{more}"


def of_existing(case):
    word, script = case.word, case.script
    if word == b"/":
        return "The root `/` is always there, has no limit, and isn't declared."
    kind = case.words[0]
    if kind in (b"group", b"later"):
        row = script.groups[script.group_of[word]]
    elif kind == b"cache":
        row = script.caches[script.cache_of[word]]
    else:
        row = script.pools[script.pool_of[word]]
    return f"{quoted(word)} is declared already, on line {row.line}."


def of_too_many(case):
    kind, script = case.words[0], case.script
    if kind in (b"group", b"later"):
        return f"There are too many groups: version {script.version} has at most {script.most_groups - 1} besides the root."
    if case.fault.at == 7:
        ids = "1 id" if script.ids == 1 else f"{script.ids} ids"
        return f"More caches are `on` than there are ids: line 2 says {ids}. Write a greater number there, or `off` here."
    most = (
        {b"cache": "250 caches", b"pool": "64 pools", b"worker": "64 workers"}.get(kind,
        "20,000 commands in all workers together")
    )
    return f"There are too many: a script has at most {most}."


BY_CODE = {
    "Missing": of_missing, "Trailing": of_trailing, "BadNumber": of_number, "BadPath": of_path, "BadText": of_text,
    "UnknownGroup": of_group, "UnknownCache": of_cache, "UnknownWord": of_choice, "NoParent": of_parent,
    "Exists": of_existing, "TooMany": of_too_many,
}


def of_word(case):
    """The sentence of a bad word behind the first, or None."""
    fault = case.fault
    if not fault.at and fault.code != "TooMany":
        return None
    # A number that is out of range is told so: it isn't likely that it stands at the wrong place.
    out_of_range = fault.code == "BadNumber" and case.word.isdigit()
    if fault.code not in ("Missing", "Trailing", "NoParent", "Exists", "TooMany") and not out_of_range:
        swapped = of_swap(case)
        if swapped:
            return swapped
    judge = BY_CODE.get(fault.code)
    return judge(case) if judge else None
