"""What is said of a script: that it is good, with its sizes, or its first bad line."""

from explaining.grammar import VERBS, Fault, Script, read_script
from explaining.mistakes import Case, of_whole
from explaining.misword import form_of, of_word
from explaining.shown import marked_line, quoted


def count(number, noun):
    return f"{number:,} {noun}" if number == 1 else f"{number:,} {noun}s"


def sizes_of(script):
    parts = [
        count(script.nodes, "node"), count(script.ids, "id"), f"{count(len(script.groups) - 1, 'group')} besides the root",
        count(len(script.caches), "cache"), count(len(script.workers), "worker"), count(script.commands, "command"),
    ]
    if script.pools:
        parts.insert(4, count(len(script.pools), "pool"))
    if script.sweep:
        parts.append("a sweep")
    return ", ".join(parts)


def alternatives(words):
    """Words that may begin a line, commands under one name."""
    told = [f"`{word.decode()}`" for word in words if word not in VERBS]
    if VERBS[0] in words:
        verbs = " ".join(word.decode() for word in words if word in VERBS)
        told.insert(0, f"a command ({verbs})")
    return told[0] if len(told) == 1 else ", ".join(told[:-1]) + " or " + told[-1]


def expected_at(case):
    """What was expected where the bad word stands."""
    fault, script = case.fault, case.script
    if fault.line == 1:
        return "`shrinkers 1` or `shrinkers 2`, and nothing else on the line"
    if script.phase == "done":
        return f"nothing: the script ends with line {script.ended}"
    if fault.code == "NoEnd":
        return "the line `end` with its line feed, last of all"
    if fault.code == "Trailing":
        return f"nothing: the line is `{form_of(case)}`"
    if fault.code in ("TooMany", "Exists", "NoParent"):
        return None
    if fault.word_class is None:
        return alternatives(case.words_here)
    return f"{fault.word_class.name} of `{form_of(case)}`, {fault.word_class.expected()}"


def of_fault(name, case):
    """The lines that tell a refusal."""
    fault = case.fault
    told = of_whole(case) or of_word(case)
    expected = expected_at(case)
    if not told:
        told = (
            "The first line isn't one of a script." if fault.line == 1 else
            f"No line of a script begins with {quoted(case.word)} here."
        )
    lines = [f"{name}, line {fault.line}: refused, {fault.code}.", *marked_line(fault.line, case.text, *case.span()), told]
    if expected:
        lines.append(f"Expected here: {expected}.")
    return lines


def script_or_fault(data):
    """A script and None, or what its lines said before the bad one and the fault."""
    script = Script()
    try:
        return read_script(data, script), None
    except Fault as fault:
        return script, fault


def of_script(name, data):
    """The script or None, and the lines that say what it is."""
    script, fault = script_or_fault(data)
    if fault:
        return None, of_fault(name, Case(data, script, fault))
    return script, [f"{name} is a script of version {script.version}: {sizes_of(script)}."]
