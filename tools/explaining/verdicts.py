"""What is said of a script and a report: that it is lawful, the first law that it breaks and where, or why it is no report."""

import sys

from explaining.case import Case
from explaining.laws import first_broken
from explaining.line_words import NotReport
from explaining.mistakes import MARKS, Case as ScriptCase
from explaining.reading import read_report
from explaining.refusals import count, of_fault, script_or_fault
from explaining.shown import marked_line, quoted, singular


def parted(data):
    """The script and the report of one input, as `audit` parts it: behind the first line that is `end`."""
    if data.startswith(b"end\n"):
        return data[:4], data[4:]
    at = data.find(b"\nend\n")
    return (data, b"") if at < 0 else (data[:at + 5], data[at + 5:])


def of_input(name, data):
    """The status and the lines for one input."""
    script, report = parted(data)
    return of_parts(name, f"{name} (the report behind it)", script, report)


def of_pair(script_name, report_name, script, report):
    """The same for two files, which are judged as if one stood behind the other."""
    first, second = parted(script + report)
    status, lines = of_parts(script_name, report_name, first, second)
    if len(first) < len(script):
        line = first.count(b"\n") + 1
        told = f"{script_name} has more behind its `end`, from line {line} on, and that is read as the report's beginning."
        lines.append(told)
    elif len(first) > len(script):
        lines.append(f"{script_name} has no line `end`, so that {report_name} is read on as a part of it.")
    return status, lines


def of_parts(script_name, report_name, script_text, report_text):
    script, fault = script_or_fault(script_text)
    if fault:
        return 5, of_fault(script_name, ScriptCase(script_text, script, fault))
    try:
        report = read_report(report_text)
    except NotReport as fault:
        return 5, of_no_report(report_name, report_text, fault)
    sys.setrecursionlimit(10_000)
    case = Case(script, report)
    found = first_broken(case)
    if found:
        return 8, of_broken(report_name, report_text, found)
    answers = sum(len(part.answers) for part in report.workers)
    sizes = [count(answers, "answer"), count(len(case.walks), "walk"), count(len(report.lists), "list")]
    return 0, [f"{report_name} is lawful for {script_name}: all twelve laws hold ({', '.join(sizes)})."]


def of_broken(name, text, found):
    """The lines that tell a broken law and its place."""
    number, law, title, broken = found
    parts = text.split(b"\n")
    field = ", ".join(f"`{it}`" for it in broken.field.split(", "))
    lines = [f"{name}: unlawful, L{number}, {law} (docs/LAWS.md, {field}).", f"The law says that {title}.", singular(broken.told)]
    for line in list(dict.fromkeys(broken.lines))[:3]:
        lines.append(marked_line(line, parts[line - 1], 0, 0)[0])
    return lines


def of_no_report(name, text, fault):
    """The lines that tell why a text is no report."""
    part = text.split(b"\n")[fault.line - 1]
    words = part.split(b" ")
    start = sum(len(word) + 1 for word in words[:fault.at])
    length = len(words[fault.at]) if fault.at < len(words) else 1
    told = of_other_text(text, fault) or f"{fault.why[0].upper()}{fault.why[1:]}."
    return [f"{name}, line {fault.line}: refused, this is no report.", *marked_line(fault.line, part, start, length), told]


def of_other_text(text, fault):
    """The likely mistakes: another file, other line ends."""
    line = text.split(b"\n")[fault.line - 1]
    if not text:
        return "The report is empty. It begins with `report 1` or `report 2`."
    if line.endswith(b"\r"):
        return (
            "The line ends with a carriage return before its line feed (`\\r`). Each line of a report ends with one line feed"
            " alone."
        )
    if not line and fault.line <= text.count(b"\n"):
        return "The line is empty. A report has no empty lines."
    if b"\t" in line:
        return "A tab stands in the line. Words are parted by one space."
    if fault.line > 1:
        return None
    mark = next((name for mark, name in MARKS if text.startswith(mark)), None)
    if mark:
        return f"The file begins with a byte order mark of {mark}. A report is plain ASCII without one."
    if text.startswith(b"shrinkers "):
        return "This is a script. The script is given first, and its report behind it."
    if text.startswith(b"refused "):
        return f"This is what `run` wrote of a refused script: {quoted(line)}. `tools/explain SCRIPT` says what is wrong with it."
    return "These are the five lines of `gen`, which aren't a report." if text.startswith(b"gen ") else None
