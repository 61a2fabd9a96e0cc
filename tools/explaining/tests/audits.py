"""What tools/explain-test tries of reports: verdicts of the suite and of changed reports, and the sentence of each field."""

import glob
import os
import random
import re
from collections import Counter

from explaining import readings
from explaining.case import Case
from explaining.laws import LAWS, first_broken
from explaining.line_words import NotReport
from explaining.reading import read_report
from explaining.refusals import script_or_fault
from explaining.shown import singular
from explaining.tests import answers, report_mutations
from explaining.tests.answers import HERE, SUITE, TOP, bytes_of, say
from explaining.verdicts import of_input, parted

SMALL, STORED, MOST_OF_ONE = 1_600, 400, 60
# An input, a name of readings.py, and the verdicts where it is False and where it is True.
READINGS = (
    ("cited-place-not-there", "CITED_PLACES_ARE_THERE", ("unlawful L2", "unlawful L1")),
    ("done-of-no-group", "DONE_GROUPS_ARE_THERE", ("unlawful L6", "unlawful L2")),
    ("attempt-of-no-id", "WALKS_ARE_THERE", ("unlawful L5", "unlawful L4")),
    ("worn-of-no-id", "WALKS_ARE_THERE", ("unlawful L9", "unlawful L4")),
    ("sweep-of-no-group", "WALKS_ARE_THERE", ("unlawful L12", "unlawful L4")),
    ("held-beyond-lookups", "HELD_BY_REGISTRATION_ALONE", ("unlawful L4", "unlawful L5")),
    ("made-cited-twice", "MADE_IS_CITED_ONCE", ("lawful", "unlawful L9")),
)


def verdict(data):
    """What the tool says of one input, as the program does."""
    script_text, report_text = parted(data)
    script, fault = script_or_fault(script_text)
    if fault:
        return f"refused {fault.line} {fault.code}"
    try:
        found = first_broken(Case(script, read_report(report_text)))
    except NotReport:
        return "refused report"
    return f"unlawful L{found[0]}" if found else "lawful"


def cases_of_audit():
    """Each case of the suite that is an input of `audit`, and each report with its script; with what is said of it."""
    for path in sorted(glob.glob(f"{SUITE}/*.script")) + sorted(glob.glob(f"{TOP}/examples/*.script")):
        stem = path.removesuffix(".script")
        if not os.path.exists(f"{stem}.args"):
            if os.path.exists(f"{stem}.report"):
                yield bytes_of(path) + bytes_of(f"{stem}.report"), "lawful"
        elif bytes_of(f"{stem}.args").strip() == b"audit":
            ends = [f"{stem}.{end}" for end in ("report", "refused", "unlawful") if os.path.exists(f"{stem}.{end}")]
            yield bytes_of(path), bytes_of(ends[0]).decode().strip()


def changed(count, seed, most=20_000):
    """Lawful reports with a change put in, each behind its script."""
    chosen = random.Random(seed)
    texts = [parted(data) for data, wanted in cases_of_audit() if wanted == "lawful" and len(data) <= most]
    for _ in range(count):
        script, report = chosen.choice(texts)
        if chosen.random() < 0.12:
            yield report_mutations.mutated_script(chosen, script) + report
        else:
            yield script + report_mutations.mutated(chosen, report)


def rows_to_store(program):
    """Changed reports with the program's verdicts, no more than some of each verdict."""
    rows, counts = [], Counter()
    for data in changed(20 * STORED, 77, SMALL):
        said = answers.program_verdict(program, data)
        kind = said if not said.startswith("refused ") or said == "refused report" else "refused script"
        if counts[kind] < MOST_OF_ONE and len(rows) < STORED:
            counts[kind] += 1
            rows.append((data, said))
    return rows


def of_readings():
    """Each reading of the laws that may be switched, with an input of tests/readings that shows both."""
    bad = 0
    for name, reading, wanted in READINGS:
        data, now = bytes_of(f"{HERE}/readings/{name}.input"), getattr(readings, reading)
        for value, verdict_then in zip((False, True), wanted):
            setattr(readings, reading, value)
            got = verdict(data)
            if got != verdict_then:
                bad += 1
                say(f"explain-test: {name} with {reading} {value}: wanted `{verdict_then}`, got `{got}`")
        setattr(readings, reading, now)
    print(f"readings of laws: {len(READINGS)} tried, {bad} differ")
    return not bad


def fields_of_page():
    """The fields that docs/LAWS.md lists, each with the number of its law."""
    law, fields = None, []
    for line in bytes_of(f"{TOP}/docs/LAWS.md").decode().split("\n"):
        if line.startswith("## "):
            found = re.match(r"## L(\d+)", line)
            law = int(found[1]) if found else None
        cell = re.match(r"\| (`[^|]*`) \| ", line)
        if law and cell:
            fields.append((law, ", ".join(re.findall("`([^`]*)`", cell[1]))))
    return fields


def sentences():
    """The stored rows: a law, its field, a case of the suite, and the sentence that a person is to read."""
    lines = bytes_of(f"{HERE}/sentences").decode().split("\n")
    return [line.split(" | ", 3) for line in lines if line and not line.startswith("#")]


def sentence_of(law, field, case):
    """What is said of a case for a field, whatever is wrong with it besides; or why it is no report."""
    script_text, report_text = parted(bytes_of(f"{SUITE}/{case}.script"))
    try:
        report = read_report(report_text)
    except NotReport:
        return of_input("case", bytes_of(f"{SUITE}/{case}.script"))[1][-1]
    found = Case(script_or_fault(script_text)[0], report)
    breaks = (broken for judge in LAWS[law - 1][2] for broken in judge(found) if broken.field == field)
    return singular(next(breaks).told)


def of_sentences():
    """One report for each field of docs/LAWS.md, with its sentence."""
    rows, bad = sentences(), 0
    for law, field, case, wanted in rows:
        got = sentence_of(int(law), field, case)
        if got != wanted:
            bad += 1
            say(f"explain-test: L{law} {field} of {case}:\n  wanted {wanted}\n  got    {got}")
    told = {(int(law), field) for law, field, _, _ in rows}
    for law, field in fields_of_page():
        if (law, field) not in told:
            bad += 1
            say(f"explain-test: tools/explaining/tests/sentences has no row of L{law} {field}, a field of docs/LAWS.md")
    print(f"sentences of laws: {len(rows)} tried, {bad} differ")
    return not bad
