"""What tools/explain-test tries, form by form."""

import os
import random
import subprocess

from explaining.refusals import of_script
from explaining.tests import answers, audits, mutations
from explaining.tests.answers import TOP, bytes_of, say
from explaining.tests.wrong_scripts import ROWS

SMALL = 1_500
STORED = 300


def good_scripts(most=20_000):
    """Good scripts to put mistakes into: those of the suite, the examples, and some of `gen`."""
    texts = [data for _, data, wanted in answers.cases_of_run() if wanted == "good" and len(data) <= most]
    examples = f"{TOP}/examples"
    texts += [bytes_of(f"{examples}/{name}") for name in sorted(os.listdir(examples)) if name.endswith(".script")]
    for seed, workers, commands in ((1, 1, 8), (2, 2, 16), (3, 5, 20)):
        texts.append(generated(seed, workers, commands))
    return [text for text in texts if len(text) <= most]


def generated(seed, workers, commands):
    words = [f"{TOP}/tools/generated-script", str(seed), str(workers), str(commands)]
    return subprocess.run(words, stdout=subprocess.PIPE, check=True).stdout


def mistaken(count, seed, most=20_000):
    """Scripts with one mistake each."""
    chosen, texts = random.Random(seed), good_scripts(most)
    for _ in range(count):
        yield mutations.mutated(chosen, chosen.choice(texts))


def differences(rows, answer):
    """How many rows there are, and those whose answer isn't the wanted one."""
    count, found = 0, []
    for text, wanted in rows:
        count += 1
        got = answer(text)
        if got != wanted:
            found.append((text, wanted, got))
    return count, found


def report(name, count, found):
    for text, wanted, got in found[:10]:
        say(f"explain-test: {name}: wanted `{wanted}`, got `{got}` of {text[-300:]!r}")
    print(f"{name}: {count} tried, {len(found)} differ")
    return not found


def of_suite():
    rows = [(data, wanted) for _, data, wanted in answers.cases_of_run()]
    return report("scripts of the suite", *differences(rows, answers.script_answer))


def of_stored():
    return report("scripts with a mistake", *differences(answers.stored("scripts"), answers.script_answer))


def of_audits():
    """The verdicts of the suite and of the stored reports."""
    suite = report("reports of the suite", *differences(audits.cases_of_audit(), audits.verdict))
    return report("changed reports", *differences(answers.stored("reports"), audits.verdict)) and suite


def of_wrong_scripts():
    """The sentence of each mistake that people make."""
    bad = 0
    for what, text, wanted, sentence in ROWS:
        got, (_, lines) = answers.script_answer(text), of_script("script", text)
        if got != wanted or not any(line.startswith(sentence) for line in lines) or len(lines) > 10:
            bad += 1
            say(f"explain-test: {what}: wanted `{wanted}` and `{sentence}`, got `{got}` and", *lines, sep="\n")
    print(f"sentences of wrong scripts: {len(ROWS)} tried, {bad} differ")
    return not bad


def of_command():
    """The statuses of the command, and that it says no more than ten lines and nothing of Python's."""
    first, data = f"{TOP}/examples/first", f"{TOP}/suite"
    rows = (
        (0, [f"{first}.script"]), (0, [f"{first}.script", f"{first}.report"]), (5, [f"{first}.script", f"{first}.script"]),
        (8, ["--audit", f"{data}/audit-bits-lost.script"]), (5, [f"{data}/refused-missing.script"]), (5, ["/dev/null"]),
        (3, ["/nowhere"]), (3, [TOP]), (2, []), (2, ["--what"]), (2, ["-", "-"]), (2, ["a", "b", "c"]), (0, ["--help"]),
    )
    bad = 0
    for wanted, words in rows:
        command = [f"{TOP}/tools/explain", *words]
        done = subprocess.run(command, capture_output=True, text=True, stdin=subprocess.DEVNULL, check=False)
        told = done.stdout + done.stderr
        if done.returncode != wanted or "Traceback" in told or (told.count("\n") > 10 and words != ["--help"]) or not told:
            bad += 1
            say(f"explain-test: explain {' '.join(words)}: wanted status {wanted}, got {done.returncode} and", told)
    print(f"runs of the command: {len(rows)} tried, {bad} differ")
    return not bad


def of_program(program, count, seed):
    rows = ((data, answers.program_answer(program, data)) for data in mistaken(count, seed))
    scripts = report("scripts with a mistake, by the program", *differences(rows, answers.script_answer))
    rows = ((data, answers.program_verdict(program, data)) for data in audits.changed(count, seed))
    return report("changed reports, by the program", *differences(rows, audits.verdict)) and scripts


def store(program):
    answers.store("reports", audits.rows_to_store(program))
    rows = []
    for data in mistaken(3 * STORED, 76, SMALL):
        answer = answers.program_answer(program, data)
        if answer != "good" and len(rows) < STORED:
            rows.append((data, answer))
    answers.store("scripts", rows)
    return True


def main(words, usage):
    if words in (["-h"], ["--help"]):
        print(usage.strip())
        return 0
    if not words:
        tried = [of_suite(), of_stored(), of_wrong_scripts(), of_audits(), audits.of_sentences(), audits.of_readings()]
        tried.append(of_command())
    elif words[0] == "--program" and 2 <= len(words) <= 4 and all(word.isdigit() for word in words[2:]):
        count, seed = [int(word) for word in words[2:]] + [5_000, 1][len(words) - 2:]
        tried = [of_program(words[1], count, seed)]
    elif words[0] == "--store" and len(words) == 2:
        tried = [store(words[1])]
    else:
        say("\n".join(usage.strip().split("\n")[2:5]))
        return 2
    return 0 if all(tried) else 1
