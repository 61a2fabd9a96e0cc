"""Each case with what is wrong with the answers to it: by a program, or by one build of the quick runner."""

import os
import subprocess
import tempfile

from running.cases import TOP
from running.schedules import by_seeds, scheduled

NOISE = (b"interpreter: ", b"checked: ", b"races: ", b"run=")


def ask(command, words, given):
    """The status and the output of a program."""
    how = {"stdout": subprocess.PIPE, "stderr": subprocess.DEVNULL, "check": False}
    done = subprocess.run([*command, *words], input=given, **how)
    return done.returncode, done.stdout


def audit_fault(command, script, report):
    """What is wrong with the verdicts on a report, whole and without its last byte, or None."""
    status, verdict = ask(command, ["audit"], script + report)
    if (status, verdict) != (0, b"lawful\n"):
        return f"the report's verdict is `{verdict.decode(errors='replace').strip()}`, with status {status}"
    status, verdict = ask(command, ["audit"], script + report[:-1])
    if (status, verdict) != (5, b"refused report\n"):
        return f"without its last byte the report's verdict is `{verdict.decode(errors='replace').strip()}`, with status {status}"
    return None


def by_command(command, cases, complain):
    """Asks a program. It audits each report that comes, too. Cases of several runs are run by seeds if that can be had."""
    program = scheduled(command, complain)
    for case in cases:
        if program and case.runs() > 1:
            yield case, by_seeds(program, case, lambda script, report: audit_fault(command, script, report))
        else:
            yield case, plainly(command, case)


def plainly(command, case):
    """What is wrong with the answers to a case whose threads run as they will, or None."""
    for _ in range(case.runs()):
        status, output = ask(command, case.words, case.input)
        fault = case.fault(status, output)
        if not fault and case.words == ["run"] and output.startswith(b"report "):
            fault = audit_fault(command, case.input, output)
        if fault:
            return fault
    return None


def write_cases(folder, cases):
    for case in cases:
        with open(os.path.join(folder, case.name), "wb") as out:
            out.write(case.input)
        with open(os.path.join(folder, case.name + ".args"), "w", encoding="ascii") as out:
            out.write("".join(word + "\n" for word in case.words))


def by_quick_runner(cases, complain):
    """Asks the kit's quick runner, each case once. It audits nothing besides."""
    with tempfile.TemporaryDirectory(prefix="shrinkers-suite-") as folder:
        write_cases(folder, cases)
        left = {case.name: case for case in cases}
        run = subprocess.Popen(
            ["rt", "try", "--steps", "1", "--cases", folder],
            cwd=os.path.join(TOP, "crates", "shrinkers"), stdout=subprocess.PIPE, stderr=subprocess.STDOUT,
        )
        try:
            yield from judged(run.stdout, left, complain)
        finally:
            run.terminate()
            run.wait()
        for case in left.values():
            yield case, "the quick runner gave no answer"


def judged(lines, left, complain):
    """What the quick runner's lines say of each case."""
    name, output = None, []
    for line in lines:
        if line.startswith(b"== "):
            name, output = line[3:].decode().strip(), []
        elif line.startswith(b"case="):
            said = dict(part.split("=", 1) for part in line.decode().split())
            case = left.pop(said["case"])
            # Among these lines is also what the program writes on standard error.
            text = b"".join(output) if name == case.name and case.kind != "usage" else b""
            yield case, case.fault(int(said.get("status", -1)), text)
            name, output = None, []
        elif name is not None:
            output.append(line)
        elif not line.startswith(NOISE):
            complain(line.decode(errors="replace").rstrip())
