"""Runs scripts by the program: the proved one where it is built from today's sources, else the kit's quick runner."""

import os
import shutil
import subprocess
import tempfile

from beside.fault import Fault

TOP = os.path.dirname(os.path.dirname(os.path.dirname(os.path.dirname(os.path.abspath(__file__)))))
CRATE = f"{TOP}/crates/shrinkers"
PROGRAM = f"{CRATE}/out/shrinkers"
NOT_PROVED = "the kit's quick runner, which proves nothing"


def is_fresh():
    """Whether the proved program is built from the sources as they stand, by the rule of ./shrinkers."""
    if not os.access(PROGRAM, os.X_OK) or not shutil.which("rt"):
        return False
    try:
        with open(f"{CRATE}/out/built-from", encoding="ascii") as file:
            stamp = file.read()
        with open(f"{TOP}/shrinkers", encoding="utf-8") as file:
            functions = file.read().partition("\nprove() {")[0]
    except OSError:
        return False
    asked = ["sh", "-c", f"{functions}\nsources_now", f"{TOP}/shrinkers"]
    return subprocess.run(asked, capture_output=True, text=True, check=False).stdout == stamp


def runner():
    """What runs scripts here, in words."""
    return "the proved program" if is_fresh() else NOT_PROVED


def run_scripts(scripts, by):
    """The reports of scripts, from texts by path, as texts by path; and why there is none, by path."""
    return run_proved(scripts) if by != NOT_PROVED else run_quickly(scripts)


def run_proved(scripts):
    """The reports by the built program."""
    reports, lacking = {}, {}
    for path, text in scripts.items():
        done = subprocess.run([PROGRAM, "run"], input=text.encode("latin-1"), capture_output=True, check=False)
        written = done.stdout.decode("latin-1")
        if done.returncode == 0:
            reports[path] = written
        else:
            lacking[path] = ended(done.returncode, written)
    return reports, lacking


def run_quickly(scripts):
    """The reports by one build of the quick runner, which takes three quarters of a minute."""
    if not shutil.which("rt"):
        raise Fault("the program isn't built here, and there is no rt to run it by")
    names = {f"{number:06}": path for number, path in enumerate(scripts)}
    with tempfile.TemporaryDirectory() as folder:
        for name, path in names.items():
            with open(f"{folder}/{name}", "wb") as file:
                file.write(scripts[path].encode("latin-1"))
        asked = ["rt", "try", "--steps", "1", "--cases", folder, "--", "run"]
        done = subprocess.run(asked, cwd=CRATE, capture_output=True, encoding="latin-1", check=False)
    written = {names[name]: text for name, text in cases_of(done.stdout, names)}
    reports, lacking, reason = {}, {}, ""
    for line in done.stderr.splitlines():
        if line.startswith("checked: "):
            reason = line[len("checked: ") :]
        said = dict(word.split("=", 1) for word in line.split(" ") if "=" in word)
        path = names.get(said.get("case"))
        if path and said.get("run") == "ended" and said.get("status") == "0" and path in written:
            reports[path] = written[path]
        elif path:
            lacking[path] = why(said, written.get(path, ""), reason)
    if len(reports) + len(lacking) != len(scripts):
        raise Fault(f"the quick runner gave no answer; it said:\n{done.stderr.strip()[-2000:]}")
    return reports, lacking


def ended(status, written):
    """How the program ended without a report."""
    return f"the program ended with status {status} and wrote {written.strip()[:60] or 'nothing'}"


def why(said, written, reason):
    """Why the quick runner gave no report of a script."""
    if said.get("run") == "ended":
        return ended(said.get("status"), written)
    return f"the quick runner gave up, {reason}; ./shrinkers --prove builds the program, which has no such bound"


def cases_of(output, names):
    """Each case's name with what it wrote."""
    name, lines = None, []
    for line in output.splitlines(keepends=True):
        if line.startswith("== ") and line[3:].strip() in names:
            if name:
                yield name, "".join(lines)
            name, lines = line[3:].strip(), []
        else:
            lines.append(line)
    if name:
        yield name, "".join(lines)
