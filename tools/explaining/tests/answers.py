"""The answers of the program and of the tool as one line each, and the files that they are asked of."""

import glob
import gzip
import json
import os
import subprocess
import sys

from explaining.refusals import script_or_fault

TOP = os.path.dirname(os.path.dirname(os.path.dirname(os.path.dirname(os.path.abspath(__file__)))))
SUITE = f"{TOP}/suite"
HERE = f"{TOP}/tools/explaining/tests"


def bytes_of(path):
    with open(path, "rb") as file:
        return file.read()


def script_answer(data):
    """What the tool says of a script: `good`, or its line and code."""
    _, fault = script_or_fault(data)
    return f"{fault.line} {fault.code}" if fault else "good"


def program_answer(program, data):
    """What the program says of the same."""
    done = subprocess.run([program, "run"], input=data, stdout=subprocess.PIPE, check=False, timeout=120)
    if done.returncode == 5:
        return done.stdout.decode().strip().removeprefix("refused ")
    return "good" if done.returncode == 0 else f"status {done.returncode}"


def program_verdict(program, data):
    """What the program says of a script with its report behind it."""
    done = subprocess.run([program, "audit"], input=data, stdout=subprocess.PIPE, check=False, timeout=120)
    return done.stdout.decode().strip() or f"status {done.returncode}"


def cases_of_run():
    """Each case of the suite that is a script alone, with what `run` says of it."""
    for path in sorted(glob.glob(f"{SUITE}/*.script")):
        stem = path.removesuffix(".script")
        if os.path.exists(f"{stem}.args"):
            continue
        wanted = (
            bytes_of(f"{stem}.refused").decode().strip().removeprefix("refused ") if os.path.exists(f"{stem}.refused") else "good"
        )
        yield stem, bytes_of(path), wanted


def store(name, rows):
    """Writes rows of a text and its answer, compressed, the same bytes for the same rows."""
    told = json.dumps([[text.decode("latin-1"), answer] for text, answer in rows], separators=(",", ":"))
    with open(f"{HERE}/{name}.gz", "wb") as file:
        file.write(gzip.compress(told.encode(), 9, mtime=0))


def stored(name):
    path = f"{HERE}/{name}.gz"
    rows = json.loads(gzip.decompress(bytes_of(path)))
    return [(text.encode("latin-1"), answer) for text, answer in rows]


def say(*words, **how):
    print(*words, file=sys.stderr, **how)
