"""The lines of a trace in its four text forms: those of `trace`, `trace_pipe`, `trace-cmd report` and `perf script`."""

import gzip
import io
import lzma
import re
import sys
from typing import NamedTuple

from beside.fault import Fault

# comm-pid [cpu] flags time: event: text; trace-cmd has no flags, and some kernels a thread group behind the pid
FTRACE = re.compile(
    r"\s*(?P<comm>.+?)-(?P<task>\d+)\s+(?:\(\s*[-\d]+\)\s+)?\[\d+\](?:\s+[^\s:]+)?\s+"
    r"(?P<time>\d+(?:\.\d+)?):\s+(?P<name>\w+):\s*(?P<text>.*)"
)
# what most lines of `trace` are, quickly read
PLAIN = re.compile(r" *(\S+)-(\d+) +\[\d+\] \S+ +(\d+\.\d+): (\w+): (.*)")
# comm pid/tid [cpu] time: period group:event: text
PERF = re.compile(
    r"\s*(?P<comm>.*?)\s+(?:\d+/)?(?P<task>-?\d+)\s+\[\d+\]\s+"
    r"(?P<time>\d+(?:\.\d+)?):\s+(?:\d+\s+)?\w+:(?P<name>\w+):\s*(?P<text>.*)"
)
LOST = re.compile(r"CPU:?\s?\d+ ?:? ?\[(?:LOST )?(\d+) EVENTS(?: DROPPED)?\]")
WRITTEN = re.compile(r"# entries-in-buffer/entries-written: (\d+)/(\d+)")
# stack traces of ftrace and call chains of perf, and what trace-cmd says at its head
OTHER = re.compile(r"\s*(?:#|=> |<stack trace>|[0-9a-f]{4,} .*|cpus=\d+|CPU \d+ is empty|version = \d+|\s*$)")
LONGEST = 120
EXPECTED = "an event as `trace` and `trace_pipe` of tracefs, trace-cmd report or perf script print it"


class Event(NamedTuple):
    """An event with the number of its line. Of lost events the name is LOST, and the text how many."""

    line: int
    comm: str
    task: str
    time: float
    name: str
    text: str


def unreadable(path, number, line, wanted):
    shown = line.strip()
    shown = shown if len(shown) <= LONGEST else f"{shown[:LONGEST]}.."
    return Fault(f"{path}: line {number}: `{shown}`: expected {wanted}")


def text_of_marker(name, text):
    """The name and text of an event; a marker is one event, however the form calls it."""
    if name in ("print", "bprint") and "tracing_mark_write" in text:
        text = text.partition("tracing_mark_write")[2].lstrip(": ")
        return "tracing_mark_write", text
    if name == "print":
        return "tracing_mark_write", text.partition(" ")[2] if re.match(r"\(?[0-9a-fx]+\)? ", text) else text
    return name, text


def lost_of(line):
    """How many events a line says are lost, or 0."""
    found = LOST.search(line)
    if found:
        return int(found[1])
    found = WRITTEN.match(line)
    return int(found[2]) - int(found[1]) if found else 0


def events_of(path, lines):
    """The events of a trace. A line that is no event is refused."""
    plain, print_names = PLAIN.match, ("print", "bprint")
    for number, line in enumerate(lines, 1):
        found = plain(line) or FTRACE.match(line) or PERF.match(line)
        if found:
            comm, task, time, name, text = found.groups()
            if name in print_names:
                name, text = text_of_marker(name, text)
            yield Event(number, comm, task, float(time), name, text)
        elif (lost := lost_of(line)) > 0:
            yield Event(number, "", "", 0.0, "LOST", str(lost))
        elif not OTHER.match(line):
            raise unreadable(path, number, line, EXPECTED)


def open_text(path):
    """The lines of a file, which may be packed by gzip or xz; `-` is standard input."""
    try:
        file = sys.stdin.buffer if path == "-" else open(path, "rb")
        head = file.peek(6)[:6]
    except OSError as error:
        raise Fault(f"{path}: {error.strerror}") from None
    if head.startswith(b"\x1f\x8b"):
        file = gzip.open(file)
    elif head.startswith(b"\xfd7zXZ\0"):
        file = lzma.open(file)
    return io.TextIOWrapper(file, encoding="utf-8", errors="replace", newline="\n")


def read_events(path):
    """The events of a file."""
    with open_text(path) as file:
        try:
            yield from events_of(path, file)
        except (EOFError, lzma.LZMAError, gzip.BadGzipFile, OSError) as error:
            raise Fault(f"{path}: {error}") from None
