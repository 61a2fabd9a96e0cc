"""The processor time of all processes below one, read off /proc."""

import os
import re
from collections import defaultdict

TICKS = os.sysconf("SC_CLK_TCK")


def read(path):
    try:
        with open(path, "rb") as file:
            return file.read()
    except OSError:
        return b""


def processes():
    """Each process by its number: its parent, when it began, and its own processor time so far in seconds."""
    found = {}
    for name in os.listdir("/proc"):
        if name.isdigit():
            fields = read(f"/proc/{name}/stat").rpartition(b")")[2].split()
            if len(fields) > 19:
                found[int(name)] = int(fields[1]), fields[19], (int(fields[11]) + int(fields[12])) / TICKS
    return found


def folder_of(number):
    """The folder that a process works in; an empty text where it has ended."""
    try:
        return os.readlink(f"/proc/{number}/cwd")
    except OSError:
        return ""


def words_of(number):
    return read(f"/proc/{number}/cmdline").decode(errors="replace").split("\0")


def crate_and_kind(number):
    """What a process of rt works on, where its words or its folder tell."""
    words = words_of(number)
    if "--crate-name" in words[:-1]:
        name = words[words.index("--crate-name") + 1]
        if "/rt-edit" in folder_of(number):
            return name, "wrong bodies"
        return name, "tests" if "--test" in words else "proof"
    tested = re.search(r"/(\w+)_tests$", " ".join(words).rstrip())
    return (tested[1], "tests") if tested else None


class Record:
    """The processor time of all processes below one, by what each works on, as `work_of` tells of its number."""

    def __init__(self, top, work_of):
        self.top = top
        self.work_of = work_of
        self.works = {}
        self.seconds = {}

    def look(self):
        found = processes()
        for number, (_, began, seconds) in found.items():
            if not self.is_below(number, found):
                continue
            key = number, began
            # A process that was forked a moment ago has its parent's words, so a work is asked for anew until it is told.
            if self.works.get(key) is None:
                self.works[key] = self.work_of(number) or self.works.get((found[number][0], self.began(number, found)))
            self.seconds[key] = seconds

    def is_below(self, number, found):
        for _ in range(64):
            if number == self.top:
                return True
            if number not in found:
                return False
            number = found[number][0]
        return False

    def began(self, number, found):
        parent = found[number][0]
        return found[parent][1] if parent in found else None

    def by_work(self):
        total = defaultdict(float)
        for key, seconds in self.seconds.items():
            total[self.works.get(key)] += seconds
        return total
