"""Lines on standard error that say how far a long command is."""

import sys
import threading
import time

EVERY = 10


def spell(seconds):
    """A time as a person reads it."""
    seconds = int(seconds)
    return f"{seconds} s" if seconds < 60 else f"{seconds // 60} min {seconds % 60:02} s"


class Progress:
    """Says every ten seconds what is done and for how long; on a terminal one line shows it, each second."""

    def __init__(self, name, stream=None):
        self.name = name
        self.stream = stream or sys.stderr
        self.is_terminal = self.stream.isatty()
        self.what = ""
        self.tell = lambda: self.what
        self.begun = time.monotonic()
        self.lock = threading.Lock()
        self.ended = threading.Event()
        self.shown = False
        self.thread = threading.Thread(target=self.tick, daemon=True)

    def __enter__(self):
        self.thread.start()
        return self

    def __exit__(self, *_):
        self.ended.set()
        self.thread.join()
        with self.lock:
            self.wipe()

    def elapsed(self):
        return time.monotonic() - self.begun

    def set(self, what):
        with self.lock:
            self.what = what

    def ask(self, tell):
        """From now on a call says what is done."""
        self.tell = tell

    def tick(self):
        while not self.ended.wait(1 if self.is_terminal else EVERY):
            with self.lock:
                what = self.tell()
                if what:
                    self.show(what)

    def show(self, what):
        line = f"{self.name}: {what}, {spell(self.elapsed())} so far"
        self.write(f"\r\033[K{line}" if self.is_terminal else f"{line}\n")
        self.shown = self.is_terminal

    def wipe(self):
        """Takes the line off the terminal, so that another can be written."""
        if self.shown:
            self.write("\r\033[K")
            self.shown = False

    def say(self, line):
        """Writes a line that stays."""
        with self.lock:
            self.wipe()
            self.write(f"{self.name}: {line}\n")

    def write(self, text):
        try:
            self.stream.write(text)
            self.stream.flush()
        except (OSError, ValueError):
            self.is_terminal = self.shown = False
