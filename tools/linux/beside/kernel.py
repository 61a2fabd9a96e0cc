"""The kernel's code, as a process that answers commands; driver/commands.c has these."""

import os
import subprocess

from beside.fault import Fault

PIECE = 256
HERE = os.path.dirname(os.path.dirname(os.path.abspath(__file__)))


def prepare():
    """Has the kernel's files fetched and built where they aren't; the folder of the programs."""
    done = subprocess.run([f"{HERE}/prepare"], stdout=subprocess.PIPE, text=True, check=False)
    if done.returncode != 0:
        raise Fault("the kernel's code isn't there to compare with, see above")
    return done.stdout.strip()


class Kernel:
    """A running driver."""

    def __init__(self, folder):
        with open(f"{folder}/VERSION", encoding="ascii") as file:
            self.version = file.read().strip()
        self.driver = f"{folder}/driver"
        self.start()

    def start(self):
        """Starts the driver, which knows nothing yet."""
        self.process = subprocess.Popen(
            [self.driver], stdin=subprocess.PIPE, stdout=subprocess.PIPE, encoding="latin-1"
        )

    def restart(self):
        """Starts the driver again after a script that it couldn't serve."""
        self.close()
        self.start()

    def ask(self, *lines):
        """The lines that commands are answered by. They go in pieces that a pipe holds, as the answers come back by one."""
        answer = []
        for at in range(0, len(lines), PIECE):
            answer += self.ask_piece(lines[at : at + PIECE])
        return answer

    def ask_piece(self, lines):
        """The lines that a few commands are answered by."""
        try:
            self.process.stdin.write("\n".join(lines) + "\nsync\n")
            self.process.stdin.flush()
        except BrokenPipeError:
            pass
        answer = []
        while True:
            line = self.process.stdout.readline()
            if line == ".\n":
                return answer
            if not line:
                raise Fault(f"the kernel's code ended amid `{lines[0]}` .. `{lines[-1]}`: a fault of the driver")
            answer.append(line[:-1])

    def say(self, *lines):
        """The one line that commands are answered by."""
        (answer,) = self.ask(*lines)
        return answer

    def close(self):
        """Ends the process."""
        try:
            self.process.stdin.close()
        except BrokenPipeError:
            pass
        self.process.wait()

    def __enter__(self):
        return self

    def __exit__(self, *_):
        self.close()
