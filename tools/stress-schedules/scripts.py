"""A script as its parts: what it declares, and the commands of each worker."""

from program import Refused


class Script:
    """The lines of a script before the first worker, each worker's commands, and a sweep if there is one."""

    def __init__(self, head, workers, sweep=None):
        self.head = list(head)
        self.workers = [list(it) for it in workers]
        self.sweep = sweep

    @staticmethod
    def read(text, name="the script"):
        lines = text.decode(errors="replace").split("\n")
        if lines[-2:] != ["end", ""] or not lines[0].startswith("shrinkers "):
            raise Refused(f"{name} isn't a script: it begins with `shrinkers 1` or `shrinkers 2`, and ends with the line `end`", 2)
        lines = lines[:-2]
        sweep = lines.pop() if lines[-1].startswith("sweep ") else None
        head, workers = [], []
        for line in lines:
            if line == "worker":
                workers.append([])
            elif workers:
                workers[-1].append(line)
            else:
                head.append(line)
        if not workers:
            raise Refused(f"{name} has no worker", 2)
        return Script(head, workers, sweep)

    def text(self):
        lines = list(self.head)
        for commands in self.workers:
            lines += ["worker", *commands]
        lines += [self.sweep] if self.sweep else []
        return ("\n".join([*lines, "end"]) + "\n").encode()

    def limits(self):
        """The limit of each group that has one, by the group's number."""
        lines = [line.split(" ") for line in self.head if line.split(" ")[0] in ("group", "later")]
        return {number: int(words[2]) for number, words in enumerate(lines, 1) if len(words) == 3 and words[2].isdigit()}

    def commands(self):
        """How many commands it has."""
        return sum(map(len, self.workers))

    def command(self, at):
        """The command of a worker by its number, `sweep` behind the last one."""
        worker, number = at
        commands = self.workers[worker]
        return commands[number] if number < len(commands) else "sweep"
