"""How a command of this folder ends where it can't do its work."""

import sys


class Fault(Exception):
    """What is wrong with the words, the files or the machine, for the user to read."""


# what reading raises of text in no form that it knows
FORMLESS = (ValueError, IndexError, KeyError, TypeError, AttributeError)


def run_main(name, main, usage=""):
    """
    Ends with the status that `main` gives, or with 2 and one line where it meets a fault. With a usage, --help prints it.
    """
    try:
        if usage and sys.argv[1:] in (["-h"], ["--help"]):
            print(usage)
            sys.exit(0)
        status = main(sys.argv[1:])
    except Fault as fault:
        print(f"{name}: {fault}", file=sys.stderr)
        status = 2
    except KeyboardInterrupt:
        status = 130
    except BrokenPipeError:
        sys.stderr.close()
        status = 2
    sys.exit(status)


def text_of(path):
    """The text of a file."""
    try:
        with open(path, "rb") as file:
            return file.read().decode("latin-1")
    except OSError as error:
        raise Fault(f"{path}: {error.strerror}") from None
