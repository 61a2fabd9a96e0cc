"""Programs that end when the one that started them ends, however that is."""

import contextlib
import ctypes
import os
import signal
import subprocess

SIGNALS = (signal.SIGINT, signal.SIGTERM, signal.SIGHUP)
PR_SET_PDEATHSIG = 1


class Failed(Exception):
    """Why a build gave nothing."""


class Held:
    """A signal that comes while a program is being started, or ended, waits until that is done."""

    is_held = False
    number = None

    @classmethod
    def release(cls):
        cls.is_held = False
        if cls.number:
            raise SystemExit(128 + cls.number)


def raise_exit(number, _):
    """Ends the program at the first signal; what comes later must not disturb the end."""
    if Held.number:
        return
    Held.number = number
    if not Held.is_held:
        raise SystemExit(128 + number)


@contextlib.contextmanager
def ends_quietly():
    """A signal ends this program by an exception, so that what it made is removed; so does the end of its parent."""
    for number in SIGNALS:
        signal.signal(number, raise_exit)
    parent = os.getppid()
    with contextlib.suppress(OSError):
        ctypes.CDLL(None).prctl(PR_SET_PDEATHSIG, signal.SIGTERM)
    if os.getppid() != parent:
        raise SystemExit(1)
    yield


@contextlib.contextmanager
def started(words, **how):
    """A program in a process group of its own, which is killed at the end."""
    Held.is_held = True
    child = None
    try:
        child = subprocess.Popen(words, start_new_session=True, stdin=subprocess.DEVNULL, **how)
        Held.release()
        yield child
    finally:
        Held.is_held = True
        if child:
            with contextlib.suppress(OSError):
                os.killpg(child.pid, signal.SIGKILL)
            child.wait()
        Held.is_held = False
