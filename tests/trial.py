"""What each trial in Python begins with, before it imports what starts processes: the program that it tries, and the end of all
that it starts.

Whatever ends the trial, no process that it has started goes on: tests/guard waits for that end and kills them. SIGTERM and SIGHUP
end it as an exception does, so that what it has mounted and made is removed as well."""

import os
import pathlib
import signal
import subprocess
import sys
import time

TOP = pathlib.Path(__file__).resolve().parent.parent
sys.path.insert(0, str(TOP / "tools"))
from program import Refused, find_program

# Seconds after which a trial that was ended by a signal is ended by another one, where threads of it go on.
PATIENCE = 20


def built(path=None):
    """The program at this path or, without one, the one that the environment names or ./build makes. Where there is none the trial
    ends with one line and status 1."""
    try:
        return find_program(path)
    except Refused as refused:
        sys.exit(f"{pathlib.Path(sys.argv[0]).stem}: {refused}")


def end(number, _):
    signal.alarm(PATIENCE)
    sys.exit(128 + number)


def begin():
    mark = f"{os.getpid()}.{time.time_ns()}"
    outer = os.environ.pop("PARTSBOOK_TRIAL", "")
    words = [TOP / "tests" / "guard", str(os.getpid()), mark]
    silent = {"stdin": subprocess.DEVNULL, "stdout": subprocess.DEVNULL, "stderr": subprocess.DEVNULL}
    guard = subprocess.Popen(words, start_new_session=True, **silent)
    os.environ["PARTSBOOK_TRIAL"] = f"{outer} {mark}".strip()
    for number in (signal.SIGTERM, signal.SIGHUP):
        if signal.getsignal(number) is signal.SIG_DFL:
            signal.signal(number, end)
    return guard


GUARD = begin()
