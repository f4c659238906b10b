"""Runs of one command on its files, each in a child of this process: a program, or a command of `lab`, which begins at once."""
import os
import select
import signal
import sys
import time
import traceback
from typing import NamedTuple

LATE, SERVED = "late", "serves"
# How often a run is looked at that may be one that only ends when it is ended.
LOOK = 20


class Ended(NamedTuple):
    """The status of a run, or why it has none; what it wrote; and seconds by the clock."""

    status: object
    output: bytes
    errors: bytes
    seconds: float


def become(act, given, output, errors):
    """In a child: these are its files, and its status is what the call gives. What it raises is left to be seen."""
    status = 70
    try:
        os.setsid()
        made = os.O_WRONLY | os.O_CREAT | os.O_TRUNC
        for number, path, flags in ((0, given, os.O_RDONLY), (1, output, made), (2, errors, made)):
            os.dup2(os.open(path, flags, 0o600), number)
        status = act()
    except SystemExit as ended:
        status = ended.code if isinstance(ended.code, int) else 0
    except BaseException:
        traceback.print_exc()
    finally:
        try:
            sys.stdout.flush()
            sys.stderr.flush()
        finally:
            os._exit(status or 0)


def end_all(child):
    """Ends a child with all that it has begun."""
    try:
        os.killpg(child, signal.SIGKILL)
    except ProcessLookupError:
        pass


def status_of(child, latest, serves):
    """The status of a child; it is ended where it is late, or serves."""
    waiting = select.poll()
    number = os.pidfd_open(child)
    waiting.register(number, select.POLLIN)
    try:
        while not waiting.poll(LOOK):
            if serves() or time.monotonic() > latest:
                end_all(child)
                os.waitpid(child, 0)
                return SERVED if serves() else LATE
        return os.waitstatus_to_exitcode(os.waitpid(child, 0)[1])
    finally:
        os.close(number)
        end_all(child)


def content(path):
    """What a file has; nothing where it isn't there."""
    return path.read_bytes() if path.exists() else b""


def run(act, place, given, seconds, until=b""):
    """How a call ends in a child whose files are in this folder. With `until` it serves as soon as it has written that on
    standard error."""
    output, errors = place / "stdout", place / "stderr"
    for path in (output, errors):
        path.unlink(missing_ok=True)
    sys.stdout.flush()
    began = time.monotonic()
    child = os.fork()
    if child == 0:
        become(act, given, output, errors)
    status = status_of(child, began + seconds, lambda: bool(until) and until in content(errors))
    return Ended(status, content(output), content(errors), time.monotonic() - began)
