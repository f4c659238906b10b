"""Makes a trial build: the toolchain removes what it makes of one, and second names for it keep it."""
import fcntl
import os
import shutil
import signal
import sys
import tempfile
import threading
import time
from contextlib import contextmanager
from pathlib import Path

from yollenka import builds, seals

PREFIX = "making-"
ARCHIVE = b"!<arch>"
# What the library of a trial has that looks for bad accesses.
CHECKING = b"__asan_"


@contextmanager
def held(place, waiting=lambda: None):
    """Nobody else who asks has this folder or file meanwhile; where somebody has it, that is told and waited for."""
    number = os.open(place, os.O_RDONLY)
    try:
        if not builds.is_free(place):
            waiting()
        fcntl.flock(number, fcntl.LOCK_EX)
        yield number
    finally:
        os.close(number)


@contextmanager
def workroom(place, prefix):
    """A folder to work in, which goes with the work; one that a killed worker left goes too."""
    for left in place.glob(f"{prefix}*"):
        if builds.is_free(left):
            shutil.rmtree(left, ignore_errors=True)
    with tempfile.TemporaryDirectory(dir=place, prefix=prefix, ignore_cleanup_errors=True) as name, held(name):
        yield Path(name)


def is_wanted(name):
    """Whether a file of a trial is kept: the program, the code from which it was made, or what it was linked with."""
    return name in ("program", "module.bc") or name.startswith("input-")


def keep_new(folder, into, seen):
    """Gives a second name to each file that a trial's program or its parts are, where it is there for the first time."""
    for place, _, names in os.walk(folder):
        for name in filter(is_wanted, names):
            path = os.path.join(place, name)
            if path not in seen:
                (into / name).unlink(missing_ok=True)
                os.link(path, into / name)
                seen.add(path)


def keep_files(folder, into, ended):
    """Keeps such files as soon as they are there, until the trial has ended."""
    seen = set()
    while not ended.is_set():
        try:
            keep_new(folder, into, seen)
        except OSError:
            pass  # it went meanwhile
        time.sleep(0.002)


def is_library(path):
    """Whether a file is a library that the program calls; the one that checks it is none."""
    content = path.read_bytes()
    return content.startswith(ARCHIVE) and CHECKING not in content


def keep_parts(kept, name, sources):
    """Keeps what a quick build is made from: the program as the compiler's own code, and the libraries that it calls."""
    parts = Path(builds.parts_place(name, sources))
    for path in kept.glob("input-*"):
        if not is_library(path):
            path.unlink()
    for old in parts.parent.glob(f"{name}-trial.parts-*"):
        shutil.rmtree(old, ignore_errors=True)
    if (kept / "module.bc").exists():
        kept.replace(parts)


@contextmanager
def ended_by_signal():
    """A run that is told to end does so by an exception, so that nothing is left behind."""
    if threading.current_thread() is not threading.main_thread():
        yield
        return
    before = signal.signal(signal.SIGTERM, lambda number, _: sys.exit(128 + number))
    try:
        yield
    finally:
        signal.signal(signal.SIGTERM, before)


def make(builder):
    """Makes the trial build, which is not proved; where another launcher is at it, that one is waited for."""
    place = Path(seals.place(builder.name))
    place.mkdir(exist_ok=True)
    with ended_by_signal(), held(place, lambda: builder.tell("another launcher makes it: it is waited for")):
        if builds.kept(builder.name) is None:
            with workroom(place, PREFIX) as room:
                make_in(room, builder)


def make_in(room, builder):
    """Makes the trial build in this folder, and puts it in its place."""
    sources, kept, ended = seals.digest(builder.name), room / "kept", threading.Event()
    kept.mkdir()
    (room / "tries").mkdir()
    watch = threading.Thread(target=keep_files, args=(room / "tries", kept, ended), daemon=True)
    watch.start()
    said = builder.run(["try", "--seconds", "60"], builder.crate, env={**os.environ, "TMPDIR": str(room / "tries")})
    ended.set()
    watch.join()
    if not (kept / "program").exists():
        builder.failed("the trial build", said)
    trial = builds.trial_place(builder.name)
    (kept / "program").replace(trial)
    seals.seal(trial, sources)
    keep_parts(kept, builder.name, sources)
