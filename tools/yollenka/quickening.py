"""Makes the quick trial build of a program from what its trial build left: the same code, optimised by the kit's compiler.

It is no proof either. It is made by a process of its own at the lowest priority, one at a time, in the folder of the parts,
which goes when the build is in its place. Where the making fails, the plain trial build stays. Where the kit isn't there, or
the machine had no time for it in hours, the parts stay too, and a later run tries again.
"""
import ctypes
import fcntl
import os
import shutil
import signal
import subprocess
import sys
from pathlib import Path

sys.dont_write_bytecode = True
sys.path.insert(0, str(Path(__file__).resolve().parents[1]))
from yollenka import builds, seals

# It takes less than a minute of one processor, for which it may wait as long as others want them all.
SECONDS = 4 * 3600
DIE_WITH_PARENT = 1


def stay_below():
    """Takes the processor only where nobody else wants it."""
    os.nice(19)
    try:
        os.sched_setscheduler(0, os.SCHED_IDLE, os.sched_param(0))
    except (AttributeError, OSError):
        pass


def with_parent():
    """In a child: it ends when this process does, however that ends."""
    ctypes.CDLL(None).prctl(DIE_WITH_PARENT, signal.SIGKILL)


def ran(words, work, **more):
    """Runs a command of the making; gives what it said, or None where it is missing or fails."""
    try:
        ended = subprocess.run(words, cwd=work, env={**os.environ, "TMPDIR": str(work)}, stdin=subprocess.DEVNULL,
                               capture_output=True, timeout=SECONDS, preexec_fn=with_parent, **more)
    except OSError:
        return None
    return ended.stdout if ended.returncode == 0 else None


def compiler():
    """The kit's own compiler, beside the page that the toolchain names."""
    page = ran(["rt", "doc"], Path.cwd())
    return page and Path(page.decode().strip()).parent / "toolchain" / "bin" / "clang"


def answer(program):
    """What a program says and ends with, without words."""
    ended = subprocess.run([program], stdin=subprocess.DEVNULL, capture_output=True, timeout=SECONDS, preexec_fn=with_parent)
    return ended.returncode, ended.stdout, ended.stderr


def make(clang, parts, work, name):
    """Makes the build in this folder; tells whether it is there and answers as the trial build does."""
    code, program = work / "quick.o", work / "quick"
    compiled = ran([clang, "-Os", "-march=x86-64-v2", "-x", "ir", "-c", parts / "module.bc", "-o", code], work)
    linked = compiled is not None and ran(["cc", "-no-pie", "-o", program, code, *sorted(parts.glob("input-*"))], work)
    if linked is None or not program.exists():
        return False
    return answer(program) == answer(builds.trial_place(name))


def quicken(name):
    """Makes the quick build of the sources as they are, where its parts are there and nobody else is at it."""
    sources = seals.digest(name)
    parts = Path(builds.parts_place(name, sources))
    held = os.open(parts, os.O_RDONLY)
    fcntl.flock(held, fcntl.LOCK_EX | fcntl.LOCK_NB)
    # Each run begins one of these: only now is this the one that works, and may wait for the processor.
    stay_below()
    # One after the other in this repository.
    others = os.open(parts.parents[2], os.O_RDONLY)
    fcntl.flock(others, fcntl.LOCK_EX)
    clang, work = compiler(), parts / "work"
    if not clang:
        return
    shutil.rmtree(work, ignore_errors=True)
    work.mkdir()
    try:
        if make(clang, parts, work, name):
            (work / "quick").replace(builds.quick_place(name))
            seals.seal(builds.quick_place(name), sources)
    finally:
        shutil.rmtree(work, ignore_errors=True)
    shutil.rmtree(parts, ignore_errors=True)


def main(name):
    """Does so in peace: nobody waits for it, and nobody reads what it says."""
    for number in (signal.SIGTERM, signal.SIGINT, signal.SIGHUP):
        signal.signal(number, lambda number, _: sys.exit(128 + number))
    try:
        quicken(name)
    except (OSError, subprocess.TimeoutExpired):
        return 1
    return 0


if __name__ == "__main__":
    sys.exit(main(sys.argv[1]))
