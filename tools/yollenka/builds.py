"""Where the builds of a program stand, and which of them answers.

A program is proved and built, or it is a trial build, which is not proved. Behind a trial build a quick one is made of the
same code, by an optimising compiler: it is a trial build too. In an installed tree the proved programs alone stand beside
the launchers.
"""
import os
import sys

from yollenka.seals import ROOT, digest, is_fresh, place

INSTALLED = os.path.join(ROOT, "programs")
# The crates whose quick builds are begun when this run ends.
WAITING = set()


def is_installed():
    """Whether this tree was installed from a package: it has programs, and no crates."""
    return os.path.isdir(INSTALLED)


def proved_place(name):
    """Where the proved program of a crate stands, if it is built."""
    return os.path.join(INSTALLED, name) if is_installed() else os.path.join(place(name), name)


def trial_place(name):
    """Where the trial build of a crate stands, if it is made."""
    return os.path.join(place(name), f"{name}-trial")


def quick_place(name):
    """Where the quick trial build of a crate stands, if it is made."""
    return os.path.join(place(name), f"{name}-quick")


def is_known(name):
    """Whether there is such a program: in an installed tree it is there, in a repository its crate."""
    return os.path.isfile(proved_place(name)) or os.path.isdir(os.path.dirname(place(name)))


def is_slow(program):
    """Whether this is a plain trial build, which takes some 300 times as long as the proved program."""
    return str(program).endswith("-trial")


def parts_place(name, sources):
    """The folder with what a quick trial build is made from, while it isn't made."""
    return os.path.join(place(name), f"{name}-trial.parts-{sources[:12]}")


def say(text):
    """A line for people: on standard error, so that standard output is the program's alone."""
    print(f"emvrun: {text}", file=sys.stderr, flush=True)


def silent(text):
    """Where nothing is to be said."""


def kept(name):
    """The build that answers, and whether it is proved; None where there is none of the sources as they are."""
    if is_installed():
        return (proved_place(name), True) if os.access(proved_place(name), os.X_OK) else None
    sources = digest(name)
    if is_fresh(proved_place(name), name, sources):
        return proved_place(name), True
    if is_fresh(quick_place(name), name, sources, adopts=False):
        return quick_place(name), False
    if is_fresh(trial_place(name), name, sources):
        quicken_behind(name, sources)
        return trial_place(name), False
    return None


def is_free(folder):
    """Whether a folder is there, and nobody works in it."""
    import fcntl
    try:
        number = os.open(folder, os.O_RDONLY)
    except OSError:
        return False
    try:
        fcntl.flock(number, fcntl.LOCK_SH | fcntl.LOCK_NB)
        return True
    except OSError:
        return False
    finally:
        os.close(number)


def quicken_behind(name, sources):
    """Has the quick build made behind this run, where what it is made from is there and nobody is at it."""
    if is_free(parts_place(name, sources)):
        import atexit
        WAITING.add(name)
        atexit.register(quicken_waiting)


def quicken_waiting():
    """Begins with the quick builds that wait for the end of this run."""
    while WAITING:
        quicken(WAITING.pop())


def quicken(name):
    """Has the quick build made beside all else, by a process of its own, at the lowest priority."""
    worker = os.path.join(ROOT, "tools", "yollenka", "quickening.py")
    nothing = os.open(os.devnull, os.O_RDWR)
    files = [(os.POSIX_SPAWN_DUP2, nothing, number) for number in (0, 1, 2)]
    words = [sys.executable, "-B", "-I", "-S", worker, name]
    os.posix_spawn(sys.executable, words, os.environ, file_actions=files, setsid=True)


def launched(name, main, words):
    """Runs a launcher; gives its status, also where it is stopped or a file of it can't be had."""
    try:
        return main(words)
    except KeyboardInterrupt:
        return 130
    except OSError as error:
        print(f"{name}: {error.filename or name}: {error.strerror}", file=sys.stderr)
        return 2


def end_as(program, words):
    """Becomes the program; what waits for the end of this run begins now."""
    quicken_waiting()
    os.execv(program, [str(program), *words])
