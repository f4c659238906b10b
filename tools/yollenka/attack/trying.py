"""A change tried: a copy of the repository, a trial build of a program of it, and its rows up to the first that notices."""
import shutil
import subprocess
import sys
import tempfile
from contextlib import contextmanager
from pathlib import Path

from yollenka.attack.changes import apply
from yollenka.attack.rows import first_to_notice
from yollenka.builds import trial_place
from yollenka.programs import ROOT, crates_of

# What a build is made from, and with.
PARTS = ("crates", "crates.txt", "HANDLES", "tools")
# The programs, the one whose trial build is made soonest first.
PROGRAMS = ("card_at_reader", "host_at_lines", "terminal_at_reader", "explain", "emvrun")
MAKE = "import sys; sys.path.insert(0, 'tools'); from yollenka.programs import Builder, say; Builder(sys.argv[1], say).make_trial()"
SECONDS = 1800


@contextmanager
def copied():
    """A copy of what programs are made from, without the builds that are there."""
    with tempfile.TemporaryDirectory(prefix="places-", ignore_cleanup_errors=True) as name:
        tree = Path(name)
        for part in PARTS:
            path = ROOT / part
            if path.is_dir():
                shutil.copytree(path, tree / part, ignore=shutil.ignore_patterns("out", "__pycache__"))
            else:
                shutil.copy2(path, tree / part)
        yield tree


# Crates of documents and lanes, of which the programs at lines read a part alone.
OF_DOCUMENTS = ("scenario", "scenario_fields", "scenario_lanes", "scenario_plan", "report_text")


def program_of(place):
    """The program in which a place is tried: the first that is made from its crate, or None."""
    if place.crate in OF_DOCUMENTS:
        return "emvrun"
    return next((name for name in PROGRAMS if place.crate in crates_of(name)), None)


def program_later(place):
    """The program with the rows of whole runs, where a place is in it and was tried in another one."""
    return "emvrun" if program_of(place) != "emvrun" and place.crate in crates_of("emvrun") else None


def made(tree, name):
    """The trial build of a program in a copy; None and the compiler's words where it is no text that compiles."""
    (tree / "crates" / name / "out").mkdir(exist_ok=True)
    ended = subprocess.run([sys.executable, "-B", "-c", MAKE, name], cwd=tree, capture_output=True, text=True, errors="replace",
                           timeout=SECONDS, stdin=subprocess.DEVNULL)
    path = tree / Path(trial_place(name)).relative_to(ROOT)
    return (path, "") if path.exists() else (None, ended.stderr)


def tried(places):
    """What notices the changes of these places of one program, made together: (the row, what it says), or None where nothing
    does; ("no build", ..) where they don't compile."""
    name = program_of(places[0])
    with copied() as tree:
        apply(places, tree)
        later = {program_later(place) for place in places} - {None}
        for each in (name, *later):
            path, said = made(tree, each)
            if path is None:
                return "no build", next((line for line in said.splitlines() if "error" in line), said[-200:])
            if found := first_to_notice(each, path):
                return found
    return None


def groups(places, several):
    """Places that are tried together: of one program, and of different crates."""
    waiting, made_up = list(places), []
    while waiting:
        group = [waiting.pop(0)]
        for place in list(waiting):
            if len(group) < several and program_of(place) == program_of(group[0]) and place.crate not in {one.crate for one in group}:
                group.append(place)
                waiting.remove(place)
        made_up.append(group)
    return made_up


def each_tried(group):
    """What notices each of a group's changes. Where nothing notices all together, nothing notices one; else each is tried alone."""
    found = tried(group)
    if found is None or len(group) == 1:
        yield from ((place, found) for place in group)
    else:
        yield from ((place, tried([place])) for place in group)
