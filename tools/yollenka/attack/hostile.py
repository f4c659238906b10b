"""Hostile inputs: what a command makes of files of which one or two are wrong on purpose, and what is wrong with how it ends."""
import random
import re
import shutil
from collections import Counter
from typing import NamedTuple

from yollenka.attack.documents import mutated
from yollenka.attack.runs import LATE, SERVED, run

SECONDS = 60
# The most bytes of a file: what takes long is tried elsewhere, by checks/limits and checks/hostile-input.
LONGEST = 60_000
TRACEBACK = re.compile(rb"Traceback|most recent call|Fatal Python error|Exception in thread|Exception ignored")
# Python's own words of what went wrong, which are nobody's but a programmer's.
RAW = re.compile(rb"NoneType|invalid literal for int|object at 0x|not subscriptable|unhashable|index out of range|has no attribute"
                 rb"|unexpected keyword|unsupported operand|not iterable|codec can't|\bKeyError\b|\bTypeError\b|\bValueError\b")
FILLED = ("stdout", "stderr")


class Trial(NamedTuple):
    """A trial: its number, what was changed first, how it ended and what is wrong with that, if something is."""

    number: int
    kind: str
    ended: object
    why: str | None


def told(errors):
    """The lines that a command has for people, without those of a launcher on its build."""
    return [line for line in errors.splitlines() if not line.startswith((b"emvrun: ", b"explain: "))]


def complaint(target, ended):
    """What is wrong with how a run ended, or None."""
    is_program = not target.name.startswith(("lab ", "./"))
    if found := TRACEBACK.search(ended.errors + ended.output):
        return f"a traceback: {ended.errors.strip().splitlines()[-1].decode(errors='replace')[:200] if ended.errors.strip() else found[0]}"
    if ended.status == LATE:
        return f"it doesn't end in {SECONDS} seconds"
    if ended.status not in target.statuses and not (target.until and ended.status == SERVED):
        return f"status {ended.status}: {ended.errors[-200:]!r}"
    if is_program and ended.errors:
        return f"on standard error stands {ended.errors[:200]!r}"
    return None if is_program else lines_fault(target, ended)


def lines_fault(target, ended):
    """What is wrong with what a command of the repository tells people, or None."""
    lines = told(ended.errors)
    if target.name.startswith("lab ") and ended.status == 2 and len(lines) != 1:
        return f"status 2 with {len(lines)} lines: {b' | '.join(lines[:3])[:200]!r}"
    raw = RAW.search(ended.errors)
    return f"Python's own words: {raw[0].decode()}" if raw else None


def files_of(target, seed, number):
    """The files of a trial, and what was changed first."""
    chance = random.Random(f"{seed} {target.name} {number}")
    files = list(chance.choice(target.goods()))
    places = [place for place in range(len(files)) if len(files) == 1 or chance.random() < 0.6] or [chance.randrange(len(files))]
    kind = None
    for place in places:
        name, files[place] = mutated(chance, files[place], target.kinds[place])
        files[place], kind = files[place][:LONGEST], kind or name
    return kind, dict(zip(target.files, files))


def clear(place):
    """Empties the folder of the trials."""
    for path in place.iterdir():
        shutil.rmtree(path) if path.is_dir() else path.unlink()


def trial(target, seed, number, place):
    """One trial in this folder."""
    kind, files = files_of(target, seed, number)
    clear(place)
    for name, content in files.items():
        (place / name).write_bytes(content)
    ended = run(lambda: target.act(place, number), place, place / target.given if target.given else "/dev/null", SECONDS, target.until)
    return Trial(number, kind, ended, complaint(target, ended))


class Count:
    """What came of a target's trials."""

    def __init__(self, target):
        self.target, self.statuses, self.slowest, self.wrong = target, Counter(), (0.0, None), {}

    def add(self, one):
        """Counts a trial; of those that are wrong alike the first and their number are kept."""
        self.statuses[one.ended.status] += 1
        self.slowest = max(self.slowest, (one.ended.seconds, one.number), key=lambda pair: pair[0])
        if one.why:
            first, count = self.wrong.get(alike(one.why), (one, 0))
            self.wrong[alike(one.why)] = first, count + 1

    def line(self):
        """A line on all of them."""
        ends = ", ".join(f"{status}: {count}" for status, count in sorted(self.statuses.items(), key=str))
        wrong = sum(count for _, count in self.wrong.values())
        return (f"{self.target.name:20}{self.statuses.total():7}{wrong:7}   slowest {self.slowest[0]:6.2f} s ({self.slowest[1]})"
                f"   by status {ends}")

    def faults(self):
        """A line for each kind of fault."""
        for first, count in self.wrong.values():
            yield f"wrong: {self.target.name}: trial {first.number} ({first.kind}), {count} alike: {first.why}"


def alike(why):
    """A fault without its numbers and names."""
    return re.sub(r"0x[0-9a-f]+|\d+|'[^']*'|\"[^\"]*\"", "#", why)[:80]
