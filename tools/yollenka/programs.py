"""The repository's programs: proved and built, or as trial builds, which are not proved."""
import argparse
import os
import shutil
import subprocess
import sys
from pathlib import Path

if __name__ == "__main__":
    sys.path.insert(0, str(Path(__file__).resolve().parents[1]))

from yollenka import builds, seals
from yollenka.builds import say, silent

ROOT = Path(seals.ROOT)
TOOL = "rt"
# The programs that the launchers and `lab` run: the gate builds each, and the package has each.
PROGRAMS = ("emvrun", "explain", "card_at_reader", "terminal_at_reader", "host_at_lines", "card_check")
# How long that takes, as measured on four processors.
TRIAL_TIME = "one to two minutes"

libraries, crates_of, is_fresh = seals.libraries, seals.crates_of, seals.is_fresh
__all__ = ["PROGRAMS", "ROOT", "TOOL", "Builder", "built", "crates_of", "fresh", "is_fresh", "libraries", "proved", "say", "silent", "trial"]


def sources(name):
    """All files that a program is made from, but for crates.txt, of which it is the rows of its crates."""
    yield from (ROOT / path for path, _ in seals.source_files(name))


def proved(name):
    """Where the proved program of a crate stands, if it is built."""
    return Path(builds.proved_place(name))


def trial(name):
    """Where the trial build of a crate stands, if it is made: the quick one where it is of the sources as they are."""
    quick = builds.quick_place(name)
    return Path(quick if is_fresh(quick, name, adopts=False) else builds.trial_place(name))


def fresh(name):
    """The path of this crate's proved program, where it is built and no source has changed since, else None."""
    found = builds.kept(name)
    return Path(found[0]) if found and found[1] else None


def built(name):
    """The path of this crate's program. It is proved and built where a source has changed since."""
    found = fresh(name)
    if found is None:
        print(f"{name}: it is proved and built first", file=sys.stderr)
        Builder(name, silent).build()
    return found or proved(name)


class Builder:
    """Builds a crate's program, and tells what it is at. What keeps it from building is said in any case."""

    def __init__(self, name, tell):
        self.name, self.tell = name, tell
        self.crate = ROOT / "crates" / name

    def tool(self):
        """The path of the toolchain's command; where it is missing, no build can be made."""
        path = shutil.which(TOOL)
        if path is None:
            older = any(os.access(path, os.X_OK) for path in (proved(self.name), builds.trial_place(self.name)))
            which = "no build of these sources, only one of others" if older else "no build"
            say(f"{self.name}: there is {which}, and `{TOOL}`, the command of the Rattle kit, is not on the PATH")
            sys.exit(1)
        return path

    def failed(self, what, log):
        """Says what failed, with the end of what the toolchain said, and ends."""
        say(f"{what} failed:")
        print("\n".join(log.strip().split("\n")[-25:]), file=sys.stderr)
        sys.exit(1)

    def run(self, words, crate, **more):
        """Runs the toolchain in a crate's folder; gives what it wrote. Where this run is ended, it is told to end too."""
        process = subprocess.Popen([self.tool(), *words], cwd=crate, stdin=subprocess.DEVNULL, stdout=subprocess.PIPE,
                                   stderr=subprocess.STDOUT, text=True, errors="replace", **more)
        try:
            return process.communicate()[0]
        except BaseException:
            process.terminate()
            process.wait()
            raise

    def build(self):
        """Has the toolchain prove what isn't proved yet, one crate after the other, and build the program; seals it."""
        before = seals.digest(self.name)
        proved(self.name).unlink(missing_ok=True)
        # Without words the program prints its usage line and ends with 2.
        said = self.run(["run"], self.crate)
        if not os.access(proved(self.name), os.X_OK):
            self.failed(f"{self.name}: the build", said)
        if seals.digest(self.name) != before:
            proved(self.name).unlink()
            self.failed(f"{self.name}: the build", "a source changed meanwhile")
        seals.seal(proved(self.name), before)

    def prove_and_build(self):
        """Proves the libraries, as many at a time as the machine has room for, then the program."""
        if builds.is_installed():
            return self.tell(f"{self.name} is installed: its program was proved and built where the package was made")
        from yollenka.proving import prove
        return prove(self)

    def make_trial(self):
        """Makes the trial build, which is not proved."""
        from yollenka.trials import make
        make(self)

    def program(self):
        """The program to run: the proved one, or a trial build, made where there is none. And whether it is proved."""
        found = builds.kept(self.name)
        if found is None:
            self.tool()
            self.tell(f"a trial build is made ({TRIAL_TIME}), which is not proved; it is kept until a source changes")
            self.make_trial()
            found = builds.kept(self.name)
        if found is None:
            self.failed(f"{self.name}: the trial build", "a source changed meanwhile")
        return Path(found[0]), found[1]


def main(words):
    """Proves and builds these crates' programs where they aren't yet, as many crates at a time as the machine has room for; without
    a word those of the package."""
    parser = argparse.ArgumentParser(prog="programs.py", description=main.__doc__)
    parser.add_argument("crate", nargs="*")
    wanted = parser.parse_args(words).crate or PROGRAMS
    for crate in wanted:
        if not builds.is_known(crate):
            parser.error(f"there is no program {crate}")
    for crate in wanted:
        if fresh(crate) is None and Builder(crate, say).prove_and_build():
            return 1
    return 0


if __name__ == "__main__":
    sys.exit(main(sys.argv[1:]))
