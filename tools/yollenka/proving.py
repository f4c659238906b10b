"""Proves the crates of a program side by side, as many at a time as there are processors and memory, then builds it.

The toolchain keeps a crate, and all crates below it, to one call at a time. So each crate is proved in a room of its own: a
repository with second names of the files of those crates and of what was made of the lower ones. What the proof leaves goes
back to the crate, also from the room of a call that was killed, and so the next call goes on where this one ended.
"""
import math
import os
import re
import shutil
import signal
import subprocess
import time
from concurrent.futures import FIRST_COMPLETED, ThreadPoolExecutor, wait
from pathlib import Path

from yollenka import seals
from yollenka.builds import is_free
from yollenka.seals import PARTS, crates_of, libraries
from yollenka.trials import held, workroom

CRATES = Path(seals.ROOT) / "crates"
PREFIX = "proving-"
# What a crate's proof leaves in out/ beside its program.
LEFT = ("rlib", "incremental")
# Bytes that a proof takes: at least, and for each line of the crates below and of the crate itself.
LEAST, BELOW, OWN = 1_400_000_000, 80_000, 350_000
# A proof by several processors takes this share more memory for each further one, keeps such a share of it busy, and doesn't gain by
# more than so many.
FURTHER, BUSY, MOST_JOBS = 0.6, 0.5, 4
# Where a gate's seconds of the processor stand for the proof of each crate, a row for each.
COUNTED, ROW = Path(seals.ROOT) / "docs" / "inside" / "gate.md", re.compile(r"^\| `(\w+)` \| (\d+) \|", re.MULTILINE)
# Lines of a crate without a row that are proved in a second of one processor, roughly.
PACE = 9
# Seconds after which it is looked again whether there is room.
LOOK = 20
STOPPED = 130


def minutes(start):
    """The time since then, as minutes and seconds."""
    return "{}:{:02}".format(*divmod(int(time.monotonic() - start), 60))


def lines_in(crate):
    """How many lines of code a crate has."""
    files = [path for path in (CRATES / crate / "src").glob("**/*.rt")]
    return sum(path.read_bytes().count(b"\n") for path in files)


def seconds_counted():
    """Seconds of one processor for the proof of each crate that a gate has counted."""
    return {crate: int(seconds) for crate, seconds in ROW.findall(seals.text_of(COUNTED))}


def free_memory():
    """The bytes of memory that new work may take."""
    for line in seals.text_of("/proc/meminfo").splitlines():
        if line.startswith("MemAvailable:"):
            return int(line.split()[1]) * 1024
    return 1 << 62


def taken_memory(session):
    """The bytes that the processes of a session have now."""
    total = 0
    for pid in filter(str.isdigit, os.listdir("/proc")):
        fields = seals.text_of(f"/proc/{pid}/stat").rpartition(")")[2].split()
        if len(fields) > 21 and int(fields[3]) == session:
            total += int(fields[21]) * os.sysconf("SC_PAGE_SIZE")
    return total


def copy_tree(old, new, copy):
    """The files below a folder once more below the new one, where the old one is there."""
    if old.is_dir():
        shutil.copytree(old, new, copy_function=copy)


class Room:
    """A repository of a crate and those below it, in which the crate alone is proved."""

    def __init__(self, folder, crate):
        self.folder, self.crate = folder, crate
        for one in crates_of(crate):
            for part in PARTS:
                copy_tree(CRATES / one / part, self.place(one) / part, shutil.copyfile)
            if one != crate:
                copy_tree(CRATES / one / "out" / "rlib", self.place(one) / "out" / "rlib", os.link)
        listed = libraries()
        rows = [f"{one}: {' '.join(listed[one])}\n" for one in crates_of(crate)]
        (folder / "crates.txt").write_text("".join(rows))
        move_left(CRATES / crate / "out", self.place(crate) / "out")
        keep_whole(self.place(crate) / "out")

    def place(self, crate):
        """Where a crate stands in the room."""
        return self.folder / "crates" / crate

    def leave(self):
        """Hands what the proof left back to the crate."""
        move_left(self.place(self.crate) / "out", CRATES / self.crate / "out")


def keep_whole(out):
    """Has a crate of which nothing was kept proved as a whole: a file stands where the toolchain would keep what it proves.

    Where it may keep something it proves a large crate some functions at a time, which takes longer.
    """
    if not (out / "incremental").exists():
        (out / "incremental").write_text("proved as a whole\n")


def move_left(old, new):
    """What an earlier proof left goes from one place to the other."""
    new.mkdir(parents=True, exist_ok=True)
    for name in LEFT:
        if (old / name).is_dir():
            shutil.rmtree(new / name, ignore_errors=True)
            (old / name).replace(new / name)


def recover(crate):
    """Takes back what stands in the room of a call that was killed."""
    out = CRATES / crate / "out"
    for room in out.glob(f"{PREFIX}*"):
        if is_free(room):
            move_left(room / "crates" / crate / "out", out)
            shutil.rmtree(room, ignore_errors=True)


class Plan:
    """Which crates are proved, which wait for which, and how long and large each may be."""

    def __init__(self, name):
        listed = libraries()
        self.crates = [crate for crate in crates_of(name) if crate != name]
        self.below = {crate: [one for one in crates_of(crate) if one != crate] for crate in self.crates}
        self.lines = {crate: lines_in(crate) for crate in self.crates}
        counted = seconds_counted()
        self.seconds = {crate: counted.get(crate, self.lines[crate] / PACE) for crate in self.crates}
        self.row = {}
        for crate in reversed(self.crates):
            above = [self.row[one] for one in self.crates if crate in listed[one]]
            self.row[crate] = self.seconds[crate] + max(above, default=0)

    def memory(self, crate):
        """The bytes that the proof of a crate takes, roughly."""
        below = sum(self.lines[one] for one in self.below[crate])
        return LEAST + BELOW * below + OWN * self.lines[crate]

    def ready(self, todo, done):
        """The crates that may begin: those with the longest row of waiting crates first."""
        found = [crate for crate in todo if all(one in done for one in self.below[crate])]
        return sorted(found, key=lambda crate: -self.row[crate])


class Prover:
    """The proofs that run, and what is left."""

    def __init__(self, builder, plan):
        self.builder, self.plan = builder, plan
        self.todo, self.done = list(plan.crates), set()
        self.running, self.sessions, self.jobs, self.told = {}, {}, {}, []
        self.start, self.tool = time.monotonic(), builder.tool()

    def needed(self, crate):
        """The bytes that the proof of a running crate takes, roughly."""
        return self.plan.memory(crate) * (1 + FURTHER * (self.jobs[crate] - 1))

    def jobs_for(self, crate, ready):
        """How many processors a crate's proof gets where so many wait, itself among them: 0 where one or memory is wanting.

        It gets what no other crate waits for, as far as memory is free. The crate with the longest row of those that wait for it
        gets the share that this row has of all that is left, where that is more: a second processor makes a proof faster by a
        third, and not by half. One crate may always run.
        """
        busy = sum(1 + BUSY * (self.jobs[one] - 1) for one in self.running.values())
        idle = math.ceil(len(os.sched_getaffinity(0)) - busy)
        still = sum(max(0, self.needed(one) - taken_memory(self.sessions.get(one, -1))) for one in self.running.values())
        room = free_memory() - still
        needs = self.plan.memory(crate)
        if self.running and (idle < 1 or room < needs):
            return 0
        return max(1, min(MOST_JOBS, max(idle // ready, self.share(crate)), 1 + int((room / needs - 1) / FURTHER)))

    def share(self, crate):
        """The processors that the crate with the longest row would have if rows of crates that wait for one another got them by
        their length, and 0 for each other crate."""
        left = [*self.todo, *self.running.values()]
        if self.plan.row[crate] < max(self.plan.row[one] for one in left):
            return 0
        return round(self.plan.row[crate] * len(os.sched_getaffinity(0)) / max(1, sum(self.plan.seconds[one] for one in left)))

    def prove(self, crate):
        """Proves a crate in a room of its own; gives the status and what the toolchain wrote."""
        out = CRATES / crate / "out"
        out.mkdir(exist_ok=True)
        with held(CRATES / crate) as lock:
            recover(crate)
            with workroom(out, PREFIX) as folder:
                room = Room(folder, crate)
                # It keeps the lock as long as it runs, also where this process is killed.
                process = subprocess.Popen([self.tool, "lib", "--jobs", str(self.jobs[crate])], cwd=room.place(crate), text=True, errors="replace",
                                           stdin=subprocess.DEVNULL, stdout=subprocess.PIPE, stderr=subprocess.STDOUT,
                                           start_new_session=True, pass_fds=[lock])
                self.sessions[crate] = process.pid
                said = process.communicate()[0]
                room.leave()
        return process.returncode, said

    def begin(self, pool):
        """Begins with as many crates as there is room for."""
        ready = self.plan.ready(self.todo, self.done)
        for at, crate in enumerate(ready):
            jobs = self.jobs_for(crate, len(ready) - at)
            if jobs == 0:
                break
            self.jobs[crate] = jobs
            self.todo.remove(crate)
            self.running[pool.submit(self.prove, crate)] = crate
        if self.told != list(self.running.values()):
            self.told = list(self.running.values())
            self.tell()

    def tell(self):
        """A line of what runs, what is left, and how long that may take."""
        left = self.todo + list(self.running.values())
        longest = max((self.plan.row[crate] for crate in left), default=0)
        share = sum(self.plan.seconds[crate] for crate in left) / max(1, len(self.running))
        at_work = " ".join(f"{crate}*{self.jobs[crate]}" if self.jobs[crate] > 1 else crate for crate in self.running.values())
        self.builder.tell(f"{minutes(self.start)}: {at_work}; {len(self.todo)} wait, "
                          f"{len(self.done)} done; about {max(longest, share) / 60:.0f} min left")

    def end(self, future):
        """Notes a crate that has ended; where its proof failed, all is stopped and the end of what was written is shown."""
        crate = self.running.pop(future)
        status, said = future.result()
        if status != 0:
            self.stop()
            self.builder.failed(f"the proof of {crate}", said)
        self.done.add(crate)

    def stop(self):
        """Ends the proofs that still run."""
        for crate in self.running.values():
            if crate in self.sessions:
                try:
                    os.killpg(self.sessions[crate], signal.SIGTERM)
                except ProcessLookupError:
                    pass

    def all(self):
        """Proves all crates."""
        with ThreadPoolExecutor(len(self.plan.crates)) as pool:
            try:
                while self.todo or self.running:
                    self.begin(pool)
                    for future in wait(self.running, LOOK, FIRST_COMPLETED)[0]:
                        self.end(future)
            except BaseException:
                self.stop()
                raise


def prove(builder):
    """Proves the crates below a program, then builds the program; gives the status."""
    signal.signal(signal.SIGTERM, signal.default_int_handler)
    try:
        return prove_all(builder)
    except KeyboardInterrupt:
        builder.tell("stopped: what is proved is kept, and the next call goes on from there")
        return STOPPED


def prove_all(builder):
    """Does so, and tells what it is at."""
    plan = Plan(builder.name)
    builder.tell(f"{len(plan.crates)} crates are proved, then the program is built, on {len(os.sched_getaffinity(0))} processors; "
                 "what is proved is kept")
    with held(CRATES.parent / "crates.txt", lambda: builder.tell("another --build works here: it is waited for")):
        prover = Prover(builder, plan)
        prover.all()
        builder.tell(f"{minutes(prover.start)}: {builder.name}, the program; 0 wait")
        builder.build()
    builder.tell(f"{minutes(prover.start)}: proved and built")
    return 0
