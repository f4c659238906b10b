"""Which builds are of the sources as they are: by what the sources hold. File times only spare work.

Beside a build stands its seal, two lines: the sum of the sources that it was made from, and the sum of the build itself with
its size and times. A build counts only where both are right, so that neither a changed source nor another build in its
place passes. Beside them stands the listing, by which an unchanged tree is known without reading it: size and times of
each source, as they were when the sources were last read. This module is what every launch begins with, so it imports
nothing that takes long.
"""
import os
import time

ROOT = os.path.dirname(os.path.dirname(os.path.dirname(os.path.realpath(__file__))))
PARTS = ("src", "specs", "proofs")
# A file this young may change again without another time.
YOUNG = 2_000_000_000


def rows_of(text):
    """The crates of a crates.txt in its order, lower layers first, each with the libraries that it names."""
    rows = (line.split("#")[0].split(":", 1) for line in text.splitlines())
    return {row[0].split()[0]: row[1].split() for row in rows if len(row) == 2}


def libraries():
    """The crates of the repository, each with what it stands on; none in an installed tree."""
    try:
        with open(os.path.join(ROOT, "crates.txt"), encoding="utf-8") as file:
            return rows_of(file.read())
    except FileNotFoundError:
        return {}


def crates_of(name, listed=None):
    """The crates from which a crate is made, the lowest first and itself last."""
    listed = libraries() if listed is None else listed
    wanted, left = set(), [name]
    while left:
        crate = left.pop()
        if crate in listed and crate not in wanted:
            wanted.add(crate)
            left += listed[crate]
    return [crate for crate in listed if crate in wanted]


def files_below(folder):
    """The files in a folder and those in it, as entries; none where there is no such folder."""
    try:
        with os.scandir(os.path.join(ROOT, folder)) as entries:
            found = sorted(entries, key=lambda entry: entry.name)
    except (FileNotFoundError, NotADirectoryError):
        return
    for entry in found:
        path = f"{folder}/{entry.name}"
        if entry.is_dir():
            yield from files_below(path)
        elif entry.is_file():
            yield path, entry


def source_files(name, listed=None):
    """All files that a crate is made from, by their paths from the root, sorted, as entries."""
    folders = sorted(f"crates/{crate}/{part}" for crate in crates_of(name, listed) for part in PARTS)
    for folder in folders:
        yield from files_below(folder)


def marks_of(status):
    """What tells that a file is as it was: its size, and when it and what is known of it changed last."""
    return f"{status.st_size} {status.st_mtime_ns} {status.st_ctime_ns}"


def newest(status):
    """When a file changed last, in nanoseconds."""
    return max(status.st_mtime_ns, status.st_ctime_ns)


def sum_of_file(path):
    """The sum of a file's bytes."""
    from hashlib import sha256
    with open(path, "rb") as file:
        return sha256(file.read()).hexdigest()


def sum_of_sources(rows, paths):
    """The sum of the rows of crates.txt, and of each file with its path and its length."""
    from hashlib import sha256
    total = sha256(rows.encode())
    for path in paths:
        with open(os.path.join(ROOT, path), "rb") as file:
            content = file.read()
        total.update(f"{path}\0{len(content)}\0".encode())
        total.update(content)
    return total.hexdigest()


def text_of(path):
    """What a small file has; an empty text where it can't be read."""
    try:
        with open(path, encoding="utf-8") as file:
            return file.read()
    except (OSError, ValueError):
        return ""


def keep(path, text):
    """Puts a small file in its place, whole; where nothing can be written it is left out, which only costs time."""
    part = f"{path}.{os.getpid()}"
    try:
        with open(part, "w", encoding="utf-8") as file:
            file.write(text)
        os.replace(part, path)
    except OSError:
        if os.path.exists(part):
            os.unlink(part)


def place(name):
    """Where the builds of a crate stand."""
    return os.path.join(ROOT, "crates", name, "out")


def digest(name):
    """The sum of all that a crate is made from: its rows of crates.txt, and the content of its files."""
    listed = libraries()
    rows = "".join(f"{crate}: {' '.join(listed[crate])}\n" for crate in crates_of(name, listed))
    files = [(path, entry.stat()) for path, entry in source_files(name, listed)]
    listing = rows + "".join(f"{path} {marks_of(status)}\n" for path, status in files)
    path = os.path.join(place(name), f"{name}.listing")
    known, _, before = text_of(path).partition("\n")
    if before == listing:
        return known
    found = sum_of_sources(rows, [path for path, _ in files])
    if os.path.isdir(place(name)) and all(newest(status) < time.time_ns() - YOUNG for _, status in files):
        keep(path, f"{found}\n{listing}")
    return found


def made_after(program, name):
    """Whether a build is as new as all that it is made from."""
    made = os.stat(program).st_mtime_ns
    files = [entry.stat() for _, entry in source_files(name)]
    return all(newest(status) <= made for status in [os.stat(os.path.join(ROOT, "crates.txt")), *files])


def seal(program, sources):
    """Says beside a build which sources it was made from."""
    keep(f"{program}.seal", f"sources {sources}\nbuild {sum_of_file(program)} {marks_of(os.stat(program))}\n")


def sealed_sources(program):
    """The sum of the sources from which this very build was made, by its seal; None where it has none."""
    words = text_of(f"{program}.seal").split()
    if len(words) != 7 or words[0] != "sources" or words[2] != "build":
        return None
    if " ".join(words[4:]) == marks_of(os.stat(program)):
        return words[1]
    if words[3] != sum_of_file(program):
        return None
    seal(program, words[1])
    return words[1]


def is_fresh(program, name, sources=None, adopts=True):
    """Whether this build of a crate is there, and of the sources as they are, whose sum may be known.

    One that the toolchain made by itself has no seal: it counts where it is as new as all its sources, and is sealed then.
    """
    if not os.access(program, os.X_OK) or os.path.isdir(program):
        return False
    sources, sealed = sources or digest(name), sealed_sources(program)
    if sealed is None and adopts and made_after(program, name):
        seal(program, sources)
        return True
    return sealed == sources
