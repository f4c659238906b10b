"""A package of the proved programs: what is in it, and its two forms, which are the same bytes whenever they are made.

Times are that of the commit, names are sorted, and all belongs to root. A form is a list of entries: a path, what it holds,
and whether it may be executed; or a link.
"""
import gzip
import hashlib
import io
import os
import subprocess
import tarfile
from pathlib import Path
from typing import NamedTuple

from yollenka import builds
from yollenka.faults import Fault
from yollenka.pages import completions, man_pages
from yollenka.programs import PROGRAMS, ROOT
from yollenka.version import version

NAME = "yollenka"
LAUNCHERS = ("emvrun", "explain", "lab")
# Files that git has below these are packed: all pages, so that each link of one leads somewhere.
PACKED = ("emvrun", "explain", "lab", "README.md", "CHANGELOG.md", "docs", "examples", "suite", "tools/yollenka")
HOME = "usr/lib/yollenka"
CONTROL = """\
Package: {name}
Version: {version}
Architecture: amd64
Maintainer: Yollenka <yollenka@example.org>
Installed-Size: {size}
Depends: libc6 (>= 2.34), python3 (>= 3.11)
Suggests: tshark, pcscd, vsmartcard-vpcd, python3-pyscard
Section: utils
Priority: optional
Description: EMV contact payments, byte for byte, by proved programs
 emvrun runs terminals, cards and an issuer by EMV 4.3 from one written document,
 explain puts words below each line of its report, and lab judges terminals,
 cards and hosts of other makes and runs many scenarios. The programs are proved
 against their definitions before they are built.
"""


class Entry(NamedTuple):
    """A file of the package, or a link where it has a target."""
    path: str
    content: bytes = b""
    mode: int = 0o644
    target: str = ""


def git(*words):
    """What git says in the repository."""
    try:
        return subprocess.run(["git", *words], cwd=ROOT, capture_output=True, text=True, check=True).stdout.strip()
    except (OSError, subprocess.CalledProcessError):
        raise Fault("a package is made from a clone, with git") from None


def require_clean():
    """Stops where files aren't as they are committed: the package's version names a commit."""
    changed = git("status", "--porcelain", "--", *PACKED, "crates", "crates.txt").splitlines()
    if changed:
        raise Fault(f"{changed[0].split(maxsplit=1)[1]} isn't as it is committed")


def proved_program(name):
    """The bytes of a program, which has to be proved."""
    found = builds.kept(name)
    if found is None or not found[1]:
        raise Fault(f"{name} isn't proved, and only proved programs are packed: tools/package --build")
    return Path(found[0]).read_bytes()


def tree():
    """The files of an installed tree, by their paths below its folder."""
    for path in git("ls-files", "--", *PACKED).splitlines():
        mode = 0o755 if os.access(ROOT / path, os.X_OK) else 0o644
        yield Entry(path, (ROOT / path).read_bytes(), mode)
    for name in PROGRAMS:
        yield Entry(f"programs/{name}", proved_program(name), 0o755)
    yield Entry("VERSION", f"{version()}\n".encode())


def packed(content):
    """The bytes with gzip, without a name or a time."""
    return gzip.compress(content, 9, mtime=0)


def of_debian():
    """The files of the Debian package, by their paths below the root."""
    for entry in tree():
        yield entry._replace(path=f"{HOME}/{entry.path}")
    for name in LAUNCHERS:
        yield Entry(f"usr/bin/{name}", target=f"../lib/yollenka/{name}")
    for name, page in man_pages().items():
        yield Entry(f"usr/share/man/man1/{name}.1.gz", packed(page.encode()))
    for name, text in completions().items():
        yield Entry(f"usr/share/bash-completion/completions/{name}", text.encode())
    for folder in ("docs", "examples", "suite", "README.md", "CHANGELOG.md"):
        yield Entry(f"usr/share/doc/{NAME}/{folder}", target=f"../../../lib/yollenka/{folder}")


def of_tar():
    """The files of the plain archive, by their paths."""
    top = f"{NAME}-{version()}"
    for entry in tree():
        yield entry._replace(path=f"{top}/{entry.path}")
    for name, page in man_pages().items():
        yield Entry(f"{top}/man/man1/{name}.1", page.encode())
    for name, text in completions().items():
        yield Entry(f"{top}/completions/{name}", text.encode())


def folders_of(entries):
    """All folders above these files."""
    return {str(parent) for entry in entries for parent in Path(entry.path).parents if str(parent) != "."}


def archive(entries, when, prefix=""):
    """A tar archive of these entries and the folders above them."""
    whole = [*(Entry(path, mode=0) for path in folders_of(entries)), *entries]
    into = io.BytesIO()
    with tarfile.open(fileobj=into, mode="w", format=tarfile.GNU_FORMAT) as tar:
        for entry in sorted(whole, key=lambda entry: entry.path):
            tar.addfile(header(entry, when, prefix), io.BytesIO(entry.content))
    return packed(into.getvalue())


def header(entry, when, prefix):
    """An entry's header: a folder has the mode 0 in its entry."""
    found = tarfile.TarInfo(prefix + entry.path)
    found.mtime, found.uname, found.gname = when, "root", "root"
    found.mode, found.size = entry.mode or 0o755, len(entry.content)
    if entry.target:
        found.type, found.linkname, found.mode = tarfile.SYMTYPE, entry.target, 0o777
    elif entry.mode == 0:
        found.type = tarfile.DIRTYPE
    return found


def member(name, content, when):
    """A member of an `ar` archive."""
    head = f"{name:<16}{when:<12}{0:<6}{0:<6}{100644:<8}{len(content):<10}`\n".encode()
    return head + content + b"\n" * (len(content) % 2)


def debian(entries, when):
    """The Debian package of these entries."""
    size = sum(len(entry.content) + 512 for entry in entries) // 1024
    control = CONTROL.format(name=NAME, version=version(), size=size)
    sums = "".join(f"{hashlib.md5(entry.content).hexdigest()}  {entry.path}\n"
                   for entry in sorted(entries, key=lambda entry: entry.path) if not entry.target)
    about = [Entry("control", control.encode()), Entry("md5sums", sums.encode())]
    members = (("debian-binary", b"2.0\n"), ("control.tar.gz", archive(about, when, "./")), ("data.tar.gz", archive(entries, when, "./")))
    return b"!<arch>\n" + b"".join(member(*one, when) for one in members)


def write(folder):
    """Makes both forms in a folder; gives their paths with what they hold."""
    require_clean()
    when, made = int(git("log", "-1", "--format=%ct")), version()
    for form, suffix in ((of_debian, "deb"), (of_tar, "tar.gz")):
        entries = list(form())
        content = debian(entries, when) if suffix == "deb" else archive(entries, when)
        path = folder / f"{NAME}_{made}_amd64.{suffix}"
        path.write_bytes(content)
        yield path, entries, hashlib.sha256(content).hexdigest()
