"""Which version this is: the nearest tag of a clone, or what stands in the file VERSION of an installed tree."""
import os
import subprocess

from yollenka.seals import ROOT, text_of

NONE = "0.0.0"


def first_line(words):
    """What a command prints first in the repository; an empty text where it is missing or fails."""
    try:
        ended = subprocess.run(words, cwd=ROOT, stdin=subprocess.DEVNULL, capture_output=True, text=True)
    except OSError:
        return ""
    return ended.stdout.split("\n")[0] if ended.returncode == 0 else ""


def version():
    """The tag, with the commits since; without a tag 0.0.0 with the commit, and without a clone that of the package."""
    kept = text_of(os.path.join(ROOT, "VERSION")).strip()
    if kept:
        return kept
    tagged = first_line(["git", "describe", "--tags", "--match", "v[0-9]*", "--dirty"])
    if tagged:
        return tagged.removeprefix("v").replace("-", "+", 1)
    commit = first_line(["git", "rev-parse", "--short", "HEAD"])
    return f"{NONE}+{commit}" if commit else NONE


def told():
    """The version and the day of its commit, for people."""
    day = first_line(["git", "log", "-1", "--format=%cs"]) if not os.path.exists(os.path.join(ROOT, "VERSION")) else ""
    return f"version {version()}" + (f" of {day}" if day else "")
