"""The short text over an arrow: what a line of a report or a log carries, by the words that `explain` puts below it."""
import re

TAG = re.compile(r"  ([0-9A-F]{2,6}) [A-Z][^:]*(?:: ?(.*))?$")
ASKED = re.compile(r"asks for (TC|ARQC|AAC)")
CODE = re.compile(r"  (?:8A [^:]*|field 39 [^:]*): (..)")


def command(words):
    """What a command or a message is, without its data."""
    first = words[0].strip() if words else ""
    asked = ASKED.search(first)
    name = re.split(":|, the ", first)[0]
    if name.startswith("GET DATA "):
        name = " ".join(name.split()[:3])
    return f"{name} {asked[1]}" if asked else name


def told(tag, value):
    """An object of an answer: its tag, and of some what they say."""
    first = value.split(",")[0]
    if tag == "82":
        return f"AIP {first}"
    if tag == "94":
        return f"AFL {value}".rstrip()
    if tag == "9F27":
        return value.split(", ")[1] if ", " in value else value
    if tag == "9F36":
        return f"counter {first}"
    return tag


def answer(text, words):
    """What an answer carries: its status and its objects."""
    objects = [told(found[1], found[2] or "") for found in map(TAG.match, words) if found]
    # A cryptogram's kind and counter are enough of its answer.
    if any(part.startswith("counter ") for part in objects) and len(objects) > 1:
        objects = [part for part in objects if not re.fullmatch("9F26|9F10", part)]
    return " ".join([text[-4:].upper(), *objects])


def reply(words):
    """What the issuer replies: its code."""
    found = next(filter(None, map(CODE.match, words)), None)
    return f"reply {found[1]}" if found else "reply"
