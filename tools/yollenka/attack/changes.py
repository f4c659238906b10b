"""A change at a place of the code, as a reader of the rules could have it otherwise: another text for its line."""
import re
from collections import defaultdict

from yollenka.attack.places import BITS, BYTES, COMPARISON, CONSTANT, DEFAULT, OCCURRENCE, ORDER
from yollenka.programs import ROOT

COMPARED = {"<": "<=", "<=": "<", ">": ">=", ">=": ">", "==": "!=", "!=": "=="}
TURNED = {"true": "false", "false": "true", "&&": "||", "||": "&&"}
OTHER_OCCURRENCE = {"first": "last", "last": "first", "split_first": "split_last", "split_last": "split_first", "any": "all", "all": "any",
                    "find": "rfind", "rfind": "find"}
MASK = re.compile(r" (0x[0-9A-Fa-f]+|\d+)\b")


def one_more(text):
    """A constant that is one more, or one less where there is no room; of bytes the last one."""
    if text.startswith("b"):
        quote, inner = text[1], text[2:-1]
        return f"b{quote}{inner[:-1]}{chr(ord(inner[-1]) + 1)}{quote}" if inner[-1:].isalnum() and "\\" not in inner else None
    plain = text.replace("_", "")
    if not plain.startswith("0x"):
        return str(int(plain) - 1 if plain in ("255", "65535") else int(plain) + 1)
    number, digits = int(plain, 16), len(plain) - 2
    return f"0x{number - 1 if number == 16**digits - 1 else number + 1:0{digits}x}"


def more_bits(line, at):
    """A line in which the mask behind an operator has one bit more, or one less where it is full."""
    found = MASK.match(line, at)
    if not found:
        return None
    mask = int(found[1], 0)
    bit = next((1 << place for place in range(8) if not mask >> place & 1), 1)
    return f"{line[: found.start(1)]}{mask ^ bit:#04x}{line[found.end(1) :]}"


def other_bytes(place, line, at):
    """A line that has one byte more or less."""
    end = at + len(place.text)
    if place.text == "len" and line[end:].startswith("()"):
        return f"{line[:end]}() + 1{line[end + 2 :]}"
    if place.text == "..=":
        return f"{line[:at]}..{line[end:]}"
    if place.text == ".." and re.match(r"\w", line[end:]):
        return f"{line[:at]}..={line[end:]}"
    return None


def changed(place, line):
    """The line with the change of this place; None where there is none that is sure to be a text."""
    at, end = place.column - 1, place.column - 1 + len(place.text)
    new = None
    if place.kind == COMPARISON:
        new = COMPARED.get(place.text)
    elif place.kind == CONSTANT:
        # The length of an array is its type's too.
        is_length = line[:at].endswith("; ") and line[end:].startswith("]")
        new = None if is_length else one_more(place.text)
    elif place.kind in (DEFAULT, ORDER):
        new = TURNED.get(place.text)
    elif place.kind == OCCURRENCE:
        new = OTHER_OCCURRENCE.get(place.text)
    elif place.kind == BITS:
        return more_bits(line, end)
    elif place.kind == BYTES:
        return other_bytes(place, line, at)
    return None if new is None else line[:at] + new + line[end:]


def line_of(place):
    """The line of a place as it stands."""
    return (ROOT / place.path).read_text().splitlines()[place.line - 1]


def can_change(place):
    """Whether there is a change at a place."""
    line = line_of(place)
    return changed(place, line) not in (None, line)


def apply(places, tree):
    """Makes the changes of these places, of different lines, in a copy of the repository."""
    by_path = defaultdict(list)
    for place in places:
        by_path[place.path].append(place)
    for path, each in by_path.items():
        lines = (tree / path).read_text().split("\n")
        for place in each:
            lines[place.line - 1] = changed(place, lines[place.line - 1])
        (tree / path).write_text("\n".join(lines))


def told(place):
    """What a change is, in two lines."""
    line = line_of(place)
    return f"- {line.strip()}\n+ {changed(place, line).strip()}"
