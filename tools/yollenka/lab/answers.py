"""Two answers to a command side by side, object by object."""
from yollenka.lab.emv import KINDS, fields, object_name, primitives
from yollenka.model.objects import objects, only, tag_text
from yollenka.words import TAGS

# Objects whose value is told as a number too.
NUMBERS = (0x9F36, 0x9F13, 0x9F17)
# The objects of an answer of format 1, with their lengths; the last one takes the rest.
FORMAT_1 = {b"\x80\xa8": ((0x82, 2), (0x94, None)), b"\x80\xae": ((0x9F27, 1), (0x9F36, 2), (0x9F26, 8), (0x9F10, None))}
LONG = 12
# The rows of a log, in the files from 11 on, have no tags (docs/proof/formats.md).
READ, FIRST_OF_LOGS, LOG_FORMAT = b"\x00\xb2", 11, bytes.fromhex("9F02065F2A029A039F36029F2701")


def values_of(command, body):
    """The objects of an answer's body with their values, in their order; None where it can't be read whole."""
    outer = only(body, 0x80)
    if outer is not None and command[:2] in FORMAT_1:
        found, left = [], outer.value
        for tag, size in FORMAT_1[command[:2]]:
            found.append((tag, left[:size]))
            left = left[size:] if size else b""
        return found
    if command[:2] == READ and len(command) > 3 and command[3] >> 3 >= FIRST_OF_LOGS and (row := fields(LOG_FORMAT, body)):
        return [(one.tag, one.value) for one in row]
    return None if objects(body)[1] is not None else [(one.tag, one.value) for one in primitives(body)]


def shown(tag, value):
    """A value for people."""
    text = value.hex().upper() or "empty"
    if tag == 0x9F27 and len(value) == 1:
        return f"{text} ({KINDS[value[0] & 0xC0]})"
    if tag in NUMBERS:
        return f"{text} ({int.from_bytes(value)})"
    if TAGS.get(tag_text(tag), ("", ""))[1] == "a":
        return f"{text} ({value.decode('ascii', 'replace')})"
    return text


def first_difference(one, other):
    """The place of the first byte, from 1, in which two values differ."""
    same = next((at for at, (a, b) in enumerate(zip(one, other)) if a != b), min(len(one), len(other)))
    return same + 1


def object_texts(got, wanted):
    """A line for each object that isn't as it should be."""
    left = list(got)
    for tag, value in wanted:
        its = next((one for one in left if one == (tag, value)), None) or next((one for one in left if one[0] == tag), None)
        if its is None:
            yield f"{object_name(tag)} is missing, should be {shown(tag, value)}"
            continue
        left.remove(its)
        if its[1] != value:
            place = f", from byte {first_difference(its[1], value)}" if len(value) >= LONG else ""
            yield f"{object_name(tag)} is {shown(*its)}, should be {shown(tag, value)}{place}"
    yield from (f"{object_name(tag)} should not be there, and is {shown(tag, value)}" for tag, value in left)


def byte_text(got, wanted):
    """The first byte of two bodies that differ without a difference of an object."""
    at = first_difference(got, wanted)
    one, other = (f"{body[at - 1]:02X}" if at <= len(body) else "missing" for body in (got, wanted))
    return f"byte {at} of {len(got)} is {one}, should be {other}, of {len(wanted)}"


def differences(command, got, wanted):
    """What is wrong with an answer to this command, as lines; none where it is the wanted one."""
    found = []
    if got[-2:] != wanted[-2:]:
        found.append(f"status is {got[-2:].hex().upper() or 'missing'}, should be {wanted[-2:].hex().upper()}")
    bodies = got[:-2], wanted[:-2]
    if bodies[0] == bodies[1] or not bodies[0] and found:
        return found
    values = [values_of(command, body) for body in bodies]
    texts = list(object_texts(*values)) if None not in values else []
    if not texts:
        same = "its objects are the same, coded otherwise: " if None not in values else ""
        texts = [same + byte_text(*bodies)]
    return found + texts
