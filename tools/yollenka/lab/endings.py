"""How the end of a purchase, as a log tells it, differs from the reference's."""
import re

from yollenka.lab.emv import bit_texts

WORDS = ("approved", "declined", "terminated", "cut")
FLAGS = {"tvr": 0x95, "tsi": 0x9B}


def parts_of(text):
    """The words of an ending, and its fields by name."""
    words = text.split()
    pairs = dict(word.split("=", 1) for word in words if "=" in word)
    return [word for word in words if "=" not in word], pairs


def field_details(name, sent, wanted):
    """The lines about a field that differs: bits where it has bits."""
    if name in FLAGS and re.fullmatch(r"(?:[0-9a-fA-F]{2})+", sent) and len(sent) == len(wanted):
        return tuple(bit_texts(FLAGS[name], bytes.fromhex(sent), bytes.fromhex(wanted)))
    return ()


def end_differences(told, wanted, left_out):
    """For each difference its words and its details. Fields that aren't told aren't compared; of a terminated or cut end none
    is, nor its cause. `left_out` are fields that aren't compared."""
    words, fields = parts_of(told)
    others, values = parts_of(wanted)
    is_decided = others[0] in ("approved", "declined")
    count = len(words) if is_decided else 1
    if words and words[:count] != others[:count]:
        return [(f"the end is told as {' '.join(words)}, wanted {' '.join(others)}", ())]
    found = []
    for name, value in fields.items() if is_decided else ():
        if name in left_out or values.get(name) == value or name != "arc" and values.get(name) == value.lower():
            continue
        text = f"the end is told with {name} {value}, wanted {values.get(name, 'no such field')}"
        found.append((text, field_details(name, value, values.get(name, ""))))
    return found
