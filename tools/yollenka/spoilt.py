"""What is wrong with a text that stands in a document, in words: for people, beside the form that it has to have."""
import re

HEX = re.compile(r"\^(?:\(\?!.*?\))?\(\[0-9A-Fa-f\]\{2\}\)")
ENTRY = re.compile(r"(?:> |< |host > |host < )(?:[0-9a-f]{2})+|(?:host )?[<>] -|< gone|host < none|end .*", re.DOTALL)
LANE = re.compile(r"(?:[LS]\d+|A) ")
ENTRIES = "entries begin with `> `, `< `, `host > `, `host < ` or `end `"


def bytes_fault(text):
    """What is wrong with bytes in hexadecimal; None where it is their number, or nothing."""
    other = re.search("[^0-9A-Fa-f]", text)
    if other:
        return f"{other[0]!r} is no hexadecimal digit"
    return f"{len(text)} digits are an odd number" if len(text) % 2 else None


def entry_fault(text):
    """What is wrong with an entry of a trace; None where that isn't known."""
    if ENTRY.fullmatch(text):
        return None
    if LANE.match(text):
        return "an entry has no lane in front"
    if text.endswith(" torn") or text == "torn":
        return "a terminal sees a card that is pulled out as gone: `< gone`"
    if ENTRY.fullmatch(text.lower()):
        return "digits are small letters"
    if ENTRY.fullmatch(" ".join(text.split())):
        return "there is one blank where an entry has one, and none before it or behind it"
    kind = re.match("(?:host )?[<>] ?", text)
    if kind is None:
        return ENTRIES
    held = text[kind.end() :]
    if re.search(r"\s", held):
        return "bytes have no blanks between them"
    return bytes_fault(held) or "digits are small letters" if held else "no bytes at all are `-`"


def fault_of(pattern, name, text):
    """What is wrong with a text that has to keep a pattern of the schema, by its key; None where it is told by the form."""
    if name == "trace":
        return entry_fault(text)
    return bytes_fault(text) if HEX.match(pattern) else None
