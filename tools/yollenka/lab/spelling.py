"""Words for values: a bit, a method, a condition, an object of a list."""
import re

from yollenka.faults import Fault
from yollenka.model.objects import Fault as ListFault
from yollenka.model.objects import entries, tag_bytes, tag_text
from yollenka.refusals import near
from yollenka.words import COND, CVM, TAGS

HEXADECIMAL = re.compile(r"(?:[0-9A-Fa-f]{2})*")
REPEATED = re.compile(r"([0-9A-Fa-f]{2})\*([0-9]{1,3})")
# Short names beside those of the Books: methods and conditions of cardholder verification (Book 3 Annex C3).
METHODS = {
    "fail": 0x00, "plaintext pin": 0x01, "online pin": 0x02, "plaintext pin and signature": 0x03, "enciphered pin": 0x04,
    "enciphered pin and signature": 0x05, "signature": 0x1E, "no cvm": 0x1F,
}
CONDITIONS = {
    "always": 0, "unattended cash": 1, "not cash and not cashback": 2, "supported": 3, "manual cash": 4, "cashback": 5,
    "under x": 6, "over x": 7, "under y": 8, "over y": 9,
}
ALL_METHODS = {name.lower(): code for code, name in CVM.items()} | METHODS
ALL_CONDITIONS = {name.lower().removeprefix("if "): code for code, name in COND.items()} | CONDITIONS
RULE = re.compile(r"(?P<method>.+?)(?: if (?P<condition>.+?))?(?: else (?P<otherwise>\w+))?")
NEXT = 0x40
# How many bytes an object has where a list doesn't say.
LENGTHS = {
    "8A": 2, "91": 10, "95": 5, "9A": 3, "9B": 2, "9C": 1, "5F2A": 2, "9F02": 6, "9F03": 6, "9F09": 2, "9F1A": 2, "9F1C": 8,
    "9F21": 3, "9F33": 3, "9F34": 3, "9F35": 1, "9F37": 4,
}


def known(word, table, what):
    """What a word stands for in a table, whatever its case."""
    if not isinstance(word, str) or word.lower() not in table:
        raise Fault(f"the {what} '{word}' is not known{near(str(word).lower(), table)}")
    return table[word.lower()]


def hexadecimal(value, what, sizes=range(257)):
    """Bytes that are written in hexadecimal, as capitals; blanks may stand between, and 00*9 is nine bytes 00."""
    text = REPEATED.sub(lambda found: found[1] * int(found[2]), value).replace(" ", "") if isinstance(value, str) else None
    if text is None or not HEXADECIMAL.fullmatch(text) or len(text) // 2 not in sizes:
        wanted = f"{sizes[0]}" if len(sizes) == 1 else f"{sizes[0]} to {sizes[-1]}"
        raise Fault(f"the {what} is {value!r}, and should be {wanted} bytes in hexadecimal")
    return text.upper()


def bits(value, table, size, what):
    """Bits in hexadecimal: as they stand, or a list of words of the table, or of byte and bit as '2.5'."""
    if isinstance(value, str):
        return hexadecimal(value, what, range(size, size + 1))
    if not isinstance(value, list):
        raise Fault(f"the {what} is {value!r}, and should be a list of words or {size} bytes in hexadecimal")
    by_name = {name.lower(): place for place, name in table.items() if name != "reserved"}
    number = 0
    for word in value:
        found = re.fullmatch(rf"([1-{size}])\.([1-8])", word) if isinstance(word, str) else None
        byte, bit = map(int, found.groups()) if found else divmod(known(word, by_name, f"bit of the {what}"), 10)
        number |= 1 << 8 * (size - byte) + bit - 1
    return f"{number:0{2 * size}X}"


def bit_words(text, table, size):
    """The words of the bits that are set; the bytes themselves where one of them has no name."""
    data = bytes.fromhex(text)
    places = [10 * byte + bit for byte in range(1, size + 1) for bit in range(8, 0, -1) if data[byte - 1] >> bit - 1 & 1]
    return [table[place] for place in places] if all(table.get(place, "reserved") != "reserved" for place in places) else text


def coded(word, table, what):
    """A byte by its name or by two hexadecimal digits."""
    if re.fullmatch("[0-9A-Fa-f]{2}", word):
        return int(word, 16)
    return known(word, table, what)


def rule(text):
    """A rule of cardholder verification as its two bytes."""
    found = RULE.fullmatch(text) if isinstance(text, str) else None
    if not found:
        raise Fault(f"the rule {text!r} should be 'METHOD if CONDITION else next'")
    method, condition, otherwise = found.group("method", "condition", "otherwise")
    ends = known(otherwise or "fail", {"next": NEXT, "fail": 0}, "word behind else")
    return bytes([coded(method, ALL_METHODS, "method") | ends, coded(condition or "always", ALL_CONDITIONS, "condition")])


def rule_words(method, condition):
    """A rule of two bytes in words."""
    methods, conditions = ({code: name for name, code in table.items()} for table in (METHODS, CONDITIONS))
    ends = "next" if method & NEXT else "fail"
    return f"{methods.get(method & ~NEXT, f'{method & ~NEXT:02X}')} if {conditions.get(condition, f'{condition:02X}')} else {ends}"


def tag(word):
    """A tag in hexadecimal, as capitals."""
    if not isinstance(word, str) or not re.fullmatch("(?:[0-9A-Fa-f]{2}){1,3}", word):
        raise Fault(f"the tag {word!r} should be one to three bytes in hexadecimal")
    return word.upper()


def object_list(value, what):
    """A list of objects in hexadecimal: as it stands, or each as 'TAG' or 'TAG LENGTH'."""
    if isinstance(value, str):
        return hexadecimal(value, what)
    if not isinstance(value, list):
        raise Fault(f"the {what} is {value!r}, and should be a list of tags")
    made = ""
    for word in value:
        name, _, length = str(word).partition(" ")
        length = length or LENGTHS.get(tag(name))
        if length is None or not str(length).isdigit() or int(length) > 255:
            raise Fault(f"{what}: {word!r} needs a length from 0 to 255, as '{name} 4'{object_hint(name)}")
        made += f"{tag(name)}{int(length):02X}"
    return made


def object_hint(name):
    """The name of the object with this tag, or what tag may be meant."""
    its = TAGS.get(name.lower())
    return f" ({its[0]})" if its else near(name, LENGTHS)


def list_words(text):
    """A list of objects in words; its bytes where it can't be read."""
    try:
        found = entries(bytes.fromhex(text))
    except ListFault:
        return text
    words = [(tag_text(one).upper(), length) for one, length in found]
    listed = [name if LENGTHS.get(name) == length else f"{name} {length}" for name, length in words]
    same = all(tag_bytes(one).hex().upper() == name for (one, _), (name, _) in zip(found, words))
    return listed if same and object_list(listed, "list") == text.upper() else text
