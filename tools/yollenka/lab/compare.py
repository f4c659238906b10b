"""How two commands of one kind differ: their frames, and then object by object along the card's list."""
from typing import NamedTuple

from yollenka.lab.emv import BITS, bit_texts, data_of, fields, has_bit, object_name
from yollenka.lab.permitted import authenticates, excuses
from yollenka.lab.verdict import OPEN, PERMITTED, WRONG
from yollenka.model.objects import DICTIONARY, first, is_constructed, objects, spelled

AMOUNTS, UNPREDICTABLE, RESULTS, STATUS = (0x9F02, 0x9F03), 0x9F37, 0x95, 0x9B
CDA, ENCIPHERED_PIN = 0x10, 0xDF11
AUTHENTICATED = 0x80


class Difference(NamedTuple):
    """One difference: its kind (as a finding's), what it is in words, lines about it, the section. `bits` are those of the
    verification results that differ; `is_kind` tells that the kind of cryptogram differs."""

    kind: str
    text: str
    details: tuple = ()
    section: str = ""
    bits: int = 0
    is_kind: bool = False


def details_of(tag, at, sent, wanted):
    """The lines about an object that differs."""
    place = f"byte {at}" if len(sent) == 1 else f"bytes {at}-{at + len(sent) - 1}"
    yield f"{place}: {object_name(tag)} is {sent.hex()}, wanted {wanted.hex()}"
    if tag in BITS and len(sent) == len(wanted):
        yield from (f"    {text}" for text in bit_texts(tag, sent, wanted))


def object_difference(scene, tag, at, sent, wanted):
    """The difference in an object of a list whose rules don't depend on the list."""
    details = tuple(details_of(tag, at, sent, wanted))
    if tag not in DICTIONARY and not is_constructed(tag):
        return Difference(PERMITTED, f"{object_name(tag)} isn't compared: the reference doesn't have it", (), "Book 3, 5.4")
    if tag == RESULTS and len(sent) == 5:
        return results_difference(scene, sent, wanted, details)
    if tag == STATUS and sent[:1] != wanted[:1] and (sent[0] ^ wanted[0]) == AUTHENTICATED and authenticates(scene):
        return Difference(OPEN, "offline data authentication, which the reference doesn't perform", details, "Book 3, 10.3")
    excuse = next((one for one in excuses(scene) if tag in one.tags), None)
    if excuse:
        return Difference(excuse.kind, excuse.text, details, excuse.section)
    return Difference(WRONG, object_name(tag), details)


def results_difference(scene, sent, wanted, details):
    """The difference in the verification results: excused where each bit of it is."""
    bits, used = int.from_bytes(sent) ^ int.from_bytes(wanted), []
    left = bits
    for one in excuses(scene):
        if left & one.bits:
            used.append(one)
            left &= ~one.bits
    if left:
        return Difference(WRONG, object_name(RESULTS), details, "", bits)
    return Difference(used[0].kind, "; ".join(one.text for one in used), details, used[0].section, bits)


def eased(one):
    """The difference that an object of a list 9F38 may have, or None: an amount that isn't known yet, a number of its own."""
    if one.tag in AMOUNTS and not any(one.value):
        return Difference(PERMITTED, f"{object_name(one.tag)} is zeros here", (), "Book 3, 5.4")
    if one.tag == UNPREDICTABLE:
        return Difference(PERMITTED, f"{object_name(one.tag)} is another one here", (), "Book 4, 6")
    return None


def data_differences(scene, list_, begin, sent, wanted):
    """The differences of two commands' data along a list; `begin` is the place of their first byte in the command."""
    ones, others = fields(list_, sent), fields(list_, wanted)
    if ones is None or others is None:
        yield Difference(WRONG, f"{len(sent)} bytes of data, wanted {len(wanted)}")
        return
    for one, other in zip(ones, others):
        if one.value != other.value:
            is_early = list_ is scene.said.list_
            yield is_early and eased(one) or object_difference(scene, one.tag, begin + one.at, one.value, other.value)


def frame_differences(sent, wanted, is_byte_protocol):
    """The differences of what stands around the data, but for P1."""
    if sent[:2] + sent[3:4] != wanted[:2] + wanted[3:4]:
        yield Difference(WRONG, f"the header is {sent[:4].hex()}, wanted {wanted[:4].hex()}")
    if sent[4:5] != wanted[4:5]:
        yield Difference(WRONG, f"Lc is {sent[4:5].hex()}, wanted {wanted[4:5].hex()}")
    behind, asked = sent[5 + len(data_of(sent)) :], wanted[5 + len(data_of(wanted)) :]
    if behind != asked and sent[4:5] == wanted[4:5]:
        if behind or not asked:
            yield Difference(WRONG, f"Le is {behind.hex() or 'not there'}, wanted {asked.hex() or 'none'}")
        elif not is_byte_protocol:
            yield Difference(PERMITTED, "Le isn't in the log")


def kind_differences(scene, sent, wanted):
    """The difference in P1 of GENERATE AC, if there is one."""
    combines = has_bit(scene.said.profile, 11) and has_bit(scene.caps(), 34)
    if sent ^ wanted == CDA and combines:
        yield Difference(OPEN, "a cryptogram with CDA, which the reference doesn't ask for", (), "Book 3, 10.3")
    elif sent & 0xC0 == wanted & 0xC0 and sent != wanted:
        yield Difference(WRONG, f"P1 is {sent:02x}, wanted {wanted:02x}")
    elif sent != wanted:
        yield Difference(WRONG, "the kind of cryptogram", is_kind=True)


def generate_differences(scene, list_, sent, wanted, is_byte_protocol):
    """How two commands GENERATE AC differ."""
    found = [*kind_differences(scene, sent[2], wanted[2]), *frame_differences(sent, wanted, is_byte_protocol)]
    if len(data_of(sent)) == sent[4] or data_of(sent) != data_of(wanted):
        found += data_differences(scene, list_, 5, data_of(sent), data_of(wanted))
    return found


def options_differences(scene, sent, wanted, is_byte_protocol):
    """How two commands GET PROCESSING OPTIONS differ."""
    found = list(frame_differences(sent, wanted, is_byte_protocol))
    if sent[2] != wanted[2]:
        found.append(Difference(WRONG, f"P1 is {sent[2]:02x}, wanted {wanted[2]:02x}"))
    ones, others = (objects(data_of(one))[0] for one in (sent, wanted))
    if len(ones) != 1 or ones[0].tag != 0x83:
        return [*found, Difference(WRONG, "the data are no template 83")] if data_of(sent) != data_of(wanted) else found
    return [*found, *data_differences(scene, scene.said.list_, 5 + ones[0].at, ones[0].value, others[0].value)]


def message_differences(scene, sent, wanted, knows_pins):
    """How two messages to the host in this project's form differ, object by object."""
    inner = (objects(first(objects(one)[0], 0xE1) or b"")[0] for one in (sent, wanted))
    ones, others = ([one for one in found if knows_pins or one.tag != ENCIPHERED_PIN] for found in inner)
    if [one.tag for one in ones] != [one.tag for one in others] or not ones:
        yield Difference(WRONG, "the message to the host has other objects")
        return
    pairs = [(one, other) for one, other in zip(ones, others) if one.value != other.value]
    begin = sent.find(spelled(ones[0].tag, ones[0].value))
    for one, other in pairs:
        if one.tag == ENCIPHERED_PIN:
            yield Difference(WRONG, object_name(one.tag), tuple(details_of(one.tag, begin + one.at, one.value, other.value)))
        else:
            yield object_difference(scene, one.tag, begin + one.at, one.value, other.value)
    if not pairs and knows_pins:
        yield Difference(WRONG, "the message to the host is spelled in another way")
