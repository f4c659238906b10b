"""The terminal up to the card's data: selection (EMV 4.3 Book 1 section 12), initiation, reading (Book 3 section 10.1, 10.2).

A step is a generator: it yields its name with a command, and is sent the answer, or None where the card is gone.
"""
from typing import NamedTuple

from .objects import (
    Fault, account_number, command, entries, filled, first, going, has_digits, is_constructed, is_date, objects, only,
    spelled, tag_text, total,
)

DIRECTORY = b"1PAY.SYS.DDF01"
ATTEMPTS = 16
MOST_OBJECTS, MOST_BYTES, MOST_DATA = 512, 16_384, 252


class Terminated(Exception):
    """A dialogue that ends before its time: the step and the cause, as reports have them."""

    def __init__(self, step, cause):
        super().__init__(f"terminated {step} {cause}")


class CardGone(Exception):
    """No answer came to the command of this step."""

    def __init__(self, step):
        super().__init__(step)
        self.step = step


class Candidate(NamedTuple):
    """An application that may be chosen: its name, its priority indicator or None, the terminal's row for it."""

    name: bytes
    indicator: int | None
    row: dict


class Information(NamedTuple):
    """What file control information tells: of A5 the objects that stand directly in it."""

    name: bytes
    inner: list


def information_in(body):
    """The file control information that an answer's body is, or None."""
    outer = only(body, 0x6F)
    if outer is None:
        return None
    within, fault = objects(outer.value)
    name = first(within, 0x84)
    inner, deeper = objects(first(within, 0xA5) or b"")
    indicator = first(inner, 0x87)
    if fault is not None or deeper is not None or name is None or not 1 <= len(name) <= 16:
        return None
    return Information(name, inner) if indicator is None or len(indicator) == 1 else None


def answer_to(step, said):
    """The answer to a command."""
    answer = yield step, said
    if answer is None:
        raise CardGone(step)
    return answer


def ask(step, said):
    """The body and the status of the answer to a command."""
    answer = yield from answer_to(step, said)
    if not 2 <= len(answer) <= 258:
        raise Terminated(step, "answer")
    return answer[:-2], answer[-2:].hex()


def select(name, occurrence="00"):
    """SELECT of a name; occurrence 02 is the next one."""
    return command(f"00A404{occurrence}", name)


def belongs(name, row):
    """Whether a card's application is one of this row of the terminal's."""
    return name == row["name"] or name.startswith(row["name"]) and row["partial"]


def ordered(found, confirms):
    """Candidates without those that need a confirmation which the cardholder can't give, by priority; the first of a name counts."""
    kept = [one for at, one in enumerate(found) if one.name not in {before.name for before in found[:at]}]
    if not confirms:
        kept = [one for one in kept if not (one.indicator or 0) & 0x80]
    return sorted(kept, key=lambda one: (one.indicator or 0) & 0x0F or 16)


def list_of_candidates(rows):
    """The candidates by the terminal's own list, in the order found."""
    found = []
    for row in rows:
        for attempt in range(ATTEMPTS):
            body, status = yield from ask("select", select(row["name"], "02" if attempt else "00"))
            if status == "6a81":
                raise Terminated("select", "card-blocked")
            told = information_in(body) if status in ("9000", "6283") else None
            if told is None:
                break
            if status == "9000" and belongs(told.name, row):
                indicator = first(told.inner, 0x87)
                found.append(Candidate(told.name, indicator and indicator[0], row))
            if told.name == row["name"] or not told.name.startswith(row["name"]):
                break
    return found


def entries_of(record):
    """The name and the indicator of each entry in a record of a directory; None where it can't be read."""
    outer = only(record, 0x70)
    within, fault = objects(outer.value) if outer else ([], 0)
    parts = [objects(one.value) for one in within if one.tag == 0x61]
    if fault is not None or any(deeper is not None for _, deeper in parts):
        return None
    named = [(first(inner, 0x4F) or b"", first(inner, 0x87) or b"") for inner, _ in parts]
    return [(name, indicator[0] if len(indicator) == 1 else None) for name, indicator in named if 5 <= len(name) <= 16]


def directory_of_candidates(rows):
    """The candidates that the payment system directory names, in their order; none where there is none."""
    body, status = yield from ask("select", select(DIRECTORY))
    if status == "6a81":
        raise Terminated("select", "card-blocked")
    told = information_in(body) if status == "9000" else None
    file = (first(told.inner, 0x88) if told else None) or b""
    if len(file) != 1 or not 1 <= file[0] <= 10:
        return []
    found = []
    for number in range(1, 256):
        body, status = yield from ask("select", command(f"00B2{number:02X}{file[0] * 8 + 4:02X}"))
        if status == "6a83":
            break
        named = entries_of(body) if status == "9000" else None
        if named is None:
            return []
        for name, indicator in named:
            row = next((row for row in rows if belongs(name, row)), None)
            if row is not None and len({one.name for one in found}) < 16 and name not in {one.name for one in found}:
                found.append(Candidate(name, indicator, row))
    return found


def coding(body):
    """The least place of a fault among the objects and those directly in a template 77; 0 where there is none."""
    outer, fault = objects(body)
    deeper = [objects(one.value, one.at)[1] for one in outer if one.tag == 0x77]
    return min((place for place in [fault, *deeper] if place is not None), default=None)


def template_in(body, step):
    """The one template 77, or the one object 80, that an answer is."""
    place = coding(body)
    one = only(body, 0x77, 0x80)
    if place is not None or one is None:
        raise Terminated(step, f"coding {place or 0}")
    return one


def profile_and_locator(body):
    """The interchange profile and the file locator in an answer to GET PROCESSING OPTIONS."""
    one = template_in(body, "initiate")
    if one.tag == 0x80:
        if len(one.value) < 2:
            raise Terminated("initiate", "value 80")
        return one.value[:2], one.value[2:]
    inner = objects(one.value)[0]
    for tag in (0x82, 0x94):
        if first(inner, tag) is None:
            raise Terminated("initiate", f"missing {tag_text(tag)}")
    if len(first(inner, 0x82)) != 2:
        raise Terminated("initiate", "value 82")
    return first(inner, 0x82), first(inner, 0x94)


def check(locator):
    """A locator has whole groups, each with a file and records that there may be."""
    if not locator or len(locator) % 4:
        raise Terminated("initiate", "afl 0")
    for number, (file, begin, end, signed) in enumerate(zip(*[iter(locator)] * 4), 1):
        if file >> 3 in (0, 31) or begin == 0 or end < begin or signed > end - begin + 1:
            raise Terminated("initiate", f"afl {number}")


def list_data(list_bytes, name, step, card, terminal):
    """The data of an object list, which has to be readable and to ask for no more than a command holds."""
    try:
        wanted = entries(list_bytes)
    except Fault:
        raise Terminated(step, f"dol {name}") from None
    if total(wanted) > MOST_DATA:
        raise Terminated(step, f"dol {name}")
    return filled(wanted, card, terminal)


def initiate(list_bytes, terminal):
    """GET PROCESSING OPTIONS; the profile and the locator, or None where the card refuses the application."""
    data = list_data(list_bytes, "9f38", "initiate", {}, terminal)
    body, status = yield from ask("initiate", command("80A80000", spelled(0x83, data)))
    if status == "6985":
        return None
    if status != "9000":
        raise Terminated("initiate", f"status {status}")
    profile, locator = profile_and_locator(body)
    check(locator)
    return profile, locator


def chosen(candidates, terminal, standing):
    """The first candidate that is selected and lets itself be initiated: its row, the profile and the locator. The terminal's
    objects get its row; `standing` gives them with the marks."""
    for one in candidates:
        body, status = yield from ask("select", select(one.name))
        told = information_in(body) if status == "9000" else None
        if told is None:
            continue
        terminal |= {0x9F06: one.row["name"], 0x9F09: one.row["version"]}
        begun = yield from initiate(first(told.inner, 0x9F38) or b"", standing())
        if begun is not None:
            return one.row, *begun
    raise Terminated("select", "no-candidate")


def keep(held, tag, value):
    """Puts an object of the card into the map."""
    if tag in held:
        raise Terminated("read", f"repeated {tag_text(tag)}")
    if len(held) == MOST_OBJECTS or sum(map(len, held.values())) + len(value) > MOST_BYTES:
        raise Terminated("read", "too-much")
    held[tag] = value


def walk(data, offset, take):
    """Goes over the objects at any depth, an outer one before those in it; `take` gets those that hold no others."""
    for one in going(data, offset):
        if is_constructed(one.tag):
            walk(one.value, one.at, take)
        else:
            take(one.tag, one.value)


def gather(held, record):
    """Puts the objects of a record into the map; a record is one template 70."""
    outer = only(record, 0x70)
    try:
        if outer is None:
            walk(record, 0, lambda tag, value: None)
            raise Fault(0)
        walk(outer.value, outer.at, lambda tag, value: keep(held, tag, value))
    except Fault as fault:
        raise Terminated("read", f"coding {fault.place}") from None


def is_country(value):
    """Whether two bytes are three digits behind a 0."""
    return len(value) == 2 and has_digits(value) and value[0] < 0x10


def is_list(value):
    """Whether an object list can be read."""
    try:
        entries(value)
    except Fault:
        return False
    return True


# What is tried of the objects that are there, in this order.
RULES = {
    0x5A: account_number, 0x5F24: is_date, 0x5F25: is_date, 0x5F28: is_country,
    0x5F34: lambda value: len(value) == 1 and has_digits(value), 0x8C: is_list, 0x8D: is_list,
    0x8E: lambda value: len(value) >= 8 and len(value) % 2 == 0,
    0x9F07: lambda value: len(value) == 2, 0x9F08: lambda value: len(value) == 2,
    0x9F0D: lambda value: len(value) == 5, 0x9F0E: lambda value: len(value) == 5, 0x9F0F: lambda value: len(value) == 5,
    0x9F14: lambda value: len(value) == 1, 0x9F23: lambda value: len(value) == 1, 0x9F42: is_country,
}


def read(profile, locator):
    """Reads the records; the card's data objects by tag."""
    held = {}
    keep(held, 0x82, profile)
    keep(held, 0x94, locator)
    for file, begin, end, _ in zip(*[iter(locator)] * 4):
        for number in range(begin, end + 1):
            body, status = yield from ask("read", command(f"00B2{number:02X}{file & 0xF8 | 4:02X}"))
            if status != "9000":
                raise Terminated("read", f"status {status}")
            if file >> 3 <= 10:
                gather(held, body)
    for tag in (0x5F24, 0x5A, 0x8C, 0x8D):
        if tag not in held:
            raise Terminated("read", f"missing {tag_text(tag)}")
    for tag, is_good in RULES.items():
        if tag in held and not is_good(held[tag]):
            raise Terminated("read", f"{'dol' if is_good is is_list else 'value'} {tag_text(tag)}")
    return held
