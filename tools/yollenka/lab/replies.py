"""What a walk has to make itself: the host's reply, from what the terminal does behind it; and why it goes on where the reference
has ended."""
from yollenka.lab.emv import GENERATE, data_of, fields
from yollenka.lab.verdict import OPEN, OWN, WRONG
from yollenka.model.objects import spelled

EXTERNAL, APPROVED, DECLINED = b"\x00\x82", b"00", b"05"
UNABLE = (b"Y3", b"Z3")
# No commands of scripts: what a terminal may read on its way.
READS = (b"\x80\xca", b"\x00\xb2", b"\x00\xa4", b"\x00\x20", b"\x00\x84")
GOOD = (0x90, 0x62, 0x63)
SCRIPTS_BEFORE, SCRIPTS_AFTER = 0x71, 0x72


def second_values(rest, card):
    """The place of the second GENERATE AC in what follows, or None, and the values in its data by tag."""
    at = next((at for at, one in enumerate(rest) if one.sent[:2] == GENERATE), None)
    told = fields(card.held.get(0x8D, b""), data_of(rest[at].sent)) if at is not None else None
    return at, {one.tag: one.value for one in told or ()}


def scripts(tag, exchanges):
    """Script templates with these commands; one ends behind a command that failed."""
    found, commands = b"", b""
    for one in exchanges:
        if one.sent[:2] in READS or one.sent[:2] == EXTERNAL:
            continue
        commands += spelled(0x86, one.sent)
        if (one.got or b"\0")[0] not in GOOD:
            found, commands = found + spelled(tag, commands), b""
    return found + (spelled(tag, commands) if commands else b"")


def code_of(rest, at, values):
    """The response code: as the second GENERATE AC has it, else as its kind says."""
    if len(values.get(0x8A, b"")) == 2:
        return values[0x8A]
    return APPROVED if at is None or rest[at].sent[2] & 0xC0 else DECLINED


def made(rest, card):
    """The reply of a host that leads to what follows, or None where none came; and how it was made, in words."""
    at, values = second_values(rest, card)
    code = code_of(rest, at, values)
    if code in UNABLE:
        return None, f"unable to go online: 8A of the second GENERATE AC is {code.decode()}"
    before, after = (rest, []) if at is None else (rest[:at], rest[at + 1 :])
    handed = next((data_of(one.sent) for one in before if one.sent[:2] == EXTERNAL), values.get(0x91, b""))
    authentication = spelled(0x91, handed) if any(handed) and 8 <= len(handed) <= 16 else b""
    ran = scripts(SCRIPTS_BEFORE, before) + scripts(SCRIPTS_AFTER, after)
    body = spelled(0x8A, code) + authentication + ran
    parts = [f"8A {code.decode('latin1')!r}"] + ["91"] * bool(authentication) + ["scripts"] * bool(ran)
    return spelled(0xE2, body), f"the host's reply, made from what follows: {', '.join(parts)}"


def going_on(ending, card, lane):
    """Of what kind it is that a terminal goes on where the reference has ended so, with why and the section."""
    if ending.startswith(("terminated read value", "terminated read dol")):
        return OPEN, ", and what a terminal does with a wrong value is its own", "Book 3, 7"
    if ending == "terminated initiate afl 0" and not card.locator:
        return OWN, ": that the locator must not be empty is this project's choice", "INIT-7"
    if ending == "terminated read too-much":
        return OWN, ": how much a card may give is this project's choice", "READ-5"
    if ending == "terminated select no-candidate" and lane.get("pse"):
        return OWN, ": that the list doesn't come back behind the directory is this project's choice", "SEL-7"
    return WRONG, "", ""
