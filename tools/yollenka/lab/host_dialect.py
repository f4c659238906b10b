"""Messages and replies as a host takes them: as one object, or in the style of ISO 8583."""
from yollenka.respell import Unreadable, call_to_iso, call_to_tlv, reply_to_iso, reply_to_tlv

OBJECT, ISO = "object", "iso"
DIALECTS = (OBJECT, ISO)
UNREADABLE = (Unreadable, ValueError, LookupError)


def in_dialect(message, is_iso):
    """A message of a terminal, which is one object, as a host takes it that speaks this dialect."""
    return call_to_iso(message)[1] if is_iso else message


def as_object(message, reply, is_iso):
    """The one object that a reply to a message is; where it can't be read, itself. The message is one object."""
    if not is_iso or reply is None:
        return reply
    try:
        kind = call_to_iso(message)[0]
        read = reply_to_tlv(kind, reply)
        return read if reply_to_iso(kind, read) == reply else reply
    except UNREADABLE:
        return reply


def shown_in(message, reply, is_iso):
    """A reply, which is one object or can't be read, as the report of a lane of this dialect has it."""
    try:
        return reply_to_iso(call_to_iso(message)[0], reply) if is_iso and reply is not None else reply
    except UNREADABLE:
        return reply


def delivered(link, ask):
    """The reply that comes back over a purchase's link; `ask` hands the message to the host once, and gives its reply."""
    replies = [ask() for _ in range({"request_lost": 0, "twice": 2}.get(link, 1))]
    return replies[0] if replies and link != "reply_lost" else None


def message_in(data):
    """The one object that a message is, whichever dialect it has; None where it can't be read."""
    try:
        return call_to_tlv(data)[1] if data[:1] == b"0" else data
    except UNREADABLE:
        return None
