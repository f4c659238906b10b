"""What a terminal wants where a trace differs, by the program `terminal_at_reader`."""
import subprocess

from yollenka.builds import kept

NAME = "terminal_at_reader"
# What its lines begin with that ask something, or end the dialogue.
ASKS = ("> ", "host > ", "end ")
WHY = "`./lab judge TRACE` says why"
WHAT_AND_WHY = "`./lab judge TRACE` says what was wanted there, and why"


def document_of(text):
    """A trace as its terminal's document and its entries; None where Python doesn't read it."""
    try:
        import tomllib
        from yollenka.scenarios import document
        trace = tomllib.loads(text.decode("utf-8-sig"))
    except (ImportError, ValueError, RecursionError):
        return None
    entries = trace.pop("trace")
    return document(trace), entries


def asked(program, terminal, replies):
    """What the terminal asks one after the other, with these replies in between."""
    lines = b"".join(reply.encode() + b"\n" for reply in replies)
    ended = subprocess.run([program], input=b"document %d\n%s%s" % (len(terminal), terminal, lines), capture_output=True)
    return [line for line in ended.stdout.decode(errors="replace").splitlines() if line.startswith(ASKS)]


def wanted(program, text, place):
    """What a trace has to have as this entry, from 0; None where that can't be told."""
    found = document_of(text)
    if found is None:
        return None
    terminal, entries = found
    asks = asked(program, terminal, entries[1:place:2])
    if place // 2 >= len(asks):
        return None
    ask = asks[place // 2]
    if place % 2 == 0:
        return ask
    if ask.startswith("end "):
        return "nothing, since the purchase is over"
    return "the card's answer, `< ..`" if ask.startswith("> ") else "the host's reply, `host < ..`"


def told(text, answer):
    """What is to be said below an answer to a trace: nothing where it doesn't differ."""
    words = answer.split()
    if words[:2] != [b"check", b"differs"]:
        return []
    found = kept(NAME)
    entry = wanted(found[0], text, int(words[2])) if found else None
    return [f"entry {int(words[2])} has to be {entry}", WHY] if entry else [WHAT_AND_WHY]
