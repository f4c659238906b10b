"""The proved card in a virtual smart-card reader or on a socket, and the proved terminal at a card in a reader."""
import re
import socket
import sys
import time

from yollenka.faults import Fault
from yollenka.lines import begin, card_document
from yollenka.readers import connected

# The card's ATR: T=1 alone, six historical bytes and the check byte.
ATR = bytes.fromhex("3B8601454D5652554E90")
OFF, ON, RESET, WANTED = 0, 1, 2, 4
# So many seconds a card that was pulled out stays out.
OUT = 1.0
LONGEST = 8191
LINE = re.compile(r"power|off|pull [0-9a-z ]+|(?:> ?)?[0-9A-Fa-f]+")
HERE = "127.0.0.1"


def say(text):
    """A line for people, on standard error."""
    print(f"lab serve: {text}", file=sys.stderr, flush=True)


class Card:
    """The lines of the proved card, each exchange of which is recorded."""

    def __init__(self, lines, record):
        self.lines, self.record = lines, record

    def ask(self, line):
        """Says a line; gives the card's."""
        told = self.lines.ask(line)
        if line == "power":
            self.record("RESET")
            # A torn power-up is told as a card that is gone.
            self.record(f"# {told}")
        elif told.startswith("< "):
            self.record(f"> {line}")
            self.record(told.replace("torn", "gone"))
        return told

    def in_step(self):
        """Turns the card off. An answer that an earlier peer has not read may stand before that line."""
        self.lines.say("off")
        while self.lines.hear() not in ("off", ""):
            pass


def card_of(path, scenario, name, record):
    """A scenario's card, by its name or the first one."""
    _, lines = begin("card_at_reader", [name] if name else [], card_document(scenario))
    first = lines.ask("off")
    if first != "off":
        why = first if first.startswith("refused") else f"it has no card of the name {name!r}"
        raise Fault(f"{path}: {why}")
    return Card(lines, record)


# In the virtual reader.

def whole(connection, count):
    """So many bytes of the reader, or None where it has gone."""
    found = b""
    while len(found) < count:
        if hasattr(socket, "TCP_QUICKACK"):
            connection.setsockopt(socket.IPPROTO_TCP, socket.TCP_QUICKACK, 1)
        part = connection.recv(count - len(found))
        if not part:
            return None
        found += part
    return found


def frame(connection):
    """The next frame of the reader, or None where it has gone."""
    head = whole(connection, 2)
    return head and whole(connection, int.from_bytes(head, "big"))


def send(connection, text):
    """Writes a frame."""
    connection.sendall(len(text).to_bytes(2, "big") + text)


def control(card, connection, number):
    """Carries out a control of the reader; tells whether the card is still in it."""
    if number == WANTED:
        send(connection, ATR)
    elif number in (ON, RESET):
        return card.ask("power") != "power torn"
    elif number == OFF:
        card.ask("off")
    return True


def answer(card, connection, text):
    """Answers a frame of the reader; tells whether the card is still in it."""
    if len(text) == 1:
        return control(card, connection, text[0])
    told = card.ask(text.hex()) if text else ""
    if text and told != "< torn":
        # A command to a card that is off, or one that is too long, is an error of the reader's side.
        send(connection, bytes.fromhex(told[2:].strip("-")) if told.startswith("< ") else b"\x6f\x00")
    return told != "< torn"


def put_in(port):
    """Puts a card into the virtual reader at this port, as a connection."""
    try:
        return connected(port)
    except OSError as error:
        raise Fault(f"no virtual reader listens at port {port} of this machine ({error.strerror}): it needs vsmartcard-vpcd, "
                    "and pcscd at work") from None


def in_a_reader(card, port):
    """Puts the card into the virtual reader at this port, again each time that it was pulled out, until the reader goes."""
    while True:
        with put_in(port) as connection:
            say("the card is in the reader")
            while (text := frame(connection)) is not None and answer(card, connection, text):
                pass
        if text is None:
            return
        time.sleep(OUT)


# On a socket.

def told_to(card, line):
    """What a peer's line is answered, with a newline behind it."""
    text = line.decode(errors="replace").strip()
    told = card.ask(text.removeprefix(">").strip()) if len(line) <= LONGEST and LINE.fullmatch(text) else "?"
    return told.encode() + b"\n"


def talk(card, connection, seconds):
    """Answers a peer's lines until it goes; gives why it was dropped, or None."""
    connection.settimeout(seconds)
    kept = b""
    while True:
        *lines, kept = kept.split(b"\n")
        connection.sendall(b"".join(told_to(card, line) for line in lines))
        if len(kept) > LONGEST:
            return f"a line of more than {LONGEST} bytes"
        try:
            part = connection.recv(65536)
        except TimeoutError:
            return f"it said nothing for {seconds:g} seconds"
        if not part:
            return "half a line" if kept else None
        kept += part


def on_a_socket(card, host, port, seconds):
    """Answers one peer after another on this socket, as docs/use/reader.md has the card's lines. The card keeps its memory."""
    try:
        listening = socket.create_server((host, port))
    except OSError as error:
        raise Fault(f"{host}:{port}: {error.strerror}") from None
    say("the card listens on {}:{}".format(*listening.getsockname()[:2]))
    while True:
        connection, peer = listening.accept()
        with connection:
            try:
                why = talk(card, connection, seconds)
            except OSError as error:
                why = error.strerror
        if why:
            say(f"{peer[0]}:{peer[1]} was dropped: {why}")
        card.in_step()


# The terminal.

def at_a_card(terminal, reader, reply, tell):
    """Holds the terminal's dialogue with the card in a reader; `reply` gives the issuer's reply to a message, or None, and `tell`
    takes each line. Gives the terminal's last line."""
    while (line := terminal.hear_ask()).startswith(("> ", "host > ")):
        tell(line)
        said = bytes.fromhex(line.rpartition(" ")[2])
        if line.startswith("host"):
            got = reply(said)
            back = f"host < {got.hex() if got is not None else 'none'}"
        else:
            got = reader.transmit(said)
            back = f"< {got.hex() if got is not None else 'gone'}"
        tell(back)
        terminal.say(back)
    tell(line)
    return line
