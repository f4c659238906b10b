"""Messages in the style of ISO 8583 as a capture of TCP segments, and what Wireshark's dissector reads in it.

Field 55 has a length of four digits here and of three in the dissector's table, so the first of them, which has to be 0, is
left out; messages of fewer bytes than the dissector takes are no part of a capture.
"""
import shutil
import struct
import subprocess
import tempfile
from pathlib import Path
from xml.etree import ElementTree

from yollenka.faults import Fault
from yollenka.pcap import HEAD, OWN_PORT, record, segment

# The lengths of the fields that have a fixed one.
LENGTHS = {3: 6, 4: 12, 11: 6, 37: 12, 39: 2, 41: 8, 49: 3, 52: 8}
PORT = 8583
# The dissector takes no message of fewer bytes, its length in front included.
LEAST = 25
OPTIONS = [
    "-d", f"tcp.port=={PORT},iso8583",
    "-o", "iso8583.len_endian:Little endian",
    "-o", "iso8583.charset:Digits represented as ASCII Characters",
    "-o", "iso8583.binencode:Bin data not encoded",
    "-o", "tcp.desegment_tcp_streams:FALSE",
]
MISSING = "tshark isn't installed (Debian: apt-get install tshark)"


def capture(messages):
    """A capture with one segment a message: its length in two bytes, low byte first, then the message."""
    return HEAD + b"".join(
        record(number, segment(number, (OWN_PORT + number % 20000, PORT), (1, 1), struct.pack("<H", len(message)) + message))
        for number, message in enumerate(messages))


def fields_of(packet):
    """What the dissector read of a packet: the type, the bitmap, and the bytes of the fields that it found."""
    found = {field.get("name"): field for field in packet.iter("field")}
    fields = {n: bytes.fromhex(found[f"iso8583.bit{n}"].get("value")) for n in range(2, 65) if f"iso8583.bit{n}" in found}
    kind, bits = (found[name].get("show") if name in found else "" for name in ("iso8583.mti", "iso8583.map1"))
    return kind, bits, fields


def dissected(messages):
    """For each message what the dissector reads."""
    if shutil.which("tshark") is None:
        raise Fault(MISSING)
    with tempfile.TemporaryDirectory() as folder:
        path = Path(folder) / "messages.pcap"
        path.write_bytes(capture(messages))
        run = subprocess.run(["tshark", "-r", str(path), *OPTIONS, "-T", "pdml"], capture_output=True)
    if run.returncode != 0:
        raise Fault(f"tshark: {run.stderr.decode(errors='replace').strip()}")
    return [fields_of(packet) for packet in ElementTree.fromstring(run.stdout).iter("packet")]


def objects(data):
    """The data objects of field 55, by tag: tags of one or two bytes."""
    found, place = {}, 0
    while place < len(data):
        size = 2 if data[place] & 0x1F == 0x1F else 1
        tag, length = data[place:place + size].hex(), data[place + size]
        if length == 0x81:
            length, size = data[place + size + 1], size + 1
        elif length == 0x82:
            length, size = int.from_bytes(data[place + size + 1:place + size + 3], "big"), size + 2
        found[tag] = data[place + size + 1:place + size + 1 + length]
        place += size + 1 + length
    return found


def named(message):
    """The fields that the bitmap names."""
    bits = int.from_bytes(message[4:12], "big")
    return [n for n in range(1, 65) if bits >> (64 - n) & 1]


def number_of(digits):
    """The number that these digits of a message write; none where they aren't all digits."""
    return int(digits) if digits.isdigit() else None


def split_55(message):
    """What stands before field 55, and what it holds; None where it doesn't end the message, or is too long for the dissector."""
    place = 12
    for number in named(message)[:-1]:
        size = LENGTHS.get(number) if number != 2 else number_of(message[place:place + 2])
        if size is None:
            return None
        place += size if number != 2 else 2 + size
    held = message[place + 4:]
    return (message[:place], held) if len(held) == number_of(message[place:place + 4]) and len(held) < 1000 else None


def as_dissected(front, held):
    """A message as the dissector's table has it."""
    return front + b"%03d" % len(held) + held
