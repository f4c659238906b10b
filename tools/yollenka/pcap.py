"""Captures of TCP segments as files of libpcap, which Wireshark and tcpdump read: raw packets of IPv4."""
import struct
import time

HEAD = struct.pack("<IHHiIII", 0xA1B2C3D4, 2, 4, 0, 0, 65535, 228)
PUSHED, HERE, THERE, WINDOW = 0x18, 0x7F000001, 0x7F000002, 8192
OWN_PORT, PORTS = 40_000, 20_000
# A segment has at most so many bytes of data here.
MOST = 32_768


def segment(number, ports, places, data, is_back=False):
    """An IPv4 packet with one TCP segment: from port to port, at these places of the two streams. One that comes back
    has the addresses the other way round."""
    tcp = struct.pack(">HHIIBBHHH", *ports, *(place & 0xFFFFFFFF for place in places), 0x50, PUSHED, WINDOW, 0, 0) + data
    addresses = (THERE, HERE) if is_back else (HERE, THERE)
    return struct.pack(">BBHHHBBHII", 0x45, 0, 20 + len(tcp), number & 0xFFFF, 0, 64, 6, 0, *addresses) + tcp


def record(seconds, content):
    """A packet as a capture has it, at this time in seconds."""
    whole = int(seconds)
    return struct.pack("<IIII", whole, int((seconds - whole) * 1_000_000), len(content), len(content)) + content


class Capture:
    """A file with what goes over connections to a port, one behind the other, written as it goes. The bytes are the connections';
    the addresses are made up."""

    def __init__(self, file, port):
        self.file, self.port, self.own, self.number = file, port, -1, 0
        self.file.write(HEAD)

    def begin(self):
        """Another connection."""
        self.own = OWN_PORT + (self.own + 1) % PORTS
        self.sent_bytes = self.got_bytes = 1

    def put(self, ports, places, data, is_back):
        """Writes a packet."""
        self.file.write(record(time.time(), segment(self.number, ports, places, data, is_back)))
        self.file.flush()
        self.number += 1

    def sent(self, data):
        """Bytes that went to the peer."""
        for at in range(0, len(data), MOST):
            part = data[at : at + MOST]
            self.put((self.own, self.port), (self.sent_bytes, self.got_bytes), part, False)
            self.sent_bytes += len(part)

    def got(self, data):
        """Bytes that came from the peer."""
        for at in range(0, len(data), MOST):
            part = data[at : at + MOST]
            self.put((self.port, self.own), (self.got_bytes, self.sent_bytes), part, True)
            self.got_bytes += len(part)
