"""Messages on a stream of bytes: each behind its length, which is written in one of eight ways."""
from yollenka.faults import Fault


class Unframed(Exception):
    """Bytes that are no message behind its length: why."""


class Framing:
    """How the length of a message is written before it: its bytes, whether they are digits of ASCII, and whether it counts itself."""

    def __init__(self, size, is_text, is_whole):
        self.size, self.is_text, self.own = size, is_text, size if is_whole else 0
        self.name = f"{size}{'-ascii' * is_text}{'-whole' * is_whole}"
        self.most = (10**size if is_text else 256**size) - 1 - self.own

    def framed(self, message):
        """A message behind its length. Raises Fault where the length has no room for it."""
        if len(message) > self.most:
            raise Fault(f"a message of {len(message)} bytes is too long for the framing {self.name}, which has room for {self.most}")
        count = len(message) + self.own
        return (b"%0*d" % (self.size, count) if self.is_text else count.to_bytes(self.size)) + message

    def length_in(self, head):
        """How many bytes the message has behind these ones, its length. Raises Unframed where they are none."""
        if self.is_text and not head.isdigit():
            raise Unframed(f"{head.hex()} is no length in digits")
        count = (int(head) if self.is_text else int.from_bytes(head)) - self.own
        if count < 0:
            raise Unframed(f"the length {head.hex()} doesn't count itself")
        return count


FRAMINGS = {
    one.name: one for one in (Framing(size, is_text, is_whole) for size in (2, 4) for is_text in (False, True)
                              for is_whole in (False, True))
}
WORDS = """\
FRAMING says how a message's length stands before it: 2 or 4 bytes in binary, the high byte first; 2-ascii or 4-ascii in digits;
2-whole, 4-whole, 2-ascii-whole or 4-ascii-whole where the length counts its own bytes too."""


class Frames:
    """What came of a peer's bytes so far: its messages, of at most so many bytes, and a part of the next one."""

    def __init__(self, framing, most):
        self.framing, self.most, self.kept = framing, most, b""

    def take(self, part):
        """The messages that are whole with these bytes behind those before. Raises Unframed where there is none of at most so
        many bytes."""
        data, at, size = self.kept + part, 0, self.framing.size
        while len(data) - at >= size:
            count = self.framing.length_in(data[at : at + size])
            if count > self.most:
                raise Unframed(f"a message of {count} bytes, and {self.most} are the most")
            if len(data) - at < size + count:
                break
            yield data[at + size : at + size + count]
            at += size + count
        self.kept = data[at:]
