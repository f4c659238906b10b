"""The host at TCP: one message behind the other, each behind its length."""
import socketserver
import threading


def head(length, framing):
    """A length as a framing has it: its size, `-ascii` for digits, `-whole` where it counts itself."""
    size = int(framing[0])
    count = length + (size if "-whole" in framing else 0)
    return str(count).zfill(size).encode() if "-ascii" in framing else count.to_bytes(size)


def length_of(bytes_, framing):
    """The length that these bytes are."""
    count = int(bytes_) if "-ascii" in framing else int.from_bytes(bytes_)
    return count - (len(bytes_) if "-whole" in framing else 0)


class Talk(socketserver.StreamRequestHandler):
    """A connection."""

    disable_nagle_algorithm = True

    def handle(self):
        """Answers its messages until it ends."""
        framing, size = self.server.framing, int(self.server.framing[0])
        try:
            while len(before := self.rfile.read(size)) == size:
                with self.server.lock:
                    reply = self.server.issuer.reply(self.rfile.read(length_of(before, framing)))
                if reply is not None:
                    self.wfile.write(head(len(reply), framing) + reply)
        except OSError:
            pass


class Server(socketserver.ThreadingTCPServer):
    """The host of an issuer at a port of this machine."""

    allow_reuse_address, daemon_threads = True, True

    def __init__(self, issuer, port=0, framing="2"):
        super().__init__(("127.0.0.1", port), Talk)
        self.issuer, self.framing, self.lock = issuer, framing, threading.Lock()
