"""Partners that keep no rule: a host for `lab host`, and peers for what `lab serve` has on a socket."""
import socket
import socketserver
import threading

from yollenka.attack.documents import double, flip
from yollenka.attack.inputs import replies

SECONDS = 5


def bytes_cut(random, message):
    """A message that ends early."""
    return message[: random.randrange(len(message) + 1)]


def bytes_more(random, message):
    """A message with bytes behind it, or some in between."""
    place = random.randrange(len(message) + 1)
    return message[:place] + random.randbytes(random.choice([1, 2, 16, 300, 3000])) + message[place:]


def lengths(random, message):
    """A length of an object that is another one."""
    place = random.randrange(len(message))
    return message[:place] + bytes([random.choice([0, 1, 0x7F, 0x80, 0x81, 0x82, 0x84, 0xFF])]) + message[place + 1 :]


OF_BYTES = [flip, flip, double, bytes_cut, bytes_cut, bytes_more, lengths, lengths]


def framed(random, message):
    """A message behind its length of two bytes, which now and then is another one."""
    count = len(message)
    if random.random() < 0.2:
        count = random.choice([0, 1, count - 1, count + 1, 2048, 2049, 65535])
    return max(count, 0).to_bytes(2) + message


def spoilt(random, message):
    """A message, good or changed."""
    for _ in range(random.choice([0, 1, 1, 2])):
        message = random.choice(OF_BYTES)(random, message or b"\0")
    return message[:60000]


class Rude(socketserver.BaseRequestHandler):
    """Answers with what it likes: the reply that there should be, one that was changed, none, or the end of the connection."""

    def handle(self):
        """Answers until the other side goes, or it likes no more."""
        random, known = self.server.random, replies()
        others = sorted(known.values())
        self.request.settimeout(SECONDS)
        try:
            while part := self.request.recv(65536):
                whim = random.random()
                if whim < 0.1:
                    return
                good = known.get(part[2:], random.choice(others))
                self.request.sendall(framed(random, good if whim < 0.5 else spoilt(random, good)) if whim < 0.95 else b"")
        except OSError:
            pass


def rude_host(random):
    """Begins such a host in this process; gives its port."""
    server = socketserver.ThreadingTCPServer(("127.0.0.1", 0), Rude)
    server.daemon_threads, server.random = True, random
    threading.Thread(target=server.serve_forever, daemon=True).start()
    return server.server_address[1]


def said_to(port, said, waits, seconds=SECONDS):
    """What a peer hears that says this, and then that it has no more to say; or goes at once."""
    with socket.create_connection(("127.0.0.1", port), seconds) as connection:
        found = b""
        try:
            connection.sendall(said)
            if not waits:
                return found
            connection.shutdown(socket.SHUT_WR)
            while part := connection.recv(65536):
                found += part
        except OSError:
            pass
        return found
