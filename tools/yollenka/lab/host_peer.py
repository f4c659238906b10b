"""One's own host over TCP, and the proved one at its lines: both get messages as one object or in the style of ISO 8583."""
import socket

from yollenka.faults import Fault
from yollenka.framing import FRAMINGS, Frames, Unframed
from yollenka.lines import begin, end

# The most bytes of a message or a reply: what a host at lines takes.
MOST = 2048
NONE_CAME = "no reply came within {:g} seconds"


class OwnHost:
    """A host of one's own at an address. `why` says why the last reply is none; `capture` takes what goes over the wire."""

    def __init__(self, address, framing="2", seconds=5.0, capture=None):
        self.address, self.framing, self.seconds, self.capture = address, FRAMINGS[framing], seconds, capture
        self.connection, self.why = None, ""

    def reach(self, waits):
        """Connects; `waits`, if there is one, tells whether to try again."""
        while True:
            try:
                return self.connect()
            except Fault:
                if waits is None or not waits():
                    raise

    def connect(self):
        """Connects anew."""
        self.close()
        try:
            self.connection = socket.create_connection(self.address, self.seconds)
            self.connection.setsockopt(socket.IPPROTO_TCP, socket.TCP_NODELAY, 1)
        except OSError as error:
            raise Fault("{}:{}: {}".format(*self.address, error.strerror or error)) from None
        self.frames, self.waiting = Frames(self.framing, MOST), []
        if self.capture:
            self.capture.begin()

    def close(self):
        """Leaves the host."""
        if self.connection:
            self.connection.close()
        self.connection = None

    def is_gone(self):
        """Whether the host has closed the connection, or there is none."""
        if self.connection is None:
            return True
        self.connection.setblocking(False)
        try:
            return self.connection.recv(1, socket.MSG_PEEK) == b""
        except BlockingIOError:
            return False
        except OSError:
            return True
        finally:
            self.connection.settimeout(self.seconds)

    def send(self, message):
        """Sends a message; where the connection is gone, on another one. Tells whether it went."""
        data = self.framing.framed(message)
        try:
            if self.is_gone():
                self.connect()
            self.connection.sendall(data)
        except (OSError, Fault) as fault:
            self.lost(str(fault))
            return False
        if self.capture:
            self.capture.sent(data)
        return True

    def lost(self, why):
        """There is no reply, and the connection is left: a reply that comes later is none to a later message."""
        self.why = why
        self.close()

    def receive(self):
        """The next reply, or None."""
        while not self.waiting:
            try:
                part = self.connection.recv(65536) if self.connection else b""
                self.take(part)
            except TimeoutError:
                return self.lost(NONE_CAME.format(self.seconds))
            except (OSError, Unframed) as fault:
                return self.lost(getattr(fault, "strerror", None) or str(fault))
        return self.waiting.pop(0)

    def take(self, part):
        """Takes bytes of the host. Raises Unframed where they are no reply, and none is waiting."""
        if not part:
            raise Unframed("the host has closed the connection")
        if self.capture:
            self.capture.got(part)
        try:
            self.waiting += (frame for frame in self.frames.take(part) if frame)
        except Unframed:
            self.close()
            if not self.waiting:
                raise

    def ask(self, message):
        """The reply to a message, or None."""
        return self.receive() if self.send(message) else None


class ProvedHost:
    """The proved host of a document. `path` is the document's, where it is refused."""

    def __init__(self, text, path):
        self.process, self.lines = begin("host_at_lines", [], text)
        first = self.lines.ask("accounts")
        if not first.startswith("accounts "):
            self.close()
            raise Fault(f"{path}: {first or 'host_at_lines has ended'}")
        self.pans = [self.lines.hear().split(" ")[1] for _ in range(int(first.split(" ")[1]))]

    def answer(self, line):
        """Its answer to a line."""
        told = self.lines.ask(line)
        if not told:
            raise Fault("host_at_lines has ended")
        return told

    def answers(self, lines):
        """Its answers to lines."""
        return [self.answer(line) for line in lines]

    def ask(self, message, is_iso):
        """The reply to a message, or None; what is wrong with a message in the style of ISO 8583 then stands in `why`."""
        told = self.answer(f"{'iso ' * is_iso}> {message.hex()}") if 1 <= len(message) <= MOST else "? length"
        self.why = "" if told.startswith("< ") else told.removeprefix("? ")
        return None if self.why else bytes.fromhex(told.removeprefix("< "))

    def because(self):
        """The reason of its last reply, as words."""
        return self.answer("because").removeprefix("because ")

    def balance(self, pan):
        """What an account has."""
        return int(self.answer(f"balance {pan}").rpartition(" ")[2])

    def close(self):
        """Ends its program."""
        end(self.process)
