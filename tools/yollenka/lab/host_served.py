"""The proved host of a scenario over TCP, for a terminal or a switch of another make."""
import os
import socket
import socketserver
import sys
import threading
from pathlib import Path

from yollenka.faults import Fault
from yollenka.framing import Frames, Unframed
from yollenka.lab.bridges import say
from yollenka.lab.host_peer import MOST
from yollenka.talks import MARK, read_talk

# How many peers may be connected at a time.
PEERS = 64


class State:
    """A file with the messages that came to the host and their replies, as a talk. A turn is written whole, and is on the disk,
    before its reply goes out; of a part at the file's end no peer had a reply."""

    def __init__(self, path, document):
        self.path, self.head, self.file = Path(path), f"{document.decode()}{MARK}\n", None

    def kept(self):
        """The turns of the file; none where there is no file yet. Raises Fault where it is the state of other accounts."""
        if not self.path.exists():
            return []
        text = self.path.read_bytes()
        if not text.startswith(self.head.encode()):
            raise Fault(f"{self.path} is the state of other accounts, or none")
        os.truncate(self.path, len(self.head.encode()) + whole_turns(text[len(self.head.encode()) :]))
        return read_talk(self.path).turns

    def open(self):
        """Opens the file for further turns; one that isn't there is made at once, with the accounts."""
        if not self.path.exists():
            new = self.path.with_name(f"{self.path.name}.new")
            new.write_text(self.head)
            new.replace(self.path)
        self.file = os.open(self.path, os.O_WRONLY | os.O_APPEND)

    def add(self, said, answer):
        """Keeps a turn."""
        os.write(self.file, f"{said}\n{answer}\n".encode())
        os.fsync(self.file)


def whole_turns(text):
    """How many of these bytes are whole turns, of two lines each."""
    lines = text.split(b"\n")[:-1]
    return sum(len(line) + 1 for line in lines[: len(lines) // 2 * 2])


class Desk:
    """The proved host, which peers ask one at a time."""

    def __init__(self, proved, state, record, dialect):
        self.proved, self.state, self.record, self.dialect, self.lock = proved, state, record, dialect, threading.Lock()

    def remember(self, path):
        """Gives the host what a state's file has kept. Raises Fault where its replies are others."""
        try:
            for turn in self.state.kept():
                if self.proved.answer(turn.said) != turn.answer:
                    raise Fault(f"{path}: line {turn.number}: the host's reply is another one")
            self.state.open()
        except OSError as error:
            raise Fault(f"{path}: {error.strerror}") from None

    def said(self, message):
        """A message as a line: in this host's dialect, or in that which its first byte tells."""
        is_iso = message[:1] == b"0" if self.dialect is None else self.dialect == "iso"
        return f"{'iso ' * is_iso}> {message.hex()}"

    def reply(self, message):
        """The reply to a message, or None where it has none: bytes in the style of ISO 8583 that can't be read."""
        with self.lock:
            line = self.said(message)
            told = self.proved.answer(line)
            self.record(line)
            self.record(told)
            if not told.startswith("< "):
                return None
            if self.state:
                self.state.add(line, told)
            self.record(self.proved.answer("because"))
        return bytes.fromhex(told.removeprefix("< "))


class Peer(socketserver.BaseRequestHandler):
    """A peer: its messages are answered until it goes, or is dropped with a line that says why."""

    def handle(self):
        """Answers its messages."""
        server = self.server
        if not server.room.acquire(blocking=False):
            return self.tell(f"was dropped: {PEERS} others are connected")
        try:
            why = self.talk(server.desk, server.framing)
        except TimeoutError:
            why = f"it said nothing for {server.idle:g} seconds"
        except OSError as error:
            why = error.strerror or str(error)
        finally:
            server.room.release()
        return self.tell(f"was dropped: {why}") if why else None

    def tell(self, text):
        """A line about this peer."""
        say("{}:{} ".format(*self.client_address[:2]) + text)

    def talk(self, desk, framing):
        """Answers messages until the peer goes; gives why it is dropped, or None."""
        frames = Frames(framing, MOST)
        self.request.settimeout(self.server.idle)
        self.request.setsockopt(socket.IPPROTO_TCP, socket.TCP_NODELAY, 1)
        while part := self.request.recv(65536):
            try:
                for message in frames.take(part):
                    self.answer(desk, framing, message)
            except Unframed as fault:
                return str(fault)
        return f"it went with {len(frames.kept)} bytes of a message" if frames.kept else None

    def answer(self, desk, framing, message):
        """Answers a message; one without bytes, by which peers keep a connection open, has no reply."""
        reply = desk.reply(message) if message else None
        if reply is not None:
            self.request.sendall(framed(framing, reply))
        elif message:
            self.tell(f"has no reply to {message[:32].hex()}{'..' * (len(message) > 32)}: it can't be read")


def framed(framing, reply):
    """A reply behind its length. Raises Unframed where it has no room for it."""
    try:
        return framing.framed(reply)
    except Fault as fault:
        raise Unframed(str(fault)) from None


class Listener(socketserver.ThreadingTCPServer):
    """Listens for peers of a desk."""

    allow_reuse_address, daemon_threads = True, True

    def __init__(self, address, desk, framing, idle):
        self.address_family = socket.AF_INET6 if ":" in address[0] else socket.AF_INET
        self.desk, self.framing, self.idle, self.room = desk, framing, idle, threading.Semaphore(PEERS)
        try:
            super().__init__(address, Peer)
        except OSError as error:
            raise Fault(f"{address[0]}:{address[1]}: {error.strerror}") from None

    def handle_error(self, request, client_address):
        """What no peer can bring about, as a full disk, ends the whole: a message without its reply is better than one that isn't
        kept."""
        say(f"the host has ended: {sys.exception()}")
        os._exit(1)


def serve(desk, address, framing, idle):
    """Answers peers until it is ended."""
    with Listener(address, desk, framing, idle) as listener:
        say("the host listens on {}:{}".format(*listener.server_address[:2]))
        listener.serve_forever()
