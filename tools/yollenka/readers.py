"""The virtual smart-card reader of Debian: its port, a daemon of one's own for it, and a connection to it."""
import os
import socket
import tempfile
import time
from pathlib import Path

from yollenka.lines import begin, card_document, program, terminal_document  # handed on

# The virtual reader of Debian's vsmartcard-vpcd, and the port that its own file names.
DRIVER = "/usr/lib/pcsc/drivers/serial/libifdvpcd.so"
PORT = 0x8C7B
DAEMON = "/usr/sbin/pcscd"
SECONDS = 10


class Daemon:
    """A `pcscd` of one's own, with a virtual reader at this port, on a socket in a folder of its own."""

    def __init__(self, port):
        self.folder = tempfile.TemporaryDirectory(prefix="reader-")
        place = Path(self.folder.name)
        place.chmod(0o755)
        (place / "readers").mkdir()
        (place / "readers" / "emvrun").write_text(
            f'FRIENDLYNAME "emvrun"\nDEVICENAME /dev/null:0x{port:X}\nLIBPATH {DRIVER}\nCHANNELID 0x{port:X}\n')
        self.socket = str(place / "pcscd.comm")
        self.log = open(place / "log", "wb")
        listening = socket.socket(socket.AF_UNIX)
        listening.bind(self.socket)
        os.chmod(self.socket, 0o777)
        listening.listen(16)
        self.pid = os.fork()
        if self.pid == 0:
            self.become(listening, place / "readers")
        listening.close()

    def become(self, listening, readers):
        """In the child: the daemon takes the socket as its file 3. It writes into /run/pcscd, and as root it would
        remove another daemon's files there: so root has a /run of its own for it."""
        try:
            os.dup2(self.log.fileno(), 1)
            os.dup2(self.log.fileno(), 2)
            os.dup2(listening.fileno(), 3)
            os.set_inheritable(3, True)
            os.environ.update(LISTEN_FDS="1", LISTEN_PID=str(os.getpid()))
            daemon = [DAEMON, "-f", "-c", str(readers)]
            if os.getuid() == 0:
                own = "mount -t tmpfs tmpfs /run && exec \"$@\""
                os.execvp("unshare", ["unshare", "-m", "sh", "-c", own, "sh", *daemon])
            os.execv(DAEMON, daemon)
        finally:
            os._exit(127)

    def end(self):
        os.kill(self.pid, 15)
        os.waitpid(self.pid, 0)
        self.log.close()
        self.folder.cleanup()


def connected(port):
    """A connection to the virtual reader, which listens some time after its daemon has begun."""
    until = time.monotonic() + SECONDS
    while True:
        try:
            found = socket.create_connection(("127.0.0.1", port))
            found.setsockopt(socket.IPPROTO_TCP, socket.TCP_NODELAY, 1)
            return found
        except OSError:
            if time.monotonic() > until:
                raise
            time.sleep(0.05)
