"""A host of one's own that is begun anew, with accounts to begin with, and ended behind its messages."""
import socket
import subprocess
import tempfile
import time
from contextlib import contextmanager

from yollenka.faults import Fault

LISTENS, ENDS = 20.0, 5.0
ACCOUNTS = "{accounts}"


def is_listening(address):
    """Whether something listens at this address."""
    try:
        with socket.create_connection(address, 1):
            return True
    except OSError:
        return False


def patience(process, words):
    """What tells whether to try again, behind a short wait, to reach the host that this process is to be. Raises Fault where it
    ends before, or takes too long."""
    until = time.monotonic() + LISTENS

    def waits():
        """Whether to try again."""
        if process.poll() is not None:
            raise Fault(f"{words[0]} ended with status {process.returncode} before it listened")
        if time.monotonic() > until:
            raise Fault(f"{words[0]} doesn't listen within {LISTENS:g} seconds")
        time.sleep(0.02)
        return True
    return waits


def ended(process):
    """Ends a process: it is asked to, and then made to."""
    process.terminate()
    try:
        process.wait(ENDS)
    except subprocess.TimeoutExpired:
        process.kill()
        process.wait()


@contextmanager
def begun(command, address, document):
    """The host that a command begins with these accounts, a document (bytes), while it runs: gives what waits for it, as patience
    has it. Without words it runs already, and nothing waits."""
    if not command:
        yield None
        return
    if is_listening(address):
        raise Fault(f"something listens at {address[0]}:{address[1]} already, where {command[0]} is to listen")
    with tempfile.NamedTemporaryFile(suffix=".toml") as file:
        file.write(document)
        file.flush()
        words = [word.replace(ACCOUNTS, file.name) for word in command]
        try:
            process = subprocess.Popen(words, stdin=subprocess.DEVNULL, stdout=subprocess.DEVNULL)
        except OSError as error:
            raise Fault(f"{words[0]}: {error.strerror}") from None
        try:
            yield patience(process, words)
        finally:
            ended(process)
