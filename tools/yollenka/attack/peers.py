"""Hostile peers of what `lab serve` has on a socket: whatever they say, the next good peer is answered as before."""
import os
import random
import re
import signal
import subprocess
import tempfile
import time
from pathlib import Path
from typing import NamedTuple

from yollenka.attack import texts
from yollenka.attack.documents import mutated
from yollenka.attack.hostile import RAW, TRACEBACK
from yollenka.attack.inputs import replies
from yollenka.attack.partners import OF_BYTES, framed, said_to, spoilt
from yollenka.programs import ROOT

EXAMPLE = ROOT / "examples" / "offline-approval.toml"
LISTENS = re.compile(rb"listens on 127\.0\.0\.1:(\d+)")
SECONDS = 60
# A good peer waits longer than the hostile ones, whose many lines may still be answered.
PATIENCE = 120
# Behind so many hostile peers a good one asks.
BETWEEN = 20


class Server(NamedTuple):
    """A command that serves: its words; what hostile peers begin with and how they change it; and what a good one says and hears."""

    name: str
    words: tuple
    hostile: object
    good: bytes
    answer: bytes
    needs: tuple


def said_to_a_card(chance):
    """Lines for a card, changed."""
    report = EXAMPLE.with_suffix(".report").read_bytes()
    said = b"power\n" + b"".join(line[5:] + b"\n" for line in report.splitlines() if line.startswith(b"L0 > ") and b"80ae" not in line)
    return mutated(chance, said, texts.MUTATIONS)[1]


def said_to_a_host(chance):
    """Messages for a host behind their lengths, changed."""
    messages = sorted(replies())
    said = b"".join(framed(chance, spoilt(chance, chance.choice(messages))) for _ in range(chance.choice([1, 1, 2, 5])))
    return chance.choice(OF_BYTES)(chance, said) if chance.random() < 0.3 and said else said


SERVERS = [
    Server("lab serve card", ("serve", "card", str(EXAMPLE), "--socket", "0", "--idle", "5"), said_to_a_card,
           b"off\nrubbish\n", b"off\n?\n", ("card_at_reader",)),
    Server("lab serve host", ("serve", "host", str(EXAMPLE), "--listen", "0", "--idle", "5", "--dialect", "object"), said_to_a_host,
           b"\0\3zzz", b"\0\6" + bytes.fromhex("e2048a023035"), ("host_at_lines",)),
]


def port_of(process, errors):
    """Where a server listens, or None where it has ended."""
    latest = time.monotonic() + SECONDS
    while process.poll() is None and time.monotonic() < latest:
        if found := LISTENS.search(errors.read_bytes()):
            return int(found[1])
        time.sleep(0.02)
    return None


def good_fault(server, port, number):
    """What is wrong with the answer to a good peer, or None."""
    found = said_to(port, server.good, True, PATIENCE)
    return None if found.startswith(server.answer) else f"wrong: {server.name}: behind peer {number} a good one hears {found[:60]}"


def talk(server, port, count, seed):
    """Hostile peers, and good ones between them; the first fault of these."""
    for number in range(count):
        chance = random.Random(f"{seed} {server.name} {number}")
        said_to(port, server.hostile(chance), chance.random() < 0.7)
        if number % BETWEEN == BETWEEN - 1 or number == count - 1:
            if fault := good_fault(server, port, number):
                return fault
    return None


def peer_faults(server, count, seed):
    """What is wrong with a server among so many hostile peers."""
    with tempfile.TemporaryDirectory(prefix="hostile-") as folder:
        errors = Path(folder) / "errors"
        with errors.open("wb") as file:
            process = subprocess.Popen([ROOT / "lab", *server.words], stderr=file, stdin=subprocess.DEVNULL, start_new_session=True)
        try:
            port = port_of(process, errors)
            fault = talk(server, port, count, seed) if port else "wrong: it doesn't serve"
            if fault:
                yield fault
            if process.poll() is not None:
                yield f"wrong: {server.name} has ended with status {process.returncode}"
        finally:
            os.killpg(process.pid, signal.SIGTERM)
            process.wait()
        said = errors.read_bytes()
        yield from (f"wrong: {server.name} says {line[:200]!r}" for line in said.splitlines() if TRACEBACK.search(line) or RAW.search(line))
