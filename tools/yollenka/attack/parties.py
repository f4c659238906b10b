"""Three parties at random: the proved terminal, cards and served host play a drawn scenario, beside the model.

The scenario, with its tears and its lost messages, is drawn as `checks/model` draws it; the parties are put together as `lab host
--scenario` does. The host is `lab serve host`, whose messages a file keeps. Between and within messages it is killed and begun
again, with half a turn at the end of its file; other peers say half a frame, rubbish or nothing, and messages are said once more.
Besides, the proved terminal of each lane is led by lines at random (led.py).
"""
import re
import signal
import socket
import subprocess
import tempfile
from contextlib import closing
from pathlib import Path
from random import Random
from typing import NamedTuple

from yollenka.attack.led import led_faults
from yollenka.attack.partners import said_to
from yollenka.faults import Fault
from yollenka.lab.host_peer import OwnHost, ProvedHost
from yollenka.lab.host_scenario import AtHost, Judge
from yollenka.model.document import Refused, scenario_of
from yollenka.model.draw import Draw
from yollenka.model.world import World
from yollenka.programs import ROOT
from yollenka.respell import dialects_of, respelled
from yollenka.scenarios import document, first_difference

FRAMING, SECONDS, IDLE = "2", 120, 30
# Of how many messages one is disturbed, in the mean.
DISTURBED = 3


class Served:
    """The host of a scenario's accounts over TCP, with the file that keeps its messages."""

    def __init__(self, accounts, folder):
        self.state, self.port = folder / "state", 0
        self.accounts = folder / "accounts.toml"
        self.accounts.write_bytes(accounts)
        self.begin()

    def begin(self):
        """Begins it, at the port that it had before."""
        words = ["serve", "host", self.accounts, "--state", self.state, "--listen", self.port, "--framing", FRAMING, "--idle", IDLE]
        self.process = subprocess.Popen([ROOT / "lab", *map(str, words)], cwd=ROOT, stderr=subprocess.PIPE, text=True, start_new_session=True)
        said = []
        for line in self.process.stderr:
            said.append(line.strip())
            if found := re.search(r"the host listens on 127\.0\.0\.1:(\d+)", line):
                self.port = int(found[1])
                return
        raise Fault(f"the host doesn't serve: {said[-1] if said else 'it says nothing'}")

    def kill(self):
        """Ends it at once, wherever it is."""
        self.process.send_signal(signal.SIGKILL)
        self.process.wait()
        self.process.stderr.close()

    def turns(self):
        """How many turns its file has, whole ones."""
        return self.state.read_bytes().count(b"\n< ")


class Disturbed:
    """A host that is asked over TCP, as `lab host` asks one, and is disturbed at random; `seen` tells how often by what."""

    def __init__(self, served, chance, seen):
        self.served, self.chance, self.seen, self.faults = served, chance, seen, []
        self.own = OwnHost(("127.0.0.1", served.port), FRAMING, SECONDS)
        self.own.connect()
        self.why = ""

    def ask(self, message):
        """The reply to a message, once what is drawn has happened before it and behind it."""
        if self.chance.randrange(DISTURBED) == 0:
            kind = self.chance.choice((self.killed_between, self.killed_before_its_reply, self.half_a_frame, self.rubbish, self.left_alone))
            self.seen[kind.__name__.replace("_", " ")] += 1
            kind(message)
        reply = self.own.ask(message)
        self.why = self.own.why
        if self.chance.randrange(DISTURBED) == 0:
            self.seen["said once more"] += 1
            if (again := self.own.ask(message)) != reply:
                self.faults.append(f"a message that is said once more has another reply: {message.hex()}: {again and again.hex()}")
        return reply

    def again(self):
        """The host is begun again behind a kill, with a part of a turn at the end of its file."""
        self.served.kill()
        part = self.chance.choice((b"", b"> e1", b"> e16e9f1c085445524d303030\n", b"> e16e9f1c085445524d303030\n< e210"))
        with self.served.state.open("ab") as file:
            file.write(part)
        self.served.begin()
        self.own.connect()

    def killed_between(self, _):
        """It is killed between two messages."""
        self.again()

    def killed_before_its_reply(self, message):
        """It is killed as soon as it has the message: whether it has kept it is up to chance, and what is asked again is the same."""
        self.own.send(message)
        self.again()

    def half_a_frame(self, message):
        """A peer goes in the middle of a message."""
        said_to(self.served.port, self.own.framing.framed(message)[: self.chance.randrange(2, 2 + len(message))], self.chance.random() < 0.5)

    def rubbish(self, _):
        """A peer says what is no frame, or too much; it is no message, since one that can be read would be kept."""
        said_to(self.served.port, self.chance.choice((b"\xff\xff" + b"\0" * 3000, b"\0" * 5000, b"\x08\x01", b"\xff")), True)

    def left_alone(self, _):
        """A peer comes and goes without a word."""
        with socket.create_connection(("127.0.0.1", self.served.port), SECONDS):
            pass

    def close(self):
        """Leaves the host, and ends it."""
        self.own.close()
        self.served.kill()


class Played(NamedTuple):
    """What came of a scenario: how many messages its host got, and what is wrong."""

    messages: int
    wrong: list


def by_model(text):
    """The lines that the model's report of a scenario has."""
    world = World(scenario_of(text, "replay"))
    return respelled("\n".join(world.run()), dialects_of(world.scenario))[0]


def accounts_of(table):
    """The document of the accounts."""
    return document({key: table[key] for key in ("issuer", "account") if key in table})


def faults_of(table, wanted, disturbed, proved, notes):
    """What is wrong with a scenario as the three parties play it."""
    judge = Judge(proved, False)
    with closing(AtHost(table, disturbed, judge, notes.append)) as world:
        lines = world.run()
    yield from disturbed.faults
    if judge.first:
        yield f"message {judge.first.number} has another reply than the proved host's: {judge.first.why or judge.first.because}"
    if different := first_difference(lines, list(wanted)):
        yield different


def play(seed, number, seen):
    """Plays the scenario of a number; None where the model refuses it."""
    table = Draw(number).scenario()
    try:
        wanted = by_model(document(table))
    except Refused:
        return None
    chance, notes = Random(f"{seed} {number}"), []
    with tempfile.TemporaryDirectory(prefix="parties-") as folder:
        with closing(ProvedHost(accounts_of(table), "")) as proved:
            with closing(Disturbed(Served(accounts_of(table), Path(folder)), chance, seen)) as disturbed:
                wrong = list(faults_of(table, wanted, disturbed, proved, notes))
                count = disturbed.served.turns()
    wrong += led_faults(table, chance, seen)
    seen["the model alone, since the terminal has no memory"] += len(notes)
    return Played(count, wrong)
