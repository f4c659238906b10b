"""`lab serve try`: the proved card and the proved terminal over PC/SC, in a virtual reader of this machine.

It needs the Debian packages pcscd, vsmartcard-vpcd, python3-pyscard, opensc and pcsc-tools, and ends with a word where one
is missing. A `pcscd` of its own is started, on a socket of its own. Then
- the dialogues of ten examples are held over PC/SC, and have to equal the lines of `emvrun replay`,
- `opensc-tool`, `scriptor` and `pcsc_scan`, clients that no one here wrote, talk with the card, and what they print is shown; it
  fits the image, by `lab card`; so does `cardpeek`, where its package is installed, which reads the card as a bank card,
- the bridge is killed in the middle of a command: the client sees an error, and the card's next power-up what it promises.
"""
import importlib.util
import os
import re
import shutil
import signal
import subprocess
import sys
import tempfile
import time
from pathlib import Path

from yollenka.lab import FAILED, INCONCLUSIVE, PASSED
from yollenka.lab.card import compared
from yollenka.lab.images import Image
from yollenka.lab.sessions import sessions_of
from yollenka.programs import ROOT
from yollenka.lines import begin, card_document, program, read
from yollenka.readers import DAEMON, DRIVER, Daemon

PORT = 0x9C7B
SECONDS = 60
IMAGE = ROOT / "examples" / "offline-approval.toml"
LAB = [sys.executable, str(ROOT / "lab"), "serve"]
WHOLE = [
    "offline-approval", "online-approval", "decline-by-action-code", "answers-in-format-2", "partial-names",
    "application-blocked", "cvm-pin-for-the-issuer", "script-before",
]
# Examples whose first purchase has a tear, which the bridge plans.
PULLED = ["pulled-before-first-write", "pulled-in-pin-check"]


def missing():
    """The packages that are not there."""
    found = {
        "pcscd": Path(DAEMON).exists(),
        "vsmartcard-vpcd": Path(DRIVER).exists(),
        "python3-pyscard": importlib.util.find_spec("smartcard") is not None,
        "opensc": shutil.which("opensc-tool") is not None,
        "pcsc-tools": shutil.which("pcsc_scan") is not None,
    }
    return [name for name, there in found.items() if not there]


def place_of(tear):
    """A scenario's tear as the card's line has it."""
    return " ".join(str(part) for part in (tear["commit"], tear["at"], tear.get("write")) if part is not None)


def wanted(scenario):
    """The first purchase of the first lane in the report of its scenario, as a trace's entries."""
    report = subprocess.run([program("emvrun"), "replay"], input=scenario.read_bytes(), capture_output=True).stdout.decode()
    found = []
    for line in report.splitlines():
        if line.startswith("L0 power"):
            continue
        if line.startswith("L0 end 1 "):
            return [*found, f"end {line[9:]}"]
        if line.startswith("L0 "):
            found.append(line[3:].replace("< torn", "< gone"))
    return found


class Card:
    """A scenario's card behind its bridge. Its memory is the program's, which outlives a bridge."""

    def __init__(self, scenario, name):
        self.process, self.lines = begin("card_at_reader", [name], card_document(scenario))
        self.bridge = None

    def put_in(self, *words):
        """Puts it into the reader, by a bridge with these words."""
        back, to = self.lines.back.fileno(), self.lines.to.fileno()
        # The scenario's name is only read where the bridge starts the program.
        self.bridge = subprocess.Popen(
            [*LAB, "card", "-", "--port", str(PORT), "--lines", f"{back},{to}", *words], pass_fds=(back, to),
            stderr=subprocess.PIPE)
        # The bridge says that the card is in, and the daemon notices it.
        self.bridge.stderr.readline()
        time.sleep(1.0)

    def take_out(self, number=signal.SIGTERM):
        """Ends the bridge, by this signal."""
        self.bridge.send_signal(number)
        self.bridge.wait()

    def end(self):
        """Ends the card's program."""
        self.process.stdin.close()
        self.process.wait()
        # The daemon notices that the reader is empty.
        time.sleep(1.0)


def terminal(path):
    """What the terminal of a scenario says over PC/SC."""
    run = subprocess.run([*LAB, "terminal", path, "--host", "--reader", "emvrun"], capture_output=True, timeout=SECONDS)
    return run.stdout.decode().splitlines(), run.stderr.decode()


def dialogue(name):
    """Holds an example's first purchase over PC/SC; tells whether it is as in the report."""
    path = ROOT / "examples" / f"{name}.toml"
    scenario = read(path)
    first = scenario["lane"][0]["purchase"][0]
    card = Card(scenario, first["card"])
    card.put_in(*(["--pull", place_of(first["tear"])] if "tear" in first else []))
    said, errors = terminal(path)
    card.take_out()
    card.end()
    good = said == wanted(path)
    print(f"{'ok' if good else 'NOT OK'} {name}: {len(said)} lines", flush=True)
    if not good:
        print("\n".join([*("  " + line for line in said[-4:]), errors]))
    return good


def shown(words, seconds=SECONDS):
    """Shows what another client prints."""
    print(f"$ {' '.join(words)}", flush=True)
    try:
        text = subprocess.run(words, stdout=subprocess.PIPE, stderr=subprocess.STDOUT, timeout=seconds).stdout
    except subprocess.TimeoutExpired as stopped:
        text = stopped.stdout or b""
    text = text.decode(errors="replace")
    # A lone character is a wheel that turns while `pcsc_scan` waits.
    print("\n".join(f"  {line}".rstrip() for line in re.split("[\r\n]+", text) if len(line.strip()) > 1), flush=True)
    return text


def scripted(commands):
    """What `scriptor` prints of these commands."""
    with tempfile.NamedTemporaryFile("w", suffix=".script") as file:
        print("reset", *commands, sep="\n", file=file, flush=True)
        return shown(["scriptor", "-r", "emvrun 00 00", file.name])


def fits(text):
    """Whether what a client prints is a log that fits the card's image, by `lab card`."""
    image = Image(IMAGE)
    sessions = sessions_of(text)
    image.begin(sessions, None, None)
    return not any(held.is_wrong() for held in compared(image, sessions, None))


def clients():
    """Other clients: SELECT and GET PROCESSING OPTIONS by opensc-tool and by scriptor, and the ATR by pcsc_scan."""
    card = Card(read(IMAGE), "c1")
    card.put_in()
    commands = ["00A4040007A000000003101000", "80CA9F3600", "80A8000002830000"]
    sent = shown(["opensc-tool", "-c", "default", *(word for one in commands for word in ("-s", one))])
    again = scripted(commands)
    seen = shown(["timeout", "4", "pcsc_scan", "-n"])
    card.take_out()
    card.end()
    good = sent.count("SW1=0x90, SW2=0x00") == 3 and fits(sent) and fits(again) and "3B 86 01 45 4D 56 52 55 4E 90" in seen
    print(f"{'ok' if good else 'NOT OK'} other clients")
    return good


def peeked():
    """What cardpeek found on the card, as it saves it, by label and value. It asks for its folder when it is first run."""
    with tempfile.TemporaryDirectory() as home:
        view = Path(home) / "view.xml"
        about = dict(env={**os.environ, "HOME": home}, input=b"1\n" * 9, capture_output=True, timeout=SECONDS)
        base = ["cardpeek", "-c", "-r", "pcsc://emvrun 00 00", "-e"]
        subprocess.run([*base, "os.exit(0)"], **about)
        subprocess.run([*base, f'dofile("{home}/.cardpeek/scripts/emv.lua"); ui.save_view("{view}"); os.exit(0)'], **about)
        text = view.read_text(errors="replace") if view.exists() else ""
    nodes = (re.findall(r'<attr name="(?:label|alt|val)"[^>]*>(?:8:)?([^<]*)</attr>', part) for part in text.split("<node>"))
    return [(node[0], node[-1]) for node in nodes if len(node) > 1]


def peek():
    """A program that reads bank cards, if it is here."""
    if shutil.which("cardpeek") is None:
        print("cardpeek is not installed, and not tried")
        return True
    card = Card(read(IMAGE), "c1")
    card.put_in()
    found = peeked()
    card.take_out()
    card.end()
    print("$ cardpeek, its script emv.lua")
    for label, value in found:
        print(f"  {label}: {value}")
    wanted = [
        ("Application Label", "CREDIT"), ("Application Transaction Counter (ATC)", "11"), ("Application PAN", "4761739001010010"),
    ]
    good = all(pair in found for pair in wanted)
    print(f"{'ok' if good else 'NOT OK'} cardpeek")
    return good


def stop_before_the_answer(card):
    """A client sends VERIFY, and the bridge is killed before it can answer; gives what the client saw."""
    from smartcard.Exceptions import CardConnectionException
    from smartcard.System import readers
    from smartcard.scard import SCARD_UNPOWER_CARD
    connection = next(one for one in readers() if "emvrun" in str(one)).createConnection()
    connection.connect(disposition=SCARD_UNPOWER_CARD)
    for command in ("00A4040007A000000003101000", "80A8000002830000"):
        connection.transmit(list(bytes.fromhex(command)))
    # The bridge stands still, so that the command reaches its socket and no answer comes; then it is killed.
    card.bridge.send_signal(signal.SIGSTOP)
    killer = subprocess.Popen(["sh", "-c", f"sleep 0.5; kill -9 {card.bridge.pid}"])
    try:
        connection.transmit(list(bytes.fromhex("0020008008241234FFFFFFFFFF")))
        seen = "an answer"
    except CardConnectionException as error:
        seen = str(error)
    killer.wait()
    card.bridge.wait()
    try:
        connection.disconnect()
    except Exception:
        pass
    return seen


def killed():
    """The bridge is killed in the middle of a command, and another one puts the card in again."""
    card = Card(read(IMAGE), "c1")
    card.put_in()
    seen = stop_before_the_answer(card)
    print(f"the client saw: {seen}")
    time.sleep(1.0)
    card.lines.say("off")
    while card.lines.hear() != "off":
        pass
    power = card.lines.ask("power")
    print(f"the card's next power-up: {power}")
    card.put_in()
    said, errors = terminal(IMAGE)
    card.take_out()
    card.end()
    print(said[-1] if said else errors)
    last = said[-1] if said else ""
    good = seen != "an answer" and power == "power 11,9,0,0,3,0" and last.startswith("end approved") and "atc=000c" in last
    print(f"{'ok' if good else 'NOT OK'} a bridge that is killed")
    return good


def run():
    """Tries all; gives the status."""
    lacking = missing()
    if lacking:
        print(f"not tried, since these Debian packages are missing: {' '.join(lacking)}")
        return INCONCLUSIVE
    for name in ("card_at_reader", "terminal_at_reader", "emvrun"):
        program(name)
    daemon = Daemon(PORT)
    os.environ["PCSCLITE_CSOCK_NAME"] = daemon.socket
    try:
        good = [*(dialogue(name) for name in (*WHOLE, *PULLED)), clients(), peek(), killed()]
    finally:
        daemon.end()
    print(f"at a reader: {sum(map(bool, good))} passed, {len(good) - sum(map(bool, good))} failed")
    return PASSED if all(good) else FAILED
