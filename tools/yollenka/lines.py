"""Programs that answer line by line, and the documents that they begin with."""
import subprocess
import tomllib

from yollenka.builds import is_known
from yollenka.faults import Fault
from yollenka.programs import Builder, say
from yollenka.scenarios import document

# A purchase's keys that act on the card, the link or the terminal's memory, and not on the dialogue; and a lane's.
NOT_OF_A_DIALOGUE = ("link", "tear", "terminal_tear")
NOT_OF_A_TERMINAL = ("dialect", "durable")
# What a terminal's line begins with that tells why a reply of the host can't be read; what it asks stands behind it.
UNREAD = "? reply "
# The programs that were looked up.
FOUND = {}


class Lines:
    """A program that is talked with line by line."""

    def __init__(self, to, back):
        self.to, self.back, self.first = to, back, None

    def say(self, line):
        """Hands on a line; a program that has ended takes none."""
        try:
            self.to.write(line.encode() + b"\n")
            self.to.flush()
        except BrokenPipeError:
            pass

    def hear(self):
        """The next line, or an empty text at the end."""
        line, self.first = self.first, None
        return self.back.readline().decode(errors="replace").rstrip("\n") if line is None else line

    def require_taken(self, path):
        """Waits for a line, which is heard afterwards too; a fault where it says that the document of this file is refused."""
        self.first = self.hear()
        if self.first.startswith("refused "):
            raise Fault(f"{path}: {self.first}")

    def ask(self, line):
        """Hands on a line, and gives the next one."""
        self.say(line)
        return self.hear()

    def hear_ask(self):
        """The next line of a terminal that asks something, or ends."""
        while (line := self.hear()).startswith(UNREAD):
            pass
        return line


def program(name):
    """The path of a crate's program, looked up once: the proved one, or a trial build, which is told on standard error."""
    if name not in FOUND and not is_known(name):
        raise Fault(f"there is no program {name} here")
    if name not in FOUND:
        FOUND[name], is_proved = Builder(name, say).program()
        if not is_proved:
            say(f"{name} is a trial build, which is not proved")
    return FOUND[name]


def begin(name, words, text):
    """Starts a program on its document; gives its process and its lines."""
    process = subprocess.Popen([program(name), *words], stdin=subprocess.PIPE, stdout=subprocess.PIPE)
    process.stdin.write(b"document %d\n" % len(text) + text)
    process.stdin.flush()
    return process, Lines(process.stdin, process.stdout)


def end(process):
    """Ends a program that was begun, wherever it stands."""
    process.kill()
    process.stdin.close()
    process.stdout.close()
    process.wait()


def read(path):
    """A scenario's document as a value."""
    with open(path, "rb") as file:
        return tomllib.load(file)


def card_document(scenario):
    """The document of a scenario's cards."""
    return document({key: scenario[key] for key in ("issuer", "card") if key in scenario})


def host_document(scenario):
    """The document of a scenario's issuer."""
    return document({"issuer": scenario["issuer"], "account": scenario["account"]})


def without(table, keys):
    return {key: value for key, value in table.items() if key not in keys}


def terminal_document(scenario, lane, purchase=None, keep=()):
    """The document of a lane's terminal with one of its purchases, counted from 0 and from 1, or with all of them. Of the keys of
    a lane that a terminal doesn't need it has those that are to be kept."""
    terminal, issuer = scenario["lane"][lane], scenario.get("issuer")
    chosen = terminal["purchase"] if purchase is None else [terminal["purchase"][purchase - 1]]
    purchases = [without(one, NOT_OF_A_DIALOGUE) for one in chosen]
    key = {"pin_key": issuer["pin_key"]} if isinstance(issuer, dict) and "pin_key" in issuer else {}
    return document({**key, "lane": {**without(terminal, set(NOT_OF_A_TERMINAL) - set(keep)), "purchase": purchases}})
