"""The model's terminal with its purchases, led line by line (docs/use/reader.md, section 2)."""
import re

from yollenka.lab.host_dialect import as_object, in_dialect
from yollenka.model.terminal import Terminal

REPLY = re.compile(r"(host )?< (gone|none|-|(?:[0-9a-f]{2})+)")
SETTLED = re.compile(r"settle < (?:-|(?:[0-9a-f]{2})+)")
# What a line says that brings no answer of the card, or no reply of the host.
NOTHING = {False: "gone", True: "none"}


class TerminalAtLines:
    """A terminal, by its settings with their purchases. `said` is what it says first. Of a reply that can't be read it tells
    nothing, and a line that is none is answered by `?` wherever it is; a program ends behind one while it awaits a reply."""

    def __init__(self, settings):
        self.settings, self.is_iso = settings, settings["dialect"] == "iso"
        self.begun, self.log, self.waiting, self.question = 0, [], [], "?"
        # How long the log and the waiting messages were before the purchase that ended last, or behind a settlement since.
        self.before = 0, 0
        # The purchase that runs, and how many messages of a settlement were answered.
        self.terminal = self.course = self.asked = self.settled = None
        self.said = self.next()

    def answer(self, line):
        """What it says to a line."""
        if self.course:
            words = {"want": self.spoken, "why": self.terminal.why, "lost": self.break_off}
            return words[line]() if line in words else self.take(line)
        if self.settled is not None:
            return self.settling(line)
        if line == "why":
            return self.question
        words = {"next": self.next, "settle": self.settle, "lost": self.lose, "lost captured": self.lose_approval}
        return words[line]() if line in words else "?"

    def keep(self):
        """What there is can't be lost any more."""
        self.before = len(self.log), len(self.waiting)

    def next(self):
        """The next purchase begins, where one is left."""
        if self.begun == len(self.settings["purchase"]):
            return "?"
        self.keep()
        self.terminal = Terminal(self.settings, self.settings["purchase"][self.begun], self.log)
        self.course, self.begun = self.terminal.run(), self.begun + 1
        self.asked = next(self.course)
        return self.spoken()

    def spoken(self):
        """What the purchase asks, or how it has ended."""
        if not self.course:
            return f"end {self.terminal.end()}"
        step, said = self.asked
        return f"host > {in_dialect(said, self.is_iso).hex()}" if step == "online" else f"> {said.hex() or '-'}"

    def take(self, line):
        """Takes a reply, which has to be one that is awaited."""
        found, is_host = REPLY.fullmatch(line), self.asked[0] == "online"
        if not found or bool(found[1]) != is_host or found[2] == NOTHING[not is_host]:
            return "?"
        reply = None if found[2] == NOTHING[is_host] else bytes.fromhex(found[2].strip("-"))
        try:
            self.asked = self.course.send(as_object(self.asked[1], reply, self.is_iso) if is_host else reply)
        except StopIteration:
            self.end()
        return self.spoken()

    def end(self):
        """The purchase has ended: an approval joins the log, and what it captured waits."""
        self.course, self.question = None, self.terminal.why()
        if self.terminal.ending.startswith("approved"):
            self.log.append((self.terminal.pan, self.terminal.purchase["amount"]))
        if self.terminal.capture:
            self.waiting.append(self.terminal.capture)

    def break_off(self):
        """The power is lost in the purchase, which leaves nothing."""
        self.course, self.question = None, "?"
        return "lost"

    def lose(self):
        """The power is lost behind the purchase, and with it what that one brought."""
        self.lose_approval()
        del self.waiting[self.before[1] :]
        return "lost"

    def lose_approval(self):
        """The same where the store had its message."""
        del self.log[self.before[0] :]
        return "lost captured"

    def settle(self):
        """A settlement begins."""
        self.settled = 0
        return self.sent()

    def sent(self):
        """The message that waits for its reply, or the end of the settlement."""
        if self.settled < len(self.waiting):
            return f"settle > {in_dialect(self.waiting[self.settled], self.is_iso).hex()}"
        count, self.settled = self.settled, None
        self.waiting.clear()
        self.keep()
        return f"settled {count}"

    def settling(self, line):
        """What it says to a line in a settlement."""
        if line in ("want", "why"):
            return self.sent() if line == "want" else self.question
        if not SETTLED.fullmatch(line):
            return "?"
        self.settled += 1
        return self.sent()
