"""The walk: a purchase of a log beside what the proved terminal says to the same answers.

`terminal_at_reader` is the reference. It gets the terminal's facts, and at each of its commands the answer that the log has to
it; where log and reference differ, the walk tells whether the Books permit it, and goes on as long as that is sensible.
"""
from dataclasses import replace

from yollenka.lab import replies
from yollenka.lab.compare import generate_differences, message_differences, options_differences
from yollenka.lab.emv import ask_name, command_name, said
from yollenka.lab.endings import end_differences
from yollenka.lab.facts import settle, without_pad
from yollenka.lab.logs import CARD, HOST, READING
from yollenka.lab.oracle import Reference, reasons
from yollenka.lab.permitted import COUNTERS, VERIFY, Scene, aside, excuse_of, lacking
from yollenka.lab.rules import rules_of, rules_of_difference, rules_of_end
from yollenka.lab.verdict import (
    BEHIND, FAILED, INCONCLUSIVE, LACKING, NOTE, OPEN, OWN, PASSED, PERMITTED, SUPPLIED, WRONG, Line, Verdict,
)
from yollenka.model.objects import account_number

GENERATE, OPTIONS, SELECT, GET_DATA, READ = b"\x80\xae", b"\x80\xa8", b"\x00\xa4", b"\x80\xca", b"\x00\xb2"
# Between reading and the first GENERATE AC these stand in any order, verification and risk management beside each other.
FREE = (VERIFY, *COUNTERS)
BETWEEN = ("0020", "80ca")
NOT_THERE, NO_DATA, DONE = b"\x6a\x82", b"\x6a\x88", b"\x90\x00"


class Walk:
    """One walk beside one reference."""

    def __init__(self, purchase, settled):
        self.purchase, self.settled = purchase, settled
        self.log, self.used, self.at = purchase.exchanges, set(), 0
        self.said = said(self.log)
        self.lines, self.fitting = [], 0
        # The place in `fed` of the command that was wanted, by a finding's place: where its kind or its bits need a reason.
        self.wanted_at = {}
        # Of what kind a difference is from here on, where one before has changed the way.
        self.shade, self.is_stopped, self.is_supplied = None, False, False
        self.reference = Reference(settled.text())

    def run(self):
        """Walks to the end of the reference, or to where nothing sensible is left."""
        try:
            while self.reference.end is None and not self.is_stopped:
                self.step()
            if not self.is_stopped:
                self.finish()
        finally:
            self.reference.close()

    # The log.

    def left(self):
        """The places of the exchanges that nothing was made of yet."""
        return [at for at in range(self.at, len(self.log)) if at not in self.used]

    def take(self, at):
        """Counts an exchange as gone through."""
        self.used.add(at)
        while self.at in self.used:
            self.at += 1

    def scene(self, at):
        """Where the walk stands, with the log's exchange at this place."""
        now = self.log[at].sent if at is not None and self.log[at].side == CARD else None
        before = [one for one in self.log[: len(self.log) if at is None else at] if one.side == CARD]
        return Scene(now, self.said, self.settled.lane, before, self.settled.lacking)

    # Findings.

    def tell(self, kind, text, at=None, **more):
        """Adds a finding about the exchange at this place of the log."""
        place = {} if at is None else {"exchange": at + 1, "line": self.log[at].line}
        self.lines.append(Line(kind, text, **place, **more))

    def differ(self, kind, text, at=None, **more):
        """Adds a difference; what comes behind one may follow from it."""
        self.tell(self.shade or kind, text, at, **more)
        self.shade = BEHIND

    def is_open(self):
        """Whether something before can't be judged."""
        return any(line.kind in (OPEN, OWN) for line in self.lines)

    def stop(self, kind=None, text="", **more):
        """Ends the walk here."""
        if kind:
            self.differ(kind, text, **more) if kind in (WRONG, OPEN, OWN) else self.tell(kind, text)
        self.is_stopped = True

    # Steps.

    def reply(self, got):
        """Answers the reference."""
        self.reference.reply(got)

    def feed(self, at):
        """Answers the reference with what the log has."""
        one = self.log[at]
        self.take(at)
        if not one.is_told:
            self.tell(OPEN, f"the log ends before the answer to {ask_name(one.side, one.sent)}", at)
            return self.stop()
        self.fitting += self.shade is None
        return self.reply(one.got)

    def step(self):
        """One ask of the reference."""
        left, side = self.left(), self.reference.side
        if self.purchase.is_torn and not self.log:
            self.reply(None)
        elif not left:
            self.at_end_of_log()
        elif side == HOST:
            self.at_host(left[0])
        else:
            self.at_card(left[0])

    def at_end_of_log(self):
        """The log has nothing more, and the reference asks."""
        ask, end = ask_name(self.reference.side, self.reference.ask), self.purchase.end or ""
        if end == "lost":
            self.stop(NOTE, f"the terminal lost its power; the reference goes on with {ask}")
        elif end == READING:
            self.stop(NOTE, f"the card was read and no more; the reference goes on with {ask}")
        elif end.startswith("cut"):
            self.stop(OPEN, f"the card was gone, and the log has no {ask} without an answer")
        else:
            section = rules_of(self.reference.ask, self.reference.fed[:-1])
            self.stop(WRONG, f"the talk ends here, wanted {ask}", section=section)

    def at_card(self, at):
        """The reference asks the card."""
        now, ask = self.log[at], self.reference.ask
        if now.side == CARD and self.is_same(now.sent, ask, at):
            return self.feed(at)
        if now.side == CARD and len(now.sent) > 5 and now.sent[:2] == ask[:2] and now.sent[:2] in (GENERATE, OPTIONS):
            return self.compare(at)
        rules = (self.is_left_out, self.is_again, self.is_later, self.is_aside, self.is_early)
        if len(now.sent) < 4 or not any(rule(at) for rule in rules):
            self.wrong(at)
        return None

    def is_same(self, sent, ask, at):
        """Whether the log has what is asked; Le may lack behind data."""
        if sent == ask:
            return True
        if sent + b"\0" != ask or len(ask) <= 6:
            return False
        if not self.purchase.is_byte_protocol and sent[:2] not in (GENERATE, OPTIONS):
            self.tell(PERMITTED, f"Le of {command_name(ask)} isn't in the log", at)
        return self.purchase.is_byte_protocol or sent[:2] not in (GENERATE, OPTIONS)

    # What the Books permit.

    def free(self, at):
        """The places from here on where the order is free: up to the next command of another kind."""
        for place in self.left():
            one = self.log[place]
            if place < at:
                continue
            if one.side == HOST or one.sent.hex()[:4] not in BETWEEN:
                return
            yield place

    def is_left_out(self, at):
        """The reference's command lacks, and may."""
        ask = self.reference.ask
        rule, answer = lacking(self.scene(at), ask)
        if rule is None or any(self.log[place].sent == ask for place in self.free(at)):
            return False
        self.tell(rule.kind, rule.text, at, section=rule.section)
        self.reply(answer)
        return True

    def is_again(self, at):
        """The log reads a counter once more."""
        was = any(self.log[place].sent == self.log[at].sent for place in self.used)
        return was and self.log[at].sent.hex().startswith(COUNTERS) and self.is_aside(at)

    def is_later(self, at):
        """The reference's command stands later, where the order is free."""
        ask = self.reference.ask
        if not ask.hex().startswith(FREE):
            return False
        found = next((place for place in self.free(at) if self.log[place].sent == ask), None)
        if found is None:
            return False
        sections = "Book 3, 10.6.3" if ask[:2] == GET_DATA else "Book 3, 10.5 and 10.6"
        self.tell(PERMITTED, f"{command_name(ask)} stands later", found, section=sections)
        self.feed(found)
        return True

    def is_aside(self, at):
        """The log's command is none of the reference's, and may be."""
        one = self.log[at]
        rule = aside(self.scene(at)) if one.side == CARD else None
        if rule is None:
            return False
        self.tell(rule.kind, f"{command_name(one.sent)}: {rule.text}", at, section=rule.section)
        self.take(at)
        return True

    def is_early(self, at):
        """The terminal declines before it has all results, as a denial code has a set bit already."""
        sent = self.log[at].sent
        if self.log[at].side == HOST or sent[:3] != GENERATE + b"\0" or self.reference.ask[:2] == GENERATE:
            return False
        own = [bytes.fromhex(row["denial"]) for row in self.settled.lane["aid"]] + [self.said.held.get(0x9F0E, b"")]
        results = self.said.first_results() or b""
        if len(self.said.generated) == 0 or not any(one & other for code in own for one, other in zip(code, results)):
            return False
        text = "an AAC is asked for before all results are there, as a denial code has a set bit"
        self.tell(OPEN, text, at, section="Book 3, 10.7")
        self.stop()
        return True

    # What differs.

    def compare(self, at):
        """Compares the log's GENERATE AC or GET PROCESSING OPTIONS with the reference's, and goes on with its answer."""
        now, ask, scene = self.log[at], self.reference.ask, self.scene(at)
        if ask[:2] == OPTIONS:
            found = options_differences(scene, now.sent, ask, self.purchase.is_byte_protocol)
        else:
            list_ = self.said.held.get(0x8D if self.has_generated() else 0x8C, b"")
            found = generate_differences(scene, list_, now.sent, ask, self.purchase.is_byte_protocol)
        self.tell_differences(found, at, now.sent, ask)
        self.feed(at)

    def has_generated(self):
        """Whether the reference has sent a GENERATE AC before the one that it sends now."""
        return any(entry.startswith("> 80ae") for entry in self.reference.fed[:-1])

    def tell_differences(self, found, at, sent, ask):
        """Tells the differences of one command: what is wrong of it as one finding, with the bytes."""
        for one in found:
            if one.kind != WRONG:
                self.tell(one.kind, one.text, at, section=one.section, details=one.details)
        wrong = [one for one in found if one.kind == WRONG]
        excused = [one for one in found if one.kind in (OPEN, OWN)]
        if not wrong:
            return
        name = ask_name(self.log[at].side, sent)
        is_kind = any(one.is_kind for one in wrong)
        text = f"{name}, wanted {ask_name(self.log[at].side, ask)}" if is_kind else f"{name}, with other bytes"
        details = [detail for one in wrong for detail in (one.details or (one.text,)) if not one.is_kind]
        only_kind = all(one.is_kind for one in wrong)
        kind = excused[0].kind if excused and only_kind else OPEN if only_kind and self.may_ask_otherwise() else WRONG
        bits = next((one.bits for one in wrong if one.bits), 0)
        section = rules_of_difference(ask, self.reference.fed[:-1], bits, is_kind)
        self.differ(kind, text, at, sent=sent, wanted=ask, details=tuple(details), section=section)
        if is_kind or bits:
            self.wanted_at.setdefault(len(self.lines) - 1, len(self.reference.fed) - 1)

    def may_ask_otherwise(self):
        """Whether what no one gave may explain that another kind of cryptogram is asked for, by the same results."""
        lacking_ = self.settled.lacking
        return any(key.startswith(("aid", "kind")) for key in lacking_) or bool(lacking_) and self.said.first_results() is None

    def wrong(self, at):
        """A difference that nothing permits. The walk goes on where that is sensible."""
        now, ask = self.log[at], self.reference.ask
        name, wanted = ask_name(now.side, now.sent), command_name(ask)
        excuse = None
        if now.side == CARD:
            excuse = excuse_of(self.scene(at), ask) or excuse_of(self.scene(at), now.sent)
        text = f"{name}, wanted {wanted}"
        if excuse:
            self.differ(excuse.kind, f"{text}: {excuse.text}", at, section=excuse.section)
        else:
            shows = self.shows_bytes(now, ask)
            self.differ(WRONG, text if name != wanted else f"{name}, with other bytes", at,
                        section=rules_of(ask, self.reference.fed[:-1]), sent=now.sent if shows else None, wanted=ask if shows else None)
        self.mend(at)

    def shows_bytes(self, now, ask):
        """Whether the bytes may be shown: those of the first GENERATE AC hold guesses where the log doesn't come to it."""
        return now.side == CARD and (ask[:2] != GENERATE or bool(self.said.generated))

    def mend(self, at):
        """Goes on behind a difference: the log's command is too many, takes the place of the reference's, or that one lacks."""
        now, ask = self.log[at], self.reference.ask
        stands = [place for place in self.left()[1:4] if self.log[place].side == CARD and self.log[place].sent == ask]
        if stands or now.side == HOST:
            self.take(at)
        elif ask[:2] == READ and self.earlier(ask) is not None:
            self.supply(ask)
        elif is_like(now.sent, ask) or now.sent[:2] == ask[:2] and not self.is_record(now.sent):
            self.feed(at)
        else:
            self.supply(ask)

    def is_record(self, command):
        """Whether a command reads a record that the locator names."""
        groups = zip(*[iter(self.said.locator)] * 4)
        return command[:2] == READ and any(
            command[3] >> 3 == file >> 3 and begin <= command[2] <= end for file, begin, end, _ in groups)

    def earlier(self, ask):
        """The card's answer to this command where the log has one, else None."""
        return next((one.got for one in self.log if one.side == CARD and one.sent == ask and one.got), None)

    def supply(self, ask):
        """Answers a command that the log lacks, behind a difference: as before, or as a card that hasn't got it."""
        earlier, head = self.earlier(ask), ask[:2]
        if earlier is not None and head in (SELECT, READ):
            self.reply(earlier)
        elif head == SELECT:
            self.reply(NOT_THERE)
        elif head == GET_DATA:
            self.reply(NO_DATA)
        elif head in (GENERATE, OPTIONS, READ):
            self.stop(NOTE, f"nothing behind it can be judged, for want of an answer to {command_name(ask)}")
        else:
            self.reply(DONE)

    # The host.

    def at_host(self, at):
        """The reference asks the host."""
        now = self.log[at]
        hosts = [place for place in self.left() if self.log[place].side == HOST]
        if now.side == HOST:
            self.hear_host(at)
        elif hosts:
            section = rules_of(self.reference.ask, self.reference.fed[:-1])
            self.differ(WRONG, f"{command_name(now.sent)}, wanted the message to the host", at, section=section)
            self.take(at)
        else:
            self.invent(at)

    def hear_host(self, at):
        """The log has a message and a reply: in this project's form both are taken, else the reply is made from what follows."""
        now, ask = self.log[at], self.reference.ask
        if now.sent != ask and (now.sent[:1] == ask[:1] or now.sent[1:3] == ask[1:3]):
            found = list(message_differences(self.scene(at), now.sent, ask, self.settled.knows_pins and not self.is_open()))
            self.tell_differences(found, at, now.sent, ask)
        if not now.is_told or now.got is None or now.got[:1] == b"\xe2":
            return self.feed(at)
        self.take(at)
        self.fitting += self.shade is None
        return self.invent(at + 1)

    def invent(self, at):
        """Makes the host's reply from what follows in the log."""
        rest = [self.log[place] for place in self.left() if place >= at and self.log[place].side == CARD]
        reply, words = replies.made(rest, self.said)
        self.is_supplied = True
        self.tell(SUPPLIED, words, self.left()[0] if self.left() else None)
        self.reply(reply)

    # The end.

    def finish(self):
        """The reference has ended: what the log has beyond it, and how the log says that it ended."""
        ending = self.reference.end.split(" tvr=")[0]
        for at in self.left():
            if self.log[at].side == CARD and self.is_aside(at):
                continue
            self.beyond(at, ending)
            break
        if self.purchase.end not in (None, "", "lost", READING):
            left_out = ["scripts"] * self.is_supplied + ["tvr", "tsi", "cvm"] * self.is_open()
            for text, details in end_differences(self.purchase.end, self.reference.end, left_out):
                self.differ(WRONG, text, details=details)

    def beyond(self, at, ending):
        """The log goes on where the reference has ended."""
        one = self.log[at]
        kind, why, section = replies.going_on(ending, self.said, self.settled.lane)
        section = section or rules_of_end(ending)
        text = f"{ask_name(one.side, one.sent)}, but the reference ends {ending}{why}"
        self.differ(kind, text, at, section=section)


def is_like(sent, ask):
    """Whether a command is the other one but for at most two bytes."""
    return len(sent) == len(ask) and sum(one != other for one, other in zip(sent, ask)) <= 2


def status_of(walk):
    """The status by the findings, and by what no one told."""
    kinds = {line.kind for line in walk.lines}
    if WRONG in kinds:
        return FAILED
    return INCONCLUSIVE if kinds & {OPEN, OWN} or walk.settled.lacking else PASSED


def explained(walk):
    """The findings, with the reference's reasons at each command that was wanted in place of another."""
    if not walk.wanted_at:
        return walk.lines
    found = reasons(walk.reference.fed, walk.settled.lane)
    return [replace(line, because=tuple(found.get(walk.wanted_at.get(number), ()))) for number, line in enumerate(walk.lines)]


def needed(walk):
    """The keys that no one gave, as far as the reference came to need them: up to reading only the names count."""
    is_past = any(entry.startswith(("> 0020", "> 80ca", "> 80ae")) for entry in walk.reference.fed)
    return [key for key in walk.settled.lacking if is_past or key == "aid"]


def paid_in(walk):
    """The account number and the amount of an approval that the terminal keeps, else None."""
    if walk.purchase.end == "lost" or not (walk.reference.end or "").startswith("approved"):
        return None
    return account_number(walk.said.held.get(0x5A, b"")), walk.settled.lane["purchase"][0]["amount"]


def walked(purchase, settled):
    """The walk of a purchase by these facts."""
    walk = Walk(purchase, settled)
    walk.run()
    return walk


def judge(purchase, facts, is_explained=True):
    """The verdict on a purchase of a log (logs.Purchase) of a terminal of which this is known (facts.Facts), with the reference's
    reasons unless no one reads them. Raises Fault where the facts are no lane."""
    settled = settle(purchase, facts)
    walk = walked(purchase, settled)
    if "caps" in settled.lacking and any(line.kind in (WRONG, OPEN) for line in walk.lines):
        other = walked(purchase, without_pad(settled))
        walk = other if other.fitting > walk.fitting else walk
    settled, walk.settled.lacking = walk.settled, needed(walk)
    if settled.lacking:
        settled.lines.append(Line(LACKING, ", ".join(settled.lacking)))
    lines = [*settled.lines, *(explained(walk) if is_explained else walk.lines)]
    return Verdict(status_of(walk), lines, walk.reference.end, walk.reference.fed, walk.fitting, len(purchase.exchanges),
                   settled.lane, settled.lacking, paid_in(walk))
