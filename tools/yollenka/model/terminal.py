"""The terminal's whole dialogue: behind what selection.py has, EMV 4.3 Book 3 sections 10.4 to 10.11, and the host between."""
from .ciphers import block_of, online_block
from .objects import (
    account_bytes, account_number, command, command_in, day, entries, entry_in, first, in_digits, objects, only, spelled, tag_text,
)
from .selection import (
    CardGone, Terminated, answer_to, ask, chosen, directory_of_candidates, list_data, list_of_candidates, ordered, read, template_in,
)

AAC, TC, ARQC = 0x00, 0x40, 0x80
RANK = [AAC, ARQC, TC]
WORDS = {AAC: "aac", TC: "tc", ARQC: "arqc"}
ATTENDED, ONLINE_ONLY, SELECTS_AT_RANDOM, OFFLINE_ONLY = (21, 22, 23), (21, 24), (22, 25), (23, 26)
NO_BIT, ALL_BITS = bytes(5), b"\xff" * 5
# The issuer's action codes: each one's object, and what stands for an absent one.
ISSUERS = {"denial": (0x9F0E, NO_BIT), "online": (0x9F0F, ALL_BITS), "default": (0x9F0D, ALL_BITS)}
# Methods of cardholder verification; of those that are known, an enciphered PIN is never supported.
FAIL, PLAIN_PIN, ONLINE_PIN, PLAIN_PIN_AND_SIGNATURE, SIGNATURE, NO_METHOD = 0x00, 0x01, 0x02, 0x03, 0x1E, 0x1F
KNOWN = (*range(6), SIGNATURE, NO_METHOD)
UNKNOWN, FAILED, SUCCESSFUL = 0, 1, 2


class Terminal:
    """One purchase of a terminal with these settings; `log` has the account numbers and amounts that it approved before."""

    def __init__(self, settings, purchase, log):
        self.settings, self.purchase, self.log = settings, purchase, log
        self.results, self.status, self.methods = bytearray(5), bytearray(2), bytes(3)
        self.held = self.code = self.cryptogram = self.capture = self.pin = None
        self.asked = self.replied = self.sent_results = None
        self.scripts, self.heard = [], False
        # The questions about a cryptogram that were decided on, each with what its kind rests on.
        self.questions = []
        self.objects = {
            0x9F02: in_digits(purchase["amount"], 6), 0x9F03: in_digits(purchase["other"], 6),
            0x9F1A: settings["country"], 0x5F2A: purchase["currency"], 0x9A: purchase["date"],
            0x9C: in_digits(purchase["trade"], 1), 0x9F21: purchase["time"], 0x9F37: purchase["number"],
            0x9F33: settings["caps"], 0x9F35: in_digits(settings["kind"], 1), 0x9F1C: settings["id"],
        }

    def run(self):
        """Yields the step with what is asked of the card, "online" with what is asked of the host, and is sent the reply, or
        None where none came; behind it the parts of the end stand here."""
        course, reply = self.dialogue(), None
        try:
            while True:
                reply = yield course.send(reply)
                self.heard = self.heard or reply is not None
        except StopIteration as end:
            self.ending = f"{'approved' if end.value == TC else 'declined'} {'online' if self.replied else 'offline'}"
        except Terminated as terminated:
            self.ending = str(terminated)
        except CardGone as gone:
            self.ending = f"cut {gone.step if self.heard else 'power'}"
        self.capture = self.captured()

    def dialogue(self):
        """All steps in order; the kind of the cryptogram that ends it."""
        yield from self.take_data()
        self.restrict()
        yield from self.verify()
        yield from self.judge()
        kind = yield from self.generate_first(self.wanted())
        return (yield from self.go_online()) if kind == ARQC else kind

    def standing(self):
        """The terminal's data objects as they stand."""
        marks = {0x95: bytes(self.results), 0x9B: bytes(self.status), 0x9F34: self.methods}
        return self.objects | marks | ({} if self.code is None else {0x8A: self.code})

    def take_data(self):
        """Selection, initiation and reading."""
        rows, confirms, candidates = self.settings["aid"], self.purchase["confirm"], []
        if self.settings["pse"]:
            candidates = ordered((yield from directory_of_candidates(rows)), confirms)
        if not candidates:
            candidates = ordered((yield from list_of_candidates(rows)), confirms)
        self.row, self.profile, files = yield from chosen(candidates, self.objects, self.standing)
        held = yield from read(self.profile, files)
        self.held, self.pan = held, account_number(held[0x5A])
        self.results[0] |= 0x80

    def restrict(self):
        """Processing restrictions."""
        held, today = self.held, day(self.purchase["date"])
        marks = {
            0x80: held.get(0x9F08, self.row["version"]) != self.row["version"],
            0x40: day(held[0x5F24]) < today,
            0x20: 0x5F25 in held and day(held[0x5F25]) > today,
            0x10: 0x9F07 in held and not self.serves(int.from_bytes(held[0x9F07])),
        }
        self.results[1] |= sum(bit for bit, holds in marks.items() if holds)

    def serves(self, usage):
        """Whether usage control lets a terminal that is no cash dispenser do this; each domestic bit stands before the
        international one."""
        wanted = [0x0100]
        if 0x5F28 in self.held:
            trade = self.purchase["trade"]
            bits = [0x8000] if trade == 1 else [0x0800 if self.purchase["services"] else 0x2000]
            bits += [0x0080] if trade == 9 else []
            wanted += bits if self.held[0x5F28] == self.settings["country"] else [bit >> 1 for bit in bits]
        return all(usage & bit for bit in wanted)

    def verify(self):
        """Cardholder verification: rules are gone through up to the first that is good, or that lets no other follow."""
        rules = self.held.get(0x8E, b"")[8:]
        if not self.profile[0] & 0x10 or not rules:
            self.methods = b"\x3f\0\0"
            self.results[0] |= 0x20 if self.profile[0] & 0x10 else 0
            return
        marks, methods, good, pins = 0, b"\x3f\0\x01", False, list(self.purchase["pins"])
        for method, condition in zip(rules[::2], rules[1::2]):
            if not self.applies(method & 0x3F, condition):
                continue
            mark, result = yield from self.perform(method & 0x3F, pins)
            marks |= mark
            if result is not None:
                methods, good = bytes([method, condition, result]), result != FAILED
            if good or not method & 0x40:
                break
        self.results[2] |= marks | (0 if good else 0x80)
        self.methods = methods
        self.status[0] |= 0x40

    def supports(self, code):
        """Whether the terminal supports a method."""
        caps = self.settings["caps"][1]
        wanted = {FAIL: 0, PLAIN_PIN: 0x80, ONLINE_PIN: 0x40, PLAIN_PIN_AND_SIGNATURE: 0xA0, SIGNATURE: 0x20, NO_METHOD: 0x08}
        return code in wanted and caps & wanted[code] == wanted[code]

    def applies(self, code, condition):
        """Whether a rule's condition holds."""
        trade, amount, limits = self.purchase["trade"], self.purchase["amount"], self.held[0x8E]
        in_currency = self.held.get(0x9F42) == self.purchase["currency"]
        x, y = int.from_bytes(limits[:4]), int.from_bytes(limits[4:8])
        attended = self.settings["kind"] in ATTENDED
        holds = [
            True, trade == 1 and not attended, trade == 0, self.supports(code), trade == 1 and attended, trade == 9,
            in_currency and amount < x, in_currency and amount > x, in_currency and amount < y, in_currency and amount > y,
        ]
        return condition < len(holds) and holds[condition]

    def perform(self, code, pins):
        """What a method marks, and its result, which is None where it isn't performed."""
        if not self.supports(code):
            if code not in KNOWN:
                return 0x40, None
            return 0x00 if code in (SIGNATURE, NO_METHOD) else 0x10, None
        if code in (FAIL, SIGNATURE, NO_METHOD):
            return 0, {FAIL: FAILED, SIGNATURE: UNKNOWN, NO_METHOD: SUCCESSFUL}[code]
        if code == ONLINE_PIN and pins:
            self.pin = pins.pop(0)
            return 0x04, UNKNOWN
        while pins:
            _, status = yield from ask("verify", command("00200080", block_of(2, pins.pop(0)), b""))
            if status == "9000":
                return 0, SUCCESSFUL if code == PLAIN_PIN else UNKNOWN
            if status in ("63c0", "6983", "6984"):
                return 0x20, FAILED
            if status[:3] != "63c":
                return 0, FAILED
        return 0x08, FAILED

    def judge(self):
        """Terminal risk management."""
        first_marks, second_marks, marks = 0x10 if self.pan in self.settings["exceptions"] else 0, 0, 0
        marks |= 0x08 if self.purchase["forced"] else 0
        manages = bool(self.profile[0] & 0x08)
        if manages:
            marks |= self.limits()
            if self.settings["kind"] not in ONLINE_ONLY and 0x9F14 in self.held and 0x9F23 in self.held:
                counter = yield from self.counter(0x9F36)
                before = yield from self.counter(0x9F13)
                first_marks |= 0x20 if counter is None or before is None else 0
                second_marks |= 0x08 if before == 0 else 0
                marks |= self.velocity(counter, before)
        self.results[0] |= first_marks
        self.results[1] |= second_marks
        self.results[3] |= marks
        self.status[0] |= 0x08 if manages else 0

    def limits(self):
        """The floor limit, with what the account paid last, and random selection."""
        amount, row, kind = self.purchase["amount"], self.row, self.settings["kind"]
        before = [paid for pan, paid in self.log if pan == self.pan][-1:]
        marks = 0x80 if kind not in ONLINE_ONLY and amount + sum(before) >= row["floor"] else 0
        if kind in SELECTS_AT_RANDOM and amount < row["floor"]:
            drawn, target = self.purchase["word"] % 99 + 1, row["target"]
            above, width = amount - row["threshold"], row["floor"] - row["threshold"]
            if above < 0:
                chosen_ = drawn <= target
            else:
                chosen_ = drawn * width <= (row["max_target"] - target) * above + target * width
            marks |= 0x10 if chosen_ else 0
        return marks

    def counter(self, tag):
        """GET DATA of a counter, or None."""
        body, status = yield from ask("risk", command(f"80CA{tag:04X}"))
        one = only(body, tag) if status == "9000" else None
        return int.from_bytes(one.value) if one and len(one.value) == 2 else None

    def velocity(self, counter, before):
        """Which of the consecutive limits are passed."""
        if counter is None or before is None or counter <= before:
            return 0x60
        lower, upper = self.held[0x9F14][0], self.held[0x9F23][0]
        return (0x40 if counter - before > lower else 0) | (0x20 if counter - before > upper else 0)

    def meets(self, tag, absent, own):
        """Whether a mark stands in an action code of the card or of the terminal."""
        return any(mark & (card | its) for mark, card, its in zip(self.results, self.held.get(tag, absent), self.row[own]))

    def analysed(self, which, kind, *names):
        """Keeps a question that action analysis has decided on, with these of the action codes."""
        issuer = [f"issuer_{name} {self.held.get(*ISSUERS[name]).hex()}" for name in names]
        own = [f"terminal_{name} {self.row[name].hex()}" for name in names]
        basis = f"type {self.settings['kind']} tvr {self.results.hex()}"
        self.questions.append(" ".join((f"why {which} kind {WORDS[kind]}", basis, *issuer, *own)))

    def why(self):
        """What a terminal at lines answers to `why`."""
        return self.questions[-1] if self.questions else "?"

    def wanted(self):
        """The kind of cryptogram that is asked for first."""
        if self.meets(*ISSUERS["denial"], "denial"):
            return AAC
        if self.settings["kind"] in ONLINE_ONLY:
            return ARQC
        if self.settings["kind"] in SELECTS_AT_RANDOM:
            return ARQC if self.meets(*ISSUERS["online"], "online") else TC
        return AAC if self.meets(*ISSUERS["default"], "default") else TC

    def unable(self):
        """The kind that is asked for where the terminal can't go online."""
        return AAC if self.settings["kind"] in ONLINE_ONLY or self.meets(*ISSUERS["default"], "default") else TC

    def generate(self, step, asked, tag):
        """GENERATE AC; the kind that is answered."""
        data = list_data(self.held[tag], tag_text(tag), step, self.held, self.standing())
        if step == "first" or entry_in(entries(self.held[tag]), 0x95, 5, data) is not None:
            self.sent_results = bytes(self.results)
        body, status = yield from ask(step, command(f"80AE{asked:02X}00", data))
        if status != "9000":
            raise Terminated(step, f"status {status}")
        info, counter, code, issuer = cryptogram_in(body, step)
        kind = info & 0xC0
        if kind not in RANK or RANK.index(kind) > RANK.index(asked) or (step, kind) == ("second", ARQC):
            raise Terminated(step, f"kind {info:02x}")
        self.cryptogram = {0x9F36: counter, 0x9F26: code, 0x9F10: issuer}
        return kind

    def generate_first(self, asked):
        """The first cryptogram, after which the card has managed its risk; an offline decision sets the response code."""
        self.analysed("first", asked, *ISSUERS)
        codes = {TC: b"Y1", AAC: b"Z1", ARQC: None}
        self.code = codes[asked]
        kind = yield from self.generate("first", asked, 0x8C)
        self.code = codes[kind]
        self.status[0] |= 0x20
        return kind

    def go_online(self):
        """From the request to the last script."""
        reply = None
        if self.settings["kind"] not in OFFLINE_ONLY:
            self.asked = self.cryptogram[0x9F36]
            reply = reply_in((yield "online", self.request()))
        if reply is None:
            kind = self.unable()
            self.analysed("second", kind, "default")
            self.code = b"Y3" if kind == TC else b"Z3"
            return (yield from self.generate("second", kind, 0x8D))
        self.code, authentication, templates = reply
        asked, self.replied = TC if self.code == b"00" else AAC, True
        self.questions.append(f"why second kind {WORDS[asked]} code {self.code.hex()}")
        if authentication is not None:
            self.objects[0x91] = authentication
            yield from self.authenticate(authentication)
        yield from self.run_scripts(0x71, templates, 0x20)
        kind = yield from self.generate("second", asked, 0x8D)
        yield from self.run_scripts(0x72, templates, 0x10)
        return kind

    def authenticate(self, data):
        """EXTERNAL AUTHENTICATE, where the card wants it."""
        if self.profile[0] & 0x04:
            _, status = yield from ask("authenticate", command("00820000", data, b""))
            self.status[0] |= 0x10
            self.results[4] |= 0 if status == "9000" else 0x40

    def run_scripts(self, tag, templates, mark):
        """The templates with this tag. Behind the second cryptogram a card that is gone fails its script and the others."""
        gone = False
        for template in (one for one in templates if one.tag == tag):
            result = bytes(5)
            identifier, commands = script_in(template.value)
            if commands is not None and not gone:
                failed, gone = yield from self.run_commands(commands, tag == 0x72)
                result = bytes([0x10 | min(failed, 15) if failed else 0x20]) + identifier
            self.scripts.append(result)
            self.status[0] |= 0x04
            self.results[4] |= 0 if result[0] == 0x20 else mark

    def run_commands(self, commands, is_last):
        """The number of the command that failed, or 0, and whether the card is gone."""
        for number, said in enumerate(commands, 1):
            if command_in(said) is None:
                return number, False
            try:
                answer = yield from answer_to("script", said)
            except CardGone:
                if is_last:
                    return number, True
                raise
            if not 2 <= len(answer) <= 258 or answer[-2] not in (0x90, 0x62, 0x63):
                return number, False
        return 0, False

    def head(self):
        """What each message begins with."""
        sequence = spelled(0x5F34, self.held[0x5F34]) if 0x5F34 in self.held else b""
        return spelled(0x9F1C, self.objects[0x9F1C]) + spelled(0x5A, account_bytes(self.pan)) + sequence

    def sale(self):
        """What a request and a presentment have of the purchase and its cryptogram."""
        values = self.objects | self.cryptogram | {0x95: self.sent_results, 0x82: self.profile}
        order = (0x9F02, 0x9F03, 0x9F1A, 0x95, 0x5F2A, 0x9A, 0x9C, 0x9F37, 0x82, 0x9F36, 0x9F26, 0x9F10)
        return b"".join(spelled(tag, values[tag]) for tag in order)

    def request(self):
        """The request to the issuer."""
        key, pin = self.settings["pin_key"], self.pin
        block = b"" if pin is None else spelled(0xDF11, online_block(key, pin, self.pan))
        return spelled(0xE1, self.head() + spelled(0x5F24, self.held[0x5F24]) + self.sale() + block)

    def captured(self):
        """The message that is kept for settlement: a presentment, a reversal, or None."""
        if self.ending.startswith("approved"):
            return spelled(0xE3, self.head() + self.sale() + spelled(0x8A, self.code))
        if not self.asked or self.replied and self.code != b"00":
            return None
        values = self.objects | {0x9F36: self.asked, 0x8A: self.code}
        return spelled(0xE4, self.head() + b"".join(spelled(tag, values[tag]) for tag in (0x9F36, 0x9F02, 0x5F2A, 0x8A)))

    def end(self):
        """What an end line has behind its number."""
        last = self.cryptogram or {}
        return (
            f"{self.ending} tvr={self.results.hex()} tsi={self.status.hex()} cvm={self.methods.hex()} "
            f"arc={self.code.decode('latin1') if self.code else '--'} atc={last.get(0x9F36, b'').hex() or '-' * 4} "
            f"ac={last.get(0x9F26, b'').hex() or '-' * 16} scripts={b''.join(self.scripts).hex() or '-'}"
        )


def cryptogram_in(body, step):
    """What an answer to GENERATE AC gives: the information byte, the counter, the cryptogram, the issuer's data."""
    one = template_in(body, step)
    if one.tag == 0x80:
        if not 11 <= len(one.value) <= 43:
            raise Terminated(step, "value 80")
        return one.value[0], one.value[1:3], one.value[3:11], one.value[11:]
    inner, taken = objects(one.value)[0], []
    for tag, sizes in ((0x9F27, [1]), (0x9F36, [2]), (0x9F26, [8]), (0x9F10, range(33))):
        value = first(inner, tag)
        if value is None and tag != 0x9F10:
            raise Terminated(step, f"missing {tag_text(tag)}")
        if len(value or b"") not in sizes:
            raise Terminated(step, f"value {tag_text(tag)}")
        taken.append(value or b"")
    return taken[0][0], *taken[1:]


def reply_in(message):
    """The response code, the authentication data or None, and the templates of a reply; None where it can't be read."""
    outer = only(message, 0xE2) if message is not None else None
    inner, fault = objects(outer.value) if outer else ([], 0)
    if fault is not None or not inner or inner[0].tag != 0x8A or len(inner[0].value) != 2:
        return None
    code, authentication, templates = inner[0].value, None, inner[1:]
    if templates and templates[0].tag == 0x91:
        authentication, templates = templates[0].value, templates[1:]
        if not 8 <= len(authentication) <= 16:
            return None
    if any(one.tag not in (0x71, 0x72) for one in templates) or len(templates) > 8:
        return None
    if templates and templates[-1].at + len(templates[-1].value) - templates[0].start > 1024:
        return None
    return code, authentication, templates


def script_in(template):
    """The identifier and the commands of a script; no commands are None where it isn't of the form."""
    inner, fault = objects(template)
    identifier = bytes(4)
    if inner and inner[0].tag == 0x9F18 and len(inner[0].value) == 4:
        identifier, inner = inner[0].value, inner[1:]
    if fault is not None or any(one.tag != 0x86 for one in inner):
        return identifier, None
    return identifier, [one.value for one in inner]
