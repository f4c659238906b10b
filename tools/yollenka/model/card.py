"""A card: its state in bytes, its decisions, and its answers (docs/proof/profile.md, docs/proof/formats.md)."""
from .ciphers import block_of, code_of, counted_key, decipher_two, pin_in, response_one, response_two, session_key
from .memory import Store
from .objects import command_in, entries, entry_in, has_digits, only, spelled, total
from .selection import DIRECTORY
from .terminal import AAC, ARQC, TC

# What GENERATE AC has of the object list's data: each tag with its length, in the order of the cryptogram's input.
FIELDS = {0x9F02: 6, 0x9F03: 6, 0x9F1A: 2, 0x95: 5, 0x5F2A: 2, 0x9A: 3, 0x9C: 1, 0x9F37: 4}
# The numbers of an application's state, with their bytes.
NUMBERS = {"counter": 2, "last_online": 2, "count": 1, "sum": 8, "count_limit": 1, "sum_limit": 8, "tries": 1}
LATER_NUMBERS = {"sum_two": 8, "limit_two": 8, "log_max": 1}
NO_PIN, ROW = bytes(8), 14
MOST_BODY = 256
# The instructions of each class.
INSTRUCTIONS = {0x00: b"\xa4\xb2\x20\x82", 0x80: b"\xa8\xca\xae", 0x84: b"\x1e\x18\x16\x24", 0x04: b"\xda"}
SCRIPT_DATA = {"841E0000": 0, "84180000": 0, "84160000": 0, "84240000": 0, "84240002": 8, "04DADF01": 1, "04DADF02": 6}
GOOD = "9000"
KINDS = {AAC: "aac", TC: "tc", ARQC: "arqc"}


def written(numbers, app):
    """These numbers of an application in bytes."""
    return b"".join(app[name].to_bytes(size) for name, size in numbers.items())


def encoded(state, version=2):
    """The bytes of a state."""
    out = bytes([version, len(state["apps"]), state["blocked"]])
    for app in state["apps"]:
        out += written(NUMBERS, app) + bytes([app["blocked"] + 2 * app["auth_failed"]]) + app["pin"]
        if version == 2:
            out += written(LATER_NUMBERS, app) + bytes([len(app["log"])]) + b"".join(app["log"])
    return out


class Reader:
    """Takes bytes from the front."""

    def __init__(self, data):
        self.data = data

    def take(self, size):
        """The next bytes."""
        taken, self.data = self.data[:size], self.data[size:]
        return taken

    def number(self, size=1):
        """The next number."""
        return int.from_bytes(self.take(size))


def decoded(data):
    """The state of these bytes, and its version."""
    reader = Reader(data)
    version, count, blocked = (reader.number() for _ in range(3))
    apps = []
    for _ in range(count):
        app = {name: reader.number(size) for name, size in NUMBERS.items()}
        flags = reader.number()
        app |= {"blocked": bool(flags & 1), "auth_failed": bool(flags & 2), "pin": reader.take(8)}
        app |= {name: reader.number(size) if version == 2 else 0 for name, size in LATER_NUMBERS.items()}
        app["log"] = [reader.take(ROW) for _ in range(reader.number() if version == 2 else 0)]
        apps.append(app)
    return version, {"blocked": bool(blocked), "apps": apps}


def opening(image):
    """The state with which a card is made."""
    apps = [
        {name: app.get(name, 0) for name in (*NUMBERS, *LATER_NUMBERS)}
        | {"blocked": app["blocked"], "auth_failed": False, "log": [], "log_max": app["log"],
           "pin": NO_PIN if app["pin"] is None else block_of(2, app["pin"])}
        for app in image["app"]
    ]
    return {"blocked": False, "apps": apps}


def amount_in(value):
    """The number of twelve half bytes, which needn't be digits."""
    return sum(int(half, 16) * 10**place for place, half in enumerate(reversed(value.hex())))


class Card:
    """A card with applications; a call may raise Lost."""

    def __init__(self, image):
        self.image, self.decided, self.reason = image, [], None
        self.store = Store(encoded(opening(image), image["version"]))

    def power_up(self, tear=None):
        """Turns the card on."""
        self.store.open(tear, self.converted)
        _, self.state = decoded(self.store.state)
        self.phase, self.app, self.its = "idle", None, None

    def converted(self, old):
        """The present form of an old state."""
        version, state = decoded(old)
        if version == 2:
            return None
        for app, its in zip(state["apps"], self.image["app"]):
            app |= {"limit_two": its["limit_two"], "log_max": its["log"]}
        return encoded(state)

    def counters(self):
        """What a power line shows."""
        shown = []
        for app, its in zip(self.state["apps"], self.image["app"]):
            numbers = [app[name] for name in ("counter", "last_online", "count", "sum", "tries")]
            numbers += [app["blocked"] + 2 * app["auth_failed"]] + ([app["sum_two"]] if its["currency_two"] else [])
            shown.append(",".join(map(str, numbers)))
        return " ".join(shown)

    def decide(self, words, card=None, **changes):
        """A decision in words: these parts of the application, or of the card, are changed, in one commit."""
        self.decided.append(f"app {self.place} {words}")
        self.app.update(changes)
        self.state.update(card or {})
        self.store.commit(encoded(self.state))

    def answer(self, said):
        """The answer to a command."""
        one = command_in(said)
        if one is None:
            return bytes.fromhex("6700")
        body, status = self.respond(one.header, one.data)
        return body + bytes.fromhex(status)

    def respond(self, header, data):
        """The checks of a command's class, instruction and parameters, and then of its row."""
        class_, instruction, *parameters = header
        if class_ not in INSTRUCTIONS:
            return b"", "6e00"
        if instruction not in INSTRUCTIONS[class_]:
            return b"", "6d00"
        if class_ in (0x84, 0x04):
            return self.script(header, data)
        rows = {
            0xA4: (self.select, parameters in ([4, 0], [4, 2])),
            0xB2: (self.read, parameters[0] and parameters[1] & 7 == 4 and 1 <= parameters[1] >> 3 <= 30),
            0x20: (self.verify, parameters == [0, 0x80]), 0x82: (self.authenticate, parameters == [0, 0]),
            0xA8: (self.initiate, parameters == [0, 0]), 0xCA: (self.get_data, True),
            0xAE: (self.generate, parameters[0] in (AAC, TC, ARQC) and parameters[1] == 0),
        }
        row, fits = rows[instruction]
        return row(*parameters, data) if fits else (b"", "6a86")

    def select(self, _, occurrence, name):
        """SELECT."""
        if not 1 <= len(name) <= 16:
            return b"", "6700"
        if self.state["blocked"]:
            return b"", "6a81"
        if occurrence == 0 and self.image["pse"] is not None and name == DIRECTORY:
            self.phase, self.app = "directory", None
            inner = spelled(0x88, bytes([self.image["pse"]]))
            return spelled(0x6F, spelled(0x84, DIRECTORY) + spelled(0xA5, inner)), GOOD
        apps = self.image["app"]
        if occurrence and self.phase == "directory":
            return b"", "6a82"
        begin = apps.index(self.its) + 1 if occurrence and self.app else 0
        number = next((at for at in range(begin, len(apps)) if apps[at]["name"].startswith(name)), None)
        if number is None:
            return b"", "6a82"
        self.phase, self.app, self.its, self.place = "selected", self.state["apps"][number], apps[number], number
        return self.information(), "6283" if self.app["blocked"] else GOOD

    def information(self):
        """The application's file control information."""
        its = self.its
        inner = spelled(0x50, its["label"])
        inner += b"" if its["priority"] is None else spelled(0x87, bytes([its["priority"]]))
        inner += b"" if its["pdol"] is None else spelled(0x9F38, its["pdol"])
        inner += spelled(0xBF0C, spelled(0x9F4D, bytes([its["log_sfi"], its["log"]]))) if its["log"] else b""
        return spelled(0x6F, spelled(0x84, its["name"]) + spelled(0xA5, inner))

    def read(self, number, place, data):
        """READ RECORD, of the directory, of the log, or of a file."""
        file = place >> 3
        if self.phase == "idle":
            return b"", "6985"
        if data:
            return b"", "6700"
        if self.phase == "directory":
            records = [self.entry(app) for app in self.image["app"]] if file == self.image["pse"] else None
        elif self.its["log"] and file == self.its["log_sfi"]:
            records = self.app["log"]
        else:
            records = {one["number"]: one["bytes"] for one in self.its["record"] if one["sfi"] == file}
            return (records[number], GOOD) if number in records else (b"", "6a83" if records else "6a82")
        if records is None:
            return b"", "6a82"
        return (records[number - 1], GOOD) if number <= len(records) else (b"", "6a83")

    @staticmethod
    def entry(app):
        """A record of the directory."""
        indicator = b"" if app["priority"] is None else spelled(0x87, bytes([app["priority"]]))
        return spelled(0x70, spelled(0x61, spelled(0x4F, app["name"]) + spelled(0x50, app["label"]) + indicator))

    def get_data(self, high, low, data):
        """GET DATA."""
        if self.phase in ("idle", "directory"):
            return b"", "6985"
        if data:
            return b"", "6700"
        tag, app = high << 8 | low, self.app
        known = {0x9F36: app["counter"].to_bytes(2), 0x9F13: app["last_online"].to_bytes(2), 0x9F17: bytes([app["tries"]])}
        if self.its["log"]:
            known[0x9F4F] = bytes.fromhex("9F02065F2A029A039F36029F2701")
        return (spelled(tag, known[tag]), GOOD) if tag in known else (b"", "6a88")

    def initiate(self, _, __, data):
        """GET PROCESSING OPTIONS."""
        if self.phase != "selected":
            return b"", "6985"
        one, its = only(data, 0x83), self.its
        if one is None or len(one.value) != total(entries(its["pdol"] or b"")):
            return b"", "6700"
        if its["gpo_format"] == 1:
            body = spelled(0x80, its["aip"] + its["afl"])
        else:
            body = spelled(0x77, spelled(0x82, its["aip"]) + spelled(0x94, its["afl"]))
        if self.app["blocked"] or self.app["counter"] == 0xFFFF or len(body) > MOST_BODY:
            return b"", "6985"
        counter = self.app["counter"] + 1
        self.decide(f"started {counter}", counter=counter)
        self.phase, self.issuer, self.tried = "started", None, False
        return body, GOOD

    def verify(self, _, __, block):
        """VERIFY: a try is taken before the PIN is compared."""
        if self.phase != "started":
            return b"", "6985"
        if len(block) != 8:
            return b"", "6700"
        if self.app["pin"] == NO_PIN:
            return b"", "6a88"
        if self.app["tries"] == 0:
            return b"", "6983"
        tries = self.app["tries"] - 1
        self.decide(f"pin-try {tries}", tries=tries)
        if block != self.app["pin"]:
            return b"", f"63c{self.app['tries']:x}"
        self.decide(f"pin-right {self.its['tries']}", tries=self.its["tries"])
        return b"", GOOD

    def session_key(self):
        """The key of this transaction's cryptograms."""
        return counted_key(self.its["ac_key"], self.app["counter"].to_bytes(2))

    def authenticate(self, _, __, data):
        """EXTERNAL AUTHENTICATE: ten bytes are method 1, others method 2."""
        if self.phase != "online" or not self.its["aip"][0] & 0x04 or self.tried:
            return b"", "6985"
        if not 8 <= len(data) <= 16:
            return b"", "6700"
        if len(data) == 10:
            right, update = data[:8] == response_one(self.session_key(), self.request, data[8:]), None
        else:
            right, update = data[:4] == response_two(self.session_key(), self.request, data[4:]), data[4:8]
        steers = update[1] if right and update else 0
        changes = {"blocked": True} if steers & 0x40 else {}
        changes |= {"tries": self.its["tries"]} if steers & 0x10 else {}
        words = ["authenticated", "right" if right else "wrong"] + ["block"] * bool(steers & 0x40) + ["card-block"] * bool(steers & 0x20)
        words += [f"tries {self.its['tries']}"] * bool(steers & 0x10)
        self.decide(" ".join(words), {"blocked": True} if steers & 0x20 else {}, auth_failed=not right, **changes)
        self.tried = True
        self.issuer = (update or b"\x80\x80\0\0") if right else None
        return b"", GOOD if right else "6300"

    def generate(self, asked, _, data):
        """GENERATE AC, the first or the second one."""
        if self.phase not in ("started", "online"):
            return b"", "6985"
        wanted = entries(self.its["cdol1" if self.phase == "started" else "cdol2"])
        if len(data) != total(wanted):
            return b"", "6700"
        given = {tag: entry_in(wanted, tag, size, data) for tag, size in FIELDS.items()}
        if self.phase == "started":
            self.fields = given
            return self.first(asked)
        if asked == ARQC:
            return b"", "6a86"
        self.fields |= {tag: value for tag, value in given.items() if value is not None}
        return self.second(asked, entry_in(wanted, 0x8A, 2, data))

    def sum_and_limit(self):
        """The sum that this purchase adds to and its limit, by its currency; None where it is of neither."""
        by_currency = {self.its["currency_two"]: ("sum_two", "limit_two"), self.its["currency"]: ("sum", "sum_limit")}
        return by_currency.get(self.fields[0x5F2A])

    def own(self):
        """Whether the purchase is in the application's currency, in its second one, or in neither."""
        return {None: "neither", "sum": "one", "sum_two": "two"}[(self.sum_and_limit() or [None])[0]]

    def is_blocked(self):
        """Whether the card or the application is blocked."""
        return bool(self.app["blocked"] or self.state["blocked"])

    def because(self, which, asked, made, **further):
        """Why a cryptogram is of its kind, in the state before its decision: names with their values."""
        app, names = self.app, self.sum_and_limit()
        sum_, most = (app[name] for name in names) if names else (0, 0)
        return {
            "ac": which, "app": self.place, "asked": KINDS[asked], "made": KINDS[made], **further, "blocked": self.is_blocked(),
            "auth_failed": app["auth_failed"], "currency": self.fields[0x5F2A].hex(), "own": self.own(), "count": app["count"],
            "count_limit": app["count_limit"], "sum": sum_, "amount": amount_in(self.fields[0x9F02]), "sum_limit": most,
        }

    def sale(self):
        """The purchase in a decision's words."""
        return f"{self.own()} {amount_in(self.fields[0x9F02])}"

    def may_approve(self):
        """Whether the card approves offline."""
        app, names = self.app, self.sum_and_limit()
        if app["auth_failed"] or names is None or app["count"] >= app["count_limit"]:
            return False
        return app[names[0]] + amount_in(self.fields[0x9F02]) <= app[names[1]]

    def approved(self):
        """What an offline approval changes."""
        sum_, _ = self.sum_and_limit()
        return {"count": self.app["count"] + 1, sum_: self.app[sum_] + amount_in(self.fields[0x9F02])}

    def logged(self, kind):
        """The log with a row for this cryptogram."""
        row = b"".join(self.fields[tag] for tag in (0x9F02, 0x5F2A, 0x9A)) + self.app["counter"].to_bytes(2) + bytes([kind])
        return {"log": [row, *self.app["log"]][: self.app["log_max"]]}

    def first(self, asked):
        """The first cryptogram."""
        wanted = asked
        if self.is_blocked():
            asked = AAC
        kind = ARQC if asked == TC and not self.may_approve() else asked
        reason = self.because("first", wanted, kind)
        self.decide(f"first {KINDS[kind]} {self.sale()}",
                    **(self.approved() if kind == TC else {}), **({} if kind == ARQC else self.logged(kind)))
        self.reason = reason
        self.phase = "online" if kind == ARQC else "closed"
        body, self.request = self.cryptogram(kind)
        return body, GOOD

    def second(self, asked, code):
        """The second cryptogram."""
        kind, changes, issuer, rests = asked, {}, self.issuer, "alone"
        declined = bool(issuer and not issuer[0] & 0x80)
        if self.is_blocked() or declined:
            kind = AAC
        if issuer:
            rests = "authenticated" if issuer[1] & 0x80 else "held"
            changes = {"last_online": self.app["counter"]}
            changes |= {"count": 0, "sum": 0, "sum_two": 0} if issuer[1] & 0x80 else {}
        elif kind == TC and code == b"Y3":
            rests = "offline"
            kind, changes = (TC, self.approved()) if self.may_approve() else (AAC, {})
        elif kind == TC and self.its["aip"][0] & 0x04:
            kind = AAC
        reason = self.because("second", asked, kind, rests=rests, declined=declined, issuer_auth=bool(self.its["aip"][0] & 0x04))
        self.decide(f"second {KINDS[kind]} {rests} {self.sale()}", **changes, **self.logged(kind))
        self.phase, self.reason = "done", reason
        return self.cryptogram(kind)[0], GOOD

    def cryptogram(self, kind):
        """The body of an answer to GENERATE AC, and the cryptogram in it."""
        app, its = self.app, self.its
        counter, flags = app["counter"].to_bytes(2), app["blocked"] + 2 * app["auth_failed"]
        data = bytes([1, kind, flags, app["count"], app["tries"], 1])
        text = b"".join(self.fields[tag] for tag in FIELDS) + its["aip"] + counter + data
        code = code_of(self.session_key(), text)
        if its["ac_format"] == 1:
            return spelled(0x80, bytes([kind]) + counter + code + data), code
        parts = ((0x9F27, bytes([kind])), (0x9F36, counter), (0x9F26, code), (0x9F10, data))
        return spelled(0x77, b"".join(spelled(*part) for part in parts)), code

    def script(self, header, data):
        """A script command."""
        size = SCRIPT_DATA.get(header.hex().upper())
        if size is None:
            return b"", "6a86"
        if self.phase not in ("online", "done"):
            return b"", "6985"
        if len(data) != size + 8:
            return b"", "6700"
        data, code = data[:size], data[size:]
        text = header + self.app["counter"].to_bytes(2) + self.request + data
        if code != code_of(session_key(self.its["mac_key"], self.request), text):
            return b"", "6988"
        return b"", self.update(header.hex().upper(), data)

    def update(self, header, data):
        """What a script command changes; the status."""
        limit = {"tries": self.its["tries"]}
        if header == "84160000":
            self.decide("script card-block", {"blocked": True})
        elif header == "84240002":
            block = decipher_two(session_key(self.its["enc_key"], self.request), data)
            if pin_in(2, block) is None:
                return "6985"
            self.decide(f"script pin-change {limit['tries']}", pin=block, **limit)
        elif header == "04DADF02":
            if not has_digits(data):
                return "6985"
            self.decide(f"script sum-limit {int(data.hex())}", sum_limit=int(data.hex()))
        else:
            words, changes = {
                "841E0000": ("block", {"blocked": True}), "84180000": ("unblock", {"blocked": False}),
                "84240000": (f"pin-unblock {limit['tries']}", limit),
                "04DADF01": (f"count-limit {int.from_bytes(data)}", {"count_limit": int.from_bytes(data)}),
            }[header]
            self.decide(f"script {words}", **changes)
        return GOOD
