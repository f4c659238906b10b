"""The deviations of the small terminal: one fault each, or something that the Books permit.

Each is a function that changes the terminal of tools/yollenka/model for one purchase, with the cases in which it has to show:
a regular expression of their names.
"""
from functools import wraps

from yollenka.model import objects, selection, terminal
from yollenka.model.objects import command
from yollenka.model.terminal import AAC, ARQC, TC, Terminal

FAULTS, PERMITTED = {}, {}


def planted(cases, among=FAULTS):
    """Registers a deviation under its name, with the cases in which it shows."""
    def keep(install):
        among[install.__name__.replace("_", "-")] = install, cases
        return install
    return keep


def permitted(cases):
    """Registers a deviation that the Books permit, with cases in which it is told from the reference."""
    return planted(cases, PERMITTED)


def around(holder, name):
    """Puts a function in place of one of these, which gets the old one first."""
    def put(new):
        old = getattr(holder, name)
        setattr(holder, name, wraps(old)(lambda *given: new(old, *given)))
        return new
    return put


def deviating(names):
    """The terminal's class, with these deviations."""
    for name in names:
        (FAULTS | PERMITTED)[name][0]()
    return Terminal


def status_as(step, told, instead):
    """An answer with this status in a step is taken for one with another."""
    @around(selection, "ask")
    def ask(old, at, said):
        body, status = yield from old(at, said)
        return body, instead if at == step and status == told else status


def without_bits(name, byte, bits):
    """A step of the terminal that leaves these bits of the verification results out."""
    @around(Terminal, name)
    def step(old, self):
        told = yield from old(self)
        self.results[byte - 1] &= ~bits
        return told


# Selection.

@planted("^select-priorities-1-and-2$|^select-longer-names-two$")
def the_order_of_priorities():
    """Candidates are taken in the order found."""
    @around(terminal, "ordered")
    def ordered(old, found, confirms):
        return old([one._replace(indicator=(one.indicator or 0) & 0x80) for one in found], confirms)


@planted("^select-confirmation-refused-")
def the_confirmation():
    """An application that the cardholder didn't confirm is chosen."""
    around(terminal, "ordered")(lambda old, found, confirms: old(found, True))


@planted("^select-longer-name-without-partial$")
def partial_names():
    """A longer name is always a candidate."""
    around(selection, "belongs")(lambda old, name, row: name.startswith(row["name"]))


@planted("^select-application-blocked-")
def a_blocked_application():
    """An application that is answered 6283 is a candidate."""
    status_as("select", "6283", "9000")


@planted("^select-card-blocked-first$")
def a_blocked_card():
    """6A81 is taken for a name that isn't there."""
    status_as("select", "6a81", "6a82")


@planted("^select-one-name$")
def the_final_select():
    """There is no final SELECT: what was answered before is used again."""
    kept = {}

    @around(selection, "ask")
    def ask(old, step, said):
        if step == "select" and said in kept:
            return kept[said]
        kept[said] = yield from old(step, said)
        return kept[said]


@planted("^options-in-format-2$")
def format_2():
    """An answer in format 2 isn't read."""
    @around(selection, "template_in")
    def template_in(old, body, step):
        one = old(body, step)
        if one.tag == 0x77:
            raise selection.Terminated(step, "coding 0")
        return one


# Lists.

def fitted_otherwise(rows, fit):
    """Values of these formats are cut or filled otherwise."""
    @around(objects, "fitted")
    def fitted(old, value, length, row):
        return fit(value, length) if row in rows else old(value, length, row)


@planted("^pdol-9F1A-in-more|^list-9F02-9-bytes$")
def numbers_filled_on_the_right():
    """A number in a longer entry has its zeros on the right."""
    fitted_otherwise([objects.NUMERIC], lambda value, length: value[-length:].ljust(length, b"\0") if length else b"")


@planted("^pdol-9F1A-in-one|^list-9F02-4-bytes$")
def numbers_cut_on_the_right():
    """A number in a shorter entry loses its last digits."""
    fitted_otherwise([objects.NUMERIC], lambda value, length: value[:length].rjust(length, b"\0"))


@planted("^list-9F1C-15-bytes$")
def text_filled_with_blanks():
    """Text in a longer entry has blanks behind it."""
    fitted_otherwise([objects.TEXT], lambda value, length: value[:length].ljust(length, b" "))


@planted("^list-5A-12-bytes$")
def account_numbers_filled_with_zeros():
    """A compressed number in a longer entry has zeros behind it."""
    fitted_otherwise([objects.COMPRESSED], lambda value, length: value[:length].ljust(length, b"\0"))


# Reading and restrictions.

@planted("^read-two-files$|^read-files-1-and-10$")
def the_second_group():
    """Only the first group of the locator is read."""
    around(terminal, "read")(lambda old, profile, files: old(profile, files[:4]))


@planted("^locator-file-31$")
def a_wrong_locator():
    """The locator isn't checked."""
    around(selection, "check")(lambda old, locator: None)


@planted("^read-8D-missing$")
def a_missing_list():
    """Where 8D lacks, 8C is taken for it."""
    @around(selection, "gather")
    def gather(old, held, record):
        old(held, record)
        if 0x8C in held:
            held.setdefault(0x8D, held[0x8C])


@planted("^read-repeated-in-")
def repeated_objects():
    """Of two objects of a tag the second one counts."""
    @around(selection, "keep")
    def keep(old, held, tag, value):
        held[tag] = value


def restricted(change):
    """Changes what the processing restrictions have set."""
    @around(Terminal, "restrict")
    def restrict(old, self):
        old(self)
        change(self)


@planted("^restrictions-version-another$")
def versions():
    """The versions aren't compared."""
    def change(self):
        self.results[1] &= ~0x80
    restricted(change)


@planted("^restrictions-expiry-today$")
def the_last_day():
    """An application has expired on its last day."""
    def change(self):
        self.results[1] |= 0x40 if self.held[0x5F24] == self.purchase["date"] else 0
    restricted(change)


@planted("^restrictions-usage-(goods-abroad-without-foreign-goods|cash-abroad-without-foreign-cash)$")
def usage_abroad():
    """Usage control is always looked at as at home."""
    @around(Terminal, "serves")
    def serves(old, self, usage):
        held, self.held = self.held, self.held | ({0x5F28: self.settings["country"]} if 0x5F28 in self.held else {})
        told = old(self, usage)
        self.held = held
        return told


# Cardholder verification.

@planted("^cvm-passed-over-neither-cash-nor-cashback-for-cashback$")
def condition_2():
    """The condition `not cash and not cashback` always holds."""
    around(Terminal, "applies")(lambda old, self, code, condition: condition == 2 or old(self, code, condition))


@planted("^cvm-passed-over-under-x-in-another-currency$")
def the_currency_of_limits():
    """X and Y are compared in any currency."""
    @around(Terminal, "applies")
    def applies(old, self, code, condition):
        own = self.held.get(0x9F42)
        self.held[0x9F42] = self.purchase["currency"]
        told = old(self, code, condition)
        self.held[0x9F42] = own
        return told


@planted("^cvm-failed-fail-(fail|pin-not-entered)$")
def going_on_behind_a_failure():
    """The next rule is tried behind each one that fails."""
    @around(Terminal, "verify")
    def verify(old, self):
        rules = self.held.get(0x8E, b"")
        changed = rules[:8] + bytes(one | 0x40 if at % 2 == 0 else one for at, one in enumerate(rules[8:]))
        self.held[0x8E] = changed if rules else rules
        yield from old(self)
        self.held[0x8E] = rules


@planted("^cvm-method-06-unsupported-always$|^analysis-bit-3.7-in-")
def unknown_methods():
    """A method that isn't known sets no bit."""
    without_bits("verify", 3, 0x40)


@planted("^cvm-pin-(answered-63C0|without-a-try-left)$")
def the_try_limit():
    """A PIN that is blocked sets no bit."""
    without_bits("verify", 3, 0x20)


@planted("^cvm-pin-(right|of-five-digits)$")
def the_block_of_a_pin():
    """The PIN block is filled with zeros."""
    around(terminal, "block_of")(lambda old, form, pin: bytes.fromhex(old(form, pin).hex().replace("f", "0")))


@planted("^cvm-signature-if-(always|supported)$")
def a_signature_that_nobody_has_seen():
    """A signature is told to be successful."""
    @around(Terminal, "perform")
    def perform(old, self, code, pins):
        mark, result = yield from old(self, code, pins)
        return mark, terminal.SUCCESSFUL if code == terminal.SIGNATURE and result is not None else result


# Risk management and action analysis.

@planted("^risk-floor-equal-at-type-2[23]$")
def an_amount_at_the_floor():
    """An amount that is equal to the floor limit doesn't reach it."""
    @around(Terminal, "limits")
    def limits(old, self):
        marks = old(self)
        return marks & ~0x80 if self.purchase["amount"] == self.row["floor"] else marks


@planted("^risk-velocity-(5|9)-at-type-22$")
def the_limits_of_velocity():
    """A difference that is equal to a limit passes it."""
    around(Terminal, "velocity")(
        lambda old, self, counter, before: old(self, counter + 1 if counter is not None else None, before))


@planted("^risk-velocity-(new-card|never-online)$|^analysis-bit-2.4-in-")
def a_new_card():
    """A card that was never online isn't told as new."""
    without_bits("judge", 2, 0x08)


@planted("^risk-random-(below-threshold-10-at-type-22|at-the-threshold-10)$")
def the_target_itself():
    """A number that is equal to the target isn't selected."""
    @around(Terminal, "limits")
    def limits(old, self):
        drawn = self.purchase["word"] % 99 + 1
        return old(self) & ~(0x10 if drawn == self.row["target"] else 0)


@planted("^risk-exception-file-has-it-without-risk-management$")
def the_exception_file():
    """The exception file is looked at in risk management alone."""
    @around(Terminal, "judge")
    def judge(old, self):
        yield from old(self)
        if not self.profile[0] & 0x08:
            self.results[0] &= ~0x10


@planted("^analysis-without-(online-at-type-22|default-at-type-23)$")
def absent_codes():
    """An absent online or default code has no bit."""
    around(Terminal, "meets")(lambda old, self, tag, absent, own: old(self, tag, bytes(5), own))


@planted("^analysis-terminal-(denial|online)-at-type-22$")
def the_terminals_codes():
    """The terminal's own action codes aren't looked at."""
    @around(Terminal, "meets")
    def meets(old, self, tag, absent, own):
        row, self.row = self.row, self.row | {own: bytes(5)}
        told = old(self, tag, absent, own)
        self.row = row
        return told


# Online.

@planted("^online-asked-ARQC-answered-TC$|^online-second-asked-AAC-answered-TC$")
def a_kind_above():
    """Any kind of cryptogram is taken."""
    terminal.RANK = type("Rank", (list,), {"index": lambda self, kind: 0})(terminal.RANK)


@planted("^online-code-(05|51)-")
def a_code_that_declines():
    """The second GENERATE AC asks for a TC whatever the reply's code is."""
    @around(Terminal, "generate")
    def generate(old, self, step, asked, tag):
        return (yield from old(self, step, TC if step == "second" and self.replied else asked, tag))


@planted("^online-request_lost-at-type-2[25]$")
def unable_to_go_online():
    """A terminal that is unable to go online always declines."""
    around(Terminal, "unable")(lambda old, self: AAC)


@planted("^online-authentication-not-by-the-profile$")
def authentication_by_the_profile():
    """EXTERNAL AUTHENTICATE is sent whatever the profile says."""
    @around(Terminal, "authenticate")
    def authenticate(old, self, data):
        own, self.profile = self.profile, bytes([self.profile[0] | 0x04, self.profile[1]])
        yield from old(self, data)
        self.profile = own


@planted("^online-authentication-answered-6300$")
def authentication_that_failed():
    """A failed issuer authentication sets no bit."""
    @around(Terminal, "authenticate")
    def authenticate(old, self, data):
        yield from old(self, data)
        self.results[4] &= ~0x40


@planted("^script-before-of-one-command$|^scripts-two-before$")
def scripts_before():
    """Scripts 71 are run behind the second GENERATE AC."""
    @around(Terminal, "run_scripts")
    def run_scripts(old, self, tag, templates, mark):
        if tag == 0x72:
            yield from old(self, 0x71, templates, 0x20)
            yield from old(self, tag, templates, mark)


@planted("^script-(before|after)-fails-at-command-[12]$")
def commands_behind_a_failure():
    """The commands behind one that failed are sent."""
    @around(Terminal, "run_commands")
    def run_commands(old, self, commands, is_last):
        failed = 0
        for number, said in enumerate(commands, 1):
            told, gone = yield from old(self, [said], is_last)
            failed = failed or (number if told else 0)
            if gone:
                return failed, True
        return failed, False


@planted("^list-second-behind-(a-script-that-fails|authentication-answered-6300)$")
def results_in_the_second_data():
    """The second GENERATE AC has the results of the first."""
    @around(Terminal, "generate")
    def generate(old, self, step, asked, tag):
        if step == "first":
            self.first_results = bytes(self.results)
            return (yield from old(self, step, asked, tag))
        now, self.results = self.results, bytearray(self.first_results)
        kind = yield from old(self, step, asked, tag)
        self.results = now
        return kind


# What the Books permit.

@permitted("^(select|directory)-.*")
def the_directory_first():
    """The directory is asked for, whatever the settings say."""
    around(Terminal, "__init__")(lambda old, self, settings, *more: old(self, settings | {"pse": True}, *more))


@permitted("^directory-(of|absent).*")
def the_directory_left_out():
    """The directory isn't asked for."""
    around(Terminal, "__init__")(lambda old, self, settings, *more: old(self, settings | {"pse": False}, *more))


@permitted("^select-(prio|behind|ties|name-by).*")
def names_in_another_order():
    """The names are asked for in another order."""
    around(Terminal, "__init__")(lambda old, self, settings, *more: old(self, settings | {"aid": settings["aid"][::-1]}, *more))


@permitted("^(select-[a-o]|cvm-pin-r|online-code).*")
def the_next_occurrence():
    """The next occurrence is asked for behind an exact name too."""
    @around(terminal, "list_of_candidates")
    def list_of_candidates(old, rows):
        found = yield from old(rows)
        if found and found[-1].name == found[-1].row["name"]:
            yield "select", selection.select(found[-1].name, "02")
        return found


def asked_before(step, method, *tags):
    """Counters are asked for before a step, and nothing comes of it."""
    @around(Terminal, method)
    def asks(old, self, *given):
        for tag in tags:
            yield step, command(f"80CA{tag}")
        return (yield from old(self, *given))


@permitted("^cvm-(pin|plain|two|four).*")
def the_tries_before_a_pin():
    """The number of PIN tries is asked for before cardholder verification."""
    asked_before("verify", "verify", "9F17")


@permitted("^cvm-pin-(right|without|wrong).*")
def no_pin_without_a_try():
    """A PIN isn't sent where the card tells that no try is left."""
    @around(Terminal, "perform")
    def perform(old, self, code, pins):
        if code not in (terminal.PLAIN_PIN, terminal.PLAIN_PIN_AND_SIGNATURE) or not self.supports(code) or not pins:
            return (yield from old(self, code, pins))
        left = yield "verify", command("80CA9F17")
        return (0x20, terminal.FAILED) if left == bytes.fromhex("9F1701009000") else (yield from old(self, code, pins))


@permitted("^risk-velocity.*")
def the_last_online_counter_first():
    """9F13 is asked for before 9F36."""
    kept = []

    @around(Terminal, "counter")
    def counter(old, self, tag):
        if tag == 0x9F36:
            for other in (0x9F13, 0x9F36):
                kept.append((yield from old(self, other)))
        return kept.pop()


@permitted("^risk-(velocity|floor).*")
def counters_once_more():
    """The counters are asked for once more before action analysis."""
    asked_before("risk", "generate_first", "9F36", "9F13")


@permitted("^risk-velocity-(9F36|9F13)-answered-6|^risk-velocity-neither-counter$")
def no_second_counter():
    """Behind a counter that isn't given the other one isn't asked for."""
    @around(Terminal, "counter")
    def counter(old, self, tag):
        if tag == 0x9F13 and self.lacks:
            return None
        told = yield from old(self, tag)
        self.lacks = told is None
        return told


@permitted("^(cvm-pin|risk-velocity|analysis-bit-3).*")
def the_cardholder_last():
    """Cardholder verification comes behind risk management."""
    first, last = Terminal.verify, Terminal.judge
    Terminal.verify, Terminal.judge = last, first


@permitted("^(read|online-code|cvm-pin-r).*")
def the_log():
    """The format of the transaction log, and objects that nobody needs, are asked for behind the records."""
    asked_before("risk", "judge", "9F4F", "9F7C", "5F50")


@permitted("^(read-[a-o]|online-code).*")
def records_of_the_log():
    """Records of a file outside the locator are read."""
    @around(Terminal, "verify")
    def verify(old, self):
        for number in (1, 2):
            yield "read", command(f"00B2{number:02X}5C")
        yield from old(self)


@permitted("^pdol-.*")
def an_amount_that_is_not_known_yet():
    """The amounts are zeros in the list of the processing options, and the unpredictable number is another."""
    @around(terminal, "chosen")
    def chosen(old, candidates, its, standing):
        return (yield from old(candidates, its, lambda: standing() | {0x9F02: bytes(6), 0x9F03: bytes(6), 0x9F37: b"\xaa" * 4}))


@permitted("^list-.*-that-only-some-terminals-have$")
def objects_of_its_own():
    """The terminal gives additional objects."""
    @around(objects, "filled")
    def filled(old, list_, card, its):
        own = (0x9F40, 0x9F1E, 0x9F15, 0x9F16, 0x9F41, 0x9F39)
        return b"".join(b"\x11" * one[1] if one[0] in own else old([one], card, its) for one in list_)
    selection.filled = objects.filled


@permitted("^online-(code|request_lost)-|^cvm-online-pin-|^scripts-")
def messages_of_its_own():
    """The terminal's messages to the host are of another form."""
    around(Terminal, "request")(lambda old, self: b"\xd7")


@permitted("^analysis-bit-2.*-in-card-denial$|^restrictions-several$")
def an_early_decline():
    """Where a denial code meets the processing restrictions the AAC is asked for at once."""
    @around(Terminal, "dialogue")
    def dialogue(old, self):
        yield from self.take_data()
        self.restrict()
        if not self.meets(0x9F0E, terminal.NO_BIT, "denial"):
            yield from self.verify()
            yield from self.judge()
        kind = yield from self.generate_first(self.wanted())
        return (yield from self.go_online()) if kind == ARQC else kind
