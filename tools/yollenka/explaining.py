"""What the launcher `explain` says of itself, and what it hands on of a scenario's terminals and cards."""
import re

TEXT = """\
explain [-q] [--brief] [--ends] [--why] [--books] [--lane N] [--purchase N] [FILE.toml]: a report with words below each line.

Lines that are pasted are told too: entries of a trace without their lane (`> 80ae..`, `host < ..`), bytes in capitals or with
blanks between, a data object (`95 8040000000`). They come out as they stand in a report. A trace's document is compared
first, by `emvrun check`; what has to stand in place of the entry that differs is told below it.

With a scenario the report is made first, by `emvrun replay`, and the terminals' action codes and the cards' limits and the
accounts are handed on, so that the words name them. Without one the report comes on standard input: ./explain < NAME.report. What is left out:

--brief        the words of data objects, fields and bits: what is left is names, statuses, reasons, changes and endings
--ends         all lines but those that power a card up, end a purchase, give a balance, and the last one
--lane N       the lines of other lanes, from 0
--purchase N   of each lane the lines of other purchases, from 1

What is told besides:

--why          behind each purchase why it came out as it did, a line a party: what the terminal asked for and by which bits
               and codes, what the card answered and by which of its tests, with count, sum and limit, and on what the issuer's code
               rests; and behind the last line what is left of the limits of each card, as far as it was followed
--books        behind each command, status, bit, code, cause and reason that is told where it stands: the rule of
               docs/proof/profile.md by its short name, and the section of the Books or of another standard

-q, first of all words, silences this launcher; --build proves and builds the program. Wrong words, a file that can't be read,
and a lane or a purchase that isn't there end with status 2 and a line on standard error.
"""
FLAGS = ("--brief", "--ends", "--why", "--books")
# The least and the greatest number behind a word, and what it counts.
NUMBERED = {"--lane": (0, 15, "lane"), "--purchase": (1, 2**32 - 1, "purchase")}
HANDED_ON = ("--terminal", "--card", "--account")
REPORT = re.compile(rb"(L\d+|S\d+|A [a-z0-9]+|balance|refused|generated|check|read) \S")
TERMINAL = re.compile(r"(\d|1[0-5]),2[1-6],([0-9A-F]{2}){5,16},[01](,[0-9A-F]{10}){3}")
ACCOUNT = re.compile(r"\d{8,19}F?,\d{1,12},[01],0\d{3}")
CARD = re.compile(r"[a-z0-9]{1,16},[0-3],([0-9A-F]{2}){5,16},\d{1,3},\d{1,12},0\d{3},\d{1,12},(-|0\d{3})")


def rows_of(lanes):
    """What is handed on of each application that a terminal knows."""
    codes = ("denial", "online", "default")
    for number, lane in enumerate(lanes):
        for aid in lane["aid"]:
            yield (number, lane["kind"], aid["name"].upper(), int(aid.get("partial", False)),
                   *(aid[code].upper() for code in codes))


def app_rows(cards):
    """What is handed on of each application of a card."""
    for card in cards:
        for place, app in enumerate(card.get("app", [])):
            second = f"0{app['currency_two']}" if "currency_two" in app else "-"
            yield (card["name"], place, app["name"].upper(), app["count_limit"], app["sum_limit"], f"0{app['currency']}",
                   app.get("limit_two", 0), second)


def account_rows(accounts):
    """What is handed on of each account; its number as object 5A has it."""
    for account in accounts:
        pan = account["pan"] + "F" * (len(account["pan"]) % 2)
        yield pan, account["balance"], int(account.get("blocked", False)), f"0{account['currency']}"


def texts(rows, form):
    """Rows as texts of this form; none where one isn't."""
    try:
        found = [",".join(map(str, row)) for row in rows]
    except (AttributeError, KeyError, TypeError, ValueError):
        return []
    return found if all(map(form.fullmatch, found)) else []


def words_handed_on(text):
    """The words that hand on what is known of terminals, cards and accounts, in their order; none of a document that is refused."""
    try:
        import tomllib
        document = tomllib.loads(text.decode("utf-8-sig"))
    except (ImportError, ValueError):
        return []
    lanes = document.get("lane", [])
    terminals = texts(rows_of([lanes] if isinstance(lanes, dict) else lanes), TERMINAL)
    known = (("--terminal", terminals), ("--card", texts(app_rows(document.get("card", [])), CARD)),
             ("--account", texts(account_rows(document.get("account", [])), ACCOUNT)))
    return [part for word, found in known for one in found for part in (word, one)]


def number_fault(word, text):
    """What is wrong with the number behind a word; None where nothing is."""
    least, most, name = NUMBERED[word]
    if text is None:
        return f"the number of a {name} stands behind {word}"
    if text.isascii() and text.isdecimal() and least <= int(text) <= most:
        return None
    return f"{word} {text}: {name}s count from {least}" + (f" to {most}" if name == "lane" else "")


def files_among(words):
    """The words that name files: all that are no options and don't stand behind one that takes a value."""
    return [word for at, word in enumerate(words)
            if not word.startswith("-") and (at == 0 or words[at - 1] not in (*NUMBERED, *HANDED_ON))]


def words_fault(words):
    """What is wrong with the words of a command line; None where nothing is."""
    options = [word for word in words if word.startswith("-")]
    for word in options:
        if word not in (*FLAGS, *NUMBERED, *HANDED_ON):
            return f"{word} is no word of explain: ./explain --help has them"
        if word not in HANDED_ON and options.count(word) > 1:
            return f"{word} stands more than once"
    for word in NUMBERED:
        if word in words:
            fault = number_fault(word, (words[words.index(word) + 1 :] or [None])[0])
            if fault:
                return fault
    return "more than one scenario" if len(files_among(words)) > 1 else None


def is_report(text):
    """Whether this is a report, and no document."""
    return REPORT.match(text) is not None


def is_trace(text):
    """Whether this is the document of a trace."""
    try:
        import tomllib
        return "trace" in tomllib.loads(text.decode("utf-8-sig"))
    except (ImportError, ValueError, RecursionError):
        return False


def asked_of(words):
    """The lane and the purchase that are asked for, each a number or None."""
    return [int(words[words.index(word) + 1]) if word in words else None for word in NUMBERED]


def counts_of_report(text):
    """How many purchases each lane of a report has; one that is cut off in a purchase has that one too."""
    counts = {}
    for lane, number in re.findall(rb"^L(\d+) (?:end (\d+) )?", text, re.MULTILINE):
        ended, _ = counts.get(int(lane), (0, 0))
        counts[int(lane)] = (int(number), 0) if number else (ended, 1)
    return {lane: sum(pair) for lane, pair in counts.items()}


def counts_of(text):
    """How many purchases each lane of a document or a report has; none of a document that is refused."""
    if is_report(text):
        return counts_of_report(text)
    try:
        import tomllib
        return dict(enumerate(len(lane["purchase"]) for lane in tomllib.loads(text.decode("utf-8-sig"))["lane"]))
    except (ImportError, ValueError, KeyError, TypeError):
        return {}


def missing(words, text):
    """What of the lane and the purchase that are asked for isn't in a document or a report; None where both are."""
    (lane, number), counts = asked_of(words), counts_of(text)
    if counts and lane is not None and lane not in counts:
        return f"there is no lane {lane}: lanes count from 0, and the last one is {max(counts)}"
    counts = counts if lane is None else {lane: counts.get(lane, 0)}
    if any(counts.values()) and number is not None and number > max(counts.values()):
        return f"there is no purchase {number}: purchases count from 1, and the last one is {max(counts.values())}"
    return None
