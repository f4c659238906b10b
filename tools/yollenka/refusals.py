"""Where in a document the fault of a refusal stands, for people: the program's own line names the path alone."""
import json
import re
from difflib import get_close_matches

from yollenka.schema import homes, read_schema, resolved, table_at
from yollenka.spoilt import fault_of

LINE = re.compile(r"refused \d (\w+)(?: (.*))?\n", re.DOTALL)
SKIPPED = re.compile(r"(?:[ \t\r\n]+|#[^\n]*)*")
TEXT = re.compile(
    r'"""(?:[^\\]|\\.)*?"{3,5}' r"|'''.*?'{3,5}" r'|"(?:[^"\\\n]|\\.)*"' r"|'[^'\n]*'", re.DOTALL
)
BARE = re.compile(r"[A-Za-z0-9_-]+")
PLAIN = re.compile(r"[^,\]}\n#]*")
# Forms of texts as the schema has them, and in words.
FORMS = [
    (re.compile(r"\^\[0-9\]\{(.+)\}\$"), "{} digits in quotes"),
    (re.compile(r"\^(?:\(\?!.*?\))?\(\[0-9A-Fa-f\]\{2\}\)\{(.+)\}\$"), "{} bytes in hexadecimal, in quotes"),
    (re.compile(r"\^\[A-Za-z0-9\]\{(.+)\}\$"), "{} letters or digits"),
    (re.compile(r"\^\[a-z0-9\]\{(.+)\}\$"), "{} small letters or digits"),
    (re.compile(r"\^\[ -~\]\{(.+)\}\$"), "{} printable characters"),
    (re.compile(r"\^\[0-9\]\{2\}\(0\[1-9\].*"), "six digits in quotes, YYMMDD"),
]
# What a trace has not.
LEFT_OUT = ("dialect", "durable", "link", "tear", "terminal_tear")
NOTHING_FOUND = "a whole number may be outside 64 bits, or tables, arrays or a key nested too deep"


def as_text(path):
    """A path as the program writes it."""
    return "".join(f"[{step}]" if isinstance(step, int) else f".{step}" for step in path).lstrip(".")


class Scanner:
    """Finds where tables, keys and elements of a TOML document stand. It judges nothing: the program has done so."""

    def __init__(self, text):
        self.text, self.at = text, 0
        # where each path begins, and how many elements the arrays of tables have so far
        self.places, self.counts = {(): 0}, {}

    def skip(self):
        """Goes on behind blanks and comments."""
        self.at = SKIPPED.match(self.text, self.at).end()

    def take(self, mark):
        """Goes on behind this mark, where it stands here."""
        self.skip()
        found = self.text.startswith(mark, self.at)
        self.at += len(mark) if found else 0
        return found

    def word(self, pattern):
        """Goes on behind what the pattern finds here, and gives it."""
        found = pattern.match(self.text, self.at)
        self.at = found.end() if found else len(self.text)
        return found[0] if found else ""

    def name(self):
        """A key with all its parts: each with where it begins."""
        parts = []
        while not parts or self.take("."):
            self.skip()
            quoted = self.text[self.at : self.at + 1] in ('"', "'")
            begin = self.at
            part = self.word(TEXT)[1:-1] if quoted else self.word(BARE)
            parts.append((part, begin))
        return parts

    def note(self, path, place):
        """Keeps where a path begins, the first time."""
        self.places.setdefault(path, place)

    def pair(self, table):
        """A key and its value within a table."""
        path = table
        for part, place in self.name():
            path = (*path, part)
            self.note(path, place)
        self.take("=")
        self.value(path)

    def value(self, path):
        """A value: its elements, or the pairs of a table in it."""
        self.skip()
        if self.take("["):
            number = 0
            while not self.take("]") and self.at < len(self.text):
                self.note((*path, number), self.at)
                self.value((*path, number))
                self.take(",")
                number += 1
        elif self.take("{"):
            while not self.take("}") and self.at < len(self.text):
                self.pair(path)
                self.take(",")
        else:
            self.word(TEXT if self.text[self.at : self.at + 1] in ('"', "'") else PLAIN)

    def header(self):
        """The header of a table, of one in an array of tables where it has two brackets; gives the table's path."""
        inner = self.take("[[")
        if not inner:
            self.take("[")
        path, parts = (), self.name()
        for number, (part, place) in enumerate(parts):
            path = (*path, part)
            self.note(path, place)
            if inner and number == len(parts) - 1:
                self.counts[path] = self.counts.get(path, 0) + 1
            if path in self.counts:
                path = (*path, self.counts[path] - 1)
                self.note(path, place)
        self.take("]]" if inner else "]")
        return path

    def scan(self):
        """Where each path of the document begins."""
        table = ()
        self.skip()
        while self.at < len(self.text):
            if self.text.startswith("[", self.at):
                table = self.header()
            else:
                self.pair(table)
            self.skip()
        return self.places


def line_and_column(text, place):
    """Line and column of a place, both from 1."""
    return f"line {text.count(chr(10), 0, place) + 1}, column {place - text.rfind(chr(10), 0, place)}"


def syntax_hint(text):
    """Where and why the document is no TOML, by Python's own reader of TOML 1.0; None without one."""
    try:
        import tomllib
    except ImportError:
        return None
    try:
        tomllib.loads(text)
    except tomllib.TOMLDecodeError as error:
        cause, _, place = str(error).rstrip(")").rpartition(" (at ")
        return f"{line_and_column(text, len(text)) if place == 'end of document' else place}: {cause}"
    except RecursionError:
        pass
    return NOTHING_FOUND


def near(name, known):
    """The known name that this one may be meant for."""
    found = get_close_matches(name, known, 1)
    return f": did you mean {found[0]}?" if found else ""


def keys_below(places, table):
    """The keys that a table has in the document."""
    return [path[-1] for path in places if path and path[:-1] == table and isinstance(path[-1], str)]


def missing_at_top(text, places, key):
    """Where a key of the document itself is missing: it may be another kind of document, or the key may stand in a table."""
    if key == "pin_key" and ("card",) in places:
        return "the document is a scenario, which `replay` and `read` run"
    if key == "issuer" and ("trace",) in places:
        return "the document is a trace, which `check` looks at"
    row = keys_at((), ("trace",) in places).get(key, {})
    return misplaced(text, places, key, ()) or f"the document has no {key}{values_of(row, key)}"


def misplaced(text, places, key, table):
    """Where a key stands that belongs in another table; None where it stands in none."""
    is_trace = ("trace",) in places
    for path, place in places.items():
        if path and path[-1] == key and key not in keys_at(path[:-1], is_trace):
            return f"{line_and_column(text, place)}: {key} stands there: {belongs(table)}"
    return None


def named(path):
    """A path's keys, without the numbers of elements."""
    return tuple(step for step in path if isinstance(step, str))


def belongs(table):
    """Where a key belongs, by the path of its table."""
    if not table:
        return "it belongs before the first table"
    name = ".".join(named(table))
    return f"it belongs in [[{name}]]" if isinstance(table[-1], int) else f"it belongs in [{name}]"


def missing_hint(text, places, table, key, known):
    """Where a key is missing: at another one that may be meant for it, or else at its table."""
    unknown = [name for name in keys_below(places, table) if name not in known]
    found = get_close_matches(key, unknown, 1)
    if found:
        return f"{line_and_column(text, places[(*table, found[0])])}: {found[0]} stands there: did you mean {key}?"
    if not table:
        return missing_at_top(text, places, key)
    return misplaced(text, places, key, table) or (
        f"{line_and_column(text, places[table])}: {as_text(table)} begins there, and has no {key}"
        f"{values_of(known.get(key, {}), '.'.join((*named(table), key)))}")


def names_of_cards(text):
    """The cards of a document that is TOML; none where Python's reader, of TOML 1.0, doesn't know what stands there."""
    try:
        import tomllib
    except ImportError:
        return []
    try:
        return [card["name"] for card in tomllib.loads(text)["card"]]
    except tomllib.TOMLDecodeError:
        return []


def name_hint(text, place):
    """The card that may be meant by the name that stands at this key."""
    value = text[place:].split("=", 1)[1].strip().split("\n")[0]
    return near(value.split("#")[0].strip("\"', }"), names_of_cards(text))


def keys_at(table, is_trace):
    """The keys that a table of the document may have, by the schema; the lane of a trace is a scenario's."""
    schema = read_schema()
    if is_trace and not table:
        return schema["$defs"]["trace"]["properties"]
    place = ("lane", 0, *table[1:]) if is_trace else table
    return (table_at(place, schema) or {}).get("properties", {})


def form_of(row, name):
    """The values that a key may have by its row of the schema, in words; None where they are told by no few words."""
    if "enum" in row:
        return f"one of {', '.join(map(json.dumps, row['enum']))}"
    if "minimum" in row and "maximum" in row:
        return f"a whole number from {row['minimum']} to {row['maximum']}"
    if row.get("type") == "boolean":
        return "true or false"
    if row.get("type") == "array" and "$ref" in row["items"]:
        inner = resolved(row["items"]["$ref"], read_schema())
        return f"a table [[{name}]] for each" if inner.get("type") == "object" else "an array"
    if row.get("type") == "object":
        return f"a table [{name}]"
    for pattern, words in FORMS:
        if found := pattern.fullmatch(row.get("pattern", "")):
            return words.format(*(count.replace(",", " to ") for count in found.groups()))
    return None


def values_of(row, name):
    """The values that a key may have, in brackets."""
    form = form_of(resolved(row["$ref"], read_schema()) if "$ref" in row else row, name)
    return f" ({form})" if form else ""


def text_at(text, place, is_element):
    """The text in quotes that stands at a key or as an element; None where something else does."""
    begin = place if is_element else text.find("=", place) + 1
    found = TEXT.match(text, SKIPPED.match(text, begin).end())
    return found[0].strip("\"'") if found else None


def spoilt(text, place, row, name, is_element):
    """What is wrong with a text, behind its form; an empty text where there is nothing to say."""
    value = text_at(text, place, is_element)
    fault = None if value is None else fault_of(row.get("pattern", ""), name, value)
    return f": {fault}" if fault else ""


def element_hint(text, path, place, is_trace):
    """Where an element of an array stands, which values it may have, and what is wrong with it."""
    name = path[-2]
    row = keys_at(path[:-2], is_trace).get(name, {})
    inner = row.get("items", {})
    inner = resolved(inner["$ref"], read_schema()) if "$ref" in inner else inner
    form, meant = form_of(inner, name), row.get("description")
    return (f"{line_and_column(text, place)}: {as_text(path)} stands there" + (f": {meant}" if meant else "")
            + (f" ({form})" if form else "") + spoilt(text, place, inner, name, True))


def unknown_hint(said, name, table, keys):
    """What may be meant by a key that its table doesn't have: one like it, or another table's."""
    close = near(name, keys)
    known = [] if close else homes(name, read_schema())
    return said + (f": {belongs(known[0])}" if len(known) == 1 and named(known[0]) != table else close)


def key_hint(text, fault, path, place, is_trace):
    """Where a key or an element stands, and what may be meant in its place."""
    if isinstance(path[-1], int) and isinstance(path[-2], str):
        return element_hint(text, path, place, is_trace)
    name = path[-1] if isinstance(path[-1], str) else as_text(path)
    keys = keys_at(path[:-1], is_trace)
    said = f"{line_and_column(text, place)}: {name} stands there"
    if fault == "UnknownKey" and path[:-1] and name in keys_at((), is_trace):
        return f"{said}: it belongs before the first table"
    if fault == "UnknownKey":
        return unknown_hint(said, name, named(path[:-1]), keys)
    if is_trace and name in LEFT_OUT and fault == "BadValue":
        return f"{said}: a trace has none"
    if is_trace and path == ("lane", "purchase"):
        return f"{said}: a trace has one purchase"
    if fault == "UnknownName" and name == "card":
        return said + name_hint(text, place)
    row = keys.get(name, {})
    meant, inner = row.get("description"), resolved(row["$ref"], read_schema()) if "$ref" in row else row
    return said + (f": {meant}" if meant else "") + values_of(row, ".".join(named(path))) + spoilt(text, place, inner, name, False)


def default_hint(text, places, table, key):
    """The table of a key that is absent and whose value without it is refused."""
    if not table:
        return None
    return f"{line_and_column(text, places[table])}: {as_text(table)} begins there, and has no {key}: the value without it isn't allowed"


def path_hint(text, fault, path):
    """Where the key of a refused path stands, and what may be meant in its place; None where it can't be found."""
    places = Scanner(text).scan()
    by_text = {as_text(one): one for one in places}
    is_trace = ("trace",) in places
    if fault == "MissingKey":
        outer, _, key = path.rpartition(".")
        table = by_text.get(outer)
        return None if table is None else missing_hint(text, places, table, key, keys_at(table, is_trace))
    found = by_text.get(path)
    if found:
        return key_hint(text, fault, found, places[found], is_trace)
    outer, _, key = path.rpartition(".")
    return default_hint(text, places, by_text.get(outer), key)


def hint(document, answer):
    """One line for people on a refused document (bytes), from the program's answer; None where there is none."""
    found = LINE.fullmatch(answer.decode(errors="replace"))
    if found is None:
        return None
    fault, path = found[1], found[2]
    try:
        text = document.decode("utf-8-sig")
    except UnicodeDecodeError as error:
        line = document.count(b"\n", 0, error.start) + 1
        return f"line {line}: byte {document[error.start]:02x} is no UTF-8"
    if fault == "Toml":
        return syntax_hint(text)
    if path == "file":
        return "the document has more bytes than a scenario may have"
    return path_hint(text, fault, path)
