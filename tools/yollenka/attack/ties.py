"""Which place of the code belongs to a place of a definition: one of the same kind, and as far as can be seen with the same content,
in a function whose contract cites the definition."""
import re
from functools import cache

from yollenka.attack.places import COMPARISON, CONSTANT, code_places, definition_places
from yollenka.definitions import Definitions, IMPORT, Place, contracts, files
from yollenka.programs import ROOT

# What is the same comparison on both sides, but for the order of what is compared.
SENSE = {"nat_lt": "<", "<": "<", ">": "<", "nat_le": "<=", "≤": "<=", "<=": "<=", ">=": "<=", "≥": "<=", "==": "=", "!=": "=", "≡": "=",
         "≢": "=", "bytes_eq": "=", "nat_eq": "="}


def number_in(text):
    """The number that a constant is, or the text of one that is none."""
    plain = text.replace("_", "").lower()
    return int(plain, 0) if re.fullmatch(r"0x[0-9a-f]+|[1-9]\d*|0", plain) else text


def content(place):
    """What a place of the code has to have in common with that of a definition, beside the kind."""
    if place.kind == COMPARISON:
        return SENSE.get(place.text)
    return number_in(place.text) if place.kind == CONSTANT else None


def cited_in(text, known):
    """Each function of a file with the definitions that its contract cites."""
    names, aliases = {}, {}
    for crate, file, group, alias in IMPORT.findall(text):
        names |= {name: Place(crate, file, name) for name in re.findall(r"[\w◌]+", group)}
        aliases |= {alias: (crate, file)} if alias else {}
    for _, _, function, said in contracts(text.split("\n")):
        for alias, word in re.findall(r"(?:\b(\w+)\.)?\b(\w+)", said):
            place = Place(*aliases[alias], word) if alias in aliases else names.get(word)
            if place and place.name in known.get(place[:2], Definitions("", {}, [])).comments:
                yield function, place


@cache
def functions_by_definition():
    """The functions, each with its file, whose contracts cite a definition."""
    found = {}
    for path in sorted(ROOT.glob("crates/*/src/**/*.rt")):
        for function, place in cited_in(path.read_text(), files()):
            found.setdefault(place, set()).add((str(path.relative_to(ROOT)), function))
    return found


def ties():
    """Each place of a definition that has one, with its place in the code; no place of the code has two."""
    by_function, taken, found = {}, set(), {}
    for place in code_places():
        by_function.setdefault((place.path, place.owner), []).append(place)
    for place in definition_places():
        of = Place(place.crate, place.path.rpartition("/")[2].removesuffix(".antt"), place.owner)
        for function in sorted(functions_by_definition().get(of, ())):
            there = [one for one in by_function.get(function, ()) if one not in taken and one.kind == place.kind
                     and content(one) == content(place)]
            if there:
                found[place] = there[0]
                taken.add(there[0])
                break
    return found
