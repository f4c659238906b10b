"""The definitions that public contracts cite, and the page that is made of the comments above them."""
import functools
import re
from typing import NamedTuple

from yollenka.programs import ROOT

SECTION = re.compile(r" ?\(((?:EMV|ISO|FIPS|Book \d|Annex|section)[^()]*|own|this project's own)\)")
OWN = ("own", "this project's own")
HIGHEST = ("emv_top", "txn_replay")

PUBLIC = re.compile(r"^(?:unfoldable |abbrev )?pub (?:record |data )?([\w◌]+)")
IMPORT = re.compile(r"ghost use Rattle\.(\w+)\.specs\.(\w+)(?:\.\{([^}]*)\})?(?: as (\w+))?;")
FUNCTION = re.compile(r"( *)(pub (?:const |ghost )*)?fn (\w+)")
OWNER = re.compile(r"(pub )?(impl|trait)\b(?:<[^{]*?>)? ?(?:.* for )?(\w+)")


class Place(NamedTuple):
    """Where a definition stands."""
    crate: str
    file: str
    name: str


class Definitions(NamedTuple):
    """A file of specs/: the comment at its head, those above its public definitions, and the files that it uses."""
    head: str
    comments: dict
    uses: list


def comment_above(lines, number):
    """The comment that ends above a line, as one line of text."""
    first = number
    while first and lines[first - 1].startswith("--"):
        first -= 1
    return " ".join(line[2:].strip() for line in lines[first:number])


def head_of(lines):
    """The first paragraph of the comment at the head of a file."""
    end = next((at for at, line in enumerate(lines) if not line.startswith("-- ")), len(lines))
    return comment_above(lines, end)


def read_file(text):
    """What a file of specs/ holds."""
    lines = text.split("\n")
    found = {match[1]: comment_above(lines, at) for at, line in enumerate(lines) if (match := PUBLIC.match(line))}
    return Definitions(head_of(lines), found, re.findall(r"^use Rattle\.(\w+)\.specs\.(\w+)", text, re.MULTILINE))


@functools.cache
def files():
    """Each file of specs/ by crate and name."""
    paths = sorted(ROOT.glob("crates/*/specs/*.antt"))
    return {(path.parts[-3], path.stem): read_file(path.read_text()) for path in paths if path.stem != "Lib"}


def offered(crate):
    """The modules of a crate that are public, and the names that it gives of all; a program gives what its main takes."""
    folder = ROOT / "crates" / crate / "src"
    library = (folder / "lib.rt").exists()
    text, word = (folder / ("lib.rt" if library else "main.rt")).read_text(), "pub use" if library else "use"
    modules = set(re.findall(r"^mod (\w+);", text, re.MULTILINE))
    public = set(re.findall(r"^pub mod (\w+);", text, re.MULTILINE))
    taken = re.findall(rf"^{word} (\w+)::([^;]*);", text, re.MULTILINE)
    return public, {name for module, names in taken if module in modules | public for name in re.findall(r"\w+", names)}


def contracts(lines):
    """The functions of a file: the type or trait that owns each, whether it is public, its name and its contract."""
    owner, trait = None, False
    for at, line in enumerate(lines):
        if found := OWNER.match(line):
            owner, trait = found[3], found[2] == "trait"
        elif line.startswith("}"):
            owner = None
        elif found := FUNCTION.match(line):
            ends = {found[1] + "{", found[1] + "}", *({"", "}"} if trait and owner else ())}
            end = next((there for there in range(at, len(lines)) if lines[there] in ends), len(lines))
            said = [part for part in lines[at:end] if not part.lstrip().startswith("//")]
            yield owner if found[1] else None, bool(found[2]) or trait, found[3], "\n".join(said)


def cited_by(text, known, wanted):
    """The definitions that the contracts of the functions that are wanted cite."""
    names, files_by_alias = {}, {}
    for crate, file, group, alias in IMPORT.findall(text):
        names |= {name: Place(crate, file, name) for name in re.findall(r"[\w◌]+", group)}
        files_by_alias |= {alias: (crate, file)} if alias else {}
    for owner, public, name, said in contracts(text.split("\n")):
        if public and wanted(owner, name):
            for alias, word in re.findall(r"(?:\b(\w+)\.)?\b(\w+)", said):
                place = Place(*files_by_alias[alias], word) if alias in files_by_alias else names.get(word)
                if place and place.name in known.get(place[:2], Definitions("", {}, [])).comments:
                    yield place


@functools.cache
def cited():
    """All definitions that the contracts of public functions cite."""
    known, found = files(), set()
    for crate in {crate for crate, _ in known}:
        modules, given = offered(crate)
        for path in (ROOT / "crates" / crate / "src").rglob("*.rt"):
            within = path.relative_to(ROOT / "crates" / crate / "src").parts
            if "tests" not in within and path.stem not in ("main", "tests"):
                whole = within[0].removesuffix(".rt") in {"lib", *modules}
                found |= set(cited_by(path.read_text(), known, lambda owner, name: whole or (owner or name) in given))
    return found


def cited_by_run():
    """The definitions that the contract of the top call cites."""
    text = (ROOT / "crates" / "emv_top" / "src" / "top.rt").read_text()
    return set(cited_by(text, files(), lambda owner, name: name == "run"))


def reached(known, places):
    """The files to which the `use` lines lead from those of these definitions."""
    todo, seen = [place[:2] for place in places], set()
    while todo:
        file = todo.pop()
        if file in known and file not in seen:
            seen.add(file)
            todo += known[file].uses
    return seen


def key_of(file, name=None):
    """What the table of the page calls a file, or a definition in it."""
    return f"{file[0]}/{file[1]}" + (f".{name}" if name else "")


def sentence_and_section(text):
    """A comment without the standard's sections that it names in parentheses, and these."""
    found = ["**own**" if part in OWN else part for part in SECTION.findall(text)]
    return SECTION.sub("", text), "; ".join(found)


def row(name, text):
    """A row of the page."""
    said, named = sentence_and_section(text)
    said = said.replace("|", r"\|")
    return f"| {name} | {said} | {named} |"


def rows_of(file, known, places, seen):
    """The row of a file and those of its definitions that contracts cite, in the file's order."""
    held = known[file]
    mark = " *run*" if file in seen else ""
    yield row(f"**{file[1]}.antt**{mark}", held.head)
    for name, comment in held.comments.items():
        if Place(*file, name) in places:
            yield row(f"`{name}`", comment)


def beginning(known, run, seen):
    """What the contract of the top call cites and reaches, in words."""
    names = ", ".join(f"`{place.name}`" for place in sorted(run, key=lambda place: place.name))
    left = [file for file in sorted(known) if file not in seen and file[0] in HIGHEST]
    yield "## What the contract of `run` reaches"
    yield f"It cites {names}."
    yield (f"The `use` lines lead from their files to {len(seen)} of the {len(known)} files, those with *run* behind their "
           "name. Of the two highest crates they don't lead to those that stand in the contracts of other calls and of laws: "
           f"{', '.join(f'{key_of(file)}.antt' for file in left)}.")


def page(known, crates):
    """What the page says behind its first lines."""
    places, run = cited(), cited_by_run()
    seen = reached(known, run)
    parts = list(beginning(known, run, seen))
    for crate in crates:
        rows = [line for file in known if file[0] == crate for line in rows_of(file, known, places, seen)]
        if rows:
            parts.append(f"## {crate}")
            parts.append("\n".join(("| Definition | What it says | Standard |", "|---|---|---|", *rows)))
    return "\n\n".join(parts) + "\n"


def silent(known):
    """The definitions that public contracts cite without a comment above them."""
    places = sorted(place for place in cited() if not known[place[:2]].comments[place.name])
    yield from (f"no comment above {key_of(place[:2], place.name)}" for place in places)
