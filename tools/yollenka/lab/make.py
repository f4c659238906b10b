"""`lab make`: cases in words, made into scenarios."""
from yollenka.faults import Fault
from yollenka.lab.cases import cases_in
from yollenka.lab.live import with_answers
from yollenka.refusals import near
from yollenka.scenarios import pair, toml

WIDTH = 130

TEXT = """Makes the scenarios of cases that stand in words (docs/use/cases.md).

Without NAME the names of the cases are printed, a line each; with NAME the scenario of this case, as TOML. It is one that
`emvrun replay` takes: where the case puts answers in place of the card's, the card is one of canned answers. With --card
the card's table alone is printed."""


def arguments(parser):
    """The command's words."""
    parser.add_argument("cases", metavar="CASES.toml", help="a table of cases, or a folder of them")
    parser.add_argument("name", metavar="NAME", nargs="?", help="the case whose scenario is printed")
    parser.add_argument("--card", action="store_true", help="the [[card]] table alone")


def is_tables(value):
    """Whether a value is a table, or an array of tables."""
    return isinstance(value, dict) or isinstance(value, list) and bool(value) and all(isinstance(one, dict) for one in value)


def line_of(key, value):
    """A key with its value; a long array has a line for each element."""
    line = pair(key, value)
    if not isinstance(value, list) or len(line) <= WIDTH:
        return line
    rows = "".join(f"    {toml(one)},\n" for one in value)
    return f"{line[: line.index('[') + 1]}\n{rows}]"


def written(table, path=()):
    """The lines of a table as TOML: its own keys, then its tables, each with a head."""
    inner = {key: its for key, its in table.items() if is_tables(its)}
    yield from (line_of(key, its) for key, its in table.items() if key not in inner)
    for key, its in inner.items():
        head = ".".join((*path, key))
        for one in its if isinstance(its, list) else [its]:
            yield ""
            yield f"[[{head}]]" if isinstance(its, list) else f"[{head}]"
            yield from written(one, (*path, key))


def text_of(table):
    """A scenario, or a part of one, as a TOML document."""
    return "\n".join(written(table)).strip("\n") + "\n"


def run(options):
    """Prints the names, or one scenario."""
    cases = cases_in(options.cases)
    if options.name is None:
        print("\n".join(case.name for case in cases))
        return 0
    found = next((case for case in cases if case.name == options.name), None)
    if found is None:
        raise Fault(f"{options.cases} has no case '{options.name}'{near(options.name, [case.name for case in cases])}")
    scenario = with_answers(found)
    print(text_of({"card": scenario["card"]} if options.card else scenario), end="")
    return 0
