"""Whether a value keeps a JSON Schema: the words of draft 2020-12 that docs/use/scenario.schema.json uses, and no other."""
import json
import re
from pathlib import Path

SCHEMA = Path(__file__).resolve().parents[2] / "docs" / "use" / "scenario.schema.json"
TYPES = {"object": dict, "array": list, "string": str, "boolean": bool}
NOTES = {"$schema", "$id", "$defs", "title", "description", "default"}


def read_schema(path=SCHEMA):
    """The schema in this file."""
    return json.loads(Path(path).read_text())


def is_type(value, name):
    """A document is TOML, which tells 25.00 from 25: the first is no integer, and neither are true and false."""
    if name == "integer":
        return isinstance(value, int) and not isinstance(value, bool)
    return isinstance(value, TYPES[name])


def is_same(one, other):
    """Equality of JSON values: true is not 1."""
    return type(one) is type(other) and one == other


def matches(pattern, text):
    """ECMA's `$` stands for the end alone, where Python's also stands before a last newline."""
    return re.search(re.sub(r"\$$", r"\\Z", pattern), text) is not None


def resolved(schema, root):
    """The schema that a reference within the document names."""
    for name in schema.removeprefix("#/").split("/"):
        root = root[name]
    return root


def table_faults(schema, value, place, root):
    """Faults of a table's keys, and of what stands at them."""
    known = schema.get("properties", {})
    for key in schema.get("required", []):
        if key not in value:
            yield place, f"{key} is missing"
    for key, inner in value.items():
        if key in known:
            yield from faults(known[key], inner, (*place, key), root)
        elif schema.get("additionalProperties") is False:
            yield (*place, key), "an unknown key"


def array_faults(schema, value, place, root):
    """Faults of an array's number of elements, and of its elements."""
    if not schema.get("minItems", 0) <= len(value) <= schema.get("maxItems", len(value)):
        yield place, f"{len(value)} elements"
    for number, inner in enumerate(value):
        yield from faults(schema.get("items", True), inner, (*place, number), root)


def text_faults(schema, value, place):
    """Faults of a text."""
    if "pattern" in schema and not matches(schema["pattern"], value):
        yield place, f"{value!r} is not of the form {schema['pattern']}"
    if len(value) > schema.get("maxLength", len(value)):
        yield place, f"{len(value)} characters"


def number_faults(schema, value, place):
    """Faults of a number."""
    if not schema.get("minimum", value) <= value <= schema.get("maximum", value):
        yield place, f"{value} is not from {schema.get('minimum', '..')} to {schema.get('maximum', '..')}"


def listed_faults(schema, value, place):
    """Faults against a type, and against the values that are listed."""
    if "type" in schema and not is_type(value, schema["type"]):
        yield place, f"no {schema['type']}"
    listed = schema.get("enum", [schema["const"]] if "const" in schema else None)
    if listed is not None and not any(is_same(value, one) for one in listed):
        yield place, f"{value!r} is none of {', '.join(map(str, listed))}"


def joined_faults(schema, value, place, root):
    """Faults against schemas that are put together."""
    for inner in schema.get("allOf", []):
        yield from faults(inner, value, place, root)
    if "oneOf" in schema:
        count = sum(is_valid(inner, value, root) for inner in schema["oneOf"])
        if count != 1:
            yield place, f"{count} of the {len(schema['oneOf'])} forms that exclude one another"
    if "not" in schema and is_valid(schema["not"], value, root):
        yield place, "an excluded form"
    if "if" in schema:
        word = "then" if is_valid(schema["if"], value, root) else "else"
        yield from faults(schema.get(word, True), value, place, root)


WORDS = NOTES | {
    "$ref", "type", "enum", "const", "properties", "required", "additionalProperties", "items", "minItems", "maxItems",
    "pattern", "maxLength", "minimum", "maximum", "allOf", "oneOf", "not", "if", "then", "else",
}


def faults(schema, value, place=(), root=None):
    """Each fault of the value, with its place: keys, and numbers of elements, from the outside in."""
    if isinstance(schema, bool):
        if not schema:
            yield place, "it may not stand here"
        return
    if not WORDS >= schema.keys():
        raise ValueError(f"words that this reader doesn't know: {schema.keys() - WORDS}")
    root = schema if root is None else root
    if "$ref" in schema:
        yield from faults(resolved(schema["$ref"], root), value, place, root)
    yield from listed_faults(schema, value, place)
    if isinstance(value, dict):
        yield from table_faults(schema, value, place, root)
    elif isinstance(value, list):
        yield from array_faults(schema, value, place, root)
    elif isinstance(value, str):
        yield from text_faults(schema, value, place)
    elif isinstance(value, (int, float)) and not isinstance(value, bool):
        yield from number_faults(schema, value, place)
    yield from joined_faults(schema, value, place, root)


def is_valid(schema, value, root=None):
    """Whether the value keeps the schema."""
    return next(faults(schema, value, (), root), None) is None


def tables(schema, root):
    """Each table of a schema with its name, without those that have none."""
    yield "document", schema
    yield from ((name, inner) for name, inner in root["$defs"].items() if inner.get("type") == "object")


def table_at(place, root):
    """The table of the schema to which a place in a document leads, with its keys; None where it leads to none."""
    schema = root
    for step in place:
        schema = schema.get("items") if isinstance(step, int) else schema.get("properties", {}).get(step)
        if schema is None or isinstance(schema, bool):
            return None
        if "$ref" in schema:
            schema = {**resolved(schema["$ref"], root), **{key: schema[key] for key in schema if key != "$ref"}}
    return schema


def homes(key, root, schema=None, path=()):
    """The tables of a scenario that may have this key, by their paths; of arrays the first element."""
    schema = root if schema is None else schema
    found = [path] if key in schema.get("properties", {}) else []
    for name, inner in schema.get("properties", {}).items():
        below = (*path, name, 0) if "items" in inner else (*path, name)
        inner = inner.get("items", inner)
        if isinstance(inner, dict) and "$ref" in inner:
            found += homes(key, root, resolved(inner["$ref"], root), below)
    return found
