"""Whether a value is as a JSON schema says, for the words that docs/wasm-check.schema.json uses. A schema with another word is a mistake."""
import re

SAID = ("$schema", "$defs", "title", "description")
TYPES = {"object": dict, "array": list, "string": str, "integer": int}


def problems(schema, value, top=None, at="it"):
    """Each thing in which the value isn't as the schema says."""
    top = schema if top is None else top
    for word, said in schema.items():
        if word not in SAID:
            yield from WORDS[word](said, value, schema, top, at)


def is_as(schema, value, top):
    return not any(True for _ in problems(schema, value, top))


def of_type(said, value, schema, top, at):
    if not isinstance(value, TYPES[said]) or isinstance(value, bool):
        yield f"{at} is no {said}"


def of_one(said, value, schema, top, at):
    fitting = sum(is_as(it, value, top) for it in said)
    if fitting != 1:
        yield f"{at} is as {fitting} of the alternatives say"


def of_reference(said, value, schema, top, at):
    name = said.removeprefix("#/$defs/")
    yield from problems(top["$defs"][name], value, top, at)


def of_properties(said, value, schema, top, at):
    for name, it in said.items() if isinstance(value, dict) else ():
        if name in value:
            yield from problems(it, value[name], top, f"{at}.{name}")


def of_others(said, value, schema, top, at):
    if said is not False:
        raise ValueError("additionalProperties may only be false")
    for name in value if isinstance(value, dict) else ():
        if name not in schema["properties"]:
            yield f"{at} has the member {name}"


def of_required(said, value, schema, top, at):
    yield from (f"{at} has no {it}" for it in said if isinstance(value, dict) and it not in value)


def of_items(said, value, schema, top, at):
    for it in value if isinstance(value, list) else ():
        yield from problems(said, it, top, f"an item of {at}")


def simple(holds, words):
    """A word that says something of the value alone."""
    def check(said, value, schema, top, at):
        if not holds(said, value):
            yield f"{at} {words} {said}"
    return check


WORDS = {
    "type": of_type,
    "oneOf": of_one,
    "$ref": of_reference,
    "properties": of_properties,
    "additionalProperties": of_others,
    "required": of_required,
    "items": of_items,
    "const": simple(lambda said, value: type(said) is type(value) and said == value, "isn't"),
    "enum": simple(lambda said, value: value in said, "is none of"),
    "pattern": simple(lambda said, value: not isinstance(value, str) or re.search(said, value), "isn't like"),
    "minimum": simple(lambda said, value: not isinstance(value, int) or value >= said, "is less than"),
    "maximum": simple(lambda said, value: not isinstance(value, int) or value <= said, "is more than"),
    "minItems": simple(lambda said, value: not isinstance(value, list) or len(value) >= said, "has fewer items than"),
}
