"""A value of JSON against a schema of those words of JSON Schema (2020-12) that docs/answers.schema.json uses. A word that is not among them is an error of
the schema, so that no word is passed over."""
import re

TYPES = {"object": dict, "array": list, "string": str, "integer": int}
# Words that say nothing of a value.
NOTES = {"$schema", "title", "description", "$defs"}


def type_errors(value, name, _schema, _root):
    if not isinstance(value, TYPES[name]) or isinstance(value, bool):
        yield f"{value!r} is no {name}"


def reference_errors(value, path, _schema, root):
    found = root
    for part in path.removeprefix("#/").split("/"):
        found = found[part]
    yield from errors(value, found, root)


def one_of_errors(value, choices, _schema, root):
    count = sum(not any(errors(value, it, root)) for it in choices)
    if count != 1:
        yield f"{value!r} is of {count} kinds"


def property_errors(value, fields, _schema, root):
    for name in value.keys() & fields.keys():
        yield from (f"{name}: {it}" for it in errors(value[name], fields[name], root))


def other_errors(value, _allowed, schema, _root):
    yield from (f"{it!r} is no field" for it in value.keys() - schema["properties"].keys())


def dependent_errors(value, needs, _schema, _root):
    yield from (f"{it} stands without {other}" for it in needs if it in value for other in needs[it] if other not in value)


def when(is_error, words):
    """A judgement of a value and what a word of the schema says."""
    return lambda value, said, _schema, _root: [f"{value!r}: {words} {said!r}"] if is_error(value, said) else []


WORDS = {
    "type": type_errors,
    "$ref": reference_errors,
    "oneOf": one_of_errors,
    "properties": property_errors,
    "additionalProperties": other_errors,
    "dependentRequired": dependent_errors,
    "items": lambda value, schema, _schema, root: (it for item in value for it in errors(item, schema, root)),
    "required": when(lambda value, names: not value.keys() >= set(names), "it lacks one of"),
    "const": when(lambda value, other: value != other, "it is not"),
    "enum": when(lambda value, choices: value not in choices, "it is none of"),
    "minimum": when(lambda value, least: value < least, "it is below"),
    "maximum": when(lambda value, most: value > most, "it is above"),
    "pattern": when(lambda value, pattern: not re.search(pattern, value), "it is not of the form"),
    "minItems": when(lambda value, least: len(value) < least, "it has fewer items than"),
    "maxItems": when(lambda value, most: len(value) > most, "it has more items than"),
}


def errors(value, schema, root=None):
    """Why a value does not keep to a schema; nothing if it does."""
    root = schema if root is None else root
    if "type" in schema and any(True for _ in type_errors(value, schema["type"], schema, root)):
        yield from type_errors(value, schema["type"], schema, root)
        return
    for word in schema.keys() - NOTES:
        yield from WORDS[word](value, schema[word], schema, root)
