"""The lines of `--json` against docs/output.schema.json: as much of JSON Schema as that file uses, without a library."""
import json
import re

import kit

with open(f"{kit.ROOT}/docs/output.schema.json", encoding="utf-8") as it:
    SCHEMA = json.load(it)
TYPES = {"object": dict, "array": list, "string": str, "boolean": bool, "null": type(None), "integer": int}
KNOWN = set("$schema $defs $ref title description type anyOf const enum required properties items minItems maxItems minimum maximum pattern".split())


def is_of(kind, value):
    return isinstance(value, TYPES[kind]) and not (kind == "integer" and isinstance(value, bool))


def fits(schema, value):
    """Whether a value is one of a schema. An object has no members that the schema doesn't name: those are of a later version."""
    assert set(schema) <= KNOWN, set(schema) - KNOWN
    if "$ref" in schema:
        return fits(SCHEMA["$defs"][schema["$ref"].rpartition("/")[2]], value)
    if "anyOf" in schema and not any(fits(it, value) for it in schema["anyOf"]):
        return False
    if "type" in schema and not is_of(schema["type"], value):
        return False
    if "const" in schema and (value != schema["const"] or isinstance(value, bool)):
        return False
    if "enum" in schema and value not in schema["enum"]:
        return False
    if isinstance(value, dict):
        return has_members(schema, value)
    if isinstance(value, list):
        return has_items(schema, value)
    if isinstance(value, str):
        return "pattern" not in schema or re.search(schema["pattern"], value) is not None
    if isinstance(value, int) and not isinstance(value, bool):
        return schema.get("minimum", value) <= value <= schema.get("maximum", value)
    return True


def has_members(schema, value):
    if "properties" not in schema:
        return True
    known = schema["properties"]
    return set(schema.get("required", ())) <= set(value) <= set(known) and all(fits(known[name], it) for name, it in value.items())


def has_items(schema, value):
    if not schema.get("minItems", 0) <= len(value) <= schema.get("maxItems", len(value)):
        return False
    return all(fits(schema.get("items", {}), it) for it in value)


def is_line(value):
    """Whether a value is an object that a line of `--json` has."""
    return fits(SCHEMA, value)
