"The schema of JSON, and what of a value it doesn't allow."
import json
import re

import places

SCHEMA = json.loads((places.TOP / "docs/listing.schema.json").read_text())


def violations(value, schema, where="$"):
    "what of a value the schema doesn't allow, for the words that docs/listing.schema.json uses"
    if "$ref" in schema:
        yield from violations(value, SCHEMA["$defs"][schema["$ref"].removeprefix("#/$defs/")], where)
    if "anyOf" in schema and all(any(True for _ in violations(value, one)) for one in schema["anyOf"]):
        yield f"{where} is none of what it may be"
    if "const" in schema and (value != schema["const"] or type(value) is not type(schema["const"])):
        yield f"{where} isn't {schema['const']!r}"
    if "enum" in schema and value not in schema["enum"]:
        yield f"{where} isn't one of {schema['enum']}"
    kinds = {"object": dict, "array": list, "string": str, "integer": int, "number": (int, float), "boolean": bool, "null": type(None)}
    kind = schema.get("type")
    if kind and (not isinstance(value, kinds[kind]) or isinstance(value, bool) and kind != "boolean"):
        yield f"{where} isn't of type {kind}"
        return
    if "pattern" in schema and not re.search(schema["pattern"], value):
        yield f"{where} isn't of the form {schema['pattern']}"
    if "minimum" in schema and value < schema["minimum"]:
        yield f"{where} is less than {schema['minimum']}"
    for count, item in enumerate(value if "items" in schema else ()):
        yield from violations(item, schema["items"], f"{where}[{count}]")
    properties = schema.get("properties", {})
    if isinstance(value, dict):
        yield from (f"{where} has no {key}" for key in schema.get("required", ()) if key not in value)
        for key, item in value.items():
            if key in properties:
                yield from violations(item, properties[key], f"{where}.{key}")
            elif schema.get("additionalProperties") is False:
                yield f"{where} has {key}"
