"""The JSON Schema of a report: made of its dataclasses, and held against values.

    tests/host/report_schema.py     writes it anew
"""
import dataclasses
import json
import re
import typing
from collections.abc import Mapping

from made_up import TOP
from zirofen_host.judge.as_json import fields_of
from zirofen_host.judge.host_model import Absent, Filled, Matching
from zirofen_host.judge.model import VERSION, Report

FILE = f"{TOP}/host/zirofen_host/judge/report.schema.json"
TYPES = {str: "string", int: "integer", bool: "boolean", type(None): "null"}
PYTHON = {"string": str, "integer": int, "boolean": bool, "null": type(None), "array": list, "object": dict}


def schema_of(kind):
    """The schema of a dataclass, with those of all that is in it."""
    parts = {}
    add(kind, parts)
    (_, top), *others = parts.items()
    top["properties"]["version"]["const"] = VERSION
    return {"$schema": "https://json-schema.org/draft/2020-12/schema", "title": "A report of zirofen-host check --json", **top,
            "$defs": dict(sorted(others))}


def add(kind, parts):
    if kind.__name__ in parts:
        return
    parts[kind.__name__] = {}
    fields = fields_of(kind)
    told = {} if kind.__doc__.startswith(f"{kind.__name__}(") else {"description": kind.__doc__}
    parts[kind.__name__] = {
        **told, "type": "object", "properties": {name: of_hint(hint, parts) for name, hint, _ in fields},
        "required": [name for name, _, is_wanted in fields if is_wanted],
        "additionalProperties": False}


def of_hint(hint, parts):
    origin, within = typing.get_origin(hint), typing.get_args(hint)
    if origin is typing.Annotated:
        wanted = within[1]
        more = {"pattern": f"^{wanted.pattern}$"} if isinstance(wanted, Matching) else {"minItems": 1}
        assert isinstance(wanted, (Matching, Filled))
        return {**of_hint(within[0], parts), **more}
    if origin is typing.Union:
        found = [of_hint(each, parts) for each in within if each is not Absent]
        simple = [each["type"] for each in found if list(each) == ["type"]]
        return found[0] if len(found) == 1 else {"type": simple} if len(simple) == len(found) else {"anyOf": found}
    if origin is tuple:
        return {"type": "array", "items": of_hint(within[0], parts)}
    if origin is Mapping:
        return {"type": "object", "additionalProperties": of_hint(within[1], parts)}
    if dataclasses.is_dataclass(hint):
        add(hint, parts)
        return {"$ref": f"#/$defs/{hint.__name__}"}
    return {"type": TYPES[hint]}


def kept():
    with open(FILE, encoding="ascii") as opened:
        return json.load(opened)


def faults_of(value, schema=None, whole=None, place="report"):
    """The places where a value isn't as a schema says, by those of JSON Schema's keywords that this one has."""
    whole = whole or kept()
    schema = whole if schema is None else schema
    while "$ref" in schema:
        schema = whole["$defs"][schema["$ref"].rpartition("/")[2]]
    if "anyOf" in schema:
        return [] if any(not faults_of(value, each, whole, place) for each in schema["anyOf"]) else [place]
    types = schema["type"] if isinstance(schema["type"], list) else [schema["type"]]
    if (dict if isinstance(value, dict) else type(value)) not in [PYTHON[each] for each in types]:
        return [place]
    if value != schema.get("const", value):
        return [place]
    if isinstance(value, str):
        return [] if re.search(schema.get("pattern", ""), value) else [place]
    if isinstance(value, list):
        few = [place] if len(value) < schema.get("minItems", 0) else []
        return few + [fault for at, each in enumerate(value) for fault in faults_of(each, schema["items"], whole, f"{place}[{at}]")]
    if isinstance(value, dict):
        properties, others = schema.get("properties", {}), schema["additionalProperties"]
        faults = [f"{place}.{key}" for key in schema.get("required", ()) if key not in value]
        for key, each in value.items():
            of = properties.get(key, others)
            faults += faults_of(each, of, whole, f"{place}.{key}") if of else [f"{place}.{key}"]
        return faults
    return []


if __name__ == "__main__":
    with open(FILE, "w", encoding="ascii") as out:
        json.dump(schema_of(Report), out, indent=1)
        out.write("\n")
